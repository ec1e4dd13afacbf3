"""What an operation in a network would do, looked at without any walk formula: for each way in
which the positions that are not known can be, the network is joined switch by switch."""
from baytools.diagram.network import BREAKER, DISCONNECTOR, EARTHING
from diagram_hazards import CLOSE, Diagram, Known, numbers


class Truth:
    """What operations do while the positions are just these. `closed` are branches as bits."""

    def __init__(self, diagram: Diagram) -> None:
        self.diagram, self.memo, self.codes = diagram, {}, {}

    def parts(self, closed: int, stops: int = 0) -> list[int]:
        """For each node those to which closed branches join it; nothing is joined through a node
        that stops."""
        closed &= self.diagram.walked
        if (closed, stops) not in self.memo:
            self.memo[closed, stops] = [self.part(closed, stops, node)
                                        for node in range(len(self.diagram.nodes))]
        return self.memo[closed, stops]

    def part(self, closed: int, stops: int, start: int) -> int:
        found, waiting = 1 << start, [start]
        while waiting:
            node = waiting.pop()
            if node != start and stops >> node & 1:
                continue
            for branch in numbers(closed & self.diagram.at[node]):
                for end in self.diagram.ends[branch]:
                    if not found >> end & 1:
                        found |= 1 << end
                        waiting.append(end)
        return found

    def has_current(self, closed: int, branch: int, live: int) -> bool:
        """Whether a current flows through a disconnector that is closed: a live source feeds one of
        its sides, and no other path joins them but one over a transformer."""
        one, other = self.diagram.ends[branch]
        closed &= ~(1 << branch)
        whole, near = self.parts(closed), self.parts(closed, self.diagram.transformers)
        if near[one] >> other & 1:
            return False
        return bool(near[one] & self.diagram.terminals and near[other] & self.diagram.terminals
                    and (whole[one] | whole[other]) & live)

    def judge_operation(self, closed: int, switch: int, way: int) -> tuple[bool, set[int]]:
        """Whether an operation is a hazard by itself, and the disconnectors that would make or
        break a current by it if they were on their way."""
        it, branch = self.diagram, self.diagram.branches[switch]
        closed &= ~(1 << switch)
        live = it.sources & ~it.earthed_nodes(switch, closed)
        earthed = it.earthed_nodes(switch, closed)
        if branch.kind == EARTHING:
            return way == CLOSE and self.earths(closed, switch), set()
        arcs = {at for at, other in enumerate(it.branches) if other.kind == DISCONNECTOR
                and at != switch and self.makes_arc(closed, switch, way, at, live)}
        is_hazard = way == CLOSE and self.shorts(closed, switch, live, earthed)
        if branch.kind != BREAKER:
            is_hazard = is_hazard or self.has_current(closed, switch, live) or self.shorts(
                closed, switch, live, earthed, gapless=False)
        return is_hazard, arcs

    def shorts(self, closed: int, switch: int, live: int, earthed: int, gapless: bool = True
               ) -> bool:
        """Whether the switch alone parts a live source and an earth; an open breaker is no gap."""
        it = self.diagram
        over = (~it.isolating | closed) & ~(1 << switch) if gapless else closed
        parts, (one, other) = self.parts(over), it.ends[switch]
        return not parts[one] >> other & 1 and any(
            parts[a] & live and parts[b] & earthed for a, b in ((one, other), (other, one)))

    def earths(self, closed: int, switch: int) -> bool:
        """Whether a source that a gap can part from an earthing switch is not parted from it."""
        it, node = self.diagram, self.diagram.earthed_node(switch)
        inseparable = self.parts(~it.isolating)[node]
        return bool(self.parts(~it.isolating | closed)[node] & it.sources & ~inseparable)

    def makes_arc(self, closed: int, switch: int, way: int, moving: int, live: int) -> bool:
        """Whether a current begins or is left in a disconnector by the operation."""
        rest = closed & ~(1 << moving)
        before, after = (rest, rest | 1 << switch) if way == CLOSE else (rest | 1 << switch, rest)
        return self.has_current(after, moving, live) and not self.has_current(before, moving, live)

    def code_of(self, switch: int, way: int, closed: int, unknown: int) -> int:
        """What happens in some way in which unknown positions can be: a bit for a hazard by itself,
        and above it one for each disconnector that would make or break a current."""
        key = switch, way, closed, unknown
        if key not in self.codes:
            if unknown:
                one = unknown & -unknown
                self.codes[key] = (self.code_of(switch, way, closed, unknown ^ one)
                                   | self.code_of(switch, way, closed | one, unknown ^ one))
            else:
                by_itself, arcs = self.judge_operation(closed, switch, way)
                self.codes[key] = by_itself | sum(2 << at for at in arcs)
        return self.codes[key]

    def is_hazard(self, known: Known, switch: int, way: int) -> bool:
        """Whether an operation would be a hazard in some way in which the unknown positions can
        be."""
        code = self.code_of(switch, way, known.sure & ~(1 << switch), known.moves & ~(1 << switch))
        if code & 1 or code >> 1 & known.moves:
            return True
        return self.diagram.branches[switch].kind == EARTHING and way == CLOSE and (
            self.is_fed(known, switch))

    def is_fed(self, known: Known, switch: int) -> bool:
        """Whether a source that no gap can part from an earthing switch is not known to be dead."""
        it = self.diagram
        return bool(self.parts(~it.isolating)[it.earthed_node(switch)] & it.sources & known.alive)
