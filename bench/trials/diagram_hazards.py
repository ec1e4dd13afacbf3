"""The hazards of an operation in a single line diagram, by walks: each is a formula of few atoms,
each of which asks whether a walk over some branches leads from one node to another. It is written
from the table of docs/AUDIT.md ('What a hazard is'), and knows nothing of bayctl.

What is known of a state are numbers with a bit for each branch, and one with a bit for each
node."""
from collections.abc import Iterator, Mapping
from dataclasses import dataclass

from baytools.bay.rules import INPUT, SWITCH
from baytools.common.texts import upcase
from baytools.diagram.network import (BREAKER, DISCONNECTOR, EARTH, EARTHING, TERMINALS,
                                      TRANSFORMER, Network, Switch)

OPEN, CLOSE = 0, 1
UNKNOWN, IS_OPEN, IS_CLOSED = 0, 1, 2  # what is known of the position of a branch


@dataclass(frozen=True)
class Known:
    """What is known of a state: the branches that may be closed, those that surely are, those that
    may be on their way; the sources that may be live; and the breakers that a synchrocheck surely
    lets close between two live parts."""
    may: int
    sure: int
    moves: int
    alive: int
    agreed: int = 0


def position_of(switch: Switch, values: Mapping) -> int:
    """What is known of a switch: of one of the bay by its position, of one of another bay by the
    input that alone is TRUE."""
    if switch.is_own:
        value = values[SWITCH, upcase(switch.name)]
        return value if value in (IS_OPEN, IS_CLOSED) else UNKNOWN
    told = [position for position, name in ((IS_CLOSED, switch.closed), (IS_OPEN, switch.opened))
            if name and values[INPUT, upcase(name)]]
    return told[0] if len(told) == 1 else UNKNOWN


def known_by(positions: tuple[int, ...], alive: int, agreed: int = 0) -> Known:
    """What is known, by the position of each branch."""
    bits = [sum(1 << at for at, it in enumerate(positions) if it == position)
            for position in (UNKNOWN, IS_OPEN, IS_CLOSED)]
    return Known(bits[UNKNOWN] | bits[IS_CLOSED], bits[IS_CLOSED], bits[UNKNOWN], alive,
                 agreed)


def numbers(bits: int) -> Iterator[int]:
    """The places of the bits of a number."""
    while bits:
        low = bits & -bits
        yield low.bit_length() - 1
        bits ^= low


class Diagram:
    """A network in numbers: nodes and branches have those of their places."""

    def __init__(self, network: Network) -> None:
        self.network, self.branches = network, network.switches
        self.nodes = list(network.nodes.values())
        place = {it.name: at for at, it in enumerate(self.nodes)}
        self.ends = [(place[it.nodes[0]], place[it.nodes[1]]) for it in self.branches]
        self.at = [sum(1 << at for at, ends in enumerate(self.ends) if node in ends)
                   for node in range(len(self.nodes))]
        self.terminals = self.of(lambda it: it.kind in TERMINALS)
        self.transformers = self.of(lambda it: it.kind == TRANSFORMER)
        self.sources = self.of(lambda it: it.is_source)
        self.walked = sum(1 << at for at, it in enumerate(self.branches) if it.kind != EARTHING)
        self.isolating = sum(1 << at for at, it in enumerate(self.branches) if it.isolates)
        self.reach: dict[tuple[int, int], int] = {}

    def of(self, test) -> int:
        """The nodes that pass a test."""
        return sum(1 << at for at, it in enumerate(self.nodes) if test(it))

    def known(self, values: Mapping) -> Known:
        """What the values of a state show."""
        alive = sum(1 << at for at, it in enumerate(self.nodes) if it.is_source
                    and not (it.dead and values[INPUT, upcase(it.dead)]))
        agreed = sum(1 << at for at, it in enumerate(self.branches)
                     if it.synchro and values[INPUT, upcase(it.synchro)])
        return known_by(tuple(position_of(it, values) for it in self.branches), alive, agreed)

    # ---- walks

    def touching(self, nodes: int) -> int:
        """The branches that lead to some nodes."""
        found = 0
        for node in numbers(nodes):
            found |= self.at[node]
        return found

    def nodes_reached(self, over: int, start: int, avoided: int = 0) -> int:
        """The nodes to which walks over some branches lead, none of which leads to a node that is
        avoided. No walk leads over an earthing switch."""
        over &= self.walked & ~self.touching(avoided)
        key = over, start
        if key not in self.reach:
            found, waiting = 1 << start, [start]
            while waiting:
                node = waiting.pop()
                for branch in numbers(over & self.at[node]):
                    one, other = self.ends[branch]
                    end = other if one == node else one
                    if not found >> end & 1:
                        found |= 1 << end
                        waiting.append(end)
            self.reach[key] = found
        return self.reach[key]

    def is_joined(self, over: int, one: int, other: int, avoided: int = 0) -> bool:
        """Whether a walk leads from one node to the other."""
        return bool(self.nodes_reached(over, one, avoided) >> other & 1)

    def has_beside(self, known: Known, switch: int, branch: int) -> bool:
        """Whether a path beside a branch, without a switch, is surely closed, and goes through no
        transformer but those at its ends."""
        one, other = self.ends[branch]
        over = known.sure & ~(1 << switch | 1 << branch)
        return self.is_joined(over, one, other, self.transformers & ~(1 << one | 1 << other))

    def spans(self, over: int, branch: int, first: int, second: int) -> bool:
        """Whether walks lead from one end of a branch to one of the first nodes, and from its other
        end to one of the second, neither by way of the end of the other."""
        one, other = self.ends[branch]
        return any(self.nodes_reached(over, a, 1 << b) & first
                   and self.nodes_reached(over, b, 1 << a) & second
                   for a, b in ((one, other), (other, one)))

    # ---- earths

    def earthed_node(self, branch: int) -> int:
        """The node that an earthing switch earths."""
        return next(it for it in self.ends[branch] if self.nodes[it].kind != EARTH)

    def earthed_nodes(self, switch: int, closed: int) -> int:
        """The nodes that earthing switches other than one earth, if these branches are closed."""
        return sum({1 << self.earthed_node(at) for at, it in enumerate(self.branches)
                    if it.kind == EARTHING and at != switch and closed >> at & 1})

    # ---- hazards

    def hazards(self, switch: int, way: int, known: Known) -> str:
        """The letters of the hazards of an operation of a branch."""
        kind = self.branches[switch].kind
        live = self.sources & ~self.earthed_nodes(switch, known.sure)
        if kind == EARTHING:
            letter, is_so = ('E', self.earths) if way == CLOSE else ('L', self.unearths)
            return letter * is_so(switch, known)
        earthed = self.earthed_nodes(switch, known.may)
        gapless = (~self.isolating | known.may) & ~(1 << switch)
        found = ''
        if way == CLOSE and self.spans(gapless, switch, live, earthed):
            found += 'J'
        if kind == DISCONNECTOR and self.breaks(switch, known, live, earthed):
            found += 'C'
        moving = [at for at in numbers(known.moves) if at != switch
                  and self.branches[at].kind == DISCONNECTOR
                  and not self.has_beside(known, switch, at)
                  and not self.has_beside(known, at, switch)]
        act, letter = (self.makes, 'A') if way == CLOSE else (self.leaves, 'B')
        found += letter * any(act(switch, at, known, live) for at in moving)
        if kind == BREAKER:
            asked, letter = (self.joins, 'Y') if way == CLOSE else (self.uncouples, 'T')
            found += letter * asked(switch, known)
        return found

    # ---- hazards that count only if a key of the diagram asks for them

    def live_sources(self, switch: int, known: Known) -> int:
        """The live sources that are not known to be dead."""
        return self.sources & ~self.earthed_nodes(switch, known.sure) & known.alive

    def joins(self, switch: int, known: Known) -> bool:
        """Y: a breaker joins two live parts that are not surely joined, and no synchrocheck surely
        lets it."""
        sources, branch = self.live_sources(switch, known), self.branches[switch]
        return bool((self.network.live_parts or branch.synchro) and not known.agreed >> switch & 1
                    and self.spans(known.may & ~(1 << switch), switch, sources, sources)
                    and not self.has_beside(known, switch, switch))

    def uncouples(self, switch: int, known: Known) -> bool:
        """T: a coupler opens while disconnectors alone may join its two sides."""
        disconnectors = sum(1 << at for at, it in enumerate(self.branches)
                            if it.kind == DISCONNECTOR)
        return self.branches[switch].is_coupler and self.is_joined(
            known.may & disconnectors & ~(1 << switch), *self.ends[switch])

    def unearths(self, switch: int, known: Known) -> bool:
        """L: an earthing switch opens while a source may feed it that a gap could part from it."""
        node = self.earthed_node(switch)
        return self.network.fed_earths and bool(
            self.nodes_reached(known.may & ~(1 << switch), node) & self.live_sources(switch, known)
            & ~self.nodes_reached(~self.isolating, node))

    def earths(self, switch: int, known: Known) -> bool:
        """E: a source lies beyond no isolating gap, and is not known to be dead; that it is dead
        counts only where no gap can part it."""
        node = self.earthed_node(switch)
        inseparable = self.nodes_reached(~self.isolating, node) & self.sources
        gapless = self.nodes_reached(~self.isolating | known.may, node) & self.sources
        return bool(gapless & ~(inseparable & ~known.alive))

    def breaks(self, switch: int, known: Known, live: int, earthed: int) -> bool:
        """C: a current can flow through the disconnector, and no closed path lies beside it."""
        over = known.may & ~(1 << switch)
        return (self.spans(over, switch, live, self.terminals | earthed)
                and not self.has_beside(known, switch, switch))

    def makes(self, switch: int, moving: int, known: Known, live: int) -> bool:
        """A: the switch closes a path of a current through a disconnector that is on its way."""
        over = known.may & ~(1 << switch | 1 << moving)
        return any(self.makes_from(over, a, b, x, y, live)
                   for a, b in (self.ends[switch], self.ends[switch][::-1])
                   for x, y in (self.ends[moving], self.ends[moving][::-1]))

    def makes_from(self, over: int, a: int, b: int, x: int, y: int, live: int) -> bool:
        """The path is  p .. b - s - a .. x - d - y .. q. A transformer may be passed where both
        walks lead to it, since what joins there are its own windings."""
        if a == y or b in (x, y):
            return False
        loads = self.terminals & ~self.sources
        through = [(self.terminals, live, self.terminals), (self.terminals, self.terminals, live),
                   (self.sources, live, loads)]
        near, far = 1 << a | 1 << x, ~self.transformers
        return any(not near & between
                   and self.is_joined(over, a, x, between | 1 << b | 1 << y)
                   and self.nodes_reached(over, b, near | 1 << y & far) & first
                   and self.nodes_reached(over, y, near | 1 << b & far) & last
                   for between, first, last in through)

    def leaves(self, switch: int, moving: int, known: Known, live: int) -> bool:
        """B: the switch lies on a path beside a disconnector that is on its way, and a current can
        flow through that."""
        over = known.may & ~(1 << switch | 1 << moving)
        return (any(self.lies_beside(over, moving, a, b)
                    for a, b in (self.ends[switch], self.ends[switch][::-1]))
                and self.spans(over, moving, live, self.terminals))

    def lies_beside(self, over: int, moving: int, a: int, b: int) -> bool:
        """Whether a path  x .. a - s - b .. y  leads beside d, and through no transformer but x
        and y."""
        x, y = self.ends[moving]
        if a == y or b == x:
            return False
        if any(node != end and self.transformers >> node & 1 for node, end in ((a, x), (b, y))):
            return False
        return (self.is_joined(over, x, a, self.transformers & ~(1 << x | 1 << a) | 1 << b | 1 << y)
                and self.is_joined(over, b, y, self.transformers & ~(1 << b | 1 << y)
                                   | 1 << a | 1 << x))
