"""The picture of a single line diagram: busbars above, below them what they lead to, level by
level, earthing switches to the right, lines and cables at the end."""
import html
from collections.abc import Mapping
from dataclasses import dataclass, field

from baytools.common.positions import POSITIONS
from baytools.panel.boxes import LETTER, query

from .network import BUSBAR, EARTH, EARTHING, JUNCTION, TRANSFORMER, Network, Node, Switch
from .svg_parts import dot, earth, line, text
from .symbols import REACH, STYLE, blade, ending, windings

TOP, BUS, APART = 40, 34, 112  # above the first busbar, between two, between two levels
LEFT, RIGHT, BRANCH = 46, 150, 250  # room beside a node, and of an earthing switch
FITS = 560  # how narrow a picture of a page may be shown
HIGH, WIDE, LYING = 56, 150, 200  # of the box of a switch, which covers no other: one that lies
STACK, TAIL = 56, 82  # between two earthing switches of a node, and below the last level
ROUND = 25  # from the middle of a transformer to its wires
OTHER_BAY = 'another bay'
WORDS = {True: '✓', False: '✕', None: '?'}  # of a release: given, not given, or it depends


def release_words(ways: tuple | None) -> str:
    """What is released of a switch, as words beside its symbol."""
    return '' if ways is None else f'open {WORDS[ways[0]]} close {WORDS[ways[1]]}'


@dataclass
class Places:
    """Where the nodes are: of each the level below the busbars and the column, and over which
    switch it is reached. Busbars of the top have neither."""
    network: Network
    tops: list[str] = field(default_factory=list)
    level: dict[str, int] = field(default_factory=dict)
    column: dict[str, int] = field(default_factory=dict)
    parent: dict[str, tuple[str, Switch]] = field(default_factory=dict)
    x: list[float] = field(default_factory=list)

    def __post_init__(self) -> None:
        self.tops = self.top_busbars()
        self.find_levels()
        self.find_columns()
        self.find_places()

    def conducting(self, name: str) -> list[Switch]:
        return [it for it in self.network.at[name] if it.kind != EARTHING]

    def top_busbars(self) -> list[str]:
        """The first busbar, and those that it reaches without a transformer."""
        net = self.network
        first = next((it.name for it in net.nodes.values() if it.kind == BUSBAR), None)
        seen, waiting = set(), [first] if first else []
        while waiting:
            name = waiting.pop()
            if name not in seen and net.kind(name) != TRANSFORMER:
                seen.add(name)
                waiting += [it.other(name) for it in self.conducting(name)]
        return [name for name in net.nodes if name in seen and net.kind(name) == BUSBAR]

    def is_inner(self, name: str) -> bool:
        """Whether the picture goes on behind a node."""
        kind = self.network.kind(name)
        return kind == JUNCTION or kind == TRANSFORMER and len(self.conducting(name)) > 1

    def is_through(self, name: str) -> bool:
        """Whether a node is a transformer with switches at both sides."""
        return self.network.kind(name) == TRANSFORMER and self.is_inner(name)

    def find_levels(self) -> None:
        """Inner nodes by their distance from the busbars, and then what stands at their ends."""
        ordered = [name for name in self.network.nodes if name not in self.tops
                   and self.network.kind(name) != EARTH]
        while len(self.level) < len(ordered):
            if not self.spread(ordered, True) and not self.spread(ordered, False):
                rest = next(name for name in ordered if name not in self.level)
                self.level[rest] = 1

    def spread(self, ordered: list[str], is_inner: bool) -> bool:
        """Places what is next to what is placed: all inner nodes of the next level, or all ends."""
        found = {}
        for name in ordered:
            if name in self.level or self.is_inner(name) != is_inner:
                continue
            placed = [(self.level.get(it.other(name), 0), it) for it in self.conducting(name)
                      if it.other(name) in self.level or it.other(name) in self.tops]
            if placed:
                levels = [level for level, _ in placed]
                best = min(levels) if is_inner else max(levels)
                found[name] = next(it for it in placed if it[0] == best)
        if is_inner and found:
            least = min(level for level, _ in found.values())
            found = {name: it for name, it in found.items() if it[0] == least}
        for name, (level, switch) in found.items():
            self.level[name] = level + (2 if self.is_through(name) else 1)
            if switch.other(name) not in self.tops:
                self.parent[name] = switch.other(name), switch
        return bool(found)

    def find_columns(self) -> None:
        """A node stands above the first that it leads to; each other has a column of its own."""
        children: dict[str, list[str]] = {}
        for name, (above, _) in self.parent.items():
            children.setdefault(above, []).append(name)
        count = 0
        waiting = [(name, None) for name in reversed(self.level) if name not in self.parent]
        while waiting:
            name, column = waiting.pop()
            if column is None:
                column, count = count, count + 1
            self.column[name] = column
            first, *others = children.get(name, []) or [None]
            waiting += [(it, None) for it in reversed(others)]
            waiting += [(first, column)] if first else []

    def drops(self, name: str) -> list[tuple[str, Switch]]:
        """The switches between a node and busbars of the top, each with its busbar."""
        return [(it.other(name), it) for it in self.conducting(name) if it.other(name) in self.tops]

    def own_columns(self) -> list[Switch]:
        """What has a column of its own: switches between two busbars, and those that earth one."""
        return [it for it in self.network.switches if any(name in self.tops for name in it.nodes)
                and all(name in self.tops or self.network.kind(name) == EARTH
                        for name in it.nodes)]

    def find_places(self) -> None:
        """Where columns are, by the room that each needs."""
        lefts = [LEFT] * (max(self.column.values(), default=-1) + 1)
        rights = [RIGHT] * len(lefts)
        for name, column in self.column.items():
            extra = len(self.drops(name)) - (name not in self.parent)
            lefts[column] = max(lefts[column], LEFT + RIGHT * extra)
            if any(it.kind == EARTHING for it in self.network.at[name]):
                rights[column] = BRANCH
        for switch in self.own_columns():
            lefts.append(LEFT)
            rights.append(BRANCH if switch.kind == EARTHING else RIGHT + 120)
        end = 0.0
        for left, right in zip(lefts, rights):
            self.x.append(end + left)
            end += left + right
        self.width = max(end, 300)

    def y(self, name: str) -> float:
        """How far down a node is."""
        if name in self.tops:
            return TOP + BUS * self.tops.index(name)
        return TOP + BUS * max(len(self.tops) - 1, 0) + APART * self.level[name]

    def at(self, name: str) -> tuple[float, float]:
        return self.x[self.column[name]], self.y(name)

    def height(self) -> float:
        levels = max([*self.level.values(), 1 if self.own_columns() else 0])
        most = max([sum(it.kind == EARTHING for it in self.network.at[name])
                    for name in self.network.nodes if self.network.kind(name) != EARTH])
        return (TOP + BUS * max(len(self.tops) - 1, 0) + APART * levels + TAIL
                + STACK * max(most - 1, 0))


class Drawing:
    """A picture of a network. `positions` are words by the name of a switch, and `releases` whether
    it may be opened and closed, where that is known. One that is live has neither: what shows it
    sets the classes and words of each group."""

    def __init__(self, network: Network, positions: Mapping[str, str], releases: Mapping,
                 is_live: bool) -> None:
        self.network, self.places = network, Places(network)
        self.positions, self.releases, self.is_live = positions, releases, is_live
        self.parts: list[str] = []

    def page(self, heading: str) -> str:
        """The picture as SVG."""
        self.busbars()
        for name in self.places.level:
            self.node(self.network.nodes[name])
        drawn = {it for _, it in self.places.parent.values()}
        for switch in self.network.switches:
            ends = [name for name in switch.nodes if name in self.places.level]
            if switch.kind != EARTHING and len(ends) == 2 and switch not in drawn:
                self.across(switch)
        for at, switch in enumerate(self.places.own_columns(), len(self.places.x) - len(
                self.places.own_columns())):
            self.own_column(switch, self.places.x[at])
        width, height = self.places.width, self.places.height()
        style = '' if self.is_live else f'<style>{STYLE}</style>'
        role = 'group' if self.is_live else 'img'
        return (f'<svg xmlns="http://www.w3.org/2000/svg" class="diagram{self.wide()}" '
                f'viewBox="0 0 {width:.0f} {height:.0f}" width="{width:.0f}" '
                f'height="{height:.0f}" role="{role}" aria-label="{html.escape(heading)}">{style}'
                + '\n'.join(self.parts) + '</svg>\n')

    def wide(self) -> str:
        return ' wide' if self.is_live and self.places.width > FITS else ''

    # ---- nodes

    def busbars(self) -> None:
        for name in self.places.tops:
            y, right = self.places.y(name), self.places.width - 14
            self.parts += [line(14, y, right, y, 'busbar'),
                           text(right, y - 8, self.named(self.network.nodes[name]), 'note', 'end')]

    @staticmethod
    def named(node: Node) -> str:
        """What is written beside a terminal."""
        more = [node.system] * bool(node.system) + ['source'] * node.is_source
        return node.name + (f' ({", ".join(more)})' if more else '')

    def node(self, node: Node) -> None:
        """A node with what leads to it from above, its earthing switches, and its end."""
        x, y = self.places.at(node.name)
        above = self.places.parent.get(node.name)
        if above:
            from_x, from_y = self.places.at(above[0])
            if from_x != x:
                self.parts += [line(from_x, from_y, x, from_y), dot(from_x, from_y)]
            begin = from_y + ROUND if self.places.is_through(above[0]) else from_y
            self.upright(above[1], x, begin, from_y + APART)
        if self.places.is_through(node.name):
            self.parts.append(line(x, y - APART, x, y - ROUND))
        drops = self.places.drops(node.name)
        for at, (busbar, switch) in enumerate(drops, bool(above)):
            self.drop(busbar, switch, x - RIGHT * at, x, y)
        if len(drops) + bool(above) > 1:
            self.parts.append(dot(x, y))
        earthings = [it for it in self.network.at[node.name] if it.kind == EARTHING]
        first = -APART if self.places.is_through(node.name) else 0
        for at, switch in enumerate(earthings):
            at_y = y + first + STACK * at
            self.parts += [line(x, at_y - STACK, x, at_y)] if at else []
            self.branch(switch, x, at_y)
        self.end(node, x, y if first else y + STACK * max(len(earthings) - 1, 0))

    def end(self, node: Node, x: float, y: float) -> None:
        if self.places.is_inner(node.name):
            if node.kind == TRANSFORMER:
                self.parts += [windings(x, y), text(x + 24, y + 4, self.named(node), 'note')]
            return
        self.parts.append(line(x - 60, y, x + 60, y, 'busbar') if node.kind == BUSBAR
                          else ending(node, x, y))
        self.parts.append(text(x + 22, y + 44, self.named(node), 'note'))

    # ---- switches

    def upright(self, switch: Switch, x: float, top: float, bottom: float) -> None:
        """A switch between two places of a column."""
        middle = (top + bottom) / 2
        self.parts += [line(x, top, x, middle - REACH), line(x, middle + REACH, x, bottom),
                       self.symbol(switch, x, middle)]

    def drop(self, busbar: str, switch: Switch, x: float, to_x: float, y: float) -> None:
        """A switch between a busbar and a node below it."""
        bar = self.places.y(busbar)
        middle = y - APART / 2
        self.parts += [dot(x, bar, 6), line(x, bar, x, middle - REACH),
                       line(x, middle + REACH, x, y), self.symbol(switch, x, middle)]
        self.parts += [line(x, y, to_x, y)] if x != to_x else []

    def branch(self, switch: Switch, x: float, y: float) -> None:
        """An earthing switch to the right of a node."""
        self.parts += [dot(x, y), line(x, y, x + 32, y), line(x + 70, y, x + 82, y),
                       earth(x + 82, y), self.symbol(switch, x + 51, y, 54)]

    def across(self, switch: Switch) -> None:
        """A switch between two nodes of which neither is above the other."""
        one, other = sorted(self.places.at(name) for name in switch.nodes)
        y = max(one[1], other[1])
        is_straight = one[1] == other[1] and not any(
            one[0] < self.places.at(name)[0] < other[0] or self.places.at(name) == one and any(
                it.kind == EARTHING for it in self.network.at[name])
            for name in self.places.level)
        if not is_straight:
            y += APART / 2
            self.parts += [line(at[0] + side, at[1], at[0] + side, y) + line(
                at[0], at[1], at[0] + side, at[1]) for at, side in ((one, 22), (other, -22))]
            one, other = (one[0] + 22, y), (other[0] - 22, y)
        middle = (one[0] + other[0]) / 2
        self.parts += [line(one[0], y, middle - REACH, y), line(middle + REACH, y, other[0], y),
                       self.symbol(switch, middle, y, -18, 50)]

    def own_column(self, switch: Switch, x: float) -> None:
        """A switch between two busbars, or one that earths a busbar."""
        first = next(name for name in switch.nodes if name in self.places.tops)
        foot = TOP + BUS * (len(self.places.tops) - 1) + APART
        bar = self.places.y(first)
        self.parts.append(dot(x, bar, 6))
        if switch.kind == EARTHING:
            self.parts.append(line(x, bar, x, foot))
            self.branch(switch, x, foot)
            return
        second, to_x = self.places.y(switch.other(first)), x + RIGHT
        self.parts += [line(x, bar, x, foot - APART / 2 - REACH), dot(to_x, second, 6),
                       line(x, foot - APART / 2 + REACH, x, foot), line(x, foot, to_x, foot),
                       line(to_x, foot, to_x, second),
                       self.symbol(switch, x, foot - APART / 2)]

    def symbol(self, switch: Switch, x: float, y: float, words: float = 30,
               below: float = 0) -> str:
        """A switch at a place, with its words; those that lie have them behind or below."""
        name = html.escape(switch.name, quote=True)
        turn = '' if words == 30 else ' rotate(90)'
        left, width = (x - 24, WIDE) if not turn else (x - 38, 76 if below else LYING)
        is_shown = self.is_live and switch.is_own
        state = 'unknown' if self.is_live else self.positions.get(switch.name, 'unknown')
        kind = 'switch' if switch.is_own else 'other'
        acts = (f' data-switch="{name}" role="button" tabindex="0" aria-label="{name}"'
                if is_shown else '')
        told = state if state in POSITIONS else 'not known'
        drawn = blade(switch) + (query(bool(turn)) if self.is_live else '')
        frees = release_words(self.releases.get(switch.name))
        if self.is_live and not switch.is_own:
            frees = OTHER_BAY
        beside = LETTER * len(switch.name) + 8
        lines = [(switch.name, 'id', 0, 0), (told, 'told', 0, 17), (frees, 'frees', 0, 34),
                 ('', 'more', beside, 0)]
        return (f'<g class="{kind} {state}"{acts}><rect class="hit" x="{left:.0f}" '
                f'y="{y - HIGH / 2:.0f}" width="{width}" height="{HIGH}" rx="8"/>'
                f'<g transform="translate({x:.0f} {y:.0f}){turn}">{drawn}</g>'
                + ''.join(text(round(x + words + right), round(y - 12 + below + down), word, its)
                          for word, its, right, down in lines) + '</g>')


def usual_positions(network: Network) -> dict[str, str]:
    """All switches open."""
    return dict.fromkeys((it.name for it in network.switches), 'open')


def in_service(network: Network) -> dict[str, str]:
    """Breakers and disconnectors closed, earthing switches open."""
    return {it.name: 'open' if it.kind == EARTHING else 'closed' for it in network.switches}


def draw(network: Network, heading: str, positions: Mapping[str, str] | None = None,
         releases: Mapping | None = None, is_live: bool = False) -> str:
    """The diagram as SVG. A live one is for a page that sets its positions."""
    found = usual_positions(network) if positions is None else positions
    return Drawing(network, found, releases or {}, is_live).page(heading)
