"""A single line diagram as a graph: nodes, and the switches between them. What a rule asks of a
switch is asked so that a position that is not known counts as the worse of both: a switch is apart
only where it is known to be open, and joins only where it is known to be closed."""
from collections.abc import Iterator
from dataclasses import dataclass, field

from baytools.common.ending import FOUND, Failed

BREAKER, DISCONNECTOR, EARTHING = KINDS = ('breaker', 'disconnector', 'earthing')
BUSBAR, LINE, CABLE, TRANSFORMER, EARTH, JUNCTION = NODES = (
    'busbar', 'line', 'cable', 'transformer', 'earth', 'junction')
NOT_OPEN, NOT_AT_REST, IS_CLOSED, NOT_DEAD = (
    'not known to be open', 'not known to be in an end position', 'known to be closed',
    'not known to be dead')
TERMINALS = (BUSBAR, LINE, CABLE, TRANSFORMER)  # where a current can enter or leave


class BadDiagram(Failed):
    """A diagram that is refused, with the place and the remedy."""
    status = FOUND


@dataclass(frozen=True)
class Node:
    """A node. A source can be live from outside, whatever the switches of the diagram do; `system`
    names that by which it is live, and `dead` is an input that is TRUE only while it is not."""
    name: str
    kind: str
    is_source: bool = False
    system: str = ''
    dead: str = ''


@dataclass(frozen=True)
class Part:
    """What is asked of a switch, or of a source, and the text of the rules for it."""
    name: str
    asked: str
    text: str

    def follows(self, parts: tuple['Part', ...]) -> bool:
        """Whether it holds where some others do."""
        return self in parts or self.asked == NOT_OPEN and any(
            (it.name, it.asked) == (self.name, NOT_AT_REST) for it in parts)

    def is_against(self, parts: tuple['Part', ...]) -> bool:
        """Whether it can't hold where some others do."""
        return self.asked == IS_CLOSED and any(
            (it.name, it.asked) == (self.name, NOT_AT_REST) for it in parts)


@dataclass(frozen=True)
class Switch:
    """A switch between two nodes: one of the bay, known by its positions, or one of another bay,
    known by the inputs that are TRUE while it is closed and while it is open; where both are, it is
    not known. `isolates` is whether it keeps apart what it parts while it is open, as each
    disconnector does. `synchro` is an input that is TRUE only while it may close between two live
    parts, `is_coupler` whether it may not open while disconnectors alone bridge it."""
    name: str
    kind: str
    nodes: tuple[str, str]
    is_own: bool = True
    closed: str = ''
    opened: str = ''
    isolates: bool = False
    synchro: str = ''
    is_coupler: bool = False

    def not_open(self) -> tuple['Part', ...]:
        """What holds unless it is known to be open; nothing where that is never known."""
        if self.is_own:
            text = f'{self.name} not open'
        else:
            text = f'(not {self.opened} or {self.closed})' if self.opened and self.closed else (
                self.opened and f'not {self.opened}')
        return (Part(self.name, NOT_OPEN, text),) if text else ()

    def not_at_rest(self) -> tuple['Part', ...]:
        """What holds unless it is known to be in an end position."""
        if self.is_own:
            text = f'{self.name} not open|closed'
        elif self.opened and self.closed:
            one, other = self.closed, self.opened
            text = f'({one} and {other} or not {one} and not {other})'
        else:
            text = f'not {self.closed or self.opened}'
        is_told = self.is_own or self.closed or self.opened
        return (Part(self.name, NOT_AT_REST, text),) if is_told else ()

    def is_closed(self) -> tuple['Part', ...]:
        """The condition that holds only if the switch is known to be closed; none, if that is never
        known."""
        text = f'{self.name} closed' if self.is_own else (
            f'{self.closed} and not {self.opened}' if self.closed and self.opened else self.closed)
        return (Part(self.name, IS_CLOSED, text),) if text else ()

    def other(self, node: str) -> str:
        """The node at its other side."""
        return self.nodes[1] if node == self.nodes[0] else self.nodes[0]


@dataclass
class Network:
    """A diagram. `title` is its name in messages. `live_parts` and `fed_earths` say which further
    hazards it selects."""
    title: str
    nodes: dict[str, Node]
    switches: list[Switch]
    live_parts: bool = False
    fed_earths: bool = False
    at: dict[str, list[Switch]] = field(init=False)

    def __post_init__(self) -> None:
        self.at = {name: [it for it in self.switches if name in it.nodes] for name in self.nodes}

    def kind(self, name: str) -> str:
        return self.nodes[name].kind

    def is_earth(self, name: str) -> bool:
        return self.kind(name) == EARTH

    def selects_more(self) -> bool:
        """Whether a key selects hazards that count in no other diagram."""
        return self.live_parts or self.fed_earths or any(
            it.synchro or it.is_coupler for it in self.switches)

    def sources(self) -> list[Node]:
        return [it for it in self.nodes.values() if it.is_source]

    def earthings(self) -> list[Switch]:
        return [it for it in self.switches if it.kind == EARTHING]

    def own(self, *kinds: str) -> Iterator[Switch]:
        """The bay's own switches of some kinds."""
        return (it for it in self.switches if it.is_own and it.kind in kinds)

    def earthed(self, switch: Switch) -> str:
        """The node that an earthing switch earths."""
        return next(name for name in switch.nodes if not self.is_earth(name))
