"""What one client was over time: connected, asking, and its controls."""
from collections.abc import Iterator
from dataclasses import dataclass, field

from baytools.wire.conversation import Description

FEW, PAUSE = 3, 10_000  # repeats that are told one by one; milliseconds that end a repetition


class Track:
    """What one thing was over time: changes are (moment, value), in the order in which they
    came."""

    def __init__(self, label, note='') -> None:
        self.label, self.note, self.changes = label, note, []

    def set(self, moment, value) -> None:
        if not self.changes or self.changes[-1][1] != value:
            self.changes.append((moment, value))

    def spells(self, start, end, first=None) -> list:
        """(from, to, value) one after the other, from start to end; first is the value before any
        change."""
        points = [(start, first), *self.changes, (end, None)]
        return [(a, b, value) for (a, value), (b, _) in zip(points, points[1:])
                if b > a and value is not None]


@dataclass
class Mark:
    """A control on a client's lane: what it says, whether it was granted, and else its number in
    the list of refusals."""
    moment: int
    label: str
    number: int | None = None


@dataclass
class Repeat:
    """The same read, asked again and again: from the first request to the last answer. `asked` and
    `answered` are the last words, `ticks` what is told of each while they are few."""
    start: int
    end: int
    count: int = 0
    asked: list[str] = field(default_factory=list)
    answered: list[str] = field(default_factory=list)
    ticks: list[tuple[int, list[str]]] = field(default_factory=list)

    def extend(self, moment: int, words: list[str]) -> None:
        self.end = max(self.end, moment)
        if self.count <= FEW:
            self.ticks.append((moment, words))

    def is_many(self) -> bool:
        return self.count > FEW

    def label(self) -> str:
        """How often it was asked, and what."""
        return f'{self.count:,} times: {self.asked[0].partition(": ")[2]}'


class Client:
    """What one association was over time: when it was open, when its client asked or was told
    something, reads that repeat, and its controls. `who` are the addresses of its clients."""

    def __init__(self, place) -> None:
        self.place, self.who, self.others, self.marks = place, [], {}, []
        self.repeats, self.last, self.waiting = [], {}, {}
        self.open, self.count = Track(f'Client {place}'), 0

    def name(self) -> str:
        """Its number, with its address where it has one alone."""
        address = f' ({self.who[0]})' if len(self.who) == 1 else ''
        return f'{self.place}{address}'

    def connect(self, moment: int, is_open: bool, who: str = '') -> None:
        """A connection that opens or closes."""
        if who and who not in self.who:
            self.who.append(who)
        self.last, self.waiting = {}, {}
        self.open.set(moment, is_open)

    def add_request(self, moment: int, said: Description) -> None:
        """What it asks. A read that was asked before, and not long ago, is a repeat."""
        if said.kind != 'read' or said.invoke is None:
            return self.tick(moment, said.text_lines())
        key = tuple(said.lines)
        found = self.last.get(key)
        if found is None or moment - found.end > PAUSE:
            found = self.last[key] = Repeat(moment, moment)
            self.repeats.append(found)
        found.count += 1
        found.asked, self.waiting[said.invoke] = said.text_lines(), found
        found.extend(moment, said.text_lines())

    def add_report(self, moment: int, said: Description) -> None:
        """What it is told."""
        found = self.waiting.pop(said.invoke, None) if said.kind == 'read' else None
        if found is None or not said.good:
            return self.tick(moment, said.text_lines())
        found.answered = said.text_lines()
        found.extend(moment, said.text_lines())

    def tick(self, moment: int, words: list[str]) -> None:
        self.others.setdefault(moment, []).extend(words)

    def ticks(self) -> dict[int, list[str]]:
        """What is told moment by moment: all but reads that repeat often."""
        found = {moment: list(words) for moment, words in self.others.items()}
        for repeat in self.repeats:
            for moment, words in [] if repeat.is_many() else repeat.ticks:
                found.setdefault(moment, []).extend(words)
        return dict(sorted(found.items()))

    def bars(self) -> Iterator[Repeat]:
        """Reads that repeat often."""
        return (it for it in self.repeats if it.is_many())
