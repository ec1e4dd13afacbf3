"""What a program reads of its bay, and the times of its timers, as its text tells them."""
from dataclasses import dataclass, field

from baytools.common.texts import upcase
from baytools.diagnosis import lines
from baytools.diagnosis.language import STORES, TIMERS

POSITION = ('_POS', '_OPEN', '_CLOSED')


@dataclass
class Program:
    """The points that a program reads, in upper case (None where its text can't be followed: then
    all count as read), the times of its timers in milliseconds, and its timers whose time is no
    number of the text."""
    points: set[str] | None
    times: list[int] = field(default_factory=list)
    untold: list[str] = field(default_factory=list)
    timers: int = 0

    def reads_switch(self, name: str) -> bool:
        return self.points is None or any(upcase(name) + end in self.points for end in POSITION)

    def reads(self, name: str) -> bool:
        """Whether an input, or a field of a meter, is read."""
        return self.points is None or upcase(name) in self.points

    def longest(self) -> int:
        """How long it takes until all timers have run out, one after the other."""
        return sum(self.times)

    def moments(self) -> list[int]:
        """The moments just before and at the end of each time."""
        return sorted({at for time in self.times for at in (time - 1, time) if at > 0})


def read(text: str) -> Program:
    """What a program reads."""
    try:
        reader = lines.read(text)
    except lines.Misplaced:
        return Program(None)
    declared = {it.name.upper: it for it in reader.declarations}
    points, times, untold = set(), [], []
    for item in reader.items:
        if item.verb not in STORES and item.verb != 'CAL' and item.operand:
            points.add(item.operand[0].upper)
        for word, operand in item.arguments:
            points.add(operand[0].upper)
            if word.upper == 'PT':
                time = time_of(operand[0], declared, reader.items)
                untold += [item.operand[0].text] if time is None else []
                times += [time] if time else []
    external = {name for name, it in declared.items() if it.scope == 'VAR_EXTERNAL'}
    timers = sum(it.kind in TIMERS for it in declared.values())
    return Program(points & external, times, untold, timers)


def time_of(token, declared, items) -> int | None:
    """The milliseconds of a PT: of a literal, or of a variable that keeps its first value."""
    if token.literal:
        return token.literal.value
    it = declared.get(token.upper)
    is_kept = not any(item.verb in STORES and item.operand[0].upper == token.upper
                      for item in items)
    return it.initial.literal.value if it and it.initial and is_kept else None
