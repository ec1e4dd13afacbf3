"""What the contacts and registers of a module come to. What frees something counts only once it has
stood for a while, and what blocks counts at once: a switch that leaves its end, an input that has
the value that its wiring names for a fault, a module that is not heard."""
from collections.abc import Collection

from baytools.common.positions import POSITIONS

from .wiring import TYPES, WHOLE, Contact, Input, Measure, Module, Switch

INTERMEDIATE, OPEN, CLOSED, BAD = range(len(POSITIONS))
ENDS = (OPEN, CLOSED)
Value = int | None  # None of a measure that is bad
Point = tuple[str, ...]  # ('contact', 'QA1'), ('input', 'SPRING'), ('measure', 'M1', 'AA')


class Held:
    """A value of which some count only once they have stood for a time; till then it is another.
    At first, and when it is forgotten, it is `lost`."""

    def __init__(self, hold: float, lost: int, until_then: int, slow: Collection[int]) -> None:
        self.hold, self.lost, self.until_then, self.slow = hold, lost, until_then, slow
        self.value, self.newest, self.since = lost, lost, 0.0

    def take(self, found: int, now: float) -> int:
        if found != self.newest:
            self.newest, self.since = found, now
        if found not in self.slow or found == self.value or now - self.since >= self.hold:
            self.value = found
        elif self.value in self.slow:
            self.value = self.until_then
        return self.value

    def forget(self) -> int:
        """It isn't known: what comes next must stand anew."""
        self.value = self.newest = self.lost
        return self.value


def double_point(is_open: bool, is_closed: bool) -> int:
    """The position of two contacts."""
    return (BAD if is_closed else OPEN) if is_open else CLOSED if is_closed else INTERMEDIATE


def measured_value(one: Measure, registers: dict[int, int]) -> Value:
    """The number of a measure, or None where it is out of its range."""
    words = [registers[one.at + word] for word in range(one.words())]
    raw = 0
    for word in reversed(words) if one.low_first else words:
        raw = raw << 16 | word
    _, is_signed = TYPES[one.kind]
    if is_signed and raw >> 16 * len(words) - 1:
        raw -= 1 << 16 * len(words)
    value = round(raw * one.scale + one.offset)
    is_valid = all(least <= value <= most for least, most in (one.valid, WHOLE))
    return value if is_valid else None


def held_input(one: Input) -> Held:
    """An input. Till its other value has stood it has that of a fault."""
    return Held(one.hold, int(one.fault), int(one.fault), (int(not one.fault),))


class Sampled:
    """What was last read of a module, and what is to be told of it."""

    def __init__(self, module: Module) -> None:
        self.module = module
        self.bits: dict[int, bool] = {}
        self.positions = {one.id: Held(one.hold, BAD, INTERMEDIATE, ENDS)
                          for one in module.switches}
        self.inputs = {one.name: held_input(one) for one in module.inputs}
        holds = [held.hold for held in [*self.positions.values(), *self.inputs.values()]]
        self.alive = Held(max(holds, default=0), 0, 0, (1,))
        self.measures: dict[Point, Value] = {}
        self.count, self.counted_at = -1, 0.0

    def truth(self, contact: Contact) -> bool:
        return self.bits[contact.at] != contact.inverted

    def is_remote(self, one: Switch) -> bool:
        """Whether a switch may be operated from here, as far as its key tells."""
        return one.remote is None or (one.remote.at in self.bits and self.truth(one.remote))

    def is_counter_stuck(self, registers: dict[int, int], now: float) -> bool:
        """Whether the module's own counter, if it has one, stands still: it answers, and its data
        are old."""
        module = self.module
        if module.counter is None:
            return False
        if registers[module.counter] != self.count:
            self.count, self.counted_at = registers[module.counter], now
        return now - self.counted_at > 2 * module.every + module.timeout

    def take(self, bits: dict[int, bool], registers: dict[int, int], now: float,
             ) -> dict[Point, Value]:
        """What is to be told of a sample that was read at this moment."""
        self.bits = bits
        found: dict[Point, Value] = {}
        for one in self.module.switches:
            position = double_point(self.truth(one.open), self.truth(one.closed))
            found['contact', one.id] = self.positions[one.id].take(position, now)
        for it in self.module.inputs:
            truth = int(self.truth(it.contact))
            found['input', it.name] = self.inputs[it.name].take(truth, now)
        for measure in self.module.measures:
            self.take_measure(measure, registers)
        if self.module.alive:
            found['input', self.module.alive] = self.alive.take(1, now)
        return found | self.measures

    def take_measure(self, one: Measure, registers: dict[int, int]) -> None:
        point, value = ('measure', one.meter, one.field), measured_value(one, registers)
        last = self.measures.get(point)
        if value is None or last is None or abs(value - last) > one.deadband:
            self.measures[point] = value

    def forget(self) -> dict[Point, Value]:
        """What is to be told of a module that is not heard."""
        self.bits = {}
        self.measures = {('measure', one.meter, one.field): None for one in self.module.measures}
        found: dict[Point, Value] = {('contact', name): held.forget()
                                     for name, held in self.positions.items()}
        found |= {('input', name): held.forget() for name, held in self.inputs.items()}
        if self.module.alive:
            found['input', self.module.alive] = self.alive.forget()
        return found | self.measures


def lost_inputs(module: Module) -> str:
    """What is told of the inputs of a module that is not heard, to be added to why it is not."""
    told = [f'{one.name} {"TRUE" if one.fault else "FALSE"}' for one in module.inputs]
    return f'; till it is heard the server is told {", ".join(told)}' if told else ''


def rank(point: Point, value: Value, alive: Collection[str], true_blocks: Collection[str]) -> int:
    """The order in which values of one moment are told, since the server takes a line a turn and
    scans behind each: what blocks before what frees, and outside both whether a module is heard.
    `true_blocks` are the inputs that block while they are TRUE."""
    if point[0] == 'measure':
        return 2
    is_free = value in ENDS if point[0] == 'contact' else bool(value) != (point[1] in true_blocks)
    is_alive = point[0] == 'input' and point[1] in alive
    return (4 if is_alive else 3) if is_free else (0 if is_alive else 1)


def line_of(point: Point, value: Value) -> str:
    """The line that tells of a value, without its time."""
    return f'{" ".join(point)} {"bad" if value is None else value}'
