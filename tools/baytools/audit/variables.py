"""What an audit goes through: the things of a bay that are looked at, with their values."""
import itertools
import math
from collections.abc import Iterator
from dataclasses import dataclass, field

from baytools.bay.rules import INPUT, MEASURE, SWITCH
from baytools.common.positions import POSITIONS
from baytools.common.texts import upcase
from baytools.diagnosis.language import FIELDS
from baytools.report.joined import scenario_of

from .program_inputs import Program

WAYS = ('open', 'close')
VERBS = {SWITCH: 'contact', INPUT: 'input', MEASURE: 'measure'}
ALL = {SWITCH: [0, 1, 2, 3], INPUT: [0, 1], MEASURE: [0]}  # the values of a thing by itself


@dataclass
class Thing:
    """A switch, an input or a measure, and the values that it goes through; `is_told` is whether a
    look or an option named them."""
    name: str
    kind: str
    values: list
    is_told: bool = False

    @property
    def key(self) -> tuple[str, str]:
        """What rules know it by: an input may have the name of a switch."""
        return self.kind, upcase(self.name)

    def line(self, moment, value) -> str:
        """The line of the trace that gives it a value."""
        subject = self.name if self.kind != MEASURE else ' '.join(self.name.rsplit('_', 1))
        return f'{moment} {VERBS[self.kind]} {subject} {value}'

    def value_text(self, value) -> str:
        return POSITIONS[value] if self.kind == SWITCH else str(value)

    def words(self) -> list:
        """Its values in words."""
        return [self.value_text(value) for value in self.values]

    def is_truth(self) -> bool:
        return self.kind == INPUT and self.values == [0, 1]

    def is_restricted(self) -> bool:
        """Whether it goes through fewer values than it can have. Of a measure nobody tries all: the
        values that matter are to be told."""
        return not self.is_told if self.kind == MEASURE else len(self.values) < len(ALL[self.kind])


@dataclass
class Bay:
    """The things that are looked at, in the order of the bay file: all switches that can be
    released, and what is left out since the program does not read it. `bay` and `logic` are the
    texts of the bay file and of the program."""
    file: dict
    bay: str
    logic: str
    program: Program
    things: list = field(default_factory=list)
    unread: list = field(default_factory=list)

    def combinations(self) -> Iterator[tuple]:
        return itertools.product(*(thing.values for thing in self.things))

    def count(self) -> int:
        return math.prod(len(thing.values) for thing in self.things)

    def combination_at(self, place: int) -> tuple:
        """The combination at a place, in their order."""
        found = []
        for thing in reversed(self.things):
            place, at = divmod(place, len(thing.values))
            found.append(thing.values[at])
        return tuple(reversed(found))

    def state(self, combination) -> dict:
        return {thing.key: value for thing, value in zip(self.things, combination)}

    def switches(self) -> list:
        return [switch['id'] for switch in self.file['switch']]

    def restricted(self) -> list[Thing]:
        return [thing for thing in self.things if thing.is_restricted()]

    def combination_text(self, combination) -> str:
        return ', '.join(f'{thing.name} {thing.value_text(value)}'
                         for thing, value in zip(self.things, combination)) or 'anything'

    def scenario(self, lines) -> bytes:
        trace = '\n'.join(lines)
        return scenario_of(self.bay.encode(), self.logic.encode(), trace.encode())


def all_things(file: dict) -> Iterator[Thing]:
    """Each switch, input and field of a meter, with all values that it goes through by itself."""
    named = [(SWITCH, switch['id']) for switch in file['switch']]
    named += [(INPUT, one['name']) for one in file.get('input', [])]
    named += [(MEASURE, f'{meter["id"]}_{field}') for meter in file.get('meter', [])
              for field in FIELDS]
    for kind, name in named:
        yield Thing(name, kind, ALL[kind])


def keys_of(file: dict) -> set[tuple[str, str]]:
    """The things of a bay file, as rules know them."""
    return {thing.key for thing in all_things(file)}


def bay_of(file: dict, texts: tuple, program: Program, looks: dict, named: set) -> Bay:
    """What is looked at: what the program reads, what rules name and what is to be looked at.
    `looks` has the values of things that are not the usual ones."""
    bay = Bay(file, *texts, program)
    for thing in all_things(file):
        thing.values, thing.is_told = looks.get(thing.key, thing.values), thing.key in looks
        reads = program.reads_switch if thing.kind == SWITCH else program.reads
        if reads(thing.name) or thing.key in looks or thing.key in named:
            bay.things.append(thing)
        elif thing.kind != MEASURE:
            bay.unread.append(thing.name)
    return bay
