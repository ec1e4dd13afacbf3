"""A bay with its single line diagram, in all its states at once: a number has a bit for each
combination of positions and inputs. The programs have BOOLs and no timer."""
import itertools
import pathlib
import re
from collections.abc import Iterator, Mapping

from baytools.audit.answers import WAYS, Case
from baytools.bay.files import bay_at, text_of
from baytools.bay.rules import SWITCH
from baytools.common.texts import upcase
from baytools.diagram.diagram_file import diagram_at
from baytools.diagram.network import Network
from devtools.truths import States
from diagram_hazards import IS_CLOSED, IS_OPEN, UNKNOWN, Diagram, Known
from diagram_truth import Truth

Operation = tuple[str, int]  # a switch, its name in upper case, and a way
OPERATORS = {'AND': 'OR', 'OR': 'AND', 'ANDN': 'AND', 'LD': 'LDN'}  # each with that it is turned to
LINE = re.compile(r'(\s+)(ANDN|AND|OR|LD)(\(? .*)$')
PART = re.compile(r'(AND|OR)N? \w+')


class Bay:
    """The states of a bay with a diagram, and in which of them each operation is a hazard."""

    def __init__(self, file: Mapping, network: Network) -> None:
        self.file, self.states = file, States(file)
        self.diagram, self.network = Diagram(network), network
        self.own = [(at, upcase(it.name)) for at, it in enumerate(network.switches) if it.is_own]
        self.operations: list[Operation] = [(name, way) for _, name in self.own
                                            for way in range(len(WAYS))]
        self.known: list[Known] = []  # each once
        self.at_state = list(self.known_states())

    @classmethod
    def at(cls, folder: pathlib.Path) -> 'Bay':
        """The bay of a folder."""
        file = bay_at(folder / 'bay.toml')[1]
        return cls(file, diagram_at(folder / 'diagram.toml', file))

    def known_states(self) -> Iterator[int]:
        """For each state the place of what is known in it, in the order of their bits: the first
        thing of the bay changes first."""
        places: dict[tuple, int] = {}
        numbers: dict[Known, int] = {}
        most: dict[tuple, int] = {}
        for key, value in self.states.bits:
            most[key] = max(most.get(key, 0), value)
        keys = list(reversed(most))
        # Of a switch the positions intermediate and bad show the same.
        shown = [(UNKNOWN, IS_OPEN, IS_CLOSED, UNKNOWN) if kind == SWITCH else (0, 1)
                 for kind, _ in keys]
        for values in itertools.product(*shown):
            if values not in places:
                known = self.diagram.known(dict(zip(keys, values)))
                places[values] = numbers.setdefault(known, len(numbers))
                if len(self.known) < len(numbers):
                    self.known.append(known)
            yield places[values]

    def bits_where(self, test) -> dict[Operation, int]:
        """The states in which an operation passes a test of the switch, the way and what is
        known."""
        order = list(reversed(self.at_state))
        found = {}
        for switch, name in self.own:
            for way in range(len(WAYS)):
                marks = ['1' if test(switch, way, known) else '0' for known in self.known]
                found[name, way] = int(''.join([marks[at] for at in order]), 2)
        return found

    def hazards(self) -> dict[Operation, int]:
        """The states in which each operation is a hazard, by walks."""
        return self.bits_where(lambda *it: bool(self.diagram.hazards(*it)))

    def truth(self) -> dict[Operation, int]:
        """The states in which each operation is a hazard, by the plain simulation."""
        truth = Truth(self.diagram)
        return self.bits_where(lambda switch, way, known: truth.is_hazard(known, switch, way))

    def elsewhere(self, operation: Operation) -> int:
        """The states in which a switch is not yet where an operation leads."""
        name, way = operation
        return self.states.all & ~self.states.bits[(SWITCH, name), (IS_OPEN, IS_CLOSED)[way]]

    def within(self, case: Case) -> int:
        """The states of a case."""
        found = self.states.all
        for key, ranges in case.values.items():
            bits = 0
            for least, most in ranges:
                for value in range(least, most + 1):
                    bits |= self.states.bits[key, value]
            found &= bits
        return found


def mutants(logic: str) -> Iterator[tuple[str, str]]:
    """A program without each of the lines of its conditions, and with each of its operators
    turned."""
    lines = logic.split('\n')
    for at, line in enumerate(lines):
        if PART.fullmatch(line.strip()):
            yield f'without line {at + 1}', '\n'.join([*lines[:at], '', *lines[at + 1:]])
    for at, line in enumerate(lines):
        found = LINE.match(line)
        if found and found[3].strip() != 'TRUE':
            turned = found[1] + OPERATORS[found[2]] + found[3]
            yield f'line {at + 1} turned', '\n'.join([*lines[:at], turned, *lines[at + 1:]])


def logic_at(folder: pathlib.Path) -> str:
    """The program of a folder."""
    return text_of(folder / 'logic.il')
