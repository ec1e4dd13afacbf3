"""The truth of rules and programs in each state of a bay at once: a condition is a number with a
bit for each combination of positions and inputs. The programs have BOOLs and no timer."""
import re

from baytools.audit.variables import all_things
from baytools.bay.rules import INPUT, MEASURE, Reader, lines_of

POINTS = {'OPEN': 1, 'CLOSED': 2}  # the position at which the point of a switch is TRUE


class States:
    """The states of a bay."""

    def __init__(self, file: dict) -> None:
        things = [it for it in all_things(file) if it.kind != MEASURE]
        self.keys = {it.key for it in things}
        self.count = 1
        for it in things:
            self.count *= len(it.values)
        self.all = (1 << self.count) - 1
        self.bits, step = {}, 1
        for it in things:
            for value in it.values:
                self.bits[it.key, value] = self.stripes(step, value, len(it.values))
            step *= len(it.values)

    def stripes(self, step: int, value: int, values: int) -> int:
        """The states in which a thing has a value: it changes after so many of them."""
        bits, size = ((1 << step) - 1) << step * value, step * values
        while size < self.count:
            bits |= bits << size
            size *= 2
        return bits & self.all

    def point(self, name: str) -> int:
        """The states in which a point of the bay is TRUE."""
        switch, _, point = name.rpartition('_')
        if (('switch', switch), 0) in self.bits and point in POINTS:
            return self.bits[('switch', switch), POINTS[point]]
        return self.bits[(INPUT, name), 1]


class Conditions(Reader):
    """Reads a rule; a condition is the states in which it holds."""

    def __init__(self, text: str, states: States) -> None:
        super().__init__(text, states.keys)
        self.states = states

    def any_of(self) -> int:
        found = self.all_of()
        while self.may_take('OR'):
            found |= self.all_of()
        return found

    def all_of(self) -> int:
        found = self.one()
        while self.may_take('AND'):
            found &= self.one()
        return found

    def one(self) -> int:
        if self.may_take('NOT'):
            return self.states.all & ~self.one()
        if self.may_take('('):
            found = self.any_of()
            self.take(')')
            return found
        return self.fact()

    def named(self, key: tuple, holds) -> int:
        return sum(bits for (other, value), bits in self.states.bits.items()
                   if other == key and holds(value))


def forbidden(states: States, text: str) -> dict[tuple[str, int], list[tuple[int, int]]]:
    """For each release the lines of the rules, each with the states in which they forbid it."""
    found: dict = {}
    for number, line in lines_of(text):
        rule = Conditions(line, states).rule(number, line)
        bits = rule.condition if isinstance(rule.condition, int) else states.all
        for way in rule.ways:
            found.setdefault((rule.switch, way), []).append((number, bits))
    return found


def forbidden_states(found: dict) -> dict[tuple[str, int], int]:
    """All states in which some rule forbids each release."""
    result = {}
    for release, rows in found.items():
        result[release] = 0
        for _, bits in rows:
            result[release] |= bits
    return result


def releases(states: States, logic: str) -> dict[tuple[str, int], int]:
    """The states in which a program gives each release."""
    kept: dict[str, int] = {}
    stack: list[tuple[str, int]] = []
    result = 0

    def value(word: str) -> int:
        if word == 'TRUE':
            return states.all
        return kept[word] if word in kept else states.point(word)

    def joins(operator: str, one: int, other: int) -> int:
        other = states.all & ~other if operator.endswith('N') else other
        return one & other if operator.startswith('AND') else one | other

    for line in body_of(logic):
        if line == ')':
            operator, before = stack.pop()
            result = joins(operator, before, result)
            continue
        found = re.fullmatch(r'(LDN?|STN?|ANDN?|ORN?)(\()? ([A-Za-z0-9_]+)', line)
        if not found:
            raise ValueError(f'this reader has no {line!r}')
        operator, opens, word = found.groups()
        if opens:
            stack.append((operator, result))
            result = value(word)
        elif operator.startswith('ST'):
            kept[word] = states.all & ~result if operator == 'STN' else result
        elif operator.startswith('LD'):
            result = states.all & ~value(word) if operator == 'LDN' else value(word)
        else:
            result = joins(operator, result, value(word))
    return {(name.removesuffix(ending), way): bits for name, bits in kept.items()
            for way, ending in enumerate(('_ENA_OPN', '_ENA_CLS')) if name.endswith(ending)}


def body_of(logic: str) -> list[str]:
    """The instructions of a program."""
    lines = [re.sub(r'\(\*.*?\*\)', '', line).strip() for line in logic.split('\n')]
    last = max(at for at, line in enumerate(lines) if line == 'END_VAR')
    return [line for line in lines[last + 1:] if line and line != 'END_PROGRAM']
