"""What a program's outputs depend on, and which of them can never be TRUE, as far as its text
shows: more may be never TRUE, and less may matter, than is found here."""
from dataclasses import dataclass

from .language import COMBINES, JUMPS, LOADS, RETURNS, STORES, TIMERS


@dataclass
class Value:
    """The current result: the names on which it depends, and its truth where that is constant."""
    names: frozenset = frozenset()
    truth: bool | None = None


class Flow:
    """Goes through the lines of a program that reads well. `feeds` has for each variable, timer and
    point, in upper case, the names on which it depends directly; `stored` the truths that are
    stored in it, None for any."""

    def __init__(self, program) -> None:
        self.feeds, self.stored, self.outer, self.arrivals = {}, {}, [], {}
        self.constants = constants_of(program)
        self.result, self.control = Value(), frozenset()
        for item in program.items:
            self.take(item)

    def operand(self, tokens: list) -> Value:
        first = tokens[0]
        if first.kind == 'literal':
            literal = first.literal
            is_truth = literal.kind == 'BOOL' or literal.value in (0, 1)
            return Value(truth=bool(literal.value) if is_truth else None)
        return Value(frozenset([first.upper]), self.constants.get(first.upper))

    def take(self, item) -> None:
        verb = item.verb
        if verb == '(':
            self.outer.append((self.result, item.token.upper))
            self.result = self.operand(item.operand) if item.operand else Value()
        elif verb == ')':
            before, operator = self.outer.pop()
            self.result = combine_values(operator, before, self.result)
        elif verb == 'label':
            self.arrive(item.token.upper)
        elif verb in LOADS:
            value = self.operand(item.operand)
            self.result = negate(value) if verb == 'LDN' else value
        elif verb in STORES:
            self.store(item)
        elif verb in JUMPS or verb in RETURNS:
            self.jump(item)
        elif verb == 'CAL':
            self.call(item)
        elif verb in COMBINES:
            self.result = combine_values(verb, self.result, self.operand(item.operand))
        else:
            self.result = negate(self.result) if verb == 'NOT' else Value(self.result.names)

    def feed(self, name: str, names: frozenset) -> None:
        self.feeds[name] = self.feeds.get(name, frozenset()) | names | self.control

    def store(self, item) -> None:
        name, verb, truth = item.operand[0].upper, item.verb, self.result.truth
        self.feed(name, self.result.names)
        if verb == 'STN':
            truth = None if truth is None else not truth
        elif verb == 'R':
            truth = False
        self.stored.setdefault(name, set()).add(truth)

    def jump(self, item) -> None:
        """What is skipped depends on the result."""
        if item.verb not in ('JMP', 'RET'):
            self.control |= self.result.names
        if item.operand:
            self.arrivals.setdefault(item.operand[0].upper, []).append(self.result)

    def arrive(self, label: str) -> None:
        for value in self.arrivals.get(label, ()):
            truth = value.truth if value.truth == self.result.truth else None
            self.result = Value(self.result.names | value.names, truth)

    def call(self, item) -> None:
        name = item.operand[0].upper
        self.feed(name, frozenset().union(*(self.operand(operand).names
                                            for _, operand in item.arguments)))
        self.result = Value()

    def dependencies(self, names: set) -> set:
        """All on which some names depend, through variables and timers."""
        found, left = set(), set(names)
        while left:
            name = left.pop()
            if name not in found:
                found.add(name)
                left |= self.feeds.get(name, frozenset())
        return found

    def is_never_true(self, name: str) -> bool:
        """Whether what is stored in a name is FALSE each time."""
        return self.stored.get(name, {None}) == {False}


def constants_of(program) -> dict[str, bool]:
    """The truths of variables that keep their initial value."""
    stored = {item.operand[0].upper for item in program.items if item.verb in STORES}
    return {it.name.upper: bool(it.initial and it.initial.literal.value)
            for it in program.declarations
            if it.scope != 'VAR_EXTERNAL' and it.kind == 'BOOL' and it.name.upper not in stored
            and it.kind not in TIMERS}


def negate(value: Value) -> Value:
    return Value(value.names, None if value.truth is None else not value.truth)


def combine_values(operator: str, one: Value, other: Value) -> Value:
    """The result of an operator: what it depends on, and its truth where that is constant."""
    names = one.names | other.names
    if operator in ('ANDN', '&N', 'ORN'):
        operator, other = operator.rstrip('N'), negate(other)
    if operator in ('AND', '&', 'OR'):
        strong = operator == 'OR'  # the truth that decides alone
        if strong in (one.truth, other.truth):
            return Value(frozenset(), strong)
        is_known = None not in (one.truth, other.truth)
        return Value(names, not strong if is_known else None)
    return Value(names)
