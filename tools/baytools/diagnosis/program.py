"""What is wrong with a program that reads well: names, labels, types, what can be reached, and its
size once it is compiled."""
from dataclasses import dataclass, field

from .dialects import truth_text
from .language import COMBINES, CONVERTS, JUMPS, LOADS, NUMBERS, RETURNS, STORES, TIMERS, TYPES
from .lines import read
from .place import Place, near
from .points import suggested_name
from .tokens import Literal, Token

BOOLEAN = {'AND', 'OR', 'XOR', 'ANDN', 'ORN', 'XORN', '&', '&N'}
ARITHMETIC = {'ADD', 'SUB', 'MUL', 'DIV', 'MOD'}
SLOTS, MOST_TIMERS, LABELS, LARGEST = 512, 64, 256, 65_535


@dataclass
class Named:
    """What a name means: its type, whether it may be written, the line of its declaration, and the
    name as it is written there."""
    kind: str
    writable: bool
    line: int
    text: str = ''


@dataclass
class Result:
    """The current result: its type, or none with the reason; whether it can be reached, or from
    where not; whether its type is not known for a fault that is told already, so that nothing more
    is told of it."""
    kind: str | None
    since: str
    reached: bool = True
    gone: int = 0
    is_lost: bool = False


@dataclass
class Fault:
    code: int
    line: int
    told: str
    token: Token | None = None
    others: list = field(default_factory=list)
    mend: str = ''

    def place(self) -> Place:
        return Place(self.told, line=self.line, start=self.token and self.token.start,
                     end=self.token and self.token.end, others=self.others, mend=self.mend)


class Checker:
    """Goes through a program, and notes each fault that it finds."""

    def __init__(self, program, points) -> None:
        self.program, self.points, self.faults = program, points, []
        self.names, self.labels, self.arrivals = {}, {}, {}
        self.result, self.outer = Result(None, 'nothing is loaded at the start of a program'), []

    def note(self, code, line, told, token=None, others=(), mend='') -> None:
        self.faults.append(Fault(code, line, told, token, list(others), mend))

    def undeclared(self, line, token) -> None:
        """Notes a name that is not declared. A point of the bay is to be added to VAR_EXTERNAL,
        and no other name is meant."""
        kind, _ = (self.points or {}).get(token.upper, (None, False))
        if kind:
            self.note(70, line, f'{token.text} is a point of the bay, but not declared', token, (),
                      f'add it to VAR_EXTERNAL: {token.text} : {kind};')
        elif other := truth_text(token.text):
            self.note(70, line, other[0], token, (), other[1])
        else:
            meant = suggested_name(token.upper, self.written(), self.points)
            told = f'{token.text} is not declared{meant}'
            self.note(70, line, told, token)

    def written(self) -> list[str]:
        """The declared names, as they are written."""
        return [it.text for it in self.names.values()]

    def all(self) -> list[Fault]:
        for declaration in self.program.declarations:
            self.declare(declaration)
        for item in self.program.items:
            if item.verb == 'label':
                self.name_label(item)
        for item in self.program.items:
            self.item(item)
        return self.faults

    def declare(self, it) -> None:
        name, line = it.name.upper, it.line
        if name in self.names:
            self.note(71, line, f'{it.name.text} is declared already', it.name,
                      [(self.names[name].line, 'the first time here')])
        writable = self.external(it) if it.scope == 'VAR_EXTERNAL' else True
        if it.initial and not fits(it.kind, it.initial.literal):
            self.note(72, line, f'{it.initial.text} is not a value of type {it.kind}', it.initial)
        self.names.setdefault(name, Named(it.kind, writable, line, it.name.text))
        self.count(it)

    def external(self, it) -> bool:
        """Notes what is wrong with the name of a point, and tells whether it may be written."""
        if self.points is None:
            return True
        kind, writable = self.points.get(it.name.upper, (None, False))
        if kind is None:
            meant = suggested_name(it.name.upper, (), self.points)
            self.note(70, it.line, f'the bay has no point {it.name.text}{meant}', it.name)
        elif kind != it.kind:
            self.note(72, it.line,
                      f'the point {it.name.text} is {a_kind(kind)}, but declared as {it.kind}',
                      it.name)
        return writable

    def count(self, it) -> None:
        kinds = [named.kind in TIMERS for named in self.names.values()]
        slots, timers = kinds.count(False), kinds.count(True)
        if slots > SLOTS or timers > MOST_TIMERS:
            told = f'{timers} timers, but at most {MOST_TIMERS} are allowed'
            if slots > SLOTS:
                told = f'{slots} externals and variables, but at most {SLOTS} are allowed'
            self.note(79, it.line, f'with {it.name.text} there are {told}', it.name)

    def name_label(self, item) -> None:
        name = item.token.upper
        if name in self.labels:
            self.note(71, item.line, f'the label {item.token.text} is defined twice', item.token,
                      [(self.labels[name], 'the first time here')])
        self.labels.setdefault(name, item.line)
        count = sum(other.verb == 'label' and other.line <= item.line
                    for other in self.program.items)
        if count > LABELS:
            told = f'this is the {count}th label, but at most {LABELS} are allowed'
            self.note(79, item.line, told, item.token)

    def item(self, item) -> None:
        if item.verb == 'label':
            return self.at_label(item)
        if not self.result.reached:
            self.note(76, item.line, 'this line can\'t be reached', item.token,
                      [(self.result.gone, 'because this line always jumps away')])
        if item.verb == '(':
            return self.open(item)
        if item.verb == ')':
            return self.close(item)
        verb = item.verb
        acts = [(LOADS, self.load), (STORES, self.store), (COMBINES, self.combine),
                (JUMPS, self.jump), (RETURNS, self.leave)]
        act = next((act for verbs, act in acts if verb in verbs),
                   None) or {'NOT': self.invert, 'CAL': self.call}.get(verb, self.convert)
        act(item)

    def unset(self, item) -> bool:
        """Notes the use of a result that is not set."""
        if self.result.kind is None and self.result.reached and not self.result.is_lost:
            told = f'{item.token.text} uses the current result, which is not set'
            self.note(73, item.line, f'{told}: {self.result.since}', item.token)
        return self.result.kind is None

    def wrong(self, item, told, token=None) -> None:
        if self.result.reached:
            self.note(72, item.line, told, token or item.token)

    def but_result(self) -> str:
        return but('the result', self.result.kind)

    def differs(self, told, kind) -> str:
        """That the result and an operand have different types."""
        return f'the result is {a_kind(self.result.kind)}{but(told, kind)}'

    def operand(self, item, tokens) -> str | Literal | None:
        """The type of an operand, or the literal of a number without a type; None where it is no
        operand."""
        first = tokens[0]
        if first.kind == 'literal':
            return first.literal.kind or first.literal
        named = self.names.get(first.upper)
        if named is None:
            self.undeclared(item.line, first)
            return None
        timer = named.kind in TIMERS
        if timer and len(tokens) == 1:
            self.wrong(item, f'{first.text} is a timer: {first.text}.Q is a BOOL and '
                       f'{first.text}.ET a TIME', first)
        if not timer and len(tokens) == 3:
            self.wrong(item, f'{first.text} is a {named.kind}, not a timer (declared at line '
                       f'{named.line})', first)
        if timer != (len(tokens) == 3):
            return None
        return {'Q': 'BOOL', 'ET': 'TIME'}[tokens[2].upper] if timer else named.kind

    def load(self, item) -> None:
        kind = self.operand(item, item.operand)
        if isinstance(kind, Literal):
            kind = own_type(kind)
        if item.verb == 'LDN' and kind not in (None, 'BOOL'):
            self.wrong(item, f'only a BOOL can be negated{but(text_of(item.operand), kind)}',
                       item.operand[0])
        since = f'{item.token.text} at line {item.line} loads something unknown'
        self.result = Result(kind, since, self.result.reached, self.result.gone, kind is None)

    def store(self, item) -> None:
        target, named = item.operand[0], self.names.get(item.operand[0].upper)
        kind = self.operand(item, item.operand)
        is_output = len(item.operand) == 3
        is_read = named and not named.writable and named.kind not in TIMERS
        if is_output and kind or is_read:
            what = 'an output of a timer' if is_output else (
                'a point of the bay that may only be read')
            self.note(77, item.line, f'{text_of(item.operand)} is {what}', target)
        if kind is None:
            return
        if item.verb != 'ST' and kind != 'BOOL':
            self.wrong(item, f'{item.verb} needs a BOOL{but(text_of(item.operand), kind)}', target)
        elif not self.unset(item) and self.result.kind != kind:
            self.wrong(item, self.differs(text_of(item.operand), kind), target)

    def combine(self, item) -> None:
        kind = self.operand(item, item.operand)
        first = item.operand[0]
        if item.verb in ('DIV', 'MOD') and (first.kind != 'literal' or first.literal.value == 0):
            told = f'{text_of(item.operand)} is not a literal'
            told = 'zero can\'t be a divisor' if first.kind == 'literal' else told
            self.note(78, item.line, told, first)
        self.join(item, item.verb, kind, text_of(item.operand), first)

    def join(self, item, verb, kind, told, token) -> None:
        """An operator on the result and an operand of a type, a number without one, or nothing that
        is known."""
        wanted = wanted_by(verb)
        if self.result.kind and not takes(verb, self.result.kind):
            self.wrong(item, f'{item.token.text} needs {wanted}{self.but_result()}')
        elif isinstance(kind, Literal):
            if self.result.kind and not fits(self.result.kind, kind):
                self.wrong(item, f'{told} is not a value of type {self.result.kind}, which the '
                           'result has', token)
            elif not self.result.kind and not any(takes(verb, other) and fits(other, kind)
                                                  for other in TYPES):
                self.wrong(item, f'{item.token.text} needs {wanted}, but {told} is none', token)
        elif kind and not takes(verb, kind):
            self.wrong(item, f'{item.token.text} needs {wanted}{but(told, kind)}', token)
        elif kind and self.result.kind and kind != self.result.kind:
            self.wrong(item, self.differs(told, kind), token)
        self.unset(item)
        is_lost = self.result.is_lost and verb in BOOLEAN  # it gives a BOOL all the same
        if is_lost or (self.result.kind or self.result.is_lost) and (
                verb not in BOOLEAN | ARITHMETIC):
            self.result = Result('BOOL', '', self.result.reached, self.result.gone)

    def invert(self, item) -> None:
        if not self.unset(item) and self.result.kind != 'BOOL':
            self.wrong(item, f'NOT needs a BOOL{self.but_result()}')

    def convert(self, item) -> None:
        wants, gives = CONVERTS[item.verb]
        if not self.unset(item) and self.result.kind != wants:
            self.wrong(item, f'{item.verb} needs {a_kind(wants)}{self.but_result()}')
        self.result = Result(gives, '', self.result.reached, self.result.gone)

    def jump(self, item) -> None:
        name, label = item.operand[0], self.labels.get(item.operand[0].upper)
        if label is None:
            self.note(75, item.line,
                      f'there is no label {name.text}{near(name.upper, self.labels)}', name)
        elif label <= item.line:
            self.note(74, item.line, f'the label {name.text} is above this line', name,
                      [(label, 'here')])
        elif self.result.reached:
            self.arrivals.setdefault(name.upper, []).append((item.line, self.result))
        self.go(item)

    def leave(self, item) -> None:
        self.go(item)

    def go(self, item) -> None:
        """What a jump or a return wants of the result, and whether what follows can be reached."""
        if item.verb in ('JMP', 'RET'):
            self.result = Result(self.result.kind, self.result.since, False,
                                 item.line if self.result.reached else self.result.gone)
        elif not self.unset(item) and self.result.kind != 'BOOL':
            self.wrong(item, f'{item.verb} needs a BOOL{self.but_result()}')

    def call(self, item) -> None:
        name = item.operand[0]
        named = self.names.get(name.upper)
        if named is None:
            self.undeclared(item.line, name)
        elif named.kind not in TIMERS:
            self.wrong(item, f'{name.text} is {named.kind} and no timer (declared at line '
                       f'{named.line})', name)
        for word, operand in item.arguments:
            kind, wanted = self.operand(item, operand), {'IN': 'BOOL', 'PT': 'TIME'}[word.upper]
            if kind and not (fits(wanted, kind) if isinstance(kind, Literal) else kind == wanted):
                kind = 'number' if isinstance(kind, Literal) else kind
                self.wrong(item, f'{word.text} needs {a_kind(wanted)}{but(text_of(operand), kind)}',
                           operand[0])
        self.result = Result(None, f'CAL at line {item.line} leaves it unset', self.result.reached,
                             self.result.gone)

    def open(self, item) -> None:
        if item.token.means('DIV', 'MOD'):
            self.note(78, item.line, 'the result of a parenthesis is not a literal', item.token)
        self.outer.append((self.result, item))
        self.result = Result(None, 'a parenthesis begins without one', self.result.reached,
                             self.result.gone)
        if item.operand:
            inner = type(item)('LD', item.line, item.token, item.operand)
            self.load(inner)

    def close(self, item) -> None:
        """What the parenthesis gives is the operand; 72 and 73 are told at its )."""
        inner, (outer, opened) = self.result, self.outer.pop()
        self.result = outer
        if inner.kind is None and inner.reached and not inner.is_lost:
            self.note(73, item.line, f'the result of the parenthesis of line {opened.line} is not '
                      f'set: {inner.since}', item.token)
        began = type(item)(')', item.line, opened.token)
        at = len(self.faults)
        self.join(began, opened.token.upper, inner.kind,
                  f'the result of the parenthesis of line {opened.line}', item.token)
        for fault in self.faults[at:]:
            fault.token = item.token

    def at_label(self, item) -> None:
        """What falls in and what jumps bring meet."""
        name = item.token.upper
        ways = self.arrivals.get(name, []) if self.labels[name] == item.line else []
        came = [(f'from line {line}', result) for line, result in ways]
        came += [('from above', self.result)] if self.result.reached else []
        if not came:
            return
        is_lost = any(it.is_lost for _, it in came)
        kinds = [(way, it.kind) for way, it in came if not it.is_lost]
        told = ', '.join(f'{kind or "nothing"} {way}' for way, kind in kinds)
        one = {kind for _, kind in kinds}
        kind = one.pop() if len(one) == 1 else None
        self.result = Result(kind, f'at the label {item.token.text} of line {item.line} paths with '
                             f'different results meet, {told}', is_lost=is_lost and len(one) < 2)


def wanted_by(verb) -> str:
    """The types on which an operator works, in words."""
    if verb in BOOLEAN:
        return 'a BOOL'
    if verb in ARITHMETIC:
        return 'an INT, DINT or LINT'
    return 'any type' if verb in ('EQ', 'NE') else 'an INT, DINT, LINT or TIME'


def a_kind(kind: str) -> str:
    """A type with its article."""
    return f'{"an" if kind == "INT" else "a"} {kind}'


def but(told: str, kind: str) -> str:
    """What something is, where something else is needed."""
    return f', but {told} is {a_kind(kind)}'


def takes(verb, kind) -> bool:
    """Whether an operator works on a type."""
    if verb in BOOLEAN:
        return kind == 'BOOL'
    if verb in ARITHMETIC:
        return kind in NUMBERS
    return verb in ('EQ', 'NE') or kind != 'BOOL'


def fits(kind, literal) -> bool:
    """Whether a literal is a value of a type."""
    if literal.kind:
        return literal.kind == kind
    if kind == 'BOOL':
        return literal.value in (0, 1)
    return kind in NUMBERS and -2 ** (NUMBERS[kind] - 1) <= literal.value < 2 ** (NUMBERS[kind] - 1)


def own_type(literal) -> str:
    return next(kind for kind in NUMBERS if fits(kind, literal))


def text_of(tokens) -> str:
    return ''.join(token.text for token in tokens)


def faults_of(text, points) -> list[Fault]:
    """The faults of the checks, in the order in which bayctl tells the first of them."""
    found = Checker(read(text), points).all()
    return sorted(found, key=lambda fault: (fault.line, fault.code))


def locate(faults, code, line) -> Place | None:
    """The place of a fault among those that were found, or None."""
    return next((fault.place() for fault in faults if (fault.code, fault.line) == (code, line)),
                None)


def size_text(text) -> str:
    """What makes a compiled program long: octets of its code by what they are for, roughly."""
    program = read(text)
    sizes = {'parentheses': 0, 'calls of timers': 0, 'jumps and returns': 0,
             'other instructions': 0}
    for item in program.items:
        kind = {'(': 'parentheses', ')': 'parentheses', 'CAL': 'calls of timers'}.get(item.verb)
        other = 'jumps and returns' if item.verb in JUMPS | RETURNS else 'other instructions'
        kind = kind or other
        sizes[kind] += octets_of(item)
    names = {declaration.name.upper: declaration for declaration in program.declarations}
    held = sum(len(name) + 3 if it.scope == 'VAR_EXTERNAL' else 9 for name, it in names.items()
               if it.kind not in TIMERS)
    parts = [f'{count:,} for {what}' for what, count in sizes.items() if count]
    told = ', '.join([*parts, f'{held:,} for what is declared'])
    whole = sum(sizes.values()) + held
    return f'some {whole:,} octets, but at most {LARGEST:,} are allowed: {told}'


def octets_of(item) -> int:
    """The octets of an instruction, but for its operators' widths: those of its operands, and of
    what is done with them."""
    loads = [operand for _, operand in item.arguments]
    if not loads and item.operand and item.verb not in JUMPS:
        loads = [item.operand]
    size = sum(operand_size(operand) for operand in loads
               if operand[0].kind == 'literal' or item.verb not in STORES)
    if item.verb == 'CAL':
        return size + 3 * len(item.arguments) + 3
    extra = {'label': 0, '(': 2 + (1 if item.operand else 0), ')': 1, 'LD': 1, 'LDN': 2, 'ST': 3,
             'STN': 5, 'S': 3, 'R': 3, **dict.fromkeys(JUMPS | RETURNS, 3)}
    wide = item.verb.endswith('N') or item.verb in ARITHMETIC
    return size + extra.get(item.verb, 2 if wide else 1)


def operand_size(tokens) -> int:
    literal = tokens[0].literal
    if literal is None:
        return 3
    return {'BOOL': 2, 'INT': 3, 'DINT': 5, 'TIME': 5, 'LINT': 9}[literal.kind or own_type(literal)]
