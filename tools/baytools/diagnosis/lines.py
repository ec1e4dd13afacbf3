"""A program line by line: what each line is, and why one can't stand where it does."""
from dataclasses import dataclass, field

from .dialects import operator_text, truth_text
from .language import ALONE, COMBINES, JUMPS, LOADS, OPERATORS, RETURNS, STORES, TIMERS, TYPES
from .place import Place, near
from .tokens import Token, is_operator, lines_of

DEEPEST, LONGEST = 16, 4000
BLOCKS = {'VAR_INPUT', 'VAR_OUTPUT', 'VAR_IN_OUT', 'VAR_GLOBAL', 'VAR_TEMP', 'VAR_ACCESS',
          'VAR_CONFIG'}  # of IEC 61131-3, and not of this profile
NEGATED = {'AND', 'OR', 'XOR', 'LD', 'ST', '&', 'JMPC', 'RETC'}


@dataclass
class Declaration:
    name: Token
    line: int
    scope: str
    kind: str
    initial: Token | None


@dataclass
class Item:
    """A label, an instruction, an operator with `(`, or a `)`. Operands are lists of tokens: a
    literal, a name, or a name with an output."""
    verb: str
    line: int
    token: Token
    operand: list = field(default_factory=list)
    arguments: list = field(default_factory=list)


class Misplaced(Exception):
    """Why a line can't stand where it does, with the token at which that shows, and the remedy
    where it is known."""

    def __init__(self, told, token=None, others=(), mend='') -> None:
        super().__init__(told)
        self.told, self.token, self.others, self.mend = told, token, list(others), mend


class Reader:
    """Takes the lines of a program one after the other."""

    def __init__(self, text) -> None:
        self.lines = lines_of(text)
        if text.endswith('\n') or not text:
            self.lines.pop()
        self.state, self.block, self.began, self.ended = 'start', None, None, None
        self.open, self.declarations, self.items, self.count = [], [], [], 0

    def read(self, last) -> None:
        """Takes the lines up to this one; Misplaced comes of it."""
        for number, tokens in enumerate(self.lines[:last], 1):
            if tokens:
                self.take(number, tokens)

    def take(self, number, tokens) -> None:
        bad = next((token for token in tokens if token.kind in ('bad', 'far')), None)
        if bad:
            raise Misplaced(bad.told, bad, mend=bad.mend)
        first = tokens[0]
        if self.state == 'done':
            raise Misplaced(
                f'only comments may follow END_PROGRAM, which is line {self.ended}',
                first)
        if self.state == 'start':
            return self.heading(tokens)
        if first.means('END_PROGRAM'):
            return self.end(number, tokens)
        if first.means('PROGRAM'):
            raise Misplaced('a file has one program, which begins at its first line', first)
        if first.means('VAR', 'VAR_EXTERNAL', 'END_VAR'):
            return self.frame(number, tokens)
        if first.upper in BLOCKS and len(tokens) == 1:
            raise Misplaced(f'{first.text} is not a block of this language', first, (),
                            'declare points of the bay in VAR_EXTERNAL, and variables in VAR')
        if self.state == 'block':
            return self.declare(number, tokens)
        self.body(number, tokens)

    def heading(self, tokens) -> None:
        if not tokens[0].means('PROGRAM'):
            raise Misplaced('a program begins with PROGRAM and its name', tokens[0])
        self.named(tokens, 'PROGRAM')
        self.state = 'head'

    def named(self, tokens, what) -> None:
        """One name, and nothing behind it."""
        if len(tokens) < 2:
            raise Misplaced(f'{what} needs a name after it', tokens[0])
        if tokens[1].kind != 'name':
            raise Misplaced(f'{tokens[1].text} can\'t be a name{reserved_text(tokens[1])}',
                            tokens[1])
        self.nothing(tokens[2:], f'{what} and its name')

    def nothing(self, rest, what) -> None:
        if rest:
            told = f'nothing may follow {what} on its line'
            if rest[0].text == ';':
                told += ': an instruction has no ; at its end'
            elif is_operator(rest[0]):
                told += ': each instruction has a line of its own'
            raise Misplaced(told, rest[0])

    def end(self, number, tokens) -> None:
        self.nothing(tokens[1:], 'END_PROGRAM')
        if self.open:
            raise Misplaced('a parenthesis is still open', tokens[0],
                            [(line, 'it was opened here') for line in self.open[-1:]])
        if self.state == 'block':
            raise Misplaced('END_VAR is missing', tokens[0],
                            [(self.block[1], 'the block begins here')])
        self.state, self.ended = 'done', number

    def frame(self, number, tokens) -> None:
        first = tokens[0]
        self.nothing(tokens[1:], first.text)
        if first.means('END_VAR'):
            if self.state != 'block':
                raise Misplaced('END_VAR has no block to end', first)
            self.state = 'head'
            return
        if self.state == 'block':
            raise Misplaced('END_VAR is missing before this line', first,
                            [(self.block[1], 'the block begins here')])
        if self.state == 'body':
            raise Misplaced('declarations must come before the first instruction', first,
                            [(self.began, 'the first instruction is here')])
        self.state, self.block = 'block', (first.upper, number)

    def declare(self, number, tokens) -> None:
        """name {, name} : type [:= literal] ;"""
        is_named = len(tokens) > 1 and tokens[1].text in (':', ',')
        if is_operator(tokens[0]) and not is_named:
            raise Misplaced(f'{tokens[0].text} is in a block of declarations: END_VAR is '
                            'missing', tokens[0], [(self.block[1], 'the block begins here')])
        names, at = [], 0
        while True:
            if at >= len(tokens) or tokens[at].kind != 'name':
                raise self.no_name(tokens, at)
            names.append(tokens[at])
            at += 1
            if at < len(tokens) and tokens[at].text == ',':
                at += 1
                continue
            break
        kind, initial = self.tail(tokens[at:], names[-1])
        self.declarations += [Declaration(name, number, self.block[0], kind, initial)
                              for name in names]

    def no_name(self, tokens, at) -> Misplaced:
        """Why no name of a variable stands here."""
        if at >= len(tokens):
            return Misplaced('a name must follow the comma', tokens[-1])
        if tokens[at].kind == 'word':
            return Misplaced(f'{tokens[at].text} is a reserved word, so no variable can '
                             'have that name', tokens[at])
        return Misplaced('there must be a name here', tokens[at])

    def tail(self, rest, before) -> tuple:
        if not rest or rest[0].text != ':':
            told = 'a : and a type must follow the name'
            if rest and rest[0].text == ':=':
                told = 'the type of a variable comes before its value'
            raise Misplaced(told, rest[0] if rest else before)
        if len(rest) < 2 or not rest[1].means(*TYPES, *TIMERS):
            known = f'{rest[1].text} is not a type' if len(rest) > 1 else 'the type is missing'
            raise Misplaced(known + ': it can be BOOL, INT, DINT, LINT, TIME, TON or TOF',
                            rest[1] if len(rest) > 1 else rest[0])
        kind, initial, at = rest[1].upper, None, 2
        if len(rest) > 2 and rest[2].text == ':=':
            if kind in TIMERS:
                raise Misplaced('a timer can\'t have an initial value', rest[2])
            if len(rest) < 4 or rest[3].kind != 'literal':
                raise self.no_literal(rest)
            initial, at = rest[3], 4
        if initial and self.block[0] == 'VAR_EXTERNAL':
            raise Misplaced('a point of the bay can\'t have an initial value', rest[2])
        if initial and (mend := grouping_text(rest[at - 1:])):
            raise Misplaced('a number has no comma', rest[at], (), mend)
        if at >= len(rest) or rest[at].text != ';':
            raise Misplaced('the ; is missing' if at >= len(rest) else 'there must be a ; here',
                            rest[min(at, len(rest) - 1)])
        if len(rest) > at + 1:
            raise Misplaced('each declaration has a line of its own', rest[at + 1])
        return kind, initial

    def no_literal(self, rest) -> Misplaced:
        """Why no initial value stands behind :=."""
        if len(rest) < 4:
            return Misplaced('a literal must follow :=', rest[2])
        told, mend = truth_text(rest[3].text) or ('a literal must follow :=', '')
        return Misplaced(told, rest[3], (), mend)

    def body(self, number, tokens) -> None:
        if self.state == 'head':
            self.state, self.began = 'body', number
        if tokens[0].kind == 'name':
            is_label = len(tokens) > 1 and tokens[1].text == ':'
            if is_label and (len(tokens) == 2 or is_operator(tokens[2]) or tokens[2].text == ')'):
                tokens = self.label(number, tokens)
            else:
                raise self.no_operator(tokens)
        if tokens:
            self.instruction(number, tokens)

    def no_operator(self, tokens) -> Misplaced:
        first = tokens[0]
        if any(token.means(*TYPES, *TIMERS) for token in tokens[1:]):
            return Misplaced('a declaration must be between VAR and END_VAR, before the first '
                             'instruction', first)
        if len(tokens) > 2 and tokens[1].text == '(':
            return Misplaced(f'{first.text} is not an operator: a timer is called by CAL, as '
                             f'CAL {first.text}(IN := a, PT := T#5s)', first)
        if len(tokens) > 1 and tokens[1].text == ':':
            return Misplaced('only an instruction may follow a label', tokens[2])
        other = operator_text(first.text, [token.text for token in tokens[1:]])
        if other:
            return Misplaced(other[0], first, (), other[1])
        return Misplaced(f'{first.text} is not an operator{near(first.text, OPERATORS)} (a '
                         'label has a : after it)', first)

    def label(self, number, tokens) -> list[Token]:
        if self.open:
            raise Misplaced('a label can\'t be inside a parenthesis', tokens[0],
                            [(self.open[-1], 'it was opened here')])
        self.items.append(Item('label', number, tokens[0]))
        if len(tokens) > 2 and tokens[2].text == ')':
            raise Misplaced('a ) must be alone on its line', tokens[2])
        return tokens[2:]

    def instruction(self, number, tokens) -> None:
        first, rest = tokens[0], tokens[1:]
        if first.text != ')' and not is_operator(first):
            raise Misplaced(f'a line must begin with an operator or a label, not with {first.text}',
                            first)
        if self.open and first.means('CAL', *JUMPS, *RETURNS):
            raise Misplaced(f'{first.text} can\'t be inside a parenthesis', first,
                            [(self.open[-1], 'it was opened here')])
        last = self.items[-1] if self.open else None
        if last and last.verb == '(' and not last.operand and not first.means(*LOADS):
            raise Misplaced('a parenthesis begins with LD or LDN, or with an operand after its (',
                            first, [(self.open[-1], 'it was opened here')])
        if first.text == ')':
            self.nothing(rest, ')')
            if not self.open:
                raise Misplaced('there is no open parenthesis', first)
            self.open.pop()
            self.items.append(Item(')', number, first))
        elif first.means(*COMBINES) and rest and rest[0].text == '(':
            operand = self.operand(rest[1:], first, True)
            self.open.append(number)
            self.items.append(Item('(', number, first, operand))
            if len(self.open) > DEEPEST:
                raise Misplaced(f'this is the {len(self.open)}th open parenthesis', rest[0],
                                [(line, 'open since here') for line in self.open[:-1]])
        else:
            self.items.append(self.plain(number, first, rest))
        self.count += 1
        if self.count > LONGEST:
            raise Misplaced(f'this is the {self.count:,}th line with an instruction or a )', first)

    def plain(self, number, first, rest) -> 'Item':
        if first.means(*ALONE):
            self.nothing(rest, first.text)
            return Item(first.upper, number, first)
        if first.means(*JUMPS):
            self.named([first, *rest], first.text)
            return Item(first.upper, number, first, rest[:1])
        if first.means('CAL'):
            return self.call(number, first, rest)
        operand = self.operand(rest, first)
        if first.means(*STORES) and operand[0].kind == 'literal':
            raise Misplaced(f'{first.text} needs a variable, not a literal', operand[0])
        return Item(first.upper, number, first, operand)

    def operand(self, tokens, before, may_miss=False) -> list:
        """A literal, a name, or a name with `.Q` or `.ET`."""
        if not tokens:
            if may_miss:
                return []
            raise Misplaced(f'{before.text} needs an operand', before)
        if tokens[0].means('NOT') and before.upper in NEGATED:
            raise Misplaced('NOT is an operator, and can\'t be part of an operand', tokens[0], (),
                            f'write {before.text}N instead of {before.text} NOT')
        if tokens[0].kind not in ('literal', 'name'):
            raise Misplaced(f'{tokens[0].text} can\'t be an operand{reserved_text(tokens[0])}',
                            tokens[0])
        size = 1
        if mend := grouping_text(tokens):
            raise Misplaced('a number has no comma', tokens[1], (), mend)
        if len(tokens) > 1 and tokens[1].text == '.':
            if tokens[0].kind == 'literal':
                raise Misplaced('a number can\'t have a fraction', tokens[1], (),
                                'write a whole number')
            if len(tokens) > 2 and tokens[2].upper in ('IN', 'PT'):
                name = tokens[0].text
                raise Misplaced(f'{name}.{tokens[2].text} is an input of a timer', tokens[2], (),
                                f'set it by CAL {name}(IN := a, PT := T#5s)')
            if len(tokens) < 3 or tokens[2].upper not in ('Q', 'ET'):
                raise Misplaced('only .Q or .ET may follow the name of a timer',
                                tokens[min(2, len(tokens) - 1)])
            size = 3
        self.nothing(tokens[size:], f'{before.text} and its operand')
        return tokens[:size]

    def call(self, number, first, rest) -> 'Item':
        """name ( [IN := operand] [, PT := operand] )"""
        if not rest or rest[0].kind != 'name':
            raise Misplaced('CAL needs the name of a timer', rest[0] if rest else first)
        if len(rest) < 3 or rest[1].text != '(' or rest[-1].text != ')':
            raise Misplaced('CAL needs the timer\'s inputs in parentheses on the same line, as '
                            'CAL t1(IN := a, PT := T#5s)', rest[-1])
        item, inside, part = Item('CAL', number, first, rest[:1]), rest[2:-1], []
        for token in [*inside, Token('mark', ',', rest[-1].start)] if inside else []:
            if token.text == ',':
                item.arguments.append(self.argument(part, token))
                part = []
            else:
                part.append(token)
        names = [name.upper for name, _ in item.arguments]
        if len(set(names)) < len(names):
            raise Misplaced(f'{names[-1]} is given twice', item.arguments[-1][0])
        return item

    def argument(self, part, behind) -> tuple:
        if not part or part[0].upper not in ('IN', 'PT'):
            raise Misplaced('each input is given as IN := or PT :=', part[0] if part else behind)
        if len(part) < 2 or part[1].text != ':=':
            raise Misplaced(f':= must follow {part[0].text}',
                            part[1] if len(part) > 1 else part[0])
        return part[0], self.operand(part[2:], part[1])


def grouping_text(tokens) -> str:
    """How a number is written whose digits go on after a comma; nothing where they don't."""
    first, *rest = tokens
    if first.kind != 'literal' or len(rest) < 2 or rest[0].text != ',' or (
            not rest[1].text.isdigit()):
        return ''
    return (f'write {first.text}_{rest[1].text}' if len(rest[1].text) == 3
            else 'write a whole number')


def reserved_text(token) -> str:
    return ': it is a reserved word' if token.kind == 'word' else ''


def locate(text, line) -> Place | None:
    """Why the line of a program can't be read or can't stand there, or None where it is not
    found."""
    reader = Reader(text)
    try:
        reader.read(line)
    except Misplaced as found:
        token = found.token
        return Place(found.told,
                     line=line,
                     start=token and token.start,
                     end=token and token.end,
                     others=found.others,
                     mend=found.mend)
    if line >= len(reader.lines) and reader.state != 'done':
        return Place(*ending_text(reader), line=line)
    return None


def ending_text(reader) -> tuple:
    """What is missing at the end of a text."""
    if reader.state == 'start':
        return 'the file is empty: a program begins with PROGRAM and its name', ''
    if reader.open:
        return f'the file ends here, and the parenthesis of line {reader.open[-1]} is open', ''
    if reader.state == 'block':
        return ('the file ends here: END_PROGRAM is missing, and END_VAR of the block at line '
                f'{reader.block[1]}', '')
    return 'the file ends here: END_PROGRAM is missing', ''


def read(text) -> 'Reader':
    """A program that reads well: its declarations and its items."""
    reader = Reader(text)
    reader.read(len(reader.lines))
    return reader
