"""The rules of an interlocking: what may never be released, and what is to be always, in which
state of the bay.

    # a comment
    look   M1_AA 0|5
    never  QB1 open|close when QC1 not open and not BYPASS
    always QA1 open
    always QA1 close      when QB1 closed and QB2 open and QC1 open and QB9 open|closed
    never  QC9 close      until U_DEAD and M1_HZ 0 for 10s
    always QC9 close      after U_DEAD and M1_HZ 0 for 10s when QB9 open

A condition is made with and, or, not and parentheses of: a switch and its positions (intermediate,
open, closed, bad; several with |; `not` before them), an input alone, an input or a measure and its
values (`M1_AA 0|5`), or a measure that is compared (`M1_AA < 5`; <=, >, >=, =, <>). `is` may stand
before positions and values; off and on are older words for open and closed. Case does not matter in
names, and # begins a comment. Where a switch and an input have one name, positions mean the switch.
`look` says which values a switch, an input or a measure goes through: all positions, 0 and 1, and
of a measure 0 alone, where nothing is said.

`never .. until C for T` forbids a release until C has held without a break for the time T, and
`always .. after C for T` demands it from then on; `when` says in which combinations that is asked.
A time is a number with a unit (d, h, m, s, ms), or several of them: 10s, 1m30s, 500ms."""
import itertools
import math
import operator
import re
from collections.abc import Callable, Iterator
from dataclasses import dataclass, field

from baytools.common import positions
from baytools.common.ending import Failed, UsageError
from baytools.common.texts import upcase
from baytools.diagnosis.place import marked_line, near

from .rule_words import name_meant, rest_meant, time_meant, value_meant, word_meant

POSITIONS = {upcase(word): value for value, word in enumerate(positions.POSITIONS)}
POSITIONS |= {upcase(old): POSITIONS[upcase(word)] for old, word in positions.OLDER.items()}
TRUTHS = {'FALSE': 0, 'TRUE': 1}
WAYS = {'OPEN': 0, 'CLOSE': 1}
SWITCH, INPUT, MEASURE = 'switch', 'input', 'measure'
WANTED = {SWITCH: 'intermediate, open, closed or bad', INPUT: '0, 1, FALSE or TRUE',
          MEASURE: 'a whole number of 32 bits'}
WORDS = {'WHEN', 'AND', 'OR', 'NOT', 'IS', 'FOR', '(', ')', '|'}
KEYWORDS = {*WORDS, *POSITIONS, *TRUTHS, *WAYS, 'NEVER', 'ALWAYS', 'LOOK', 'UNTIL', 'AFTER'}
DEEPEST = 64
STATES = 200_000  # in which it is tried whether a rule can apply
RELATIONS = {'<': operator.lt, '<=': operator.le, '>': operator.gt, '>=': operator.ge,
             '=': operator.eq, '<>': operator.ne}
UNITS = {'D': 86_400_000, 'H': 3_600_000, 'M': 60_000, 'S': 1000, 'MS': 1}


# The words of a rule; the signs of other languages and numbers with a fraction are words too, so
# that it can be said what is meant.
WORD = re.compile(r'-?[0-9]+[.,][0-9]+[A-Za-z]*|[A-Za-z0-9_\-]+|<=|>=|<>|==|=<|=>|!=|/=|:=|&&|'
                  r'\|\||\S')


class BadRule(Failed):
    """A rule that can't be read: why, in which columns of its line from 0, and what is meant."""

    def __init__(self, told: str, start: int | None = None, end: int | None = None,
                 meant: str = '') -> None:
        super().__init__(told + (f'; {meant}' if meant else ''))
        self.start, self.end, self.line = start, end, 0

    def within(self, where: str) -> 'BadRule':
        """The same in a file or a line."""
        found = BadRule(f'{where}: {self}', self.start, self.end)
        found.more, found.line = self.more, self.line
        return found

    def at_line(self, number: int, line: str) -> 'BadRule':
        """The same with the number of its line, its column, and the line with a mark."""
        column = '' if self.start is None else f', column {self.start + 1}'
        found = self.within(f'line {number}{column}')
        found.more, found.line = tuple(marked_line(line, number, self.start, self.end)), number
        return found


class BadOption(UsageError):
    """A value of the command line that can't be read."""


def value_of(kind: str, word: str) -> int | None:
    """The value that a word is of a switch, an input or a measure, or None."""
    word = upcase(word)
    if kind == SWITCH:
        return POSITIONS.get(word)
    if kind == INPUT:
        return TRUTHS.get(word, {'0': 0, '1': 1}.get(word))
    number = re.fullmatch(r'(-?)0*([0-9]{1,10})', word, re.ASCII)
    value = int(number[1] + number[2]) if number else None
    return value if value is not None and -2 ** 31 <= value < 2 ** 31 else None


@dataclass
class Since:
    """A condition that holds for a time, in milliseconds; `names` are those that it names."""
    condition: Callable
    names: set
    time: int


@dataclass
class Rule:
    """`ways` are the releases of a switch (0 to open, 1 to close) that may not be, or are to be,
    where the condition holds of a state, which gives each name its value. `since` is the condition
    of a rule with a time; `constants` are those of which measures are asked; `remarks` are the
    comments above it, a paragraph each."""
    line: int
    text: str
    wanted: bool
    switch: str
    ways: list
    condition: Callable
    since: Since | None = None
    names: set = field(default_factory=set)
    constants: dict = field(default_factory=dict)
    remarks: tuple = ()

    def can_apply(self) -> bool:
        """Whether its condition holds of any state; where that is too much to be tried it may."""
        values = [self.values_of(key) for key in sorted(self.names)]
        if math.prod(map(len, values)) > STATES:
            return True
        return any(self.condition(dict(zip(sorted(self.names), state)))
                   for state in itertools.product(*values))

    def applies(self, state: dict) -> bool:
        """Whether it applies in a state, a rule with a time once its condition has held so long."""
        return bool(self.condition(state) and (not self.since or self.since.condition(state)))

    def values_of(self, key: tuple) -> list[int]:
        """The values of a thing between which a condition may tell."""
        if key[0] != MEASURE:
            return [0, 1, 2, 3] if key[0] == SWITCH else [0, 1]
        found = self.constants.get(key, {0})
        return sorted({value + more for value in found for more in (-1, 0, 1)})

    def breaks(self, releases) -> bool:
        """Whether what is released of each switch breaks the rule, in a state in which its
        condition holds."""
        return any(releases[self.switch][way] != self.wanted for way in self.ways)


class Reader:
    """Reads one rule, word by word. `names` are those that its conditions name, each with its kind:
    (switch, QA1). `known` are those of the bay."""

    def __init__(self, text: str, known: set) -> None:
        self.known, self.names, self.constants, self.depth = known, set(), {}, 0
        said, _, self.comment = text.partition('#')
        self.places = [(it.start(), it.end()) for it in WORD.finditer(said)]
        self.words = WORD.findall(said)

    def bad(self, told: str, meant: str = '', back: int = 0) -> BadRule:
        """What is wrong at the next word, or so many words before it."""
        at = len(self.places) - len(self.words) - back
        end = self.places[-1][1] if self.places else 0
        start, end = self.places[at] if at < len(self.places) else (end, end + 1)
        return BadRule(told, start, end, meant)

    def next_text(self) -> str:
        return self.words[0] if self.words else 'the end'

    def names_of(self, *kinds: str) -> list[str]:
        """The names of the bay of some kinds."""
        return [name for kind, name in self.known if kind in kinds]

    def peek(self) -> str:
        return upcase(self.words[0]) if self.words else ''

    def take(self, *wanted) -> str:
        """The next word, where it is one of these, or any if none are given."""
        if not self.words or (wanted and self.peek() not in wanted):
            told = ' or '.join(wanted).lower() or 'a word'
            raise self.bad(f'there must be {told} here, not {self.next_text()}',
                           word_meant(self.words, wanted))
        return upcase(self.words.pop(0))

    def may_take(self, word) -> bool:
        return bool(self.words) and self.peek() == word and bool(self.words.pop(0))

    def rule(self, line, text) -> 'Rule':
        wanted = self.take('NEVER', 'ALWAYS') == 'ALWAYS'
        switch = self.take()
        if (SWITCH, switch) not in self.known:
            raise self.bad(f'{switch} is not a switch of the bay',
                           name_meant(switch, self.names_of(SWITCH)), 1)
        ways = self.several(lambda: WAYS[self.take(*WAYS)])
        since = self.since('AFTER' if wanted else 'UNTIL')
        condition = self.any_of() if self.words and self.take('WHEN') else lambda state: True
        if self.words:
            raise self.bad(f'{self.words[0]} can\'t be here',
                           rest_meant(self.words, self.names_of(*WANTED), POSITIONS))
        return Rule(line, text, wanted, switch, ways, condition, since, self.names,
                    self.constants)

    def since(self, word) -> 'Since | None':
        """The condition of `until C for T` or `after C for T`, or None."""
        if self.peek() in ('UNTIL', 'AFTER') and self.peek() != word:
            raise self.bad('`until` belongs to `never`, and `after` to `always`',
                           f'is {word.lower()} meant?')
        if not self.may_take(word):
            return None
        condition, names = self.any_of(), set(self.names)
        self.take('FOR')
        written = self.next_text()
        self.take()
        try:
            return Since(condition, names, time_of(upcase(written)))
        except BadRule as error:
            raise self.bad(str(error), time_meant(written, self.comment), 1) from None

    def several(self, one) -> list:
        found = [one()]
        while self.may_take('|'):
            found.append(one())
        return found

    def any_of(self) -> Callable:
        parts = [self.all_of()]
        while self.may_take('OR'):
            parts.append(self.all_of())
        return lambda state: any(part(state) for part in parts)

    def all_of(self) -> Callable:
        parts = [self.one()]
        while self.may_take('AND'):
            parts.append(self.one())
        return lambda state: all(part(state) for part in parts)

    def one(self) -> Callable:
        self.depth += 1
        if self.depth > DEEPEST:
            raise self.bad(f'more than {DEEPEST} `not` and parentheses are within each other')
        if self.may_take('NOT'):
            part = negation_of(self.one())
        elif self.may_take('('):
            part = self.any_of()
            self.take(')')
        else:
            part = self.fact()
        self.depth -= 1
        return part

    def fact(self) -> Callable:
        """A name and its values."""
        name = self.take()
        kinds = [kind for kind in WANTED if (kind, name) in self.known]
        if not kinds:
            raise self.bad(f'{name} is not a switch, input or measure of the bay',
                           name_meant(name, self.names_of(*WANTED)), 1)
        if MEASURE in kinds and self.peek() in RELATIONS:
            return self.compared((MEASURE, name))
        told = self.may_take('IS')
        negated = self.may_take('NOT')
        is_alone = not told and not negated and (not self.words or self.peek() in WORDS)
        if is_alone and INPUT in kinds:
            return self.named((INPUT, name), lambda value: value != 0)
        key = next(((kind, name) for kind in kinds if value_of(kind, self.peek()) is not None),
                   (kinds[0], name))
        values = self.several(lambda: self.value(key))
        return self.named(key, lambda value: (value in values) != negated)

    def compared(self, key) -> Callable:
        """A comparison of a measure."""
        relation, value = RELATIONS[self.take()], self.value(key)
        return self.named(key, lambda it: relation(it, value))

    def named(self, key, holds) -> Callable:
        """A condition on the value of one thing."""
        self.names.add(key)
        return lambda state: holds(state[key])

    def value(self, key) -> int:
        value = value_of(key[0], self.peek())
        if value is None:
            told = value_text(self.next_text(), *key)
            if self.words and not re.search('[A-Za-z0-9]', self.words[0]):
                told = (f'{self.words[0]} can\'t be here: the value of the {key[0]} {key[1]} '
                        f'follows it ({WANTED[key[0]]})')
            raise self.bad(told, value_meant(self.words, key[1], key[0],
                                             POSITIONS if key[0] == SWITCH else TRUTHS))
        self.take()
        if key[0] == MEASURE:
            self.constants.setdefault(key, set()).add(value)
        return value


def value_text(word: str, kind: str, name: str) -> str:
    """Why a thing can't have a value."""
    return f'{word} is not a value of the {kind} {name}: it can be {WANTED[kind]}'


def negation_of(condition: Callable) -> Callable:
    return lambda state: not condition(state)


def time_of(word: str) -> int:
    """The milliseconds of a time."""
    if not re.fullmatch(r'([0-9]{1,20}(MS|[DHMS]))+', word):
        raise BadRule(f'{word.lower()} is not a time, such as 5s, 1m30s or 500ms')
    parts = re.findall(r'([0-9]+)(MS|[DHMS])', word)
    time = sum(int(number) * UNITS[unit] for number, unit in parts)
    if not 0 < time < 2 ** 31:
        raise BadRule(f'{word.lower()} is not a time that a timer can have')
    return time


def lines_of(text: str) -> Iterator[tuple[int, str]]:
    """The lines that say something, each with its number, without comments and with single
    blanks."""
    for number, line in enumerate(text.split('\n'), 1):
        rule = ' '.join(line.partition('#')[0].split())
        if rule:
            yield number, rule


@dataclass
class Look:
    """The values that a name is to go through, as they are written; `where` is the line or the
    option that says so, `kinds` are those that may be meant, and `written` is that line."""
    name: str
    words: list
    where: str
    kinds: tuple = tuple(WANTED)
    written: str = ''

    def thing_and_values(self, known: set) -> tuple[tuple, list]:
        """The thing that is meant, and its values."""
        kinds = [kind for kind in self.kinds if (kind, self.name) in known]
        if not kinds:
            others = [kind for kind in WANTED if (kind, self.name) in known]
            meant = near(self.name, sorted(name for kind, name in known if kind in self.kinds))
            raise self.wrong(f'{self.name} is a {others[0]}' if others else
                             f'{self.name} is not in the bay{meant}', self.name)
        for kind in kinds:
            values = [value_of(kind, word) for word in self.words]
            if None not in values:
                break
        else:
            word = self.words[values.index(None)] or 'nothing'
            raise self.wrong(value_text(word, kind, self.name), word)
        twice = next((word for at, word in enumerate(self.words) if values[at] in values[:at]), '')
        if twice:
            raise self.wrong(f'{twice} is given twice')
        return (kind, self.name), values

    def wrong(self, told: str, word: str = '') -> Failed:
        """What is wrong, at a word of the line."""
        if not self.written:
            kind = BadOption if self.where.startswith('--') else BadRule
            return kind(f'{self.where}: {told}')
        at = upcase(self.written).rfind(upcase(word)) if word else -1
        found = BadRule(told) if at < 0 else BadRule(told, at, at + len(word))
        return found.at_line(int(self.where.removeprefix('line ')), self.written)


def looked_at(looks: list[Look], known: set) -> dict:
    """The values of the things that looks tell of, by kind and name. A name has one look."""
    found, first = {}, {}
    for look in looks:
        key, values = look.thing_and_values(known)
        if key in found:
            raise look.wrong(f'{look.name} is in {first[key].where} already')
        found[key], first[key] = values, look
    return found


def read_looks(text: str) -> list[Look]:
    """What a text tells to look at."""
    looks, written = [], text.split('\n')
    for number, line in lines_of(text):
        verb, *rest = re.sub(r' ?\| ?', '|', line).split(' ')
        if upcase(verb) == 'LOOK':
            if len(rest) != 2:
                told = BadRule('the form is look NAME VALUE|VALUE', 0, len(verb))
                raise told.at_line(number, line)
            looks.append(Look(upcase(rest[0]), rest[1].split('|'), f'line {number}',
                              written=written[number - 1].partition('#')[0]))
    return looks


def looks_of_option(option: str, text: str | None, kind: str) -> list[Look]:
    """What an option holds: NAME=VALUE|VALUE, parted by commas, of things of one kind."""
    looks = []
    for part in filter(None, (text or '').split(',')):
        name, sign, values = part.partition('=')
        if not sign:
            raise BadOption(f'{option} {part}: the form is NAME=VALUE|VALUE')
        looks.append(Look(upcase(name.strip()), values.split('|'), f'{option} {part}', (kind,)))
    return looks


def read_rules(text: str, known: set) -> list[Rule]:
    """The rules of a text, for the things of a bay, each as its kind and its name in upper case."""
    rules, above, written = [], remarks_above(text), text.split('\n')
    for number, line in lines_of(text):
        if upcase(line.split(' ')[0]) != 'LOOK':
            try:
                rules.append(Reader(written[number - 1], known).rule(number, line))
            except BadRule as error:
                raise error.at_line(number, written[number - 1]) from None
            rules[-1].remarks = above[number]
    return rules


def faults_of(text: str, known: set) -> list[BadRule]:
    """What is wrong with each line of rules that can't be read."""
    found, written = [], text.split('\n')
    for number, line in lines_of(text):
        try:
            if upcase(line.split(' ')[0]) == 'LOOK':
                looked_at(read_looks('\n' * (number - 1) + written[number - 1]), known)
            else:
                Reader(written[number - 1], known).rule(number, line)
        except BadRule as error:
            found.append(error if error.line else error.at_line(number, written[number - 1]))
    return found


def remarks_above(text: str) -> dict[int, tuple[str, ...]]:
    """The comments above each rule, up to the rule before it, with a comment at its end; lines of a
    comment that follow one another are a paragraph."""
    found, paragraphs, is_open = {}, [], False
    for number, line in enumerate(text.split('\n'), 1):
        said, mark, comment = line.partition('#')
        comment = ' '.join(comment.split())
        if comment and is_open and not said.strip():
            paragraphs[-1] += f' {comment}'
        elif comment:
            paragraphs.append(comment)
        is_open = bool(comment)
        if upcase(said.strip().partition(' ')[0]) not in ('', 'LOOK'):
            found[number], paragraphs, is_open = tuple(paragraphs), [], False
    return found
