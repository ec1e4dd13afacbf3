"""What is meant by a word of a rule that can't stand where it does: the signs of other languages,
names and words that are misspelt, points of a program where a switch and its position belong."""
from collections.abc import Iterable, Sequence

from baytools.common.texts import upcase
from baytools.diagnosis.place import near

EQUAL, UNEQUAL = ('=', '==', ':=', ':', 'EQ'), ('<>', '!=', '/=', 'NE')
RELATIONS = {'==': '=', ':=': '=', '!=': '<>', '/=': '<>', '=<': '<=', '=>': '>='}
JOINS = {'&': 'and', '&&': 'and', ',': 'and', ';': 'and', 'UND': 'and', '||': 'or', '|': 'or',
         'ODER': 'or', '!': 'not', 'NICHT': 'not', 'IF': 'when', 'WHILE': 'when', 'WENN': 'when',
         'UNLESS': 'when not', 'WHERE': 'when'}
VERBS = {'FORBID': 'never', 'BLOCK': 'never', 'DENY': 'never', 'INTERLOCK': 'never',
         'ALLOW': 'always', 'PERMIT': 'always', 'RELEASE': 'always'}
WAYS = {'OPENED': 'open', 'OFF': 'open', 'TRIP': 'open', 'OPN': 'open', 'CLOSED': 'close',
        'ON': 'close', 'CLS': 'close'}
POINTS = {'_OPEN': 'open', '_OPN': 'open', '_CLOSED': 'closed', '_CLS': 'closed'}
BOTH = ('AND', 'OR', ',', '/', '&', '&&', '||', '+')  # where open|close is meant


def word_meant(words: Sequence[str], wanted: Sequence[str]) -> str:
    """What is meant where one of some words is wanted, and these words stand there."""
    if not words:
        return ''
    first, second = upcase(words[0]), upcase(words[1]) if len(words) > 1 else ''
    if 'WHEN' in wanted and first in BOTH and second in ('OPEN', 'CLOSE'):
        return 'write open|close'
    for known in (JOINS, VERBS, WAYS):
        if known.get(first, '').split(' ')[0].upper() in wanted:
            return f'is {known[first]} meant?'
    return near_question(near(words[0], [it.lower() for it in wanted]))


def name_meant(word: str, names: Iterable[str]) -> str:
    """Which name of the bay is meant."""
    known = {upcase(it) for it in names}
    for ending, position in POINTS.items():
        switch = upcase(word).removesuffix(ending)
        if switch != upcase(word) and switch in known:
            return f'write {switch} {position}'
    return near_question(near(word, sorted(known)))


def value_meant(words: Sequence[str], name: str, kind: str, values: Iterable[str]) -> str:
    """What is meant where a value of a thing is wanted."""
    first = upcase(words[0]) if words else ''
    if kind == 'measure':
        if first in RELATIONS:
            return f'is {RELATIONS[first]} meant?'
        return 'measures are compared as whole numbers' if first[:-1].replace(
            '.', '').replace(',', '').replace('-', '').isdigit() else ''
    if first in (*EQUAL, *UNEQUAL) and len(words) > 1:
        return f'write {name} {"not " * (first in UNEQUAL)}{words[1]}'
    if kind == 'switch' and first == 'CLOSE':
        return 'is closed meant?'
    return near_question(near(words[0], [it.lower() for it in values])) if words else ''


def rest_meant(words: Sequence[str], names: Iterable[str], positions: Iterable[str]) -> str:
    """What is meant by words that are left where a rule could end."""
    first = upcase(words[0])
    if first in JOINS and JOINS[first] in ('and', 'or'):
        return f'is {JOINS[first]} meant?'
    if first == 'WHEN':
        return 'a rule has one when: is and meant?'
    if first == ')':
        return 'no ( is open'
    if first in {upcase(it) for it in positions}:
        return f'several positions are joined by |: write |{words[0]}'
    if first in {upcase(it) for it in names}:
        return f'write and, or or, before {words[0]}'
    return near_question(near(words[0], ('and', 'or', 'when')))


def time_meant(word: str, comment: str) -> str:
    """Which time is meant by one with a fraction, without a unit, or as a program has it: T#5s."""
    if upcase(word) in ('T', 'TIME') and comment[:1].isdigit():
        return f'# begins a comment: is {comment.split(" ")[0]} meant?'
    units = {'MS': 1, 'S': 1000, 'M': 60_000, 'H': 3_600_000}
    number = word.rstrip('abcdefghijklmnopqrstuvwxyzABCDEFGHIJKLMNOPQRSTUVWXYZ')
    unit = units.get(upcase(word[len(number):]))
    try:
        found = float(number.replace(',', '.'))
    except ValueError:
        return ''
    if unit is None:
        return f'is {number}s or {number}ms meant?' if number == word else ''
    return f'is {round(found * unit)}ms meant?'


def near_question(found: str) -> str:
    """The question of `near`, by itself."""
    return found.removeprefix('; ')
