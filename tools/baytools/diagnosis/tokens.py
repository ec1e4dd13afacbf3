"""A program cut into tokens, line by line, as far as a faulty line can be."""
import re
from collections.abc import Iterator
from dataclasses import dataclass

from baytools.common.texts import upcase

from .language import NUMBERS, OPERATORS, RESERVED

TOKEN = re.compile(
    r'[ \t]+|(?P<word>[A-Za-z0-9_](?:[A-Za-z0-9_#]|(?<=#)[+-])*'
    r'|[+-][0-9](?:[A-Za-z0-9_#]|(?<=#)[+-])*|#[\w#]*)'
    r'|(?P<mark>:=|&N(?![A-Za-z0-9_])|[:,;.()&])|(?P<odd>.)', re.IGNORECASE | re.DOTALL | re.ASCII)
# A duration with a fraction: no token of the language.
FRACTION = re.compile(r'(?:T|TIME)#([0-9]+)[.,]([0-9]+)(D|H|M|S|MS)(?![A-Za-z0-9_])', re.IGNORECASE)
DIGITS = {2: '01', 8: '01234567', 10: '0123456789', 16: '0123456789ABCDEF'}
UNITS = [('D', 86_400_000), ('H', 3_600_000), ('M', 60_000), ('S', 1000), ('MS', 1)]
LONGEST = 2_147_483_647
LONG = 100  # digits that are read: a number of so many is past all ranges


@dataclass
class Literal:
    """A literal: its type, or none, and its value."""
    kind: str | None
    value: int


@dataclass
class Token:
    """A token of a line with its column. `kind` is name, word, mark, literal, bad (60) or far (63);
    `told` is what is wrong with it, and `mend` the remedy where it is known."""
    kind: str
    text: str
    start: int
    told: str = ''
    literal: Literal | None = None
    mend: str = ''

    @property
    def end(self) -> int:
        return self.start + len(self.text)

    @property
    def upper(self) -> str:
        return upcase(self.text)

    def means(self, *words) -> bool:
        return self.kind in ('word', 'mark') and self.upper in words


def without_comments(text) -> tuple:
    """The text with blanks for comments, and the place of a comment that is not closed."""
    out, at = [], 0
    while (begin := text.find('(*', at)) >= 0:
        end = text.find('*)', begin + 2)
        if end < 0:
            return ''.join(out) + text[at:begin] + blank(text[begin:]), begin
        out += text[at:begin], blank(text[begin:end + 2])
        at = end + 2
    return ''.join(out) + text[at:], None


def nested_comments(text: str) -> list[int]:
    """The places at which a comment seems to begin within another: comments do not nest."""
    found, at = [], 0
    while (begin := text.find('(*', at)) >= 0:
        end = text.find('*)', begin + 2)
        inner = text.find('(*', begin + 2, end if end >= 0 else len(text))
        found += [inner] if inner >= 0 else []
        at = end + 2 if end >= 0 else len(text)
    return found


def blank(text) -> str:
    return re.sub(r'[^\n]', ' ', text)


def lines_of(text) -> list:
    """The tokens of each line of a program; those of line n stand at place n - 1."""
    plain, unclosed = without_comments(text)
    *whole, last = plain.split('\n')
    lines = [list(tokens_of(line)) for line in [*(line.removesuffix('\r') for line in whole), last]]
    if unclosed is not None:
        line = text.count('\n', 0, unclosed)
        start = unclosed - (text.rfind('\n', 0, unclosed) + 1)
        lines[line].append(Token('bad', '(*', start, 'this comment is not closed'))
    return lines


def tokens_of(line) -> Iterator:
    for found in TOKEN.finditer(line):
        fraction = FRACTION.match(line, found.start())
        if fraction:
            yield Token('bad', fraction[0], found.start(), 'a duration has no fraction',
                        mend=whole_text(fraction))
        elif found['word'] is not None:
            yield word_token(found['word'], found.start())
        elif found['mark'] is not None:
            yield Token('mark', found['mark'], found.start())
        elif found['odd'] is not None:
            told, mend = odd_text(found['odd'])
            yield Token('bad', found['odd'], found.start(), told, mend=mend)


def whole_text(found) -> str:
    """How a duration with a fraction is written without one."""
    whole, part, unit = found[1], found[2], dict(UNITS)[upcase(found[3])]
    if len(whole + part) > LONG:
        return 'write whole numbers, as T#1s500ms'
    millis, rest = divmod(int(whole + part) * unit, 10 ** len(part))
    return f'write T#{millis}ms' if not rest else 'write whole numbers, as T#1s500ms'


def odd_text(character) -> tuple[str, str]:
    """Why no token begins with a character, and the remedy."""
    if character == '\ufeff':
        return ('a program can\'t have a byte order mark',
                'save the file as UTF-8 without a byte order mark')
    if character == '\r':
        return ('a carriage return has no line feed after it',
                'save the file with lines that end with LF or CR LF')
    if ord(character) > 126 or ord(character) < 32:
        told = f'the character {character!r} (U+{ord(character):04X}) is not ASCII'
        return f'{told}, so it may only be in a comment', 'use ASCII, or put it in a comment'
    if character == '=':
        return '= is no operator: ST stores the result, EQ compares it', 'write ST or EQ'
    if character in '+-':
        told = 'a sign must be directly before the first digit of a number'
        return told, 'remove what is between the sign and the digit'
    mend = 'write a comment between (* and *)' if character == '/' else 'remove it'
    return f'nothing can begin with {character!r} here', mend


def word_token(text, start) -> 'Token':
    upper = upcase(text)
    if '#' not in text and re.match('[A-Z_]', upper):
        if upper in ('TRUE', 'FALSE'):
            return Token('literal', text, start, literal=Literal('BOOL', int(upper == 'TRUE')))
        if upper in RESERVED:
            return Token('word', text, start)
        told = f'this name has {len(text)} characters, but may have at most 64'
        told = told if len(text) > 64 else ''
        return Token('bad' if told else 'name', text, start, told)
    kind, held = literal_of(upper)
    if kind == 'bad' and duration_of(upper)[0] != 'bad':
        return Token('bad', text, start, f'{text} is a duration, which begins with T#',
                     mend=f'write T#{text}')
    if isinstance(held, str):
        return Token(kind, text, start, held)
    return Token(kind, text, start, literal=held)


def literal_of(text) -> tuple:
    """A literal, or why it is none (bad) or out of range (far)."""
    before, hash_mark, after = text.partition('#')
    if hash_mark and before in ('T', 'TIME'):
        return duration_of(after)
    if hash_mark and before in ('BOOL', *NUMBERS):
        if after in ('TRUE', 'FALSE'):
            if before != 'BOOL':
                return 'far', f'{after} is not a value of {before}'
            return 'literal', Literal('BOOL', int(after == 'TRUE'))
        return in_range(before, number_of(after))
    return in_range(None, number_of(text))


def in_range(kind, value) -> tuple:
    """A number of a type, where it is one."""
    if isinstance(value, str):
        return 'bad', value
    bits = NUMBERS.get(kind or 'LINT')
    least, most = (0, 1) if kind == 'BOOL' else (-2 ** (bits - 1), 2 ** (bits - 1) - 1)
    if not least <= value <= most:
        shown = f'{value:,}' if abs(value) < 10 ** 30 else 'a number with that many digits'
        told = f'{shown} is not from {least:,} to {most:,}'
        return 'far', told + (f', the values of {kind}' if kind else '')
    return 'literal', Literal(kind, value)


def number_of(text) -> int | str:
    """The value of a number with a base or a sign, or what is wrong with it."""
    before, hash_mark, digits = text.partition('#')
    if hash_mark and before not in ('2', '8', '16'):
        lead = f'{before} can\'t be before #' if before else 'nothing is before #'
        return f'{lead}: it can be 2, 8, 16, BOOL, INT, DINT, LINT, T or TIME'
    base = int(before) if hash_mark else 10
    sign = '' if hash_mark else text[:1] if text[:1] in '+-' else ''
    digits = digits if hash_mark else text.removeprefix(sign) if sign else text
    if hash_mark and digits[:1] in ('+', '-'):
        return 'a number with a base can\'t have a sign'
    odd = next((c for c in digits if c != '_' and c not in DIGITS[base]), None)
    if odd is not None:
        return f'{odd} is not a digit of base {base}'
    if not digits or digits[0] == '_' or digits[-1] == '_' or '__' in digits:
        told = '_ may only be single, and between two digits'
        return told if digits else 'there is no digit'
    value = digits.replace('_', '').lstrip('0') or '0'
    return int(value[:LONG], base) * (-1 if sign == '-' else 1)


def duration_of(text) -> tuple:
    """A TIME by its parts in falling units."""
    parts, rest, total, last = 0, text, 0, -1
    while rest:
        part = re.match(r'(_?)(\d+(?:_\d+)*)([A-Z]*)', rest)
        place = next((n for n, (unit, _) in enumerate(UNITS) if part and unit == part[3]), None)
        if place is None:
            return 'bad', f'{rest} is not a number with a unit: d, h, m, s or ms'
        if part[1] and not parts or place <= last:
            told = 'the units of a duration must be in the order d, h, m, s, ms, each at most once'
            return 'bad', told if parts else 'a duration begins with a digit'
        total += int(part[2].replace('_', '').lstrip('0')[:LONG] or '0') * UNITS[place][1]
        last, rest, parts = place, rest[part.end():], parts + 1
    if not parts:
        return 'bad', 'a duration needs a number with a unit, as T#500ms'
    if total > LONGEST:
        return 'far', f'{total:,} ms are more than {LONGEST:,}, some 24 days'
    return 'literal', Literal('TIME', total)


def is_operator(token) -> bool:
    return token.means(*OPERATORS)
