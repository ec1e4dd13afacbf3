"""Which lines of a trace are not taken: by a server, whose turns have lines of contacts, inputs,
measures and of a lost process alone; by a server from its process, which can't say that it is lost;
or by a replay, which has lines of clients and scans too, in the order of their times."""
import re
from collections.abc import Iterator
from dataclasses import dataclass

from baytools.bay.files import MARKED
from baytools.common.texts import upcase

from .language import FIELDS
from .place import near

LATEST, PLACES = 4_294_967_295_999, 8
BAD = 'bad'  # in the place of a measured value
VALUES = {'contact': r'[0-3]', 'input': r'[01]', 'measure': rf'-?[0-9]+|{BAD}'}
WHAT = {'contact': 'a position from 0 to 3', 'input': '0 or 1', 'measure': 'a whole number or bad'}
FORMS = {'contact': 'MS contact ID 0..3', 'input': 'MS input NAME 0|1',
         'measure': 'MS measure ID FIELD VALUE|bad'}
LOST = 'MS lost'
REPLAYED = {'scan': 'MS scan', 'open': 'MS open A', 'recv': 'MS recv A HEX', 'close': 'MS close A'}
ALONE = {'scan': 'a server scans by itself in each turn', 'open': 'clients connect to the port',
         'recv': 'clients send to the port', 'close': 'clients close their connections'}
KINDS = {'contact': 'switch', 'input': 'input', 'measure': 'meter'}


@dataclass
class Trouble:
    """A line from 1 with what is wrong in it. A line with 120 ends the server or the replay when
    its turn comes; one with another number is refused, and changes nothing."""
    line: int
    text: str
    code: int
    told: str


class Known:
    """The names of a bay file, in upper case, by the verb that tells of them; and whether lines of
    a replay are taken, or those of a process alone."""

    def __init__(self, bay: dict, is_replay: bool = False, is_process: bool = False) -> None:
        self.names = {'contact': {upcase(one['id']) for one in bay['switch']},
                      'input': {upcase(one['name']) for one in bay.get('input', [])},
                      'measure': {upcase(one['id']) for one in bay.get('meter', [])}}
        self.is_replay, self.is_process = is_replay, is_process
        self.last, self.open = 0, set()

    def trouble(self, octets: bytes) -> tuple[int, str] | None:
        """What is wrong with a line: the number and the words, or None."""
        try:
            words = octets.decode('utf-8').split(' ')
        except UnicodeDecodeError as error:
            return 120, f'byte {octets[error.start]:02X} is not UTF-8'
        if words[0].startswith('\ufeff'):
            return 120, f'the trace {MARKED}'
        if not re.fullmatch(r'0*[0-9]{1,20}', words[0], re.ASCII) or number_of(words[0]) >= 2 ** 64:
            return (120,
                    f'a line begins with a time in milliseconds, not with {quoted_word(words[0])}')
        verb = words[1] if len(words) > 1 else ''
        found = self.form(verb, words[2:])
        if found or not self.is_replay:
            return found or self.refused(verb, words[2:])
        return self.replayed(number_of(words[0]), verb, words[2:])

    def form(self, verb: str, rest: list[str]) -> tuple[int, str] | None:
        """Why a line can't be read."""
        if verb in ALONE and not self.is_replay:
            return 120, f'{verb} is a line of a replay: {ALONE[verb]}'
        if verb in REPLAYED and self.is_replay:
            return self.form_of_replay(verb, rest)
        if verb == 'lost':
            return self.form_of_loss(rest)
        if verb not in FORMS:
            told = near(verb, [*FORMS, 'lost', *REPLAYED]) if verb else ''
            return (120, 'contact, input or measure must follow the time, not '
                    f'{quoted_word(verb)}{told}')
        value = rest[-1] if rest else ''
        if len(rest) != len(FORMS[verb].split(' ')) - 2 or '' in rest:
            return 120, f'the form is {FORMS[verb]}, with single spaces'
        if verb == 'measure' and rest[1] not in FIELDS:
            return 120, field_text(rest[1])
        if not re.fullmatch(VALUES[verb], value, re.ASCII):
            return 120, f'the value must be {WHAT[verb]}, not {quoted_word(value)}'
        is_number = verb == 'measure' and value != BAD
        if is_number and not -2 ** 31 <= number_of(value) < 2 ** 31:
            return 120, f'{quoted_word(value)} does not fit into 32 bits with sign'
        return None

    def form_of_loss(self, rest: list[str]) -> tuple[int, str] | None:
        if self.is_process:
            return 120, 'a process can\'t send lost: the server sees by itself that it is'
        return (120, f'the form is {LOST}, with nothing behind it') if rest else None

    def form_of_replay(self, verb: str, rest: list[str]) -> tuple[int, str] | None:
        if len(rest) != len(REPLAYED[verb].split(' ')) - 2 or '' in rest:
            return 120, f'the form is {REPLAYED[verb]}, with single spaces'
        if rest and not re.fullmatch('[0-9]+', rest[0], re.ASCII):
            return 120, f'the association must be a number, not {quoted_word(rest[0])}'
        if verb == 'recv' and not re.fullmatch('(?:[0-9a-fA-F]{2})+', rest[1]):
            return 120, 'the octets must be two hexadecimal digits each, and at least one'
        return None

    def refused(self, verb: str, rest: list[str]) -> tuple[int, str] | None:
        """Why a line that reads well names nothing of the bay."""
        if verb == 'lost':
            return None
        name = upcase(rest[0])
        if name in self.names[verb]:
            return None
        other = next((what for what, names in self.names.items() if name in names), None)
        more = near(name, self.names[verb])
        if other:
            more = f'; {rest[0]} is its {KINDS[other]}: write {other}'
        return 113, f'the bay has no {KINDS[verb]} {rest[0]}{more}'

    def replayed(self, moment: int, verb: str, rest: list[str]) -> tuple[int, str] | None:
        """Why a replay refuses a line that reads well; else what it changes."""
        if moment > LATEST:
            return 114, f'the time is past {LATEST:,}: are these microseconds?'
        if moment < self.last:
            return 110, f'the time goes back: the line before it has {self.last}'
        place = number_of(rest[0]) if verb in ('open', 'recv', 'close') else 0
        if verb in FORMS and (found := self.refused(verb, rest)):
            return found
        if verb in ('open', 'recv', 'close') and not 1 <= place <= PLACES:
            return 111, f'there is no association {place}: they are 1 to {PLACES}'
        if verb in ('recv', 'close') and place not in self.open:
            return 111, f'association {place} is not open'
        if verb == 'open' and place in self.open:
            return 112, f'association {place} is open already'
        self.last = moment
        self.open = self.open | {place} if verb == 'open' else self.open
        self.open = self.open - {place} if verb == 'close' else self.open
        return None


def number_of(digits: str) -> int:
    """A number of any length; one past 30 digits counts as one of 30."""
    sign, digits = ('-', digits[1:]) if digits.startswith('-') else ('', digits)
    return int(sign + (digits.lstrip('0')[:30] or '0'))


def field_text(word: str) -> str:
    if upcase(word) in FIELDS:
        return f'fields must be in upper case: {upcase(word)}'
    return f'{quoted_word(word)} is not a field: {", ".join(FIELDS)} are'


def quoted_word(word: str) -> str:
    return f'{word[:20]!r}' if word else 'nothing'


def troubles(octets: bytes, bay: dict, is_replay: bool = False) -> Iterator[Trouble]:
    """Each line of a trace that is not taken."""
    known, lines = Known(bay, is_replay), octets.split(b'\n')
    for place, line in enumerate(lines, 1):
        it = line if place == len(lines) else line.removesuffix(b'\r')
        found = known.trouble(it) if it else None
        if found:
            yield Trouble(place, it.decode('utf-8', 'backslashreplace'), *found)


def has_replayed(octets: bytes) -> bool:
    """Whether a trace has lines that only a replay takes."""
    return re.search(rb'(?m)^\d+ (?:scan|open|recv|close)\b', octets) is not None
