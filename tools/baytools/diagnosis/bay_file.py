"""Where and why a bay file is refused: its first refusal, in the order in which the profile looks,
with the line of the entry."""
import re
import tomllib
from collections.abc import Iterator

from baytools.bay.files import WIDE, encoding_text
from baytools.common.texts import upcase

from .dialects import quote_text
from .language import FIELDS, RESERVED
from .place import Place, near

IDENTIFIER = r'[A-Za-z][A-Za-z0-9_]*'
LENGTHS = {'domain': 32, 'id': 16, 'name': 16, 'remote': 16}
KINDS = ['breaker', 'disconnector', 'earthing']
CONTROLS = {'status': [], 'direct': ['travel_ms'], 'sbo': ['sbo_timeout_ms', 'travel_ms'],
            'sbo-enhanced': ['sbo_timeout_ms', 'travel_ms']}
TIMES = ['sbo_timeout_ms', 'travel_ms']
CHECKED = ['remote', 'synchrocheck']  # what an operate is checked for besides
OPTIONAL = [*CHECKED, 'profile', 'scale']
SYNCHROCHECKS = ['refuse']
WORDS = {'kind': KINDS, 'control': list(CONTROLS), 'synchrocheck': SYNCHROCHECKS}
SECTIONS = {'bay': (1, 1), 'switch': (1, 32), 'input': (0, 64), 'meter': (0, 8)}
ENTRIES = {'switch': ('switch', 'switches'), 'input': ('input', 'inputs'),
           'meter': ('meter', 'meters')}
PROFILES = (1, 2)  # the first and the last
NUMBERS = {'scan_max_age_ms': (0, 600_000), 'profile': PROFILES, 'sbo_timeout_ms': (1, 600_000),
           'travel_ms': (1, 600_000), 'scale': (-6, 6)}
LONGEST = 262_144
TYPES = {str: 'a text', bool: 'a truth value', int: 'a number',
         float: 'a number with a fraction', list: 'a list', dict: 'a table'}
POINTS = {'switch': {'_POS': 'INT', '_OPEN': 'BOOL', '_CLOSED': 'BOOL', '_ENA_OPN': 'BOOL',
                     '_ENA_CLS': 'BOOL'},
          'input': {'': 'BOOL'},
          'meter': {f'_{field}': 'DINT' for field in FIELDS}}


class Refused(Exception):
    """A refusal of a bay file: its number and its place."""

    def __init__(self, code, place) -> None:
        super().__init__(code)
        self.code, self.place = code, place


def text_of(octets) -> str:
    """The text of a bay file, without a byte order mark at its start."""
    if len(octets) > LONGEST:
        raise Refused(50, Place(f'it has {len(octets):,} bytes, but may have at most {LONGEST:,}'))
    try:
        return octets.decode('utf-8').removeprefix('\ufeff')
    except UnicodeDecodeError as error:
        line = octets.count(b'\n', 0, error.start) + 1
        wide = octets[:2] in WIDE
        told = encoding_text(octets, error.start, names_line=False).partition(':')[0]
        raise Refused(50, Place(told, line=None if wide else line,
                                mend='save the file as UTF-8' if wide else '')) from None


def table_of(text) -> dict:
    """The tables of a bay file, or where Python's reader of TOML stops."""
    try:
        return tomllib.loads(text)
    except tomllib.TOMLDecodeError as error:
        told, _, where = str(error).partition(' (at ')
        line = re.match(r'line (\d+), column (\d+)', where)
        place = Place(told, line=text.rstrip('\n').count('\n') + 1)
        if line:
            place = Place(told, line=int(line[1]), start=int(line[2]) - 1)
        raise Refused(50, toml_place(place, text)) from None
    except (ValueError, RecursionError):
        raise Refused(50, Place('a number or a list exceeds what Python can read')) from None


def toml_place(place: Place, text: str) -> Place:
    """The place at which TOML can't be read, with the mistake that is mostly made there."""
    line = text.split('\n')[place.line - 1]
    if '\r' in text.replace('\r\n', '\n'):
        place.told, place.mend = 'a carriage return has no line feed after it', (
            'save the file with lines that end with LF or CR LF')
    elif '//' in line and place.start == line.find('//'):
        place.told, place.mend = 'a key can\'t begin with //', 'begin a comment with #'
    elif quote := quote_text(line, min(place.start or 0, open_quote(line) or LONGEST)):
        place.start, place.told, place.mend = quote
        place.end = place.start + 1
    elif (opened := open_quote(line)) is not None and '"""' not in line and "'''" not in line:
        place.told, place.start = 'this quote is not closed on its line', opened
        place.end, place.mend = opened + 1, 'put a quote at the end of the text'
    else:
        twice_text(place, line, text)
    return place


def open_quote(line: str) -> int | None:
    """The column at which a text opens that no quote of the line closes."""
    closed = re.sub(r'"(?:[^"\\]|\\.)*"|\'[^\']*\'|#.*', lambda it: ' ' * len(it[0]), line)
    found = re.search(r'["\']', closed)
    return found.start() if found else None


def twice_text(place: Place, line: str, text: str) -> None:
    """Of a section that stands twice, where it stood first, perhaps as a list or as none."""
    head = re.match(r'\s*\[\[?\s*([\w-]+)\s*\]', line)
    before = text.split('\n')[:place.line - 1]
    first = next((at for at, other in enumerate(before, 1)
                  if head and re.match(rf'\s*\[\[?\s*{re.escape(head[1])}\s*\]', other)), None)
    if first:
        place.told = f'the section [{head[1]}] is given twice'
        place.others = [(first, 'the first time here')]
        place.mend = 'remove one of them' if head[1] == 'bay' else (
            f'write [[{head[1]}]] for each {head[1]}')


class Lines:
    """The lines on which sections and keys of a bay file stand. None is known where a section is
    not written as [section] or [[section]]."""

    def __init__(self, text) -> None:
        self.lines, self.heads, self.keys, self.top = text.split('\n'), {}, {}, {}
        quotes, at = None, None
        for number, line in enumerate(self.lines, 1):
            if quotes is None:
                at = self.take(number, line, at)
            for mark in re.findall(r'"""|\'\'\'', line):
                quotes = None if quotes == mark else quotes or mark

    def take(self, number, line, at) -> tuple | None:
        """Notes what begins on a line, and gives the table in which the next line stands."""
        head = re.match(r'\s*\[\[?\s*["\']?([\w-]+)["\']?\s*\]\]?', line)
        if head:
            self.heads.setdefault(head[1], []).append(number)
            self.top.setdefault(head[1], number)
            return head[1], len(self.heads[head[1]]) - 1
        key = re.match(r'\s*["\']?([\w-]+)["\']?\s*[.=]', line)
        if key and at is None:
            self.top.setdefault(key[1], number)
        elif key:
            self.keys.setdefault((*at, key[1]),
                                 (number, key.start(1), len(line.partition('#')[0].rstrip())))
        return at

    def entry(self, section, index, count) -> int | None:
        """The line of an entry, where as many were found as there are."""
        found = self.heads.get(section, [])
        return found[index] if len(found) == count else None

    def place(self, told, where, section, index, count, key=None) -> Place:
        """The place of a key of an entry, or of the entry where the key is not found."""
        line = self.entry(section, index, count)
        if line is None:
            return Place(told, where, self.top.get(section) or self.top.get(key))
        number, start, end = self.keys.get((section, index, key), (line, None, None))
        return Place(told, where, number, start, end)


class Judge:
    """Goes through a bay file as the profile says, and tells its refusals in the order in which
    bayctl looks for them."""

    def __init__(self, file, lines) -> None:
        self.file, self.lines = file, lines

    def all(self) -> Iterator[Refused]:
        """All refusals; those of names where nothing else is wrong."""
        found = False
        for refused in self.of_entries():
            found = True
            yield refused
        if not found:
            try:
                self.names()
            except Refused as refused:
                yield refused

    def of_entries(self) -> Iterator[Refused]:
        for name in self.file:
            if name not in SECTIONS:
                told = f'there is no section {name}{near(name, SECTIONS)}'
                yield Refused(52, Place(told, f'section {name}', self.lines.top.get(name)))
        for section in SECTIONS:
            try:
                entries = self.entries(section)
            except Refused as refused:
                yield refused
                continue
            for index, entry in enumerate(entries):
                yield from self.entry(section, index, len(entries), entry)

    def entries(self, section) -> list:
        """The tables of a section."""
        least, most = SECTIONS[section]
        held, line = self.file.get(section), self.lines.top.get(section)
        if held is None or held == []:
            if least:
                what = 'the section [bay]' if section == 'bay' else 'an entry [[switch]]'
                raise Refused(51, Place(f'{what} is missing', f'section {section}'))
            return []
        if section == 'bay':
            if not isinstance(held, dict):
                told = 'bay must be one table' + found_instead(held)
                raise Refused(53, Place(told, 'section bay', line, mend='write [bay]'))
            return [held]
        if not isinstance(held, list) or not all(isinstance(entry, dict) for entry in held):
            told = f'{section} must be a list of tables{found_instead(held)}'
            raise Refused(53, Place(told, f'section {section}', line,
                                    mend=f'write [[{section}]] for each {section}'))
        if len(held) > most:
            told = f'there are {len(held)} {ENTRIES[section][1]}, but at most {most} are allowed'
            place = Place(told, f'section {section}')
            place.line = self.lines.entry(section, most, len(held))
            raise Refused(55, place)
        return held

    def where(self, section, index, entry, key=None) -> str:
        name = entry.get('id', entry.get('name'))
        named = f' ({name})' if isinstance(name, str) else ''
        it = '[bay]' if section == 'bay' else f'{ENTRIES[section][0]} {index + 1}{named}'
        return it + (f', key {key}' if key else '')

    def entry(self, section, index, count, entry) -> Iterator:
        """The keys of one entry."""
        wanted = keys_of(section, entry, profile_of(self.file))
        for key in entry:
            if key not in wanted:
                told = self.unknown(section, entry, key, wanted)
                where = self.where(section, index, entry, key)
                yield Refused(52, self.lines.place(told, where, section, index, count, key))
        for key in wanted:
            where = self.where(section, index, entry, key)
            if key in entry:
                told = value_fault(key, entry[key])
                if told:
                    place = self.lines.place(told, where, section, index, count, key)
                    place.mend = case_mend(key, entry[key])
                    yield Refused(53, place)
            elif key not in OPTIONAL and (key not in TIMES
                                          or entry.get('control') in list(CONTROLS)):
                told = f'the key {key} is missing'
                if key in TIMES:
                    told += f', which control = "{entry["control"]}" needs'
                yield Refused(51, self.lines.place(told, where, section, index, count))

    def unknown(self, section, entry, key, wanted) -> str:
        if section == 'switch' and key in (*TIMES, *CHECKED):
            by = 'kind' if key == 'synchrocheck' and entry.get('control') != 'status' else 'control'
            return f'{by} = "{entry[by]}" has no {key}'
        if section == 'meter' and key == 'scale':
            return 'only a meter of profile 2 has a scale'
        return f'there is no key {key} here{near(key, wanted)}'

    def names(self) -> None:
        """Points of one name, such as are reserved words, and keys that are no input."""
        points, first = list(self.points()), {}
        for name, _, section, index, count, entry in points:
            if name in first:
                _, _, section_1, index_1, count_1, entry_1 = first[name]
                where, other = (self.where(*it) for it in (
                    (section, index, entry), (section_1, index_1, entry_1)))
                told = f'{other} and {where} would both have a point {name}'
                place = self.lines.place(told, where, section, index, count, key_of(section))
                before = self.lines.place('', '', section_1, index_1, count_1, key_of(section_1))
                place.others = [(before.line, f'{other} is here')]
                raise Refused(54, place)
            first[name] = (name, _, section, index, count, entry)
        for name, _, section, index, count, entry in points:
            if name in RESERVED:
                told = f'the point {name} would have a reserved word of the language as its name'
                where = self.where(section, index, entry)
                raise Refused(53, self.lines.place(told, where, section, index, count,
                                                   key_of(section)))
        self.remotes()

    def remotes(self) -> None:
        """The first switch whose key is no input."""
        inputs = {upcase(it['name']) for it in self.file.get('input', [])}
        switches = self.file.get('switch', [])
        for index, entry in enumerate(switches):
            if 'remote' in entry and upcase(entry['remote']) not in inputs:
                place = self.lines.place(f'there is no input {entry["remote"]}',
                                         self.where('switch', index, entry, 'remote'), 'switch',
                                         index, len(switches), 'remote')
                place.mend = 'write the name of an [[input]], or add that input'
                raise Refused(53, place)

    def points(self) -> Iterator:
        """Each point with its type and the entry that it is of."""
        for section, endings in POINTS.items():
            entries = self.file.get(section, [])
            for index, entry in enumerate(entries):
                for ending, kind in endings.items():
                    name = upcase(entry[key_of(section)]) + ending
                    yield name, kind, section, index, len(entries), entry


def key_of(section) -> str:
    return 'name' if section == 'input' else 'id'


def found_instead(held) -> str:
    """What stands in the place of something else."""
    if isinstance(held, list):
        return ', not a list'
    return f', not {TYPES.get(type(held), "something else")}'


def profile_of(file) -> int:
    """The profile of the model: 1 if the file names none, or one that is refused."""
    bay = file.get('bay')
    return 2 if isinstance(bay, dict) and is_two(bay.get('profile')) else 1


def is_two(value) -> bool:
    return type(value) is int and value == 2


def keys_of(section, entry, profile=1) -> list:
    """The keys of an entry in their order."""
    if section == 'bay':
        return ['domain', 'vendor', 'model', 'revision', 'scan_max_age_ms', 'profile']
    if section == 'meter' and profile == 2:
        return ['id', 'scale']
    if section != 'switch':
        return [key_of(section)]
    control, kind = entry.get('control'), entry.get('kind')
    times = CONTROLS.get(control, TIMES) if isinstance(control, str) else TIMES
    checked = [] if control == 'status' else CHECKED if kind not in KINDS[1:] else CHECKED[:1]
    return ['id', 'kind', 'control', *times, *checked]


def value_fault(key, value) -> str | None:
    """What is wrong with a value, if anything is."""
    if key in NUMBERS:
        least, most = NUMBERS[key]
        if isinstance(value, bool) or not isinstance(value, int):
            return f'the value must be a whole number{found_instead(value)}'
        span = f'{least}' if least == most else f'from {least} to {most}'
        return None if least <= value <= most else f'{value} is not {span}'
    if not isinstance(value, str):
        return f'the value must be a text in quotes{found_instead(value)}'
    if key in WORDS:
        return word_fault(value, WORDS[key])
    if key in LENGTHS:
        return identifier_fault(value, LENGTHS[key])
    if not 1 <= len(value) <= 64:
        return f'it has {len(value)} characters, but must have 1 to 64'
    odd = next((c for c in value if not ' ' <= c <= '~'), None)
    return None if odd is None else f'the character {odd!r} is not from space to ~'


def identifier_fault(value, most) -> str | None:
    if len(value) > most:
        return f'"{value}" has {len(value)} characters, but may have at most {most}'
    if re.fullmatch(IDENTIFIER, value):
        return None
    return f'"{value}" must begin with a letter, and have only letters, digits and _'


def case_mend(key: str, value) -> str:
    """The remedy for a word in upper case, or nothing."""
    words = WORDS.get(key, ())
    is_case = isinstance(value, str) and value not in words and value.lower() in words
    return f'write {key} = "{value.lower()}"' if is_case else ''


def word_fault(value: str, words: list[str]) -> str | None:
    """What is wrong with one of a few words: that it is in upper case, or is none of them."""
    if value in words:
        return None
    if value.lower() in words:
        return f'"{value}" must be in lower case: "{value.lower()}"'
    told = f'none of {", ".join(words)}' if len(words) > 1 else f'not {words[0]}'
    return f'"{value}" is {told}{near(value, words)}'


def bay_points(octets) -> dict | None:
    """The points of a bay file that is accepted, by name: type, and whether it may be written. None
    where Python can't read the file."""
    try:
        text = text_of(octets)
        points = Judge(table_of(text), Lines(text)).points()
        return {name: (kind, section == 'switch' and name.endswith(('_ENA_OPN', '_ENA_CLS')))
                for name, kind, section, *_ in points}
    except Refused:
        return None


def refusals(octets) -> list[Refused]:
    """Why a bay file is refused, first what bayctl tells."""
    try:
        text = text_of(octets)
        return list(Judge(table_of(text), Lines(text)).all())
    except Refused as refused:
        return [refused]


def locate(found: list[Refused], code: int) -> Place | str:
    """The place of the refusal with this number, or a reason why it can't be told."""
    first = found[0] if found else None
    if first and first.code == code:
        return first.place
    if first and first.code == 50:
        return ('Python\'s reader, which knows TOML 1.0, stops'
                + (f' at line {first.place.line}' if first.place.line else '')
                + f': {first.place.told}')
    if code == 50:
        return ('Python can read this TOML, so it exceeds a limit of bayctl\'s reader, on depth '
                'or on numbers')
    if first:
        return f'this tool would refuse it with {first.code}: {first.place.told}'
    return 'this tool finds no fault in it'
