"""Lines of logs as they are kept: by themselves in a file, or with what journalctl prints before
them in any of its formats that keep a line's program."""
import datetime
import json
import re
import time
from collections.abc import Iterable, Iterator
from dataclasses import dataclass

MONTHS = ('Jan', 'Feb', 'Mar', 'Apr', 'May', 'Jun', 'Jul', 'Aug', 'Sep', 'Oct', 'Nov', 'Dec')
DAY = 86_400_000  # milliseconds
PRIORITY = re.compile(r'<[0-7]>')
# What stands before a line, by the format of journalctl (-o): the time, the host, the program,
# whose name is no number: bayctl itself logs a time and `refused 113: ..`.
PROGRAM = r' (?:\S+) (?P<program>(?!\d+:)[^\s\[]+)(?:\[(?P<number>\d+)\])?: (?P<text>.*)$'
ISO = re.compile(r'(?P<iso>\d{4}-\d\d-\d\dT\d\d:\d\d:\d\d(?:[.,]\d{1,6})?(?:[+-]\d\d:?\d\d|Z)?)'
                 + PROGRAM, re.ASCII)
FULL = re.compile(r'(?:[A-Z][a-z]{2} )(?P<full>\d{4}-\d\d-\d\d \d\d:\d\d:\d\d)(?:\.(?P<part>\d+))? '
                  r'(?P<zone>[A-Z][A-Za-z0-9+-]*)' + PROGRAM, re.ASCII)
UNIX = re.compile(r'(?P<unix>\d{9,11}\.\d{6})' + PROGRAM, re.ASCII)
SHORT = re.compile(r'(?P<month>[A-Z][a-z]{2}) (?P<day>[ \d]\d) (?P<clock>\d\d:\d\d:\d\d)'
                   r'(?:\.(?P<part>\d+))?' + PROGRAM, re.ASCII)


@dataclass(frozen=True)
class Entry:
    """A line of a log. `moment`, in milliseconds since 1970, is that of the journal, if there is
    one; `source` is the program with its number, or nothing for a file without the journal's
    words."""
    text: str
    moment: int | None = None
    source: str = ''

    def program(self) -> str:
        return self.source.partition('[')[0]


def entries_of(lines: Iterable[str], now: int | None = None) -> Iterator[Entry]:
    """The lines of a file. `now` is the moment to which a date without a year is the next one
    back."""
    present = time.time_ns() // 1_000_000 if now is None else now
    for line in lines:
        line = line.rstrip('\r\n')
        if line:
            yield entry_of(line, present)


def entry_of(line: str, now: int) -> Entry:
    """A line without what stands before it."""
    if line.startswith('{'):
        return of_json(line) or Entry(line)
    for pattern, moment_of in ((ISO, of_iso), (FULL, of_full), (UNIX, of_unix), (SHORT, of_short)):
        if found := pattern.match(line):
            number = f'[{found["number"]}]' if found['number'] else ''
            return Entry(without_priority(found['text']), moment_of(found, now),
                         found['program'] + number)
    return Entry(without_priority(line))


def without_priority(text: str) -> str:
    found = PRIORITY.match(text)
    return text[found.end():] if found else text


def of_json(line: str) -> Entry | None:
    """An entry of `-o json`, or None where it is none."""
    try:
        found = json.loads(line)
        message, moment = found['MESSAGE'], int(found['__REALTIME_TIMESTAMP']) // 1000
    except (ValueError, LookupError, TypeError, RecursionError):
        return None
    if isinstance(message, list):  # octets that are no text
        message = bytes(message).decode(errors='backslashreplace')
    program = found.get('SYSLOG_IDENTIFIER') or found.get('_COMM') or ''
    number = found.get('_PID') or found.get('SYSLOG_PID')
    return Entry(without_priority(str(message)), moment,
                 f'{program}[{number}]' if number else str(program))


def local(text: str, form: str) -> int | None:
    """The moment of a time of day here, or None where there is none."""
    try:
        return int(datetime.datetime.strptime(text, form).timestamp()) * 1000
    except (ValueError, OverflowError):
        return None


def of_iso(found: re.Match[str], now: int) -> int | None:
    """A time such as 2026-11-28T10:00:00+0100."""
    return moment_with_zone(re.sub(r'([+-]\d\d)(\d\d)$', r'\1:\2', found['iso'].replace(',', '.')))


def moment_with_zone(text: str) -> int | None:
    """The moment of a time with its zone, as ISO 8601 has it."""
    try:
        return round(datetime.datetime.fromisoformat(text).timestamp() * 1000)
    except (ValueError, OverflowError):
        return None


def of_full(found: re.Match[str], now: int) -> int | None:
    """A time such as Sat 2026-11-28 10:00:00 UTC; of other zones the time is that of here."""
    form = '%Y-%m-%d %H:%M:%S'
    if found['zone'] != 'UTC':
        moment = local(found['full'], form)
    else:
        moment = moment_with_zone(found['full'].replace(' ', 'T') + '+00:00')
    return moment if moment is None else moment + thousandths(found['part'])


def of_unix(found: re.Match[str], now: int) -> int:
    return int(float(found['unix']) * 1000)


def of_short(found: re.Match[str], now: int) -> int | None:
    """A time such as Nov 28 10:00:00: the last one that is not past tomorrow."""
    if found['month'] not in MONTHS:
        return None
    this = datetime.datetime.fromtimestamp(now / 1000).year
    for year in (this + 1, this, this - 1):
        text = f'{year} {MONTHS.index(found["month"]) + 1} {found["day"].strip()} {found["clock"]}'
        moment = local(text, '%Y %m %d %H:%M:%S')
        if moment is not None and moment <= now + DAY:
            return moment + thousandths(found['part'])
    return None


def thousandths(digits: str | None) -> int:
    """The milliseconds of the digits behind a second."""
    return int((digits or '0').ljust(3, '0')[:3])
