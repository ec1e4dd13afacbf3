"""What a line says that `bayctl serve` prints or logs: USER, 'The log' and 'Serving'. What it logs
begins with the time in UTC; what it prints, and logged up to version 1.4, with milliseconds since
1970."""
import re
from collections.abc import Iterable
from dataclasses import dataclass

from baytools.common.positions import WAYS

from .entries import Entry, moment_with_zone

OPEN, CLOSED, CONTROL, COMMAND, REFUSED = 'open', 'closed', 'control', 'command', 'refused'
CONNECTED, PARTED, LOADED, BEGUN = 'process open', 'process closed', 'loaded', 'begun'
ENDED, CLOCK, FAULT = 'ended', 'clock', 'fault'
POSITION, RELEASE, LOST, DONE = 'position', 'release', 'process lost', 'operate ended'
LEFT_OUT, RECORD = 'left out', 'record'
SUM, RULES, DIAGRAM, UNPROVED = 'sum', 'rules', 'diagram', 'what does not hold'
REACHED = 'position reached'  # how an operate ends well
OPERATE = 'operate'
TWICE = (CLOSED, REFUSED, CONNECTED, PARTED)  # printed and logged
VERDICT = r': (?P<verdict>done|refused (?P<code>\d+): (?P<words>.*))'
# The kinds of lines that begin with a moment.
LINES = [
    (OPEN, r'association (?P<association>\d) open from (?P<address>[\d.]+:\d+)'),
    (CLOSED, r'association (?P<association>\d) closed (?P<code>\d+|memory)(?:: (?P<words>.*))?'),
    (CLOSED, r'closed (?P<association>\d) (?P<code>\d+|memory)'),
    (LEFT_OUT, r'(?P<code>\d+) lines of connections left out'),
    (CONTROL, r'association (?P<association>\d) (?P<verb>select|operate|cancel) (?P<switch>\w+)'
              r'(?: (?P<way>close|open|on|off) orCat=(?P<category>-?\d+) orIdent=(?P<identity>.*) '
              r'ctlNum=(?P<count>\d+))?' + VERDICT),
    (COMMAND, r'command (?P<switch>\w+) (?P<way>on|off)'),
    (REFUSED, r'refused (?P<code>\d+)(?:: (?P<words>.*))?'),
    (CONNECTED, r'process open'),
    (PARTED, r'process closed (?P<code>\d+)(?:: (?P<words>.*))?'),
    (LOST, r'process lost'),
    (POSITION, r'position (?P<switch>\w+) (?P<words>open|closed|intermediate|bad)'),
    (RELEASE, r'release (?P<switch>\w+) (?P<words>open=[01] close=[01])'),
    (DONE, r'operate of (?P<switch>\w+) ended: (?P<words>position reached|time over)'),
    (BEGUN, r'clients on (?P<address>[\d.]+:\d+)(?P<words>, process on [\d.]+:\d+)?'),
    (RECORD, r'(?P<words>the record has (?:room for \d+ octets|ended): .+)'),
    (SUM, r'(?P<words>(?:bay|program|image|rules|diagram) SHA-256 [0-9a-f]{64}(?:, \d+ hold)?)'),
    (ENDED, r'(?P<words>all turns are served)'),
    (CLOCK, r'the system\'s clock (?P<words>agrees again|is (?P<code>\d+) ms (?:ahead|behind))')]
STAMP = r'(?:(?P<moment>\d{1,20})|(?P<time>\d{4}-\d\d-\d\dT\d\d:\d\d:\d\d\.\d{3}Z)) '
STAMPED = [(kind, re.compile(STAMP + pattern, re.ASCII)) for kind, pattern in LINES]
# Lines without a moment.
BARE = [(LOADED, re.compile(r'(?P<words>instructions=\d+ depth=\d+ budget=\d+)', re.ASCII)),
        (RULES, re.compile(r'rules (?P<code>\d+)', re.ASCII)),
        (DIAGRAM, re.compile(r'diagram (?P<code>\d+)', re.ASCII)),
        (UNPROVED, re.compile(r'(?P<words>(?:rule \d+|diagram) \w+ (?:open|close) '
                              r'(?:broken|open|many).*)')),
        (FAULT, re.compile(
            r'(?P<words>(?:bayctl: )?(?:fault (?:\d+|memory)|(?:load|rules|diagram) refused).*)'))]


@dataclass(frozen=True)
class Event:
    """What a line says. `code` is a number of closing, refusal or cause; of a clock it is the
    difference in milliseconds. `way` is open or close."""
    moment: int
    source: str
    kind: str
    association: int | None = None
    code: str = ''
    words: str = ''
    address: str = ''
    verb: str = ''
    switch: str = ''
    way: str = ''
    identity: str = ''

    def is_good(self) -> bool:
        """Whether a control was done."""
        return not self.code

    def control_text(self) -> str:
        """What a control asks, in words."""
        way = f' {self.way}' if self.way else ''
        by = f' (orIdent {self.identity})' if self.identity else ''
        return f'{self.verb} {self.switch}{way}{by}'


def event_of(entry: Entry, before: int) -> Event | None:
    """What a line says, or None where bayctl does not say it. `before` is the moment of the line
    before, for lines that have none."""
    for kind, pattern in STAMPED:
        if found := pattern.fullmatch(entry.text):
            moment = moment_with_zone(found['time']) if found['time'] else int(found['moment'])
            return None if moment is None else make_event(entry, kind, found, moment)
    for kind, pattern in BARE:
        if found := pattern.fullmatch(entry.text):
            return make_event(entry, kind, found, before if entry.moment is None else entry.moment)
    return None


def make_event(entry: Entry, kind: str, found: re.Match[str], moment: int) -> Event:
    parts = {name: text for name, text in found.groupdict().items() if text is not None}
    number = parts.get('association')

    def part(name: str) -> str:
        return parts.get(name, '')

    return Event(moment, entry.source, kind, int(number) if number else None, part('code'),
                 part('words'), part('address'), part('verb'), part('switch'),
                 WAYS.get(part('way'), part('way')), part('identity'))


def without_duplicates(events: Iterable[Event]) -> list[Event]:
    """What is printed and logged is told once, with the words of the log."""
    kept = list(events)
    worded = {key_of(it) for it in kept if it.kind in TWICE and it.words}
    found, seen = [], set()
    for event in kept:
        key = key_of(event)
        if event.kind in TWICE and not event.words and (key in worded or key in seen):
            continue
        seen.add(key)
        found.append(event)
    return found


def key_of(event: Event) -> tuple[object, ...]:
    return event.source, event.moment, event.kind, event.association, event.code
