"""A digest of a span: who asked, what was refused, which links came and went, and all of it in its
order, as rows of words that a text and a page show."""
from collections import Counter
from collections.abc import Callable
from dataclasses import dataclass

from baytools.common import moments
from baytools.common.texts import quantity, in_line

from . import server_lines as lines
from .entries import Entry
from .links import Link, Story
from .reading import Read
from .server_lines import Event
from .stunnel_lines import Connection, Note

GOOD, BAD, QUIET = 'good', 'bad', 'quiet'
# What a switch may do, by the releases of opening and closing as the log has them.
RELEASES = {'open=0 close=0': 'may be neither opened nor closed',
            'open=0 close=1': 'may be closed, not opened',
            'open=1 close=0': 'may be opened, not closed',
            'open=1 close=1': 'may be opened and closed'}


@dataclass(frozen=True)
class Span:
    """The moments from one to before another; None where there is no end."""
    first: int | None = None
    behind: int | None = None

    def has(self, moment: int) -> bool:
        return ((self.first is None or moment >= self.first)
                and (self.behind is None or moment < self.behind))

    def meets(self, first: int | None, last: int | None) -> bool:
        """Whether something was within the span that began and ended then."""
        return ((self.behind is None or first is None or first < self.behind)
                and (self.first is None or last is None or last >= self.first))

    def text(self) -> str:
        """The span in words."""
        ends = [('from', self.first), ('to', self.behind)]
        told = ' '.join(f'{word} {moments.stamp_text(moment)}' for word, moment in ends
                        if moment is not None)
        return told or 'all that the log has'


@dataclass(frozen=True)
class Row:
    """Something that happened: when, to whom, what, and whether it is good, bad or neither."""
    moment: int
    who: str
    told: str
    kind: str = QUIET


@dataclass(frozen=True)
class Asker:
    """What one subject asked for within a span."""
    who: str
    links: int
    done: int
    refused: int
    places: str


class Digest:
    """What a story tells of a span."""

    def __init__(self, read: Read, span: Span) -> None:
        self.span, self.others = span, read.others
        self.story: Story = read.story()
        self.also: list[Entry] = read.also
        self.files = read.files
        self.notes: list[Note] = read.door.notes

    def links(self) -> list[Link]:
        """The associations that were open within the span."""
        return [it for it in self.story.links if self.span.meets(it.opened, it.closed)]

    def askers(self) -> list[Asker]:
        """Who was there and what they asked for, those who asked most first."""
        found: dict[str, list[Link]] = {}
        for link in self.links():
            found.setdefault(link.who(), []).append(link)
        done, refused = self.control_counts()
        askers = [Asker(who, len(links), done[who], refused[who], places_text(links))
                  for who, links in found.items()]
        return sorted(askers, key=lambda it: (-it.done - it.refused, it.who))

    def control_counts(self) -> tuple[Counter[str], Counter[str]]:
        """How many controls of each were done, and how many refused."""
        done: Counter[str] = Counter()
        refused: Counter[str] = Counter()
        for event, link in self.story.events:
            if event.kind == lines.CONTROL and link and self.span.has(event.moment):
                (done if event.is_good() else refused)[link.who()] += 1
        return done, refused

    def strangers(self) -> list[Connection]:
        """The connections that no association came of: those that were not let in, and more."""
        return [it for it in self.story.strangers() if self.span.has(it.accepted)]

    def refused_clients(self) -> list[tuple[str, int, str]]:
        """Who was not let in: why, how often, and from where."""
        found: dict[str, list[Connection]] = {}
        for it in self.strangers():
            if it.local:
                continue
            found.setdefault(refusal_text(it), []).append(it)
        return [(why, len(those), hosts_text([it.peer for it in those]))
                for why, those in sorted(found.items(), key=lambda it: -len(it[1]))]

    def refusals(self) -> list[tuple[str, int]]:
        """Why controls were refused, and how often."""
        found = Counter(f'{event.words} ({event.code})' for event, _ in self.story.events
                        if event.kind == lines.CONTROL and not event.is_good()
                        and self.span.has(event.moment))
        return found.most_common()

    def ends(self) -> list[tuple[str, int]]:
        """How the operates of the span ended, and how often."""
        return Counter(event.words for event, _ in self.story.events
                       if event.kind == lines.DONE and self.span.has(event.moment)).most_common()

    def process(self) -> str:
        """How often the process was lost, and how long it was away."""
        losses = [it for it in self.story.losses if self.span.meets(*it)]
        if not losses:
            return 'no process was lost'
        away = sum(self.within(first, last) for first, last in losses if last is not None)
        still = [it for it in losses if it[1] is None]
        more = f', and it has not come back {quantity(len(still), "time")}' if still else ''
        return f'a process was lost {quantity(len(losses), "time")}, for {away / 1000:g} s{more}'

    def within(self, first: int, last: int) -> int:
        """How much of a time lies in the span."""
        begun = first if self.span.first is None else max(first, self.span.first)
        ended = last if self.span.behind is None else min(last, self.span.behind)
        return ended - begun

    def warnings(self) -> list[str]:
        """What is missing of the logs."""
        found, events = [], [event for event, _ in self.story.events]
        if events and not any(it.kind in (lines.OPEN, lines.CONTROL, lines.BEGUN)
                              for it in events):
            found.append('bayctl was started without --log: who asked is not told')
        unjoined = [it for it in self.strangers() if it.local]
        if unjoined and events:
            fit = 'fits' if len(unjoined) == 1 else 'fit'
            found.append(f'{quantity(len(unjoined), "connection")} that stunnel let in {fit} no '
                         'association of bayctl: do both logs belong together, and is this the '
                         'time zone of that machine (TZ)?')
        if not events:
            found.append('no line of bayctl: what was asked is not told')
        if self.others:
            found.append(f'{quantity(self.others, "line")} of other programs left out')
        return found

    def programs(self) -> str:
        """By which programs of a journal the lines of bayctl are."""
        found = dict.fromkeys(event.source.partition('[')[0] for event, _ in self.story.events)
        return ', '.join(filter(None, found)) or 'not told'

    def time_text(self) -> str:
        """The span that was asked for, and the first and the last line that lie in it."""
        found = [it.moment for it in self.rows() if moments.is_clock(it.moment)]
        if not found:
            return f'{self.span.text()}; no line in it has a date'
        first, last = moments.stamp_text(found[0]), moments.stamp_text(found[-1])
        return f'{self.span.text()}; its first line is of {first}, its last of {last}'

    def times(self, rows: list[Row]) -> Callable[[int], str]:
        """How the moments of rows are told: with the date where there are several days."""
        days = {moments.date_of(it.moment).date() for it in rows if moments.is_clock(it.moment)}
        return dated_text if len(days) > 1 else moments.moment_text

    def rows(self) -> list[Row]:
        """All of the span in its order."""
        found = [row_of(event, link) for event, link in self.story.events]
        found += [Row(it.accepted, f'from {hosts_text([it.peer])}', stranger_text(it), BAD)
                  for it in self.story.strangers()]
        found += [Row(it.moment, '', it.told, BAD if it.is_bad else QUIET) for it in self.notes]
        found += [Row(it.moment or 0, it.source, it.text) for it in self.also]
        return sorted((it for it in found if self.span.has(it.moment)), key=lambda it: it.moment)


def dated_text(moment: int) -> str:
    """A moment with its date, where it is of our days."""
    return moments.stamp_text(moment) if moments.is_clock(moment) else moments.moment_text(moment)


def refusal_text(one: Connection) -> str:
    """Why a connection came to nothing, with the certificate that it showed."""
    if one.local:
        return f'no association of bayctl fits, though it was let in as {one.subject}'
    shown = f'; it showed a certificate of {one.subject}' if one.subject else ''
    return one.refusal() + shown


def stranger_text(one: Connection) -> str:
    return refusal_text(one) if one.local else f'not let in: {refusal_text(one)}'


def hosts_text(places: list[str]) -> str:
    """The hosts of some addresses, each once."""
    return ', '.join(dict.fromkeys(it.rpartition(':')[0].removeprefix('::ffff:') for it in places
                                   if it))


def places_text(links: list[Link]) -> str:
    """From where the clients of some links came."""
    return hosts_text([it.place() for it in links])


def row_of(event: Event, link: Link | None) -> Row:
    """An event in words."""
    if link is None:
        return Row(event.moment, event.source, *without_link(event))
    match event.kind:
        case lines.OPEN:
            told, kind = f'association {event.association} opened from {link.place()}', QUIET
        case lines.CLOSED:
            why = f': {event.words}' if event.words else ''
            told = f'association {event.association} closed ({event.code}){why}'
            kind = QUIET if event.code == '0' else BAD
        case lines.CONTROL if event.is_good():
            told, kind = f'{event.control_text()}: done', GOOD
        case lines.CONTROL:
            told, kind = f'{event.control_text()}: refused ({event.code}): {event.words}', BAD
        case _:
            told, kind = without_link(event)
    return Row(event.moment, link.who(), told, kind)


def without_link(event: Event) -> tuple[str, str]:
    """An event that is of no client, in words."""
    why = f': {event.words}' if event.words else ''
    match event.kind:
        case lines.COMMAND:
            return f'command: {event.way} {event.switch}', GOOD
        case lines.POSITION:
            return f'{event.switch} is {event.words}', BAD if event.words == 'bad' else QUIET
        case lines.RELEASE:
            return f'{event.switch} {RELEASES[event.words]}', QUIET
        case lines.DONE:
            is_good = event.words == lines.REACHED
            return f'operate of {event.switch} ended: {event.words}', GOOD if is_good else BAD
        case lines.REFUSED:
            return f'a line of the process is refused ({event.code}){why}', BAD
        case lines.CONNECTED:
            return 'the process has connected', QUIET
        case lines.PARTED:
            return f'the process\'s connection is closed ({event.code}){why}', BAD
        case lines.LOST:
            return 'the process is lost: no operate is accepted until it speaks', BAD
        case lines.BEGUN:
            return f'the server listens: clients on {event.address}{event.words}', QUIET
        case lines.LOADED:
            return f'the bay and its program are loaded{why}', QUIET
        case lines.RULES:
            return f'each of the {event.code} rules holds', QUIET
        case lines.DIAGRAM:
            return (f'none of {quantity(int(event.code), "operation")} is released while it is a '
                    'hazard in the diagram'), QUIET
        case lines.SUM:
            return f'the server serves: {event.words}', QUIET
        case lines.UNPROVED:
            return f'nothing is served: {event.words}', BAD
        case lines.LEFT_OUT:
            return f'{event.code} lines of clients that came and went are left out', BAD
        case lines.CLOCK:
            return f'the system\'s clock {event.words}', BAD if event.code else QUIET
        case lines.FAULT:
            return event.words, BAD
    return event.words, QUIET


def text_of(digest: Digest) -> list[str]:
    """A digest as lines of text."""
    rows = digest.rows()
    told = digest.times(rows)
    found = [f'{digest.span.text()}', '', 'Who asked']
    found += [f'  {it.who}: {quantity(it.links, "association")}, {it.done} done, {it.refused} '
              f'refused{", from " + it.places if it.places else ""}' for it in digest.askers()
              ] or ['  nobody']
    found += ['', 'Why controls were refused']
    found += [f'  {quantity(count, "time")}: {why}' for why, count in digest.refusals()
              ] or ['  none was']
    if ends := digest.ends():
        found += ['', 'How operates ended', *(f'  {quantity(count, "time")}: {how}'
                                              for how, count in ends)]
    found += ['', 'Who was not let in']
    found += [f'  {quantity(count, "time")} from {hosts}: {why}'
              for why, count, hosts in digest.refused_clients()] or ['  nobody']
    found += ['', 'The process', f'  {digest.process()}', '', 'What happened']
    found += [f'  {told(it.moment)}  {f"[{it.who}] " if it.who else ""}{it.told}'
              for it in rows] or ['  nothing']
    return [in_line(line) for line in found]
