"""Traces and captured sessions joined to one trace, so that bayctl replays it, and what it then
says otherwise."""
import os
import pathlib
import re
from collections.abc import Iterator

from baytools.bay.files import octets_of
from baytools.common.ending import Failed
from baytools.common.moments import is_clock
from baytools.wire.stream import Stream

PLACES = 8  # associations
TALK = ('open', 'recv', 'close')
PARTS = ('bay.toml', 'logic.il', 'trace')  # of a scenario, in a folder
SPLIT = re.compile(rb'(?m)^%%(?=\r?(?:\n|\Z))')  # what parts a scenario
ENDS = ('finish', 'release', 'abort', 'end', 'fault')  # what ends an association


class BadTrace(Failed):
    """Lines that are none of a trace, or too many associations."""


def check_whole(events: list) -> None:
    """A capture that begins in the middle, or that lacks octets, can't be replayed."""
    for event in events:
        if event.kind == 'middle':
            raise BadTrace(f'the capture: connection {event.place} began before it, so it can\'t '
                           'be replayed')
        if event.kind == 'gap':
            raise BadTrace(f'the capture: octets of connection {event.place} are missing in it, so '
                           'it can\'t be replayed')


def with_associations(events) -> Iterator:
    """The events with the number that a server gives their association: the lowest that is free."""
    free, places = list(range(1, PLACES + 1)), {}
    for event in events:
        if event.kind == 'open' and free:
            places[event.place] = free.pop(0)
        place = places.get(event.place)
        if event.kind == 'close' and place:
            free = sorted([*free, places.pop(event.place)])
        if place:
            yield event, place


def lines_of(events) -> Iterator:
    """The lines of a trace that the session is: a scan stands before each piece of a client. An
    association that its client has ended is not closed once more."""
    streams = {}
    for event, place in with_associations(events):
        if event.kind == 'client':
            yield event.moment, 'scan'
            yield event.moment, f'recv {place} {event.octets.hex()}'
            stream = streams.get(place)
            if stream and any(got.kind in ENDS for got in stream.feed(event.octets)):
                del streams[place]
        elif event.kind == 'open':
            streams[place] = Stream()
            yield event.moment, f'open {place}'
        elif event.kind == 'close' and streams.pop(place, None):
            yield event.moment, f'close {place}'


def read_lines(text: str) -> list[tuple[int, str]]:
    """The moments of a trace with what stands behind them."""
    found = []
    for number, line in enumerate(text.splitlines(), 1):
        moment, _, rest = line.partition(' ')
        if line and not (re.fullmatch('0*[0-9]{1,20}', moment, re.ASCII) and rest):
            raise BadTrace(f'line {number} is not a line of a trace: {line[:40]}')
        if line:
            found.append((int(moment.lstrip('0') or '0'), rest))
    return found


def merge_traces(parts: list) -> str:
    """One trace of several, each a list of moments and lines, in the order of their moments. Where
    some count from 1970, the lines of others come first, when the session begins."""
    clocks = [moment for part in parts for moment, _ in part if is_clock(moment)]
    first = min(clocks, default=0)
    found = [(moment if is_clock(moment) else first if clocks else moment, rest)
             for part in parts for moment, rest in part]
    return '\n'.join(f'{moment} {rest}' for moment, rest in sorted(found, key=lambda it: it[0]))


def trace_of(events: list, told: str) -> str:
    """All lines of a session, joined with those of the process."""
    check_whole(events)
    return merge_traces([read_lines(told), list(lines_of(events))]) + '\n'


def renumber(parts: list) -> list:
    """The same lines, the associations of each part with numbers of their own."""
    numbers, found = {}, []
    for at, part in enumerate(parts):
        lines = []
        for moment, rest in part:
            verb, *words = rest.split(' ')
            if verb in TALK and words:
                words[0] = str(numbers.setdefault((at, words[0]), len(numbers) + 1))
            lines.append((moment, ' '.join([verb, *words])))
        found.append(lines)
    if len(numbers) > PLACES:
        raise BadTrace(f'there are {len(numbers)} associations, but at most {PLACES} are allowed')
    return found


def scenario_of(bay: bytes, logic: bytes, trace: bytes) -> bytes:
    """The octets of a scenario, of the octets of its parts. A line %% in a comment of the program,
    at which a scenario would be parted, has a blank before it."""
    if SPLIT.search(bay):
        raise BadTrace('the bay file: a line %% in it would part a scenario')
    logic = SPLIT.sub(b' %%', logic)
    return b''.join(part if part.endswith(b'\n') else part + b'\n'
                    for part in (bay, b'%%', logic, b'%%', trace))


def scenario_at(path: str | os.PathLike[str]) -> bytes:
    """The octets of a scenario: those of a file, or the three parts that lie in a folder."""
    if not os.path.isdir(path):
        return octets_of(path)
    bay, logic, trace = (octets_of(pathlib.Path(path) / name) for name in PARTS)
    return scenario_of(bay, logic, trace)


def sent_of(events) -> dict:
    """What the server sent to each association, piece by piece."""
    sent = {}
    for event, place in with_associations(events):
        if event.kind == 'server':
            sent[place] = sent.get(place, b'') + event.octets
    return sent


def replayed_of(printed) -> tuple:
    """What a replay sent to each association, and its lines that are faults."""
    sent, faults = {}, []
    for line in printed.splitlines():
        _, _, rest = line.partition(' ')
        verb, *words = rest.split(' ')
        if verb == 'send':
            sent[int(words[0])] = sent.get(int(words[0]), b'') + bytes.fromhex(words[1])
        elif line.startswith(('fault', 'load')):
            faults.append(line)
    return sent, faults


def messages(octets, is_timed) -> list:
    """The messages of a server, with or without their times."""
    found = list(Stream().feed(octets))
    for got in found if not is_timed else []:
        got.octets = re.sub(rb'(?s)\x91\x08.{8}', b'\x91\x08' + bytes(8), got.octets)
    return found


def first_difference(captured, replayed, is_timed=True) -> tuple | None:
    """The association and the message that is the first to be otherwise, with both, or None."""
    for place in sorted(captured | replayed):
        one, other = (messages(side.get(place, b''), is_timed) for side in (captured, replayed))
        for at in range(max(len(one), len(other))):
            left, right = (side[at] if at < len(side) else None for side in (one, other))
            if left != right:
                return place, at + 1, left, right
    return None
