"""Replays of many combinations of a bay: the lines that go through them, and what bayctl releases
at each scan."""
import itertools
import subprocess
import tempfile
from collections.abc import Iterable, Iterator

from baytools.common.ending import Failed
from baytools.common.texts import upcase
from baytools.report.bayctl import Ask, ask_ahead, is_tried, not_run, run
from baytools.report.replay import NotLoaded

LARGEST, SHORTEST = 16_777_216, 30  # octets of a scenario, and of the lines of a combination
LATEST = 4_294_967_295_999  # the last moment that a trace can have
PRINTED, LINE = 500_000, 48  # octets that `rt try` is let print, and of a scan without switches


def changes(bay, moment, last, combination) -> Iterator:
    """The lines that lead from one combination to another, or from nothing."""
    for thing, value, old in zip(bay.things, combination, last or itertools.repeat(None)):
        if value != old:
            yield thing.line(moment, value)


def trace_of(bay, combinations, offsets) -> Iterator:
    """The lines that go through combinations: what changed of each, and a scan at each offset."""
    last, moment = None, 0
    for combination in combinations:
        yield from changes(bay, moment, last, combination)
        for offset in offsets:
            yield f'{moment + offset} scan'
        last, moment = combination, moment + offsets[-1]


def timed_trace_of(bay, pairs, offsets) -> Iterator:
    """The lines that go to the first combination of each pair, wait there, and then go to the
    second, with a scan at each offset."""
    last, moment = None, 0
    for before, combination in pairs:
        yield from changes(bay, moment, last, before)
        yield f'{moment} scan'
        moment += offsets[-1]
        yield f'{moment} scan'
        yield from changes(bay, moment, before, combination)
        for offset in offsets:
            yield f'{moment + offset} scan'
        last, moment = combination, moment + offsets[-1]


def printable(bay, scans: int, bayctl) -> int:
    """How many times so many scans a replay may print."""
    line = LINE + sum(len(it['id']) + 4 for it in bay.file['switch'])
    return max(PRINTED // (line * scans), 1) if is_tried(bayctl) else LATEST


def scenarios(bay, chosen: list[tuple], offsets: list[int], bayctl) -> Iterator[tuple[list, bytes]]:
    """The octets that go through combinations, in as many scenarios as that takes: each begins
    anew."""
    size = LARGEST // (2 * SHORTEST * (len(bay.things) + len(offsets)))
    size = max(min(size, LATEST // offsets[-1], printable(bay, len(offsets), bayctl)), 1)
    for at in range(0, len(chosen), size):
        part = chosen[at:at + size]
        yield part, bay.scenario(trace_of(bay, part, offsets))


def timed_scenarios(bay, pairs, offsets, bayctl) -> Iterator:
    """The octets that go through pairs of combinations, in as many scenarios as that takes."""
    size = LARGEST // (2 * SHORTEST * (len(bay.things) + len(offsets) + 2))
    size = max(min(size, LATEST // (2 * offsets[-1]), printable(bay, len(offsets) + 2, bayctl)), 1)
    for at in range(0, len(pairs), size):
        part = pairs[at:at + size]
        yield part, bay.scenario(timed_trace_of(bay, part, offsets))


def replay_ahead(bayctl, parts: Iterable[tuple]) -> Iterable[tuple]:
    """Scenarios, each with what it goes through. The sources of bayctl replay all in one go."""
    if is_tried(bayctl):
        parts = list(parts)
        ask_ahead(bayctl, [Ask(('replay',), octets) for _, octets in parts])
    return parts


def scans_of(bayctl, octets: bytes) -> Iterator[dict]:
    """What is released at each scan that bayctl prints, as they come: of each switch, by its name
    in upper case, whether it may be opened and closed."""
    if is_tried(bayctl):
        done = run(bayctl, 'replay', given=octets)
        report, *lines = done.stdout.decode('utf-8', 'backslashreplace').splitlines() or ['']
        if not report.startswith('instructions='):
            raise Failed(str(NotLoaded(report, done.returncode)))
        yield from map(releases_of, lines)
        return
    with tempfile.TemporaryFile() as file:
        file.write(octets)
        file.seek(0)
        try:
            running = subprocess.Popen([bayctl, 'replay'], stdin=file, stdout=subprocess.PIPE,
                                       text=True, errors='backslashreplace')
        except OSError as error:
            raise not_run(error) from None
    with running:
        try:
            report = running.stdout.readline()
            if not report.startswith('instructions='):
                raise Failed(str(NotLoaded(report, running.wait())))
            yield from map(releases_of, running.stdout)
        finally:
            running.kill()


def releases_of(line: str) -> dict:
    """What a scan releases, by its line."""
    words = line.split()
    found = {upcase(name): (digits[:1] == '1', digits[1:] == '1')
             for name, _, digits in (word.partition('=') for word in words[3:])}
    if words[1:2] != ['scan']:
        raise Failed(f'bayctl printed: {line.rstrip()}')
    return found
