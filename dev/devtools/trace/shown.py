"""The cases that show a promise: what is behind a line `Shows P-001, P-002.` in the programs of
cases, the tests and the checks of the built program."""
import dataclasses
import functools
import pathlib
import re

from baytools.common.paths import TOP
from devtools.paths import CRATES

from .promises import Promise, borne_by, promises

PLACES = ('crates/layer_cases/stdin', 'crates/bayctl_cases/stdin', 'crates/bayctl_tests/src/*.rt',
          'crates/bay_diagram_tests/src/*.rt',
          'dev/devtools/check/*.py', 'examples/*/run', 'bench/speed/allocations',
          'bench/trials/calls', 'bench/trials/faults')
SHOWS = re.compile(r'^ *(?:#|//|== note) Shows (P-\d{3}(?:, P-\d{3})*)\.$')
TITLE = re.compile(r'^(?:# (?!Shows )|== note (?!Shows )|== (?=report|eight|hostile|bay'
                   r'|tree|controls)| *def |fn )(.*)$')
OWN_RUNS = 'it speaks of definitions, on runs of its own'
NONE = {
    'P-140': OWN_RUNS,
    'P-141': OWN_RUNS}


@dataclasses.dataclass(frozen=True)
class Place:
    """Where cases stand: the file, its line, and what is said of them there."""
    name: str
    path: pathlib.Path
    line: int


def title_of(lines: list[str], number: int, is_case: bool) -> str:
    """What is said of the cases whose promises stand in a line: of cases the last words before it,
    or else, as of a test, the next name behind it."""
    before = TITLE.match(lines[number - 1]) if is_case and number else None
    behind = (it for it in map(TITLE.match, lines[number + 1:]) if it)
    found = before or next(behind, None)
    return re.sub(r'\(.*', '', found[1]).strip() if found else ''


def places_in(path: pathlib.Path) -> list[tuple[str, Place]]:
    """The promises that a file's cases show, each with its place."""
    lines, found = path.read_text(encoding='utf-8').split('\n'), []
    is_case = path.name == 'stdin'
    crate = path.relative_to(CRATES).parts[0] if CRATES in path.parents else ''
    for number, line in enumerate(lines):
        shows = SHOWS.match(line)
        if shows:
            told = title_of(lines, number, is_case)
            where = crate or (path.parent.name if path.name == 'run' else path.stem)
            name = f'{where}: {told}'
            found += [(it, Place(name, path, number + 1)) for it in shows[1].split(', ')]
    return found


@functools.cache
def all_places() -> dict[str, list[Place]]:
    """The places of the cases of each promise, by its id."""
    found: dict[str, list[Place]] = {}
    for pattern in PLACES:
        for path in sorted(TOP.glob(pattern)):
            for known, place in places_in(path):
                found.setdefault(known, []).append(place)
    return found


def cases_of(promise: Promise) -> list[Place]:
    """The cases that show a promise."""
    return all_places().get(promise.id, [])


def no_cases(promise: Promise) -> str:
    """Why there are none, or an empty text."""
    return NONE.get(promise.id, '') if promise.id else 'the rows of PROVED that this one sums up ' \
        'have them'


@functools.cache
def shown_of(crate: str) -> list[str]:
    """The promises of a crate's calls that cases show, by their ids."""
    return [it.id for it in promises() if cases_of(it)
            and any(call.crate == crate for call in borne_by(it).calls)]
