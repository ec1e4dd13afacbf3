"""Which definitions the headline or another row reaches, and which crates cite one of them."""
import collections
import functools
from collections.abc import Callable, Iterable, Iterator

from devtools.paths import CRATES
from devtools.trace.calls import calls_of, crates
from devtools.trace.definitions import Definition, Named, below, definitions_cited, definitions_in
from devtools.trace.inner import crates_below
from devtools.trace.promises import borne_by, promises
from devtools.trace.trace_page import rests_on

from .changes import changes_of

# The headline, and that no operate is without its own select.
HEADLINE = ('P-001', 'P-012')


@functools.cache
def definitions_of_rows(ids: tuple[str, ...]) -> list[Definition]:
    """The definitions that the clauses of these rows cite, and those that these rest on."""
    borne = [borne_by(it) for it in promises() if it.id in ids]
    found = dict.fromkeys(it for of in borne for it in rests_on(of))
    return [it for it in found if isinstance(it, Definition)]


def definitions_of_headline() -> list[Definition]:
    """The definitions that the headline's clauses cite, and those that these rest on."""
    return definitions_of_rows(HEADLINE)


def definitions_changed(names: Iterable[str]) -> list[Definition]:
    """The definitions of which these are the names of changes, as far as they are there."""
    wanted = {it.rpartition('.')[0] for it in names}
    crates_named = dict.fromkeys(it.partition('.')[0] for it in sorted(wanted))
    return [it for crate in crates_named for it in definitions_of(crate)
            if f'{it.crate}.{it.path.stem}.{it.name}' in wanted]


@functools.cache
def definitions_of(crate: str) -> list[Definition]:
    """All definitions of a crate."""
    return [it for path in sorted((CRATES / crate / 'specs').glob('*.antt'))
            for it in definitions_in(path).values()]


def resting_on(definition: Definition) -> set[Named]:
    """A definition, with those of its crate that rest on it."""
    found: set[Named] = {definition}
    new = found
    while new:
        new = {it for it in definitions_of(definition.crate)
               if it not in found and found.intersection(below(it))}
        found |= new
    return found


@functools.cache
def named_by(crate: str) -> frozenset[Named]:
    """What the clauses and the definitions of a crate name."""
    clauses = {it for call in calls_of(crate) for it in definitions_cited(call)}
    return frozenset(clauses.union(*map(below, definitions_of(crate))))


def citing(definition: Definition) -> Iterator[str]:
    """The other crates that cite a definition, or one of its crate that rests on it, in the order
    of crates.txt."""
    meant = resting_on(definition)
    return (it for it in crates() if it != definition.crate
            and definition.crate in crates_below(it) and meant & named_by(it))


def counts_by_crate(is_tried: Callable[[str], bool]) -> dict[str, tuple[int, int]]:
    """Of the definitions that the headline rests on, by crate: how many changes were tried, and of
    how many. A name says whether its change was tried."""
    made: dict[str, list[bool]] = collections.defaultdict(list)
    for definition in definitions_of_headline():
        made[definition.crate] += [is_tried(it.id) for it in changes_of(definition)]
    return {crate: (sum(it), len(it)) for crate, it in sorted(made.items())}
