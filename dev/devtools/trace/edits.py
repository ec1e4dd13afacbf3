"""The edits of must-fail/ and wrong-bodies/: which function each changes, and which promises it
would break."""
import dataclasses
import functools
import pathlib
import re

from devtools.paths import CRATES, DATA

from . import refusals
from .calls import Call, calls_of, crates
from .definitions import Definition, Named, below, definitions_cited
from .promises import Borne, Promise, borne_by, promises, public_laws

REGISTER = DATA / 'breaks.txt'
PAIR = re.compile(r'^(file|old|new): ?(.*)$', re.M)
FOLDERS = ('must-fail', 'wrong-bodies')
# What is said of any result is no subject of its own.
GENERAL = {CRATES / 'bay_base' / 'specs' / f'{it}.antt' for it in ('Exact', 'Options', 'Results')}
DATA_TYPE = re.compile(r'pub (?:record|data) \S+ : Type 0 where')
CONSTANT = re.compile(r'\bconst (\w+):')
# So many levels of definitions are what a law is about, and so many calls are named that obey them.
LEVELS, OBEYING = 3, 3


@dataclasses.dataclass(frozen=True)
class Edit:
    """A wrong behaviour: its name, and the functions that it changes."""
    crate: str
    path: pathlib.Path
    name: str
    changes: tuple[tuple[str, str], ...]
    calls: tuple[Call, ...]

    @property
    def is_in_gate(self) -> bool:
        """Whether the gate tries it."""
        return self.path.parent.name == FOLDERS[0]

    @property
    def key(self) -> str:
        """Its name in the tables: the crate and the file."""
        return f'{self.crate}/{self.path.stem}'


def changed_at(crate: str, file: str, old: str) -> list[Call]:
    """The function of a file in which a text stands; of a constant those that name it."""
    path = CRATES / crate / file
    before, found, _ = path.read_text(encoding='utf-8').partition(old)
    line = before.count('\n') + 1
    within = [it for it in calls_of(crate) if it.path == path and it.line <= line <= it.last]
    constant = CONSTANT.search(old)
    if found and not within and constant:
        return [it for it in calls_of(crate) if re.search(rf'\b{constant[1]}\b', it.body)]
    return within[-1:] if found else []


def edit_of(crate: str, path: pathlib.Path) -> Edit:
    """An edit as its file says it."""
    file, old, changes, calls = '', '', [], []
    for kind, text in PAIR.findall(path.read_text(encoding='utf-8')):
        file, old = (text if kind == 'file' else file), (text if kind == 'old' else old)
        if kind == 'old':
            calls += changed_at(crate, file, text)
        elif kind == 'new':
            changes.append((old, text))
    return Edit(crate, path, path.stem.replace('_', ' '), tuple(changes),
                tuple(dict.fromkeys(calls)))


@functools.cache
def edits_of(crate: str) -> list[Edit]:
    """All edits of a crate, first those of the gate."""
    return [edit_of(crate, path) for folder in FOLDERS
            for path in sorted((CRATES / crate / folder).glob('*.edit'))]


def subject(named: set[Named]) -> set[Definition]:
    """The definitions among what is named, but for plain data and what holds of any result."""
    return {it for it in named if isinstance(it, Definition) and it.path not in GENERAL
            and not DATA_TYPE.match(it.text)}


@functools.cache
def promised_calls() -> tuple[Call, ...]:
    """The calls with code that bear promises."""
    return tuple(dict.fromkeys(call for it in promises() for call in borne_by(it).code))


def obeying(laws: list[Call]) -> list[Call]:
    """Which calls that bear promises obey most of what laws are about: a few."""
    about = subject({it for law in laws for it in definitions_cited(law)})
    for _ in range(LEVELS):
        about |= subject({it for of in about for it in below(of)})
    counts = {it: len(about & set(definitions_cited(it))) for it in promised_calls()}
    return sorted((it for it in counts if counts[it]), key=lambda it: -counts[it])[:OBEYING]


def laws_about(borne: Borne) -> list[Call]:
    """The laws that bear a promise; where there is none, those that cite a definition which its
    clauses cite."""
    about = subject({it for call in borne.code
                     for it in definitions_cited(call, frozenset(borne.calls[call]))})
    return borne.laws or [it for it in public_laws() if about & set(definitions_cited(it))]


@functools.cache
def broken() -> dict[str, tuple[str, ...]]:
    """The ids of the promises that each edit would break, by its crate and name: the first is the
    one that says it most directly."""
    lines = REGISTER.read_text(encoding='utf-8').splitlines()
    rows = [it.split() for it in lines if it and not it.startswith('#')]
    return {name: tuple(ids) for name, *ids in rows}


def is_refused_at(it: Edit, borne: Borne) -> bool:
    """Whether the prover's first open goal of an edit was a clause that bears a promise, and the
    kit says nothing against this answer."""
    told = refusals.read_table().get(it.key)
    return bool(told) and not told.caveat and any(
        (call.crate, call.title) == (it.crate, told.call)
        and told.clause in {clause.label or clause.kind for clause in borne.clauses(call)} | {''}
        for call in borne.calls)


def refused_of(promise: Promise) -> list[Edit]:
    """The edits that would break a promise: first those that are refused at a clause of it, then
    those of which it is the first promise, and of these and the others those of the gate."""
    def order(it: Edit) -> tuple[bool, bool, bool]:
        return (not is_refused_at(it, borne_by(promise)), broken()[it.key][0] != promise.id,
                not it.is_in_gate)
    return sorted((it for crate in crates() for it in edits_of(crate)
                   if promise.id in broken().get(it.key, ())), key=order)
