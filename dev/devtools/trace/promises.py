"""The promises of README, PROVED and SECURITY: the rows of their tables, and what their last column
names. Those of PROVED and SECURITY have ids, which `ids.txt` registers."""
import dataclasses
import functools
import pathlib
import re

from baytools.common.paths import TOP
from devtools.paths import DATA

from .calls import Call, all_calls, calls_of, crates, types_of
from .definitions import Named, scope_of_call

PAGES = (TOP / 'README.md', TOP / 'docs' / 'PROVED.md', TOP / 'docs' / 'SECURITY.md')
REGISTER = DATA / 'ids.txt'
SECTION = re.compile(r'^## (.*)$')
QUOTED = re.compile(r'`([^`]+)`')
LAWS = re.compile(r'laws of (\w+)')


@dataclasses.dataclass(frozen=True)
class Promise:
    """A row of a table: what is proved, and the text that says by what."""
    page: pathlib.Path
    section: str
    line: int
    text: str
    by: str
    crates: tuple[str, ...]
    id: str = ''


def known_in(text: str) -> tuple[str, ...]:
    """The crates that a text names."""
    return tuple(dict.fromkeys(it for it in re.findall(r'\w+', text) if it in crates()))


class Page:
    """Goes over a page: its sections, and in each the tables whose last column is `By`."""

    def __init__(self, path: pathlib.Path) -> None:
        self.path, self.section, self.crates = path, '', ()
        self.is_table, self.has_ids = False, False
        self.found: list[Promise] = []

    def read(self) -> list[Promise]:
        """All its rows."""
        for number, line in enumerate(self.path.read_text(encoding='utf-8').split('\n'), 1):
            section = SECTION.match(line)
            if section:
                self.section = section[1]
            elif line.startswith('|'):
                self.take([it.strip() for it in line.strip('|').split(' | ')], number)
            else:
                self.is_table = False
                self.crates = known_in(line) or self.crates
        return self.found

    def take(self, cells: list[str], number: int) -> None:
        """Takes a row of a table."""
        if cells[-1] == 'By':
            self.is_table, self.has_ids = True, cells[0] == 'Id'
            self.crates = known_in(cells[int(self.has_ids)]) or self.crates
        elif self.is_table and not cells[0].startswith('--'):
            known = cells.pop(0) if self.has_ids else ''
            text = ': '.join(cells[:-1])
            bold = re.match(r'\*\*(\w+)\*\*', text)
            self.crates = known_in(bold[1] if bold else cells[0] if len(cells) > 2 else '') \
                or self.crates
            self.found.append(Promise(self.path, self.section, number, text, cells[-1],
                                      self.crates, known))


@functools.cache
def promises() -> list[Promise]:
    """The promises of all pages."""
    return [it for path in PAGES for it in Page(path).read()]


@dataclasses.dataclass
class Borne:
    """What bears a promise: calls and laws, with the labels of the clauses that do; definitions;
    and the words of its last column that name nothing."""
    calls: dict[Call, set[str]] = dataclasses.field(default_factory=dict)
    definitions: list[Named] = dataclasses.field(default_factory=list)
    unknown: list[str] = dataclasses.field(default_factory=list)

    @property
    def laws(self) -> list[Call]:
        """The calls that do nothing."""
        return [it for it in self.calls if it.is_law]

    @property
    def code(self) -> list[Call]:
        """The calls that do something."""
        return [it for it in self.calls if not it.is_law]

    def clauses(self, call: Call) -> list:
        """The clauses of a call that bear it, and what it requires: all, where none is named."""
        labels = self.calls[call]
        return [it for it in call.clauses
                if not labels or it.label in labels or it.kind == 'requires']


def publics(crate: str, test) -> list[Call]:
    """The public calls of a crate with clauses of which something is so."""
    return [it for it in calls_of(crate) if it.is_public and test(it)]


class Resolver:
    """Goes over the last column of a row, name by name."""

    def __init__(self, promise: Promise) -> None:
        self.promise, self.borne = promise, Borne()
        self.owner, self.is_label, self.is_type = '', False, False
        self.group: list[Call] = []

    def resolved(self) -> Borne:
        """What bears the promise."""
        text = self.promise.by
        if text == 'these methods':
            text = ', '.join(f'`{it}`' for it in QUOTED.findall(self.promise.text))
        for crate in LAWS.findall(text):
            self.add(publics(crate, lambda it: it.is_law))
        places = list(QUOTED.finditer(text))
        ends = [it.start() for it in places[1:]] + [len(text)]
        before = ''
        for it, end in zip(places, ends):
            after = text[it.end():end]
            self.take(it[1], before, after)
            before = after
        return self.borne

    def take(self, name: str, before: str, after: str) -> None:
        """Takes a name, with what stands before and behind it."""
        if ';' in before or ':' in before:
            self.is_label = before.rfind(':') > before.rfind(';')
        self.is_type = before.endswith('invariant of ')
        if self.is_label and self.take_label(name):
            return
        if not self.is_label and ';' in before:
            self.group = []
        self.take_call(name, after)

    def take_label(self, name: str) -> bool:
        """Takes a label of the last calls, or else of one of the row's."""
        for calls in (self.group, list(self.borne.calls)):
            having = [it for it in calls if name in it.labels]
            for it in having:
                self.borne.calls[it].add(name)
            if having:
                return True
        return False

    def take_call(self, name: str, after: str) -> None:
        """Takes a call, the methods of a type, the laws of a file, or a definition."""
        if self.is_label:
            self.group = []
        found = [] if self.is_type else self.calls_named(name)
        if after.startswith("'"):
            self.owner = name
        if after.startswith("'") and 'method' not in after:
            return
        if found:
            self.add(found)
        elif not self.take_definition(name):
            self.borne.unknown.append(name)

    def add(self, calls: list[Call]) -> None:
        """Adds calls, to which the next labels belong."""
        self.group += calls
        for it in calls:
            self.borne.calls.setdefault(it, set())

    def calls_named(self, name: str) -> list[Call]:
        """The public calls of a name: of the row's crates, or of any."""
        for places in (self.promise.crates, crates()):
            for crate in places:
                found = self.calls_in(crate, name)
                if found:
                    return found
        return []

    def calls_in(self, crate: str, name: str) -> list[Call]:
        """The public calls of a name in a crate."""
        if name.endswith('.rt'):
            return publics(crate, lambda it: it.is_law and it.path.name == name)
        owner, _, method = name.rpartition('::')
        if owner:
            return publics(crate, lambda it: (it.owner, it.name) == (owner, method))
        of_owner = publics(crate, lambda it: (it.owner, it.name) == (self.owner, name))
        plain = publics(crate, lambda it: it.name == name and it.clauses)
        return of_owner or [it for it in plain if not it.owner] or plain or publics(
            crate, lambda it: it.owner == name)

    def take_definition(self, name: str) -> bool:
        """Takes a definition that the clauses of the row's calls can name, or a type."""
        types = [it for crate in self.promise.crates for it in types_of(crate) if it.name == name]
        meant = [scope_of_call(it).meaning(name) for it in self.borne.calls]
        found = [it for it in types + meant if it]
        self.borne.definitions += found[:1]
        return bool(found)


@functools.cache
def borne_by(promise: Promise) -> Borne:
    """What bears a promise."""
    return Resolver(promise).resolved()


@functools.cache
def public_laws() -> list[Call]:
    """The laws of all crates."""
    return [it for it in all_calls() if it.is_public and it.is_law]


def register() -> dict[str, str]:
    """What each id stands for by the register: the first call that bears it, or that it is gone."""
    lines = REGISTER.read_text(encoding='utf-8').splitlines()
    return dict(it.split(' ', 1) for it in lines if it.startswith('P-'))
