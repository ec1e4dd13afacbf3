"""The functions of a crate's sources with their contracts, and its types."""
import bisect
import dataclasses
import functools
import pathlib
import re

from baytools.common.paths import TOP
from devtools.paths import CRATES
from devtools.sources.lexer import SPELLED

FUNCTION = re.compile(r'^ *(pub(?:\(crate\))? )?(?:const )?fn (\w+)', re.M)
TYPE = re.compile(r'^(?:pub(?:\(crate\))? )?(?:enum|struct|trait) (\w+)', re.M)
OWNER = re.compile(r'^(?:pub(?:\(crate\))? )?(?:impl|trait)\b([^{]*)\{', re.M)
CLAUSE = re.compile(r'\b(requires|ensures)(\*?)\s+(\w+\s+)?\{')
GHOST = re.compile(r'^ *ghost use ([^;]*);', re.M)
PAIRS = {'(': ')', '[': ']', '{': '}'}


@dataclasses.dataclass(frozen=True)
class Clause:
    """What a call requires or ensures, by its label."""
    kind: str
    label: str
    text: str
    line: int


@dataclasses.dataclass(frozen=True)
class Call:
    """A function of a crate: whose method it is, its contract and its body."""
    crate: str
    path: pathlib.Path
    owner: str
    name: str
    line: int
    last: int
    is_public: bool
    told: str
    clauses: tuple[Clause, ...]
    body: str

    @property
    def title(self) -> str:
        """Its name as the documents write it."""
        return f'{self.owner}::{self.name}' if self.owner else self.name

    @property
    def is_law(self) -> bool:
        """Whether it does nothing, so that its contract is a fact about definitions."""
        return bool(self.clauses) and not self.body.strip()

    @property
    def labels(self) -> set[str]:
        """The labels of its clauses."""
        return {it.label for it in self.clauses if it.label}


@dataclasses.dataclass(frozen=True)
class Declared:
    """A type of the code, which definitions see as `specs.declared`."""
    crate: str
    path: pathlib.Path
    name: str
    line: int
    told: str
    text: str


def quiet(text: str) -> str:
    """A source in which comments and texts in quotes are blank, each character at its place."""
    def blanked(it: re.Match) -> str:
        is_silent = it.lastgroup in ('text', 'char') or it.group().startswith(('//', '/*'))
        return re.sub(r'[^\n]', ' ', it.group()) if is_silent else it.group()
    return SPELLED.sub(blanked, text)


def after_group(text: str, start: int) -> int:
    """The place behind the bracket that closes the one at `start`."""
    depth = 0
    for place in range(start, len(text)):
        depth += (text[place] in PAIRS) - (text[place] in PAIRS.values())
        if depth == 0:
            return place + 1
    return len(text)


@functools.cache
def public_modules(crate: str) -> set[str]:
    """The modules of a crate that others may name."""
    lib = CRATES / crate / 'src' / 'lib.rt'
    text = lib.read_text(encoding='utf-8') if lib.exists() else ''
    return set(re.findall(r'^pub mod (\w+);', text, re.M))


class Source:
    """A file of code: what stands at which line."""

    def __init__(self, crate: str, path: pathlib.Path, text: str | None = None) -> None:
        self.crate, self.path = crate, path
        self.text = path.read_text(encoding='utf-8') if text is None else text
        self.quiet = quiet(self.text)
        self.ends = [it.start() for it in re.finditer('\n', self.text)]
        self.uses = [' '.join(it.split()) for it in GHOST.findall(self.quiet)]
        self.owners = [self.owner_at(it) for it in OWNER.finditer(self.quiet)]
        front = path.relative_to(CRATES / crate / 'src').with_suffix('').parts[0]
        self.is_public = front in ('lib', 'main') or front in public_modules(crate)

    def line(self, place: int) -> int:
        """The line of a place, counted from 1."""
        return bisect.bisect_left(self.ends, place) + 1

    def owner_at(self, it: re.Match) -> tuple[int, int, str]:
        """Where an `impl` or a trait begins and ends, and whose it is."""
        head = re.sub(r'<[^<>]*>', '', re.sub(r'<[^<>]*>', '', it[1]))
        name = re.findall(r'\w+', head.rpartition(' for ')[2])
        return it.start(), after_group(self.quiet, it.end() - 1), name[0] if name else ''

    def comment_before(self, place: int) -> str:
        """The comment above what begins at a place."""
        lines = self.text[:place].rstrip(' ').split('\n')[:-1]
        told = []
        while lines and re.match(r'\s*(//|#\[|[^/]*\]$)', lines[-1]):
            told.insert(0, lines.pop())
        return ' '.join(re.sub(r'^\s*/{2,3} ?', '', it) for it in told if '//' in it)

    def clauses(self, start: int) -> tuple[list[Clause], int]:
        """The clauses of a function from its arguments on, and where its body begins."""
        found, place = [], start
        while place < len(self.quiet) and self.quiet[place] not in '{;':
            clause = CLAUSE.match(self.quiet, place)
            if clause:
                end = after_group(self.quiet, clause.end() - 1)
                found.append(Clause(clause[1] + clause[2], (clause[3] or '').strip(),
                                    self.text[clause.end():end - 1].strip(), self.line(place)))
                place = end
            elif self.quiet[place] in PAIRS:
                place = after_group(self.quiet, place)
            else:
                place += 1
        return found, place

    def calls(self) -> list[Call]:
        """All its functions."""
        return [self.call_at(it) for it in FUNCTION.finditer(self.quiet)]

    def call_at(self, it: re.Match) -> Call:
        """The function that begins here."""
        start = it.start() + len(it.group()) - len(it.group().lstrip())
        clauses, body = self.clauses(it.end())
        is_given = self.quiet[body:body + 1] == '{'
        end = after_group(self.quiet, body) if is_given else body + 1
        inner = self.quiet[body + 1:end - 1] if is_given else ';'
        owner = next((name for begun, ended, name in self.owners if begun < start < ended), '')
        is_public = it[1] == 'pub ' and self.is_public
        return Call(self.crate, self.path, owner, it[2], self.line(start), self.line(end - 1),
                    is_public, self.comment_before(it.start()), tuple(clauses), inner)

    def types(self) -> list[Declared]:
        """All types that it declares."""
        found = []
        for it in TYPE.finditer(self.quiet):
            brace = re.compile('[{;]').search(self.quiet, it.end())
            is_plain = brace is None or brace.group() == ';'
            end = brace.end() if is_plain else after_group(self.quiet, brace.start())
            text = self.text[it.start():end] + self.model_of(it[1])
            found.append(Declared(self.crate, self.path, it[1], self.line(it.start()),
                                  self.comment_before(it.start()), text))
        return found

    def model_of(self, name: str) -> str:
        """How clauses see a type, and its invariant."""
        head = re.compile(rf'^impl\b[^\n]* ?Model for {name}\b')
        return ''.join(f'\n\n{self.text[begun:end]}' for begun, end, owner in self.owners
                       if owner == name and head.match(self.text[begun:end]))


def crates() -> list[str]:
    """The crates by crates.txt."""
    return re.findall(r'^(\w+)(?: staticlib)?:', (TOP / 'crates.txt').read_text(), re.M)


@functools.cache
def sources(crate: str) -> list[Source]:
    """The files of a crate's code."""
    return [Source(crate, it) for it in sorted((CRATES / crate / 'src').rglob('*.rt'))]


@functools.cache
def calls_of(crate: str) -> list[Call]:
    """All functions of a crate."""
    return [call for source in sources(crate) for call in source.calls()]


@functools.cache
def types_of(crate: str) -> list[Declared]:
    """All types of a crate."""
    return [it for source in sources(crate) for it in source.types()]


@functools.cache
def all_calls() -> list[Call]:
    """All functions of all crates."""
    return [call for crate in crates() for call in calls_of(crate)]


@functools.cache
def uses_in(path: pathlib.Path) -> list[str]:
    """What the `ghost use` lines of a file of code name."""
    crate = path.relative_to(CRATES).parts[0]
    return next(it.uses for it in sources(crate) if it.path == path)
