"""The definitions of crates/*/specs, and which of them a clause or a definition names."""
import dataclasses
import functools
import pathlib
import re

from devtools.paths import CRATES

from .calls import Call, Declared, types_of, uses_in

WORDS = r'(?:(?:abbrev|unfoldable|opaque|pub|record|data) +)+'
BEGINS = re.compile(rf'(?:{WORDS}([^\s:]+)|([^\s:(]+) +: )')
USE = re.compile(r'^(?:pub )?use (.*)$', re.M)
HANDED = re.compile(r'^pub use (.*)$', re.M)
HEADING = re.compile(r'-- ---- (.*)')
WITHIN = re.compile(r'(?:abbrev )?mutual$|module _ (.*)')
SHARED = re.compile(r'^pub use Rattle\.(\w+)\.specs\.(\w+)$', re.M)
OUTSIDE = ('use ', 'pub use ', 'pub mod ', 'mod ', 'infix')
NAMED = re.compile(r"[^\W\d_][\w']*(?:\.[^\W\d_][\w']*)?")


@dataclasses.dataclass(frozen=True)
class Definition:
    """A definition with the comment above it, and the heading under which it stands."""
    crate: str
    path: pathlib.Path
    name: str
    line: int
    told: str
    text: str
    heading: str = ''


Named = Definition | Declared


def continues_definition(line: str, name: str) -> bool:
    """Whether a line goes on with a definition: it is indented, or another equation of it."""
    return line.startswith((' ', '}')) or line.split(' ')[0] == name


class Reader:
    """Goes over the lines of a file of definitions."""

    def __init__(self, crate: str, path: pathlib.Path) -> None:
        self.crate, self.path = crate, path
        self.found: list[Definition] = []
        self.comment: list[str] = []
        self.shared = ''
        self.heading = ''

    def read(self) -> list[Definition]:
        """All definitions of the file, also those within a module of shared arguments."""
        is_within = False
        for number, line in enumerate(self.path.read_text(encoding='utf-8').split('\n'), 1):
            begins = WITHIN.match(line)
            is_within = bool(begins) or is_within and line[:1] in ('', ' ')
            if begins:
                self.shared = begins[1] or ''
            elif is_within and self.shared and not self.shared.endswith(' where'):
                self.shared += f' {line.strip()}'
            else:
                self.shared = self.shared if is_within else ''
                self.take(number, line.removeprefix('  ') if is_within else line)
        return self.found

    def take(self, number: int, line: str) -> None:
        """Takes a line: of a comment, of what begins, or of what goes on."""
        begins, heading = BEGINS.match(line), HEADING.match(line)
        if heading:
            self.heading, self.comment = heading[1], []
        elif line.startswith('--'):
            self.comment.append(line.lstrip('- '))
        elif line.startswith(OUTSIDE):
            self.comment = []
        elif begins:
            shared = f'(For each {self.shared.removesuffix(" where")}.)' if self.shared else ''
            told = ' '.join(it for it in (*self.comment, shared) if it)
            self.found.append(Definition(self.crate, self.path, begins[1] or begins[2], number,
                                         told, line, self.heading))
            self.comment = []
        elif not line:
            self.comment = []
        elif self.found and continues_definition(line, self.found[-1].name):
            self.add_line(line)

    def add_line(self, line: str) -> None:
        """Adds a line to the last definition, with a comment that stands before it."""
        lines = [self.found[-1].text, *(f'-- {it}' for it in self.comment), line]
        self.found[-1] = dataclasses.replace(self.found[-1], text='\n'.join(lines))
        self.comment = []


@functools.cache
def definitions_in(path: pathlib.Path) -> dict[str, Definition]:
    """The definitions of a file by their names."""
    crate = path.relative_to(CRATES).parts[0]
    return {it.name: it for it in Reader(crate, path).read()}


@functools.cache
def file_of(crate: str, module: str) -> pathlib.Path | None:
    """The file of a module of definitions, also where a crate hands on another's."""
    path = CRATES / crate / 'specs' / f'{module}.antt'
    lib = path.with_name('Lib.antt')
    if path.exists() or not lib.exists():
        return path if path.exists() else None
    for other, name in SHARED.findall(lib.read_text(encoding='utf-8')):
        if name == module:
            return file_of(other, module)
    return None


def constructed_in(path: pathlib.Path, name: str) -> Definition | None:
    """The `data` of a file that has a constructor or a field of this name."""
    part = re.compile(rf'^  (?:pub )?{re.escape(name)} :', re.M)
    return next((it for it in definitions_in(path).values() if part.search(it.text)), None)


def declared_as(crate: str, words: list[str], name: str) -> Declared | None:
    """The type of the code that a module of `specs.declared` stands for."""
    types = {it.name: it for it in types_of(crate)}
    return next((types[it] for it in (name, *reversed(words)) if it in types), None)


def in_file(file: pathlib.Path, name: str) -> Named | None:
    """What has a name in a file, also where that hands on another's."""
    found = definitions_in(file).get(name) or constructed_in(file, name)
    handed = Scope(HANDED.findall(file.read_text(encoding='utf-8')))
    return found or (in_module(*handed.names[name]) if name in handed.names else None)


def in_module(path: str, name: str) -> Named | None:
    """What has a name in a module, as `Rattle.bay_tree.specs.Rows` is written."""
    words = path.split('.')
    if words[0] != 'Rattle' or len(words) < 4 or not (CRATES / words[1]).is_dir():
        return None
    crate, module = words[1], words[3]
    if module == 'declared':
        return declared_as(crate, words[4:], name)
    file = file_of(crate, module)
    return file and in_file(file, name)


class Scope:
    """What names mean in a file: by its `use` lines, and in definitions by the file itself."""

    def __init__(self, uses: list[str], own: pathlib.Path | None = None) -> None:
        self.own = definitions_in(own) if own else {}
        self.names: dict[str, tuple[str, str]] = {}
        self.modules: dict[str, str] = {}
        for use in uses:
            self.take(use)

    def take(self, use: str) -> None:
        """Takes what a `use` line brings."""
        listed = re.fullmatch(r'([\w.]+)\.\{(.*)\}', use)
        if listed:
            for it in listed[2].split(','):
                name, _, alias = it.strip().partition(' as ')
                self.names[alias or name] = listed[1], name
        else:
            path, _, alias = use.partition(' as ')
            self.modules[alias or path.rpartition('.')[2]] = path

    def meaning(self, word: str) -> Named | None:
        """The definition or type that a word of a text names."""
        front, _, rest = word.partition('.')
        if rest and front in self.modules:
            return in_module(self.modules[front], rest)
        if front in self.own:
            return self.own[front]
        return in_module(*self.names[front]) if front in self.names else None

    def named(self, text: str) -> list[Named]:
        """What a text names, each once, in order."""
        found = [self.meaning(it) for it in NAMED.findall(text)]
        return list(dict.fromkeys(it for it in found if it))


@functools.cache
def scope_of_call(call: Call) -> Scope:
    """What names mean in the clauses of a call."""
    return Scope(uses_in(call.path))


@functools.cache
def scope_of(named: Named) -> Scope:
    """What names mean in a definition or a type."""
    if isinstance(named, Declared):
        return Scope(uses_in(named.path))
    return Scope(USE.findall(named.path.read_text(encoding='utf-8')), named.path)


@functools.cache
def definitions_cited(call: Call, labels: frozenset[str] = frozenset()) -> tuple[Named, ...]:
    """The definitions that the clauses of a call cite: those of these labels, or all."""
    texts = [it.text for it in call.clauses if not labels or it.label in labels]
    return tuple(scope_of_call(call).named('\n'.join(texts)))


@functools.cache
def below(named: Named) -> list[Named]:
    """The definitions that a definition names itself."""
    return [it for it in scope_of(named).named(named.text) if it != named]


def unfound(scope: Scope, text: str) -> list[str]:
    """The words of a text that a `use` line takes from a crate of this repository, and that name
    nothing there."""
    def is_ours(path: str) -> bool:
        return (CRATES / path.split('.')[1]).is_dir()
    found = []
    for word in NAMED.findall(text):
        front, _, rest = word.partition('.')
        path = scope.modules.get(front, '') if rest else scope.names.get(front, ('',))[0]
        if path.startswith('Rattle.') and is_ours(path) and not scope.meaning(word):
            found.append(word)
    return found
