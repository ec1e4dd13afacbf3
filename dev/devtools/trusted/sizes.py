"""How large that is on which the promises rest: definitions by kind, the kit's binaries, scripts
and logic, and the statements of its libraries."""
import dataclasses
import hashlib
import pathlib
import re
import shutil
from collections.abc import Iterable

from baytools.common.ending import Failed
from devtools.paths import CRATES
from devtools.trace.calls import crates
from devtools.trace.definitions import Definition, Reader

DATA = re.compile(r'(?:record|data) [^\s:]+ : Type 0\b')
CLAUSE = re.compile(r'^\s*(?:ensures|requires)\b', re.M)


@dataclasses.dataclass(frozen=True)
class Size:
    """How many there are, and their lines."""
    count: int
    lines: int

    def __str__(self) -> str:
        return f'{self.count:,} in {self.lines:,} lines'


def kind_of(it: Definition) -> str:
    """Whether a definition is a type, a proposition (that something is so) or a function."""
    if re.search(r'\brecord\b|\bdata\b', it.text.partition(':')[0]):
        return 'types' if DATA.search(it.text) else 'propositions'
    signature = re.split(rf'\n(?:{re.escape(it.name)}\b)| = ', it.text, maxsplit=1)[0]
    return 'propositions' if signature.rstrip().endswith('Type 0') else 'functions'


def lines_of(paths: Iterable[pathlib.Path]) -> int:
    """The lines of files that are not blank."""
    return sum(bool(line.strip()) for path in paths
               for line in path.read_text(encoding='utf-8').split('\n'))


def definitions() -> dict[str, Size]:
    """The definitions of all crates by kind."""
    found: dict[str, list[Definition]] = {'functions': [], 'propositions': [], 'types': []}
    for crate in crates():
        for path in sorted((CRATES / crate / 'specs').glob('*.antt')):
            for it in Reader(crate, path).read():
                found[kind_of(it)].append(it)
    return {kind: Size(len(of), sum(it.text.count('\n') + 1 for it in of))
            for kind, of in found.items()}


def kit() -> pathlib.Path:
    """The folder of the kit that `rt` belongs to."""
    rt = shutil.which('rt')
    if rt is None:
        raise Failed('rt is not there: the kit is not on the path')
    return pathlib.Path(rt).resolve().parent.parent


def statements(folder: pathlib.Path) -> tuple[int, int]:
    """The lines of a library's definitions, and how many clauses its functions have."""
    clauses = sum(len(CLAUSE.findall(it.read_text(encoding='utf-8')))
                  for it in folder.glob('src/**/*.rt'))
    return lines_of(folder.glob('specs/**/*.antt')), clauses


def sum_of(path: pathlib.Path) -> str:
    """The SHA-256 of a file."""
    with open(path, 'rb') as file:
        return hashlib.file_digest(file, 'sha256').hexdigest()
