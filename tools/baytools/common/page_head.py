"""The head of a page that is kept as evidence: of what time it is, on which machine it was made, of
which files, and by which version of the tool. Each page that proves something has it."""
import functools
import hashlib
import pathlib
import platform
import re
import subprocess
import sys
import time
from collections.abc import Iterable, Sequence
from dataclasses import dataclass

from . import moments
from .html_page import code, as_html, sum_of, table
from .paths import CHANGES, TOP
from .texts import quantity


@dataclass(frozen=True)
class Source:
    """A file that was read: what it is, its name, how many octets it has, and their SHA-256."""
    what: str
    name: str
    size: int
    digest: str


def source_of(what: str, name: str, octets: bytes) -> Source:
    return Source(what, name, len(octets), sum_of(octets))


def source_at(what: str, path: str | pathlib.Path) -> Source:
    """A file, whose octets are read piece by piece."""
    with open(path, 'rb') as file:
        found = hashlib.file_digest(file, 'sha256').hexdigest()
        return Source(what, pathlib.Path(path).name, file.tell(), found)


def source_of_many(what: str, paths: Iterable[pathlib.Path]) -> Source:
    """Files of this folder as one: the sum of their names, each with its own sum."""
    found = {path.relative_to(TOP).as_posix(): path.read_bytes() for path in paths}
    whole = ''.join(f'{sum_of(found[name])}  {name}\n' for name in sorted(found))
    return Source(what, f'sha256sum of {quantity(len(found), "file")}',
                  sum(map(len, found.values())), sum_of(whole.encode()))


def now() -> int:
    """This moment, in milliseconds since 1970."""
    return int(time.time() * 1000)


def moment_text(moment: int) -> str:
    """A moment with its date and its zone, to the second."""
    return f'{moments.date_of(moment):%Y-%m-%d %H:%M:%S} {moments.zone_text(moment)}'


def span_text(first: int, last: int) -> str:
    """From one moment to another, each with its date and its zone."""
    one, other = moment_text(first), moment_text(last)
    return one if one == other else f'{one} to {other}'


def machine() -> str:
    """The machine that made the page: its name and its system."""
    found = platform.uname()
    return f'{found.node or "without a name"} ({found.system} {found.release}, {found.machine})'


def git(*words: str) -> str | None:
    """What git says of this folder; None where it can't."""
    try:
        done = subprocess.run(('git', *words), cwd=TOP, capture_output=True, text=True, check=True)
    except (OSError, subprocess.CalledProcessError):
        return None
    return done.stdout.strip()


@functools.cache
def commit() -> str:
    """The commit of this folder. Where files differ from it, it says so."""
    top, found = git('rev-parse', '--show-toplevel'), git('log', '-1', '--format=%h of %as')
    if not found or not top or pathlib.Path(top) != TOP:
        return 'no commit (this folder is no clone of git)'
    differ = git('status', '--porcelain')
    if differ is None:
        return f'{found}; whether files differ from it is not known'
    count = len(differ.splitlines())
    return f'{found}, CHANGED in {quantity(count, "path")} of this folder' if count else found


def version(command: str) -> str:
    """The version of a command, such as tools/audit: the newest of CHANGELOG.md, its commit, and a
    sum of its files."""
    newest = re.search(r'^## (\d\S*)', CHANGES.read_text(encoding='utf-8'), re.M)
    modules = [getattr(it, '__file__', None) for it in list(sys.modules.values())]
    files = {TOP / command} | {pathlib.Path(it).resolve() for it in modules if it}
    found = source_of_many('', (it for it in files if it.is_relative_to(TOP)))
    return (f'{command} of {newest[1] if newest else "no version"}, commit {commit()}; SHA-256 '
            f'of its files {found.digest[:16]}')


def head(command: str, span: str, about: Sequence[tuple[str, str]],
         sources: Sequence[Source]) -> list[str]:
    """The head of a page, as parts of HTML. `span` is the time that the page is of; `about` are
    rows of the tool's own, as text."""
    rows = [*about, ('Time', span), ('Machine', machine()), ('Made by', version(command)),
            ('Made at', moment_text(now()))]
    files = [(as_html(it.what), code(it.name), f'{it.size:,}', code(it.digest)) for it in sources]
    return [table(['', ''], [(name, as_html(told)) for name, told in rows], ' class="evidence"'),
            '<h2>What was read</h2>',
            table(['', '!File', '#Octets', 'SHA-256'], files, ' class="evidence"')]
