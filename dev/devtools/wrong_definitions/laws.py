"""Tries a change of a definition on the laws that rest on it. The crates from that of the
definition up to a law's are read as sources, and no code of theirs is proved, so that an answer
takes half a minute where the crates below were built."""
import functools
import itertools
import pathlib
import re
import shutil
import subprocess
from collections.abc import Iterator

from baytools.common.ending import Failed
from devtools.crate_copy import LIBRARY, copy_of
from devtools.paths import CRATES
from devtools.trace.calls import Call, crates
from devtools.trace.definitions import Definition, Named, definitions_cited
from devtools.trace.inner import all_below, crates_below
from devtools.trace.promises import public_laws
from devtools.trace.trace_page import closure

from .changes import Change
from .trying import BROKEN, PROVES, UNKNOWN, UNREAD, Answer, first_goal, place_in

# A definition that can't be read, and a clause of a law that is not proved.
SPOILT = re.compile(r'^\S*?/crates/(\w+)/(specs/\S+?):\d+:\d+: error: (.*)$', re.M)
CLAUSE = re.compile(r'^\S*?/(\w+)/Answers\.antt:.*: returns-clause-(\w+)$', re.M)


@functools.cache
def rests_on(law: Call) -> frozenset[Named]:
    """All definitions that a law rests on."""
    return frozenset(closure(list(definitions_cited(law))))


def laws_on(definition: Definition, each: int) -> Iterator[tuple[str, list[Call]]]:
    """The crates with laws that rest on a definition, and so many of those laws in each: first the
    law that rests on the fewest definitions, and its crate."""
    found = sorted((it for it in public_laws() if definition in rests_on(it)),
                   key=lambda it: (len(rests_on(it)), it.title))
    for crate in dict.fromkeys(it.crate for it in found):
        yield crate, [it for it in found if it.crate == crate][:each]


def from_kit(crate: str) -> set[str]:
    """The libraries of the kit that a crate names."""
    return {'core', 'std', *(crates_below(crate) - set(crates()))}


@functools.cache
def kit() -> pathlib.Path:
    """The folder of the kit."""
    done = subprocess.run(('rt', 'doc'), capture_output=True, text=True)
    if done.returncode:
        raise Failed(f'rt doc: {done.stderr.strip()}')
    return pathlib.Path(done.stdout.split()[-1]).parent


def answer_of(crate: str, status: int, printed: str, looked: tuple[str, ...]) -> Answer | None:
    """What a check of laws says of a change, or nothing where they are proved."""
    if status == 0:
        return None
    spoilt, clause = SPOILT.search(printed), CLAUSE.search(printed)
    if spoilt:
        return Answer(UNREAD, looked, *spoilt.groups())
    at, goal = first_goal(crate, printed)
    return Answer(BROKEN if status == 1 else UNKNOWN, looked, crate,
                  '/'.join(clause.groups()) if clause else at, goal)


class Room:
    """A copy of the crates with the libraries that were built, and what earlier checks kept."""

    def __init__(self, top: pathlib.Path) -> None:
        self.top = top
        copy_of(CRATES, top, {LIBRARY})

    def library(self, crate: str) -> pathlib.Path:
        """Where a crate was built."""
        return self.top / 'crates' / crate / 'out' / LIBRARY / f'{crate}.rlib'

    def sources(self, changed: str, crate: str) -> list[str]:
        """The crates below one that are read as sources: those that stand on the changed one, and
        those that were not built."""
        return [it for it in all_below(crate) if it == changed or changed in all_below(it)
                or not self.library(it).is_dir()]

    def words(self, changed: str, crate: str) -> list[str]:
        """The words of a check of a crate."""
        own = all_below(crate)
        sources = self.sources(changed, crate)
        named = set().union(*(crates_below(it) for it in (crate, *sources)))
        words = ['rattle', 'check', '--crate-name', crate, 'src/lib.rt', '-L',
                 f'dependency={kit()}/rlibs']
        for it in sorted(set().union(*(from_kit(it) for it in (crate, *sources)))):
            words += ['--extern', f'{it}={kit()}/rlibs/{it}.rlib']
        for it in own:
            if it in sources:
                uses = ','.join(sorted({*from_kit(it), *crates_below(it)} - {it}))
                words += ['--lib', f'{it}:{uses}={self.top}/crates/{it}/src/lib.rt']
            else:
                words += ['--extern', f'{it}={self.library(it)}'] if it in named else []
                words += ['-L', f'dependency={self.library(it).parent}']
        return [*words, '--antt-project', f'{kit()}/rattle/logic/antt-project.json',
                '--logic-built', f'{kit()}/logic_built', '--incremental', str(self.top / 'kept'),
                '--jobs', '1']

    def checked(self, changed: str, crate: str, laws: list[Call], seconds: int) -> tuple[int, str]:
        """Checks laws of a crate: the status, and what was printed."""
        only = itertools.chain(*(('--only', it.name) for it in laws))
        (self.top / 'kept').mkdir(exist_ok=True)
        try:
            done = subprocess.run([*self.words(changed, crate), *only],
                                  cwd=self.top / 'crates' / crate, stdout=subprocess.PIPE,
                                  stderr=subprocess.STDOUT, stdin=subprocess.DEVNULL, text=True,
                                  errors='replace', timeout=seconds)
        except subprocess.TimeoutExpired:
            return -1, f'the check took more than {seconds} seconds'
        return done.returncode, done.stdout

    def tried(self, change: Change, most: int, each: int, seconds: int) -> Answer:
        """What a change comes to in the laws of so many crates, one after the other, and so many
        laws of each."""
        looked: tuple[str, ...] = ()
        changed = place_in(self.top, change)
        try:
            for crate, laws in itertools.islice(laws_on(change.definition, each), most):
                looked += (crate,)
                said = self.checked(change.definition.crate, crate, laws, seconds)
                found = answer_of(crate, *said, looked)
                if found:
                    return found
        finally:
            for it in changed:
                shutil.copyfile(CRATES.parent / it.relative_to(self.top), it)
        return Answer(PROVES, looked)
