"""Tries a change of a definition by `rt check`, on a copy of the crates, and reads the answer."""
import concurrent.futures
import dataclasses
import itertools
import pathlib
import re
import subprocess
import tempfile
from collections.abc import Callable, Iterator

from devtools.crate_copy import KEPT, LIBRARY, copy_of
from devtools.paths import CRATES
from devtools.trace.inner import crates_below
from devtools.trace.refusals import NAMED, place_of

from .changes import Change, text_of
from .written import without_fact

BROKEN, PROVES, UNREAD, UNKNOWN = 'broken', 'proves', 'not read', 'no answer'
SAID = re.compile(r'^(note: )?(?:\./)?((?:src|specs|proofs)/\S+?):(\d+):\d+: (.*)$', re.M)
# What a text says that names what went; in a proof that says little of what can be proved.
NAMES = re.compile(r'has no field|is not a field|is not in scope|has no `|was not admitted')
UNBUILT = re.compile(r'^rt: the library (\w+) did not build', re.M)
FAILED = re.compile(r'^fn \w+::(\S+): (?:not proved|no proof)', re.M)


@dataclasses.dataclass(frozen=True)
class Answer:
    """What a change comes to: the crate that it breaks, the call with its clause, or the file, at
    which the first open goal stands, and that goal; and the crates that were looked through."""
    verdict: str
    through: tuple[str, ...]
    crate: str = ''
    at: str = ''
    goal: str = ''

    @property
    def text(self) -> str:
        """It in words."""
        looked = ', '.join(self.through)
        if self.verdict == PROVES:
            return f'still proves in {looked}' if looked else 'no law rests on it'
        if self.verdict == BROKEN:
            return f'broken by {self.crate}, {self.at}: {self.goal}'
        return f'{self.verdict}: {self.goal}'


@dataclasses.dataclass(frozen=True)
class ProverMessage:
    """A line of the prover on a place of a crate."""
    crate: str
    file: str
    line: int
    text: str
    is_error: bool

    @property
    def is_of_text(self) -> bool:
        """Whether it is of a definition or a clause that can't be read, and of no goal."""
        is_in_clause = self.file.startswith('src/') and NAMES.search(self.text)
        return self.is_error and bool(self.file.startswith('specs/') or is_in_clause)

    @property
    def is_of_name(self) -> bool:
        """Whether it is of a proof that names what went, or rests on one that failed."""
        return self.file.startswith('proofs/') and bool(NAMES.search(self.text))

    @property
    def at(self) -> str:
        """The call with its clause at which it stands, or nothing where it is a lemma's."""
        call, clause = place_of(self.crate, self.file, self.line)
        named = NAMED.search(self.text)
        label = named[1] if named else clause.label or clause.kind if clause else ''
        return '/'.join(it for it in (call.title, label) if it) if call else ''


def messages_in(crate: str, printed: str) -> list[ProverMessage]:
    """What the prover said of places, but for warnings."""
    return [ProverMessage(crate, file, int(line), text, 'error' in text)
            for note, file, line, text in SAID.findall(printed)
            if note or text.startswith('error')]


def title_of(path: str) -> str:
    """The name of a function as the documents write it, without its modules."""
    words = path.split('::')
    return '::'.join(words[-2:] if len(words) > 1 and words[-2][0].isupper() else words[-1:])


def first_goal(crate: str, printed: str) -> tuple[str, str]:
    """Where the first open goal stands, and that goal: a call and its clause where there is one,
    else a function whose proof rests on a lemma, and that lemma's file."""
    said = messages_in(crate, printed)
    if not said:
        return '', printed.strip().rpartition('\n')[2]
    goals = [it for it in said if not it.is_of_name]
    first = next((it for it in goals if it.at), (goals or said)[0])
    failed = FAILED.search(printed)
    lemma = f'{title_of(failed[1])} by {first.file}' if failed else first.file
    told = first.text.removeprefix('error: ').strip()
    return first.at or lemma, told if goals else f'{told} (a proof names what went)'


def answer_in(crate: str, status: int, printed: str, through: tuple[str, ...]) -> Answer | None:
    """What a check of a crate says of a change, or nothing where the crate is proved."""
    unbuilt = UNBUILT.search(printed)
    broken = unbuilt[1] if unbuilt else crate
    unread = next((it for it in messages_in(broken, printed) if it.is_of_text), None)
    at, goal = first_goal(broken, printed)
    if status == 0:
        return None
    if unread:
        return Answer(UNREAD, through, broken, unread.file, unread.text)
    is_sure = status == 1 and through[0] in crates_below(broken)
    return Answer(BROKEN if is_sure else UNKNOWN, through, broken, at, goal)


def check_crate(folder: pathlib.Path, seconds: int) -> tuple[int, str]:
    """Checks a crate by one job: the status, and what was printed."""
    try:
        done = subprocess.run(['rt', 'check', '--jobs', '1'], cwd=folder, stdout=subprocess.PIPE,
                              stderr=subprocess.STDOUT, stdin=subprocess.DEVNULL, text=True,
                              errors='replace', timeout=seconds)
    except subprocess.TimeoutExpired:
        return -1, f'the check took more than {seconds} seconds'
    return done.returncode, done.stdout


def place_in(room: pathlib.Path, change: Change) -> list[pathlib.Path]:
    """Puts a change into a copy; with a fact goes what gives it in proofs. Returns the files that
    it wrote."""
    path = room / 'crates' / change.definition.path.relative_to(CRATES)
    path.write_text(change.applied(text_of(change.definition.path)), encoding='utf-8')
    written = [path]
    for proof in room.glob('crates/*/proofs/**/*.antt') if change.name else ():
        text = proof.read_text(encoding='utf-8')
        if all(it in text for it in change.names):
            proof.write_text(without_fact(text, change.name, change.names), encoding='utf-8')
            written.append(proof)
    return written


def try_change(change: Change, others: list[str], seconds: int) -> Answer:
    """What a change comes to in its crate, and if that is proved in others, one after the other."""
    looked: tuple[str, ...] = ()
    with tempfile.TemporaryDirectory(prefix='wrong-definitions-') as name:
        room = pathlib.Path(name)
        copy_of(CRATES, room, {LIBRARY, KEPT})
        place_in(room, change)
        for crate in (change.definition.crate, *others):
            looked += (crate,)
            status, printed = check_crate(room / 'crates' / crate, seconds)
            found = answer_in(crate, status, printed, looked)
            if found:
                return found
    return Answer(PROVES, looked)


def answers_of(changes: list[Change], answer_to: Callable[[Change], Answer], jobs: int,
               most: int | None) -> Iterator[tuple[Change, Answer]]:
    """Tries so many changes at a time: each with what it comes to, as they end. Of changes that can
    be read it tries no more than the most."""
    left, count = iter(changes), 0
    running: dict[concurrent.futures.Future[Answer], Change] = {}
    with concurrent.futures.ThreadPoolExecutor(jobs) as pool:
        while True:
            room = jobs if most is None else min(jobs, most - count)
            for it in itertools.islice(left, room - len(running)):
                running[pool.submit(answer_to, it)] = it
            if not running:
                return
            for done in concurrent.futures.wait(running, return_when='FIRST_COMPLETED').done:
                answer = done.result()
                count += answer.verdict != UNREAD
                yield running.pop(done), answer
