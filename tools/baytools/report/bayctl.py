"""bayctl as the tools ask it: the program that `rt run` builds, or the one on the path, or, where
there is none, its sources by `rt try`, which proves nothing and takes a minute or more, for many
asks as for one."""
import os
import pathlib
import re
import shutil
import subprocess
import tempfile
from collections.abc import Callable, Sequence
from dataclasses import dataclass

from baytools.common import paths
from baytools.common.ending import Failed, complain
from baytools.common.paths import CRATE, TRY

# Options that name a file.
FILES = ('--bay', '--logic', '--image', '--rules', '--diagram', '--trace', '--key')
NEVER = ('serve', 'compile')  # whose clients or files would not be reached
SECONDS, SHOWN = 600, 300  # of a run; characters that are told of one that failed
SAID = 'bayctl is not built, so `rt try` runs its sources, without proof, which takes minutes'
CASE = re.compile(r'(?m)^case=(\S+) run=(\S+)(?: status=([0-9]+))?.*\n?')


@dataclass(frozen=True)
class Ask:
    """A command line of bayctl, without the program, and its standard input."""
    words: tuple[str, ...]
    given: bytes = b''


@dataclass(frozen=True)
class Answer:
    """What bayctl wrote to standard output and standard error, and its exit status."""
    stdout: bytes
    stderr: bytes
    returncode: int


class Usual:
    """What is said once, and what was asked ahead."""

    def __init__(self) -> None:
        self.is_said, self.ahead = False, {}


USUAL = Usual()


def usual() -> pathlib.Path:
    """The program that is asked where none is named."""
    return paths.bayctl()


def is_tried(bayctl: str | pathlib.Path | None) -> bool:
    """Whether this program stands for a run of the sources."""
    return bayctl is not None and pathlib.Path(bayctl).resolve() == TRY


def not_run(error: OSError) -> Failed:
    """Why a program was not run, and where bayctl comes from."""
    return Failed(f'{error.filename}: {error.strerror}; put bayctl on the path, build it by '
                  '`rt run` in crates/bayctl, or name it by --bayctl')


def run(bayctl: str | pathlib.Path, *words: object, given: bytes = b'') -> Answer:
    """The answer to one ask."""
    ask = Ask(tuple(map(str, words)), given)
    if is_tried(bayctl):
        return USUAL.ahead.pop(ask, None) or run_from_sources([ask])[0]
    try:
        done = subprocess.run([bayctl, *ask.words], input=given, capture_output=True)
    except OSError as error:
        raise not_run(error) from None
    return Answer(done.stdout, done.stderr, done.returncode)


def run_lines(bayctl: str | pathlib.Path, *words: object,
              each: Callable[[bytes], None]) -> Answer:
    """The answer to one ask without an input. Each line of standard output is handed to `each` when
    it comes, if a built program is asked."""
    if is_tried(bayctl):
        return run(bayctl, *words)
    lines, command = [], [bayctl, *map(str, words)]
    with tempfile.TemporaryFile() as errors:
        try:
            asked = subprocess.Popen(command, stdin=subprocess.DEVNULL, stdout=subprocess.PIPE,
                                     stderr=errors)
        except OSError as error:
            raise not_run(error) from None
        with asked:
            try:
                for line in asked.stdout:
                    lines.append(line)
                    each(line)
            except BaseException:
                asked.kill()
                raise
        errors.seek(0)
        return Answer(b''.join(lines), errors.read(), asked.returncode)


def ask_ahead(bayctl: str | pathlib.Path, asks: Sequence[Ask]) -> None:
    """Asks in one go what will be asked one by one. A built program is not asked ahead."""
    if asks and is_tried(bayctl):
        USUAL.ahead |= zip(asks, run_from_sources(asks))


def run_from_sources(asks: Sequence[Ask]) -> list[Answer]:
    """The answers to several asks, by one run of `rt try`; says so once."""
    if not USUAL.is_said:
        complain(SAID)
    USUAL.is_said = True
    return answers_by_try(asks)


def answers_by_try(asks: Sequence[Ask]) -> list[Answer]:
    """The answers to several asks, by one run of `rt try`."""
    for ask in asks:
        if ask.words[:1] and ask.words[0] in NEVER:
            raise Failed(f'{ask.words[0]}: `rt try` runs no such command so that it is of use: '
                         'build bayctl by `rt run` in crates/bayctl')
    with tempfile.TemporaryDirectory() as folder:
        cases = Cases(pathlib.Path(folder), asks)
        words = ['rt', 'try', '--steps', '1', '--seconds', str(SECONDS), '--cases',
                 str(cases.folder), *cases.data]
        try:
            done = subprocess.run(words, cwd=CRATE, stdin=subprocess.DEVNULL, capture_output=True)
        except OSError as error:
            raise Failed(f'rt: {error.strerror}: it is not on the path') from None
        return cases.answers(done.stdout.decode('utf-8', 'surrogateescape'),
                             done.stderr.decode('utf-8', 'surrogateescape'))


class Cases:
    """Asks as a folder of cases, with the files that they name under names of their own."""

    def __init__(self, folder: pathlib.Path, asks: Sequence[Ask]) -> None:
        self.folder, self.files = folder / 'cases', folder / 'files'
        self.names: dict[str, str] = {}  # of files: what stands for each path
        self.data: list[str] = []
        self.order = [f'ask{at:04}' for at in range(len(asks))]
        self.folder.mkdir()
        self.files.mkdir()
        for name, ask in zip(self.order, asks):
            (self.folder / name).write_bytes(ask.given)
            words = [self.named(word, before) for before, word in zip(('', *ask.words), ask.words)]
            if any('\n' in word for word in words):
                raise Failed('`rt try` takes no word with the end of a line')
            (self.folder / f'{name}.args').write_text('\n'.join(words) + '\n', 'utf-8')

    def named(self, word: str, before: str) -> str:
        """A word of a command line, as the case has it: of a file its name there."""
        if before not in FILES:
            return word
        if word not in self.names:
            self.names[word] = name = f'file{len(self.names):04}'
            if os.path.isfile(word) and os.access(word, os.R_OK):
                shutil.copyfile(word, self.files / name)
                self.data += ['--data', f'{name}={self.files / name}']
        return self.names[word]

    def answers(self, out: str, error: str) -> list[Answer]:
        """What was printed for each ask."""
        parts = re.split(r'(?m)^== (ask[0-9]{4})\n', out)
        printed = dict(zip(parts[1::2], parts[2::2]))
        found, begin = {}, 0
        for case in CASE.finditer(error):
            if case[2] != 'ended':
                raise Failed(f'`rt try`: {case[0].strip()}: it was stopped, printed more than a '
                             f'mebibyte, or took more than {SECONDS} s')
            logged = error[begin:case.start()]
            begin = case.end()
            found[case[1]] = Answer(self.renamed(printed.get(case[1], '')), self.renamed(logged),
                                    int(case[3] or 0))
        if set(found) != set(self.order):
            lines = [line for line in (error + out).split('\n') if line
                     and not line.startswith(('run=', 'cases='))]
            told = next((it for it in lines if 'error' in it), ''.join(lines[-1:]))[:SHOWN]
            raise Failed(f'`rt try` in crates/bayctl: {told}')
        return [found[name] for name in self.order]

    def renamed(self, text: str) -> bytes:
        """What was printed, with the paths that were named."""
        for path, name in self.names.items():
            text = text.replace(name, path)
        return text.encode('utf-8', 'surrogateescape')
