"""The wrong bodies of what is only tested, and what refuses each: a part of dev/check, a trial, or
a program of cases."""
import contextlib
import dataclasses
import functools
import importlib
import io
import os
import pathlib
import re
import shutil
import subprocess

from baytools.common.paths import TOP

from .commands import load_command
from .crate_copy import KEPT, LIBRARY, texts_after_edit, copy_of
from .paths import CRATES

FOLDER = 'tested-bodies'
BY = re.compile(r'(?m)^by: (check|trial|cases) ([\w.]+)(?:: (.+))?$')
TRIALS = TOP / 'bench' / 'trials'
SECONDS = 600  # of a run without a proof


@dataclasses.dataclass(frozen=True)
class Body:
    """An edit: its crate, its file, and what is to refuse it: of a part of dev/check and of a trial
    also the name of the wrong behaviour."""
    crate: str
    path: pathlib.Path
    kind: str
    part: str
    name: str

    @property
    def key(self) -> str:
        """Its name: the crate and the file."""
        return f'{self.crate}/{self.path.stem}'

    @property
    def text(self) -> str:
        return self.path.read_text(encoding='utf-8')

    @property
    def by(self) -> str:
        """What refuses it, in words."""
        return f'{self.kind} {self.part}' + (f': {self.name}' if self.name else '')


def body_at(path: pathlib.Path) -> Body:
    """The body of a file, whose line `by:` says what refuses it."""
    found = BY.search(path.read_text(encoding='utf-8'))
    if not found:
        raise ValueError(f'{path}: no line `by:` says what refuses it')
    return Body(path.parent.parent.name, path, *(it or '' for it in found.groups()))


def bodies() -> list[Body]:
    """All of them."""
    return [body_at(it) for it in sorted(CRATES.glob(f'*/{FOLDER}/*.edit'))]


def put_in(body: Body, room: pathlib.Path, built: set[str]) -> None:
    """Copies the crates with these folders of what was built, and applies the edit."""
    copy_of(CRATES, room, built)
    crate = room / 'crates' / body.crate
    for name, text in texts_after_edit(crate, body.text).items():
        (crate / name).write_text(text, encoding='utf-8')


def program_of(body: Body, room: pathlib.Path, programs: pathlib.Path | None) -> pathlib.Path | str:
    """The program with the edit, or why there is none."""
    kept = programs / f'{body.crate}-{body.path.stem}' if programs else None
    if kept and kept.exists():
        return kept
    put_in(body, room, {LIBRARY, KEPT})
    folder = room / 'crates' / 'bayctl'
    done = subprocess.run(['rt', 'run', '--', '--version'], cwd=folder, capture_output=True,
                          text=True, stdin=subprocess.DEVNULL)
    made = folder / 'out' / 'bayctl'
    if not made.exists():
        last = (done.stdout + done.stderr).strip().rpartition('\n')[2]
        return f'it is not proved, so it belongs into wrong-bodies: {last}'
    if kept:
        kept.parent.mkdir(parents=True, exist_ok=True)
        return pathlib.Path(shutil.copy(made, kept))
    return made


def part_of(name: str) -> object:
    """A part of dev/check, by its module and its name."""
    module, _, part = name.rpartition('.')
    return getattr(importlib.import_module(f'devtools.check.{module}'), part)


def output_of_part(program: pathlib.Path, body: Body, folder: pathlib.Path) -> str:
    """What a part of dev/check prints of a program."""
    folder.mkdir()
    checks = load_command('check').Checks(program.resolve(), folder)
    importlib.import_module('devtools.check.supervision').write_files(checks)
    with contextlib.redirect_stdout(io.StringIO()) as printed:
        checks.run_part(part_of(body.part))
    return printed.getvalue()


def output_of_cases(body: Body, room: pathlib.Path, given: bytes) -> str:
    """What `rt try` prints of a program of cases with the edit."""
    put_in(body, room, set())
    done = subprocess.run(['rt', 'try', '--steps', '1', '--seconds', str(SECONDS)],
                          cwd=room / 'crates' / body.part, input=given, capture_output=True)
    return (done.stdout + done.stderr).decode('utf-8', 'replace')


def failed_cases(body: Body, room: pathlib.Path) -> str | None:
    """Why a program of cases does not refuse an edit, or None."""
    crate = CRATES / body.part
    given = load_command('try_all').given_to(crate, False)
    printed = output_of_cases(body, room, given)
    wanted = (crate / 'stdout').read_text(encoding='utf-8')
    is_run = re.search(r'(?m)^\d+ differ$', printed)
    return None if is_run and wanted.strip() not in printed.splitlines() else printed[-300:]


def why_not_refused(body: Body, room: pathlib.Path,
                    programs: pathlib.Path | None = None) -> str | None:
    """Why an edit is not refused by what it names, or None."""
    if body.kind == 'cases':
        return failed_cases(body, room)
    program = program_of(body, room, programs)
    if isinstance(program, str):
        return program
    if body.kind == 'trial':
        printed = subprocess.run([TRIALS / body.part], capture_output=True, text=True, env={
            **os.environ, 'BAYCTL': str(program.resolve())}).stdout
    else:
        printed = output_of_part(program, body, room / 'check')
    is_named = any(line.startswith(body.name) for line in printed.splitlines())
    return None if is_named else f'{body.part} does not say so: {printed[-300:]}'


@functools.cache
def names_in(module: str) -> str:
    """The source of a module of dev/check, or of a trial."""
    path = (TOP / 'dev' / 'devtools' / 'check' / f'{module}.py')
    return (path if path.exists() else TRIALS / module).read_text(encoding='utf-8')
