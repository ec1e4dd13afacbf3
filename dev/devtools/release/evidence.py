"""What was proved and run for a release: the gate from nothing, and the wrong bodies outside it."""
import dataclasses
import datetime
import hashlib
import json
import os
import pathlib
import re
import subprocess
import time

from baytools.common.ending import Failed
from baytools.common.paths import TOP
from devtools.figures.costs import FIGURES
from devtools.figures.stamps import machine, output_of

PASSED = re.compile(r'^(?:\w+: )?(\d+) passed, (\d+) failed(?:, (\d+) not tried)?$', re.M)
GATE, BODIES = 'gate.log', 'wrong_bodies.log'
# What dev/gate_table and dev/wrong_bodies write of the commit that they try.
MEASURED = ('bench/GATE.md', 'dev/devtools/data/gate_figures.json',
            'dev/devtools/data/refusals.json')
# A crate that a gate proved, and one whose proof it took from an earlier run on the machine.
PROVED, TAKEN = re.compile(r'^rt: (\w+) proved$', re.M), re.compile(r'^rt: (\w+) is kept: ', re.M)


@dataclasses.dataclass(frozen=True)
class Run:
    """What a command came to: its status, its minutes, and its last count, of which those that were
    not tried are parts of checks for which a package is missing; of a gate also the crates that it
    proved, and those whose proofs it took from an earlier run."""
    status: int
    minutes: float
    passed: int
    failed: int
    untried: int = 0
    proved: int = 0
    taken: int = 0

    @property
    def is_good(self) -> bool:
        """Whether the command succeeded, some checks passed, and none failed."""
        return self.status == 0 and self.passed > 0 and not self.failed


def is_clean(top: pathlib.Path = TOP) -> bool:
    """Whether no file of the repository differs from its commit, but for what measured it."""
    but = (f':!{it}' for it in MEASURED)
    done = subprocess.run(('git', 'status', '--porcelain', '--', '.', *but), cwd=top,
                          capture_output=True, text=True)
    return done.returncode == 0 and not done.stdout


def clone(folder: pathlib.Path) -> pathlib.Path:
    """A clone of the commit, in which nothing was built."""
    path = folder / 'clone'
    done = subprocess.run(('git', 'clone', '--quiet', TOP, path), capture_output=True, text=True)
    if done.returncode:
        raise Failed(f'git clone: {done.stderr.strip()}')
    return path


def last_count(log: str) -> tuple[int, int, int, int, int]:
    """The last count of a log: how many passed, failed, and were not tried; how many crates it
    proved, and how many it took from an earlier run."""
    found = PASSED.findall(log)
    passed, failed, untried = found[-1] if found else ('0', '0', '')
    proved = set(PROVED.findall(log))
    return (int(passed), int(failed), int(untried or '0'), len(proved),
            len(set(TAKEN.findall(log)) - proved))


def run(words: list[str], place: pathlib.Path, log: pathlib.Path) -> Run:
    """Runs a command, whose output goes to a log."""
    begun = time.monotonic()
    with open(log, 'w', encoding='utf-8') as file:
        status = subprocess.run(words, cwd=place, stdin=subprocess.DEVNULL, stdout=file,
                                stderr=subprocess.STDOUT, env={**os.environ, 'CI': 'true'}
                                ).returncode
    return Run(status, (time.monotonic() - begun) / 60,
               *last_count(log.read_text(encoding='utf-8', errors='replace')))


def measured_minutes() -> float:
    """The minutes of a gate of this commit that `dev/gate_table` measured, or 0."""
    runs = json.loads(FIGURES.read_text(encoding='utf-8')).get('runs', [])
    commit = output_of('git', 'rev-parse', '--short', 'HEAD')
    return next((it['minutes'] for it in reversed(runs) if it['commit'] == commit), 0.0)


def read_log(log: pathlib.Path, minutes: float = 0.0) -> Run:
    """What a log of an earlier run says, which took so many minutes, or 0 for nobody knows."""
    counts = last_count(log.read_text(encoding='utf-8', errors='replace'))
    passed, failed, *_ = counts
    return Run(0 if passed and not failed else 1, minutes, *counts)


def sums(folder: pathlib.Path) -> str:
    """The SHA-256 of each file of a folder, as `sha256sum` checks them."""
    files = sorted(it for it in folder.rglob('*') if it.is_file() and it.name != 'SHA256SUMS')
    return ''.join(f'{hashlib.sha256(it.read_bytes()).hexdigest()}  {it.relative_to(folder)}\n'
                   for it in files)


def summary(version: str, gate: Run | None, bodies: Run | None) -> str:
    """The row of bench/RELEASE.md."""
    def run_text(it: Run | None, is_gate: bool = False) -> str:
        if it is None:
            return 'not run'
        minutes = f', {it.minutes:.0f} minutes' if it.minutes else ''
        untried = f', {it.untried} not tried' if it.untried else ''
        proofs = (f', {it.proved} crates proved and {it.taken} taken from earlier runs'
                  if is_gate else '')
        return f'{it.passed} passed, {it.failed} failed{untried}{minutes}{proofs}'
    day = datetime.datetime.now(datetime.UTC).date()
    commit = output_of('git', 'rev-parse', '--short', 'HEAD')
    return (f'| {version} | {day} | {commit} | {output_of("rt", "version")} | {machine()} | '
            f'{run_text(gate, True)} | {run_text(bodies)} |')
