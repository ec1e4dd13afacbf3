"""Runs the tools within this process, on what a trial gives them, and says what is wrong with a
run: a traceback, a status that the tool doesn't have, an error of several lines, or no end in
time."""
import collections
import contextlib
import io
import os
import pathlib
import signal
import sys
import time
import traceback
from dataclasses import dataclass
from unittest import mock

import shared  # (it lets a script import from tools/)
from baytools.common.ending import OF_TOOLS, UNREACHED, show_plainly, status_of
from devtools.commands import load_command

LIMIT, KEPT = 20, 20  # seconds for a run; wrong runs of a kind that are kept
WARNED = ('times go back', 'not count from 1970', 'combination')


class Late(BaseException):
    """A run has not ended in time."""


@dataclass
class Ran:
    """What a tool printed, what it complained of, its status, and how long it took."""
    out: str
    error: str
    status: int
    seconds: float


def stream() -> io.TextIOWrapper:
    return io.TextIOWrapper(io.BytesIO(), 'utf-8', newline='')


def late(*_) -> None:
    raise Late


def no_output() -> None:
    """In place of what a tool does where its output can't be written: here it can."""
    raise AssertionError('another error was taken for one of the output')


class Trial:
    """Runs of tools in a folder, what was seen, and what was wrong, the files of which are kept."""

    def __init__(self, folder: str, kept: str, limit: float = LIMIT) -> None:
        self.folder, self.kept, self.limit = pathlib.Path(folder), pathlib.Path(kept), limit
        self.seen, self.wrong, self.slowest = collections.Counter(), collections.Counter(), 0.0
        self.files, self.runs = {}, 0
        signal.signal(signal.SIGALRM, late)

    def file(self, name: str, text: str | bytes) -> pathlib.Path:
        """A file of this run."""
        octets = text.encode('utf-8', 'surrogateescape') if isinstance(text, str) else text
        path = self.folder / name
        path.write_bytes(octets)
        self.files[name] = octets
        return path

    def run(self, tool: str, *words, given: bytes = b'') -> Ran | None:
        """One run; None where it is wrong."""
        out, error, since = stream(), stream(), time.monotonic()
        self.runs += 1
        stdin = open(self.file('given', given), encoding='utf-8', errors='replace')
        streams = mock.patch.multiple(sys, argv=[tool, *map(str, words)], stdin=stdin,
                                      stdout=out, stderr=error)
        signal.setitimer(signal.ITIMER_REAL, self.limit)
        try:
            with stdin, streams, mock.patch.dict(os.environ, TOOLS_TRACEBACK='1'), \
                    mock.patch('baytools.common.ending.stop_output', no_output), \
                    contextlib.chdir(self.folder):
                show_plainly()
                status = status_of(load_command(tool).main)
            signal.setitimer(signal.ITIMER_REAL, 0)
        except Late:
            return self.is_wrong(f'{tool} has no end', words, '')
        except BaseException as fault:  # whatever a tool lets through is what is looked for
            signal.setitimer(signal.ITIMER_REAL, 0)
            told = f'{tool} {type(fault).__name__}'
            return self.is_wrong(told, words, traceback.format_exc())
        for one in (out, error):
            one.flush()
        found = Ran(*(it.buffer.getvalue().decode('utf-8', 'replace') for it in (out, error)),
                    status, time.monotonic() - since)
        return self.judged(tool, words, found)

    def judged(self, tool: str, words: tuple, found: Ran) -> Ran | None:
        """A run that ended, where nothing is wrong with it."""
        self.slowest = max(self.slowest, found.seconds)
        self.seen[f'{tool} {found.status}'] += 1
        complaints = [line for line in found.error.splitlines() if not any(
            told in line for told in WARNED) and not line.startswith('another bay')]
        if found.status not in OF_TOOLS[tool]:
            return self.is_wrong(f'{tool} status {found.status}', words, found.error)
        if found.status == UNREACHED and len(complaints) != 1:
            return self.is_wrong(f'{tool} complains in {len(complaints)} lines', words, found.error)
        told = found.out * (tool != 'join') + found.error  # (join writes a scenario as it is)
        if any(ord(one) < 32 and one not in '\n\t' for one in told):
            return self.is_wrong(f'{tool} control characters', words, told)
        return found

    def is_wrong(self, what: str, words: tuple, told: str) -> None:
        """Notes a wrong run, and keeps its files."""
        self.wrong[what] += 1
        if self.wrong[what] > KEPT:
            return
        folder = self.kept / f'{what.replace(" ", "_")}_{self.wrong[what]}'
        folder.mkdir(parents=True, exist_ok=True)
        for name, octets in self.files.items():
            (folder / name).write_bytes(octets)
        (folder / 'told').write_text(' '.join(map(str, words)) + '\n' + told, encoding='utf-8')

    def print_result(self) -> None:
        """Prints what was seen, and what was wrong."""
        print(f'{self.runs} runs, the slowest {self.slowest:.1f} s; '
              f'{sum(self.wrong.values())} wrong {dict(self.wrong)}')
        for name in sorted(self.seen):
            print(f'{self.seen[name]:9} {name}')
        if self.wrong:
            print(f'wrong runs are kept in {self.kept}')


def chosen_of(text: str):
    """The words of a script: for how many seconds it runs, where wrong runs are kept, a seed."""
    options = shared.options(text)
    options.add_argument('seconds', type=float)
    options.add_argument('folder', nargs='?', help='where wrong runs are kept; else a new one')
    options.add_argument('seed', nargs='?', type=int, default=1, help='of the random numbers')
    return options.parse_args()
