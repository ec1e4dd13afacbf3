"""Tools that are run on texts, with a program in the place of bayctl that prints what a test
says."""
import contextlib
import io
import os
import pathlib
import signal
import subprocess
import sys
import tempfile
import time
import unittest
from collections.abc import Iterator
from dataclasses import dataclass
from unittest import mock

from baytools.common.ending import show_plainly, status_of
from devtools.commands import command, load_command


@dataclass
class Ran:
    """What a tool printed, what it complained of, and its exit status."""
    out: str
    error: str
    status: int


def stream(octets: bytes = b'') -> io.TextIOWrapper:
    return io.TextIOWrapper(io.BytesIO(octets), 'utf-8', newline='')


@contextlib.contextmanager
def zone(name: str) -> Iterator[None]:
    """The clock of this process is that of a zone, for a while."""
    try:
        with mock.patch.dict(os.environ, TZ=name):
            time.tzset()
            yield
    finally:
        time.tzset()


@contextlib.contextmanager
def interruptible() -> Iterator[None]:
    """What is started within it ends at an interrupt, also where this process was started to ignore
    one, as in the background of a shell."""
    before = signal.signal(signal.SIGINT, signal.default_int_handler)
    try:
        yield
    finally:
        signal.signal(signal.SIGINT, before)


class Tools(unittest.TestCase):
    """Tests that run tools in a folder of their own."""

    def setUp(self) -> None:
        folder = tempfile.TemporaryDirectory()
        self.addCleanup(folder.cleanup)
        self.folder = pathlib.Path(folder.name)

    def file(self, name: str, text: str | bytes) -> pathlib.Path:
        path = self.folder / name
        path.write_bytes(text.encode() if isinstance(text, str) else text)
        return path

    def bayctl(self, printed: str, status: int = 0, logged: str = '') -> pathlib.Path:
        """A program that prints and logs this, whatever it is asked."""
        path = self.file('bayctl', f'#!{sys.executable}\nimport sys\nsys.stdin.buffer.read()\n'
                         f'sys.stdout.write({printed!r})\nsys.stderr.write({logged!r})\n'
                         f'sys.exit({status})\n')
        path.chmod(0o755)
        return path

    def run_tool(self, name: str, *words, given: str = '', **more) -> Ran:
        """Runs a tool in the folder. A traceback fails the test."""
        environment = {**os.environ, 'TZ': 'UTC', 'TOOLS_TRACEBACK': '1'}
        done = subprocess.run([sys.executable, '-B', command(name), *map(str, words)],
                              input=given.encode(), capture_output=True, cwd=self.folder,
                              env=environment, timeout=60, **more)
        found = Ran(done.stdout.decode(), done.stderr.decode(), done.returncode)
        self.assertNotIn('Traceback', found.error)
        return found

    def call_tool(self, name: str, *words, given: str = '') -> Ran:
        """Runs a tool within this process, which is faster. An exception that is none of its own
        fails the test."""
        main, out, error = load_command(name).main, stream(), stream()
        streams = mock.patch.multiple(sys, argv=[name, *map(str, words)], stdout=out, stderr=error,
                                      stdin=stream(given.encode()))
        environment = mock.patch.dict(os.environ, TOOLS_TRACEBACK='1')
        with streams, environment, zone('UTC'), contextlib.chdir(self.folder):
            show_plainly()
            status = status_of(main)
        for one in (out, error):
            one.flush()
        return Ran(out.buffer.getvalue().decode(), error.buffer.getvalue().decode(), status)
