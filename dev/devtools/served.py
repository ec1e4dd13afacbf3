"""A served bay, for tests and examples: bayctl on free ports, and what stands around it."""
import pathlib
import random
import socket
import subprocess
import sys
import tempfile
import threading
import time

from baytools.common.paths import TOOLS
from baytools.wire.client import Client

PATIENCE, TURNS = 30, 1_000_000  # seconds until something must have happened; turns of a server


# Ports below those that the system gives to connections, so that none of these takes one between
# the moment at which it is found free and that at which a server opens it.
PORTS = range(15_000, 32_000)
taken: set[int] = set()
# One thread at a time tries a port or starts a program. Between its fork and its exec a new process
# holds the socket of a port that another thread tries, and the server of that port can't open it.
starting = threading.Lock()


def free_port() -> int:
    """A port of this machine that nobody has, another one at each call."""
    while True:
        port = random.choice(PORTS)
        if port in taken:
            continue
        taken.add(port)
        with starting, socket.socket() as one:
            try:
                one.bind(('127.0.0.1', port))
            except OSError:
                continue
        return port


def until(test, told) -> object:
    """Waits until something is so, and gives what it is."""
    end = time.monotonic() + PATIENCE
    while time.monotonic() < end:
        found = test()
        if found:
            return found
        time.sleep(0.05)
    raise TimeoutError(f'not within {PATIENCE} s: {told}')


class Running:
    """A program in the background, with what it prints in a file. It is killed at the end of a
    `with` block, or before. `env` are the variables of its environment, where they are others."""

    def __init__(self, *words, stdin=subprocess.DEVNULL, env=None) -> None:
        self.out = tempfile.NamedTemporaryFile('w+', encoding='utf-8')
        with starting:
            self.run = subprocess.Popen([*map(str, words)], stdin=stdin, stdout=self.out,
                                        stderr=subprocess.STDOUT, env=env)

    def __enter__(self) -> 'Running':
        return self

    def __exit__(self, *error) -> None:
        self.kill()
        self.out.close()

    def kill(self) -> int | None:
        """Ends it at once; the status that it ended with by itself, or None."""
        ended = self.run.poll()
        self.run.kill()
        self.run.wait()
        if self.run.stdin:
            self.run.stdin.close()
        return ended

    def printed(self) -> str:
        return pathlib.Path(self.out.name).read_text(encoding='utf-8')

    def waits_for(self, told) -> str:
        """Waits until it has printed something."""
        return until(lambda: self.printed() if told in self.printed() else None, told)


class Server(Running):
    """bayctl, serving a bay on a free port, and a process on another one."""

    def __init__(self, bayctl, bay, logic, *more, with_process=False, env=None) -> None:
        self.port, self.process = free_port(), free_port()
        ports = ['--process', self.process] if with_process else []
        super().__init__(bayctl, 'serve', '--bay', bay, '--logic', logic, '--port', self.port,
                         *ports, '--turns', TURNS, *more, env=env)

    def client(self) -> Client:
        """A client, as soon as the server listens."""
        def connected() -> Client | None:
            if self.run.poll() is not None:
                raise RuntimeError(f'the server ended: {self.printed()}')
            try:
                return Client('127.0.0.1', self.port, on_report=lambda told: None)
            except ConnectionRefusedError:
                return None

        return until(connected, 'the server listens')


class Simulator(Running):
    """tools/simulate on a server's process port. What is typed at it goes through `type`."""

    def __init__(self, bay, server, *more) -> None:
        super().__init__(sys.executable, '-B', TOOLS / 'simulate', bay, '--process',
                         server.process, *more, stdin=subprocess.PIPE)

    def type(self, line) -> None:
        self.run.stdin.write((line + '\n').encode())
        self.run.stdin.flush()


def value(client, item) -> object:
    """One value that is read."""
    (_, found), = client.read([item])
    return getattr(found, 'value', found)
