"""A server, tools/modbus and modules that other libraries play, each a process whose output is
kept, and a client that watches: for bench/trials/modbus."""
import contextlib
import pathlib
import re
import signal
import subprocess
import sys
import threading
import time

import shared
from baytools.wire.client import Client
from devtools.served import free_port

EXAMPLE = shared.EXAMPLES / '10_remote_io'
BAY, LOGIC = EXAMPLE / 'bay.toml', EXAMPLE / 'logic.il'
SYSTEM = '/usr/bin/python3'  # which has Debian's packages
LIMIT = 500  # ms of --supervise
PATIENCE = 20
POSITIONS = {'QA1': 'XCBR1$ST$Pos$stVal', 'QB1': 'XSWI1$ST$Pos$stVal', 'QC1': 'XSWI2$ST$Pos$stVal'}
WORDS = {'00': 'intermediate', '01': 'open', '10': 'closed', '11': 'bad'}
LINE = re.compile(r'(\d{13}) (.*)')


def now() -> int:
    return time.time_ns() // 1_000_000


class Rig:
    """What runs. `seen` is all that a client was told of positions, with when it asked."""

    def __init__(self, folder: str, library: str) -> None:
        self.folder, self.library = pathlib.Path(folder), library
        self.running: dict[str, subprocess.Popen] = {}
        self.seen: list[tuple[int, str, str]] = []
        self.port, self.process = free_port(), free_port()
        self.wiring, text = self.folder / 'wiring.toml', shared.text_of(EXAMPLE / 'wiring.toml')
        for port in ('10502', '10503'):
            text = text.replace(port, str(free_port()))
        shared.write(self.wiring, text)
        self.is_over = False
        for name in ('io1', 'io2', 'bayctl', 'driver'):
            self.start(name)
        self.watching = threading.Thread(target=self.watch, daemon=True)
        self.watching.start()

    def words(self, name: str) -> list:
        """The command line of one of them."""
        if name == 'bayctl':
            return [shared.PROGRAM, 'serve', '--bay', BAY, '--logic', LOGIC, '--port', self.port,
                    '--process', self.process, '--supervise', LIMIT, '--tell', 'releases',
                    '--turns', 100_000_000]
        driver = [sys.executable, '-B', shared.TOP / 'tools' / 'modbus', '--bay', BAY]
        if name == 'driver':
            return [*driver, '--wiring', self.wiring, '--process', self.process]
        plant = shared.TOP / 'bench' / 'trials' / 'modbus_plant'
        return [SYSTEM, '-B', plant, self.library, BAY, self.wiring, name]

    def start(self, name: str) -> None:
        with (self.folder / name).open('a') as out:
            self.running[name] = subprocess.Popen(
                [*map(str, self.words(name))], stdin=subprocess.PIPE, stdout=out, stderr=out)

    def kill(self, name: str, number: signal.Signals = signal.SIGKILL) -> None:
        run = self.running[name]
        run.send_signal(number)
        run.wait()
        with contextlib.suppress(OSError):
            run.stdin.close()

    def send_signal(self, name: str, number: signal.Signals) -> None:
        self.running[name].send_signal(number)

    def type_line(self, name: str, line: str) -> None:
        """Tells a module a line, if it lives."""
        with contextlib.suppress(OSError, ValueError):
            self.running[name].stdin.write(f'{line}\n'.encode())
            self.running[name].stdin.flush()

    def lines(self, name: str) -> list[tuple[int, str]]:
        """What one of them has printed, with its moments."""
        text = shared.text_of(self.folder / name)
        return [(int(found[1]), found[2]) for found in map(LINE.match, text.splitlines()) if found]

    def client(self, *words: str) -> subprocess.Popen:
        tool = shared.TOP / 'tools' / 'client'
        return subprocess.Popen(
            [sys.executable, '-B', tool, '--bay', BAY, str(self.port), *words],
            stdin=subprocess.DEVNULL, stdout=subprocess.PIPE, stderr=subprocess.STDOUT, text=True)

    def operate(self, switch: str, way: str) -> str:
        """The last line of an operate that is waited for."""
        return self.client('operate', switch, way).communicate()[0].strip().split('\n')[-1]

    def watch(self) -> None:
        """Keeps what a client is told."""
        while not self.is_over:
            try:
                client = Client('127.0.0.1', self.port, on_report=lambda told: None)
                with contextlib.closing(client):
                    while not self.is_over:
                        self.look(client)
                        time.sleep(0.02)
            except Exception:  # (whatever ends it: the server is gone)
                self.seen += [(now(), name, 'nothing') for name in POSITIONS]
                time.sleep(0.1)

    def look(self, client: Client) -> None:
        asked = now()
        found = zip(POSITIONS, client.read(list(POSITIONS.values())))
        self.seen += [(asked, name, WORDS.get(str(getattr(value, 'value', value)), '?'))
                      for name, (_, value) in found]

    def position(self, switch: str) -> str:
        """What a client was told last of a switch."""
        return next((value for _, name, value in reversed(self.seen) if name == switch), '')

    def until(self, test, told: str, seconds: float = PATIENCE) -> None:
        end = time.monotonic() + seconds
        while not test():
            if time.monotonic() > end:
                raise TimeoutError(f'not within {seconds} s: {told}')
            time.sleep(0.01)

    def wait_until_steady(self) -> None:
        """All positions are ends, and the spring is charged."""
        self.type_line('io1', 'SPRING 1')
        self.until(lambda: all(self.position(name) in ('open', 'closed') for name in POSITIONS),
                   'all is good')
        time.sleep(0.3)

    def end(self) -> None:
        self.is_over = True
        self.watching.join(5)
        for name in ('driver', 'bayctl', 'io1', 'io2'):
            run = self.running[name]
            if run.poll() is None:
                run.send_signal(signal.SIGCONT)
                run.send_signal(signal.SIGTERM if name == 'driver' else signal.SIGKILL)
                run.wait(10)


@contextlib.contextmanager
def rig(library: str):
    """A rig in a folder of its own."""
    import tempfile
    with tempfile.TemporaryDirectory() as folder:
        one = Rig(folder, library)
        try:
            one.wait_until_steady()
            yield one
        finally:
            one.end()
