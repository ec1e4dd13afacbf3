"""What the trials of power cuts share: a bay, its process and its module, as programs that are
killed and started again, and a client of its server."""
import contextlib
import pathlib
import re
import subprocess
import sys
import time
from collections.abc import Callable

import shared
from shared import EXAMPLES, TOP
from baytools.bay.names import Names
from baytools.common.ending import Failed
from baytools.common.positions import OF_BITS, POSITIONS
from baytools.wire.client import Client
from baytools.wire.control import Control

SERVED = EXAMPLES / '09_served'
TRAVEL = 300  # ms of each switch
AGAIN, LOOK, PATIENCE = 1.0, 0.01, 20  # seconds
KEY = '0123456789abcdef' * 2
FIRST = {'QA1': 'closed', 'QB1': 'closed', 'QC1': 'open'}
THERE = {'open': 'open', 'close': 'closed'}
LOST = (Failed, OSError, ValueError, LookupError, TypeError, AttributeError)
WIRING = '''not_wired = ["M1 TOTW", "M1 TOTVAR", "M1 HZ", "M1 AA", "M1 AB", "M1 AC"]

[[module]]
name = "io1"
host = "127.0.0.1"
port = {port}
unit = 1
doubt_ms = 500
setup = [[4384, 500]]

[[switch]]
id = "QA1"
open = 0
closed = 1
open_coil = 0
close_coil = 1
pulse_ms = 100

[[switch]]
id = "QB1"
open = 2
closed = 3
open_coil = 2
close_coil = 3
pulse = "position"

[[switch]]
id = "QC1"
open = 4
closed = 5

[[input]]
name = "SPRING"
contact = 6
fault = false
'''


def files(folder: pathlib.Path) -> str:
    """Writes the bay file and the key, and gives the text of the bay file."""
    text = (SERVED / 'bay.toml').read_text(encoding='utf-8')
    text = re.sub(r'travel_ms = [\d_]+', f'travel_ms = {2 * TRAVEL}', text)
    (folder / 'bay.toml').write_text(text, encoding='utf-8')
    (folder / 'key').write_text(KEY, encoding='utf-8')
    (folder / 'key').chmod(0o400)
    return text


class Part:
    """A program that is killed and started again. What it printed in all its runs is kept."""

    def __init__(self, name: str, folder: pathlib.Path, words: Callable[[], list]) -> None:
        self.name, self.folder, self.words = name, folder, words
        self.runs: list[pathlib.Path] = []
        self.run: subprocess.Popen[bytes] | None = None
        self.ended_at, self.own_ends = 0.0, 0

    def start(self) -> None:
        self.runs.append(self.folder / f'{self.name}{len(self.runs)}')
        with open(self.runs[-1], 'wb') as out:
            self.run = subprocess.Popen([*map(str, self.words())], stdin=subprocess.PIPE,
                                        stdout=out, stderr=subprocess.STDOUT)

    def kill(self) -> None:
        if self.run and self.run.stdin:
            self.run.kill()
            self.run.wait()
            with contextlib.suppress(OSError):
                self.run.stdin.close()
        self.run = None

    def type(self, *lines: str) -> None:
        assert self.run and self.run.stdin
        self.run.stdin.write(''.join(line + '\n' for line in lines).encode())
        self.run.stdin.flush()

    def keep(self) -> None:
        """Starts it again where it ended by itself."""
        if self.run is None or self.run.poll() is None:
            return
        self.ended_at = self.ended_at or time.monotonic()
        if time.monotonic() - self.ended_at >= AGAIN:
            self.own_ends, self.ended_at = self.own_ends + 1, 0.0
            self.kill()
            self.start()

    def is_up(self) -> bool:
        return self.run is not None

    def last(self) -> str:
        """What the run of now printed."""
        return self.runs[-1].read_text(encoding='utf-8', errors='replace')

    def printed_text(self) -> str:
        return ''.join(path.read_text(encoding='utf-8', errors='replace') for path in self.runs)


class Gear:
    """What is behind the process port: `parts` with the driver first, and the one that has the
    switches last. `positions` are those with which the switches are to start."""
    parts: list[Part]

    def __init__(self) -> None:
        self.positions = dict(FIRST)

    def on_start(self, name: str) -> None:
        """A part was started."""

    def pulses(self) -> int:
        """How often a switch was made to move."""
        raise NotImplementedError

    def places(self) -> dict[str, str]:
        """Where the switches are."""
        raise NotImplementedError

    def remember(self) -> None:
        """The places of now are those of the next start; one that moves stays where it was."""
        self.positions |= {name: place for name, place in self.places().items()
                           if place != 'intermediate'}

    def wrongs(self) -> list[str]:
        """What they said that may never be."""
        return []


class Simulated(Gear):
    """tools/simulate, with the switches within it: where they are when it starts is given."""

    def __init__(self, folder: pathlib.Path, process: int) -> None:
        super().__init__()
        words = [sys.executable, '-B', TOP / 'tools' / 'simulate', folder / 'bay.toml',
                 '--process', process, '--process-key', folder / 'key', '--set', 'SPRING=1']
        self.part = Part('driver', folder, lambda: [*words, *(
            f'--at={name}={place}' for name, place in self.positions.items())])
        self.parts = [self.part]

    def pulses(self) -> int:
        """How often one began to move; where the connection is new, it is told once more of it."""
        before, count = dict.fromkeys(FIRST, ''), 0
        printed = self.part.printed_text()
        for name, number in re.findall(r'^> \d+ contact (\w+) (\d)$', printed, re.M):
            count += number == '0' != before[name]
            before[name] = number
        return count

    def places(self) -> dict[str, str]:
        """They are where was last told, or where they began."""
        told = re.findall(r'^> \d+ contact (\w+) (\d)$', self.part.last(), re.M)
        return self.positions | {name: POSITIONS[int(number)] for name, number in told}


class Played(Gear):
    """A module that tools/modbus plays, with the switches within it: they are moved by hand to
    where they were when it starts."""

    def __init__(self, folder: pathlib.Path) -> None:
        super().__init__()
        self.wiring, self.words = folder / 'wiring.toml', [
            sys.executable, '-B', TOP / 'tools' / 'modbus', '--bay', folder / 'bay.toml']
        self.wiring.write_text(WIRING.format(port=shared.free_port()), encoding='utf-8')
        self.module = Part('module', folder, lambda: [*self.words, '--play', self.wiring])
        self.parts = [self.module]

    def on_start(self, name: str) -> None:
        """A module that is played begins with all switches open, and the spring not charged."""
        if name == 'module':
            self.module.type('SPRING 1', *(
                f'{name} close' for name, place in self.positions.items() if place == 'closed'))

    def pulses(self) -> int:
        return len(re.findall(r'coil \d+ \(\w+ (?:open|close)\) on', self.module.printed_text()))

    def places(self) -> dict[str, str]:
        """They are where the module last said."""
        found = dict.fromkeys(self.positions, 'open')
        for name, told in re.findall(r'^\d+ (\w+) (moves|is open|is closed)', self.module.last(),
                                     re.M):
            if name in found:
                found[name] = told.removeprefix('is ') if told != 'moves' else 'intermediate'
        return found

    def wrongs(self) -> list[str]:
        return re.findall(r'both coils of \w+ are on', self.module.printed_text())


class Wired(Played):
    """The same, with tools/modbus as the driver."""

    def __init__(self, folder: pathlib.Path, process: int) -> None:
        super().__init__(folder)
        driver = Part('driver', folder, lambda: [
            *self.words, '--wiring', self.wiring, '--process', process, '--process-key',
            folder / 'key'])
        self.parts = [driver, self.module]


class Requester:
    """A client of a server that may be gone, which connects anew where it has to."""

    def __init__(self, port: int, text: str) -> None:
        self.port, self.names = port, Names(text)
        self.client: Client | None = None

    def lose(self) -> None:
        """The connection is no longer good."""
        if self.client:
            self.client.socket.close()
        self.client = None

    def request(self, act: Callable[[Client], object]) -> object:
        """What the client is answered, or None where it isn't."""
        try:
            if self.client is None:
                self.client = Client('127.0.0.1', self.port, self.names, timeout=1,
                                     on_report=lambda told: None)
            return act(self.client)
        except LOST:
            self.lose()
            return None

    def positions(self) -> dict[str, str] | None:
        """The positions that the client reads; one that is not good is bad."""
        def read(client: Client) -> dict[str, str]:
            values = client.read([f'CSWI{at}$ST$Pos' for at in range(1, len(FIRST) + 1)])
            parts = [value.value for _, value in values]
            return {name: OF_BITS[part[0].value] if part[1].value[:2] == '00' else 'bad'
                    for name, part in zip(FIRST, parts)}

        found = self.request(read)
        return found if isinstance(found, dict) else None

    def operate(self, way: str) -> bool:
        """Selects and operates the breaker; whether it was accepted."""
        def act(client: Client) -> bool:
            control = Control(client, 'QA1')
            return control.select(way == 'close').is_good and control.operate(
                way == 'close').is_good

        return bool(self.request(act))

    def is_right(self, gear: Gear) -> bool:
        """Whether the client reads where the switches are, and none moves."""
        places = gear.places()
        return self.positions() == places and 'intermediate' not in places.values()


def other_way(gear: Gear) -> str:
    """The way in which the breaker can be operated."""
    return 'open' if gear.places()['QA1'] == 'closed' else 'close'


def until(test: Callable[[], bool], seconds: float) -> float | None:
    """The seconds until something is so, or None where it is not within so many."""
    begun = time.monotonic()
    while not test():
        if time.monotonic() - begun > seconds:
            return None
        time.sleep(LOOK)
    return time.monotonic() - begun
