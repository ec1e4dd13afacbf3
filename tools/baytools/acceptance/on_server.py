"""A bay that is served: the steps are done by a process and a client of it."""
import socket
import threading
import time
from collections.abc import Callable

from baytools.bay.names import Names
from baytools.common.ending import Failed
from baytools.common.positions import WAYS as WAYS_TOLD
from baytools.common.texts import upcase
from baytools.wire import mms
from baytools.wire.client import Client, connection_text
from baytools.wire.control import Control
from baytools.wire.conversation import Description
from baytools.wire.process import (NO_KEY, Life, ServerClock, greeting_of, moment_of, same_bay,
                                   no_greeting)
from baytools.wire.same_bay import compare_with_server
from baytools.wire.sockets import is_taken

from .bench import Bench, Outcome, position_text

HOST, IDENTITY = '127.0.0.1', 'acceptance'
GREETED, TAKEN, LOOK = 0.3, 5, 0.02  # seconds for a greeting, to be taken, between two looks
SETTLE, PATIENCE, QUIET = 0.06, 2, 0.3  # for a turn, for what is expected, for what is not to come


def until(test: Callable[[], bool], seconds: float) -> bool:
    """Whether something comes to be so within so many seconds."""
    end = time.monotonic() + seconds
    while not test():
        if time.monotonic() > end:
            return False
        time.sleep(LOOK)
    return True


class Process:
    """The process of the bay: what it is told in a thread, a supervised one also that it lives."""

    def __init__(self, port: int, named: tuple[str, str], key: str) -> None:
        self.port, self.named, self.key = port, named, key
        self.commands: list[tuple[str, str]] = []
        self.trouble, self.lock = '', threading.Lock()
        self.socket: socket.socket | None = None
        self.clock: ServerClock | None = None
        self.life: Life | None = None
        self.rest = b''

    def connect(self) -> socket.socket:
        """A connection that the server has taken, and that has answered its greeting."""
        try:
            found = socket.create_connection((HOST, self.port), TAKEN)
        except OSError as error:
            raise Failed(connection_text(error, HOST, self.port)) from None
        self.socket, self.rest = found, b''
        if not until(lambda: is_taken(found) is not False, TAKEN):
            raise Failed(f'port {self.port}: the server takes one process at a time, and has '
                         'another')
        self.clock = self.life = None
        lines = self.lines(found, GREETED)
        greeting = greeting_of(lines[0]) if lines else None
        if greeting:
            same_bay(greeting, self.port, *self.named)
            self.clock, self.life = ServerClock(greeting.moment), Life(greeting.limit)
            first = greeting.answer(self.clock.stamp(), self.key or NO_KEY)
            found.sendall(f'{first}\n'.encode())
        elif self.key:
            raise no_greeting(self.port)
        threading.Thread(target=self.run, args=(found, lines), daemon=True).start()
        return found

    def lines(self, connection: socket.socket, seconds: float) -> list[str]:
        """The lines that come within so many seconds, as soon as there are some."""
        connection.settimeout(seconds)
        try:
            piece = connection.recv(4096)
        except TimeoutError:
            return []
        if not piece:
            raise ConnectionError(0, 'the server closed it')
        *whole, self.rest = (self.rest + piece).split(b'\n')
        return [line.decode('utf-8', 'backslashreplace').rstrip('\r') for line in whole]

    def run(self, connection: socket.socket, first: list[str]) -> None:
        """Hears until the connection ends."""
        try:
            self.receive_lines(first)
            while connection is self.socket:
                self.receive_lines(self.lines(connection, LOOK))
                if self.life and self.clock and self.life.is_due():
                    self.send_stamped(connection, 'alive')
        except OSError as error:
            if connection is self.socket:
                self.trouble = f'port {self.port}: the process is lost: {error.strerror or error}'

    def receive_lines(self, lines: list[str]) -> None:
        for line in lines:
            moment = moment_of(line)
            if self.clock and moment is not None:
                self.clock.on_moment(moment)
            match line.split(' '):
                case [_, 'command', name, way] if way in WAYS_TOLD:
                    self.commands.append((upcase(name), WAYS_TOLD[way]))
                case [_, 'refused', code]:
                    self.trouble = f'port {self.port}: the server refuses a line ({code})'

    def send_stamped(self, connection: socket.socket, line: str) -> None:
        """Sends a line with the server's time, or 0 where nobody looks at it. The thread tells too,
        and the times of the lines must not go back."""
        with self.lock:
            stamp = self.clock.stamp() if self.clock else 0
            connection.sendall(f'{stamp} {line}\n'.encode())

    def send_line(self, line: str) -> None:
        """Tells the server a line."""
        connection = self.socket or self.connect()
        try:
            self.send_stamped(connection, line)
        except OSError as error:
            self.trouble = self.trouble or f'port {self.port}: {error.strerror}'
        time.sleep(SETTLE)
        if self.trouble:
            raise Failed(self.trouble)

    def close(self) -> None:
        connection, self.socket = self.socket, None
        if connection:
            connection.close()


class Served(Bench):
    """A server that is asked by a client, and told by a process."""

    def __init__(self, text: str, file: dict, port: int, process: int, key: str = '') -> None:
        bay = file['bay']
        self.names, self.ids = Names(text), {upcase(it['id']): it['id'] for it in file['switch']}
        try:
            self.client = Client(HOST, port, self.names, on_report=lambda told: None)
        except OSError as error:
            raise Failed(connection_text(error, HOST, port)) from None
        self.client.on_said = self.on_report
        self.process = Process(process, (bay.get('domain', ''), bay.get('revision', '')), key)
        self.asked, self.begun = Outcome(False), 0
        self.is_ended: Outcome | None = None
        try:
            self.begin(file, port)
        except BaseException:
            self.close()
            raise

    def begin(self, file: dict, port: int) -> None:
        """Sees that the server has this bay, and connects its process."""
        different = compare_with_server(self.client, file).lines()
        if different:
            raise Failed(f'port {port}: the server has another bay: {different[0]}')
        self.process.connect()

    def on_report(self, said: Description) -> None:
        if said.kind == 'ended':
            self.is_ended = Outcome(said.good, said.cause)

    def send_line(self, line: str) -> None:
        self.process.send_line(line)

    def lose(self) -> None:
        self.process.close()
        time.sleep(QUIET)

    def wait(self, time_of_it: int) -> None:
        time.sleep(time_of_it / 1000)

    def ask(self, verb: str, switch: str, on: bool) -> None:
        self.begun, self.is_ended = len(self.process.commands), None
        control = Control(self.client, switch, IDENTITY)
        verbs = [verb]
        if verb == 'operate' and control.is_selected_first():
            verbs = ['select', 'operate']
        for one in verbs:
            found = getattr(control, one)(on)
            self.asked = Outcome(found.is_good, None if found.is_good else self.client.cause)
            if not found.is_good:
                return

    def released(self, switch: str, on: bool, wanted: bool) -> Callable[[], bool]:
        node = self.names.node(switch).replace('CSWI', 'CILO')
        item = f'{node}$ST${"EnaCls" if on else "EnaOpn"}$stVal'
        until(lambda: self.client.value(item, mms.BOOLEAN) is wanted, PATIENCE)
        found = self.client.value(item, mms.BOOLEAN)
        return lambda: found

    def position(self, switch: str, wanted: str) -> Callable[[], str]:
        items = [f'{self.names.node(switch)}$ST$Pos${part}' for part in ('stVal', 'q')]

        def now() -> str:
            bits, quality = (value.value for _, value in self.client.read(items))
            return position_text(bits, quality)

        until(lambda: now() == wanted, PATIENCE)
        found = now()
        return lambda: found

    def commands(self, wanted: list) -> Callable[[], list[tuple[str, str]]]:
        def now() -> list[tuple[str, str]]:
            return [(self.ids.get(name, name), way)
                    for name, way in self.process.commands[self.begun:]]

        until(lambda: now() == wanted != [], PATIENCE if wanted else QUIET)
        found = now()
        return lambda: found

    def answer(self) -> Callable[[], Outcome]:
        found = self.asked
        return lambda: found

    def end(self) -> Callable[[], Outcome | None]:
        end = time.monotonic() + PATIENCE
        while self.is_ended is None and time.monotonic() < end:
            self.client.wait_for_report(LOOK)
        found = self.is_ended
        return lambda: found

    def finish(self) -> None:
        if self.process.trouble:
            raise Failed(self.process.trouble)

    def close(self) -> None:
        self.process.close()
        self.client.close()
