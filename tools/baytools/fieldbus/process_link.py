"""The supervised process port of a server, as a driver keeps it. Nothing is sent before the server
has greeted, so nothing that could be out of date by then."""
import asyncio
import contextlib
import socket
import time
from collections.abc import Callable
from dataclasses import dataclass

from baytools.wire.process import (DEMANDED, NO_KEY, Greeting, Life, ServerClock, greeting_of,
                                   moment_of, same_bay, no_greeting, untimely)
from baytools.wire.sockets import RESET, is_taken, why_unconnected

LONGEST, AGAIN, LOOK = 65_536, 0.2, 0.02  # octets of a line; seconds until the next connection


@dataclass(frozen=True)
class Command:
    """A command of the server: its moment, the switch, the way, and the connection that it came
    on."""
    moment: int
    switch: str
    way: str
    connection: int


class ProcessLink:
    """A connection that comes again. `taken` is called when the server has greeted, `hear` with
    each line but of its life, `lives` before each word of the process' own life, and `lost` when
    the connection has ended. `oldest` is the moment of the oldest reading that is still to be sent:
    the times of the lines of a connection must not go back, and no line may look newer than its
    reading, so no line that comes before it may have a later time. `number` counts the connections
    that were greeted."""

    def __init__(self, port: int, named: tuple[str, str], key: str, say: Callable[[str], None],
                 ) -> None:
        self.port, self.named, self.key, self.say = port, named, key, say
        self.writer: asyncio.StreamWriter | None = None
        self.clock: ServerClock | None = None
        self.life = Life(1)
        self.number = 0
        self.taken: Callable[[], None] = lambda: None
        self.hear: Callable[[str], None] = lambda line: None
        self.lives: Callable[[], None] = lambda: None
        self.lost: Callable[[], None] = lambda: None
        self.oldest: Callable[[], float] = time.monotonic

    # What is asked of it.

    @property
    def limit(self) -> float:
        """The seconds after which a line is too old for the server."""
        return self.life.limit

    def send(self, lines: list[tuple[float, str]]) -> bool:
        """Sends lines, each with the moment of the monotonic clock at which it was so, in the order
        of these; whether a server is there."""
        if self.clock is None or self.writer is None:
            return False
        stamped = [f'{self.clock.stamp(then)} {line}' for then, line in lines]
        for line in stamped:
            self.say(f'> {line}')
        self.writer.write(''.join(line + '\n' for line in stamped).encode())
        return True

    def untimely(self, command: Command) -> str:
        """Why a command is too old, or of another connection, or nothing."""
        if self.clock is None or command.connection != self.number:
            return 'the connection on which it came is lost'
        return untimely(self.clock.now() - command.moment, self.life.limit * 1000)

    # The connection.

    async def run(self) -> None:
        """Connects again and again."""
        was_said = False
        while True:
            try:
                was_taken = self.number
                await self.one()
            except (OSError, EOFError) as error:
                if self.number != was_taken or not was_said:
                    self.say(f'process port {self.port}: {loss_text(error)}')
                was_said = True
            finally:
                self.end()
            await asyncio.sleep(AGAIN)

    def end(self) -> None:
        """Ends the connection at once."""
        was_taken, self.clock = self.clock is not None, None
        if self.writer:
            with contextlib.suppress(OSError):
                self.writer.transport.abort()
        self.writer = None
        if was_taken:
            self.lost()

    async def one(self) -> None:
        """One connection, until it ends."""
        reader, self.writer = await asyncio.open_connection('127.0.0.1', self.port, limit=LONGEST)
        it = self.writer.get_extra_info('socket')
        it.setsockopt(socket.SOL_SOCKET, socket.SO_LINGER, RESET)
        it.setsockopt(socket.IPPROTO_TCP, socket.TCP_NODELAY, 1)
        self.answer(await self.greeting(reader, it))
        living = asyncio.ensure_future(self.keep_alive())
        reading = asyncio.ensure_future(self.read(reader))
        try:
            done, _ = await asyncio.wait([living, reading], return_when=asyncio.FIRST_COMPLETED)
            for one in done:
                one.result()
        finally:
            living.cancel()
            reading.cancel()
            await asyncio.gather(living, reading, return_exceptions=True)

    async def greeting(self, reader: asyncio.StreamReader, it: socket.socket) -> Greeting:
        """What the server greets with, once it has taken the connection: it may have another
        process till then."""
        line = asyncio.ensure_future(reader.readline())
        demanded, begun, is_told = 0.0, time.monotonic(), False
        try:
            while not line.done():
                await asyncio.wait([line], timeout=LOOK)
                is_waiting = is_taken(it) is False
                demanded = 0.0 if is_waiting else demanded or time.monotonic() + DEMANDED
                if not line.done() and not is_waiting and time.monotonic() > demanded:
                    raise no_greeting(self.port)
                if is_waiting and not is_told and time.monotonic() > begun + 25 * LOOK:
                    self.say('the server takes one process at a time, and has another: waiting')
                    is_told = True
        finally:
            line.cancel()
        found = line.result().decode('utf-8', 'backslashreplace').rstrip('\r\n')
        if not found:
            raise EOFError('the server has closed the connection')
        greeting = greeting_of(found)
        if greeting is None:
            raise no_greeting(self.port)
        same_bay(greeting, self.port, *self.named)
        return greeting

    def answer(self, greeting: Greeting) -> None:
        """Answers the greeting, and goes by it from now on."""
        assert self.writer
        self.clock, self.life = ServerClock(greeting.moment), Life(greeting.limit)
        self.number += 1
        first = greeting.answer(self.clock.stamp(self.oldest()), self.key or NO_KEY)
        self.writer.write(f'{first}\n'.encode())
        self.say(f'the server has taken the process: it must hear of it each {greeting.limit} ms')
        self.taken()

    async def read(self, reader: asyncio.StreamReader) -> None:
        """Reads until the server ends the connection."""
        try:
            while line := await reader.readline():
                self.on_line(line.decode('utf-8', 'backslashreplace').rstrip('\r\n'))
        except ValueError:
            raise EOFError('a line without an end') from None
        raise EOFError('the server has closed the connection')

    def on_line(self, line: str) -> None:
        moment = moment_of(line)
        if moment is not None and self.clock:
            self.clock.on_moment(moment)
        if line.split(' ')[1:] == ['alive']:
            self.life.on_alive()
            return
        self.say(f'< {line}')
        self.hear(line)

    async def keep_alive(self) -> None:
        """Says that the process lives, where that is due, and sees whether the server does."""
        while True:
            await asyncio.sleep(self.life.wait())
            await asyncio.sleep(0)  # (what has come meanwhile is read first)
            if self.life.is_silent():
                raise self.life.silence()
            if self.life.is_due() and self.clock and self.writer:
                self.lives()
                self.writer.write(f'{self.clock.stamp(self.oldest())} alive\n'.encode())


def loss_text(error: Exception) -> str:
    """Why the connection was lost, or is none."""
    return why_unconnected(error) if isinstance(error, OSError) else str(error)
