"""The process' side of a supervised port: the greeting and its answer, the server's time as the
process knows it, that both sides live, and how old a command may be."""
import math
import pathlib
import re
import time
from dataclasses import dataclass

from baytools.common.ending import FOUND, Failed

NO_KEY = '-'
KEY = re.compile(rb'([0-9A-Fa-f]{32,64})(?:\r?\n)?')
MOMENT = re.compile(r'[0-9]{1,20}', re.ASCII)
SHARE = 4  # of the server's limit is a pause between two `alive`
SLOWER = 0.99  # of the time that passes a server's clock goes on at least
DEMANDED = 5  # seconds for the greeting of a server that has taken the connection


class Different(Failed):
    """A server that is not the one of this process."""
    status = FOUND


class Silent(ConnectionError):
    """A server that says no longer that it lives."""


@dataclass(frozen=True)
class Greeting:
    """The first line of a supervised port: the server's time, within how many milliseconds it must
    hear of its process, and its bay."""
    moment: int
    limit: int
    domain: str
    revision: str

    def answer(self, moment: int, key: str) -> str:
        """The first line of the process."""
        return f'{moment} bay {key} {self.domain} {self.revision}'


def greeting_of(line: str) -> Greeting | None:
    """What a line greets with, or None where it is no greeting."""
    match line.split(' ', 4):
        case [moment, 'process', limit, domain, revision]:
            if MOMENT.fullmatch(moment) and MOMENT.fullmatch(limit) and int(limit):
                return Greeting(int(moment), int(limit), domain, revision)
    return None


def same_bay(greeting: Greeting, port: int, domain: str, revision: str) -> None:
    """Ends the tool where the server has another bay than the bay file."""
    if (greeting.domain, greeting.revision) != (domain, revision):
        raise Different(f'port {port}: the server has bay {greeting.domain}, revision '
                        f'{greeting.revision}, the bay file {domain}, {revision}')


def no_greeting(port: int) -> Different:
    """What is said of a server that does not greet."""
    return Different(f'port {port}: the server does not greet: it is no supervised port')


def untimely(age: int, oldest: float) -> str:
    """Why a command of this age in milliseconds is not carried out, or nothing."""
    if age > oldest:
        return f'it is {age:,} ms old'
    if age < -oldest:
        return f'its time is {-age:,} ms ahead of this machine\'s clock'
    return ''


def key_of(path: str) -> str:
    """The digits of a file with a key."""
    found = KEY.fullmatch(pathlib.Path(path).read_bytes())
    if not found:
        raise Failed(f'{path}: it must hold 32 to 64 hexadecimal digits, and at most one line end')
    return found[1].decode()


def moment_of(line: str) -> int | None:
    """The time at the head of a line, or None."""
    head = line.partition(' ')[0]
    return int(head) if MOMENT.fullmatch(head) else None


class WallClock:
    """The time of this machine's clock, by which a process goes that nobody supervises."""

    def on_moment(self, moment: int) -> None:
        pass

    def now(self) -> int:
        return time.time_ns() // 1_000_000


class ServerClock:
    """A server's time as its process knows it: the time of the last line that it had, and what has
    passed since by a clock that does not jump. The server's time is never less than that. A line
    that was long on its way, or that the process slept through, doesn't turn it back."""

    def __init__(self, moment: int) -> None:
        self.moment, self.since = moment, time.monotonic()
        self.stamped = 0

    def passed(self) -> float:
        """The milliseconds since the last line."""
        return (time.monotonic() - self.since) * 1000

    def on_moment(self, moment: int) -> None:
        """A line with this time has come. A server's clock goes at least SLOWER as fast."""
        least = self.moment + int(self.passed() * SLOWER)
        self.moment, self.since = max(moment, least), time.monotonic()

    def now(self) -> int:
        return self.at(time.monotonic())

    def at(self, then: float) -> int:
        """The server's time at a moment of the monotonic clock."""
        return self.moment + math.floor((then - self.since) * 1000)

    def stamp(self, then: float | None = None) -> int:
        """The time of the next line that is sent, of what was so at this moment or is so now. It is
        never before that of the last line, also where a line of the server turned the clock
        back."""
        moment = self.now() if then is None else self.at(then)
        self.stamped = max(self.stamped, moment)
        return self.stamped


class Life:
    """When a process has to say that it lives, and whether the server says so. `limit` is the
    server's, in milliseconds."""

    def __init__(self, limit: int) -> None:
        self.limit, self.pause = limit / 1000, limit / 1000 / SHARE
        self.told, self.heard = time.monotonic() - self.pause, time.monotonic()

    def wait(self) -> float:
        """Seconds until `alive` is due."""
        return max(self.told + self.pause - time.monotonic(), 0)

    def is_due(self) -> bool:
        """Whether `alive` is due; then it counts as sent."""
        if self.wait() > 0:
            return False
        self.told = time.monotonic()
        return True

    def on_alive(self) -> None:
        """The server has said that it lives."""
        self.heard = time.monotonic()

    def is_silent(self) -> bool:
        """Whether the server has not said so for too long."""
        return time.monotonic() - self.heard > self.limit

    def silence(self) -> Silent:
        """What is said of such a server."""
        return Silent(0, f'the server has not said for {self.limit * 1000:.0f} ms that it lives')
