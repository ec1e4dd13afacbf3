"""Whether a request of a page is still to be done: while it waited, the page may have given it up
or be gone, and it may have become too old.

A page says when its operator acted by the panel's own clock: it adds what has passed since, by the
page's clock, to the last moment that the panel sent it. A delay on either way makes a request
older, never younger. Nobody sets the panel's clock, and it goes on while the machine sleeps."""
import collections
import select
import socket
import threading
import time
from collections.abc import Callable
from dataclasses import dataclass

LIMIT, AHEAD = 2000, 250  # ms that a request may be old, and that its moment may be ahead
KNOWN = 1000  # pages whose last request is remembered
CLOCK = getattr(time, 'CLOCK_BOOTTIME', time.CLOCK_MONOTONIC)


def moment() -> int:
    """The moment of the panel's clock, in milliseconds."""
    return time.clock_gettime_ns(CLOCK) // 1_000_000


def is_closed(one: socket.socket) -> bool:
    """Whether the other end has closed a connection, without waiting."""
    looks = select.poll()
    try:
        looks.register(one, select.POLLIN)
        return bool(looks.poll(0)) and not one.recv(1, socket.MSG_PEEK)
    except (OSError, ValueError):
        return True


class Turns:
    """The number of the last request of each page. A page numbers its requests: one that comes
    after one with a higher number was given up, and one whose number has come before was sent
    twice."""

    def __init__(self) -> None:
        self.lock = threading.Lock()
        self.last: collections.OrderedDict[str, int] = collections.OrderedDict()

    def takes(self, page: str, number: int) -> bool:
        """Notes a request of a page, and tells whether it is the latest so far."""
        with self.lock:
            if number <= self.last.get(page, 0):
                return False
            self.last[page] = number
            self.last.move_to_end(page)
            if len(self.last) > KNOWN:
                self.last.popitem(last=False)
            return True

    def is_last(self, page: str, number: int) -> bool:
        with self.lock:
            return self.last.get(page) == number


@dataclass(frozen=True)
class Request:
    """What a page asks: the number among its requests, and the moment at which its operator acted.
    `is_left` tells whether the page waits for its answer no longer."""
    verb: str
    switch: str
    way: str
    page: str
    number: int
    made: int
    is_left: Callable[[], bool]

    def late(self, turns: Turns) -> str:
        """Why it is not to be done any more at this moment, or nothing."""
        if not turns.is_last(self.page, self.number) or self.is_left():
            return 'it was given up'
        age = moment() - self.made
        if age > LIMIT:
            return f'it is {age / 1000:.1f} s old'
        if age < -AHEAD:
            return 'its moment is ahead of the panel\'s clock'
        return ''


def request_of(verb: str, asked: dict, is_left: Callable[[], bool]) -> Request:
    """The request that a page wrote as JSON; an exception where it is none."""
    number, made = asked['number'], asked['made']
    if type(number) is not int or type(made) is not int or not isinstance(asked['page'], str):
        raise ValueError
    switch, way = str(asked.get('switch', '')), str(asked.get('way', ''))
    return Request(verb, switch, way, asked['page'], number, made, is_left)
