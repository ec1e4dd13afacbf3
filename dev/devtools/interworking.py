"""Sessions of other makers' clients as octets, with what a bay answers: a file of them is read,
each is played to a server, and what differs is said.

A file has sections `== TITLE` with lines `# NOTE`, and steps: `- WHAT`, then `> OCTETS`, which the
client sends, and `< OCTETS` for each message that comes next; `..` is an octet that may be any.
`< closed` is the end of the connection. What `>> OCTETS` sends is sent again until it is answered
so."""
import socket
import time
from collections.abc import Callable
from dataclasses import dataclass, field

PATIENCE, EVERY = 10.0, 0.1  # seconds for an answer, and between two that are sent again
CLOSED = 'closed'


@dataclass
class Step:
    """What a client sends, in octets, and the messages that it is answered, as digits."""
    what: str
    sent: bytes = b''
    is_repeated: bool = False
    answers: list[str] = field(default_factory=list)


@dataclass
class Session:
    title: str
    notes: list[str] = field(default_factory=list)
    steps: list[Step] = field(default_factory=list)


def sessions_of(text: str) -> list[Session]:
    """The sessions of a file."""
    found: list[Session] = []
    for line in filter(None, text.splitlines()):
        sign, _, rest = line.partition(' ')
        if sign == '==':
            found.append(Session(rest))
        elif sign == '#':
            found[-1].notes.append(rest)
        elif sign == '-':
            found[-1].steps.append(Step(rest))
        elif sign in ('>', '>>'):
            step = found[-1].steps[-1]
            step.sent, step.is_repeated = bytes.fromhex(rest), sign == '>>'
        elif sign == '<':
            found[-1].steps[-1].answers.append(rest)
        else:
            raise ValueError(f'{line[:40]!r} is no line of a session')
    return found


def is_as(wanted: str, octets: bytes) -> bool:
    """Whether a message, or the end of a connection (no octets), is as it is wanted."""
    if wanted == CLOSED or not octets:
        return wanted == CLOSED and not octets
    digits = octets.hex()
    return len(digits) == len(wanted) and all(
        other in ('.', digit) for digit, other in zip(digits, wanted))


class Connection:
    """A connection to a server, whose messages are read one by one. What goes through is noted: the
    moment, 0 for the client or 1 for the server, and the octets."""

    def __init__(self, host: str, port: int) -> None:
        self.socket = socket.create_connection((host, port), PATIENCE)
        self.seen: list[tuple[float, int, bytes]] = []

    def send(self, octets: bytes) -> None:
        self.seen.append((time.time(), 0, octets))
        self.socket.sendall(octets)

    def take(self, count: int) -> bytes:
        found = b''
        while len(found) < count:
            piece = self.socket.recv(count - len(found))
            if not piece:
                break
            found += piece
        return found

    def message(self) -> bytes:
        """The next message (RFC 1006), or none where the connection has ended."""
        try:
            head = self.take(4)
            found = head + (self.take(int.from_bytes(head[2:]) - 4) if len(head) == 4 else b'')
        except ConnectionError:
            return b''
        if found:
            self.seen.append((time.time(), 1, found))
        return found

    def close(self) -> None:
        self.socket.close()


def play_step(connection: Connection, step: Step) -> str:
    """Plays a step; how it differs from what is wanted, or nothing."""
    end = time.monotonic() + PATIENCE
    while True:
        if step.sent:
            connection.send(step.sent)
        for wanted in step.answers:
            try:
                found = connection.message()
            except TimeoutError:
                return f'nothing came within {PATIENCE:g} s in the place of {wanted}'
            if not is_as(wanted, found):
                break
        else:
            return ''
        if not step.is_repeated or time.monotonic() > end:
            return f'{found.hex() or CLOSED}\n  in the place of\n  {wanted}'
        time.sleep(EVERY)


def play(session: Session, connect: Callable[[], Connection]) -> tuple[list[str], Connection]:
    """Plays a session; how it differs, a text for the first step that does, and its connection."""
    connection = connect()
    for step in session.steps:
        told = play_step(connection, step)
        if told:
            connection.close()
            return [f'{session.title}: {step.what}:\n  {told}'], connection
    connection.close()
    return [], connection
