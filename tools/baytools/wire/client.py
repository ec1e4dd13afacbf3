"""A client of MMS over TCP: it connects, asks one thing after the other, and hands on the reports
that come between."""
import ssl
import time
from collections.abc import Callable

from baytools.bay.names import Names
from baytools.common.ending import FOUND, Failed

from . import mms, stream, words
from .ber import Unreadable
from .conversation import Conversation, Description
from .mms import Data, Failure
from .sockets import is_taken, why_unconnected
from .tls import ALERT, Tls, open_connection, refusal_in

TOGETHER, PATIENCE, PARTING = 32, 10, 2  # variables of a request; seconds for an answer, at the end
SHOWN, COUNTS = 12, 256  # octets that are told; values of a ctlNum


class Refused(Failed):
    """The server answered with an error, or what was asked makes no sense there."""
    status = FOUND


class Lost(Failed):
    """The connection has ended, or what comes on it is no answer."""


class Trace:
    """What is sent, as the lines of a trace, at the moments at which it is sent. Before octets
    stands a scan: a server scans in every turn, and without one no operate is released in a
    replay."""

    def __init__(self, path, place) -> None:
        self.file, self.place, self.last = open(path, 'a', encoding='utf-8'), place, 0

    def line(self, verb, octets=b'') -> None:
        self.last = max(self.last, time.time_ns() // 1_000_000)
        if verb == 'recv':
            print(self.last, 'scan', file=self.file)
        more = [octets.hex()] if octets else []
        print(self.last, verb, self.place, *more, file=self.file, flush=True)


class Client:
    """An open association. Each report that comes is handed to `on_report` in words, and to
    `on_said` as what was said. An answer that has not come whole within `timeout` seconds is
    Lost, whatever comes in its place. With `tls` the connection is one of TLS."""

    def __init__(self, host: str, port: int, bay: Names | None = None, trace: Trace | None = None,
                 on_report: Callable = print, timeout: float = PATIENCE,
                 tls: Tls | None = None) -> None:
        self.bay, self.trace, self.on_report = bay or Names(), trace, on_report
        self.host, self.port, self.timeout, self.tls = host, port, timeout, tls
        self.conversation, self.answers = Conversation(self.bay), stream.Stream()
        self.waiting, self.invoke, self.size, self.cause, self.controls = [], 0, 8192, None, 0
        self.came, self.is_lost, self.end = b'', False, time.monotonic() + timeout
        self.on_said = lambda said: None
        self.socket = open_connection(host, port, timeout, tls)
        try:
            self.open()
        except BaseException:
            self.socket.close()
            raise

    def open(self) -> None:
        """Opens the association."""
        self.note('open')
        self.size = self.confirmed().size or 65_531
        self.begin()
        self.send(stream.tpkt_frames(stream.association_request(mms.initiate_request()), self.size))
        try:
            self.next('accept')
        except TimeoutError:
            raise self.lost('does not answer the request for an association') from None

    def confirmed(self) -> stream.Got:
        """Asks for a transport connection. By TLS 1.3 a server that refuses a certificate ends the
        connection only behind the handshake, so that this may not be written any more."""
        try:
            self.send(stream.connection_request())
            return self.first_answer()
        except (ConnectionError, ssl.SSLEOFError) as error:
            what = f'port {self.port} of {self.host}'
            if self.tls is None:
                raise Lost(f'{what}: {why_unconnected(error)}: a port of TLS needs --tls') from None
            raise Lost(f'{what}: {refusal_in(self.socket, error)}') from None

    def first_answer(self) -> stream.Got:
        """The answer to the connection request. A server with eight associations takes no other
        connection, so the request waits where the system keeps it."""
        what = f'port {self.port} of {self.host}'
        try:
            return self.next('CC')
        except Lost:
            if self.came.startswith(ALERT):
                raise Lost(f'{what}: it answers with an alert of TLS: this is a port of TLS, which '
                           'needs --tls') from None
            if not self.came[:1].isdigit():
                raise
            raise Lost(f'{what}: it greets a process: this is the port of a process, and not that '
                       'of the clients') from None
        except TimeoutError:
            if self.came:
                raise Lost(f'{what}: it sends {octets_text(self.came)}, and no whole answer to a '
                           'connection request') from None
            raise Lost(f'{what}: {silence_text(is_taken(self.socket), bool(self.tls))}') from None

    def begin(self) -> None:
        """From now on an answer may take its time."""
        self.end, self.came = time.monotonic() + self.timeout, b''

    def note(self, verb, octets=b'') -> None:
        if self.trace:
            self.trace.line(verb, octets)

    def send(self, octets: bytes) -> None:
        self.note('recv', octets)
        self.socket.settimeout(self.timeout)
        self.socket.sendall(octets)

    def next(self, kind: str) -> stream.Got:
        """The next message, which is to be of this kind."""
        while not self.waiting:
            self.receive()
        got = self.waiting.pop(0)
        if got.kind != kind:
            came = f' ({octets_text(self.came)})' if got.kind == 'fault' else ''
            raise self.lost(f'sends {got.words or got.kind}{came} instead of {kind}')
        return got

    def left(self) -> float:
        """The seconds that are left for an answer."""
        left = self.end - time.monotonic()
        if left <= 0:
            self.is_lost = True
            raise TimeoutError('timed out')
        return left

    def receive(self) -> None:
        """Waits for octets, and keeps the messages that they complete."""
        self.socket.settimeout(self.left())
        piece = self.socket.recv(65536)
        if not piece:
            raise self.lost('closed the connection')
        self.came = (self.came + piece)[:SHOWN + 1]
        self.waiting += self.answers.feed(piece)

    def lost(self, why: str) -> Lost:
        self.is_lost = True
        return Lost(f'the server {why}')

    def ask(self, request: Callable, *more, is_begun: bool = False) -> mms.Pdu:
        """The response to a request, which is a function of its invoke id and of what else is
        given. Its time begins now, but for a request that goes on with one before."""
        self.invoke, self.cause = self.invoke + 1, None
        octets = request(self.invoke, *more)
        if not is_begun:
            self.begin()
        self.conversation.describe_mms(octets)
        try:
            self.send(stream.tpkt_frames(stream.data_tsdu(octets), self.size))
            pdu = self.response()
        except TimeoutError:
            raise self.lost(f'gave no whole answer within {self.timeout:g} s') from None
        wanted = mms.read_pdu(octets).service
        if pdu.service != wanted:
            raise self.lost(f'answers {pdu.service or pdu.kind}, and {wanted} was asked')
        return pdu

    def response(self) -> mms.Pdu:
        """The response to the last request, behind any reports."""
        while True:
            pdu, said = self.pdu()
            if pdu.kind == 'report':
                continue
            if pdu.invoke != self.invoke and (pdu.kind, pdu.invoke) != ('reject', None):
                raise self.lost(f'answers request {pdu.invoke}, and {self.invoke} was asked')
            if pdu.kind in ('error', 'reject'):
                raise Refused('\n'.join(said.lines))
            return pdu

    def pdu(self) -> tuple[mms.Pdu, Description]:
        """The next PDU, and its words; a report is handed on."""
        octets = self.next('mms').octets
        try:
            pdu = mms.read_pdu(octets)
        except Unreadable as error:
            raise self.lost(f'sends a PDU that can\'t be read: {error}') from None
        said = self.conversation.answers_mms(octets)
        if pdu.kind == 'report':
            self.cause = said.cause
            self.on_report('\n'.join(said.lines))
            self.on_said(said)
        return pdu, said

    def wait_for_report(self, seconds: float) -> Description | None:
        """What a report says that came within so many seconds, or None."""
        self.end = time.monotonic() + seconds
        try:
            pdu, said = self.pdu()
        except TimeoutError:
            self.is_lost = False
            return None
        if pdu.kind != 'report':
            raise self.lost('answers what was not asked')
        return said

    def domains(self) -> list[str]:
        """The names of the logical devices."""
        return self.ask(mms.names_request).names

    def domain(self) -> str:
        """The name of the logical device."""
        if not self.bay.domain:
            domains = self.domains()
            if not domains:
                raise Refused('the server has no domain')
            self.bay.domain = domains[0]
        return self.bay.domain

    def full(self, item: str) -> str:
        return item if '/' in item else f'{self.domain()}/{item}'

    def names(self, of_class: int = mms.VARIABLES) -> list[str]:
        """All names of a class in the logical device, page by page."""
        found, more, domain = {}, True, self.domain()
        self.begin()
        while more:
            page = self.ask(mms.names_request, domain, next(reversed(found), None), of_class,
                            is_begun=True)
            before, more = len(found), page.more
            found |= dict.fromkeys(page.names)
            if more and len(found) == before:
                raise self.lost('sends pages of names without end')
        return list(found)

    def read(self, items: list[str]) -> list[tuple[str, Data | Failure]]:
        """The values of items, or their failures, each with its name."""
        found = []
        for at in range(0, len(items), TOGETHER):
            names = [self.full(item) for item in items[at:at + TOGETHER]]
            data = self.ask(mms.read_request, names).data
            if len(data) != len(names):
                raise self.lost(f'answers {len(data)} values, and {len(names)} were asked')
            found += data
        return list(zip(items, found))

    def value(self, item: str, tag: int) -> object:
        """One value, which is to have this type."""
        (_, found), = self.read([item])
        if isinstance(found, Failure):
            raise Refused(f'{item}: {words.value_text("", found)}')
        return self.typed(item, found, tag)

    def typed(self, item: str, found: Data, tag: int) -> object:
        """A value that is to have this type; of bits there are two."""
        if not isinstance(found, Data) or found.tag != tag or (
                tag == mms.BITS and len(found.value) != 2):
            raise self.lost(f'gives {item} a value of another type')
        return found.value

    def write(self, item: str, value: Data) -> Failure | None:
        """None where a value was written, else a failure."""
        data = self.ask(mms.write_request, [self.full(item)], [value]).data
        if len(data) != 1:
            raise self.lost(f'answers {len(data)} results, and one value was written')
        return data[0]

    def next_control(self) -> int:
        """The ctlNum of the next control: 1 at first."""
        self.controls = (self.controls + 1) % COUNTS
        return self.controls

    def shape(self, item: str) -> str | list:
        return self.ask(mms.attributes_request, self.full(item)).shape

    def close(self) -> None:
        """Asks for the end of the association, and closes the connection."""
        try:
            if not self.is_lost:
                self.end = time.monotonic() + min(self.timeout, PARTING)
                self.send(stream.tpkt_frames(stream.release_request(), self.size))
                self.next('released')
        except (OSError, Failed):
            self.note('close')
        self.socket.close()


def octets_text(octets: bytes) -> str:
    """Some octets, as digits and as text where they are one."""
    first = octets[:SHOWN]
    more = ' ..' if len(octets) > SHOWN else ''
    text = first.decode('ascii', 'replace')
    shown = f' ({text!r})' if len(first) > 3 and text.isprintable() and text.isascii() else ''
    return first.hex(' ').upper() + more + shown


def silence_text(is_taken_there: bool | None, is_tls: bool) -> str:
    """What is said of a port on which nothing comes, taken by a program or not, or unknown."""
    if is_taken_there is False:
        return ('the connection waits, and what listens there does not take it: a bay\'s server '
                'does so while eight associations are open; another program may do so too')
    if is_taken_there and not is_tls:
        return ('the connection is taken, and a connection request is not answered: it is no port '
                'of clients, and none of a supervised process, which is greeted')
    return ('a connection request is not answered: is it the port of the clients, and are all '
            'eight associations taken?')


def connection_text(error: OSError, host: str, port: int) -> str:
    """Why there is no connection."""
    return f'port {port} of {host}: {why_unconnected(error)}'
