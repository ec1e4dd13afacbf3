"""Connections of TCP out of a capture, put together: segments in order, once."""
import heapq
from collections.abc import Iterator
from dataclasses import dataclass, field

from .packets import Segment, address_text, packets, segment_in

SYN, FIN, RST, ACK = 0x02, 0x01, 0x04, 0x10
HALF, WHOLE = 1 << 31, 1 << 32
TPKT_PORT, HEAD = 102, 6  # octets by which a connection of MMS is known
CR, CC = 0xE0, 0xD0


@dataclass
class Event:
    """What happens on a connection: `kind` is open, middle (it was open before the capture),
    client, server, gap or close; `moment` is in milliseconds since 1970, `octets` are what the
    client or the server sent, `side` is that of a gap, and `who` is the address of the client."""
    moment: int
    place: int
    kind: str
    octets: bytes = b''
    side: str = ''
    who: str = ''


@dataclass
class Way:
    """One direction. Places count octets from the first; `next` is the place of the octet that
    comes next, `early` has what came before its turn, `known` is up to where octets were sent, as
    far as this is seen, `end` is where they end, and `head` are the first."""
    base: int | None = None
    next: int = 0
    known: int = 0
    end: int | None = None
    early: list = field(default_factory=list)
    head: bytes = b''

    def place(self, number: int) -> int:
        """The place of a number of TCP, near to the next."""
        far = (number - self.base - self.next) % WHOLE
        return self.next + (far - WHOLE if far >= HALF else far)

    def take(self, number: int, data: bytes, size: int, when: tuple) -> bytes:
        """The octets that are next, in their order: none is given twice."""
        if self.base is None:
            self.base = number
        place = self.place(number)
        self.known = max(self.known, place + size)
        if place + len(data) > self.next:
            heapq.heappush(self.early, (place, when, data))
        return b''.join(octets for _, octets in self.ready())

    def ready(self) -> list[tuple[tuple, bytes]]:
        """What can be handed on of what came early, with when it came."""
        found = []
        while self.early and self.early[0][0] <= self.next:
            place, when, data = heapq.heappop(self.early)
            new = data[self.next - place:]
            if new:
                found.append((when, new))
            self.next += len(new)
            self.head += new[:HEAD - len(self.head)]
        return found

    def acknowledge(self, number: int) -> bool:
        """The other end has taken what is before a number: whether the capture lacks some of it.
        The end of a way counts as an octet, and may not be in the capture."""
        if self.base is None:
            return False
        place = self.place(number)
        if self.end is not None:
            place = min(place, self.end)
        elif place == self.next + 1 and not self.early:
            place = self.next
        self.known = max(self.known, place)
        return bool(self.early) and self.next < self.early[0][0] <= place

    def skip(self) -> list[tuple[tuple, bytes]]:
        """Leaves out what is lacking, and goes on behind it."""
        self.next = self.early[0][0] if self.early else self.known
        return self.ready()


class Connection:
    """A connection with its two ways. `events` are what happened: when, as the number of the packet
    and the moment, the end that sent it, the kind and octets."""

    def __init__(self, first: int, moment: int, segment: Segment) -> None:
        self.first, self.opened, self.events = first, moment, []
        self.client, self.client_is_sure = None, False
        self.ways = {segment.source: Way(), segment.target: Way()}
        self.is_closed, self.ended = False, set()
        self.last = (first, moment)
        if segment.flags & SYN:
            is_answer = segment.flags & ACK
            self.client = segment.target if is_answer else segment.source

    def other(self, end) -> tuple:
        return next((it for it in self.ways if it != end), end)

    def is_again(self, segment: Segment) -> bool:
        """Whether a segment begins another connection between the same ports."""
        if segment.flags & (SYN | ACK) != SYN:
            return False
        base = self.ways[segment.source].base
        return self.is_closed or base is not None and base != (segment.number + 1) % WHOLE

    def take(self, at: int, moment: int, segment: Segment) -> None:
        if self.is_closed:
            return
        when = self.last = (at, moment)
        way, number = self.ways[segment.source], segment.number
        if segment.flags & SYN:
            number = (number + 1) % WHOLE
            way.base = number if way.base is None else way.base
        if segment.data or segment.size:
            found = way.take(number, segment.data, segment.size, when)
            self.events += [(when, segment.source, 'data', found)] if found else []
        if segment.flags & ACK:
            other = self.ways[segment.target]
            if other.base is None and self.client:  # (its first segment is lacking)
                other.base = segment.acknowledged
            while other.acknowledge(segment.acknowledged):
                self.gap(when, segment.target)
        if segment.flags & FIN and way.base is not None:
            way.end = way.place((number + segment.size) % WHOLE)
            way.known = max(way.known, way.end)
        if segment.flags & (FIN | RST):
            self.ended.add(segment.source)
            self.is_closed = len(self.ended) == 2 or bool(segment.flags & RST)

    def gap(self, when: tuple, end: tuple) -> None:
        """Octets of an end are not in the capture. What came behind them is told as it came."""
        found = self.ways[end].skip()
        self.events.append((found[0][0] if found else when, end, 'gap', b''))
        self.events += [(came, end, 'data', octets) for came, octets in found]

    def finish(self) -> None:
        """The capture has ended: what is lacking, and that the connection was closed."""
        for end, way in self.ways.items():
            while way.next < way.known:
                self.gap(self.last, end)
        if self.ended:
            self.events.append((self.last, None, 'close', b''))

    def kind_of(self, end) -> int:
        """The kind of the TPDU with which an end begins, or 0."""
        head = self.ways[end].head
        return head[5] if len(head) == HEAD and head[:2] == b'\x03\x00' else 0

    def is_wanted(self, port: int | None) -> bool:
        """Whether this is a connection to a port, or one on which MMS is spoken."""
        ports = [end[1] for end in self.ways]
        if port is not None:
            return port in ports
        return TPKT_PORT in ports or any(self.kind_of(end) in (CR, CC, 0xF0) for end in self.ways)

    def begins(self) -> bool:
        """Whether its beginning is in the capture."""
        return self.client_is_sure or self.kind_of(self.client) == CR

    def find_client(self, port: int | None) -> None:
        """Which end is the client's: the one that began, else the one that asks for a connection,
        else the one with another port than the server's."""
        self.client_is_sure = self.client is not None
        if self.client is None:
            ends = list(self.ways)
            asks = [end for end in ends if self.kind_of(end) == CR]
            asks += [self.other(end) for end in ends if self.kind_of(end) == CC]
            asks += [self.other(end) for end in ends if end[1] in (port, TPKT_PORT)]
            self.client = asks[0] if asks else max(ends, key=lambda end: end[1])


class Capture:
    """The connections of a capture to one port, or those on which MMS is spoken."""

    def __init__(self, octets: bytes, port: int | None = None) -> None:
        self.octets, self.port, self.connections = octets, port, []

    def events(self) -> list[Event]:
        """What happens, in the order of the capture."""
        self.read()
        found = []
        wanted = [it for it in self.connections if it.is_wanted(self.port)]
        for place, connection in enumerate(wanted, 1):
            connection.find_client(self.port)
            found += events_of(connection, place)
        return [event for _, event in sorted(found, key=lambda it: it[0])]

    def read(self) -> None:
        """Puts the connections together."""
        now = {}
        for at, packet in enumerate(packets(self.octets)):
            segment = segment_in(packet)
            if segment is None or self.port not in (None, segment.source[1], segment.target[1]):
                continue
            key = frozenset((segment.source, segment.target))
            if key not in now or now[key].is_again(segment):
                now[key] = Connection(at, packet.moment, segment)
                self.connections.append(now[key])
            now[key].take(at, packet.moment, segment)
        for connection in self.connections:
            connection.finish()


def events_of(connection: Connection, place: int) -> Iterator:
    """The events of a connection, each with the number of its packet."""
    who = address_text(connection.client[0])
    kind = 'open' if connection.begins() else 'middle'
    yield connection.first, Event(connection.opened, place, kind, who=who)
    for (at, moment), end, kind, octets in connection.events:
        side = 'client' if end == connection.client else 'server'
        event = Event(moment, place, side if kind == 'data' else kind, octets, who=who)
        event.side = side if kind == 'gap' else ''
        yield at, event
