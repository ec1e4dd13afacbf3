"""The packets of a capture file (pcap or pcapng), and the segments of TCP in them."""
import ipaddress
import struct
from collections.abc import Iterator
from dataclasses import dataclass

from baytools.common.ending import Failed

# Link types, of the files of tcpdump and tshark.
NULL, ETHERNET, RAW, LOOP, COOKED, IPV4, IPV6, COOKED2 = 0, 1, 101, 108, 113, 228, 229, 276
VLANS = 0x8100, 0x88A8, 0x9100
PCAP = {struct.pack(order + 'I', number): (order, unit) for order in '<>'
        for number, unit in ((0xA1B2C3D4, 1_000), (0xA1B23C4D, 1_000_000))}
SECTION = b'\x0a\x0d\x0d\x0a'
MAGICS = [SECTION, *PCAP]
INTERFACE, OLD_PACKET, SIMPLE, ENHANCED = 1, 2, 3, 6  # blocks of pcapng
RESOLUTION, OFFSET = 9, 14  # options of an interface
EXTENSIONS = {0: 8, 43: 8, 60: 8, 51: 4}  # headers of IPv6, with the unit of their lengths
FRAGMENT, TCP = 44, 6


class BadCapture(Failed):
    """The file is no capture that can be read."""


@dataclass
class Packet:
    """The moment in milliseconds since 1970, the link type and the octets that were kept."""
    moment: int
    link: int
    octets: bytes


@dataclass
class Segment:
    """A segment of TCP between two ends, each an address and a port. `size` is how many octets of
    data it had, of which `data` were kept."""
    source: tuple
    target: tuple
    number: int
    acknowledged: int
    flags: int
    data: bytes
    size: int


@dataclass
class Interface:
    link: int
    kept: int
    ticks: int = 1_000_000
    offset: int = 0

    def moment(self, ticks: int) -> int:
        return max(ticks * 1000 // self.ticks + self.offset * 1000, 0)


def packets(octets: bytes) -> Iterator[Packet]:
    """Each packet of a file, up to where it is cut off."""
    if octets[:4] == SECTION:
        return packets_of_blocks(octets)
    if octets[:4] not in PCAP:
        raise BadCapture('the capture: it is neither pcap nor pcapng')
    if len(octets) < 24:
        raise BadCapture('the capture: its header is cut off')
    return packets_of_records(octets, *PCAP[octets[:4]])


def packets_of_records(octets, order, unit) -> Iterator:
    link, at = struct.unpack_from(order + 'I', octets, 20)[0] & 0xFFFF, 24
    while at + 16 <= len(octets):
        seconds, fraction, kept, _ = struct.unpack_from(order + 'IIII', octets, at)
        yield Packet(seconds * 1000 + fraction // unit, link, octets[at + 16:at + 16 + kept])
        at += 16 + kept


def blocks(octets: bytes) -> Iterator[tuple[str, int, bytes]]:
    """The blocks of pcapng: the order of octets, the kind and the body of each."""
    at, order = 0, '<'
    while at + 12 <= len(octets):
        if octets[at:at + 4] == SECTION:
            order = '<' if octets[at + 8:at + 12] == b'\x4d\x3c\x2b\x1a' else '>'
        kind, size = struct.unpack_from(order + 'II', octets, at)
        if size < 12 or at + size > len(octets):
            return
        yield order, kind, octets[at + 8:at + size - 4]
        at += (size + 3) // 4 * 4


def packets_of_blocks(octets) -> Iterator:
    """The packets of pcapng. A simple packet has no time: it has that of the packet before it."""
    interfaces, last = [], 0
    for order, kind, body in blocks(octets):
        if kind == int.from_bytes(SECTION):
            interfaces = []
        elif kind == INTERFACE and len(body) >= 8:
            interfaces.append(interface_of(body, order))
        elif kind == SIMPLE and interfaces and len(body) >= 4:
            size, = struct.unpack_from(order + 'I', body)
            kept = min(size, interfaces[0].kept or size)
            yield Packet(last, interfaces[0].link, body[4:4 + kept])
        elif kind in (ENHANCED, OLD_PACKET) and len(body) >= 20:
            place, high, low, kept = struct.unpack_from(order + 'IIII', body)
            if kind == OLD_PACKET:
                place = struct.unpack_from(order + 'H', body)[0]
            if place < len(interfaces):
                last = interfaces[place].moment(high << 32 | low)
                yield Packet(last, interfaces[place].link, body[20:20 + kept])


def interface_of(body: bytes, order: str) -> Interface:
    """An interface with how many ticks its seconds have, and from when they count."""
    link, _, kept = struct.unpack_from(order + 'HHI', body)
    found, at = Interface(link, kept), 8
    while at + 4 <= len(body):
        option, size = struct.unpack_from(order + 'HH', body, at)
        value, at = body[at + 4:at + 4 + size], at + 4 + (size + 3) // 4 * 4
        if option == RESOLUTION and value:
            found.ticks = 2 ** (value[0] & 0x7F) if value[0] & 0x80 else 10 ** value[0]
        elif option == OFFSET and len(value) == 8:
            found.offset, = struct.unpack(order + 'q', value)
        elif option == 0:
            break
    return found


# ---- one packet

def internet(packet: Packet) -> bytes:
    """The packet of IP in a frame, or nothing."""
    link, octets = packet.link, packet.octets
    if link == ETHERNET:
        return by_type(int.from_bytes(octets[12:14]), octets[14:])
    if link == COOKED:
        return by_type(int.from_bytes(octets[14:16]), octets[16:])
    if link == COOKED2:
        return by_type(int.from_bytes(octets[:2]), octets[20:])
    if link in (NULL, LOOP):
        return octets[4:]
    return octets if link in (RAW, 12, IPV4, IPV6) else b''


def by_type(kind, octets) -> bytes:
    while kind in VLANS:
        kind, octets = int.from_bytes(octets[2:4]), octets[4:]
    return octets if kind in (0x0800, 0x86DD) else b''


def segment_in(packet: Packet) -> Segment | None:
    """The segment of TCP in a packet, or None."""
    octets = internet(packet)
    version = octets[0] >> 4 if octets else 0
    if version == 4 and len(octets) >= 20:
        start, whole = (octets[0] & 15) * 4, int.from_bytes(octets[2:4]) or len(octets)
        is_first = not int.from_bytes(octets[6:8]) & 0x1FFF
        if octets[9] == TCP and is_first and start >= 20:
            return segment_of((octets[12:16], octets[16:20]), octets[start:whole], whole - start)
    if version == 6 and len(octets) >= 40:
        start, whole = after_extensions(octets), 40 + int.from_bytes(octets[4:6])
        if start:
            return segment_of((octets[8:24], octets[24:40]), octets[start:whole], whole - start)
    return None


def after_extensions(octets: bytes) -> int:
    """Where TCP begins in a packet of IPv6, behind its extension headers; 0 for none."""
    kind, at = octets[6], 40
    while at + 8 <= len(octets) and kind != TCP:
        if kind == FRAGMENT and not int.from_bytes(octets[at + 2:at + 4]) & 0xFFF8:
            kind, at = octets[at], at + 8
        elif kind in EXTENSIONS:
            least = 2 if kind == 51 else 1
            kind, at = octets[at], at + (octets[at + 1] + least) * EXTENSIONS[kind]
        else:
            return 0
    return at if kind == TCP else 0


def segment_of(addresses, octets, whole) -> Segment | None:
    if len(octets) < 20:
        return None
    ports = struct.unpack_from('>HH', octets)
    number, acknowledged = struct.unpack_from('>II', octets, 4)
    start = (octets[12] >> 4) * 4
    if start < 20:
        return None
    return Segment((addresses[0], ports[0]), (addresses[1], ports[1]), number, acknowledged,
                   octets[13], octets[start:], max(whole - start, 0))


def address_text(address: bytes) -> str:
    return str(ipaddress.ip_address(address))
