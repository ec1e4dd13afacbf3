"""Captures that are made by hand: segments of TCP, in files as tcpdump (pcap) and tshark (pcapng)
write them."""
import struct
from collections.abc import Iterable

CLIENT, SERVER = (b'\x0a\x00\x00\x01', 49152), (b'\x0a\x00\x00\x02', 102)
SYN, ACK, FIN = 0x02, 0x10, 0x01
End = tuple[bytes, int]  # an address and a port


def segment(source: End, target: End, number: int, flags: int, octets: bytes = b'',
            acknowledged: int = 0) -> bytes:
    """A packet of IPv4 with a segment."""
    head = struct.pack('>HHIIBBHHH', source[1], target[1], number % 2**32, acknowledged % 2**32,
                       0x50, flags, 1000, 0, 0)
    whole = 20 + len(head) + len(octets)
    ip = struct.pack('>BBHHHBBH', 0x45, 0, whole, 0, 0, 64, 6, 0) + source[0] + target[0]
    return ip + head + octets


def pcap(found: Iterable[bytes], link: int = 101, order: str = '<') -> bytes:
    """A capture file of these packets, a millisecond apart."""
    out = [struct.pack(order + 'IHHiIII', 0xA1B2C3D4, 2, 4, 0, 0, 65535, link)]
    for at, packet in enumerate(found):
        out += struct.pack(order + 'IIII', 1000, 1000 * at, len(packet), len(packet)), packet
    return b''.join(out)


def block(kind: int, body: bytes) -> bytes:
    """A block of a pcapng file."""
    body += bytes(-len(body) % 4)
    size = len(body) + 12
    return struct.pack('<II', kind, size) + body + struct.pack('<I', size)


def pcapng(found: Iterable[bytes], link: int = 1) -> bytes:
    """A capture file of these packets in frames of Ethernet, a millisecond apart."""
    out = block(0x0A0D0D0A, struct.pack('<IHHq', 0x1A2B3C4D, 1, 0, -1))
    out += block(1, struct.pack('<HHI', link, 0, 0) + struct.pack('<HHB3x', 9, 1, 9) + bytes(4))
    for at, packet in enumerate(found):
        frame = bytes(12) + b'\x08\x00' + packet
        ticks = 1_000_000_000_000 + at * 1_000_000
        head = struct.pack('<IIIII', 0, ticks >> 32, ticks & 0xFFFFFFFF, len(frame), len(frame))
        out += block(6, head + frame)
    return out
