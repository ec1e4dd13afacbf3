"""BER (X.690): elements of octets, and octets of elements. A tag is its identifier octets as one
number."""

LONGEST = 9  # octets of an integer: 64 bits without a sign


class Unreadable(Exception):
    """Octets that are not what is wanted of them."""


def read(octets: bytes, at: int = 0) -> tuple[int, bytes, int]:
    """The element at a place: its tag, its content and the place behind it."""
    tag, at = octet(octets, at), at + 1
    if tag & 0x1f == 0x1f:
        tag, at = tag << 8 | octet(octets, at), at + 1
        if tag & 0x80:
            raise Unreadable('a tag of more than two octets')
    size, at = octet(octets, at), at + 1
    if size & 0x80:
        count = size & 0x7f
        if not 1 <= count <= 4:
            raise Unreadable('an indefinite or too long length')
        octet(octets, at + count - 1)
        size, at = int.from_bytes(octets[at:at + count]), at + count
    if at + size > len(octets):
        raise Unreadable('octets that end early')
    return tag, octets[at:at + size], at + size


def octet(octets: bytes, at: int) -> int:
    if at >= len(octets):
        raise Unreadable('octets that end early')
    return octets[at]


def elements(octets: bytes) -> list[tuple[int, bytes]]:
    """The elements that fill some octets, each as tag and content."""
    found, at = [], 0
    while at < len(octets):
        tag, content, at = read(octets, at)
        found.append((tag, content))
    return found


def only(octets: bytes, tag: int) -> bytes:
    """The content of the one element of this tag that fills some octets."""
    found = elements(octets)
    if [t for t, _ in found] != [tag]:
        raise Unreadable(f'no single element {tag:02X}')
    return found[0][1]


def field(octets: bytes, tag: int, default: bytes | None = None) -> bytes | None:
    """The content of the first element of this tag among others."""
    return next((content for t, content in elements(octets) if t == tag), default)


def need(octets: bytes, tag: int) -> bytes:
    content = field(octets, tag)
    if content is None:
        raise Unreadable(f'no element {tag:02X}')
    return content


def integer(content: bytes) -> int:
    if not content:
        raise Unreadable('an integer of no octets')
    if len(content) > LONGEST:
        raise Unreadable(f'an integer of {len(content):,} octets')
    return int.from_bytes(content, signed=True)


def element(tag: int, *contents: bytes) -> bytes:
    """The octets of an element."""
    content = b''.join(contents)
    name = bytes([tag >> 8, tag & 0xff]) if tag > 0xff else bytes([tag])
    if len(content) < 0x80:
        return name + bytes([len(content)]) + content
    size = len(content).to_bytes((len(content).bit_length() + 7) // 8)
    return name + bytes([0x80 + len(size)]) + size + content


def number(tag: int, value: int) -> bytes:
    """The octets of an integer."""
    return element(tag,
                   value.to_bytes(((value if value >= 0 else ~value).bit_length() + 8) // 8,
                                  signed=True))
