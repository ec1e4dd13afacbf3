"""Changes scenarios at random: octets within their layers, whose lengths it then puts right, single
octets, lines and whole texts."""
import copy
import random
import re
from collections.abc import Iterator

from baytools.wire import ber, stream

Random = random.Random
Seed = tuple[str, str, list[str]]  # a bay file, a program, the lines of a trace

ODD = (
    0x00, 0x01, 0x02, 0x03, 0x0A, 0x0D, 0x30, 0x31, 0x61, 0x7E, 0x7F, 0x80, 0x81, 0x82, 0x84, 0x8B,
    0xA0, 0xA1, 0xA2, 0xA4, 0xA5, 0xA6, 0xBE, 0xBF, 0xC1, 0xF0, 0xFE, 0xFF)
TAGS = (
    0x02, 0x06, 0x1A, 0x30, 0x80, 0x81, 0x82, 0x83, 0x84, 0x85, 0x86, 0x87, 0x89, 0x8A, 0x8B, 0x91,
    0xA0, 0xA1, 0xA2, 0xA3, 0xA4, 0xA5, 0xA6, 0xA8, 0x60, 0x61, 0x62, 0xBF04)
HEX_CONTENTS = (
    '', '00', '01', 'FF', '7F', '80', '0080', 'FF7F', '7FFFFFFF', '80000000', '00FFFFFFFF',
    '0100000000', '7FFFFFFFFFFFFFFF', '8000000000000000', '010000000000000000', '0600', '0640',
    '0680', '08', '5101', '52010001', '28CA220201', '28CA220203', '0000000000000000')
CONTENTS = (
    *map(bytes.fromhex, HEX_CONTENTS),
    b'BAY1', b'LLN0', b'XCBR1$ST$Pos$stVal', b'CSWI1$CO$Pos$SBO', b'CSWI1$CO$Pos$SBOw',
    b'CSWI1$CO$Pos$Oper', b'CSWI2$CO$Pos$Oper', b'CSWI1$CO$Pos$Cancel', b'CSWI1', b'CILO1$ST',
    b'\xff\xfe', b'A' * 65, b'A' * 300)
TOKENS = (
    'LD', 'LDN', 'ST', 'STN', 'S', 'R', 'AND', 'AND(', 'OR', 'OR(', 'XORN(', '&N', 'ADD', 'SUB',
    'MUL', 'DIV', 'MOD', 'GT', 'EQ(', ')', 'JMP L', 'JMPC L', 'RETCN',
    'CAL t(IN := TRUE, PT := T#5ms)', 'L:', 'NOT', 'INT_TO_DINT', 'DINT_TO_LINT',
    'LINT#9223372036854775807', '-32768', '16#FFFF', '2#1', 'T#24d20h31m23s647ms', 'TRUE',
    'QA1_OPEN', 'QA1_POS', 'QA1_ENA_OPN', 'VAR', 'END_VAR', 'VAR_EXTERNAL', 'END_PROGRAM',
    'x : INT := 5;', 't : TOF;', 'y : LINT;', '(*', '*)', 'T#1d', 't.Q', 't.ET', '"', '[[switch]]',
    '[bay]', 'id = "Q"', 'control = "sbo-enhanced"', 'kind = "earthing"', 'travel_ms = 1',
    'sbo_timeout_ms = 600000', '[[input]]', 'name = "ES"', '[[meter]]', "'''", '\\u0041', '%%',
    '\r', '\xff', '0', '1', '2147483647', '4294967295999', '18446744073709551616', '-1', 'contact',
    'scan', 'open', 'recv', 'close', 'measure M TOTW 5', 'input ES 1')

HEX = re.compile(r'(?:[0-9a-fA-F]{2})+')


class Value:
    """An element: a tag with the elements in it, or with its content."""

    def __init__(self, tag: int, parts: 'list[Value] | None', content: bytes = b'') -> None:
        self.tag, self.parts, self.content = tag, parts, content

    def octets(self, rng: Random) -> bytes:
        """Its octets; now and then its length is longer than it must be."""
        content = self.content
        if self.parts is not None:
            content = b''.join(part.octets(rng) for part in self.parts)
        if rng.random() < 0.002:
            size = len(content).to_bytes(4)
            return ber.element(self.tag)[:-1] + b'\x84' + size + content
        return ber.element(self.tag, content)


def values(octets: bytes) -> list[Value]:
    """The elements that fill some octets, as deep as they can be read."""
    found = []
    for tag, content in ber.elements(octets):
        constructed = (tag >> 8 if tag > 0xff else tag) & 0x20
        try:
            found.append(Value(tag, values(content)) if constructed else Value(tag, None, content))
        except ber.Unreadable:
            found.append(Value(tag, None, content))
    return found


def below(parts: list[Value]) -> Iterator[list[Value]]:
    """All lists of elements at and below one."""
    yield parts
    for part in parts:
        if part.parts is not None:
            yield from below(part.parts)


def content_of(rng: Random, old: bytes) -> bytes:
    """Another content."""
    kind = rng.randrange(4)
    if kind == 0 or not old:
        return rng.choice(CONTENTS)
    if kind == 1:
        return odd_octets(rng, old)
    if kind == 2:
        return bytes(rng.randrange(256) for _ in range(rng.choice((1, 1, 2, 3, 4, 8, 9, 13))))
    return old * rng.choice((0, 2, 3))


def change_values(rng: Random, roots: list[Value], others: list[list[Value]]) -> None:
    """Changes one element, or the list that it stands in."""
    lists = [parts for parts in below(roots) if parts]
    if not lists:
        roots.append(Value(rng.choice(TAGS), None, rng.choice(CONTENTS)))
        return
    parts = rng.choice(lists)
    at = rng.randrange(len(parts))
    chosen, kind = parts[at], rng.randrange(10)
    if kind == 0:
        chosen.tag = rng.choice(TAGS)
    elif kind == 1:
        del parts[at]
    elif kind == 2:
        parts[at:at] = [chosen] * rng.choice((1, 1, 2, 33))
    elif kind == 3:
        parts.insert(rng.randrange(len(parts) + 1), parts.pop(at))
    elif kind == 4:
        for _ in range(rng.choice((1, 2, 9, 11, 40))):
            chosen = Value(0xA2, [chosen])
        parts[at] = chosen
    elif kind == 5 and others:
        lists = [part for part in below(rng.choice(others)) if part]
        donor = rng.choice(lists or [[Value(0x80, None)]])
        parts[at:at + rng.randrange(2)] = [copy.deepcopy(rng.choice(donor))]
    elif kind == 6:
        parts.insert(at, Value(rng.choice(TAGS), None, rng.choice(CONTENTS)))
    elif chosen.parts is None:
        chosen.content = content_of(rng, chosen.content)
    else:
        chosen.content, chosen.parts = rng.choice(CONTENTS), None


def odd_octets(rng: Random, octets: bytes) -> bytes:
    """One octet changed, put in or left out, or a piece said twice or cut off."""
    octets = bytearray(octets)
    at = rng.randrange(len(octets) + 1)
    kind = rng.randrange(7)
    if at < len(octets) and kind < 3:
        octets[at] = (octets[at] ^ 1 << rng.randrange(8), rng.choice(ODD), rng.randrange(256))[kind]
    elif kind == 3:
        octets[at:at] = bytes([rng.choice(ODD)]) * rng.choice((1, 1, 1, 2, 300))
    elif kind == 4:
        del octets[at:at + rng.choice((1, 1, 2, 8))]
    elif kind == 5:
        octets[at:at] = octets[at:at + rng.randrange(1, 64)]
    else:
        del octets[at:]
    return bytes(octets)


def inner(tsdu: bytes) -> tuple[bytes | int, list | None, list[Value]]:
    """What stands around the elements of a TSDU, and the elements."""
    if tsdu[:4] == b'\x01\x00\x01\x00':
        return tsdu[:4], None, values(tsdu[4:])
    code, content, _ = stream.session_item(tsdu, 0)
    items, at = [], 0
    while at < len(content):
        name, value, at = stream.session_item(content, at)
        items.append((name, value))
    return code, items, values(dict(items)[0xC1])


def outer(rng: Random, front: bytes | int, items: list | None, roots: list[Value]) -> bytes:
    """The TSDU of elements."""
    octets = b''.join(root.octets(rng) for root in roots)
    if items is None:
        return front + octets
    return stream.item(front, *(stream.item(name, octets if name == 0xC1 else value)
                                for name, value in items))


def join_tsdu(octets: bytes) -> tuple[bytes | None, bytes]:
    """The TSDU at the front of octets, and the octets behind it; None and all octets where there is
    none."""
    at, tsdu = 0, b''
    while octets[at:at + 2] == b'\x03\x00' and octets[at + 5:at + 6] == b'\xf0':
        size = int.from_bytes(octets[at + 2:at + 4])
        if size < 7 or at + size > len(octets):
            break
        tsdu, at, last = tsdu + octets[at + 7:at + size], at + size, octets[at + 6] & 0x80
        if last:
            return tsdu, octets[at:]
    return None, octets


def elements_of(octets: bytes) -> list[Value] | None:
    """The elements of the first TSDU in octets, or None."""
    tsdu, _ = join_tsdu(octets)
    try:
        return inner(tsdu)[2] if tsdu else None
    except (ber.Unreadable, KeyError):
        return None


def change_octets(rng: Random, octets: bytes, others: list[list[Value]]) -> bytes:
    """The octets of a line of the trace, changed."""
    tsdu, rest = join_tsdu(octets)
    if not tsdu or rng.random() < 0.25:
        return odd_octets(rng, octets)
    try:
        front, items, roots = inner(tsdu)
    except (ber.Unreadable, KeyError):
        return odd_octets(rng, octets)
    for _ in range(rng.choice((1, 1, 1, 2, 4))):
        change_values(rng, roots, others)
    try:
        tsdu = outer(rng, front, items, roots)[:70_010]
    except OverflowError:   # longer than a length of the session can say
        return odd_octets(rng, octets)
    if rng.random() < 0.05:
        tsdu = odd_octets(rng, tsdu)
    return stream.tpkt_frames(tsdu, rng.choice((8192, 8192, 8192, 128, 4, 65_000))) + rest


def change_line(rng: Random, line: str, donors: list[list[Value]]) -> str:
    """A line of the trace, changed."""
    words = line.split(' ')
    if len(words) == 4 and words[1] == 'recv' and HEX.fullmatch(words[3]) and rng.random() < 0.9:
        octets = change_octets(rng, bytes.fromhex(words[3]), donors)
        return ' '.join(words[:3] + [octets.hex() or '00'])
    at = rng.randrange(len(words))
    if at == 0 and words[0].isdigit():
        words[0] = str(max(0, int(words[0]) + rng.choice((-1, 1, 499, 500, 1999, 2000, 600_000))))
    elif len(words) > 2 and at == 2 and words[1] in ('open', 'recv', 'close'):
        words[2] = str(rng.choice((1, 2, 3, 8, 0, 9)))
    else:
        words[at] = rng.choice(TOKENS)
    return ' '.join(words)


def change_lines(rng: Random, lines: list[str], seeds: list[Seed],
                 donors: list[list[Value]]) -> list[str]:
    """The lines of a trace, some changed, doubled, left out, moved, or taken from elsewhere."""
    received = [k for k, line in enumerate(lines) if ' recv ' in line]
    for _ in range(rng.choice((1, 1, 2, 3, 6))):
        kind, at = rng.randrange(12), rng.randrange(len(lines) + 1)
        if kind < 7 and received:
            at = rng.choice(received)
            if at < len(lines):
                lines[at] = change_line(rng, lines[at], donors)
        elif kind == 7 and at < len(lines):
            lines[at] = change_line(rng, lines[at], donors)
        elif kind == 8:
            del lines[at:at + 1]
        elif kind == 9:
            lines[at:at] = lines[at:at + rng.choice((1, 1, 4))]
        elif kind == 10 and at < len(lines):
            lines.insert(rng.randrange(len(lines)), lines.pop(at))
        else:
            others = rng.choice(seeds)[2]
            start = rng.randrange(len(others) + 1)
            lines[at:at] = others[start:start + rng.choice((1, 2, 8))]
    return lines


def change_text(rng: Random, text: str) -> str:
    """A text with a token put in, a line left out or doubled, or an octet changed."""
    lines = text.split('\n')
    for _ in range(rng.choice((1, 1, 2, 4))):
        at, kind = rng.randrange(len(lines)), rng.randrange(5)
        if kind == 0:
            lines.insert(at, rng.choice(TOKENS))
        elif kind == 1:
            words = lines[at].split(' ')
            words[rng.randrange(len(words))] = rng.choice(TOKENS)
            lines[at] = ' '.join(words)
        elif kind == 2 and len(lines) > 1:
            del lines[at]
        elif kind == 3:
            lines[at:at] = lines[at:at + rng.choice((1, 3, 40))]
        else:
            lines[at] = odd_octets(rng, lines[at].encode('latin-1', 'replace')).decode('latin-1')
    return '\n'.join(lines)


def change_scenario(rng: Random, seeds: list[Seed], donors: list[list[Value]]) -> bytes:
    """The octets of a scenario like one of those given."""
    bay, logic, trace = rng.choice(seeds)
    lines, kind = list(trace), rng.randrange(20)
    if kind < 15 and lines:
        lines = change_lines(rng, lines, seeds, donors)
    elif kind < 17:
        logic = change_text(rng, logic)
    elif kind < 19:
        bay = change_text(rng, bay)
    octets = scenario_octets(bay, logic, lines)
    return odd_octets(rng, octets) if kind == 19 else octets


def scenario_octets(bay: str, logic: str, lines: list[str]) -> bytes:
    """The octets of a scenario."""
    trace = ''.join(line + '\n' for line in lines)
    return f'{bay}%%\n{logic}%%\n{trace}'.encode('latin-1', 'replace')
