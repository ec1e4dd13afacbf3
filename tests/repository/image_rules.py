"""The rules of docs/IMAGE.md, read once more: what becomes of the octets of an image for a bay.

Written from the page alone, so that the counts which a test of bayctl has for changed images come
from the rules, and not from the code that is tested.
"""
Kinds = tuple[str, ...]

TYPES = {1: 'BOOL', 2: 'INT', 3: 'DINT', 4: 'TIME', 5: 'LINT'}
WIDTHS = {2: 'INT', 3: 'DINT', 5: 'LINT'}
OPERANDS = {0x02: 1, 0x03: 2, 0x04: 4, 0x05: 4, 0x07: 2, 0x08: 2, 0x09: 2, 0x0A: 2, 0x0F: 1,
            0x10: 1, 0x11: 1, 0x12: 1, 0x13: 1, 0x1B: 2, 0x1C: 2, 0x1D: 2, 0x1E: 2, 0x1F: 2,
            0x20: 2, 0x21: 2, 0x22: 2, 0x23: 8}
POPPED = {0x06: 1, 0x08: 1, 0x09: 1, 0x0A: 1, 0x0B: 1, 0x1A: 1, 0x1C: 1, 0x1D: 1, 0x1E: 1,
          0x1F: 1, 0x24: 1} | {code: 2 for code in range(0x0C, 0x1A)}
PUSHED = {0x02: 'BOOL', 0x03: 'INT', 0x04: 'DINT', 0x05: 'TIME', 0x23: 'LINT'}
NAME_OCTETS = frozenset(b'ABCDEFGHIJKLMNOPQRSTUVWXYZ0123456789_')


class Refused(Exception):
    """An image that is refused, with the number of its fault."""

    def __init__(self, number: int):
        super().__init__(number)
        self.number = number


class Octets:
    """The octets that are not yet read."""

    def __init__(self, octets: bytes):
        self.octets = octets
        self.at = 0

    def take(self, count: int) -> bytes:
        """Returns the next octets, or refuses with 83 if there are too few."""
        taken = self.octets[self.at:self.at + count]
        self.at += count
        if len(taken) < count:
            raise Refused(83)
        return taken

    def number(self, count: int = 2, signed: bool = False) -> int:
        """Returns the number that the next octets encode."""
        return int.from_bytes(self.take(count), 'big', signed=signed)


def among(value: int, known: dict[int, str]) -> str:
    """Returns what an octet encodes, or refuses with 82."""
    if value not in known:
        raise Refused(82)
    return known[value]


def types_of(version: int) -> dict[int, str]:
    """Returns the types of a version by their octets."""
    return {octet: kind for octet, kind in TYPES.items() if octet < 5 or version == 2}


def check_value(kind: str, value: int) -> None:
    """Refuses a value that its type has not."""
    bounds = {'BOOL': (0, 1), 'INT': (-2**15, 2**15 - 1), 'DINT': (-2**31, 2**31 - 1),
              'TIME': (0, 2**31 - 1), 'LINT': (-2**63, 2**63 - 1)}
    low, high = bounds[kind]
    if not low <= value <= high:
        raise Refused(82)


def read_point(octets: Octets, version: int) -> tuple[str, str, bool]:
    """Returns a point's name, its type, and whether it is writable."""
    kind = among(octets.number(1), types_of(version))
    writable = among(octets.number(1), {0: '', 1: 'writable'}) != ''
    length = octets.number(1)
    if not 1 <= length <= 64:
        raise Refused(82)
    name = octets.octets[octets.at:octets.at + length]
    if any(octet not in NAME_OCTETS for octet in name):
        raise Refused(82)
    return octets.take(length).decode(), kind, writable


def check_operand(code: int, operand: bytes, version: int) -> None:
    """Refuses an operand that its instruction has not."""
    if code in PUSHED:
        signed = code not in (0x02,)
        check_value(PUSHED[code], int.from_bytes(operand, 'big', signed=signed))
    if 0x0F <= code <= 0x13:
        among(operand[0], {width: kind for width, kind in WIDTHS.items() if width < 5
                           or version == 2})


def read_code(octets: bytes, version: int) -> dict[int, tuple[int, bytes]]:
    """Returns the instructions by their places: each code with its operand."""
    known = set(range(0x01, 0x25)) - (set() if version == 2 else {0x23, 0x24})
    rest, instructions = Octets(octets), {}
    while rest.at < len(octets):
        at, code = rest.at, rest.number(1)
        if code not in known:
            raise Refused(82)
        instructions[at] = code, rest.take(OPERANDS.get(code, 0))
        check_operand(*instructions[at], version)
    return instructions


class Image:
    """What octets encode: points, types of variables, the number of timers, code."""

    def __init__(self, octets: bytes):
        rest = Octets(octets)
        if any(octet != wanted for octet, wanted in zip(octets, b'ILBC')):
            raise Refused(80)
        rest.take(4)
        version = rest.number(1)
        if version not in (1, 2):
            raise Refused(81)
        self.points = [read_point(rest, version) for _ in range(rest.number())]
        self.variables = []
        for _ in range(rest.number()):
            self.variables.append(among(rest.number(1), types_of(version)))
            check_value(self.variables[-1], rest.number(4 * version, signed=True))
        self.timers = rest.number()
        if version == 2:
            for _ in range(self.timers):
                among(rest.number(1), {1: 'TON', 2: 'TOF'})
        length = rest.number()
        code = octets[rest.at:]
        self.code = read_code(code[:length], version)
        self.end = length
        if len(code) != length:
            raise Refused(83)


def plain(kind: str) -> str:
    """Returns a kind without 'other than zero'."""
    return kind.removesuffix(' nz')


def join_kinds(first: str, second: str) -> str:
    """Returns the least kind that includes two."""
    if first == second:
        return first
    return plain(first) if plain(first) == plain(second) else 'any'


def kinds_after(image: Image, code: int, operand: bytes, kinds: Kinds) -> Kinds:
    """Returns the kinds after an instruction, or refuses with 92 or 93; the last is the top."""
    slots = [kind for _, kind, _ in image.points] + image.variables
    number = int.from_bytes(operand, 'big', signed=code in PUSHED)
    top = plain(kinds[-1]) if kinds else ''

    def require(holds: bool) -> None:
        if not holds:
            raise Refused(92)

    if code in PUSHED:
        is_number = PUSHED[code] in ('INT', 'DINT', 'LINT')
        return *kinds, PUSHED[code] + (' nz' if is_number and number else '')
    if code == 0x06:
        return kinds[:-1]
    if code == 0x07:
        return *kinds, slots[number]
    if code in (0x08, 0x09, 0x0A):
        require(top == slots[number] and (code == 0x08 or top == 'BOOL'))
    elif code in (0x0B, 0x1C, 0x1D):
        require(top == 'BOOL')
    elif code in (0x0C, 0x0D, 0x0E):
        require(top == plain(kinds[-2]) == 'BOOL')
        return kinds[:-1]
    elif 0x0F <= code <= 0x13:
        width = WIDTHS[number]
        require(top == plain(kinds[-2]) == width)
        if code in (0x12, 0x13) and kinds[-1] != width + ' nz':
            raise Refused(93)
        return *kinds[:-2], width
    elif 0x14 <= code <= 0x19:
        require(top == plain(kinds[-2]) != 'any' and (top != 'BOOL' or code in (0x16, 0x17)))
        return *kinds[:-2], 'BOOL'
    elif code in (0x1A, 0x24):
        low, high = ('INT', 'DINT') if code == 0x1A else ('DINT', 'LINT')
        require(top == low)
        return *kinds[:-1], kinds[-1].replace(low, high)
    elif code in (0x1E, 0x1F):
        require(top == ('BOOL' if code == 0x1E else 'TIME'))
        return kinds[:-1]
    elif code in (0x21, 0x22):
        return *kinds, 'BOOL' if code == 0x21 else 'TIME'
    return kinds


def check_missing(image: Image, code: int, operand: bytes) -> None:
    """Refuses a slot or a timer that the image has not."""
    number = int.from_bytes(operand, 'big')
    if 0x07 <= code <= 0x0A and number >= len(image.points) + len(image.variables):
        raise Refused(94)
    if 0x1E <= code <= 0x22 and number >= image.timers:
        raise Refused(95)


def check_instruction(image: Image, at: int, pending: dict[int, Kinds]) -> None:
    """Refuses the first fault of an instruction, or notes the kinds at its successors."""
    code, operand = image.code[at]
    number = int.from_bytes(operand, 'big')
    if at not in pending:
        raise Refused(97)
    kinds = pending[at]
    check_missing(image, code, operand)
    if len(kinds) < POPPED.get(code, 0):
        raise Refused(90)
    after = kinds_after(image, code, operand, kinds)
    writes = code in (0x08, 0x09, 0x0A) and number < len(image.points)
    if writes and not image.points[number][2]:
        raise Refused(100)
    if len(after) > 32:
        raise Refused(91)
    behind = at + 1 + len(operand)
    successors = [behind + number] if code in (0x1B, 0x1C, 0x1D) else []
    if any(place not in image.code for place in successors):
        raise Refused(96)
    if code not in (0x01, 0x1B):
        successors.append(behind)
        if behind not in image.code:
            raise Refused(99)
    if any(len(pending.get(place, after)) != len(after) for place in successors):
        raise Refused(98)
    for place in successors:
        found = pending.get(place, after)
        pending[place] = tuple(map(join_kinds, found, after))


def fault_number(octets: bytes, bay: dict[str, tuple[str, bool]]) -> int:
    """Returns the number of the fault with which an image is refused for a bay, whose points have
    these types and are writable or not; 0 if it is loaded."""
    try:
        image = Image(octets)
        names = [name for name, _, _ in image.points]
        if any(bay.get(name) != (kind, writable) for name, kind, writable in image.points):
            raise Refused(100)
        if len(set(names)) < len(names) or len(names) + len(image.variables) > 512:
            raise Refused(100)
        if image.timers > 64:
            raise Refused(100)
        if not image.code:
            raise Refused(99)
        pending: dict[int, Kinds] = {0: ()}
        for at in sorted(image.code):
            check_instruction(image, at, pending)
    except Refused as refused:
        return refused.number
    return 0
