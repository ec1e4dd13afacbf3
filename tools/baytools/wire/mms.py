"""MMS (ISO 9506-2): PDUs and data, out of octets and into them."""
import struct
from dataclasses import dataclass, field

from . import ber
from .ber import Unreadable, element, number

STRUCTURE, BOOLEAN, BITS, INTEGER = 0xA2, 0x83, 0x84, 0x85
UNSIGNED, FLOAT, OCTETS, TEXT, TIME = 0x86, 0x87, 0x89, 0x8A, 0x91
KINDS = {STRUCTURE: 'structure', BOOLEAN: 'boolean', BITS: 'bit-string', INTEGER: 'integer',
         UNSIGNED: 'unsigned', FLOAT: 'floating-point', OCTETS: 'octet-string',
         TEXT: 'visible-string', TIME: 'utc-time'}
FLOAT_TYPE = 0xA7  # a structure, where the other types are numbers
SINGLE = b'\x08'  # the bits of the exponent of a float of 32 bits, before its four octets
SERVICES = {0xA0: 'status', 0xA1: 'names', 0x82: 'identify', 0xA3: 'rename', 0xA4: 'read',
            0xA5: 'write', 0xA6: 'attributes'}
DEEPEST = 10


@dataclass
class Data:
    """A value. A structure holds Data, bits are a text of 0 and 1, a time is in milliseconds since
    1970, or its octets where these aren't 8; a float of 32 bits is a float, another its octets."""
    tag: int
    value: object


@dataclass
class Failure:
    """The error in the place of a variable's value."""
    code: int


@dataclass
class Pdu:
    """A PDU: request, response, error, reject, report, initiate, initiated, conclude, concluded or
    other; which fields are set goes by it."""
    kind: str
    invoke: int | None = None
    service: str = ''
    names: list = field(default_factory=list)
    data: list = field(default_factory=list)
    more: bool = False
    after: str | None = None
    code: tuple = ()
    shape: object = None


def text(octets) -> str:
    return octets.decode('ascii', 'backslashreplace')


def several(octets, count) -> list:
    """The elements that fill some octets, which are so many."""
    found = ber.elements(octets)
    if len(found) != count:
        raise Unreadable(f'{len(found)} elements instead of {count}')
    return found


def name_of(octets) -> str:
    """The name of a variable: domain/item, item alone for one of the VMD, @/item for one of the
    association."""
    tag, content, _ = ber.read(octets)
    if tag == 0xA1:
        (_, domain), (_, item) = several(content, 2)
        return f'{text(domain)}/{text(item)}'
    return text(content) if tag == 0x80 else f'@/{text(content)}'


def names_of(content) -> list:
    """The names of a list of variables."""
    return [name_of(ber.need(variable, 0xA0)) for _, variable in ber.elements(content)]


def data_of(tag, content, depth=1) -> 'Data':
    """A value, of an element."""
    if depth > DEEPEST:
        raise Unreadable('data more than 10 deep')
    if tag == STRUCTURE:
        return Data(tag, [data_of(t, c, depth + 1) for t, c in ber.elements(content)])
    if tag in (INTEGER, UNSIGNED):
        return Data(tag, ber.integer(content))
    if tag == BOOLEAN:
        return Data(tag, any(content))
    if tag == BITS:
        bits = ''.join(f'{octet:08b}' for octet in content[1:])
        return Data(tag, bits[:len(bits) - ber.octet(content, 0)])
    if tag == TIME and len(content) == 8:
        return Data(tag, moment_of(content))
    if tag == FLOAT and content[:1] == SINGLE and len(content) == 5:
        return Data(tag, struct.unpack('>f', content[1:])[0])
    return Data(tag, text(content) if tag == TEXT else content)


def moment_of(octets) -> int:
    """The milliseconds of a utc-time: seconds, and a fraction of 24 bits that was rounded down."""
    return int.from_bytes(octets[:4]) * 1000 + -(-int.from_bytes(octets[4:7]) * 1000 >> 24)


def octets_of(data) -> bytes:
    """The octets of a value."""
    tag, value = data.tag, data.value
    if tag == STRUCTURE:
        return element(tag, *map(octets_of, value))
    if tag in (INTEGER, UNSIGNED):
        return number(tag, value)
    if tag == BOOLEAN:
        return element(tag, b'\xff' if value else b'\x00')
    if tag == BITS:
        unused = -len(value) % 8
        return element(tag, bytes([unused]),
                       int(value + '0' * unused or '0', 2).to_bytes((len(value) + unused) // 8))
    if tag == TIME and not isinstance(value, bytes):
        seconds, rest = divmod(value, 1000)
        return element(tag, seconds.to_bytes(4), ((rest << 24) // 1000).to_bytes(3), b'\x2a')
    if tag == FLOAT and not isinstance(value, bytes):
        return element(tag, SINGLE, struct.pack('>f', value))
    return element(tag, value.encode() if tag == TEXT else value)


def read_pdu(octets) -> 'Pdu':
    """What a PDU says; a request that can't be read is of the kind `other`, with what is wrong as
    its service."""
    tag, content, end = ber.read(octets)
    if end != len(octets):
        raise Unreadable('octets behind a PDU')
    readers = {0xA0: request_of, 0xA1: response_of, 0xA2: error_of, 0xA3: report_of,
               0xA4: reject_of,
               0xA8: lambda c: initiate_of('initiate', c),
               0xA9: lambda c: initiate_of('initiated', c),
               0x8B: lambda c: Pdu('conclude'), 0x8C: lambda c: Pdu('concluded')}
    if tag not in readers:
        raise Unreadable(f'a PDU {tag:02X}')
    return readers[tag](content)


def initiate_of(kind, content) -> 'Pdu':
    size = ber.field(content, 0x80)
    return Pdu(kind, code=(ber.integer(size) if size else None,))


def request_of(content) -> 'Pdu':
    (tag, invoke), (asked, content) = several(content, 2)
    if tag != 0x02:
        raise Unreadable('a request without an invoke id')
    tag = asked
    service = SERVICES.get(tag, f'service {tag & 0x1f}')
    pdu = Pdu('request', ber.integer(invoke), service)
    fill = {'names': fill_names, 'read': fill_read, 'write': fill_write,
            'attributes': fill_attributes}.get(service)
    try:
        if fill:
            fill(pdu, content)
    except Unreadable as error:
        return Pdu('other', pdu.invoke, f'{service}, which can\'t be read: {error}')
    return pdu


def fill_names(pdu, content) -> None:
    (scope, domain), = several(ber.need(content, 0xA1), 1)
    pdu.code = (ber.integer(ber.need(ber.need(content, 0xA0), 0x80)),)
    pdu.names = [text(domain)] if scope == 0x81 else []
    after = ber.field(content, 0x82)
    pdu.after = None if after is None else text(after)


def fill_read(pdu, content) -> None:
    pdu.names = names_of(ber.need(ber.need(content, 0xA1), 0xA0))


def fill_write(pdu, content) -> None:
    (_, variables), (_, values) = several(content, 2)
    pdu.names, pdu.data = names_of(variables), [data_of(*value) for value in ber.elements(values)]


def fill_attributes(pdu, content) -> None:
    pdu.names = [name_of(ber.need(content, 0xA0))]


def result_of(tag, content) -> Data | Failure:
    """A variable's value or its error, in a response to a read."""
    return Failure(ber.integer(content)) if tag == 0x80 else data_of(tag, content)


def response_of(content) -> 'Pdu':
    (_, invoke), (tag, content) = several(content, 2)
    pdu = Pdu('response', ber.integer(invoke),
              SERVICES.get(tag if tag != 0xA2 else 0x82, f'service {tag & 0x1f}'))
    if pdu.service == 'read':
        pdu.data = [result_of(*result) for result in ber.elements(ber.need(content, 0xA1))]
    elif pdu.service == 'write':
        pdu.data = [None if t == 0x81 else Failure(ber.integer(c))
                    for t, c in ber.elements(content)]
    elif pdu.service == 'names':
        pdu.names = [text(name) for _, name in ber.elements(ber.need(content, 0xA0))]
        pdu.more = any(ber.field(content, 0x81, b'\xff'))
    elif pdu.service == 'attributes':
        pdu.shape = type_of(*several(ber.need(content, 0xA2), 1)[0])
    elif pdu.service == 'identify':
        pdu.names = [text(part) for _, part in ber.elements(content)]
    return pdu


def type_of(tag, content, depth=1) -> str | list:
    """A type: the name of its kind with its size, of a float with that of its exponent, too, or a
    list of names and types."""
    if depth > DEEPEST:
        raise Unreadable('a type more than 10 deep')
    if tag == STRUCTURE:
        parts = (part for _, part in ber.elements(ber.need(content, 0xA1)))
        return [(text(ber.need(part, 0x80)),
                 type_of(*several(ber.need(part, 0xA1), 1)[0], depth + 1)) for part in parts]
    if tag == FLOAT_TYPE:
        sizes = (ber.integer(it) for _, it in several(content, 2))
        return ' '.join([KINDS[FLOAT], *map(str, sizes)])
    size = ber.integer(content) if content else None
    return KINDS.get(tag, f'{tag:02X}') + (f' {size}' if size is not None else '')


def error_of(content) -> 'Pdu':
    invoke, error = ber.need(content, 0x80), ber.need(ber.need(content, 0xA2), 0xA0)
    (tag, code), = several(error, 1)
    return Pdu('error', ber.integer(invoke), code=(tag & 0x1f, ber.integer(code)))


def reject_of(content) -> 'Pdu':
    invoke = ber.field(content, 0x80)
    tag, code = ber.elements(content)[-1] if content else (0, b'\0')
    return Pdu('reject', None if invoke is None else ber.integer(invoke),
               code=(tag & 0x1f, ber.integer(code)))


def report_of(content) -> 'Pdu':
    (_, variables), (_, values) = several(ber.need(content, 0xA0), 2)
    return Pdu('report', names=names_of(variables),
               data=[result_of(*value) for value in ber.elements(values)])


def initiate_request(size=65000) -> bytes:
    services = bytes.fromhex('03 EE1C00000408000079EF18')
    offered = element(0xA4, number(0x80, 1), element(0x81, bytes.fromhex('05F100')),
                      element(0x82, services))
    return element(0xA8, number(0x80, size), number(0x81, 5), number(0x82, 5), number(0x83, 10),
                   offered)


def name_octets(name) -> bytes:
    """The octets of a name domain/item."""
    domain, _, item = name.partition('/')
    return element(0xA0,
                   element(0xA1, element(0x1A, domain.encode()), element(0x1A, item.encode())))


def request_octets(invoke, *service) -> bytes:
    return element(0xA0, number(0x02, invoke), element(service[0], *service[1:]))


def variables(names) -> bytes:
    return element(0xA0, *(element(0x30, name_octets(name)) for name in names))


VARIABLES, LISTS, DOMAINS = 0, 2, 9  # classes of a getNameList


def names_request(invoke, domain=None, after=None, of_class=VARIABLES) -> bytes:
    """The names of a class in a domain, or the domains, behind a name if there is one."""
    scope = element(0x81, domain.encode()) if domain else element(0x80)
    behind = [element(0x82, after.encode())] if after else []
    return request_octets(invoke, 0xA1,
                          element(0xA0, number(0x80, of_class if domain else DOMAINS)),
                          element(0xA1, scope), *behind)


def read_request(invoke, names) -> bytes:
    return request_octets(invoke, 0xA4, element(0xA1, variables(names)))


def write_request(invoke, names, values) -> bytes:
    return request_octets(invoke, 0xA5, variables(names), element(0xA0, *map(octets_of, values)))


def attributes_request(invoke, name) -> bytes:
    return request_octets(invoke, 0xA6, name_octets(name))


def control(on, category=2, ident=b'', count=0, moment=0, test=False, check='00') -> 'Data':
    """The value of an Oper or an SBOw, and without a check that of a Cancel."""
    origin = Data(STRUCTURE, [Data(INTEGER, category), Data(OCTETS, ident)])
    parts = [Data(BOOLEAN, on), origin, Data(UNSIGNED, count), Data(TIME, moment),
             Data(BOOLEAN, test)]
    return Data(STRUCTURE, parts + ([Data(BITS, check)] if check is not None else []))
