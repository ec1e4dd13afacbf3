"""A server that has a model: it answers who it is, its names, types and values, as a test says."""
from baytools.wire import mms
from baytools.wire.ber import element, number
from baytools.wire.mms import (BITS, BOOLEAN, FLOAT, FLOAT_TYPE, INTEGER, OCTETS, STRUCTURE, TEXT,
                               TIME, UNSIGNED, Data)

TAGS = {word: tag for tag, word in mms.KINDS.items()}
ABSENT = 10


def blank(kind) -> Data:
    """A value of a type."""
    word, *sizes = kind.split(' ')
    return {BOOLEAN: Data(BOOLEAN, False), INTEGER: Data(INTEGER, 0), UNSIGNED: Data(UNSIGNED, 0),
            BITS: Data(BITS, '0' * int((sizes or [1])[0])), FLOAT: Data(FLOAT, 0.0),
            TIME: Data(TIME, 0), OCTETS: Data(OCTETS, b''), TEXT: Data(TEXT, '')}[TAGS[word]]


class Model:
    """Nodes by their names: dicts of dicts down to types. `values` has those of rows that are not
    blank. It answers requests as `answer` of the tests' server does."""

    def __init__(self, domain, nodes, values=()) -> None:
        self.domains, self.lists, self.nodes = [domain], [], nodes
        self.values, self.types, self.asked = dict(values), {}, []

    def rows(self, shape=None, above='') -> list[str]:
        found = []
        for name, part in (self.nodes if shape is None else shape).items():
            found.append(above + name)
            found += self.rows(part, f'{above}{name}$') if isinstance(part, dict) else []
        return found

    def below(self, item):
        shape = self.nodes
        for word in item.split('$'):
            if not isinstance(shape, dict) or word not in shape:
                return None
            shape = shape[word]
        return shape

    def value(self, item, shape=None):
        shape = self.below(item) if shape is None else shape
        if isinstance(shape, dict):
            return Data(STRUCTURE, [self.value(f'{item}${name}', part)
                                    for name, part in shape.items()])
        return self.values.get(item) or blank(shape)

    def type_octets(self, item, shape) -> bytes:
        if isinstance(shape, dict):
            parts = (element(0x30, element(0x80, name.encode()), element(
                0xA1, self.type_octets(f'{item}${name}', part))) for name, part in shape.items())
            return element(0xA2, element(0xA1, *parts))
        word, *sizes = self.types.get(item, shape).split(' ')
        if word == 'floating-point':
            return element(FLOAT_TYPE, *(number(0x02, int(size)) for size in sizes))
        return number(TAGS[word], int(sizes[0])) if sizes else element(TAGS[word])

    def __call__(self, pdu):
        self.asked.append(pdu)
        item = pdu.names[0].partition('/')[2] if pdu.names else ''
        if pdu.service == 'names':
            yield response(pdu, 0xA1, names_octets(self.named(pdu)), number(0x81, 0))
        elif pdu.service == 'attributes' and self.below(item) is not None:
            yield response(pdu, 0xA6, number(0x80, 0), element(
                0xA2, self.type_octets(item, self.below(item))))
        elif pdu.service == 'attributes':
            yield element(0xA2, number(0x80, pdu.invoke), element(
                0xA2, element(0xA0, number(0x87, 2))))
        elif pdu.service == 'read':
            items = [name.partition('/')[2] for name in pdu.names]
            yield response(pdu, 0xA4, element(0xA1, *(
                number(0x80, ABSENT) if self.below(it) is None else mms.octets_of(self.value(it))
                for it in items)))

    def named(self, pdu) -> list[str]:
        return {9: self.domains, 2: self.lists}.get(pdu.code[0], self.rows())


def names_octets(names) -> bytes:
    return element(0xA0, *(element(0x1A, name.encode()) for name in names))


def response(pdu, *service) -> bytes:
    return element(0xA1, number(0x02, pdu.invoke), element(service[0], *service[1:]))
