"""Whether a server has the model of an SCL file: its logical device, its data sets, each row with
its type, and the values that the file gives. All is read from the server, but for the controls,
whose names and types alone are: a read of a control may select."""
from collections.abc import Iterator

from baytools.bay.scl_reader import Reader

from . import mms
from .client import Client, Refused
from .mms import Data, Failure
from .words import float_text, single, value_text

TAGS = {word: tag for tag, word in mms.KINDS.items() if tag != mms.STRUCTURE}
CONTROL = 'CO'


def rows_of(shape: dict, above: str = '') -> Iterator[str]:
    """The names below a shape, in their order."""
    for name, part in shape.items():
        yield above + name
        if isinstance(part, dict):
            yield from rows_of(part, f'{above}{name}$')


def differences(client: Client, reader: Reader) -> Iterator[str]:
    """How a server differs from an SCL file, a line for each difference."""
    domains, wanted = client.domains(), reader.domain()
    yield from lacking('logical device', domains, [wanted])
    if wanted not in domains:
        return
    client.bay.domain = wanted
    yield from lacking('data set', client.names(mms.LISTS), reader.data_sets())
    nodes = reader.nodes()
    found, told = client.names(), list(rows_of(nodes))
    yield from lacking('row', found, told)
    if set(found) == set(told) and found != told:
        first = next(at for at, pair in enumerate(zip(found, told)) if pair[0] != pair[1])
        yield f'the server lists {found[first]} where the file has {told[first]}'
    there = {name: shape for name, shape in nodes.items() if name in found}
    for name, shape in there.items():
        yield from of_types(client, name, shape)
    yield from of_values(client, there, dict(reader.values()))


def lacking(what: str, found: list[str], told: list[str]) -> Iterator[str]:
    """Names that only one of the two has. Below a row that is missing none is named."""
    for whose, other, names, others in (('the server', 'the file', found, told),
                                        ('the file', 'the server', told, found)):
        missing = set(names) - set(others)
        for name in names:
            if name in missing and name.rpartition('$')[0] not in missing:
                yield f'{whose} has the {what} {name}, and {other} has it not'


def of_types(client: Client, node: str, shape: dict) -> Iterator[str]:
    """Types of a node that differ."""
    try:
        yield from differing_types(node, client.shape(node), shape)
    except Refused as error:
        yield f'the types of {node}: {error}'


def differing_types(name: str, found, told) -> Iterator[str]:
    """A type of the server and that of the file."""
    if not isinstance(found, list) or not isinstance(told, dict):
        words = [it if isinstance(it, str) else 'a structure' for it in (found, told)]
        if words[0] != words[1]:
            yield f'{name} is of type {words[0]} at the server, and {words[1]} in the file'
        return
    parts = dict(found)
    if list(parts) != list(told):
        yield (f'{name} has the parts {", ".join(parts)} at the server, and {", ".join(told)} in '
               'the file')
    for part in (part for part in told if part in parts):
        yield from differing_types(f'{name}${part}', parts[part], told[part])


def of_values(client: Client, nodes: dict, given: dict[str, str]) -> Iterator[str]:
    """Values that don't have the type that the file says, or another value than it gives."""
    groups = {f'{node}${group}': shape[group] for node, shape in nodes.items() for group in shape
              if group != CONTROL}
    for name, value in client.read(list(groups)):
        if isinstance(value, Failure):
            yield f'a read of {name}: {value_text("", value)}'
        else:
            yield from differing_values(name, value, groups[name], given)


def differing_values(name: str, value: Data, told, given: dict[str, str]) -> Iterator[str]:
    if isinstance(told, dict):
        if value.tag != mms.STRUCTURE or len(value.value) != len(told):
            yield f'a read of {name} has not the parts {", ".join(told)}'
            return
        for part, found in zip(told, value.value):
            yield from differing_values(f'{name}${part}', found, told[part], given)
        return
    if not has_type(value, told):
        yield f'a read of {name} has not the type {told}'
    elif name in given and not is_given(value, given[name]):
        yield f'{name} is {plain_text(value)} at the server, and {given[name]} in the file'


def has_type(value: Data, told: str) -> bool:
    """Whether a value may have a type: its kind, and of bits and floats its size, too."""
    kind, _, size = told.partition(' ')
    if value.tag == mms.BITS == TAGS.get(kind):
        return len(value.value) == int(size)
    if value.tag == mms.FLOAT == TAGS.get(kind):
        return isinstance(value.value, float)
    return value.tag == TAGS.get(kind)


def is_given(value: Data, text: str) -> bool:
    """Whether a value is the one that an SCL file gives: of a float, the nearest to its number."""
    if value.tag != mms.FLOAT:
        return plain_text(value) == text
    try:
        return value.value == single(float(text))
    except ValueError:
        return False


def plain_text(value: Data) -> str:
    """A value as an SCL file writes it, of an enumeration its number."""
    if value.tag == mms.BOOLEAN:
        return 'true' if value.value else 'false'
    return float_text(value.value) if value.tag == mms.FLOAT else str(value.value)
