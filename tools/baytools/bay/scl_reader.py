"""An SCL file (IEC 61850-6), read as names, types and values of MMS (IEC 61850-8-1)."""
import xml.etree.ElementTree as ET
from collections.abc import Iterator

from baytools.common.ending import Failed

CONSTRAINTS = ('ST', 'MX', 'CO', 'CF', 'DC')  # in the order in which a server lists them
# What MMS has for a basic type (IEC 61850-8-1, clause 8).
MMS_TYPES = {
    'BOOLEAN': 'boolean', 'INT8': 'integer 8', 'INT16': 'integer 16', 'INT32': 'integer 32',
    'INT8U': 'unsigned 8', 'INT16U': 'unsigned 16', 'INT32U': 'unsigned 32',
    'FLOAT32': 'floating-point 32 8',
    'Enum': 'integer 8', 'Dbpos': 'bit-string 2', 'Check': 'bit-string 2',
    'Quality': 'bit-string 13', 'Timestamp': 'utc-time', 'Octet64': 'octet-string -64',
    'VisString64': 'visible-string -64', 'VisString129': 'visible-string -129',
    'VisString255': 'visible-string -255', 'ObjRef': 'visible-string -129'}


class NoModel(Failed):
    """What is no SCL file, or has no model of a server."""


def bare(element) -> str:
    """The name of an element without its name space."""
    return element.tag.rpartition('}')[2] if isinstance(element.tag, str) else ''


def children(element, *names) -> list:
    return [child for child in element if bare(child) in names]


def child(element, *path) -> ET.Element:
    for name in path:
        found = children(element, name)
        if not found:
            raise NoModel(f'the element {bare(element)} has no {name}')
        element = found[0]
    return element


class Reader:
    """An SCL file, as the names and types of MMS that it says the logical device of an IED has: of
    the first IED, or of that with a name."""

    def __init__(self, text, ied=None) -> None:
        try:
            self.root = ET.fromstring(text)
        except ET.ParseError as error:
            raise NoModel(f'this is no XML: {error}') from None
        self.templates = child(self.root, 'DataTypeTemplates')
        found = [it for it in children(self.root, 'IED') if ied in (None, it.get('name'))]
        if not found:
            raise NoModel(f'there is no IED {ied}' if ied else 'there is no IED')
        self.ied = found[0]
        self.logical = child(self.ied, 'AccessPoint', 'Server', 'LDevice')

    def template(self, kind, name) -> ET.Element:
        found = next((it for it in children(self.templates, kind) if it.get('id') == name), None)
        if found is None:
            raise NoModel(f'there is no {kind} {name}')
        return found

    def domain(self) -> str:
        return self.logical.get('ldName') or self.ied.get('name') + self.logical.get('inst')

    def elements(self) -> dict[str, ET.Element]:
        """The logical nodes by their names."""
        return {''.join(node.get(key, '') for key in ('prefix', 'lnClass', 'inst')): node
                for node in children(self.logical, 'LN0', 'LN')}

    def nodes(self) -> dict:
        """The shape of each logical node by its name: names with types, as a server describes
        them."""
        return {name: self.node(node.get('lnType')) for name, node in self.elements().items()}

    def data_sets(self) -> list[str]:
        """The names of the data sets, as a server lists them."""
        return [f'{name}${it.get("name")}' for name, node in self.elements().items()
                for it in children(node, 'DataSet')]

    def node(self, kind) -> dict:
        shape = {}
        for found in children(self.template('LNodeType', kind), 'DO'):
            for constraint, part in self.object(found.get('type')).items():
                shape.setdefault(constraint, {})[found.get('name')] = part
        return {it: shape[it] for it in [*CONSTRAINTS, *shape] if it in shape}

    def object(self, kind) -> dict:
        """The attributes of a data object, by their functional constraints."""
        shape = {}
        for part in children(self.template('DOType', kind), 'SDO', 'DA'):
            if bare(part) == 'SDO':
                for constraint, found in self.object(part.get('type')).items():
                    shape.setdefault(constraint, {})[part.get('name')] = found
            else:
                shape.setdefault(part.get('fc'), {})[part.get('name')] = self.attribute(part)
        return shape

    def attribute(self, part) -> dict | str:
        basic = part.get('bType')
        if basic != 'Struct':
            return MMS_TYPES.get(basic, basic)
        structure = self.template('DAType', part.get('type'))
        return {found.get('name'): self.attribute(found) for found in children(structure, 'BDA')}

    # ---- values

    def values(self) -> Iterator[tuple[str, str]]:
        """The values that the file gives of rows, by their names: a number of an enumeration in
        digits, and any other value as it stands."""
        for name, node in self.elements().items():
            for at in children(node, 'DOI'):
                template = self.template('LNodeType', node.get('lnType'))
                of = self.part(template, at.get('name'))
                yield from self.values_below(at, of, name, [at.get('name')], '')

    def values_below(self, at, of, node, path, constraint) -> Iterator[tuple[str, str]]:
        """The values below a data object, or below a structure of it, `of` which type it is."""
        kind = {'DO': 'DOType', 'SDO': 'DOType'}.get(bare(of), 'DAType')
        template = self.template(kind, of.get('type'))
        for found in children(at, 'SDI', 'DAI'):
            part = self.part(template, found.get('name'))
            below, below_constraint = [*path, found.get('name')], part.get('fc') or constraint
            if bare(found) == 'SDI':
                yield from self.values_below(found, part, node, below, below_constraint)
                continue
            row = '$'.join([node, below_constraint, *below])
            for value in children(found, 'Val'):
                yield row, self.number_text(part, value.text or '')

    @staticmethod
    def part(template, name) -> ET.Element:
        found = next((it for it in template if it.get('name') == name), None)
        if found is None:
            raise NoModel(f'the type {template.get("id")} has no {name}')
        return found

    def number_text(self, part, text) -> str:
        """A value, of an enumeration by its number."""
        if part.get('bType') != 'Enum':
            return text
        words = self.template('EnumType', part.get('type'))
        found = next((it.get('ord') for it in words if (it.text or '') == text), None)
        if found is None:
            raise NoModel(f'the enumeration {part.get("type")} has no {text!r}')
        return found
