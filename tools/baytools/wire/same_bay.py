"""Whether a server has the bay of a bay file. On the wire a switch is known by its place in the
file, so a client with another bay file operates another switch: what a server says of itself is
held against the file."""
from collections.abc import Iterator

from baytools.bay.names import INPUTS, Names
from baytools.bay.scl import MODELS

from . import mms, words
from .client import Client
from .mms import Data, Failure, Pdu
from .words import class_of

ABSENT = 10  # object non-existent
EQUIPMENT, COUNTED = ('XCBR', 'XSWI'), ('XCBR', 'XSWI', 'CSWI', 'CILO', 'MMXU', 'GGIO')
PARTS = ('stVal', 'q', 't')  # of a position, which its XCBR or XSWI and its CSWI share
KINDS = {2: 'disconnector', 3: 'earthing'}  # SwTyp
WORDS = {'control': {number: word for word, number in MODELS.items()}, 'kind': KINDS}
PLATE = {'vendor': 'vendor', 'model': 'd', 'revision': 'swRev'}  # keys of [bay] in LLN0's NamPlt


def leaves(item: str, value: Data) -> Iterator[tuple[str, Data]]:
    """The rows of a value that was read, each with its name."""
    node, *path = item.split('$')
    shapes = (words.below(shape, path) for shape in words.nodes_of(node))
    return spread(item, value, next((it for it in shapes if it and words.fits(it, value)), None))


def spread(item: str, value: Data, shape) -> Iterator[tuple[str, Data]]:
    if not isinstance(shape, dict):
        yield item, value
        return
    for name, part in zip(shape, value.value):
        yield from spread(f'{item}${name}', part, shape[name])


class Comparison:
    """A bay file, and the answers of a server so far: of reads, of an identify, of lists of names.
    `rows` is what the file gives of rows, by their names: a key of the file and its value."""

    def __init__(self, bay: Names, file: dict) -> None:
        self.bay, self.domains = bay, []
        self.own = [node for node in bay.ids if class_of(node) in EQUIPMENT]
        self.meters = [node for node in bay.ids if class_of(node) == 'MMXU']
        self.nodes = {'LLN0', 'LPHD1', *bay.ids, *([INPUTS] if bay.inputs else [])}
        self.rows, self.asked = rows_of(file, self.own), self.items()
        self.other, self.absent, self.apart, self.further, self.odd = {}, {}, {}, set(), set()
        self.profile: int | None = None  # that of the server, once it is known
        self.inputs: list[str] = []  # those that the file has not

    def items(self) -> list[str]:
        """What is to be read for a whole comparison. The two positions of each switch stand side by
        side, so that one request asks for both; the last are those of which there should be
        none."""
        pairs = [it for place, own in enumerate(self.own, 1)
                 for it in (f'CSWI{place}$ST$Pos', f'{own}$ST')]
        settings = [f'CSWI{place}$CF$Pos' for place in range(1, len(self.own) + 1)]
        counts = {kind: sum(class_of(own) == kind for own in self.own) for kind in EQUIPMENT}
        beyond = [f'{kind}{count + 1}$ST' for kind, count in counts.items()]
        found = [*pairs, 'LLN0$DC', 'LPHD1$DC', *settings,
                 *(f'{it}$MX' for it in self.meters[-1:]),
                 *beyond, f'CSWI{len(self.own) + 1}$ST', f'MMXU{len(self.meters) + 1}$MX']
        if self.bay.profile == 2:
            controls = [f'CSWI{place}' for place in range(1, len(self.own) + 1)]
            found += [f'{node}$DC' for node in [*controls, *self.meters, INPUTS]]
        return found

    def add_answer(self, request: Pdu, answer: Pdu) -> None:
        """One answer of the server, with what was asked."""
        if answer.service == 'names':
            self.add_names(request, answer.names)
        elif answer.service == 'identify':
            for key, name in zip(PLATE, answer.names):
                self.compare(f'LLN0$DC$NamPlt${PLATE[key]}', Data(mms.TEXT, name))
        elif answer.service == 'read' and len(request.names) == len(answer.data):
            positions = {}
            for name, value in zip(request.names, answer.data):
                positions |= dict(self.add_value(name, value))
            self.add_positions(positions)

    def add_names(self, request, names) -> None:
        if not request.names:
            self.domains += names if request.code == (9,) else []
        elif request.names == [self.bay.domain]:
            for name in names:
                self.add_node(name.split('$')[0])

    def add_value(self, name, value) -> Iterator[tuple[str, Data]]:
        """A value that was read; what it holds of positions."""
        item = self.bay.item(name)
        node = item.split('$')[0]
        if isinstance(value, Failure):
            is_expected = item == node or item in self.rows or item in self.asked
            if value.code == ABSENT and node in self.nodes and is_expected:
                self.absent.setdefault(node, item)
        elif '/' in item:
            self.domains.append(item.partition('/')[0])
        else:
            self.add_node(node)
            found = dict(leaves(item, value))
            if 'LLN0$DC$NamPlt$d' in found:
                self.profile = 2 if 'LLN0$DC$NamPlt$ldNs' in found else 1
            for row, leaf in found.items():
                self.compare(row, leaf)
                if '$ST$Pos$' in row:
                    yield row, leaf
                if row in self.asked:
                    self.odd.add(row)

    def add_node(self, node) -> None:
        if class_of(node) in COUNTED and node not in self.nodes:
            self.further.add(node)

    def compare(self, row, value) -> None:
        """A row of the server and that of the file."""
        key, wanted = self.rows.get(row, ('', None))
        told = WORDS.get(key, {}).get(value.value) if value.tag == mms.INTEGER else None
        told = told or words.value_text('', value)
        if key and told != wanted:
            self.other[row] = told
        elif not key and self.bay.profile == 2 and row.startswith(f'{INPUTS}$DC$Ind'):
            self.inputs.append(told)

    def add_positions(self, found) -> None:
        """The positions of one answer: both of a switch are the same at any time."""
        for place, own in enumerate(self.own, 1):
            pairs = [(found.get(f'CSWI{place}$ST$Pos${part}'), found.get(f'{own}$ST$Pos${part}'))
                     for part in PARTS]
            if any(None not in pair and pair[0] != pair[1] for pair in pairs):
                self.apart[f'CSWI{place}'] = own

    def lines(self) -> list[str]:
        """How the server differs from the file, a line for each difference."""
        domain, own = self.bay.domain, set(self.domains) - {self.bay.domain}
        if own and domain not in self.domains:
            return [f'the server has domain {", ".join(sorted(own))}, the bay file has {domain}']
        found, is_other = [], self.profile not in (None, self.bay.profile)
        if is_other:
            found = [f'the server has profile {self.profile}, the bay file has {self.bay.profile}']
        found += [self.difference_text(row, *self.rows[row], other)
                  for row, other in self.other.items()]
        found += [f'the server has no {node}, the bay file\'s {self.bay.ids[node]}'
                  if node in self.bay.ids else f'the server has no {item}'
                  for node, item in self.absent.items()
                  if not (is_other and item.endswith('$DC'))]
        found += [f'the server has {node}, which the bay file has not'
                  for node in sorted(self.further) if not (is_other and node == INPUTS)]
        found += [f'the server has input {name}, which the bay file has not'
                  for name in self.inputs]
        found += [f'the server\'s {item} has other parts' for item in sorted(self.odd)]
        found += [f'the server\'s {node} and {own} are not one switch, the bay file\'s '
                  f'{self.bay.ids[node]} is both' for node, own in self.apart.items()]
        return list(dict.fromkeys(found))

    def difference_text(self, row, key, wanted, other) -> str:
        node, *path = row.split('$')
        if node == INPUTS and path[1].startswith('Ind'):
            return f'the server\'s {path[1]} is input {other}, the bay file\'s is {wanted}'
        if node not in self.bay.ids:
            return f'the server has {key} {other}, the bay file has {wanted}'
        owner = self.bay.ids[node]
        return f'the server\'s {node} has {key} {other}, the bay file\'s {owner} has {wanted}'


def rows_of(file: dict, own: list[str]) -> dict[str, tuple[str, str]]:
    """What a bay file gives of rows, by their names: a key and its value, in words. `own` are the
    nodes of its switches beside their controls."""
    bay = file['bay']
    rows = {f'LLN0$DC$NamPlt${part}': (key, words.in_quotes(str(bay.get(key))))
            for key, part in PLATE.items()}
    rows['LPHD1$DC$PhyNam$vendor'] = rows['LLN0$DC$NamPlt$vendor']
    for place, (switch, node) in enumerate(zip(file['switch'], own), 1):
        settings = f'CSWI{place}$CF$Pos$'
        rows[settings + 'ctlModel'] = 'control', str(switch.get('control'))
        rows[settings + 'sboTimeout'] = 'sbo_timeout_ms', str(switch.get('sbo_timeout_ms', 0))
        if class_of(node) == 'XSWI':
            rows[f'{node}$ST$SwTyp$stVal'] = 'kind', switch['kind']
    return rows | (described_rows(file, own) if bay.get('profile') == 2 else {})


def described_rows(file: dict, own: list[str]) -> dict[str, tuple[str, str]]:
    """What a bay file of profile 2 gives of name plates and descriptions, as above."""
    rows = {}
    for place, (switch, node) in enumerate(zip(file['switch'], own), 1):
        for one in (f'CSWI{place}', node, f'CILO{place}'):
            rows[f'{one}$DC$NamPlt$d'] = 'id', words.in_quotes(switch['id'])
    for place, meter in enumerate(file.get('meter', []), 1):
        rows[f'MMXU{place}$DC$NamPlt$d'] = 'id', words.in_quotes(meter['id'])
    for place, one in enumerate(file.get('input', []), 1):
        rows[f'{INPUTS}$DC$Ind{place}$d'] = 'name', words.in_quotes(one['name'])
    return rows


def compare_with_server(client: Client, file: dict) -> Comparison:
    """The bay file that a client knows, held against its server. One read asks for it, of a bay
    with up to eight switches."""
    held = Comparison(client.bay, file)
    client.conversation.on_answer = held.add_answer
    client.read(held.asked)
    if 'LLN0' in held.absent:
        client.domains()
    client.conversation.on_answer = lambda request, answer: None
    return held
