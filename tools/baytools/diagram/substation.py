"""The single line diagram of a bay out of the substation of an SCD or SSD file (IEC 61850-6): its
equipment, and the connectivity nodes to which their terminals lead.

Equipment of type CBR is a breaker, DIS a disconnector, and an earthing switch where a terminal of
it is grounded. BBS is a busbar, IFL and LIN a line, CAB a cable; a power transformer is one node
for all its windings. What else has two terminals joins them. A switch of another bay is known by
inputs of the bay file called as it, with _CLOSED and _OPEN behind; where none are, the diagram ends
there, and what it leads to can be live. Busbars, lines, cables and ends without equipment can be
too."""
import re
import xml.etree.ElementTree as ET
from dataclasses import dataclass, field

from baytools.common.texts import upcase

from .diagram_file import Reader, suggested_name
from .network import (BREAKER, BUSBAR, CABLE, DISCONNECTOR, EARTH, EARTHING, JUNCTION, LINE,
                      TRANSFORMER, BadDiagram, Network)

GROUNDED = 'grounded'  # the name of the connectivity node that is an earth
SWITCHES = {'CBR': BREAKER, 'DIS': DISCONNECTOR}
ENDS = {'BBS': BUSBAR, 'IFL': LINE, 'LIN': LINE, 'CAB': CABLE}
RANKS = (TRANSFORMER, BUSBAR, LINE, CABLE, JUNCTION)  # what a node is that is several things
EQUIPMENT = ('ConductingEquipment', 'PowerTransformer')


def bare(element: ET.Element) -> str:
    """The name of an element, without its namespace."""
    return element.tag.rpartition('}')[2] if isinstance(element.tag, str) else ''


@dataclass
class Equipment:
    """A piece of equipment: its name, the path of its bay, its type, and the nodes of its
    terminals."""
    name: str
    bay: str
    kind: str
    nodes: list[str]

    def path(self) -> str:
        return f'{self.bay}/{self.name}'

    def is_grounded(self) -> bool:
        return any(node == GROUNDED for node in self.nodes)


@dataclass
class Joined:
    """Connectivity nodes of which some are one node of the diagram."""
    above: dict[str, str] = field(default_factory=dict)

    def of(self, node: str) -> str:
        while self.above.get(node, node) != node:
            node = self.above[node]
        return node

    def join(self, nodes: list[str]) -> None:
        for node in nodes[1:]:
            self.above[self.of(node)] = self.of(nodes[0])


def terminal_of(element: ET.Element) -> str:
    """The path of the node to which a terminal leads, or that it is an earth."""
    parts = [element.get(key, '') for key in ('substationName', 'voltageLevelName', 'bayName',
                                              'cNodeName')]
    path = element.get('connectivityNode') or '/'.join(parts)
    is_earth = GROUNDED in (parts[-1], path.rpartition('/')[2])
    return GROUNDED if is_earth else path


def equipment_of(root: ET.Element) -> list[Equipment]:
    """All equipment of a file, with the paths of their bays."""
    found = []

    def walk(element: ET.Element, path: tuple[str, ...]) -> None:
        for child in element:
            if bare(child) in EQUIPMENT:
                nodes = [terminal_of(it) for it in child.iter() if bare(it) == 'Terminal']
                kind = 'PTR' if bare(child) == 'PowerTransformer' else child.get('type', '')
                found.append(Equipment(child.get('name', ''), '/'.join(path), kind, nodes))
            elif bare(child) in ('Substation', 'VoltageLevel', 'Bay'):
                walk(child, (*path, child.get('name', '')))

    walk(root, ())
    return found


class Substation:
    """The diagram of one bay of a file. `dead` are inputs by what they show dead, `left_out` the
    equipment that is not to be looked at."""

    def __init__(self, title: str, text: str, bay: dict) -> None:
        self.title, self.bay = title, bay
        self.inputs = {upcase(it['name']): it['name'] for it in bay.get('input', [])}
        try:
            self.all = equipment_of(ET.fromstring(text))
        except ET.ParseError as error:
            raise BadDiagram(f'{title}: it is not XML that can be read: {error}') from None

    def wrong(self, place: str, told: str) -> BadDiagram:
        return BadDiagram(f'{self.title}: {place}: {told}')

    def network(self, name: str, dead: dict[str, str], left_out: set[str]) -> Network:
        """The diagram of the bay of this name, or path."""
        own_bay = self.bay_called(name)
        kept = [it for it in self.all if not {upcase(it.name), upcase(it.path())} & left_out]
        rows, ends = [], []
        for one in kept:
            if one.kind not in SWITCHES:
                ends.append(one)
            elif one.bay == own_bay:
                rows.append((one, {'switch': one.name}))
            else:
                rows.append((one, self.known(one)))
        self.check_switches(own_bay, [one for one, row in rows if 'switch' in row])
        for one, _ in rows:
            if len(one.nodes) != 2:
                raise self.wrong(one.path(), f'it has {len(one.nodes)} terminals: a switch has two')
        return self.of_rows(rows, ends, dead)

    def bay_called(self, name: str) -> str:
        bays = list(dict.fromkeys(it.bay for it in self.all))
        found = [it for it in bays if upcase(name) in (upcase(it), upcase(it.rpartition('/')[2]))]
        if len(found) > 1:
            raise self.wrong(f'bay {name}', f'there are several: name one of {", ".join(found)}')
        if not found:
            raise self.wrong(f'bay {name}', f'no bay with equipment has that name: '
                             f'{suggested_name(name, [it.rpartition("/")[2] for it in bays])}')
        return found[0]

    def check_switches(self, own_bay: str, own: list[Equipment]) -> None:
        """Refuses a file that has other switches of the bay than the bay file."""
        names = {upcase(it['id']): it['id'] for it in self.bay['switch']}
        for one in own:
            if upcase(one.name) not in names:
                raise self.wrong(one.path(), 'it is no switch of the bay file: add it there, or '
                                 f'leave it out by --without {one.name}')
        for name in names.keys() - {upcase(it.name) for it in own}:
            raise self.wrong(own_bay, f'it has no equipment {names[name]} of type CBR or DIS, as '
                             'the bay file has: give both one name')

    def known(self, one: Equipment) -> dict:
        """By which inputs a switch of another bay is known; nothing where by none."""
        bay = one.bay.rpartition('/')[2]
        for name in (f'{bay}_{one.name}', one.name):
            found = {key: self.inputs[upcase(f'{name}_{ending}')]
                     for key, ending in (('closed', 'CLOSED'), ('open', 'OPEN'))
                     if upcase(f'{name}_{ending}') in self.inputs}
            if found:
                return {'name': re.sub('[^A-Za-z0-9_]', '_', name), **found}
        return {}

    def of_rows(self, rows: list[tuple[Equipment, dict]], ends: list[Equipment],
                dead: dict[str, str]) -> Network:
        """The network of some switches: with all that their nodes are."""
        joined = Joined()
        for one in ends:
            joined.join([it for it in one.nodes if it != GROUNDED])
        there = {joined.of(node) for one, row in rows if row for node in one.nodes}
        kinds, names, live = {}, {}, set()
        for one in ends:
            kind = TRANSFORMER if one.kind == 'PTR' else ENDS.get(one.kind, JUNCTION)
            for node in one.nodes:
                node = joined.of(node)
                if RANKS.index(kind) < RANKS.index(kinds.get(node, JUNCTION)):
                    kinds[node], names[node] = kind, one.name
                live |= {node} if one.kind in ENDS else set()
        for one, row in rows:
            if not row:
                live |= self.leads_away(one, [joined.of(it) for it in one.nodes], there)
        called = self.called(there, names)
        if unknown := sorted(dead.keys() - {upcase(it) for it in called.values()}):
            raise self.wrong('--dead', f'{unknown[0]} is no node: '
                             f'{suggested_name(unknown[0], list(called.values()))}')
        tables = {'node': [], 'between': []}
        for node in called:
            kind = EARTH if node == GROUNDED else kinds.get(node, JUNCTION)
            ways = sum(node in map(joined.of, one.nodes) for one, row in rows if row)
            is_end = kind == JUNCTION and (node in live or ways < 2)
            row = {'name': called[node], 'kind': LINE if is_end else kind,
                   'source': node in live and node != GROUNDED or is_end}
            told = dead.get(upcase(called[node]))
            tables['node'].append(row | ({'dead': told} if told else {}))
        for one, row in rows:
            if row:
                kind = EARTHING if one.is_grounded() else SWITCHES[one.kind]
                more = {} if 'switch' in row else {'kind': kind}
                nodes = [called[joined.of(it)] for it in one.nodes]
                tables['between'].append(row | more | {'nodes': nodes})
        return Reader(self.title, self.bay).of_tables(tables)

    def leads_away(self, one: Equipment, nodes: list[str], there: set[str]) -> set[str]:
        """The nodes of the diagram from which a switch leads away whose position nothing tells."""
        found = set(nodes) & there - {GROUNDED}
        if found and one.is_grounded():
            name = f'{one.bay.rpartition("/")[2]}_{one.name}_OPEN'
            raise self.wrong(one.path(), 'it can earth a node of this bay\'s diagram, and no input '
                             f'tells its position: add the input {name} to the bay file, or leave '
                             f'it out by --without {one.path()}')
        return found

    def called(self, there: set[str], names: dict[str, str]) -> dict[str, str]:
        """The names of nodes: of what stands there, else their own, with the bay's where two have
        one."""
        found: dict[str, str] = {}
        for node in sorted(there):
            parts = ['E'] if node == GROUNDED else [names[node]] if node in names else (
                node.split('/')[-1:])
            name = re.sub('[^A-Za-z0-9_]', '_', parts[0])
            name = name if re.match('[A-Za-z]', name) else f'N{name}'
            taken = {upcase(it) for it in found.values()}
            if upcase(name) in taken and '/' in node:
                name = re.sub('[^A-Za-z0-9_]', '_', '_'.join(node.split('/')[-2:]))
            count, plain = 1, name
            while upcase(name) in taken:
                count += 1
                name = f'{plain}_{count}'
            found[node] = name[:32]
        return found


def diagram_of_scd(title: str, text: str, bay: dict, name: str, dead: dict[str, str],
                   left_out: set[str]) -> Network:
    """The diagram of the bay of an SCD or SSD file."""
    return Substation(title, text, bay).network(name, dead, left_out)
