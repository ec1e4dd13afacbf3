"""Single line diagrams out of SCD and SSD files: those of the examples, written as SCL, ask for the
same rules."""
import unittest
import xml.etree.ElementTree as ET

from baytools.bay.files import bay_at
from baytools.bay.scl import NAMESPACE
from baytools.diagram.diagram_file import diagram_at, read_diagram
from baytools.diagram.network import (BREAKER, BUSBAR, CABLE, EARTHING, LINE, TRANSFORMER,
                                      BadDiagram, Network)
from baytools.diagram.substation import diagram_of_scd
from baytools.rules.demands import demands_of
from tests.tool import Tools
from tests.tools.test_diagram import EXAMPLES, FOLDER, bay

TYPES = {BUSBAR: 'BBS', LINE: 'IFL', CABLE: 'CAB'}
DEAD = {'single': {'CABLE': 'VT_DEAD'}, 'line': {'LINE': 'VT_DEAD'}}


class Written:
    """A network as SCL: its own switches in bay Q1, others in Q2, what is at nodes in W1."""

    def __init__(self, network: Network, prefix: str = f'{{{NAMESPACE}}}') -> None:
        self.network, self.prefix = network, prefix
        self.root = self.element(None, 'SCL')
        self.element(self.root, 'Header', id='S1')
        self.station = self.element(self.root, 'Substation', name='S1')
        level = self.element(self.station, 'VoltageLevel', name='E1')
        self.bays = {name: self.element(level, 'Bay', name=name) for name in ('Q1', 'Q2', 'W1')}
        for node in network.nodes.values():
            self.node(node)
        for switch in network.switches:
            it = self.element(self.bays['Q1' if switch.is_own else 'Q2'], 'ConductingEquipment',
                              name=switch.name, type='CBR' if switch.kind == BREAKER else 'DIS')
            for name in switch.nodes:
                self.terminal(it, name, switch)
        for path in dict.fromkeys(it.get('connectivityNode') for it in self.root.iter()
                                  if it.tag == prefix + 'Terminal'):
            if not path.endswith('grounded'):
                self.element(self.bays['Q1'], 'ConnectivityNode', name=path.split('/')[-1],
                             pathName=path)

    def element(self, parent, tag: str, **more) -> ET.Element:
        tag = self.prefix + tag
        return ET.Element(tag, more) if parent is None else ET.SubElement(parent, tag, more)

    def node(self, node) -> None:
        if node.kind in TYPES:
            it = self.element(self.bays['W1'], 'ConductingEquipment', name=node.name,
                              type=TYPES[node.kind])
            self.terminal(it, node.name)
        elif node.kind == TRANSFORMER:
            it = self.element(self.station, 'PowerTransformer', name=node.name, type='PTR')
            self.station.remove(it)
            self.station.insert(0, it)
            for switch in self.network.at[node.name]:
                if switch.kind != EARTHING:
                    self.terminal(self.element(it, 'TransformerWinding', name=switch.name,
                                               type='PTW'), node.name, switch)

    def terminal(self, parent, name: str, switch=None) -> None:
        """A terminal; the windings of a transformer have a node each."""
        if self.network.is_earth(name):
            name = 'grounded'
        elif self.network.kind(name) == TRANSFORMER:
            first = next(it for it in self.network.at[name] if it.kind != EARTHING)
            name += f'_{first.name if switch.kind == EARTHING else switch.name}'
        self.element(parent, 'Terminal', name=f'T{len(parent) + 1}', substationName='S1',
                     voltageLevelName='E1', bayName='Q1', cNodeName=name,
                     connectivityNode=f'S1/E1/Q1/{name}')

    def text(self) -> str:
        ET.register_namespace('', NAMESPACE)
        ET.indent(self.root)
        return '<?xml version="1.0" encoding="UTF-8"?>\n' + ET.tostring(self.root, 'unicode') + '\n'


def rules_of(network: Network) -> list[str]:
    return sorted(it.text() for it in demands_of(network))


def scl(*bays: str) -> str:
    """A file of SCL with these bays: `Q1 QB1 DIS BB1 N1; QC1 DIS N1 grounded`."""
    told = ''
    for row in bays:
        name, _, equipment = row.partition(' ')
        told += f'<Bay name="{name}">'
        for one in filter(None, equipment.split('; ')):
            its, kind, *nodes = one.split(' ')
            told += f'<ConductingEquipment name="{its}" type="{kind}">' + ''.join(
                '<Terminal cNodeName="grounded"/>' if node == 'grounded' else
                f'<Terminal connectivityNode="S/E/{node}" cNodeName="{node.split("/")[-1]}"/>'
                for node in nodes) + '</ConductingEquipment>'
        told += '</Bay>'
    return (f'<SCL><Substation name="S"><VoltageLevel name="E">{told}</VoltageLevel></Substation>'
            '</SCL>')


def read(text: str, tables: dict, name: str = 'Q1', dead=(), without=()) -> Network:
    return diagram_of_scd('f', text, tables, name, dict(dead), set(without))


FEEDER = ('Q1 QB1 DIS W/BB Q1/1; QA1 CBR Q1/1 Q1/2; C1 CTR Q1/2 Q1/3; QC1 DIS Q1/3 grounded; '
          'QB9 DIS Q1/3 Q1/4; L IFL Q1/4')
OWN = bay('QB1', 'QA1', 'QC1', 'QB9')


class Examples(unittest.TestCase):
    def test_the_examples_as_scl_ask_for_the_same_rules(self):
        for path in EXAMPLES:
            name, file = path.parent.name, bay_at(path)[1]
            net = diagram_at(path.with_name('diagram.toml'), file)
            for prefix in (f'{{{NAMESPACE}}}', ''):
                found = read(Written(net, prefix).text(), file, dead=DEAD.get(name, {}))
                self.assertEqual(rules_of(found), rules_of(net), name)

    def test_the_file_that_is_shipped(self):
        path = FOLDER / 'double' / 'substation.ssd'
        file = bay_at(path.with_name('bay.toml'))[1]
        net = diagram_at(path.with_name('diagram.toml'), file)
        self.assertEqual(rules_of(read(path.read_text(), file)), rules_of(net))


class Read(unittest.TestCase):
    def test_a_feeder(self):
        net = read(scl('W BB BBS W/BB', FEEDER), OWN)
        self.assertEqual({name: (it.kind, it.is_source) for name, it in net.nodes.items()}, {
            'BB': ('busbar', True), 'N1': ('junction', False), 'N2': ('junction', False),
            'L': ('line', True), 'E': ('earth', False)})
        kinds = {it.name: (it.kind, it.is_own) for it in net.switches}
        self.assertEqual(kinds, {'QB1': ('disconnector', True), 'QA1': ('breaker', True),
                                 'QC1': ('earthing', True), 'QB9': ('disconnector', True)})
        self.assertIn('never QC1 close when QB9 not open', rules_of(net))

    def test_where_no_input_tells_the_diagram_ends_and_is_live(self):
        other = 'Q2 QB1 DIS W/BB Q2/1; QA1 CBR Q2/1 Q2/2'
        net = read(scl(FEEDER, other), OWN)
        self.assertEqual(len(net.switches), 4)
        self.assertTrue(net.nodes['BB'].is_source)
        known = bay('QB1', 'QA1', 'QC1', 'QB9', inputs=('Q2_QB1_OPEN', 'q2_qa1_closed'))
        net = read(scl(FEEDER, other), known)
        found = {it.name: (it.closed, it.opened) for it in net.switches if not it.is_own}
        self.assertEqual(found, {'Q2_QB1': ('', 'Q2_QB1_OPEN'), 'Q2_QA1': ('q2_qa1_closed', '')})
        self.assertTrue(net.nodes['N2_2' if 'N2_2' in net.nodes else 'Q2_2'].is_source)

    def test_what_is_refused(self):
        good = scl('W BB BBS W/BB', FEEDER)
        both = bay('QB1', 'QA1', 'QC1', 'QB9', 'QB2')
        for text, tables, more, told in (
                ('<SCL>', OWN, {}, 'f: it is not XML that can be read: .*line 1'),
                (good, OWN, {'name': 'Q11'}, 'f: bay Q11: no bay .* is Q1 meant'),
                (good.replace('"W"', '"Q1"'), OWN, {'name': 'Q9'}, 'no bay with equipment'),
                (good.replace('</Substation>', '</Substation><Substation name="T"><Bay name="Q1">'
                              '<ConductingEquipment name="X" type="BBS"/></Bay></Substation>'),
                 OWN, {}, 'there are several: name one of S/E/Q1, T/Q1'),
                (good, both, {}, 'f: S/E/Q1: it has no equipment QB2 of type CBR or DIS'),
                (good, bay('QB1', 'QA1', 'QB9'), {}, 'S/E/Q1/QC1: it is no switch of the bay file: '
                 'add it there, or leave it out by --without QC1'),
                (good.replace('<Terminal connectivityNode="S/E/W/BB" cNodeName="BB"/><Term',
                              '<Term'), OWN, {},
                 'S/E/Q1/QB1: it has 1 terminals'),
                (good, OWN, {'dead': {'LL': 'X'}}, '--dead: LL is no node'),
                (good, OWN, {'dead': {'L': 'X'}}, 'dead = "X" is no input of the bay file'),
                (scl(FEEDER, 'W BB BBS W/BB; QC7 DIS W/BB grounded'), OWN, {},
                 'S/E/W/QC7: it can earth .* add the input W_QC7_OPEN to the bay file, or leave it '
                 'out by --without S/E/W/QC7')):
            with self.assertRaisesRegex(BadDiagram, told):
                demands_of(read(text, tables, **more))

    def test_equipment_that_is_left_out(self):
        text = scl(FEEDER, 'W BB BBS W/BB; QC7 DIS W/BB grounded')
        for name in ('QC7', 'S/E/W/QC7'):
            self.assertEqual(len(read(text, OWN, without={name}).switches), 4)

    def test_nodes_of_one_name(self):
        """Those of two bays are told apart, as in a file."""
        tables = bay('QB1', 'QA1', inputs=('X_OPEN',))
        net = read(scl('Q1 QB1 DIS W/BB Q1/K; QA1 CBR Q1/K Q2/K', 'Q2 X DIS Q2/K Q2/L'), tables)
        self.assertEqual(len(net.nodes), 4)
        self.assertEqual(len({it.upper() for it in net.nodes}), 4)


class Command(Tools):
    def test_the_tool(self):
        folder = FOLDER / 'double'
        words = ['rules', folder / 'bay.toml']
        scd = ['--scd', folder / 'substation.ssd', '--bay', 'Q1']
        found = self.call_tool(*words, *scd, '--toml', 'diagram.toml', '--draw', 'picture.svg')
        self.assertEqual((found.status, found.error), (0, ''))
        again = self.call_tool(*words, 'diagram.toml')
        self.assertEqual([line for line in again.out.split('\n') if line[:1] != '#'],
                         [line for line in found.out.split('\n') if line[:1] != '#'])
        read_diagram((self.folder / 'diagram.toml').read_text(), 'd', bay_at(words[1])[1])
        self.assertTrue((self.folder / 'picture.svg').exists())

    def test_words_that_do_not_fit(self):
        folder = FOLDER / 'double'
        words, scd = ['rules', folder / 'bay.toml'], ['--scd', folder / 'substation.ssd']
        for more in ([], scd, ['--bay', 'Q1'], ['d.toml', *scd, '--bay', 'Q1'],
                     ['d.toml', '--dead', 'A=B'], ['d.toml', '--toml', 'x'],
                     [*scd, '--bay', 'Q1', '--dead', 'LINE']):
            found = self.call_tool(*words, *more)
            self.assertEqual((found.status, found.error.count('\n')), (2, 1), more)
        found = self.call_tool(*words, *scd, '--bay', 'Q9')
        self.assertEqual((found.status, found.error.count('\n')), (1, 1))


if __name__ == '__main__':
    unittest.main()
