"""Pictures of single line diagrams: their symbols, and that nothing lies upon another."""
import itertools
import math
import re
import unittest
import xml.etree.ElementTree as ET

from baytools.bay.files import bay_at
from baytools.diagram.diagram_file import diagram_at, read_diagram
from baytools.diagram.drawing import Places, draw, in_service
from tests.tool import Tools
from tests.tools.test_diagram import EXAMPLES, bay, diagram

SVG = '{http://www.w3.org/2000/svg}'
NEAREST = 60  # between the middles of two symbols
ODD = (  # diagrams of other shapes: a ring, no busbar, switches side by side, an earthed busbar
    (bay('QB1', 'QB2', 'QB3', 'QA1'), ('N1 junction', 'N2 junction', 'N3 junction', 'N4 junction',
     'L line source=true', 'BB1 busbar source=true', 'QB1: BB1 N1', 'QB2: N1 N2', 'QB3: N2 N3',
     'QA1: N1 N3', 'X breaker closed="A": N3 N4', 'Y breaker closed="A": N4 L')),
    (bay('QA1', 'QC1'), ('L1 line source=true dead="A"', 'L2 cable', 'E earth', 'QA1: L1 L2',
                         'QC1: L1 E')),
    (bay('QB1', 'QB2', 'QC1', 'QC2'), (
        'BB1 busbar source=true dead="A"', 'BB2 busbar source=true', 'E earth', 'QB1: BB1 BB2',
        'QB2: BB2 BB1', 'QC1: BB1 E', 'X earthing closed="A": BB2 E', 'T1 transformer',
        'Y disconnector closed="A": BB1 T1', 'QC2: T1 E')))


def networks() -> list:
    found = [diagram_at(path.with_name('diagram.toml'), bay_at(path)[1]) for path in EXAMPLES]
    for tables, rows in ODD:
        tables['input'] = [{'name': 'A'}]
        found.append(read_diagram(diagram(*rows), 'd', tables))
    return found


def groups(picture: str) -> dict:
    """The group of each switch, by its id."""
    return {it.find(f'{SVG}text').text: it for it in ET.fromstring(picture).iter(f'{SVG}g')
            if it.get('class')}


class Pictures(unittest.TestCase):
    def test_each_switch_is_drawn_once(self):
        for net in networks():
            picture = draw(net, 'x')
            self.assertEqual(sorted(groups(picture)), sorted(it.name for it in net.switches))
            self.assertEqual(picture.count('class="shut"'), len(net.switches))

    def test_no_symbol_lies_upon_another_or_outside(self):
        for net in networks():
            root = ET.fromstring(draw(net, 'x'))
            at = [tuple(map(float, re.match(r'translate\((\S+) (\S+)\)', it.get('transform'))
                            .groups())) for it in root.iter(f'{SVG}g') if it.get('transform')]
            for one, other in itertools.combinations(at, 2):
                self.assertGreaterEqual(math.dist(one, other), NEAREST, net.title)
            for x, y in at:
                self.assertTrue(20 < x < float(root.get('width')) - 20)
                self.assertTrue(20 < y < float(root.get('height')) - 20)

    def test_each_node_and_wire_lies_within(self):
        for net in networks():
            root = ET.fromstring(draw(net, 'x'))
            width, height = float(root.get('width')), float(root.get('height'))
            for it in root.findall(f'{SVG}line'):
                self.assertTrue(all(0 <= float(it.get(key)) <= width for key in ('x1', 'x2')))
                self.assertTrue(all(0 <= float(it.get(key)) <= height for key in ('y1', 'y2')))

    def test_symbols(self):
        net = next(it for it in networks() if any(one.name == 'QB7' for one in it.switches))
        found = groups(draw(net, 'x', in_service(net), {'QA1': (True, False), 'QC9': (None, True)}))
        cross, bar = 'M -6 -25 L 6 -13 M 6 -25 L -6 -13', 'M -9 -19 L 9 -19'
        for name, fixed in (('QA1', [cross]), ('QB1', [bar]), ('QC9', [bar])):
            paths = [it.get('d') for it in found[name].iter(f'{SVG}path')
                     if it.get('class') == 'fixed']
            self.assertEqual(paths, fixed, name)
        self.assertEqual([found[name].get('class') for name in ('QA1', 'QC9', 'TA1')],
                         ['switch closed', 'switch open', 'other closed'])
        words = [[it.text or '' for it in found[name].findall(f'{SVG}text')]
                 for name in ('QA1', 'QC9', 'QB1')]
        self.assertEqual(words, [['QA1', 'closed', 'open ✓ close ✕', ''],
                                 ['QC9', 'open', 'open ? close ✓', ''], ['QB1', 'closed', '', '']])

    def test_a_live_picture_has_no_state_and_no_style(self):
        picture = draw(networks()[0], 'x', is_live=True)
        self.assertNotIn('<style', picture)
        own = [it for it in groups(picture).values() if it.get('data-switch')]
        self.assertTrue(own and all(it.get('class') == 'switch unknown' for it in own))

    def test_pictures_of_the_examples(self):
        for path in EXAMPLES:
            file = bay_at(path)[1]
            net = diagram_at(path.with_name('diagram.toml'), file)
            heading = f'Single line diagram of bay {file["bay"]["domain"]}'
            self.assertEqual(path.with_name('diagram.svg').read_text(encoding='utf-8'),
                             draw(net, heading), f'tools/rules --draw draws {path} otherwise')

    def test_levels(self):
        """A line stands below all that leads to it, a transformer between its two sides."""
        by_name = {path.parent.name: diagram_at(path.with_name('diagram.toml'), bay_at(path)[1])
                   for path in EXAMPLES}
        line = Places(by_name['line'])
        self.assertEqual((line.tops, line.level['N1'], line.level['N2'], line.level['LINE']),
                         (['BB1', 'BB7'], 1, 2, 3))
        transformer = Places(by_name['transformer'])
        self.assertEqual(transformer.tops, ['BB1', 'BB2'])
        self.assertLess(transformer.level['T1'], transformer.level['L1'])
        self.assertLess(transformer.level['L1'], transformer.level['LV'])


class Command(Tools):
    def test_draw(self):
        path = next(it for it in EXAMPLES if it.parent.name == 'single')
        words = ['rules', path, path.with_name('diagram.toml'), '--draw', 'picture.svg']
        found = self.call_tool(*words, '--at', 'QA1=closed,qb1=bad')
        self.assertEqual((found.status, found.error), (0, ''))
        picture = groups((self.folder / 'picture.svg').read_text(encoding='utf-8'))
        self.assertEqual([picture[name].get('class') for name in ('QA1', 'QB1', 'QB9')],
                         ['switch closed', 'switch bad', 'switch open'])
        for more, status in ((['--at', 'QX=open'], 2), (['--at', 'QA1=shut'], 2)):
            self.assertEqual(self.call_tool(*words, *more).status, status)
        self.assertEqual(self.call_tool(*words[:3], '--at', 'QA1=open').status, 2)
        self.assertEqual(self.call_tool(*words[:4], 'none/picture.svg').status, 3)


if __name__ == '__main__':
    unittest.main()
