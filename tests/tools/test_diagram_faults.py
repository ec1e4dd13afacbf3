"""Why a diagram file is refused, and where: a fault of each kind in a diagram of the examples."""
import unittest

from baytools.bay.files import bay_at
from baytools.diagnosis import diagram_file
from tests.tool import Tools
from tests.tools.test_diagram import EXAMPLES
from tests.tools.test_hazards import HELP, LOADED

DOUBLE = next(it for it in EXAMPLES if it.parent.name == 'double')
DIAGRAM = DOUBLE.with_name('diagram.toml')
TEXT = DIAGRAM.read_text(encoding='utf-8')
BAY = bay_at(DOUBLE)[1]
NODE = '[[node]]\nname = "BB1"'
OWN = 'switch = "QB1"'
BREAKER = 'switch = "QA1"'


def edit(old: str, new: str) -> str:
    assert old in TEXT, old
    return TEXT.replace(old, new, 1)


# What is changed, and the number, the place and words of the first refusal.
FAULTS = [
    (TEXT + '\n[[node]\n', 146, '', 'the section [node] is given twice'),
    (TEXT + '\n[title]\nname = "x"\n', 147, '', 'there is no section title'),
    (edit(NODE, NODE + '\ncolour = "red"'), 147, 'node 1 (BB1)', 'no key colour'),
    (edit(OWN, OWN + '\nkinds = "x"'), 147, 'between 1 (QB1)', 'is kind meant?'),
    (TEXT.replace('[[between]]', '[[node]]'), 148, '', '[[between]]'),
    (edit('name = "BB1"', ''), 148, 'node 1', 'the key name is missing'),
    (edit('nodes = ["BB1", "N1"]', ''), 148, 'between 1 (QB1)', 'the key nodes is missing'),
    ('node = 1\n' + TEXT.partition('[[between]]')[1] + TEXT.partition('[[between]]')[2], 149, '',
     'node is no list of tables'),
    (edit('kind = "busbar"', 'kind = "bus"'), 149, 'node 1 (BB1)', 'is busbar meant?'),
    (edit('source = true', 'source = "yes"'), 149, 'node 1 (BB1)', 'source must be true or'),
    (edit('name = "BB1"', 'name = "1B"'), 149, 'node 1 (1B)', 'name must be a letter'),
    (edit('nodes = ["BB1", "N1"]', 'nodes = ["BB1"]'), 149, 'between 1 (QB1)', 'two names'),
    (TEXT + '\n'.join('[[node]]\nname = "X"\nkind = "busbar"' for _ in range(60)), 150, '',
     'may be 64 at most'),
    (edit('name = "BB2"', 'name = "bb1"'), 151, 'node 1 (BB1)', 'the name BB1 occurs twice'),
    (edit('switch = "QB2"', 'switch = "QB1"'), 151, 'between 1 (QB1)', 'QB1 occurs twice'),
    (edit('nodes = ["BB1", "N1"]', 'nodes = ["BB1", "N11"]'), 152, 'between 1 (QB1)',
     'N11 is no node; is N1 meant?'),
    (edit(OWN, 'switch = "QB3"'), 152, 'between 1 (QB3)', 'QB3 is no switch of the bay file'),
    (edit('source = true', 'source = true\ndead = "CA1_CLOSD"'), 152, 'node 1 (BB1)',
     'CA1_CLOSD is no input of the bay file; is CA1_CLOSED meant?'),
    (edit('kind = "junction"', 'kind = "junction"\nsource = true'), 153, 'node 3 (K1)',
     'a node of kind junction is no source'),
    (edit('source = true', 'system = "x"'), 153, 'node 1 (BB1)', 'system is a key of sources'),
    (edit(OWN, OWN + '\nkind = "disconnector"'), 154, 'between 1 (QB1)', 'of other bays'),
    (edit(OWN, 'name = "QB1"\nkind = "disconnector"'), 154, 'between 1 (QB1)',
     'QB1 is a switch of this bay'),
    (edit('nodes = ["BB1", "N1"]', 'nodes = ["N1", "N1"]'), 154, 'between 1 (QB1)',
     'both its nodes are N1'),
    (edit('nodes = ["BB1", "N1"]', 'nodes = ["BB1", "E"]'), 154, 'between 1 (QB1)',
     'it leads to the earth E'),
    (TEXT + '[[check]]\nlive_parts = true\n', 149, '', 'check is no table'),
    (TEXT + '[check]\nlive_part = true\n', 147, 'check', 'is live_parts meant?'),
    (TEXT + '[check]\nfed_earths = 1\n', 149, 'check', 'fed_earths must be true or false'),
    (edit(BREAKER, BREAKER + '\nsynchro = 1'), 149, 'between 3 (QA1)', 'must be a text'),
    (edit(BREAKER, BREAKER + '\ncoupler = "yes"'), 149, 'between 3 (QA1)', 'true or false'),
    (edit(BREAKER, BREAKER + '\nsynchro = "SYNC"'), 152, 'between 3 (QA1)',
     'SYNC is no input of the bay file'),
    (edit(OWN, OWN + '\ncoupler = true'), 154, 'between 1 (QB1)', 'a key of breakers'),
    (edit('name = "CA1"', 'name = "CA1"\nsynchro = "CA1_CLOSED"'), 154, 'between 8 (CA1)',
     'a key of breakers'),
    (edit('switch = "QC2"', 'name = "XC2"\nkind = "earthing"'), 155, 'switch QC2',
     'the switch QC2 of the bay is in no table'),
    (TEXT + '[[node]]\nname = "N77"\nkind = "junction"\n', 155, 'node', '0 switches lead to it')]


class Faults(unittest.TestCase):
    def test_the_examples_have_none(self):
        for path in EXAMPLES:
            octets = path.with_name('diagram.toml').read_bytes()
            self.assertEqual(diagram_file.refusals(octets, bay_at(path)[1]), [], path)

    def test_each_kind(self):
        for text, code, where, told in FAULTS:
            with self.subTest(told):
                first = diagram_file.refusals(text.encode(), BAY)[0]
                self.assertEqual((first.code, first.place.where[:len(where)]), (code, where))
                self.assertIn(told, first.place.told)

    def test_keys_that_ask_for_hazards(self):
        for text in (TEXT + '[check]\nlive_parts = true\nfed_earths = false\n',
                     edit(BREAKER, BREAKER + '\nsynchro = "ca1_closed"\ncoupler = true'),
                     edit(OWN, OWN + '\ncoupler = false')):
            self.assertEqual(diagram_file.refusals(text.encode(), BAY), [])

    def test_octets_that_are_no_text_and_a_text_that_is_too_long(self):
        for octets in (TEXT.encode() + b'\xff', TEXT.encode() + b'#' * 262_144):
            self.assertEqual([it.code for it in diagram_file.refusals(octets, BAY)], [146])

    def test_no_source(self):
        text = '\n'.join(line for line in TEXT.split('\n')
                         if line.partition(' ')[0] not in ('source', 'system', 'dead'))
        found, = diagram_file.refusals(text.encode(), BAY)
        self.assertEqual((found.code, found.place.told), (155, 'no node is a source'))


class Diagnoses(Tools):
    def diagnose(self, text: str, printed: str = '', help_text: str = HELP):
        program = self.bayctl(printed)
        program.write_text(program.read_text().replace('import sys\n', (
            f'import sys\nif "--help" in sys.argv:\n    sys.exit(print({help_text!r}) or 2)\n'
            'if sys.argv[1] == "check":\n    sys.exit(print("instructions=1 depth=1 budget=1") or '
            '0)\n'), 1))
        return self.call_tool('diagnose', '--bay', DOUBLE, '--logic', DOUBLE.with_name('logic.il'),
                              '--diagram', self.file('d.toml', text), '--bayctl', program)

    def test_a_diagram_that_is_read(self):
        found = self.diagnose(TEXT, LOADED)
        self.assertIn('the diagram can be read\n', found.out)

    def test_a_place_and_a_remedy(self):
        found = self.diagnose(edit('name = "BB2"', 'name = "BB1"'),
                              LOADED + 'diagram refused 151 node 1\n')
        self.assertEqual(found.status, 1, found)
        for told in ('d.toml is refused with 151.\n', 'node 1 (BB1): the name BB1 occurs twice.\n',
                     'name = "BB1"', 'again here:', 'Mend: give each its own name.'):
            self.assertIn(told, found.out)
        self.assertNotIn('does not find', found.out)

    def test_a_refusal_that_only_bayctl_finds(self):
        found = self.diagnose(TEXT, LOADED + 'diagram refused 155 node 2\n')
        self.assertEqual(found.status, 1)
        self.assertIn('bayctl refuses the diagram with 155 (node 2), which this tool does not find',
                      found.out.replace('\n', ' '))

    def test_a_program_without_the_option(self):
        self.assertIn('the diagram can be read\n', self.diagnose(TEXT, LOADED, '').out)


if __name__ == '__main__':
    unittest.main()
