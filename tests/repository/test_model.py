"""docs/PROTOCOL.md: the rows of each logical node are those of the tables of bay_nodes, in their
order, in both profiles."""
import re
import unittest

from baytools.common.paths import TOP

SOURCES = TOP / 'crates' / 'bay_nodes' / 'src'
TABLE = re.compile(r'pub fn (\w+)_table\(.*?\n\{\n(.*?)\n\}\n', re.DOTALL)
ARM = re.compile(r'\n        (\S[^\n]*?) => &\[(.*?)\],(?=\n)', re.DOTALL)
LINE = re.compile(r'\(\s*(?:"([^"]*)"|paths::(\w+)(?:\.(\w+))?),\s*(\w+)(?:\((\d+)\))?,?\s*\)')
STATUS = ['stVal', 'q', 't']
INTEGER, SCALED = {'i': ''}, {'i': '', 'f': ''}  # the parts of a mag, without a scale and with one
NODES = ('LLN0', 'LPHD1', 'XCBRn', 'XSWIn', 'CSWIn', 'CILOn', 'MMXUn', 'GGIO1')


def paths():
    """The constants of paths.rt: texts, and those of a status by the names of its parts."""
    text = (SOURCES / 'paths.rt').read_text(encoding='utf-8')
    found = dict(re.findall(r'pub const (\w+): &str = "([^"]*)";', text))
    for name, parts in re.findall(r'pub const (\w+): StatusPaths = StatusPaths \{(.*?)\};', text,
                                  re.DOTALL):
        found[name] = dict(re.findall(r'(\w+): "([^"]*)"', parts))
    return found


KNOWN = paths()


def lines_of(text):
    """The lines of a table: path, and value with its number if it has one."""
    for path, name, part, value, number in LINE.findall(text):
        known = KNOWN.get(name)
        yield (known[part] if part else known if known else path), value, number


def bodies():
    """The names and the bodies of the tables, in whichever files they are."""
    texts = (path.read_text(encoding='utf-8') for path in sorted(SOURCES.rglob('*.rt')))
    return [it for text in texts for it in TABLE.findall(text)]


def tables():
    """The lines of each table by its name, and by the arm of its match; '' where it has none."""
    found = {}
    for name, body in bodies():
        arms = ARM.findall('\n' + body) or [('', body)]
        found[name] = {arm: list(lines_of(lines)) for arm, lines in arms}
    return found


TABLES = tables()


def lines(name, *keys):
    """The lines of a table in the arm of these keys."""
    table = TABLES[name]
    if '' in table:
        return table['']
    wanted = f'({", ".join(keys)})' if len(keys) > 1 else keys[0]
    return next(found for arm, found in table.items() if arm in (wanted, f'({keys[0]}, _)'))


def indented(name, table):
    """The lines of a data object of an input, by their paths below the node."""
    return [(f'{name}{path}', value, number) for path, value, number in table]


def node_lines(profile, scaled=True):
    """The lines of each node in a profile; a meter has a scale or not."""
    arm = f'Profile::{["One", "Two"][profile - 1]}'
    found = {'LLN0': lines('device', arm), 'LPHD1': lines('physical'),
             'XCBRn': lines('position', arm, 'true'), 'XSWIn': lines('position', arm, 'false'),
             'CSWIn': lines('control', arm) + lines('group') + lines('control_settings', arm),
             'CILOn': lines('interlocking', arm),
             'MMXUn': (lines('meter', arm, str(scaled).lower())
                       + lines('meter_settings', arm, str(scaled).lower()))}
    if profile == 2:
        described = indented('$DC$Indn', lines('input_description'))
        found['GGIO1'] = (lines('inputs') + indented('$ST$Indn', lines('input'))
                          + lines('inputs_plate') + described)
    return found


def tree(table):
    """The lines as dicts within dicts, down to the number of a value, or nothing."""
    root = {}
    for path, value, number in table:
        *above, last = path.split('$')[1:]
        at = root
        for name in above:
            at = at[name]
        at[last] = {} if value == 'Structure' else number
    return root


def measured(magnitude):
    """The parts of a measured value, and of that of a phase."""
    stamp = dict.fromkeys(('q', 't'), '')
    return [{'mag': magnitude} | stamp, {'cVal': {'mag': magnitude}} | stamp]


def part_text(name, part):
    """A part with its parts; of a status and of a measured value only its name, with its value if
    that is fixed."""
    if not isinstance(part, dict):
        return name + (f' ({part})' if part else '')
    if not part or part in measured(SCALED) + measured(INTEGER):
        return name
    if list(part) == STATUS:
        return name + (f' ({part["stVal"]})' if part['stVal'] else '')
    return f'{name} {{{", ".join(part_text(*it) for it in part.items())}}}'


def node_text(table):
    """The rows of a node, in the form of the page."""
    return '; '.join(f'{group} {", ".join(part_text(*it) for it in parts.items())}'
                     for group, parts in tree(table).items())


class Model(unittest.TestCase):
    def test_the_tables_are_read(self):
        """Each line of the tables is one that this test knows."""
        text = ''.join(body for _, body in bodies())
        count = len(re.findall(r'Structure|False|Intermediate|Invalid|Good|Int8|Int32|Unsigned8|'
                               r'Octets|Reference|Moment|Vendor|Revision|NameSpace|Description|'
                               r'Float|Local\b|LocalQuality|SwitchType|ControlModel|SelectTimeout|'
                               r'Multiplier', text))
        found = sum(len(table) for arms in TABLES.values() for table in arms.values())
        self.assertGreater(found, 300)
        self.assertEqual(found, count)

    def test_the_page_has_them(self):
        page = (TOP / 'docs' / 'PROTOCOL.md').read_text(encoding='utf-8')
        for profile in (1, 2):
            nodes = node_lines(profile)
            self.assertEqual(list(nodes), list(NODES[:len(nodes)]))
            wanted = [f'| {name} | {node_text(table)} |' for name, table in nodes.items()]
            heading = f'| Node in profile {profile} |'
            told = page.partition(f'\n{heading}')[2].partition('\n\n')[0].splitlines()[2:]
            self.assertEqual(told, wanted)

    def test_measured_values(self):
        """A meter with a scale has each value as an integer and as a float, in this order; another
        meter has the integer alone."""
        for profile, scaled, magnitude in ((1, False, INTEGER), (1, True, INTEGER),
                                           (2, False, INTEGER), (2, True, SCALED)):
            values = tree(node_lines(profile, scaled)['MMXUn'])['MX']
            value, phase = measured(magnitude)
            self.assertEqual(values, dict.fromkeys(('TotW', 'TotVAr', 'Hz'), value)
                             | {'A': dict.fromkeys(('phsA', 'phsB', 'phsC'), phase)})
            for found in (values['Hz'], values['A']['phsB']['cVal']):
                self.assertEqual(list(found['mag']), list(magnitude))


if __name__ == '__main__':
    unittest.main()
