"""The SCL file of a bay: its elements in the order of the schema, the names that it tells, and a
server that is held against it."""
import re
import socket
import tomllib
import unittest
import xml.etree.ElementTree as ET

from baytools.bay import scl, scl_reader
from baytools.bay.scl import NAMESPACE, Writer, text_of
from baytools.bay.scl_reader import NoModel, Reader
from baytools.common.paths import TOP
from baytools.wire import mms
from baytools.wire.mms import Data
from baytools.wire.words import NODES, nodes_of
from tests.tool import Tools
from tests.tools.loopback import needs_loopback
from tests.tools.served_model import Model
from tests.tools.test_client import Bay, serve_once

EXAMPLES = sorted((TOP / 'examples').glob('*/bay.toml'))
FULL_BAY = '''# A bay of profile 2, with all that its model may have.
[bay]
domain = "BAY1"
vendor = "Demo"
model = "BC1"
revision = "1.0"
scan_max_age_ms = 1000
profile = 2
''' + ''.join(f'''[[switch]]
id = "Q{at}"
kind = "{kind}"
control = "{control}"
{times}''' for at, (kind, control, times) in enumerate((
    ('breaker', 'sbo', 'sbo_timeout_ms = 2000\ntravel_ms = 500\nremote = "KEY"\n'),
    ('disconnector', 'sbo-enhanced', 'sbo_timeout_ms = 2000\ntravel_ms = 500\n'),
    ('disconnector', 'direct', 'travel_ms = 500\n'), ('earthing', 'status', '')), 1)) + '''
[[input]]
name = "KEY"
[[input]]
name = "SF6_LOW"
[[meter]]
id = "M1"
scale = 3
[[meter]]
id = "M2"
'''
CASES = TOP / 'crates' / 'layer_cases' / 'stdin'
ORDER = {  # IEC 61850-6: the children of an element, in their order
    'SCL': ['Header', 'Substation', 'Communication', 'IED', 'DataTypeTemplates'],
    'Substation': ['VoltageLevel'], 'VoltageLevel': ['Voltage', 'Bay'],
    'Bay': ['ConductingEquipment', 'ConnectivityNode'], 'ConductingEquipment': ['Terminal'],
    'Communication': ['SubNetwork'], 'SubNetwork': ['BitRate', 'ConnectedAP'],
    'ConnectedAP': ['Address'], 'Address': ['P'],
    'IED': ['Services', 'AccessPoint'], 'AccessPoint': ['Server'],
    'Services': ['DynAssociation', 'GetDirectory', 'GetDataObjectDefinition', 'ReadWrite'],
    'Server': ['Authentication', 'LDevice'], 'LDevice': ['LN0', 'LN', 'AccessControl'],
    'LN0': ['DOI'], 'LN': ['DOI'], 'DOI': ['SDI', 'DAI'], 'SDI': ['SDI', 'DAI'],
    'DAI': ['Val'],
    'DataTypeTemplates': ['LNodeType', 'DOType', 'DAType', 'EnumType'],
    'LNodeType': ['DO'], 'DOType': ['SDO', 'DA'], 'DAType': ['BDA'], 'EnumType': ['EnumVal'],
    **dict.fromkeys(('Header', 'Authentication', 'P', 'DO', 'SDO', 'DA', 'BDA', 'Val', 'EnumVal',
                     'DynAssociation', 'GetDirectory', 'GetDataObjectDefinition', 'ReadWrite'), ())}
NAMED, SOME = '[A-Za-z][A-Za-z0-9_]{0,63}', r'\S.*'
WORD = '[A-Za-z0-9][A-Za-z0-9_]{0,31}'
NEEDED = {  # the attributes that an element must have, and their form
    'Header': {'id': SOME, 'nameStructure': 'IEDName'}, 'SubNetwork': {'name': SOME},
    'ConnectedAP': {'iedName': NAMED, 'apName': WORD}, 'P': {'type': SOME},
    'IED': {'name': NAMED, 'manufacturer': SOME}, 'AccessPoint': {'name': WORD},
    'LDevice': {'inst': '[A-Za-z0-9][A-Za-z0-9_]{0,63}'},
    'LN0': {'lnClass': 'LLN0', 'inst': '', 'lnType': SOME},
    'LN': {'lnClass': '[A-Z]{4}', 'inst': '[0-9]{1,12}', 'lnType': SOME},
    'DOI': {'name': '[A-Z][A-Za-z0-9]{0,11}'}, 'SDI': {'name': '[a-z][A-Za-z0-9]{0,59}'},
    'DAI': {'name': '[a-zA-Z][A-Za-z0-9]{0,59}'},
    'LNodeType': {'id': SOME, 'lnClass': 'LLN0|[A-Z]{4}'}, 'DOType': {'id': SOME, 'cdc': '[A-Z]+'},
    'DO': {'name': '[A-Z][A-Za-z0-9]{0,11}', 'type': SOME},
    'SDO': {'name': '[a-z][A-Za-z0-9]{0,59}', 'type': SOME},
    'DA': {'name': '[a-zA-Z][A-Za-z0-9]{0,59}', 'fc': 'ST|MX|CO|CF|DC', 'bType': SOME},
    'DAType': {'id': SOME}, 'BDA': {'name': '[a-zA-Z][A-Za-z0-9]{0,59}', 'bType': SOME},
    'EnumType': {'id': SOME}, 'EnumVal': {'ord': '-?[0-9]+'}}
LEAVES = {  # the type that a client sees of a row, by the kind of its value in the cases
    'Truth': 'boolean', 'Int8': 'integer 8', 'Int32': 'integer 32', 'Unsigned8': 'unsigned 8',
    'Unsigned32': 'unsigned 32', 'Float': 'floating-point 32 8', 'Dbpos': 'bit-string 2',
    'Quality': 'bit-string 13',
    'Utc': 'utc-time', 'Octets': 'octet-string -64', 'Reference': 'visible-string -129',
    'Text': 'visible-string -255'}

BAYS = [*(bay.read_text(encoding='utf-8') for bay in EXAMPLES), FULL_BAY]


def scl_text(bay):
    file = tomllib.loads(bay)
    domain = file['bay']['domain']
    return text_of(Writer(file).root('TEMPLATE', 'LD0', domain, '127.0.0.1', 10102))


def names(shape):
    """The names below a shape, without what stands for a leaf."""
    return {name: names(part) if isinstance(part, dict) else None for name, part in shape.items()}


def rows(shape, above=''):
    """The names below a shape in their order, each with its type, or None where more stand below
    it."""
    for name, part in shape.items():
        is_more = isinstance(part, dict)
        yield above + name, None if is_more else part
        yield from rows(part, f'{above}{name}$') if is_more else ()


def read_cases():
    """Bay files with the rows that the cases give them: names with types."""
    file = ''
    for part in ('\n' + CASES.read_text(encoding='utf-8')).split('\n== '):
        kind, *lines = part.split('\n')
        if kind == 'bay':
            file = '\n'.join(lines)
        elif kind == 'rows':
            yield file, [row_of(line) for line in lines if line and line[0] != '#']


def row_of(line):
    name, _, value = line.partition(' ')
    return name, None if value == 'None' else LEAVES[re.match(r'Some\((\w+)\(', value)[1]]


class Scl(Tools):
    def test_it_tells_the_rows_of_the_cases(self):
        cases = list(read_cases())
        self.assertTrue(cases)
        for file, wanted in cases:
            for words in ([], ['--ied', 'BAY']):
                found = self.call_tool('scl', self.file('bay.toml', file), *words)
                self.assertEqual(found.status, 0, found.error)
                told = Reader(found.out)
                self.assertEqual(told.domain(), 'BAY1')
                self.assertEqual(list(rows(told.nodes())), wanted)

    def test_bays_that_are_refused(self):
        text = BAYS[0]
        first, second = re.findall(r'^id *= "(\w+)"', text, re.M)[:2]
        for odd, code, told in (
                (text + '[[oddity]]\n', 52, 'section oddity: there is no section oddity'),
                (text.replace(f'"{second}"', f'"{first}"', 1), 54,
                 f'would both have a point {first}_POS'),
                (re.sub('^vendor.*', 'vendor = "M\u00fcller"', text, flags=re.M), 53,
                 "[bay], key vendor: the character '\u00fc' is not from space to ~"),
                (re.sub('^kind', 'sort', text, flags=re.M), 52, 'there is no key sort here'),
                ('', 51, 'the section [bay] is missing')):
            found = self.call_tool('scl', self.file('bay.toml', odd))
            self.assertEqual((found.status, found.out, found.error.count('\n')), (1, '', 1))
            self.assertIn(f'bay.toml is refused with {code}: ', found.error)
            self.assertIn(told, found.error)

    def test_attributes_are_those_of_the_schema(self):
        for bay in BAYS:
            for element in ET.fromstring(scl_text(bay)).iter():
                name = scl_reader.bare(element)
                for key, form in NEEDED.get(name, {}).items():
                    self.assertRegex(element.get(key, 'none'), f'^(?:{form})$', f'{name} {key}')

    def test_elements_stand_in_the_order_of_the_schema(self):
        for bay in BAYS:
            root = ET.fromstring(scl_text(bay))
            self.assertEqual(root.tag, f'{{{NAMESPACE}}}SCL')
            for element in root.iter():
                name = scl_reader.bare(element)
                found = [ORDER[name].index(scl_reader.bare(child)) for child in element
                         if scl_reader.bare(child)]
                self.assertEqual(found, sorted(found), f'{bay[:40]}: {name}')

    def test_nodes_have_the_names_that_the_tools_know(self):
        for bay in BAYS:
            for node, shape in Reader(scl_text(bay)).nodes().items():
                known = [names(kind) for kind in nodes_of(node)]
                self.assertIn(names(shape), known, f'{bay[:40]}: {node}')

    def test_a_name_stands_once(self):
        for bay in BAYS:
            root = ET.fromstring(scl_text(bay))
            for element in root.iter():
                kinds = [(child.tag, child.get('id') or child.get('name')) for child in element
                         if child.get('id') or child.get('name')]
                self.assertEqual(len(kinds), len(set(kinds)), f'{bay[:40]}: {element.tag}')

    def test_each_type_that_is_named_is_there(self):
        for bay in BAYS:
            root = ET.fromstring(scl_text(bay))
            there = {element.get('id') for element in root.iter()}
            named = {element.get('type') for element in root.iter() if scl_reader.bare(element)
                     in ('DO', 'SDO', 'DA', 'BDA')} | {element.get('lnType')
                                                       for element in root.iter()}
            self.assertLessEqual(named - {None}, there)

    def test_the_edition(self):
        """There is no file for masters of edition 1, whose controls the server refuses."""
        root = ET.fromstring(scl_text(BAYS[0]))
        self.assertEqual((root.get('version'), root.get('revision')), ('2007', 'B'))
        self.assertIn('ENC', {element.get('cdc') for element in root.iter()})
        found = self.call_tool('scl', EXAMPLES[0], '--edition', '1', '--ied', 'E')
        self.assertEqual((found.status, found.out), (2, ''))

    def test_the_device_keeps_its_name(self):
        bay = EXAMPLES[0]
        domain = tomllib.loads(bay.read_text())['bay']['domain']
        run = self.call_tool('scl', bay, '--ied', domain[:-1])
        self.assertEqual(Reader(run.out).domain(), domain)
        self.assertEqual(Reader(self.call_tool('scl', bay).out).domain(), domain)

    def test_words_that_do_not_fit(self):
        self.assertEqual(self.call_tool('scl', EXAMPLES[0], '--ied', 'OTHER').status, 2)
        for words in (['--port', '0'], ['--port', '65536'], ['--address', '1.2.3'],
                      ['--ied', '5A'], ['--ied', '']):
            found = self.call_tool('scl', EXAMPLES[0], *words)
            self.assertEqual((found.status, found.out, found.error.count('\n')),
                             (2, '', 1), words)
        self.assertEqual(self.call_tool('scl', 'none.toml').status, 3)

    def test_ids_are_unique_over_all_kinds(self):
        for bay in BAYS:
            ids = [element.get('id') for element in Reader(scl_text(bay)).templates]
            self.assertEqual(len(ids), len(set(ids)))

    def test_nodes_stand_as_the_device_lists_them(self):
        file = {'switch': [{'id': name, 'kind': kind, 'control': 'status'} for name, kind in (
            ('QB1', 'disconnector'), ('QA1', 'breaker'), ('QC1', 'earthing'), ('QA2', 'breaker'))]}
        nodes = [(kind, place, told) for kind, place, _, told, _ in scl.nodes_of(file)]
        self.assertEqual(nodes[2:6],
                         [('XCBR', 1, 'QA1'), ('XCBR', 2, 'QA2'), ('XSWI', 1, 'QB1'),
                          ('XSWI', 2, 'QC1')])

    def test_what_changes_and_what_is_fixed(self):
        root = ET.fromstring(scl_text(BAYS[0]))
        for element in root.iter():
            if scl_reader.bare(element) == 'DA':
                name, constraint = element.get('name'), element.get('fc')
                self.assertEqual(element.get('qchg'), 'true' if name == 'q' else None)
                self.assertEqual(element.get('dchg'), 'true' if name in (
                    'stVal', 'stSeld', 'mag', 'cVal') else None)
                self.assertEqual(element.get('valKind'), 'RO' if constraint in ('CF', 'DC')
                                 else None)

    def test_the_port(self):
        self.assertIn('<P type="MMS-Port">10102</P>', scl_text(BAYS[0]))

    def test_the_nodes_are_all_of_the_shapes(self):
        self.assertEqual({name: len(shapes) for name, shapes in NODES.items()}, {
            'LLN0': 2, 'LPHD': 1, 'XCBR': 2, 'XSWI': 2, 'CSWI': 8, 'CILO': 2, 'MMXU': 3,
            'GGIO': 64})

    def test_what_is_lacking_is_told_of_profile_1_alone(self):
        full, plain = scl_text(FULL_BAY), scl_text(FULL_BAY.replace('profile = 2\n', ''))
        self.assertIn('An importer may complain', plain)
        self.assertIn('There are no data sets', plain)
        self.assertNotIn('complain', full)
        self.assertIn('There are no data sets', full)

    def test_the_values_that_it_gives(self):
        given = dict(Reader(scl_text(FULL_BAY)).values())
        for row, value in {
                'LLN0$DC$NamPlt$configRev': '1.0', 'LLN0$DC$NamPlt$d': 'BC1',
                'LLN0$DC$NamPlt$ldNs': 'IEC 61850-7-4:2007B', 'LLN0$CF$Mod$ctlModel': '0',
                'XSWI3$DC$NamPlt$d': 'Q4', 'CSWI2$DC$NamPlt$d': 'Q2',
                'CILO1$DC$NamPlt$swRev': '1.0',
                'CSWI2$CF$Pos$ctlModel': '4', 'CSWI2$CF$Pos$sboTimeout': '2000',
                'MMXU1$CF$TotW$units$SIUnit': '62', 'MMXU1$CF$TotVAr$units$SIUnit': '63',
                'MMXU1$CF$Hz$units$SIUnit': '33', 'MMXU1$CF$A$phsC$units$SIUnit': '5',
                'MMXU1$CF$A$phsB$units$multiplier': '3', 'MMXU2$DC$NamPlt$d': 'M2',
                'GGIO1$DC$NamPlt$d': 'BC1', 'GGIO1$DC$Ind1$d': 'KEY',
                'GGIO1$DC$Ind2$d': 'SF6_LOW'}.items():
            self.assertEqual(given[row], value, row)
        self.assertNotIn('MMXU2$CF$TotW$units$SIUnit', given)

    def test_a_meter_with_a_scale_has_floats(self):
        nodes = Reader(scl_text(FULL_BAY)).nodes()
        integer, number = {'i': 'integer 32'}, {'f': 'floating-point 32 8'}
        for node, magnitude in (('MMXU1', integer | number), ('MMXU2', integer)):
            measured = nodes[node]['MX']
            found = [measured[name]['mag'] for name in ('TotW', 'TotVAr', 'Hz')]
            found += [measured['A'][name]['cVal']['mag'] for name in ('phsA', 'phsB', 'phsC')]
            self.assertEqual([list(it.items()) for it in found], [list(magnitude.items())] * 6)
        plain = Reader(scl_text(FULL_BAY.replace('profile = 2\n', '').replace('scale = 3\n', '')))
        self.assertNotIn('FLOAT32', [it.get('bType') for it in plain.root.iter()])

    def test_each_scale_has_a_word(self):
        for scale in range(-6, 7):
            text = scl_text(FULL_BAY.replace('scale = 3', f'scale = {scale}'))
            self.assertEqual(dict(Reader(text).values())['MMXU1$CF$TotW$units$multiplier'],
                             str(scale))

    def test_files_without_a_model(self):
        text = scl_text(FULL_BAY)
        for odd, told in (('<SCL', 'this is no XML'), ('<SCL/>', 'has no DataTypeTemplates'),
                          (text.replace('IED', 'DEI'), 'there is no IED'),
                          (text.replace('id="Beh_DO"', 'id="Heb_DO"'), 'there is no DOType Beh_DO'),
                          (text.replace('62">Watts', '62">W'), "has no 'Watts'")):
            with self.assertRaisesRegex(NoModel, told):
                reader = Reader(odd)
                self.assertTrue(reader.nodes())
                self.assertTrue(dict(reader.values()))


@needs_loopback
class Checks(Tools):
    """A server that is held against an SCL file."""

    def model(self, bay=FULL_BAY):
        reader = Reader(scl_text(bay))
        tags = {'integer': mms.INTEGER, 'unsigned': mms.UNSIGNED, 'visible-string': mms.TEXT}
        model = Model(reader.domain(), reader.nodes())
        for row, text in reader.values():
            tag = tags[model.below(row).split()[0]]
            model.values[row] = Data(tag, text if tag == mms.TEXT else int(text))
        return model

    def check(self, model, bay=FULL_BAY, *more):
        with serve_once(Bay(model)) as server:
            found = self.call_tool('scl', self.file('bay.icd', scl_text(bay)), '--check',
                                   server.getsockname()[1], *more)
        self.assertEqual(found.error, '')
        return found.status, found.out.splitlines()

    def test_a_server_with_the_model(self):
        for bay in BAYS:
            model = self.model(bay)
            status, lines = self.check(model, bay)
            self.assertEqual((status, lines), (
                0, [f'the server has the model of {self.folder / "bay.icd"}']))
        classes = [pdu.code[0] for pdu in model.asked if pdu.service == 'names']
        self.assertEqual(classes, [9, 2, 0])
        read = [name.partition('/')[2] for pdu in model.asked if pdu.service == 'read'
                for name in pdu.names]
        self.assertFalse([it for it in read if '$CO' in it])
        self.assertIn('GGIO1$DC', read)

    def test_how_a_server_differs(self):
        def with_row(name):
            def change(model):
                above, _, last = name.rpartition('$')
                model.below(above)[last] = 'boolean'
            return change

        def without(name):
            def change(model):
                above, _, last = name.rpartition('$')
                del (model.below(above) if above else model.nodes)[last]
            return change

        def with_type(name, kind):
            return lambda model: model.types.update({name: kind})

        def with_value(name, value):
            return lambda model: model.values.update({name: value})

        for change, told in (
                (lambda it: it.domains.append('OTHER'),
                 'the server has the logical device OTHER, and the file has it not'),
                (lambda it: it.lists.append('LLN0$Alarms'),
                 'the server has the data set LLN0$Alarms, and the file has it not'),
                (without('GGIO1$ST$Ind2'),
                 'the file has the row GGIO1$ST$Ind2, and the server has it not'),
                (without('CILO3'), 'the file has the row CILO3, and the server has it not'),
                (with_row('XCBR1$ST$Loc$d'),
                 'the server has the row XCBR1$ST$Loc$d, and the file has it not'),
                (without('MMXU1$MX$Hz$mag$f'),
                 'the file has the row MMXU1$MX$Hz$mag$f, and the server has it not'),
                (with_row('MMXU2$MX$Hz$mag$f'),
                 'the server has the row MMXU2$MX$Hz$mag$f, and the file has it not'),
                (with_type('MMXU1$MX$A$phsB$cVal$mag$f', 'floating-point 64 11'),
                 'MMXU1$MX$A$phsB$cVal$mag$f is of type floating-point 64 11 at the server, and '
                 'floating-point 32 8 in the file'),
                (with_value('MMXU1$MX$Hz$mag$f', Data(mms.INTEGER, 50)),
                 'a read of MMXU1$MX$Hz$mag$f has not the type floating-point 32 8'),
                (with_value('MMXU1$MX$Hz$mag$f', Data(mms.FLOAT, bytes([11] + [0] * 8))),
                 'a read of MMXU1$MX$Hz$mag$f has not the type floating-point 32 8'),
                (with_type('LLN0$ST$Health$stVal', 'integer 32'),
                 'LLN0$ST$Health$stVal is of type integer 32 at the server, and integer 8 in the '
                 'file'),
                (with_value('XCBR1$ST$Loc$stVal', Data(mms.INTEGER, 1)),
                 'a read of XCBR1$ST$Loc$stVal has not the type boolean'),
                (with_value('XCBR1$ST$Loc$q', Data(mms.BITS, '00')),
                 'a read of XCBR1$ST$Loc$q has not the type bit-string 13'),
                (with_value('CSWI2$DC$NamPlt$d', Data(mms.TEXT, 'Q3')),
                 'CSWI2$DC$NamPlt$d is Q3 at the server, and Q2 in the file'),
                (with_value('MMXU1$CF$Hz$units$multiplier', Data(mms.INTEGER, -3)),
                 'MMXU1$CF$Hz$units$multiplier is -3 at the server, and 3 in the file')):
            model = self.model()
            change(model)
            status, lines = self.check(model)
            self.assertEqual((status, lines[0]), (1, told))

    def test_a_float_that_a_file_gives(self):
        """It is compared as a number: the server has the float that is nearest to it."""
        for text, value, told in (('16777217', 16777216, ''), ('0.1', 0.1, ''), ('1e3', 1000, ''),
                                  ('0.1', 0.2, '0.2 at the server, and 0.1 in the file'),
                                  ('none', 5, '5.0 at the server, and none in the file')):
            model = self.model()
            model.values['MMXU1$MX$Hz$mag$f'] = Data(mms.FLOAT, float(value))
            given = scl_text(FULL_BAY).replace('<DOI name="Hz">', f'''<DOI name="Hz">
                <SDI name="mag"><DAI name="f"><Val>{text}</Val></DAI></SDI>''', 1)
            with serve_once(Bay(model)) as server:
                found = self.call_tool('scl', self.file('bay.icd', given), '--check',
                                       server.getsockname()[1])
            self.assertEqual((found.status, found.error), (1 if told else 0, ''))
            if told:
                self.assertEqual(found.out.splitlines()[0], f'MMXU1$MX$Hz$mag$f is {told}')

    def test_another_device_and_another_order(self):
        model = self.model()
        model.domains = ['OTHER']
        self.assertEqual(self.check(model)[1], [
            'the server has the logical device OTHER, and the file has it not',
            'the file has the logical device BAY1, and the server has it not'])
        model = self.model()
        status = model.nodes['CILO1']['ST']
        model.nodes['CILO1']['ST'] = dict(sorted(status.items(), reverse=True))
        self.assertEqual(self.check(model)[1][:2], [
            'the server lists CILO1$ST$EnaOpn where the file has CILO1$ST$Beh',
            'CILO1$ST has the parts EnaOpn, EnaCls, Beh at the server, and Beh, EnaOpn, EnaCls in '
            'the file'])

    def test_what_can_not_be_checked(self):
        file = self.file('bay.icd', scl_text(FULL_BAY))
        with socket.create_server(('127.0.0.1', 0)) as server:
            port = server.getsockname()[1]
        found = self.call_tool('scl', file, '--check', port, '--ied', 'E05')
        self.assertEqual((found.status, found.error), (
            3, f'scl: {file}: there is no IED E05\n'))
        found = self.call_tool('scl', file, '--check', port)
        self.assertEqual((found.status, found.error.count('\n')), (3, 1))
        found = self.call_tool('scl', 'none.icd', '--check', port)
        self.assertEqual((found.status, found.error.count('\n')), (3, 1))


if __name__ == '__main__':
    unittest.main()
