"""What tools say of a server of profile 2: that its switches, inputs and meters are those of the
bay file, and the values of its inputs."""
import contextlib
import tomllib
import unittest

from baytools.bay.conditions import Condition, Variable
from baytools.bay.names import Names
from baytools.bay.scl import Writer, text_of
from baytools.bay.scl_reader import Reader
from baytools.panel.reasons import Seen, why_not
from baytools.panel.watch import Watcher, inputs_of, measures_of
from baytools.wire import mms
from baytools.wire.client import Client, Lost, Refused
from baytools.wire.control import Control
from baytools.wire.mms import BITS, BOOLEAN, FLOAT, INTEGER, STRUCTURE, TEXT, TIME, Data
from baytools.wire.same_bay import compare_with_server
from baytools.wire.words import value_text
from tests.tool import Tools
from tests.tools.loopback import needs_loopback
from tests.tools.served_model import Model
from tests.tools.test_client import Bay as Server, serve_once
from tests.tools.test_scl import FULL_BAY

PLAIN_BAY = FULL_BAY.replace('profile = 2\n', '').replace('scale = 3\n', '')
GOOD, INVALID = '0' * 13, '01' + '0' * 11


def model_of(text):
    """A server of a bay, whose rows have the values that the bay file gives."""
    file = tomllib.loads(text)
    reader = Reader(text_of(Writer(file).root('E', 'D', file['bay']['domain'], '127.0.0.1', None)))
    model = Model(reader.domain(), reader.nodes())
    for row, value in reader.values():
        is_text = model.below(row).startswith('visible-string')
        tag = TEXT if is_text else INTEGER if 'integer' in model.below(row) else mms.UNSIGNED
        model.values[row] = Data(tag, value if is_text else int(value))
    for at, switch in enumerate((it for it in file['switch'] if it['kind'] != 'breaker'), 1):
        number = {'disconnector': 2, 'earthing': 3}[switch['kind']]
        model.values[f'XSWI{at}$ST$SwTyp$stVal'] = Data(INTEGER, number)
    return model


@contextlib.contextmanager
def client_of(model, text):
    server = serve_once(Server(model))
    client = Client(*server.getsockname(), Names(text))
    try:
        yield client
    finally:
        client.close()
        server.close()


def differences(served, file):
    with client_of(model_of(served), file) as client:
        return compare_with_server(client, tomllib.loads(file)).lines()


@needs_loopback
class Differences(unittest.TestCase):
    def test_the_same_bay(self):
        for text in (FULL_BAY, PLAIN_BAY, FULL_BAY.partition('[[input]]')[0]):
            self.assertEqual(differences(text, text), [])

    def test_another_profile(self):
        self.assertEqual(differences(PLAIN_BAY, FULL_BAY),
                         ['the server has profile 1, the bay file has 2'])
        self.assertEqual(differences(FULL_BAY, PLAIN_BAY),
                         ['the server has profile 2, the bay file has 1'])

    def test_names(self):
        def swapped(text, one, other):
            return text.replace(one, '@').replace(other, one).replace('@', other)

        for served, lines in (
                (FULL_BAY.replace('"Q3"', '"Q7"'),
                 ['the server\'s CSWI3 has id \'Q7\', the bay file\'s Q3 has \'Q3\'']),
                (swapped(FULL_BAY, '"M1"', '"M2"'),
                 ['the server\'s MMXU1 has id \'M2\', the bay file\'s M1 has \'M1\'',
                  'the server\'s MMXU2 has id \'M1\', the bay file\'s M2 has \'M2\'']),
                (FULL_BAY.replace('"SF6_LOW"', '"SF6"'),
                 ['the server\'s Ind2 is input \'SF6\', the bay file\'s is \'SF6_LOW\'']),
                (FULL_BAY + '[[input]]\nname = "MORE"\n',
                 ['the server has input \'MORE\', which the bay file has not'])):
            self.assertEqual(differences(served, FULL_BAY), lines)
        without = FULL_BAY.replace('remote = "KEY"\n', '').replace('[[input]]\nname = "KEY"\n', '')
        without = without.replace('[[input]]\nname = "SF6_LOW"\n', '')
        self.assertEqual(differences(without, FULL_BAY), ['the server has no GGIO1$DC'])
        self.assertEqual(differences(FULL_BAY, without), [
            f'the server has {one}, which the bay file has not'
            for one in ('GGIO1', 'input \'KEY\'', 'input \'SF6_LOW\'')])


@needs_loopback
class Controls(Tools):
    def test_a_switch_of_another_name(self):
        """Also where the operator operates it anyway."""
        model = model_of(FULL_BAY.replace('"Q3"', '"Q7"'))
        with client_of(model, FULL_BAY) as client:
            for name in ('Q3', 'q3', 'CSWI3'):
                with self.assertRaisesRegex(Refused, '^Q3: the server says that CSWI3 is Q7, so '
                                            'nothing is operated$'):
                    Control(client, name)
            self.assertEqual(Control(client, 'Q1').name, 'Q1')
        with serve_once(Server(model)) as server:
            found = self.call_tool('client', '--bay', self.file('bay.toml', FULL_BAY),
                                   server.getsockname()[1], 'operate', 'Q3', 'close', '--anyway')
        self.assertEqual((found.status, found.error), (
            1, 'client: Q3: the server says that CSWI3 is Q7, so nothing is operated\n'))
        self.assertFalse([pdu for pdu in model.asked if pdu.service == 'write'])

    def test_a_switch_that_no_one_names(self):
        """Without a bay file, and at a server of profile 1, nothing is compared."""
        model = model_of(PLAIN_BAY)
        for text in (None, PLAIN_BAY, FULL_BAY):
            with client_of(model, text) as client:
                self.assertEqual(Control(client, 'CSWI3').model, 1)

    def test_its_key(self):
        model = model_of(FULL_BAY)
        for is_local, told in ((True, 'local'), (False, 'remote')):
            model.values['XCBR1$ST$Loc$stVal'] = Data(BOOLEAN, is_local)
            with client_of(model, FULL_BAY) as client:
                self.assertIn(f'; its key KEY is at {told}', Control(client, 'Q1').state(True))


class Titles(unittest.TestCase):
    def test_inputs_and_units(self):
        names = Names(FULL_BAY)
        for item, told in (
                ('GGIO1$ST$Ind2$stVal', 'GGIO1$ST$Ind2$stVal (SF6_LOW)'),
                ('GGIO1$DC$Ind1$d', 'GGIO1$DC$Ind1$d (KEY)'), ('GGIO1$ST$Ind3', 'GGIO1$ST$Ind3'),
                ('GGIO1$ST$Beh', 'GGIO1$ST$Beh'), ('GGIO1', 'GGIO1'),
                ('XCBR1$ST$Loc$stVal', 'XCBR1$ST$Loc$stVal (Q1)'),
                ('MMXU1$MX$TotW$mag$i', 'MMXU1$MX$TotW$mag$i (M1_TOTW, kW)'),
                ('MMXU1$MX$TotW$mag$f', 'MMXU1$MX$TotW$mag$f (M1_TOTW, kW)'),
                ('MMXU1$MX$A$phsC$cVal$mag$f', 'MMXU1$MX$A$phsC$cVal$mag$f (M1_AC, kA)'),
                ('MMXU1$CF$TotW$units', 'MMXU1$CF$TotW$units (M1_TOTW)'),
                ('MMXU2$MX$TotW$mag$i',
                 'MMXU2$MX$TotW$mag$i (M2_TOTW, in the unit of the process)')):
            self.assertEqual(names.titled(item), told)
        self.assertEqual(Names(PLAIN_BAY).titled('GGIO1$ST$Ind2'), 'GGIO1$ST$Ind2')

    def test_values(self):
        for item, value, told in (
                ('LLN0$ST$Health$stVal', Data(INTEGER, 3), '3 (alarm)'),
                ('XCBR1$ST$CBOpCap$stVal', Data(INTEGER, 2), '2 (open)'),
                ('MMXU1$CF$Hz$units', Data(STRUCTURE, [Data(INTEGER, 33), Data(INTEGER, -3)]),
                 '{SIUnit 33 (Hz), multiplier -3}'),
                ('MMXU1$MX$Hz$mag$f', Data(FLOAT, 50000.0), '50000.0'),
                ('MMXU1$MX$Hz', measured(50000, 50000.0),
                 '{mag {i 50000, f 50000.0}, q good, t 0 ms}'),
                ('MMXU1$MX$A$phsA', phase_of(measured(-7, -7.0)),
                 '{cVal {mag {i -7, f -7.0}}, q good, t 0 ms}'),
                ('MMXU2$MX$Hz', measured(50), '{mag {i 50}, q good, t 0 ms}'),
                ('GGIO1$ST$Ind1', Data(STRUCTURE, [Data(BOOLEAN, True), Data(BITS, GOOD),
                                                   Data(TIME, 5)]),
                 '{stVal TRUE, q good, t 5 ms}')):
            self.assertEqual(value_text(item, value), told)


def measured(value, more=None):
    """A measured value, with a float if its meter has a scale."""
    floats = [] if more is None else [Data(FLOAT, more)]
    return Data(STRUCTURE, [Data(STRUCTURE, [Data(INTEGER, value), *floats]), Data(BITS, GOOD),
                            Data(TIME, 0)])


def phase_of(value):
    """The measured value of a phase."""
    magnitude, *stamp = value.value
    return Data(STRUCTURE, [Data(STRUCTURE, [magnitude]), *stamp])


def input_data(value, quality=GOOD, moment=0):
    return Data(STRUCTURE, [Data(BOOLEAN, value), Data(BITS, quality), Data(TIME, moment)])


class Panels(unittest.TestCase):
    BEH = Data(STRUCTURE, [Data(INTEGER, 1), Data(BITS, GOOD), Data(TIME, 0)])

    def test_inputs(self):
        value = Data(STRUCTURE, [self.BEH, input_data(False, INVALID),
                                 input_data(True, moment=5)])
        self.assertEqual(inputs_of(['KEY', 'SF6_LOW'], value), [
            {'name': 'KEY', 'value': False, 'quality': 'invalid', 'moment': 0, 'time': ''},
            {'name': 'SF6_LOW', 'value': True, 'quality': 'good', 'moment': 5, 'time': '5 ms'}])
        for odd in (Data(STRUCTURE, [self.BEH]), Data(BOOLEAN, True),
                    Data(STRUCTURE, [self.BEH, self.BEH])):
            with self.assertRaises(Lost):
                inputs_of(['KEY'], odd)

    def test_units(self):
        plain = measured(7, 7.0)
        value = Data(STRUCTURE, [plain] * 3 + [Data(STRUCTURE, [phase_of(plain)] * 3)])
        units = [it['unit'] for it in measures_of({'id': 'M1', 'scale': 3}, value)]
        self.assertEqual(units, ['kW', 'kVAr', 'kHz', 'kA', 'kA', 'kA'])
        units = [it['unit'] for it in measures_of({'id': 'M1', 'scale': 5}, value)]
        self.assertEqual(units[0], '10^5 W')
        self.assertEqual({it['unit'] for it in measures_of({'id': 'M1'}, value)}, {''})

    def test_measured_values(self):
        """With floats and without, the panel shows the integers."""
        for numbers in ((7, 7.0), (7,)):
            plain = measured(*numbers)
            value = Data(STRUCTURE, [plain] * 3 + [Data(STRUCTURE, [phase_of(plain)] * 3)])
            found = measures_of({'id': 'M1'}, value)
            self.assertEqual([(it['name'], it['value'], it['quality']) for it in found], [
                (f'M1_{field}', 7, 'good')
                for field in ('TOTW', 'TOTVAR', 'HZ', 'AA', 'AB', 'AC')])
            with self.assertRaises(Lost):
                mixed = Data(STRUCTURE, [plain] * 3 + [Data(STRUCTURE, [plain] * 3)])
                measures_of({'id': 'M1'}, mixed)

    def test_why_not(self):
        key = Variable('KEY', ('0', '1'), True)
        condition = Condition([[]], facts=[[(key, ['1'])]])
        self.assertEqual(why_not(condition, Seen({}, {}, {'KEY': False})),
                         'input KEY is 0 and must be 1')
        self.assertIn('a timer may still run', why_not(condition, Seen({}, {}, {'KEY': True})))

    def test_events(self):
        watcher = Watcher(tomllib.loads(FULL_BAY), FULL_BAY, '127.0.0.1', 1)
        value = Data(STRUCTURE, [self.BEH, input_data(True), input_data(False, INVALID)])
        found = inputs_of(watcher.inputs, value)
        watcher.compare_inputs(found)
        watcher.state['inputs'] = found
        watcher.compare_inputs(found)
        self.assertEqual([it['told'] for it in watcher.events],
                         ['input KEY is TRUE', 'input SF6_LOW is not known'])

    @needs_loopback
    def test_a_whole_read(self):
        for text, count in ((FULL_BAY, 2), (PLAIN_BAY, 0)):
            server = serve_once(Server(model_of(text)))
            self.addCleanup(server.close)
            watcher = Watcher(tomllib.loads(text), text, *server.getsockname())
            watcher.connect()
            self.addCleanup(watcher.client.close)
            self.assertTrue(watcher.read_once())
            self.assertEqual(len(watcher.state['inputs']), count)


if __name__ == '__main__':
    unittest.main()
