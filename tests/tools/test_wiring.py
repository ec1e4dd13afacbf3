"""The wiring of a bay to modules: what is refused, what samples come to, and the table of
terminals."""
import unittest
from unittest import mock

from baytools.fieldbus.gpio_lines import GPIO
from baytools.fieldbus.keyed import Miswired
from baytools.fieldbus.modbus_tcp import MODBUS
from baytools.fieldbus.samples import (BAD, CLOSED, ENDS, INTERMEDIATE, OPEN, Held, Sampled,
                                       double_point, line_of, measured_value, rank)
from baytools.fieldbus.terminals import page, sheet
from baytools.fieldbus.wiring import wiring_of
from tests.tool import Tools

BAY = {'bay': {'domain': 'E1', 'revision': '2'},
       'switch': [{'id': 'QA1', 'control': 'sbo-enhanced', 'travel_ms': 400},
                  {'id': 'QC1', 'control': 'status'}],
       'input': [{'name': 'ES'}, {'name': 'OK'}], 'meter': [{'id': 'M1'}]}
WIRING = '''not_wired = ["M1 TOTW", "m1 totvar", "M1 HZ", "M1 AB", "M1 AC"]
[[module]]
name = "io"
host = "127.0.0.1"
port = 502
alive = "OK"
[[switch]]
id = "qa1"
open = 0
closed = 1
open_coil = 0
close_coil = 1
pulse_ms = 100
remote = 6
[[switch]]
id = "QC1"
open = 3
closed = 4
magnet_coil = 2
[[input]]
name = "ES"
contact = 2
fault = false
[[measure]]
meter = "M1"
field = "AA"
register = 0
type = "int16"
'''
SECOND = '[[module]]\nname = "io2"\nhost = "127.0.0.1"\nport = {}\n'


def without(header, text=WIRING):
    """The wiring without the first table of a header."""
    at = text.index(f'[[{header}]]')
    end = text.find('[[', at + 2)
    return text[:at] + (text[end:] if end > 0 else '')


def edit(old, new):
    assert old in WIRING
    return WIRING.replace(old, new, 1)


# What is told, and the wiring that is refused.
WRONG = [
    ('it is no TOML', 'switch = '),
    ('it has a number or a list that exceeds', 'a = ' + '9' * 5000),
    ('it has no module: write a table', without('module')),
    ('line 6: module io: poll_ms is 1: write a whole number from 5 to 60,000',
     edit('port = 502', 'port = 502\npoll_ms = 1')),
    (r'line 5: module io: timeout_ms is \'x\'', edit('port = 502', 'timeout_ms = "x"')),
    ('line 5: module io: port is 70000: write a whole number from 1 to 65,535',
     edit('port = 502', 'port = 70000')),
    ('module 1: name is missing: write a text in quotes', edit('name = "io"\n', '')),
    ('line 8: module io: it is there twice: give each module a name of its own',
     edit('[[switch]]', SECOND.format(503).replace('io2', 'io') + '[[switch]]')),
    ('module io2: module io has the same address: join the two',
     edit('[[switch]]', SECOND.format(502) + '[[switch]]')),
    ('switch QA1: module is missing: write one of io, io2',
     edit('[[switch]]', SECOND.format(503) + '[[switch]]')),
    ('module io2: nothing is wired to it: leave it out',
     edit('[[switch]]', SECOND.format(503) + '[[switch]]').replace(
         'open = 0', 'module = "io"\nopen = 0').replace(
         'open = 3', 'module = "io"\nopen = 3').replace(
         'contact = 2', 'module = "io"\ncontact = 2').replace(
         'register = 0', 'module = "io"\nregister = 0')),
    ('line 3: module io: setup is .*: write .*REGISTER, VALUE',
     edit('name = "io"', 'setup = [[1, 2, 3]]\nname = "io"')),
    ('module io: counter is 65536', edit('port = 502', 'port = 502\ncounter = 65536')),
    ('module io: doubt_ms is -1', edit('port = 502', 'port = 502\ndoubt_ms = -1')),
    ('line 6: module io: colour means nothing here: leave it out',
     edit('alive = "OK"', 'colour = 1\nalive = "OK"')),
    ('module io: the bay has no input NO: write one of ES, OK', edit('alive = "OK"',
                                                                   'alive = "no"')),
    ('module io: it has measures, which keep their last number when it fails: name an input',
     edit('alive = "OK"\n', '')),
    ('module io: input ES is wired twice: leave one out', edit('"OK"', '"ES"')),
    ('line 8: switch 1: the bay has no switch QA9: write one of QA1, QC1', edit('"qa1"', '"QA9"')),
    ('switch QC1 is wired twice', edit('"qa1"', '"QC1"').replace(
        'open_coil = 0\nclose_coil = 1\npulse_ms = 100\nremote = 6\n', '')),
    ('switch QA1 of the bay is not wired: write a table .*switch', without('switch')),
    ('line 13: switch QA1: pulse_ms is 500, longer than travel_ms of the bay file, after which '
     'the operate is over: write at most 400', edit('pulse_ms = 100', 'pulse_ms = 500')),
    ('switch QA1: pulse_ms is missing: write how long', edit('pulse_ms = 100\n', '')),
    ('switch QA1: pulse_ms is 5: write a whole number from 10 to 400',
     edit('pulse_ms = 100', 'pulse_ms = 5')),
    ('switch QA1: it has pulse and pulse_ms: leave one out',
     edit('pulse_ms = 100', 'pulse_ms = 100\npulse = "position"')),
    ('switch QA1: pulse is \'time\': write one of position', edit('pulse_ms = 100',
                                                                'pulse = "time"')),
    ('line 12: switch QA1: close_coil is -1', edit('close_coil = 1', 'close_coil = -1')),
    ('switch QA1: open_coil is missing', edit('open_coil = 0\n', '')),
    ('switch QA1: closed is True', edit('closed = 1', 'closed = true')),
    ('switch QA1: debounce_ms is 1000000000.0', edit('remote = 6', 'debounce_ms = 1e9')),
    ('switch QA1: invert is .*: write a list of some of open, closed, remote',
     edit('remote = 6', 'invert = ["ajar"]')),
    ('switch QA1: invert names remote, and there is none', edit('remote = 6',
                                                              'invert = ["remote"]')),
    ('switch QC1: open_coil means nothing here: leave it out .the switch is not controlled',
     edit('magnet_coil = 2', 'open_coil = 2')),
    ('switch QC1: remote means nothing here', edit('magnet_coil = 2', 'remote = 2')),
    ('module io: coil 0 is wired twice, for QA1 open and for QA1 close: give each a coil',
     edit('close_coil = 1', 'close_coil = 0')),
    ('module io: coil 1 is wired twice, for QA1 close and for the magnet of QC1',
     edit('magnet_coil = 2', 'magnet_coil = 1')),
    ('module io: contact 1 is wired twice, for QA1 closed and for input ES',
     edit('contact = 2', 'contact = 1')),
    ('module io: its contacts 0 and 2000 are too far apart: one request reads 2,000',
     edit('contact = 2', 'contact = 2000')),
    ('input 1: the bay has no input EX', edit('name = "ES"', 'name = "EX"')),
    ('input ES: contact is missing', edit('contact = 2', '')),
    ('line 20: input ES: fault is missing: write true or false, the value that blocks: the server '
     'is told it while the module is not heard', edit('fault = false\n', '')),
    ('line 23: input ES: fault is 0: write true or false, the value', edit('fault = false',
                                                                         'fault = 0')),
    ('input ES: invert is 1: write true or false', edit('contact = 2', 'contact = 2\ninvert = 1')),
    ('input ES of the bay is not wired: .* or name "ES" in not_wired', without('input')),
    ('measure M1 AA of the bay is not wired: .* or name "M1 AA"', without('measure')),
    ('meter M1: the field is AX: write one of TOTW', edit('"AA"', '"AX"')),
    ('measure 1: the bay has no meter M2: write one of M1', edit('meter = "M1"', 'meter = "M2"')),
    ('measure M1 AA: type is \'int8\': write one of int16, uint16, int32', edit('int16', 'int8')),
    ('measure M1 AA: a measure of int16 has one word: leave word_order out',
     edit('type = "int16"', 'type = "int16"\nword_order = "low first"')),
    ('measure M1 AA: word_order is \'up\': write one of high first, low first',
     edit('type = "int16"', 'type = "int32"\nword_order = "up"')),
    ('measure M1 AA: scale is 0: write what one of the register stands for',
     edit('type = "int16"', 'type = "int16"\nscale = 0')),
    ('measure M1 AA: scale is nan', edit('type = "int16"', 'type = "int16"\nscale = nan')),
    ('measure M1 AA: valid is .*: write .LEAST, MOST., the least first',
     edit('type = "int16"', 'type = "int16"\nvalid = [5, 5]')),
    ('measure M1 AA: valid is', edit('type = "int16"', 'type = "int16"\nvalid = [false, true]')),
    ('measure M1 AA: deadband is -1', edit('type = "int16"', 'type = "int16"\ndeadband = -1')),
    ('measure M1 AA: register is 65535: write a whole number from 0 to 65,534',
     edit('register = 0\ntype = "int16"', 'register = 65535\ntype = "int32"')),
    ('register 0 is wired twice, for M1 AA and for the counter',
     edit('alive = "OK"', 'alive = "OK"\ncounter = 0')),
    ('its registers 0 and 125 are too far apart', edit('alive = "OK"',
                                                       'alive = "OK"\ncounter = 125')),
    ('the wiring: not_wired has M1 XX: write an input', edit('"M1 HZ"', '"M1 XX"')),
    ('the wiring: input ES is wired twice', edit('"M1 HZ"', '"M1 HZ", "ES"').replace(
        '[[input]]', '[[input]]\n')),
    ('measure M1 HZ is wired twice', edit('"M1 HZ"', '"M1 HZ", "M1 HZ"')),
    ('the wiring: lamp means nothing here: leave it out', 'lamp = 1\n' + WIRING),
    ('input: write its tables as ..input', edit('[[input]]', '[input]')),
    ('module 1: it must be a table', 'module = [1]\n'),
]


class Keys(unittest.TestCase):
    """An input that is the key of a switch."""
    KEYED = {**BAY, 'switch': [{**BAY['switch'][0], 'remote': 'es'}, BAY['switch'][1]]}

    def test_what_is_read_of_it(self):
        text = edit('contact = 2', 'contact = 6')
        found, = wiring_of(text, self.KEYED, MODBUS)
        key, = found.inputs
        self.assertEqual((key.contact, key.fault), (found.switches[0].remote, False))
        sampled = Sampled(found)
        self.assertEqual(sampled.forget()['input', 'ES'], 0)
        for is_on, at, told in ((True, 1.0, 0), (True, 2.0, 1), (False, 2.1, 0)):
            bits = dict.fromkeys(found.contacts(), is_on)
            self.assertEqual(sampled.take(bits, {0: 0}, at)['input', 'ES'], told)
            self.assertEqual(sampled.is_remote(found.switches[0]), is_on)

    def test_what_is_refused(self):
        for told, text in (
                ('input ES: it is TRUE while the key of QA1 is at remote: write fault = false',
                 edit('fault = false', 'fault = true')),
                ('input ES: .* the same contact is inverted the other way',
                 edit('contact = 2', 'contact = 6\ninvert = true')),
                ('module io: OK is the key of QA1: name another input', None)):
            bay = self.KEYED
            if text is None:
                text = WIRING
                bay = {**BAY, 'switch': [{**BAY['switch'][0], 'remote': 'OK'}, BAY['switch'][1]]}
            with self.assertRaisesRegex(Miswired, told):
                wiring_of(text, bay, MODBUS)
        wiring_of(edit('fault = false', 'fault = true'), BAY, MODBUS)


class Wirings(unittest.TestCase):
    def test_a_wiring(self):
        module, = wiring_of(WIRING, BAY, MODBUS)
        self.assertEqual((module.alive, module.commands(), module.coils(), module.contacts(),
                          module.registers()),
                         ('OK', [0, 1], [0, 1, 2], [0, 1, 3, 4, 2, 6], [0]))

    def test_wrong_wirings(self):
        for told, text in WRONG:
            with self.assertRaisesRegex(Miswired, told):
                wiring_of(text, BAY, MODBUS)

    def test_a_bay_file_that_is_wrong_itself(self):
        bay = BAY | {'switch': [{'id': 'QA1', 'control': 'sbo'}]}
        with self.assertRaisesRegex(Miswired, 'QA1 of the bay file has no travel_ms'):
            wiring_of(WIRING, bay, MODBUS)

    def test_lines_have_no_registers(self):
        text = WIRING.replace('host = "127.0.0.1"\nport = 502', 'chip = "/dev/gpiochip0"')
        with self.assertRaisesRegex(Miswired, 'these modules have no registers'):
            wiring_of(text, BAY, GPIO)
        with self.assertRaisesRegex(Miswired, 'setup means nothing here'):
            wiring_of(text.replace('alive', 'setup = []\nalive'), BAY, GPIO)


class Samples(unittest.TestCase):
    def test_double_points(self):
        self.assertEqual([double_point(*bits) for bits in (
            (False, False), (True, False), (False, True), (True, True))],
            [INTERMEDIATE, OPEN, CLOSED, BAD])

    def test_an_end_counts_once_it_has_stood(self):
        held = Held(0.02, BAD, INTERMEDIATE, ENDS)
        found = [held.take(value, at / 100) for at, value in enumerate(
            [OPEN, OPEN, OPEN, CLOSED, OPEN, CLOSED, CLOSED, CLOSED, BAD, CLOSED])]
        self.assertEqual(found, [BAD, BAD, OPEN, INTERMEDIATE, INTERMEDIATE, INTERMEDIATE,
                                 INTERMEDIATE, CLOSED, BAD, BAD])

    def test_intermediate_and_bad_count_at_once(self):
        held = Held(10, BAD, INTERMEDIATE, ENDS)
        self.assertEqual([held.take(INTERMEDIATE, 0), held.take(BAD, 0.1)], [INTERMEDIATE, BAD])

    def test_what_blocks_is_told_first(self):
        told = [(('contact', 'A'), OPEN), (('input', 'OK'), 0), (('measure', 'M', 'AA'), 5),
                (('contact', 'B'), BAD), (('input', 'E'), 1), (('input', 'OK'), 1)]
        self.assertEqual([rank(*one, {'OK'}, ()) for one in told], [3, 0, 2, 1, 3, 4])
        told = [(('input', name), value) for name in ('TRIP', 'ES') for value in (0, 1)]
        self.assertEqual([rank(*one, (), {'TRIP'}) for one in told], [3, 1, 1, 3])

    def measure(self, more, registers):
        text = edit('type = "int16"', more)
        module, = wiring_of(text, BAY, MODBUS)
        return measured_value(module.measures[0], dict(enumerate(registers)))

    def test_measures(self):
        for more, registers, value in (
                ('type = "int16"', [65_535], -1), ('type = "uint16"', [65_535], 65_535),
                ('type = "int32"', [1, 2], 65_538), ('type = "int32"', [65_535, 65_534], -2),
                ('type = "int32"\nword_order = "low first"', [2, 1], 65_538),
                ('type = "int16"\nscale = 0.1\noffset = -5', [200], 15),
                ('type = "uint16"\nvalid = [0, 100]', [100], 100),
                ('type = "uint16"\nvalid = [0, 100]', [101], None),
                ('type = "int32"\nscale = 10', [0x7FFF, 0], None),
                ('type = "int32"\nscale = 10\nvalid = [0, 1e12]', [0x7FFF, 0], None)):
            self.assertEqual(self.measure(more, registers), value, more)

    def test_a_measure_is_told_where_it_differs(self):
        module, = wiring_of(edit('type = "int16"', 'type = "int16"\ndeadband = 2\nvalid = [0, 99]'),
                            BAY, MODBUS)
        sampled, bits = Sampled(module), dict.fromkeys(range(7), False)
        found = [sampled.take(bits, {0: value}, 0)['measure', 'M1', 'AA']
                 for value in (10, 12, 13, 12, 100, 13)]
        self.assertEqual(found, [10, 10, 13, 13, None, 13])
        self.assertEqual(sampled.forget()['measure', 'M1', 'AA'], None)
        self.assertEqual(line_of(('measure', 'M1', 'AA'), None), 'measure M1 AA bad')

    def test_inverted_contacts(self):
        module, = wiring_of(edit('contact = 2', 'contact = 2\ninvert = true').replace(
            'remote = 6', 'remote = 6\ninvert = ["open", "remote"]'), BAY, MODBUS)
        sampled = Sampled(module)
        self.assertFalse(sampled.is_remote(module.switches[0]))
        bits = dict.fromkeys(range(7), False)
        sampled.take(bits, {0: 0}, 0)
        found = sampled.take(bits, {0: 0}, 1)
        self.assertEqual((found['contact', 'QA1'], found['input', 'ES']), (OPEN, 1))
        self.assertTrue(sampled.is_remote(module.switches[0]))

    def test_an_input_that_blocks_while_it_is_true(self):
        """TRUE counts at once, FALSE once it has stood; and it is TRUE of a lost module."""
        module, = wiring_of(edit('fault = false', 'fault = true\ndebounce_ms = 20'), BAY, MODBUS)
        sampled, bits = Sampled(module), dict.fromkeys(range(7), False)
        point = 'input', 'ES'
        self.assertEqual(sampled.forget()[point], 1)
        for at, is_on, told in ((0, False, 1), (0.01, False, 1), (0.02, False, 0), (0.03, True, 1),
                                (0.04, False, 1), (0.07, False, 0)):
            self.assertEqual(sampled.take(bits | {2: is_on}, {0: 0}, at)[point], told, at)
        self.assertEqual(sampled.forget()[point], 1)

    def test_a_counter_that_stands(self):
        module, = wiring_of(edit('alive = "OK"', 'alive = "OK"\ncounter = 5'), BAY, MODBUS)
        sampled = Sampled(module)
        found = [sampled.is_counter_stuck({5: count}, at)
                 for count, at in ((1, 0), (1, 0.2), (1, 0.3), (2, 0.4), (2, 0.5))]
        self.assertEqual(found, [False, False, True, False, False])


class Sheets(Tools):
    def print_sheet(self, text=WIRING):
        bay = self.file('bay.toml', '''[bay]
domain = "E1"
vendor = "V"
model = "M"
revision = "<2>"
scan_max_age_ms = 500
[[switch]]
id = "QA1"
kind = "breaker"
control = "sbo-enhanced"
sbo_timeout_ms = 5000
travel_ms = 400
[[switch]]
id = "QC1"
kind = "earthing"
control = "status"
[[input]]
name = "ES"
[[input]]
name = "OK"
[[meter]]
id = "M1"
''')
        return ['--bay', bay, '--wiring', self.file('wiring.toml', text)]

    def test_the_table(self):
        found = self.call_tool('modbus', *self.print_sheet(), '--check')
        self.assertEqual((found.status, found.error), (0, ''))
        for line in ('       2  000003     coil            QC1 magnet',
                     '       1  100002     discrete input  QA1 closed     QA1 is closed: TRUE at '
                     '1, counts once it has stood for 20 ms',
                     '       0  300001     input register  M1 AA          int16, times 1',
                     '1 module, 2 switches, 1 input, 1 measure: 10 terminals; on none: M1 TOTW, M1 '
                     'TOTVAR, M1 HZ, M1 AB, M1 AC'):
            self.assertIn(line, found.out)

    def test_a_key_at_which_the_driver_does_not_look(self):
        words = self.print_sheet(edit('remote = 6\n', ''))
        bay = words[1]
        bay.write_text(bay.read_text().replace('travel_ms = 400\n',
                                               'travel_ms = 400\nremote = "ES"\n'))
        told = 'WARNING: QA1 has a key in the bay file, and no remote here'
        found = self.call_tool('modbus', *words, '--check')
        self.assertEqual((found.status, found.error), (0, ''))
        self.assertIn(told, found.out)
        words[3].write_text(WIRING)
        self.assertNotIn(told, self.call_tool('modbus', *words, '--check').out)
        words[3].write_text(without('input', edit('["M1 TOTW"', '["ES", "M1 TOTW"')))
        self.assertIn('WARNING: ES, the key of QA1, is wired to nothing: every operate of QA1 is '
                      'refused.', self.call_tool('modbus', *words, '--check').out)
        words[3].write_text(edit('fault = false', 'fault = true'))
        self.assertIn('write fault = false', self.call_tool('modbus', *words, '--check').error)
        with mock.patch('baytools.fieldbus.command_line.all_off', mock.AsyncMock()) as off:
            self.assertEqual(self.call_tool('modbus', *words, '--off').status, 0)
        off.assert_awaited_once()

    def test_inputs_of_a_lost_module(self):
        for value, frees, lost in (('true', 'FALSE', 'TRUE'), ('false', 'TRUE', 'FALSE')):
            text = edit('fault = false', f'fault = {value}')
            found = self.call_tool('modbus', *self.print_sheet(text), '--check')
            self.assertIn(f'input ES: TRUE at 1, {frees} counts once it has stood for 20 ms; '
                          f'{lost} while the module is not heard', found.out)

    def test_the_page(self):
        found = self.call_tool('modbus', *self.print_sheet(), '--check', '--html', 'page.html')
        text = (self.folder / 'page.html').read_text()
        self.assertEqual((found.status, text.count('<tr>')), (0, 12))
        self.assertIn('Revision &lt;2&gt;', text)

    def test_a_bay_file_that_bayctl_refuses(self):
        """Nothing is driven by it, but coils go off."""
        words = self.print_sheet()
        bay = self.folder / 'bay.toml'
        bay.write_text(bay.read_text().replace('scan_max_age_ms = 500\n', ''))
        found = self.call_tool('modbus', *words, '--process', 1)
        self.assertIn('bay.toml is refused with 51: ', found.error)
        found = self.call_tool('modbus', *words, '--off')
        self.assertIn('module io: its coils may be on: no connection', found.out)

    def test_what_does_not_go_together(self):
        words = self.print_sheet()
        for more, told in ((['--html', 'x'], '--html is of --check'), ([], '--process is missing'),
                           (['--play', 'x'], '--wiring does not go with --play')):
            found = self.call_tool('modbus', *words, *more)
            self.assertEqual((found.status, told in found.error), (2, True), found.error)
        found = self.call_tool('modbus', *self.print_sheet('x = 1'), '--check')
        self.assertEqual((found.status, found.error),
                         (1, f'modbus: {self.folder}/wiring.toml: it has no module: write a table '
                          '[[module]]\n'))

    def test_a_text_and_a_page_say_the_same(self):
        modules = wiring_of(WIRING, BAY, MODBUS)
        text, html = '\n'.join(sheet(modules, MODBUS)), page(modules, MODBUS, ('E1', '2'), [])
        for told in ('QA1 at remote', 'on for 100 ms', 'on while QC1 may be moved by hand'):
            self.assertTrue(told in text and told in html, told)


if __name__ == '__main__':
    unittest.main()
