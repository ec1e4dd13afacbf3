"""Acceptance tests: their words, at a replay and at a served bay that a test plays, their page."""
import socket
import threading
import tomllib
import unittest
from unittest import mock

from baytools.acceptance.steps import BadSteps, read_steps, steps_of
from baytools.common.positions import OF_BITS
from baytools.wire import mms
from baytools.wire.ber import element, number
from baytools.wire.mms import BITS, BOOLEAN, INTEGER, OCTETS, STRUCTURE, TEXT, UNSIGNED, Data
from tests.tool import Tools
from tests.tools.loopback import needs_loopback
from tests.tools.test_client import Bay, respond, serve_once
from tests.tools.test_same_bay import Model

BAY = '''[bay]
domain = "E1"
vendor = "V"
model = "M"
revision = "1"
scan_max_age_ms = 500
[[switch]]
id = "QA1"
kind = "breaker"
control = "sbo-enhanced"
sbo_timeout_ms = 5000
travel_ms = 2000
[[switch]]
id = "QB1"
kind = "disconnector"
control = "sbo"
sbo_timeout_ms = 5000
travel_ms = 2000
[[input]]
name = "KEY"
[[meter]]
id = "M1"
'''
FILE = tomllib.loads(BAY)
KEYED = tomllib.loads(BAY.replace('travel_ms = 2000\n', 'travel_ms = 2000\nremote = "Key"\n'))
BITS_OF = {place: bits for place, bits in zip('0123', OF_BITS)}
STEPS = '''section Off load
expect position QA1 unknown   # comment
do contact qa1 open
do contact QB1 open
do input KEY 1
do measure M1 AA 5
do wait 20ms
expect position QA1 open
expect released QB1 close
do operate QB1 close
expect accepted
expect command QB1 close
section On load
do contact QA1 closed
expect blocked QB1 open
do operate QA1 open
expect refused 10
expect no command
'''


class Gear(Model):
    """A bay whose switches may be moved while QA1 is open: what a server of it answers."""

    def __init__(self) -> None:
        super().__init__(BAY)
        self.orders = []
        for place in (1, 2):
            self.set(place, '00', '01')
        self.scan()

    def set(self, place, bits, quality):
        self.rows[f'CSWI{place}$ST$Pos$stVal'] = Data(BITS, bits)
        self.rows[f'CSWI{place}$ST$Pos$q'] = Data(BITS, quality + '0' * 11)

    def scan(self):
        self.is_free = self.rows['CSWI1$ST$Pos$stVal'].value == '01'
        for row in ('CILO1$ST$EnaOpn', 'CILO1$ST$EnaCls', 'CILO2$ST$EnaOpn', 'CILO2$ST$EnaCls'):
            self.rows[f'{row}$stVal'] = Data(BOOLEAN, self.is_free)

    def tell(self, line):
        """A line of the process, without its time."""
        verb, *words = line.split(' ')
        if verb == 'contact':
            self.set(1 + ['QA1', 'QB1'].index(words[0]), BITS_OF[words[1]], '00')
        self.scan()

    def __call__(self, pdu):
        control = pdu.names[0] if pdu.service == 'write' else ''
        if control.endswith('$Oper') and self.is_free:
            on = pdu.data[0].value[0].value
            self.orders.append(f'QB1 {"on" if on else "off"}' if 'CSWI2' in control else 'QA1')
        elif control.endswith('$Oper'):
            origin = Data(STRUCTURE, [Data(INTEGER, 2), Data(OCTETS, b'')])
            error = Data(STRUCTURE, [Data(TEXT, control), Data(INTEGER, 0), origin,
                                     Data(UNSIGNED, 0), Data(INTEGER, 10)])
            yield element(0xA3, element(0xA0, element(0xA0, element(0x30, element(
                0xA0, element(0x80, b'LastApplError')))), element(0xA0, mms.octets_of(error))))
            yield respond(pdu.invoke, 0xA5, number(0x80, 3))
            return
        yield from super().__call__(pdu)


def replay(octets, bayctl, report=None):
    """What a replay of a scenario prints, by the same bay."""
    gear = Gear()
    talk, printed = Bay(gear), ['instructions=0 depth=0 budget=0']
    for line in octets.decode().split('%%\n')[2].splitlines():
        moment, verb, *words = line.split(' ')
        if verb == 'recv':
            for got in talk.stream.feed(bytes.fromhex(words[1])):
                printed += [f'{moment} send 1 {it.hex()}' for it in talk.answer_octets(got)]
            printed += [f'{moment} command {it}' for it in gear.orders]
            gear.orders.clear()
        elif verb == 'scan':
            printed.append(f'{moment} scan steps=0 QA1=00 QB1=00')
        else:
            gear.tell(f'{verb} {" ".join(words)}')
    return '\n'.join(printed) + '\n', 0


class Steps(unittest.TestCase):
    def read(self, text):
        return read_steps('steps', text, FILE)

    def test_words(self):
        first, second = self.read(STEPS)
        self.assertEqual((first.title, second.title), ('Off load', 'On load'))
        self.assertEqual([it.told for it in steps_of([first]) if it.told], [
            'contact QA1 1', 'contact QB1 1', 'input KEY 1', 'measure M1 AA 5'])
        self.assertEqual([(it.line, it.switch, it.way) for it in second.steps if it.switch],
                         [(15, 'QB1', 'open'), (16, 'QA1', 'open')])
        self.assertEqual([it.time for it in first.steps if it.kind == 'wait'], [20])
        self.assertEqual([it.cause for it in second.steps if it.kind == 'refused'], [10])

    def test_keys(self):
        def tried_keys(text):
            return [it.tried for it in steps_of(read_steps('steps', text, KEYED)) if it.is_expected]

        local = 'do key QA1 local\ndo operate QA1 open\n'
        self.assertEqual([it.told for it in steps_of(read_steps(
            'steps', 'do key qa1 remote\n' + local, KEYED)) if it.told],
            ['input KEY 1', 'input KEY 0'])
        for text, found in (
                (local + 'expect refused 2\n', ['QA1']), (local + 'expect refused\n', ['']),
                (local + 'expect refused 10\n', ['']), (local + 'expect accepted\n', ['']),
                ('do operate QA1 open\nexpect refused 2\n', ['QA1']),  # it begins at local
                ('do key QA1 remote\ndo operate QA1 open\nexpect refused 2\n', ['']),
                ('do input KEY 1\ndo operate QB1 open\nexpect refused\n', ['']),
                ('do key QB1 remote\ndo lost\ndo operate QB1 open\nexpect refused\n', ['QB1']),
                ('do select QB1 open\nexpect refused\n', ['']),
                (local + 'do key QA1 remote\nexpect refused 2\n', ['QA1'])):
            self.assertEqual(tried_keys(text), found, text)

    def test_lines_that_are_no_steps(self):
        for text, told in (
                ('', 'it has no step'), ('section X\n', 'it has no step'),
                ('go\n', 'line 1: go is no step'), ('do fly QA1\n', 'line 1: do fly QA1 is no'),
                ('do contact QX open\n', 'QX'), ('do input NONE 1\n', 'NONE'),
                ('\ndo contact QA1 ajar\n', 'line 2: the form is do contact SWITCH'),
                ('do contact QA1\n', 'the form is'), ('do input KEY 2\n', '0 or 1'),
                ('do key QA1 local\n', 'QA1 has no key'), ('do key QA1 1\n', 'the form is do key'),
                ('do measure M1 XX 1\n', 'XX'), ('do wait soon\n', 'soon is not a time'),
                ('do operate QX open\n', 'QX is not a switch'), ('do lost now\n', 'the form is'),
                ('expect refused\n', 'nothing was asked before'),
                ('expect accepted\n', 'nothing was asked before'),
                ('do operate QB1 open\nexpect refused 10\n',
                 'QB1 is sbo: the server sends no cause'),
                ('do operate QB1 open\nexpect ended\n', 'QB1 is sbo'),
                ('do operate QA1 open\nexpect refused 99\n', '99 is no cause'),
                ('expect no commands\n', 'the form is expect no command'),
                ('expect released QA1 on\n', 'the form is')):
            with self.assertRaisesRegex(BadSteps, told):
                self.read(text)


class Replays(Tools):
    def setUp(self) -> None:
        super().setUp()
        self.bay = self.file('bay', BAY)
        self.logic = self.file('logic', 'PROGRAM P\nEND_PROGRAM\n')

    def accept(self, steps, *more):
        with mock.patch('baytools.acceptance.on_trace.report_of_replay', replay):
            return self.call_tool('acceptance', self.file('steps', steps), '--bay', self.bay,
                                  '--logic', self.logic, *more)

    def test_a_test_that_passes(self):
        found = self.accept(STEPS)
        self.assertEqual((found.out, found.error, found.status),
                         ('PASSED: 16 steps, 8 expectations, all passed\n', '', 0))

    def test_a_test_that_fails(self):
        for wrong, told in (
                (('QA1 unknown', 'QA1 open'), 'line 2: expect position QA1 open: FAILED: unknown'),
                (('released QB1 close', 'blocked QB1 close'), 'FAILED: released'),
                (('expect accepted', 'expect refused'), 'FAILED: accepted'),
                (('refused 10', 'refused 9'), 'FAILED: refused: blocked by interlocking (10)'),
                (('refused 10', 'accepted'), 'FAILED: refused: blocked by interlocking (10)'),
                (('refused 10', 'ended'), 'FAILED: no end is reported'),
                (('command QB1 close', 'command QB1 open'), 'FAILED: command: close QB1'),
                (('command QB1 close', 'no command'), 'FAILED: command: close QB1'),
                (('blocked QB1 open', 'released QB1 open'), 'FAILED: blocked')):
            found = self.accept(STEPS.replace(*wrong))
            self.assertEqual((found.error, found.status), ('', 1), wrong)
            self.assertIn(told, found.out)
            self.assertIn('FAILED: 16 steps, 8 expectations, of which 1 failed\n', found.out)

    def test_a_key_that_no_step_tries(self):
        self.bay = self.file('bay', BAY.replace('[[input]]', 'remote = "KEY"\n[[input]]'))
        found = self.accept(STEPS)
        self.assertEqual((found.out, found.status), (
            'FAILED: 16 steps, 8 expectations: no step tries the key of QB1 at local\n', 1))
        tried = 'do key QB1 local\ndo operate QB1 close\nexpect refused\n'
        self.assertEqual(self.accept(STEPS + tried, '--html', 'page.html').status, 0)
        self.assertIn('PASSED: 19 steps', (self.folder / 'page.html').read_text())
        failed = self.accept(f'{STEPS}do contact QA1 open\n{tried}')
        self.assertIn('line 22: expect refused: FAILED: accepted\n', failed.out)
        self.assertEqual(failed.status, 1)

    def test_nothing_is_expected(self):
        found = self.accept('do lost\n')
        self.assertEqual((found.out, found.status),
                         ('FAILED: 1 step, 0 expectations: nothing is expected\n', 1))

    def test_the_page(self):
        self.accept(STEPS.replace('refused 10', 'refused 9'), '--html', 'page.html')
        text = (self.folder / 'page.html').read_text()
        for told in ('Acceptance test of bay E1', 'FAILED: 16 steps', '<h3>Off load</h3>',
                     '<code>contact qa1 open</code>', '<code>refused 9</code>',
                     'refused: blocked by interlocking (10)', '>FAIL</span>', '>pass</span>',
                     'Tested by', 'Accepted by', 'by a replay of', 'SHA-256'):
            self.assertIn(told, text)

    def test_the_scenario(self):
        self.accept(STEPS, '--scenario', 'kept')
        lines = (self.folder / 'kept').read_text().split('%%\n')[2].splitlines()
        self.assertEqual(lines[:2], ['1000 scan', '1000 open 1'])
        self.assertIn('1010 contact QA1 1', lines)
        moments = [int(line.split(' ')[0]) for line in lines]
        self.assertEqual(moments, sorted(moments))

    def test_statuses(self):
        steps = self.file('steps', 'expect accepted\n')
        base = [steps, '--bay', self.bay]
        for words, status in (
                ([*base], 2), ([*base, '--port', 1], 2),
                ([*base, '--logic', self.logic, '--process-key', 'k'], 2),
                ([*base, '--port', 1, '--process', 2, '--scenario', 's'], 2),
                (['none', '--bay', self.bay, '--logic', self.logic], 3),
                ([*base, '--logic', self.logic], 3),
                ([*base, '--logic', self.logic, '--html', 'none/page'], 3)):
            found = self.call_tool('acceptance', *words)
            self.assertEqual((found.status, found.out, found.error.count('\n')), (status, '', 1))
        refused = self.bayctl('load refused 72 line 7\n', 1)
        steps.write_text('do lost\n')
        number = self.file('number', BAY.replace('2000\n[[input]]', '2000\nremote = 5\n[[input]]'))
        found = self.call_tool('acceptance', steps, '--bay', number, '--logic', self.logic)
        self.assertEqual((found.status, found.error.count('\n')), (3, 1))
        self.assertIn('this is not a bay file; tools/diagnose tells what is wrong', found.error)
        found = self.call_tool('acceptance', *base, '--logic', self.logic, '--bayctl', refused)
        self.assertEqual((found.status, found.error),
                         (1, 'acceptance: load refused 72 line 7 (tools/diagnose tells why)\n'))


class Port:
    """The port of a process: what it tells goes to the gear, and commands come back."""

    def __init__(self, gear, greeting='') -> None:
        self.gear, self.greeting, self.heard = gear, greeting, []
        self.server = socket.create_server(('127.0.0.1', 0))
        threading.Thread(target=self.run, daemon=True).start()

    def run(self) -> None:
        try:
            while True:
                connection, _ = self.server.accept()
                with connection, connection.makefile('rw') as file:
                    self.talk(connection, file)
        except OSError:
            pass

    def talk(self, connection, file) -> None:
        connection.sendall(self.greeting.encode())
        threading.Thread(target=self.command, args=(connection,), daemon=True).start()
        for line in file:
            _, _, told = line.rstrip('\n').partition(' ')
            self.heard.append(told)
            self.gear.tell(told)

    def command(self, connection) -> None:
        try:
            while True:
                while self.gear.orders:
                    connection.sendall(f'5 command {self.gear.orders.pop(0)}\n'.encode())
                threading.Event().wait(0.01)
        except OSError:
            pass


@needs_loopback
class ServedBays(Tools):
    def accept(self, steps, greeting='', *more):
        gear = Gear()
        port = Port(gear, greeting)
        with serve_once(Bay(gear)) as server, port.server, \
                mock.patch('baytools.acceptance.on_server.compare_with_server',
                           lambda *given: mock.Mock(lines=list)), \
                mock.patch('baytools.acceptance.on_server.PATIENCE', 0.3):
            found = self.call_tool(
                'acceptance', self.file('steps', steps), '--bay', self.file('bay', BAY), '--port',
                server.getsockname()[1], '--process', port.server.getsockname()[1], *more)
        return found, port.heard

    def test_the_same_steps(self):
        found, heard = self.accept(STEPS)
        self.assertEqual((found.out, found.error, found.status),
                         ('PASSED: 16 steps, 8 expectations, all passed\n', '', 0))
        self.assertEqual(heard[:4], ['contact QA1 1', 'contact QB1 1', 'input KEY 1',
                                     'measure M1 AA 5'])

    def test_what_is_not_as_expected(self):
        wrong = STEPS.replace('refused 10', 'refused 9').replace('QB1 close\nsec', 'QB1 open\nsec')
        found, _ = self.accept(wrong)
        self.assertEqual(found.status, 1)
        self.assertIn('FAILED: refused: blocked by interlocking (10)', found.out)
        self.assertIn('expect command QB1 open: FAILED: command: close QB1', found.out)

    def test_a_supervised_bay(self):
        found, heard = self.accept(STEPS, '5000 process 400 E1 1\n', '--process-key', self.file(
            'key', '0123456789abcdef0123456789abcdef'))
        self.assertEqual(found.status, 0, found)
        self.assertEqual(heard[0], 'bay 0123456789abcdef0123456789abcdef E1 1')
        self.assertIn('alive', heard)
        found, _ = self.accept(STEPS, '5000 process 400 E2 1\n')
        self.assertEqual((found.status, found.error.count('\n')), (1, 1))
        found, _ = self.accept(STEPS, '', '--process-key', self.folder / 'key')
        self.assertEqual(found.status, 1)
        self.assertIn('the server does not greet: it is no supervised port', found.error)

    def test_a_line_that_the_server_refuses(self):
        found, _ = self.accept('do contact QA1 open\ndo wait 50ms\n', '5 refused 113\n')
        self.assertEqual(found.status, 3)
        self.assertIn('the server refuses a line (113)', found.error)

    def test_no_server(self):
        with socket.socket() as one:
            one.bind(('127.0.0.1', 0))
            port = one.getsockname()[1]
            found = self.call_tool('acceptance', self.file('steps', STEPS), '--bay',
                                   self.file('bay', BAY), '--port', port, '--process', port)
        self.assertEqual((found.status, found.error), (
            3, f'acceptance: port {port} of 127.0.0.1: no server listens there\n'))


if __name__ == '__main__':
    unittest.main()
