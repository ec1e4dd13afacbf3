"""Modules that tools/modbus plays, with a plant behind them, and a driver on them."""
import signal
import socket
import struct
import subprocess
import sys
import time
import unittest

from baytools.common.paths import TOOLS, TOP
from baytools.fieldbus.modbus_tcp import MODBUS
from baytools.fieldbus.plant import Mistyped, Plant
from baytools.fieldbus.playing import answer_of
from baytools.fieldbus.wiring import wiring_of
from devtools.served import Running, free_port, until
from tests.tool import Tools
from tests.tools.fake_module import FakeServer
from tests.tools.loopback import needs_loopback

EXAMPLE = TOP / 'examples' / '10_remote_io'
BAY = {'bay': {}, 'switch': [{'id': 'QA1', 'control': 'direct', 'travel_ms': 100},
                             {'id': 'QC1', 'control': 'status'}],
       'input': [{'name': 'ES'}, {'name': 'OK'}], 'meter': [{'id': 'M1'}]}
WIRING = '''not_wired = ["M1 TOTVAR", "M1 HZ", "M1 AA", "M1 AB", "M1 AC"]
[[module]]
name = "io"
host = "127.0.0.1"
alive = "OK"
counter = 9
[[switch]]
id = "QA1"
open = 0
closed = 1
open_coil = 0
close_coil = 1
pulse_ms = 50
remote = 5
invert = ["open", "remote"]
[[switch]]
id = "QC1"
open = 2
closed = 3
magnet_coil = 2
[[input]]
name = "ES"
contact = 4
invert = true
fault = false
[[measure]]
meter = "M1"
field = "TOTW"
register = 0
type = "int32"
word_order = "low first"
scale = 0.5
offset = -100
'''


class Plants(unittest.TestCase):
    def setUp(self):
        self.said = []
        self.plant = Plant(wiring_of(WIRING, BAY, MODBUS), self.said.append)
        self.module, = self.plant.modules

    def contacts(self, count=6):
        return [int(self.module.contact(at)) for at in range(count)]

    def test_contacts(self):
        """QA1 is open (its contact is 0 then), QC1 open, ES FALSE, the key at remote."""
        self.assertEqual(self.contacts(), [0, 0, 1, 0, 1, 0])
        self.plant.typed('es 1')
        self.plant.typed('QA1 local')
        self.assertEqual(self.contacts(), [0, 0, 1, 0, 0, 1])

    def test_a_coil_moves_a_switch(self):
        self.module.put(1, True)
        self.assertEqual(self.contacts(2), [1, 0])  # (intermediate, and open is inverted)
        time.sleep(0.06)
        self.plant.arrive()
        self.module.put(1, False)
        self.assertEqual(self.contacts(2), [1, 1])
        self.assertEqual([told.split(' after')[0] for told in self.said],
                         ['io coil 1 (QA1 close) on', 'QA1 moves', 'QA1 is closed',
                          'io coil 1 (QA1 close) off'])

    def test_both_coils(self):
        self.module.put(0, True)
        self.module.put(1, True)
        self.assertIn('both coils of QA1 are on', self.said)

    def test_hands(self):
        with self.assertRaisesRegex(Mistyped, 'the magnet of QC1 blocks it'):
            self.plant.typed('QC1 close')
        self.module.put(2, True)
        self.plant.typed('QC1 close')
        self.assertEqual(self.contacts(4)[2:], [0, 0])
        self.plant.typed('QA1 stuck')
        self.module.put(1, True)
        self.assertNotIn('QA1 moves', self.said)
        for line in ('QA1 up', 'QB1 open', 'M1 AX 5', 'ES 2', 'x', 'QC1 local', 'M1 TOTW 9e9',
                     'M1 TOTW 99999999999'):
            with self.assertRaises(Mistyped):
                self.plant.typed(line)

    def test_measures(self):
        self.plant.typed('M1 TOTW -151')
        self.assertEqual([self.module.register(at) for at in (0, 1)], [65_434, 65_535])

    def test_answers(self):
        for request, answer in (
                ('01 0000 0003', '01 01 00'), ('02 0000 0006', '02 01 14'),
                ('02 0000 0009', '02 02 1400'), ('04 0009 0001', '04 02 0001'),
                ('05 0001 FF00', '05 0001 FF00'), ('01 0000 0003', '01 01 02'),
                ('05 0001 0000', '05 0001 0000'), ('06 1120 01F4', '06 1120 01F4'),
                ('03 1120 0001', '03 02 01F4'), ('07', '87 01'), ('10 0000 0001', '90 01'),
                ('05 0001 1234', '85 03'), ('01 0000 0000', '81 03'), ('01 0000 07D1', '81 03'),
                ('04 0000 007E', '84 03'), ('02 FFFF 0002', '82 02')):
            found = answer_of(self.module, bytes.fromhex(request))
            self.assertEqual(found, bytes.fromhex(answer), request)


@needs_loopback
class Played(Tools):
    def wiring(self):
        """The example's wiring with free ports."""
        text = (EXAMPLE / 'wiring.toml').read_text()
        self.ports = [free_port(), free_port()]
        for old, new in zip(('10502', '10503'), self.ports):
            text = text.replace(old, str(new))
        return self.file('wiring.toml', text)

    def test_a_host_that_is_another(self):
        path = self.wiring()
        path.write_text(path.read_text().replace('127.0.0.1', '192.0.2.1', 1))
        found = self.run_tool('modbus', '--bay', EXAMPLE / 'bay.toml', '--play', path)
        self.assertEqual((found.status, found.error),
                         (1, 'modbus: module io1: host is 192.0.2.1, and modules are played on '
                          'this machine alone: write "127.0.0.1"\n'))

    def test_the_watchdog_of_a_module(self):
        words = [TOOLS / 'modbus', '--bay', EXAMPLE / 'bay.toml', '--play', self.wiring()]
        with Running(sys.executable, '-B', *words) as played:
            played.waits_for('played: io1')
            with socket.create_connection(('127.0.0.1', self.ports[0])) as one:
                for pdu in ('06 1120 0064', '05 0000 FF00'):
                    octets = bytes.fromhex(pdu)
                    one.sendall(struct.pack('>HHHB', 1, 0, 1 + len(octets), 1) + octets)
                    one.recv(100)
                played.waits_for('by the watchdog of the module')

    def test_a_driver_on_played_modules(self):
        """A command moves the breaker; a module without power is bad, and comes again."""
        wiring, server = self.wiring(), FakeServer('E06 1.0')
        self.addCleanup(server.end)
        words = [sys.executable, '-B', TOOLS / 'modbus', '--bay', EXAMPLE / 'bay.toml']
        with Running(*words, '--play', wiring, stdin=subprocess.PIPE) as played, \
                Running(*words, '--wiring', wiring, '--process', server.port) as driver:
            def types(line):
                played.run.stdin.write(f'{line}\n'.encode())
                played.run.stdin.flush()

            until(lambda: server.last('contact QA1') == '1', 'QA1 is open')
            until(lambda: server.last('input IO2_OK') == '1', 'io2 is heard')
            types('M1 AA 212')
            until(lambda: server.last('measure M1 AA') == '212', 'a measure')
            server.send_lines('command QA1 on')
            until(lambda: server.last('contact QA1') == '2', 'QA1 is closed')
            played.waits_for('io1 coil 1 (QA1 close) off after')
            types('io2 off')
            until(lambda: server.last('contact QB1') == '3', 'QB1 is bad')
            self.assertEqual(server.last('measure M1 AA'), 'bad')
            types('io2 on')
            until(lambda: server.last('contact QB1') == '1', 'QB1 is open')
            driver.run.send_signal(signal.SIGINT)
            driver.waits_for('module io2: all coils are off')


if __name__ == '__main__':
    unittest.main()
