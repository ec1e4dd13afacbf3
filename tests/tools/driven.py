"""A driver of tools/modbus between a module and a server that a test plays."""
import functools
import pathlib
import signal
import subprocess
import sys
import tempfile
import time
import unittest

from baytools.common.paths import TOOLS
from tests.tools.fake_module import FakeModule, FakeServer

TRAVEL, PULSE, DOUBT, TIMEOUT = 1200, 400, 800, 400  # ms
TRIES = 3  # of a test
BAY = f'''[bay]
domain = "E1"
vendor = "V"
model = "M"
revision = "2 b"
scan_max_age_ms = 500
[[switch]]
id = "QA1"
kind = "breaker"
control = "sbo-enhanced"
sbo_timeout_ms = 5000
travel_ms = {TRAVEL}
[[switch]]
id = "QC1"
kind = "earthing"
control = "status"
[[input]]
name = "ES"
[[input]]
name = "OK"
[[meter]]
id = "M1"
'''
WIRING = f'''not_wired = ["M1 TOTW", "M1 TOTVAR", "M1 HZ", "M1 AB", "M1 AC"]
[[module]]
name = "io"
host = "127.0.0.1"
port = 502
poll_ms = 10
timeout_ms = {TIMEOUT}
doubt_ms = {DOUBT}
alive = "OK"
counter = 9
setup = [[4384, 400]]
[[switch]]
id = "QA1"
open = 0
closed = 1
open_coil = 0
close_coil = 1
pulse_ms = {PULSE}
remote = 6
debounce_ms = 0
[[switch]]
id = "QC1"
open = 3
closed = 4
magnet_coil = 2
debounce_ms = 0
[[input]]
name = "ES"
contact = 2
fault = false
debounce_ms = 0
[[measure]]
meter = "M1"
field = "AA"
register = 0
type = "int16"
scale = 10
valid = [-1000, 1000]
'''
OPEN, CLOSE = 0, 1  # coils
GOOD = {'contact QA1': '1', 'contact QC1': '1', 'input ES': '1', 'input OK': '1',
        'measure M1 AA': '-10'}
LOST = {'contact QA1': '3', 'contact QC1': '3', 'input ES': '0', 'input OK': '0',
        'measure M1 AA': 'bad'}


class Counting(FakeModule):
    """A module whose counter changes with each read, unless its data stand still."""
    stands = False

    def answer(self, pdu):
        if pdu[0] == 4 and not self.stands:
            self.registers[9] = (self.registers[9] + 1) % 65_536
        return super().answer(pdu)


def retry(test):
    """A test that goes by real time, and is tried again where it fails: the machine may stall."""
    @functools.wraps(test)
    def run(self):
        for left in reversed(range(TRIES)):
            try:
                return test(self)
            except AssertionError:
                if not left:
                    raise
            self.doCleanups()
            self.setUp()
        return None
    return run


class Driven(unittest.TestCase):
    """A driver whose server and module are the test's. QA1 and QC1 are open at first."""
    changes: list[tuple[str, str]] = []  # of the wiring
    kind = 'breaker'  # of QA1

    def __init_subclass__(cls):
        for name, test in list(vars(cls).items()):
            if name.startswith('test_'):
                setattr(cls, name, retry(test))

    def setUp(self):
        self.module = Counting()
        self.addCleanup(lambda: self.module.server_close())
        self.addCleanup(lambda: self.module.shutdown())
        self.set_module_up(self.module)
        self.port = self.module.server_address[1]
        folder = tempfile.TemporaryDirectory()
        self.addCleanup(folder.cleanup)
        self.bay, self.wiring = (pathlib.Path(folder.name) / name for name in ('bay', 'wiring'))
        self.bay.write_text(BAY.replace('"breaker"', f'"{self.kind}"'))
        text = WIRING
        for old, new in [('port = 502', f'port = {self.port}'), *self.changes]:
            text = text.replace(old, new)
        self.wiring.write_text(text)
        self.server = FakeServer()
        self.addCleanup(lambda: self.assertEqual(self.server.went_back, [], 'a time goes back'))
        self.addCleanup(self.server.end)
        self.out = tempfile.NamedTemporaryFile('a+')
        self.addCleanup(self.out.close)
        self.start_driver()

    def set_module_up(self, module):
        module.contacts[0] = module.contacts[2] = module.contacts[3] = True
        module.contacts[6] = True
        module.registers[0] = 65_535

    def words(self, *more):
        return [sys.executable, '-B', TOOLS / 'modbus', '--bay', self.bay, '--wiring', self.wiring,
                *more]

    def start_driver(self):
        """Starts a driver."""
        self.run = subprocess.Popen(self.words('--process', str(self.server.port)),
                                    stdout=self.out, stderr=subprocess.STDOUT)
        self.addCleanup(self.end_driver, self.run)

    def end_driver(self, run):
        run.send_signal(signal.SIGCONT)
        run.terminate()
        run.wait(10)

    def printed_text(self):
        return pathlib.Path(self.out.name).read_text()

    def wait_until(self, test, told='', seconds=10.0):
        end = time.monotonic() + seconds
        while not test():
            self.assertLess(time.monotonic(), end, f'{told}\n{self.printed_text()}')
            time.sleep(0.002)

    def wait_for_values(self, wanted):
        self.wait_until(lambda: all(self.server.last(point) == value
                                    for point, value in wanted.items()), wanted)

    def wait_for_lines(self, *told):
        for one in told:
            self.wait_until(lambda: one in self.printed_text(), one)

    def wait_until_good(self):
        """The driver has told that all is well."""
        self.wait_for_values(GOOD)

    def pulses(self, coil):
        """The moments at which a coil was switched on."""
        return [at for where, value, at in self.module.written if where == coil and value]

    def pulse_length(self, coil=CLOSE):
        """How long the first pulse of a coil lasted, in milliseconds."""
        self.wait_until(lambda: not self.module.coils[coil], 'the coil is off')
        begun = self.pulses(coil)[0]
        return 1000 * (next(at for where, value, at in self.module.written
                            if where == coil and not value and at > begun) - begun)

    def begin_pulse(self, way='on', coil=CLOSE):
        """A pulse has begun, by a command."""
        self.wait_until_good()
        self.server.send_lines(f'command QA1 {way}')
        self.wait_until(lambda: self.module.coils[coil], 'the coil is on')

    def check_one_pulse(self, coil=CLOSE):
        """No more pulse comes."""
        time.sleep(0.3)
        self.assertEqual((len(self.pulses(coil)), self.module.both), (1, False),
                         self.printed_text())

    def wait_until_off(self):
        self.wait_until(lambda: not any(self.module.coils), 'the coils are off')
