"""What a driver tells of two modules that are read at once: in the order of time, and nothing as
newer than its reading."""
import tomllib
import unittest
from unittest import mock

from baytools.fieldbus.bus import ModuleFault
from baytools.fieldbus.driving import Driver
from baytools.fieldbus.modbus_tcp import MODBUS
from baytools.fieldbus.process_link import ProcessLink
from baytools.fieldbus.wiring import wiring_of
from baytools.wire.process import Life, ServerClock
from tests.tools.driven import BAY, WIRING

LATER = WIRING.replace('name = "ES"\ncontact', 'name = "ES"\nmodule = "two"\ncontact').replace(
    '[[switch]]\nid', '[[switch]]\nmodule = "io"\nid').replace(
    'meter = "M1"', 'meter = "M1"\nmodule = "io"') + '''[[module]]
name = "two"
host = "127.0.0.1"
port = 503
poll_ms = 10
timeout_ms = 400
'''
NOW = 1000.0  # of the monotonic clock
SERVER = 5_000_000  # the server's time then
BITS = {0: True, 1: False, 2: True, 3: True, 4: False, 6: True}


class Writer:
    """What is written to the server."""

    def __init__(self):
        self.lines = []

    def write(self, octets):
        self.lines += octets.decode().splitlines()


class Order(unittest.TestCase):
    def setUp(self):
        self.now = NOW
        clock = mock.patch('time.monotonic', lambda: self.now)
        clock.start()
        self.addCleanup(clock.stop)
        self.link = ProcessLink(1, ('E1', '2 b'), '', lambda text: None)
        modules = wiring_of(LATER, tomllib.loads(BAY), MODBUS)
        self.driver = Driver(modules, self.link, lambda text: None)
        self.one, self.two = self.driver.units['io'], self.driver.units['two']
        self.link.writer = self.writer = Writer()
        self.connect()

    def connect(self):
        """The server has greeted, and nothing was sent."""
        self.driver.told.clear()
        self.link.clock, self.link.life = ServerClock(SERVER + self.passed_time()), Life(4000)

    def passed_time(self):
        return round(1000 * (self.now - NOW))

    def end_reading(self, unit, at):
        """A reading of a module that began at this moment ends now."""
        unit.asked_at = unit.heard_at = NOW + at / 1000
        unit.is_ready = True
        self.driver.known |= unit.sampled.take(BITS, {0: 0, 9: 1}, unit.asked_at)
        self.driver.publish()
        unit.asked_at = None

    def write_alive(self):
        self.writer.write(f'{self.link.clock.stamp(self.link.oldest())} alive\n'.encode())

    def sent_lines(self):
        """The moments of what was sent, in milliseconds since the beginning, with their words."""
        parted = [line.partition(' ') for line in self.writer.lines]
        return [(int(moment) - SERVER, words) for moment, _, words in parted]

    def advance_to(self, milliseconds):
        self.now = NOW + milliseconds / 1000

    def test_two_readings_of_which_the_later_ends_first(self):
        self.one.asked_at = NOW + 0.125
        self.advance_to(375)
        self.end_reading(self.two, 250)
        self.advance_to(500)
        self.end_reading(self.one, 125)
        moments = [moment for moment, _ in self.sent_lines()]
        self.assertEqual(moments, sorted(moments), self.sent_lines())
        self.assertIn((125, 'contact QA1 1'), self.sent_lines())  # (not newer than its reading)

    def test_a_life_within_a_reading(self):
        self.one.asked_at = NOW + 0.125
        self.advance_to(250)
        self.write_alive()
        self.advance_to(375)
        self.end_reading(self.one, 125)
        self.assertEqual({moment for moment, _ in self.sent_lines()}, {125})

    def test_a_reading_that_takes_too_long_holds_nothing_back(self):
        self.driver.publish()
        self.writer.lines.clear()
        self.one.asked_at = NOW
        for milliseconds in (375, 500):
            self.advance_to(milliseconds)
            self.write_alive()
        self.assertEqual([moment for moment, _ in self.sent_lines()], [0, 500])

    def test_what_was_read_before_the_connection_is_told_in_the_order_of_time(self):
        """What is read of `two` is older, and frees; of `io` some blocks."""
        self.link.clock = None
        self.advance_to(500)
        self.end_reading(self.one, 375)
        self.end_reading(self.two, 250)
        self.advance_to(625)
        self.connect()
        self.writer.write(f'{self.link.clock.stamp(self.link.oldest())} bay - E1 2 b\n'.encode())
        self.driver.publish()
        sent = self.sent_lines()
        self.assertEqual([moment for moment, _ in sent], sorted(moment for moment, _ in sent))
        self.assertEqual(sent[:2], [(250, 'bay - E1 2 b'), (250, 'input ES 1')])
        self.assertEqual((sent[2][0], sent[-1]), (375, (375, 'input OK 1')))

    def test_a_module_that_fails_beside_a_reading(self):
        """Of one moment what blocks comes before what frees."""
        self.end_reading(self.one, 0)
        self.advance_to(250)
        self.end_reading(self.two, 125)
        self.writer.lines.clear()
        self.two.asked_at = NOW + 0.25
        self.advance_to(500)
        self.driver.fail(self.one, ModuleFault('gone'))
        self.advance_to(625)
        self.end_reading(self.two, 250)
        self.assertEqual(self.sent_lines()[0], (250, 'input OK 0'))
        self.assertEqual({moment for moment, _ in self.sent_lines()}, {250})

    def test_a_clock_that_is_turned_back(self):
        clock = ServerClock(1000)
        self.advance_to(125)
        self.assertEqual(clock.stamp(), 1125)
        clock.on_moment(1001)
        self.assertEqual((clock.now(), clock.stamp()), (1123, 1125))


if __name__ == '__main__':
    unittest.main()
