"""tools/gpio with a chip that a test plays: what is asked of the kernel, and a command."""
import asyncio
import contextlib
import errno
import os
import struct
import time
import unittest
from unittest import mock

from baytools.fieldbus import gpio_lines
from baytools.fieldbus.bus import Lines, ModuleFault
from baytools.fieldbus.command_line import all_off
from baytools.fieldbus.driving import Driver
from baytools.fieldbus.gpio_lines import GPIO
from baytools.fieldbus.process_link import ProcessLink
from baytools.fieldbus.wiring import wiring_of
from tests.tools.fake_module import FakeServer
from tests.tools.loopback import needs_loopback

# The numbers of the calls, as linux/gpio.h has them on x86 and ARM.
GET_INFO, GET_LINE, GET_VALUES, SET_VALUES = 0x8044B401, 0xC250B407, 0xC010B40E, 0xC010B40F
CHIP, LINES = '/dev/gpiochip0', 32
BAY = {'bay': {'domain': 'E1', 'revision': '2 b'},
       'switch': [{'id': 'QA1', 'control': 'direct', 'travel_ms': 300}],
       'input': [{'name': 'ES'}, {'name': 'OK'}]}
WIRING = f'''[[module]]
name = "board"
chip = "{CHIP}"
poll_ms = 10
alive = "OK"
active_low = ["coils"]
bias = "pull-up"
[[switch]]
id = "QA1"
open = 4
closed = 17
open_coil = 20
close_coil = 21
pulse_ms = 60
debounce_ms = 0
[[input]]
name = "ES"
contact = 27
invert = true
fault = false
debounce_ms = 0
'''


class FakeKernel:
    """A chip: `values` are its lines as its pins are, `taken` those that are requested, by their
    descriptors. It reads and writes the kernel's structures by their offsets."""

    def __init__(self) -> None:
        self.values, self.taken, self.flags = dict.fromkeys(range(LINES), 0), {}, {}
        self.next, self.written, self.is_broken = 100, [], False

    def open(self, path):
        if path != CHIP:
            raise OSError(errno.ENOENT, os.strerror(errno.ENOENT), path)
        self.next += 1
        return self.next

    def close(self, descriptor):
        self.taken.pop(descriptor, None)

    def ioctl(self, descriptor, number, data):
        if self.is_broken:
            raise OSError(errno.ENODEV, os.strerror(errno.ENODEV))
        {GET_INFO: self.info, GET_LINE: self.request, GET_VALUES: self.get,
         SET_VALUES: self.set}[number](descriptor, data)

    def info(self, descriptor, data):
        assert len(data) == 68
        struct.pack_into('=I', data, 64, LINES)

    def request(self, descriptor, data):
        assert len(data) == 592
        (count,), (flags,) = (struct.unpack_from('=I', data, 560),
                              struct.unpack_from('=Q', data, 288))
        lines = struct.unpack_from(f'={count}I', data, 0)
        if set(lines) & {one for taken in self.taken.values() for one in taken}:
            raise OSError(errno.EBUSY, os.strerror(errno.EBUSY))
        assert data[256:262] == b'bayctl'
        self.next += 1
        self.taken[self.next], self.flags[self.next] = lines, flags
        if flags & 8:
            attributes, kind, value, mask = (*struct.unpack_from('=I', data, 296),
                                             *struct.unpack_from('=I4xQQ', data, 320))
            assert (attributes, kind, mask) == (1, 2, (1 << count) - 1)
            self.put(self.next, value, mask)
        struct.pack_into('=i', data, 588, self.next)

    def get(self, descriptor, data):
        _, mask = struct.unpack('=QQ', data)
        low = bool(self.flags[descriptor] & 2)
        bits = sum((self.values[line] ^ low) << at
                   for at, line in enumerate(self.taken[descriptor]) if mask >> at & 1)
        struct.pack_into('=Q', data, 0, bits)

    def set(self, descriptor, data):
        self.put(descriptor, *struct.unpack('=QQ', data))

    def put(self, descriptor, bits, mask):
        low = bool(self.flags[descriptor] & 2)
        for at, line in enumerate(self.taken[descriptor]):
            if mask >> at & 1:
                self.values[line] = (bits >> at & 1) ^ low
                self.written.append((line, self.values[line]))


class Chips(unittest.TestCase):
    def setUp(self):
        self.kernel = FakeKernel()
        self.kernel.values[4] = 1
        patch = mock.patch.object(gpio_lines, 'KERNEL', self.kernel)
        patch.start()
        self.addCleanup(patch.stop)

    def link(self, contacts=(4, 17, 4), coils=(21, 20)):
        module, = wiring_of(WIRING, BAY, GPIO)
        return module.address.link(0.1, Lines(contacts, coils, ()))

    def test_the_numbers_of_the_calls(self):
        self.assertEqual((gpio_lines.GET_INFO, gpio_lines.GET_LINE, gpio_lines.GET_VALUES,
                          gpio_lines.SET_VALUES), (GET_INFO, GET_LINE, GET_VALUES, SET_VALUES))

    def test_lines(self):
        async def talk():
            link = self.link()
            await link.open()
            self.assertEqual(self.kernel.written, [(20, 1), (21, 1)])  # (off, and active low)
            self.assertEqual(list(self.kernel.flags.values()), [1 << 2 | 1 << 8, 1 << 3 | 1 << 1])
            self.assertEqual(await link.contacts([17, 4]), {17: False, 4: True})
            await link.put(21, True)
            self.assertEqual(await link.coils([20, 21]), {20: False, 21: True})
            self.assertEqual((self.kernel.values[20], self.kernel.values[21]), (1, 0))
            link.reset()
            self.assertEqual(self.kernel.taken, {})
            with self.assertRaisesRegex(ModuleFault, 'the connection is closed'):
                await link.contacts([4])

        asyncio.run(talk())

    def test_lines_that_are_not_to_be_had(self):
        async def talk():
            first = self.link()
            await first.open()
            with self.assertRaisesRegex(ModuleFault, 'resource busy'):
                await self.link().open()
            self.kernel.is_broken = True
            with self.assertRaisesRegex(ModuleFault, f'{CHIP}: No such device'):
                await first.contacts([4])
            self.assertFalse(first.is_open)
            self.kernel.is_broken = False
            with self.assertRaisesRegex(ModuleFault, 'it has 32 lines, and line 32 is wired'):
                await self.link((32,)).open()
            with self.assertRaisesRegex(ModuleFault, '65 lines of one kind, and a request takes'):
                await self.link(range(65)).open()
            self.assertEqual(self.kernel.taken, {})

        asyncio.run(talk())

    def test_off(self):
        self.kernel.values[20] = self.kernel.values[21] = 0
        with contextlib.redirect_stdout(None):
            self.assertTrue(asyncio.run(all_off(wiring_of(WIRING, BAY, GPIO))))
        self.assertEqual((self.kernel.values[20], self.kernel.values[21]), (1, 1))

    def test_a_module_that_is_not_read_in_time(self):
        """Whatever holds the reading up: it is bad before the process says that it lives."""
        said = []
        process = ProcessLink(1, ('E1', '2 b'), '', said.append)
        driver = Driver(wiring_of(WIRING, BAY, GPIO), process, said.append)
        unit = driver.units['board']
        driver.known['contact', 'QA1'] = 1
        for ago, position in ((0.05, 1), (1, 3)):
            unit.is_ready, unit.heard_at = True, time.monotonic() - ago
            driver.lives()
            self.assertEqual(driver.known['contact', 'QA1'], position)
        self.assertIn('module board: it was not read for 1', said[-1])

    @needs_loopback
    def test_a_command(self):
        server, said = FakeServer(), []
        self.addCleanup(server.end)
        asyncio.run(self.driven(server, said))
        close = [value for line, value in self.kernel.written if line == 21]
        self.assertEqual((close.count(0), close[-1], self.kernel.taken), (1, 1, {}), said)
        self.assertNotIn((20, 0), self.kernel.written)
        self.assertTrue(any('QA1 close: done after' in told for told in said), said)

    async def driven(self, server, said):
        """A driver that gets a command, and is ended after it."""
        modules = wiring_of(WIRING, BAY, GPIO)
        process = ProcessLink(server.port, ('E1', '2 b'), '', said.append)
        running = asyncio.ensure_future(Driver(modules, process, said.append).run())
        await self.until(lambda: server.told[-1:] == ['input OK 1'], said)
        self.assertEqual(server.told[-3:], ['contact QA1 1', 'input ES 1', 'input OK 1'])
        server.send_lines('command QA1 on')
        await self.until(lambda: self.kernel.values[21] == 0, said)
        self.kernel.values[4], self.kernel.values[17] = 0, 1
        await self.until(lambda: server.last('contact QA1') == '2', said)
        await self.until(lambda: self.kernel.values[21] == 1, said)
        running.cancel()
        await asyncio.gather(running, return_exceptions=True)

    async def until(self, test, said):
        for _ in range(2000):
            if test():
                return
            await asyncio.sleep(0.005)
        self.fail(said)


if __name__ == '__main__':
    unittest.main()
