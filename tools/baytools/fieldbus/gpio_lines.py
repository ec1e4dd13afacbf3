"""Lines of a GPIO chip, by the character device of Linux (uapi/linux/gpio.h, version 2, from Linux
5.10 on): contacts are inputs, coils are outputs, by their offsets."""
import fcntl
import os
import struct
from collections.abc import Sequence
from dataclasses import dataclass

from .bus import CLOSED, Bus, Lines, ModuleFault
from .keyed import Table

INFO = struct.Struct('=32s32sI')  # gpiochip_info: name, label, lines
VALUES = struct.Struct('=QQ')  # gpio_v2_line_values: bits, mask
ATTRIBUTE = struct.Struct('=IIQQ')  # gpio_v2_line_config_attribute: id, padding, value, mask
MOST_LINES, MOST_ATTRIBUTES = 64, 10
# gpio_v2_line_request: the offsets, the consumer, its configuration (flags, the number of its
# attributes, padding, the attributes), the number of lines, of events, padding, its descriptor.
REQUEST = struct.Struct(f'={4 * MOST_LINES}s32sQI20s{ATTRIBUTE.size * MOST_ATTRIBUTES}sII20si')


def ioctl_number(way: int, number: int, size: int) -> int:
    """As _IOR (2) and _IOWR (3) make it of the chips' type."""
    return way << 30 | size << 16 | 0xB4 << 8 | number


GET_INFO = ioctl_number(2, 0x01, INFO.size)
GET_LINE = ioctl_number(3, 0x07, REQUEST.size)
GET_VALUES = ioctl_number(3, 0x0E, VALUES.size)
SET_VALUES = ioctl_number(3, 0x0F, VALUES.size)
ACTIVE_LOW, INPUT, OUTPUT = 1 << 1, 1 << 2, 1 << 3
BIASES = {'pull-up': 1 << 8, 'pull-down': 1 << 9, 'disabled': 1 << 10, 'as is': 0}
OUTPUT_VALUES = 2  # an attribute: the first values of outputs
CONSUMER = b'bayctl'


class Kernel:
    """The calls of the system."""

    def open(self, path: str) -> int:
        return os.open(path, os.O_RDWR | os.O_CLOEXEC)

    def ioctl(self, descriptor: int, number: int, data: bytearray) -> None:
        fcntl.ioctl(descriptor, number, data, True)

    def close(self, descriptor: int) -> None:
        os.close(descriptor)


KERNEL = Kernel()


@dataclass(frozen=True)
class Chip:
    """A chip by the path of its device; whether 0 is on, of contacts and of coils; and what pulls
    its contacts."""
    path: str
    low: frozenset[str]
    bias: str

    def __eq__(self, other: object) -> bool:
        return isinstance(other, Chip) and os.path.realpath(self.path) == os.path.realpath(
            other.path)

    def __hash__(self) -> int:
        return hash(os.path.realpath(self.path))

    def link(self, timeout: float, lines: Lines) -> 'GpioLink':
        return GpioLink(self, lines)

    def text(self) -> str:
        low = f', {" and ".join(sorted(self.low))} active low' if self.low else ''
        return f'{self.path}{low}, bias of its contacts {self.bias}'


def chip_of(table: Table) -> Chip:
    return Chip(table.text('chip'), frozenset(table.some_of('active_low', ('contacts', 'coils'))),
                table.one_of('bias', BIASES, 'as is'))


GPIO = Bus(chip_of, False, 65_535, 65_536, 0, 'input line', 'output line', False)


class GpioLink:
    """The lines of a chip, requested anew with each connection. The kernel gives them to nobody
    else meanwhile."""

    def __init__(self, chip: Chip, lines: Lines) -> None:
        self.chip, self.number = chip, 0
        self.inputs, self.outputs = (tuple(sorted(set(numbers)))
                                     for numbers in (lines.contacts, lines.coils))
        self.of_inputs = self.of_outputs = -1

    @property
    def is_open(self) -> bool:
        return self.of_inputs >= 0 or self.of_outputs >= 0

    async def open(self) -> None:
        self.reset()
        for numbers in (self.inputs, self.outputs):
            if len(numbers) > MOST_LINES:
                raise ModuleFault(f'{len(numbers)} lines of one kind, and a request takes '
                                  f'{MOST_LINES}')
        try:
            self.request_lines()
        except OSError as error:
            self.reset()
            raise ModuleFault(f'{self.chip.path}: {error.strerror or error}') from None
        self.number += 1

    def request_lines(self) -> None:
        """Requests the inputs and the outputs; these are off from the start."""
        chip = KERNEL.open(self.chip.path)
        try:
            info = bytearray(INFO.size)
            KERNEL.ioctl(chip, GET_INFO, info)
            count, highest = INFO.unpack(info)[2], max(self.inputs + self.outputs, default=0)
            if highest >= count:
                raise ModuleFault(f'{self.chip.path}: it has {count} lines, and line {highest} is '
                                  'wired')
            low = {kind: ACTIVE_LOW for kind in self.chip.low}
            if self.inputs:
                flags = INPUT | BIASES[self.chip.bias] | low.get('contacts', 0)
                self.of_inputs = descriptor_of(chip, self.inputs, flags, b'', 0)
            if self.outputs:
                off = ATTRIBUTE.pack(OUTPUT_VALUES, 0, 0, (1 << len(self.outputs)) - 1)
                flags = OUTPUT | low.get('coils', 0)
                self.of_outputs = descriptor_of(chip, self.outputs, flags, off, 1)
        finally:
            KERNEL.close(chip)

    def reset(self) -> None:
        for descriptor in (self.of_inputs, self.of_outputs):
            if descriptor >= 0:
                KERNEL.close(descriptor)
        self.of_inputs = self.of_outputs = -1

    def values(self, descriptor: int, number: int, bits: int, mask: int) -> int:
        """Gets or sets the values of lines."""
        if descriptor < 0:
            raise ModuleFault(CLOSED)
        data = bytearray(VALUES.pack(bits, mask))
        try:
            KERNEL.ioctl(descriptor, number, data)
        except OSError as error:
            self.reset()
            raise ModuleFault(f'{self.chip.path}: {error.strerror or error}') from None
        return int(VALUES.unpack(data)[0])

    def read(self, descriptor: int, lines: tuple[int, ...], numbers: Sequence[int],
             ) -> dict[int, bool]:
        if not numbers:
            return {}
        bits = self.values(descriptor, GET_VALUES, 0, (1 << len(lines)) - 1)
        return {at: bool(bits >> lines.index(at) & 1) for at in numbers}

    async def contacts(self, numbers: Sequence[int]) -> dict[int, bool]:
        return self.read(self.of_inputs, self.inputs, numbers)

    async def coils(self, numbers: Sequence[int]) -> dict[int, bool]:
        return self.read(self.of_outputs, self.outputs, numbers)

    async def registers(self, numbers: Sequence[int]) -> dict[int, int]:
        if numbers:
            raise ModuleFault('a chip has no registers')
        return {}

    async def put(self, coil: int, value: bool) -> None:
        at = self.outputs.index(coil)
        self.values(self.of_outputs, SET_VALUES, value << at, 1 << at)

    async def set_up(self, register: int, value: int) -> None:
        raise ModuleFault('a chip has no registers')


def descriptor_of(chip: int, lines: tuple[int, ...], flags: int, attribute: bytes,
                  count: int) -> int:
    """A descriptor of lines of a chip."""
    offsets = struct.pack(f'={len(lines)}I', *lines)
    data = bytearray(REQUEST.pack(offsets, CONSUMER, flags, count, b'', attribute, len(lines), 0,
                                  b'', -1))
    KERNEL.ioctl(chip, GET_LINE, data)
    return int(REQUEST.unpack(data)[-1])
