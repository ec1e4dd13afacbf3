"""Modbus/TCP modules that are played for trials, at the ports of a wiring, with a plant behind
them."""
import asyncio
import contextlib
import ipaddress
import struct
import sys
import time

from baytools.bay.accepted import accepted_bay_at
from baytools.common.ending import DONE, Failed
from baytools.common.keyboard import Keyboard
from baytools.common.texts import upcase

from .command_line import say, until_interrupted
from .keyed import Miswired
from .modbus_tcp import (HEAD, LONGEST, MODBUS, MOST_BITS, MOST_REGISTERS, ON, READ_COILS,
                         READ_HOLDING, READ_INPUTS, READ_REGISTERS, WRITE_COIL, WRITE_REGISTER,
                         ModbusAddress)
from .plant import Mistyped, Plant, PlayedModule
from .wiring import Module, wiring_at

WATCHDOG = 0x1120  # the holding register with the ms after which a silent master's coils fall
LOOK = 0.01  # seconds between two looks at what has moved
ILLEGAL_FUNCTION, ILLEGAL_ADDRESS, ILLEGAL_VALUE = 1, 2, 3


class Refusal(Exception):
    """An exception that a module answers, by its code."""


def pack_bits(bits: list[bool]) -> bytes:
    """Bits in octets, the first in the lowest place."""
    octets = bytearray((len(bits) + 7) // 8)
    for at, bit in enumerate(bits):
        octets[at // 8] |= bit << at % 8
    return bytes(octets)


def read(module: PlayedModule, function: int, first: int, count: int) -> bytes:
    """The answer to a read."""
    is_bits = function in (READ_COILS, READ_INPUTS)
    if not 1 <= count <= (MOST_BITS if is_bits else MOST_REGISTERS):
        raise Refusal(ILLEGAL_VALUE)
    if first + count > 65_536:
        raise Refusal(ILLEGAL_ADDRESS)
    numbers = range(first, first + count)
    if function == READ_COILS:
        found = pack_bits([at in module.on for at in numbers])
    elif function == READ_INPUTS:
        found = pack_bits([module.contact(at) for at in numbers])
    else:
        words = [module.register(at) if function == READ_REGISTERS else module.holding.get(at, 0)
                 for at in numbers]
        found = struct.pack(f'>{count}H', *words)
    return bytes([function, len(found)]) + found


def answer_of(module: PlayedModule, pdu: bytes) -> bytes:
    """What a module answers to a request."""
    function = pdu[0]
    try:
        if len(pdu) != 5:
            raise Refusal(ILLEGAL_FUNCTION)
        first, value = struct.unpack('>HH', pdu[1:])
        if function in (READ_COILS, READ_INPUTS, READ_HOLDING, READ_REGISTERS):
            return read(module, function, first, value)
        if function == WRITE_COIL:
            if value not in (0, 0xFF00):
                raise Refusal(ILLEGAL_VALUE)
            module.put(first, pdu[3:] == ON)
        elif function == WRITE_REGISTER:
            module.holding[first] = value
        else:
            raise Refusal(ILLEGAL_FUNCTION)
        return pdu
    except Refusal as refusal:
        return bytes([function | 0x80, refusal.args[0]])


class Station:
    """The modules at one port, by their units. Without power it has no port, and its coils are
    off; one that is silent answers nothing."""

    def __init__(self, host: str, port: int) -> None:
        self.host, self.port = host, port
        self.units: dict[int, PlayedModule] = {}
        self.peers: set[asyncio.StreamWriter] = set()
        self.server: asyncio.Server | None = None
        self.is_silent, self.heard = False, time.monotonic()

    async def switch_on(self) -> None:
        if self.server is None:
            try:
                self.server = await asyncio.start_server(self.converse, self.host, self.port)
            except OSError as error:
                raise Failed(f'{self.host}, port {self.port}: {error.strerror}') from None

    def switch_off(self) -> None:
        if self.server:
            self.server.close()
        self.server = None
        for peer in self.peers:
            peer.transport.abort()
        for module in self.units.values():
            module.all_off(' without power')
            module.holding.clear()

    async def converse(self, reader: asyncio.StreamReader, writer: asyncio.StreamWriter) -> None:
        """Answers one master until it ends."""
        self.peers.add(writer)
        with contextlib.suppress(OSError, EOFError):
            while await self.answers_one(reader, writer):
                pass
        self.peers.discard(writer)
        writer.close()

    async def answers_one(self, reader: asyncio.StreamReader, writer: asyncio.StreamWriter,
                          ) -> bool:
        """Answers one request; whether it was one."""
        transaction, protocol, length, unit = HEAD.unpack(await reader.readexactly(HEAD.size))
        if protocol or not 2 <= length <= LONGEST:
            return False
        pdu, module = await reader.readexactly(length - 1), self.units.get(unit)
        while self.is_silent:
            await asyncio.sleep(LOOK)
        self.heard = time.monotonic()
        if module:
            answer = answer_of(module, pdu)
            writer.write(HEAD.pack(transaction, 0, 1 + len(answer), unit) + answer)
            await writer.drain()
        return True

    def watch(self) -> None:
        """The modules' own watchdogs."""
        for module in self.units.values():
            limit = module.holding.get(WATCHDOG, 0) / 1000
            if limit and time.monotonic() - self.heard > limit:
                module.all_off(' by the watchdog of the module')


class Played:
    """All modules of a wiring, with the plant."""

    def __init__(self, modules: list[Module]) -> None:
        self.plant = Plant(modules, say)
        self.stations: dict[tuple[str, int], Station] = {}
        self.of_module: dict[str, Station] = {}
        for one in self.plant.modules:
            address = one.module.address
            assert isinstance(address, ModbusAddress)
            if not is_own(address.host):
                raise Miswired(f'module {one.module.name}: host is {address.host}, and modules are '
                               'played on this machine alone: write "127.0.0.1"')
            place = address.host, address.port
            station = self.stations.setdefault(place, Station(*place))
            station.units[address.unit] = one
            self.of_module[upcase(one.module.name)] = station

    def typed(self, line: str) -> None:
        """What a typed line does to a module or to the plant."""
        words = line.split()
        station = self.of_module.get(upcase(words[0])) if len(words) == 2 else None
        match words[1:]:
            case ['off'] if station:
                station.switch_off()
            case ['on'] if station:
                station.is_silent = False
                asyncio.ensure_future(station.switch_on())
            case ['silent'] if station:
                station.is_silent = True
            case _:
                self.plant.typed(line)
                return
        say(f'{words[0]}: {words[1]}')

    def key(self, keyboard: Keyboard) -> None:
        """Lines have been typed."""
        for line in (lines := keyboard.lines()) or ():
            try:
                if line.strip():
                    self.typed(line)
            except Mistyped as error:
                say(str(error))
        if lines is None:
            asyncio.get_running_loop().remove_reader(sys.stdin)

    async def run(self) -> None:
        """Plays until it is cancelled."""
        for station in self.stations.values():
            await station.switch_on()
        names = ', '.join(f'{one.module.name} at {one.module.address.text()}'
                          for one in self.plant.modules)
        say(f'played: {names}')
        try:  # (a file, which is always ready, or none, is not read)
            asyncio.get_running_loop().add_reader(sys.stdin, self.key, Keyboard())
        except (OSError, ValueError):
            pass
        while True:
            await asyncio.sleep(LOOK)
            self.plant.arrive()
            for station in self.stations.values():
                station.watch()


def is_own(host: str) -> bool:
    """Whether a host is this machine by its name."""
    try:
        return ipaddress.ip_address(host).is_loopback
    except ValueError:
        return host == 'localhost'


async def played(modules: list[Module]) -> None:
    await until_interrupted(asyncio.ensure_future(Played(modules).run()))


def play(bay: str, wiring: str) -> int:
    """Plays the modules of a wiring until it is interrupted."""
    asyncio.run(played(wiring_at(wiring, accepted_bay_at(bay)[1], MODBUS)))
    return DONE
