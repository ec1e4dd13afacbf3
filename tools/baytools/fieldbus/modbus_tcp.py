"""Modbus/TCP (MODBUS Application Protocol V1.1b3, Messaging on TCP/IP V1.0b): a connection to one
module, with one request at a time. After anything but an answer or an exception the connection is
reset, so that no late answer is ever taken for another's, and nothing that was not sent is sent."""
import asyncio
import contextlib
import socket
import struct
from collections.abc import Sequence
from dataclasses import dataclass

from baytools.wire.sockets import RESET, why_unconnected

from .bus import CLOSED, Bus, Lines, ModuleFault, ModuleRefused
from .keyed import Table

READ_COILS, READ_INPUTS, READ_HOLDING, READ_REGISTERS = 1, 2, 3, 4
WRITE_COIL, WRITE_REGISTER = 5, 6
EXCEPTIONS = {1: 'illegal function', 2: 'illegal data address', 3: 'illegal data value',
              4: 'server device failure', 5: 'acknowledge', 6: 'server device busy',
              8: 'memory parity error', 10: 'gateway path unavailable',
              11: 'gateway target device failed to respond'}
NOT_BEGUN = (1, 2, 3, 6)  # exceptions after which a write will not be done later
HEAD = struct.Struct('>HHHB')  # transaction, protocol, octets that follow, unit
ON, OFF = b'\xff\x00', b'\x00\x00'
USER_TIMEOUT = 18  # TCP_USER_TIMEOUT of linux/tcp.h
LONGEST = 254  # octets that follow: the unit, and a PDU of at most 253
MOST_BITS, MOST_REGISTERS = 2000, 125  # of one request


@dataclass(frozen=True)
class ModbusAddress:
    """A module at a host and a port, or behind a gateway there by its unit."""
    host: str
    port: int
    unit: int

    def link(self, timeout: float, lines: Lines) -> 'ModbusLink':
        return ModbusLink(self, timeout)

    def text(self) -> str:
        return f'{self.host}, port {self.port}, unit {self.unit}'


def address_of(table: Table) -> ModbusAddress:
    return ModbusAddress(table.text('host'), table.whole('port', 1, 65_535, 502),
                         table.whole('unit', 0, 255, 1))


MODBUS = Bus(address_of, True, 65_535, MOST_BITS, MOST_REGISTERS, 'discrete input', 'coil', True)


class ModbusLink:
    """A connection to a module. `number` counts connections."""

    def __init__(self, address: ModbusAddress, timeout: float) -> None:
        self.address, self.timeout = address, timeout
        self.streams: tuple[asyncio.StreamReader, asyncio.StreamWriter] | None = None
        self.turn, self.transaction, self.number = asyncio.Lock(), 0, 0

    @property
    def is_open(self) -> bool:
        return self.streams is not None

    async def open(self) -> None:
        self.reset()
        try:
            async with asyncio.timeout(self.timeout):
                self.streams = await asyncio.open_connection(self.address.host, self.address.port)
        except (OSError, TimeoutError) as error:
            raise ModuleFault(f'no connection: {why(error)}') from None
        it = self.streams[1].get_extra_info('socket')
        it.setsockopt(socket.IPPROTO_TCP, socket.TCP_NODELAY, 1)
        it.setsockopt(socket.SOL_SOCKET, socket.SO_LINGER, RESET)
        it.setsockopt(socket.IPPROTO_TCP, USER_TIMEOUT, int(1000 * self.timeout))
        self.number += 1

    def reset(self) -> None:
        if self.streams:
            with contextlib.suppress(OSError):
                self.streams[1].transport.abort()
        self.streams = None

    async def request(self, pdu: bytes) -> bytes:
        """Sends a request, and gives what the module answers behind its function code."""
        async with self.turn:
            if not self.streams:
                raise ModuleFault(CLOSED)
            try:
                async with asyncio.timeout(self.timeout):
                    return await self.exchanged(*self.streams, pdu)
            except ModuleRefused:
                raise
            except TimeoutError:
                self.reset()
                raise ModuleFault(f'no answer within {1000 * self.timeout:.0f} ms') from None
            except (OSError, EOFError) as error:
                self.reset()
                raise ModuleFault(f'the connection was lost: {why(error)}') from None
            except BaseException:  # (also where the request is given up: its answer may yet come)
                self.reset()
                raise

    async def exchanged(self, reader: asyncio.StreamReader, writer: asyncio.StreamWriter,
                        pdu: bytes) -> bytes:
        self.transaction = (self.transaction + 1) % 65_536
        head = HEAD.pack(self.transaction, 0, 1 + len(pdu), self.address.unit)
        writer.write(head + pdu)
        await writer.drain()
        transaction, protocol, length, unit = HEAD.unpack(await reader.readexactly(HEAD.size))
        if (transaction, protocol, unit) != (self.transaction, 0, self.address.unit):
            raise ModuleFault('an answer to another request')
        if not 3 <= length <= LONGEST:
            raise ModuleFault(f'an answer of {length} octets')
        found = await reader.readexactly(length - 1)
        if found[0] == pdu[0] | 0x80:
            raise ModuleRefused(f'exception {found[1]}: {EXCEPTIONS.get(found[1], "unknown")}',
                                found[1] not in NOT_BEGUN)
        if found[0] != pdu[0]:
            raise ModuleFault(f'an answer of function {found[0]} to function {pdu[0]}')
        return found[1:]

    async def counted(self, function: int, first: int, count: int, octets: int) -> bytes:
        """The octets of a read."""
        found = await self.request(struct.pack('>BHH', function, first, count))
        if len(found) != 1 + octets or found[0] != octets:
            self.reset()
            raise ModuleFault('an answer of more or fewer values than were asked for')
        return found[1:]

    async def bits(self, function: int, numbers: Sequence[int]) -> dict[int, bool]:
        if not numbers:
            return {}
        first, count = min(numbers), max(numbers) - min(numbers) + 1
        found = await self.counted(function, first, count, (count + 7) // 8)
        return {at: bool(found[(at - first) // 8] >> (at - first) % 8 & 1) for at in numbers}

    async def contacts(self, numbers: Sequence[int]) -> dict[int, bool]:
        return await self.bits(READ_INPUTS, numbers)

    async def coils(self, numbers: Sequence[int]) -> dict[int, bool]:
        return await self.bits(READ_COILS, numbers)

    async def registers(self, numbers: Sequence[int]) -> dict[int, int]:
        if not numbers:
            return {}
        first, count = min(numbers), max(numbers) - min(numbers) + 1
        found = await self.counted(READ_REGISTERS, first, count, 2 * count)
        return dict(enumerate(struct.unpack(f'>{count}H', found), first))

    async def put(self, coil: int, value: bool) -> None:
        pdu = struct.pack('>BH', WRITE_COIL, coil) + (ON if value else OFF)
        if await self.request(pdu) != pdu[1:]:
            self.reset()
            raise ModuleFault(f'another echo of the write of coil {coil}')

    async def set_up(self, register: int, value: int) -> None:
        pdu = struct.pack('>BHH', WRITE_REGISTER, register, value)
        await self.request(pdu)
        found = await self.counted(READ_HOLDING, register, 1, 2)
        if found != pdu[3:]:
            self.reset()
            raise ModuleFault(f'register {register} does not keep {value}')


def why(error: BaseException) -> str:
    """Why there is no connection."""
    if isinstance(error, EOFError):
        return 'the module ended it'
    return why_unconnected(error) if isinstance(error, OSError) else type(error).__name__
