"""The octets of Modbus/TCP: what a module may answer, and that nothing else is taken."""
import asyncio
import contextlib
import struct
import unittest

from baytools.fieldbus.bus import ModuleFault, ModuleRefused
from baytools.fieldbus.modbus_tcp import ModbusAddress, ModbusLink
from tests.tools.loopback import needs_loopback

HEAD = struct.Struct('>HHHB')
# Requests as MODBUS Application Protocol V1.1b3 spells its examples, in 6.1, 6.2, 6.4 and 6.5, and
# what is answered there.
EXAMPLES = [
    (lambda link: link.coils(range(19, 38)), '01 0013 0013', '01 03 CD6B05',
     {at: bit == '1' for at, bit in enumerate('1011001111010110101', 19)}),
    (lambda link: link.contacts(range(196, 218)), '02 00C4 0016', '02 03 ACDB35',
     {at: bit == '1' for at, bit in enumerate('0011010111011011101011', 196)}),
    (lambda link: link.registers([8]), '04 0008 0001', '04 02 000A', {8: 10}),
    (lambda link: link.put(172, True), '05 00AC FF00', '05 00AC FF00', None),
    (lambda link: link.put(172, False), '05 00AC 0000', '05 00AC 0000', None)]
PATIENCE, NO_ANSWER = 10.0, 'no answer within 100 ms'
WRONG = [  # what a module answers to a read of register 8, from its head on, and what is told of it
    ('{:04X} 0000 0005 01 04 02 000A', ''),
    ('{:04X} 0000 0003 01 84 02', 'exception 2: illegal data address'),
    ('{:04X} 0000 0003 01 84 63', 'exception 99: unknown'),
    ('0000 0000 0005 01 04 02 000A', 'an answer to another request'),
    ('{:04X} 0001 0005 01 04 02 000A', 'an answer to another request'),
    ('{:04X} 0000 0005 02 04 02 000A', 'an answer to another request'),
    ('{:04X} 0000 0005 01 03 02 000A', 'an answer of function 3 to function 4'),
    ('{:04X} 0000 0002 01 04', 'an answer of 2 octets'),
    ('{:04X} 0000 00FF 01 04 02 000A', 'an answer of 255 octets'),
    ('{:04X} 0000 0005 01 04 04 000A', 'an answer of more or fewer values than were asked for'),
    ('{:04X} 0000 0007 01 04 02 000A 000B',
     'an answer of more or fewer values than were asked for'),
    ('{:04X} 0000 0005 01 04 02', NO_ANSWER),
    ('', 'the connection was lost: the module ended it')]


async def conversed(call, answer, timeout=PATIENCE):
    """What a call comes to that waits so many seconds, what it sent behind its head, and whether
    its connection is open behind it. `answer` makes the answer of the transaction and the unit;
    none ends it."""
    sent, is_over = [], asyncio.Event()

    async def module(reader, writer):
        transaction, _, length, unit = HEAD.unpack(await reader.readexactly(HEAD.size))
        sent.append(await reader.readexactly(length - 1))
        octets = answer(transaction, unit)
        if octets:
            writer.write(octets)
            await writer.drain()
            with contextlib.suppress(ConnectionError):
                await reader.read()
        writer.close()
        is_over.set()

    server = await asyncio.start_server(module, '127.0.0.1', 0)
    async with server:
        port = server.sockets[0].getsockname()[1]
        link = ModbusLink(ModbusAddress('127.0.0.1', port, 1), PATIENCE)
        await link.open()
        link.timeout = timeout
        try:
            found = await call(link)
        except ModuleFault as fault:
            found = fault
        is_open = link.is_open
        link.reset()
        await is_over.wait()
    return found, sent[0], is_open


@needs_loopback
class Octets(unittest.TestCase):
    def test_the_examples_of_the_standard(self):
        for call, request, response, value in EXAMPLES:
            pdu = bytes.fromhex(response)
            found = asyncio.run(conversed(call, lambda transaction, unit: HEAD.pack(
                transaction, 0, 1 + len(pdu), unit) + pdu))
            self.assertEqual(found, (value, bytes.fromhex(request), True))

    def test_what_is_no_answer(self):
        for answer, told in WRONG:
            found, _, is_open = asyncio.run(conversed(
                lambda link: link.registers([8]),
                lambda transaction, unit: bytes.fromhex(answer.format(transaction)),
                0.1 if told == NO_ANSWER else PATIENCE))
            self.assertEqual(str(found) if told else found, told or {8: 10}, answer)
            self.assertEqual(is_open, not told or isinstance(found, ModuleRefused), answer)

    def test_another_echo(self):
        found, _, is_open = asyncio.run(conversed(
            lambda link: link.put(1, True), lambda transaction, unit: HEAD.pack(
                transaction, 0, 6, unit) + bytes.fromhex('05 0001 0000')))
        self.assertEqual((str(found), is_open), ('another echo of the write of coil 1', False))

    def test_writes_that_may_come_late(self):
        for code, may_come in ((1, False), (2, False), (3, False), (6, False), (4, True),
                               (5, True), (8, True), (10, True), (11, True)):
            found, _, _ = asyncio.run(conversed(
                lambda link: link.put(1, True), lambda transaction, unit: HEAD.pack(
                    transaction, 0, 3, unit) + bytes([0x85, code])))
            self.assertEqual((type(found), found.may_come), (ModuleRefused, may_come))


if __name__ == '__main__':
    unittest.main()
