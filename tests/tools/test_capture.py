"""Captures made by hand: in order, out of order, repeated, with what is missing; pcap and
pcapng."""
import random
import struct
import time
import unittest
import xml.etree.ElementTree as ET

from baytools.bay.names import Names
from baytools.report.history import History
from baytools.report.joined import BadTrace, lines_of, sent_of, trace_of
from baytools.timeline.drawing import draw
from baytools.wire import mms, stream
from baytools.wire.ber import element, number
from baytools.wire.capture import Capture, Event
from baytools.wire.conversation import Conversation
from baytools.wire.packets import BadCapture, Packet, packets, segment_in
from devtools.made_captures import ACK, CLIENT, FIN, SERVER, SYN, block, pcap, pcapng, segment
from tests.tool import Tools

def session(first=1000):
    """A whole session: opened, ten octets in two segments, four octets back, closed."""
    return [segment(CLIENT, SERVER, first, SYN), segment(SERVER, CLIENT, 5000, SYN | ACK),
            segment(CLIENT, SERVER, first + 1, ACK, b'01234'),
            segment(CLIENT, SERVER, first + 6, ACK, b'56789'),
            segment(SERVER, CLIENT, 5001, ACK, b'abcd'), segment(CLIENT, SERVER, first + 11, FIN)]


def read_capture(octets, port=None):
    """What each side sent, and the kinds of what happened."""
    found = list(Capture(octets, port).events())
    sides = {kind: b''.join(e.octets for e in found if e.kind == kind)
             for kind in ('client', 'server')}
    return sides['client'], sides['server'], [event.kind for event in found]


class Captures(unittest.TestCase):
    def test_in_order(self):
        client, server, kinds = read_capture(pcap(session()))
        self.assertEqual((client, server), (b'0123456789', b'abcd'))
        self.assertEqual(kinds, ['open', 'client', 'client', 'server', 'close'])

    def test_formats(self):
        whole = read_capture(pcap(session()))
        self.assertEqual(read_capture(pcap(session(), order='>')), whole)
        self.assertEqual(read_capture(pcapng(session())), whole)

    def test_out_of_order(self):
        found = session()
        found[2], found[3] = found[3], found[2]
        self.assertEqual(read_capture(pcap(found))[:2], (b'0123456789', b'abcd'))

    def test_repeated(self):
        found = session()
        again = [segment(CLIENT, SERVER, 1001, ACK, b'01234'),
                 segment(CLIENT, SERVER, 1004, ACK, b'3456789'), *found]
        self.assertEqual(read_capture(pcap(found[:4] + again[:2] + found[4:]))[:2],
                         (b'0123456789', b'abcd'))

    def test_a_segment_that_is_missing(self):
        found = session()
        client, server, kinds = read_capture(pcap(found[:2] + found[3:]))
        self.assertEqual((client, server), (b'56789', b'abcd'))
        self.assertEqual(kinds, ['open', 'gap', 'client', 'server', 'close'])

    def test_a_last_segment_that_is_missing(self):
        found = session()
        self.assertIn('gap', read_capture(pcap(found[:3] + found[4:]))[2])
        answer = segment(SERVER, CLIENT, 5001, ACK, b'abcd', 1011)
        self.assertIn('gap', read_capture(pcap([*found[:3], answer]))[2])
        self.assertNotIn('gap', read_capture(pcap([*found[:4], answer]))[2])

    def test_a_segment_that_the_other_end_has_taken(self):
        found = session()
        answer = segment(SERVER, CLIENT, 5001, ACK, b'abcd', 1011)
        client, _, kinds = read_capture(pcap([*found[:2], found[3], answer, found[5]]))
        self.assertEqual((client, kinds), (b'56789', ['open', 'gap', 'client', 'server', 'close']))
        events = Capture(pcap([*found[:2], found[3], answer])).events()
        self.assertEqual([event.moment for event in events], [1_000_000, *[1_000_002] * 2,
                                                              1_000_003])

    def test_a_beginning_that_is_missing(self):
        found = session()
        answer = segment(SERVER, CLIENT, 5000, SYN | ACK, b'', 1001)
        client, _, kinds = read_capture(pcap([answer, *found[3:]]))
        self.assertEqual((client, kinds), (b'56789', ['open', 'gap', 'client', 'server', 'close']))
        asked = segment(CLIENT, SERVER, 1001, ACK, b'01234', 5001)
        late = segment(SERVER, CLIENT, 5003, ACK, b'cd')
        _, server, kinds = read_capture(pcap([found[0], asked, late]))
        self.assertEqual((server, kinds), (b'cd', ['open', 'client', 'gap', 'server']))

    def test_the_end_of_a_way_is_no_octet(self):
        found = [*session(), segment(SERVER, CLIENT, 5005, ACK, b'', 1012)]
        self.assertNotIn('gap', read_capture(pcap(found))[2])
        self.assertNotIn('gap', read_capture(pcap([*found[:5], found[6]]))[2])

    def test_a_first_segment_that_comes_again(self):
        found = session()
        again = [*found[:3], found[0], found[1], *found[3:]]
        self.assertEqual(read_capture(pcap(again)), read_capture(pcap(found)))

    def test_a_half_close(self):
        found = session()
        found = [*found[:4], found[5], found[4], segment(SERVER, CLIENT, 5005, FIN)]
        client, server, kinds = read_capture(pcap(found))
        self.assertEqual((client, server), (b'0123456789', b'abcd'))
        self.assertEqual(kinds[-2:], ['server', 'close'])
        self.assertEqual(sent_of(Capture(pcap(found)).events()), {1: b'abcd'})

    def test_the_same_ports_again_without_an_end(self):
        kinds = read_capture(pcap(session()[:5] + session(9000)))[2]
        self.assertEqual((kinds.count('open'), kinds.count('close')), (2, 1))

    def test_many_segments_behind_a_lost_one(self):
        parts = [segment(CLIENT, SERVER, 1001 + 50 * n, ACK, b'x' * 50) for n in range(20_000)]
        since = time.monotonic()
        client, _, kinds = read_capture(pcap([session()[0], *parts[1:]]))
        self.assertEqual((len(client), kinds[1]), (50 * 19_999, 'gap'))
        request = stream.tpkt_frames(stream.data_tsdu(mms.read_request(7, ['D/A'])))
        found = stream.Stream(connected=True).feed(request * 20_000)
        self.assertEqual(sum(1 for _ in found), 20_000)
        self.assertLess(time.monotonic() - since, 10)

    def test_a_connection_that_is_open_before(self):
        events = Capture(pcap(session()[2:])).events()
        self.assertEqual([event.kind for event in events[:2]], ['middle', 'client'])
        with self.assertRaisesRegex(BadTrace, 'connection 1 began before it'):
            trace_of(events, '')
        with self.assertRaisesRegex(BadTrace, 'octets of connection 1 are missing'):
            trace_of(Capture(pcap([session()[0], session()[3]])).events(), '')

    def test_without_a_port(self):
        request, ends = stream.connection_request(), ((b'\x0a\x00\x00\x03', 40_000), (
            b'\x0a\x00\x00\x04', 10_102))
        for cuts in ([request], [request[:1], request[1:3], request[3:]],
                     [request[at:at + 1] for at in range(len(request))]):
            found, at = [segment(*ends, 100, SYN)], 101
            for part in cuts:
                found.append(segment(*ends, at, ACK, part))
                at += len(part)
            self.assertEqual(read_capture(pcap(found))[0], request)
        web = [segment(*ends, 100, SYN), segment(*ends, 101, ACK, b'GET / HTTP/1.1')]
        self.assertEqual(read_capture(pcap(web))[2], [])
        self.assertEqual(read_capture(pcap(web), port=10_102)[2], ['open', 'client'])

    def test_who_is_the_client(self):
        answer = stream.tpkt_frame(bytes([6, stream.CC, 0, 1, 0, 1, 0]))
        ends = (b'\x0a\x00\x00\x04', 40_102), (b'\x0a\x00\x00\x03', 40_000)
        events = Capture(pcap([segment(*ends, 5, ACK, answer)])).events()
        self.assertEqual([(it.kind, it.who) for it in events], [('middle', '10.0.0.3'),
                                                                ('server', '10.0.0.3')])

    def test_numbers_begin_again(self):
        self.assertEqual(read_capture(pcap(session(2**32 - 4)))[0], b'0123456789')

    def test_without_its_beginning(self):
        client, server, _ = read_capture(pcap(session()[2:]))
        self.assertEqual((client, server), (b'0123456789', b'abcd'))

    def test_ports(self):
        self.assertEqual(read_capture(pcap(session()), port=103)[2], [])
        self.assertEqual(read_capture(pcap(session()), port=102)[0], b'0123456789')

    def test_two_connections_of_one_port(self):
        kinds = read_capture(pcap(session() + session(9000)))[2]
        self.assertEqual(kinds.count('open'), 2)

    def test_no_capture(self):
        with self.assertRaises(BadCapture):
            list(Capture(b'0 scan\n').events())

    def test_extension_headers(self):
        tcp = segment(CLIENT, SERVER, 1, ACK, b'abc')[20:]
        ends = bytes(15) + b'\x01', bytes(15) + b'\x02'
        for kinds, headers in (([], b''), ([0], b'\x06\x00' + bytes(6)),
                               ([0, 43, 60], b'\x2b\x00' + bytes(6) + b'\x3c\x01' + bytes(14)
                                + b'\x06\x00' + bytes(6)), ([44], b'\x06\x00' + bytes(6)),
                               ([51], b'\x06\x01' + bytes(10))):
            first = kinds[0] if kinds else 6
            head = struct.pack('>IHBB', 6 << 28, len(headers + tcp), first, 64) + b''.join(ends)
            found = segment_in(Packet(0, 101, head + headers + tcp))
            self.assertEqual(found and found.data, b'abc', kinds)
        self.assertIsNone(segment_in(Packet(0, 101, struct.pack('>IHBB', 6 << 28, 8, 59, 64)
                                            + b''.join(ends) + bytes(8))))

    def test_simple_packets_and_offsets(self):
        frame = bytes(12) + b'\x08\x00' + session()[2]
        out = block(0x0A0D0D0A, struct.pack('<IHHq', 0x1A2B3C4D, 1, 0, -1))
        out += block(1, struct.pack('<HHI', 1, 0, 60) + struct.pack('<HHq', 14, 8, 77) + bytes(4))
        out += block(6, struct.pack('<IIIII', 0, 0, 5_000_000, len(frame), len(frame)) + frame)
        out += block(3, struct.pack('<I', len(frame) + 100) + frame[:60])
        found = list(packets(out))
        self.assertEqual([(it.moment, len(it.octets)) for it in found],
                         [(82_000, len(frame)), (82_000, 60)])

    def test_cut_off_anywhere(self):
        for whole in (pcap(session()), pcapng(session())):
            for end in range(24, len(whole)):
                list(Capture(whole[:end]).events())

    def test_changed_anywhere(self):
        """Captures with changed octets are read or refused, and nothing else."""
        chance = random.Random(71)
        for whole in (pcap(session()), pcapng(session())):
            for _ in range(500):
                octets = bytearray(whole)
                for _ in range(chance.randint(1, 6)):
                    octets[chance.randrange(len(octets))] = chance.randrange(256)
                try:
                    events = Capture(bytes(octets)).events()
                    list(lines_of(events))
                except BadCapture:
                    pass


class Talks(Tools):
    """What is told of the talk in a capture, however it is cut."""
    FILE = {'bay': {'domain': 'D'}, 'switch': []}

    def setUp(self):
        super().setUp()
        control, value = 'D/CSWI1$CO$Pos$Oper', mms.control(True)
        error = element(0xA3, element(0xA0, element(0xA0, element(0x30, element(
            0xA0, element(0x80, b'LastApplError')))), element(0xA0, mms.octets_of(mms.Data(
                mms.STRUCTURE, [mms.Data(mms.TEXT, control), mms.Data(mms.INTEGER, 0), mms.Data(
                    mms.STRUCTURE, [mms.Data(mms.INTEGER, 2), mms.Data(mms.OCTETS, b'')]),
                    mms.Data(mms.UNSIGNED, 0), mms.Data(mms.INTEGER, 5)])))))
        refusal = element(0xA1, number(2, 7), element(0xA5, number(0x80, 3)))
        self.asked = self.wrap_pdu(mms.write_request(7, [control], [value]))
        self.told = [self.wrap_pdu(error), self.wrap_pdu(refusal)]

    @staticmethod
    def wrap_pdu(pdu):
        return stream.tpkt_frames(stream.data_tsdu(pdu))

    def capture(self, pieces):
        """The octets of a capture in which the answer comes in these pieces."""
        request = stream.connection_request()
        answer = stream.tpkt_frame(bytes([6, stream.CC, 0, 1, 0, 1, 0]))
        found, at = [segment(CLIENT, SERVER, 0, SYN), segment(SERVER, CLIENT, 0, SYN | ACK),
                     segment(CLIENT, SERVER, 1, ACK, request + self.asked)], 1
        for piece in [answer, *pieces]:
            found.append(segment(SERVER, CLIENT, at, ACK, piece))
            at += len(piece)
        return pcap(found)

    def test_a_cause_does_not_hang_on_how_segments_were_cut(self):
        whole = b''.join(self.told)
        for pieces in ([whole], self.told, [whole[:9], whole[9:]], [whole[:-9], whole[-9:]]):
            events = Capture(self.capture(pieces)).events()
            history = History.of_capture(self.FILE, Names(), events)
            self.assertEqual([told for _, told in history.refusals],
                             ['client 1 (10.0.0.1): operate CSWI1 close: position reached (5)'])

    def test_a_lane_for_each_association(self):
        """Its number is the lowest that is free, as a server's."""
        seen = [(1, 'open'), (2, 'open'), (3, 'middle'), (2, 'close'), (4, 'open'), (1, 'close'),
                (5, 'open')]
        events = [Event(at, place, kind, who=f'10.0.0.{place % 2}')
                  for at, (place, kind) in enumerate(seen)]
        clients = History.of_capture(self.FILE, Names(), events).clients
        self.assertEqual({place: (it.name(), it.open.changes) for place, it in clients.items()}, {
            1: ('1 (10.0.0.1)', [(0, True), (5, False), (6, True)]),
            2: ('2 (10.0.0.0)', [(1, True), (3, False), (4, True)]),
            3: ('3 (10.0.0.1)', [(2, True)])})

    def polling_session(self, times, every=250, name='D/CSWI1$ST$Pos'):
        """A session whose client reads the same again and again."""
        events = [Event(0, 1, 'open', who='10.0.0.1'), Event(0, 1, 'client',
                                                             stream.connection_request()),
                  Event(0, 1, 'server', stream.tpkt_frame(bytes([6, stream.CC, 0, 1, 0, 1, 0])))]
        for at in range(1, times + 1):
            value = mms.octets_of(mms.Data(mms.INTEGER, at))
            answer = element(0xA1, number(2, at), element(0xA4, element(0xA1, value)))
            events += [Event(every * at, 1, 'client', self.wrap_pdu(mms.read_request(at, [name]))),
                       Event(every * at + 3, 1, 'server', self.wrap_pdu(answer))]
        return events

    def test_reads_that_repeat_are_one_bar(self):
        for times, bars in ((3, []), (4, [(250, 1003, 4)]), (9000, [(250, 2_250_003, 9000)])):
            history = History.of_capture(self.FILE, Names(), self.polling_session(times))
            client = history.clients[1]
            self.assertEqual([(it.start, it.end, it.count) for it in client.bars()], bars)
            self.assertEqual(len(client.ticks()), 1 if bars else 1 + 2 * times)
            picture = draw(history, 'one')
            self.assertLess(len(picture), 20_000)
            self.assertEqual(f'{times:,} times: read CSWI1$ST$Pos' in picture, bool(bars))
            self.assertIn('what 1 client asked, and 0 controls', picture)
            ET.fromstring(picture)

    def test_a_pause_ends_a_bar(self):
        history = History.of_capture(self.FILE, Names(), self.polling_session(9, every=20_000))
        self.assertEqual(list(history.clients[1].bars()), [])
        self.assertEqual(len(history.clients[1].ticks()), 19)

    def test_a_read_that_fails_is_told(self):
        events = self.polling_session(9)
        events[-1].octets = self.wrap_pdu(element(0xA1, number(2, 9), element(
            0xA4, element(0xA1, number(0x80, 3)))))
        client = History.of_capture(self.FILE, Names(), events).clients[1]
        self.assertEqual([it.count for it in client.bars()], [9])
        self.assertIn('object access denied (3)', ' '.join(client.ticks()[2253]))

    def test_an_invoke_id_that_is_used_twice(self):
        talk = Conversation(Names())
        for name in ('D/A$ST$x', 'D/B$ST$y'):
            talk.describe_mms(mms.read_request(7, [name]))
        answer = element(0xA1, number(2, 7), element(0xA4, element(0xA1, number(0x80, 10))))
        self.assertEqual([talk.answers_mms(answer).lines for _ in range(3)],
                         [['A$ST$x = object non-existent (10)'],
                          ['B$ST$y = object non-existent (10)'], ['object non-existent (10)']])

    def test_a_talk_that_begins_in_the_middle(self):
        whole = self.capture(self.told)
        text = self.call_tool('explain', self.file('one.pcap', whole)).out
        self.assertIn('operate CSWI1: object access denied (3)', text)
        middle = pcap([segment(CLIENT, SERVER, 90, ACK, b'\x00\x01rest' + self.asked),
                       segment(SERVER, CLIENT, 70, ACK, b'\x03rest' + b''.join(self.told))])
        text = self.call_tool('explain', self.file('two.pcap', middle)).out
        self.assertIn('is connected from 10.0.0.1: the capture begins in the middle', text)
        self.assertIn('operate CSWI1: object access denied (3)', text)

    def test_captures_with_changed_octets(self):
        """Whatever octets are changed, a talk is told without a traceback."""
        chance, whole = random.Random(7), self.capture(self.told)
        for _ in range(800):
            octets = bytearray(whole)
            for _ in range(chance.randint(1, 8)):
                octets[chance.randrange(24, len(octets))] = chance.randrange(256)
            events = Capture(bytes(octets)).events()
            History.of_capture(self.FILE, Names(), events)


if __name__ == '__main__':
    unittest.main()
