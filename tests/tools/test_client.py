"""tools/client and what it stands on, without a server or with one that says what a test wants."""
import socket
import tempfile
import threading
import time
import unittest

from baytools.bay.files import BadFile, bay_at, program_at, tables_of, text_of
from baytools.bay.names import Names
from baytools.wire import mms, stream
from baytools.wire.ber import Unreadable, element, integer, number
from baytools.wire.client import Client, octets_text, silence_text
from baytools.wire.control import Control
from baytools.wire.identity import own_name
from baytools.wire.mms import BITS, BOOLEAN, INTEGER, TEXT, Data
from baytools.wire.sockets import port_of, seconds_of
from tests.tool import Tools
from tests.tools.loopback import needs_loopback, needs_waiting

ACCEPT = stream.item(0x0E, stream.item(0xC1, element(0x31, element(0xA2, element(
    0x61, element(0x30, number(2, 1), element(0xA0, element(0x61, element(0xBE, element(
        0x28, element(0xA0, element(0xA9, number(0x80, 65_000)))))))))))))
CONFIRM = stream.tpkt_frame(bytes([6, stream.CC, 0, 1, 0, 1, 0]))
GOOD = '0' * 13


class Files(unittest.TestCase):
    def test_what_can_not_be_read(self):
        with self.assertRaisesRegex(BadFile, 'none.toml: No such file or directory'):
            bay_at('none.toml')
        for text in ('[bay]\n', 'bay = 5\n', '[bay]\ndomain = 5\nswitch = []\n', '[bay\n',
                     'a = ' + '9' * 5000, 'a = ' + '[' * 3000):
            with self.assertRaises(BadFile):
                tables_of(text)

    def test_a_mark_at_the_start(self):
        with tempfile.NamedTemporaryFile() as file:
            file.write(b'\xef\xbb\xbfa\r\n')
            file.flush()
            self.assertEqual(text_of(file.name), 'a\r\n')
            with self.assertRaisesRegex(BadFile, 'it begins with a byte order mark: save it as '
                                        'UTF-8 without one'):
                program_at(file.name)

    def test_other_octets(self):
        for octets, told_of_it in ((b'\xff', 'byte FF of line 1 is not UTF-8'),
                                   ('a'.encode('utf-16'), 'it is UTF-16: save it as UTF-8')):
            with tempfile.NamedTemporaryFile() as file:
                file.write(octets)
                file.flush()
                with self.assertRaisesRegex(BadFile, f'be read as a bay file: {told_of_it}'):
                    bay_at(file.name)


class Octets(unittest.TestCase):
    def test_integers(self):
        self.assertEqual(integer(b'\x00' + b'\xff' * 8), 2 ** 64 - 1)
        for octets in (b'', b'\x01' + bytes(9), bytes(5000)):
            with self.assertRaises(Unreadable):
                integer(octets)


class Options(unittest.TestCase):
    def test_ports_and_times(self):
        self.assertEqual((port_of('65535'), seconds_of('0.5')), (65_535, 0.5))
        for text in ('0', '65536', '-1', 'x', '9' * 5000, '\u0661'):
            with self.assertRaisesRegex(Exception, 'is not a port'):
                port_of(text)
        for text in ('-1', 'nan', 'inf', '1e9', 'x'):
            with self.assertRaisesRegex(Exception, 'is not a number of seconds'):
                seconds_of(text)


def serve_once(act):
    """A port on which one connection is handed to a function."""
    server = socket.create_server(('127.0.0.1', 0))

    def serve():
        try:
            connection, _ = server.accept()
            with connection:
                act(connection)
        except OSError:
            pass

    threading.Thread(target=serve, daemon=True).start()
    return server


def respond(invoke, *service):
    return element(0xA1, number(0x02, invoke), element(service[0], *service[1:]))


def values(invoke, *data):
    return respond(invoke, 0xA4, element(0xA1, *map(mms.octets_of, data)))


class Bay:
    """A server that opens an association, and answers each request by a function of it."""

    def __init__(self, answer):
        self.answer, self.requests, self.stream = answer, [], stream.Stream()

    def __call__(self, connection):
        while piece := connection.recv(65536):
            for got in self.stream.feed(piece):
                for octets in self.answer_octets(got):
                    connection.sendall(octets)

    def answer_octets(self, got):
        if got.kind == 'CR':
            return [CONFIRM]
        if got.kind == 'associate':
            return [stream.tpkt_frames(ACCEPT)]
        if got.kind == 'finish':
            return [stream.tpkt_frames(stream.item(stream.DISCONNECT))]
        if got.kind != 'mms':
            return []
        pdu = mms.read_pdu(got.octets)
        self.requests.append(pdu)
        return (stream.tpkt_frames(stream.data_tsdu(it)) for it in self.answer(pdu))


@needs_loopback
class Hostile(Tools):
    """Servers that answer what no server should: an end with status 3, in time and in one line."""

    def run_client(self, act, *words_of_it, timeout='0.6'):
        server = serve_once(act)
        since = time.monotonic()
        found = self.call_tool('client', '--timeout', timeout, server.getsockname()[1],
                              *(words_of_it or ('browse',)))
        self.assertLess(time.monotonic() - since, 8)
        server.close()
        self.assertEqual((found.status, found.error.count('\n')), (3, 1), found)
        return found.error.removeprefix('client: ').rstrip('\n')

    def answer_with(self, answer, *words_of_it):
        return self.run_client(Bay(answer), *words_of_it)

    def test_a_port_that_says_nothing(self):
        self.assertRegex(self.run_client(lambda connection: time.sleep(3)),
                         'port .* of 127.0.0.1: the connection is taken, and a connection request '
                         'is not answered: it is no port of clients, and none of a supervised '
                         'process, which is greeted$')

    def test_a_port_of_which_nobody_knows_whether_it_is_taken(self):
        for is_tls in (False, True):
            self.assertIn('is it the port of the clients, and are all eight associations taken?',
                          silence_text(None, is_tls))
        self.assertIn('are all eight associations taken?', silence_text(True, True))

    @needs_waiting
    def test_a_server_that_takes_nobody(self):
        with socket.create_server(('127.0.0.1', 0)) as server:
            found = self.call_tool('client', '--timeout', '0.5', server.getsockname()[1], 'browse')
        self.assertEqual(found.status, 3)
        self.assertIn('the connection waits, and what listens there does not take it: a bay\'s '
                      'server does so while eight associations are open', found.error)

    def test_a_server_of_the_web(self):
        told_of_it = self.run_client(lambda connection: connection.sendall(b'HTTP/1.1 400 Bad'))
        self.assertIn('no TPKT: it begins with 48 (48 54 54 50', told_of_it)
        self.assertIn("('HTTP/1.1 400')", told_of_it)

    def test_the_port_of_a_supervised_process(self):
        found = self.run_client(lambda connection: connection.sendall(b'17 process 500 E05 1.0\n'))
        self.assertIn('it greets a process: this is the port of a process, and not that of the '
                      'clients', found)

    def test_octets_that_come_one_by_one(self):
        def drip(connection):
            for octet in CONFIRM * 9:
                connection.sendall(bytes([octet]))
                time.sleep(0.3)

        self.assertIn('and no whole answer to a connection request', self.run_client(drip))

    def test_a_server_that_ends(self):
        self.assertEqual(self.run_client(lambda connection: connection.recv(100)),
                         'the server closed the connection')

    def test_pages_without_end(self):
        def same(pdu):
            yield respond(pdu.invoke, 0xA1, element(0xA0, element(0x1A, b'A')))

        def new(pdu):
            name = b'A%d' % pdu.invoke
            time.sleep(0.05)
            yield respond(pdu.invoke, 0xA1, element(0xA0, element(0x1A, name)))

        self.assertIn('sends pages of names without end', self.answer_with(same))
        self.assertIn('gave no whole answer within 0.6 s', self.answer_with(new))

    def test_reports_without_end(self):
        def reports(pdu):
            while True:
                yield element(0xA3, element(0xA0, element(0xA0, element(0x30, element(
                    0xA0, element(0x80, b'LastApplError')))), element(0xA0, mms.octets_of(
                        Data(TEXT, 'x')))))

        self.assertIn('gave no whole answer', self.answer_with(reports))

    def test_a_wrong_invoke_id(self):
        self.assertEqual(self.answer_with(lambda pdu: [respond(77, 0xA1, element(0xA0))]),
                         'the server answers request 77, and 1 was asked')

    def test_a_result_that_is_missing_or_of_another_shape(self):
        def read(*data):
            def answer(pdu):
                if pdu.service == 'names':
                    return [respond(pdu.invoke, 0xA1, element(0xA0, element(0x1A, b'D')),
                                    element(0x81, b'\0'))]
                return [values(pdu.invoke, *data)]
            return answer

        self.assertIn('answers 0 values, and 1 were asked', self.answer_with(read(), 'read', 'A$B'))
        self.assertIn('gives CSWI1$CF$Pos$ctlModel a value of another type',
                      self.answer_with(read(Data(TEXT, 'x')), 'operate', 'CSWI1', 'close'))
        self.assertIn('answers names, and read was asked', self.answer_with(
            lambda pdu: [respond(pdu.invoke, 0xA1, element(0xA0, element(0x1A, b'D')),
                                 element(0x81, b'\0'))], 'read', 'A$B'))

    def test_types_that_are_too_deep(self):
        def deep(pdu):
            shape = element(0x83)
            for _ in range(400):
                shape = element(0xA2, element(0xA1, element(0x30, element(0x80, b'a'), element(
                    0xA1, shape))))
            yield respond(pdu.invoke, 0xA6, element(0xA2, shape))

        told_of_it = self.answer_with(deep, 'types', 'D/A$B')
        self.assertIn('can\'t be read', told_of_it)


class Statuses(Tools):
    @needs_loopback
    def test_no_server(self):
        with socket.socket() as one:
            one.bind(('127.0.0.1', 0))
            port = one.getsockname()[1]
            found = self.call_tool('client', port, 'browse')
        self.assertEqual((found.error, found.status), (
            f'client: port {port} of 127.0.0.1: no server listens there\n', 3))

    def test_wrong_words(self):
        for words_of_it in ((1, 'operate', 'QA1', 'up'), (65_536, 'browse'),
                            ('--timeout', 'nan', 1, 'browse'), ('--timeout', '0', 1, 'browse'),
                            ('--association', 9, 1, 'browse'),
                            (1, 'operate', 'QA1', 'open', '--as', 'é' * 33)):
            found = self.call_tool('client', *words_of_it)
            self.assertEqual((found.status, found.out, found.error.count('\n')), (2, '', 1))
        found = self.call_tool('client', '--bay', 'none.toml', 1, 'browse')
        self.assertEqual((found.error, found.status),
                         ('client: none.toml: No such file or directory\n', 3))


class Switchgear:
    """What a server with two switches answers: CSWI1 is selected by a read and moves when it is
    operated, after some reads; CSWI2 moves all the time."""

    def __init__(self, reads=2, moves=True, held=3, accepts=True):
        self.reads, self.moves, self.held, self.accepts = reads, moves, held, accepts
        self.position, self.is_operated = '10', False

    def __call__(self, pdu):
        if pdu.service == 'write':
            self.is_operated = self.accepts
            yield respond(pdu.invoke, 0xA5, element(0x81) if self.accepts else number(0x80, 3))
        elif pdu.service == 'names':
            names = [b'D'] if not pdu.names else [b'CSWI1', b'CSWI2']
            yield respond(pdu.invoke, 0xA1, element(0xA0, *(element(0x1A, n) for n in names)),
                          element(0x81, b'\0'))
        else:
            yield values(pdu.invoke, *(self.value(name.partition('/')[2]) for name in pdu.names))

    def value(self, name):
        word = name.rpartition('$')[2]
        if word == 'stSeld':
            self.held -= 1
        if word == 'stVal' and name.startswith('CSWI1') and self.is_operated and self.moves:
            self.reads -= 1
            self.position = '01' if self.reads < 0 else '00'
        position = self.position if name.startswith('CSWI1') else '00'
        if name.startswith('CILO'):
            return Data(BOOLEAN, False)
        return {'ctlModel': Data(INTEGER, 2), 'SBO': Data(TEXT, 'D/CSWI1'), 'q': Data(BITS, GOOD),
                'stSeld': Data(BOOLEAN, self.held > 0), 'stVal': Data(BITS, position)}[word]


@needs_loopback
class Operating(Tools):
    def run_client(self, gear, *words_of_it, given=''):
        server = serve_once(Bay(gear))
        found = self.run_tool('client', server.getsockname()[1], *words_of_it, given=given)
        server.close()
        return found.out.splitlines(), found.status

    def test_an_operate_waits_for_the_position(self):
        said, status = self.run_client(Switchgear(), 'operate', 'CSWI1', 'open')
        self.assertEqual(said, ['select CSWI1: done', 'operate CSWI1: accepted',
                                'operate CSWI1: done: open'])
        self.assertEqual(status, 0)

    def test_a_switch_that_does_not_come(self):
        said, status = self.run_client(Switchgear(moves=False), 'operate', 'CSWI1', 'open',
                                       '--wait', '0.3')
        self.assertEqual((said[-1], status), ('operate CSWI1: not done: closed after 0.3 s', 1))
        said, status = self.run_client(Switchgear(moves=False), 'operate', 'CSWI1', 'open',
                                       '--wait', '0')
        self.assertEqual((said[-1], status), ('operate CSWI1: accepted', 0))

    def test_which_switch_still_moves(self):
        said, status = self.run_client(Switchgear(accepts=False), 'operate', 'CSWI1', 'open')
        self.assertEqual(said[1:], [
            'operate CSWI1: object access denied (3)',
            'CSWI1 is closed, may not be opened and may not be closed; still moving: CSWI2'])
        self.assertEqual(status, 1)

    def test_a_select_is_held_while_the_server_holds_it(self):
        said, status = self.run_client(Switchgear(held=99), 'select', 'CSWI1')
        self.assertEqual((said[1:], status), (['held until the end of standard input'], 0))
        said, status = self.run_client(Switchgear(held=0), 'select', 'CSWI1')
        self.assertEqual((said[1:], status), (['CSWI1 is no longer selected'], 1))


class Bays:
    """Two switches, one selected with value, one operated at once, and what is written there."""

    def __init__(self) -> None:
        self.written, self.checks = [], []

    def __call__(self, pdu):
        if pdu.service == 'write':
            _, origin, count, _, _, *check = pdu.data[0].value
            verb = pdu.names[0].rpartition('$')[2]
            self.written.append((verb, count.value, origin.value[1].value))
            self.checks.append([it.value for it in check])
            yield respond(pdu.invoke, 0xA5, element(0x81))
        elif pdu.service == 'names':
            yield respond(pdu.invoke, 0xA1, element(0xA0, element(0x1A, b'D')),
                          element(0x81, b'\0'))
        else:
            yield values(pdu.invoke, *(Data(INTEGER, 4 if 'CSWI1' in name else 1)
                                       for name in pdu.names))


@needs_loopback
class Asking(Tools):
    """Who asks, and for which time."""

    def serve_bay(self, act):
        bay = Bays()
        server = serve_once(Bay(bay))
        try:
            act(server.getsockname()[1])
        finally:
            server.close()
        return bay

    def writes_of(self, act):
        return self.serve_bay(act).written

    def test_numbers_of_controls(self):
        def act(port):
            client = Client('127.0.0.1', port)
            self.addCleanup(client.socket.close)
            one, other = Control(client, 'CSWI1', 'A'), Control(client, 'CSWI2', 'A')
            one.select(True), one.operate(True), other.operate(True), other.operate(False)
            one.select(True), one.cancel(True), one.cancel(True)
            client.controls = 255
            other.operate(True)

        self.assertEqual([it[:2] for it in self.writes_of(act)], [
            ('SBOw', 1), ('Oper', 1), ('Oper', 2), ('Oper', 3), ('SBOw', 4), ('Cancel', 4),
            ('Cancel', 5), ('Oper', 0)])

    def test_who_asks(self):
        for more, ident in (([], own_name()), (['--as', 'Anna'], 'Anna'), (['--as', ''], '')):
            found = self.writes_of(lambda port: self.call_tool(
                'client', port, 'operate', 'CSWI1', 'close', '--wait', 0, *more))
            self.assertEqual(found, [(verb, 1, ident.encode()) for verb in ('SBOw', 'Oper')])
        self.assertRegex(own_name(), '^[^@]+@[^@]+$')

    def test_which_check_is_wanted(self):
        for verb, more, checks in (('operate', [], [['00'], ['00']]),
                                   ('operate', ['--synchrocheck'], [['10'], ['10']]),
                                   ('cancel', [], [['00'], []])):
            found = self.serve_bay(lambda port: self.call_tool('client', port, verb, 'CSWI1',
                                                               'close', *more))
            self.assertEqual(found.checks, checks)


class Words(unittest.TestCase):
    def test_octets(self):
        self.assertEqual(octets_text(b'\x03\x00\x1b\x00'), '03 00 1B 00')
        self.assertEqual(octets_text(b'HTTP/1.1 400 Bad'),
                         '48 54 54 50 2F 31 2E 31 20 34 30 30 .. (\'HTTP/1.1 400\')')

    def test_names_of_switches(self):
        bay = Names('[bay]\ndomain = "D"\n[[switch]]\nid = "QS1"\nkind = "breaker"\n'
                        'travel_ms = 70\n')
        self.assertEqual((bay.node('qs1'), bay.node('q\u017f1'), bay.node('cswi1'),
                          bay.node('CSWI\u0661')), ('CSWI1', None, 'CSWI1', None))
        self.assertEqual((bay.travel('QS1'), bay.travel('X')), (70, None))
        self.assertEqual((bay.key('QS1'), Names().key('QS1')), ('', ''))


if __name__ == '__main__':
    unittest.main()
