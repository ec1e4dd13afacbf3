"""Sessions of clients with a served bay: what they sent, joined and replayed, and as captures, and
what a server logged."""
import contextlib
import re
import socket
import struct
import threading
import time
from collections.abc import Iterator

from baytools.bay.files import bay_at
from baytools.bay.names import Names
from baytools.common.paths import TOP
from baytools.wire.client import Client
from baytools.wire.same_bay import compare_with_server
from devtools.made_captures import ACK, CLIENT, FIN, SERVER, SYN, segment
from devtools.served import Server, Simulator, until, value

SERVED = TOP / 'examples' / '09_served'
BAY, LOGIC, TRACE = SERVED / 'bay.toml', SERVED / 'logic.il', SERVED / 'trace'
CLOSED = '10'


class Tap:
    """A port between a client and a server, which notes what goes through."""

    def __init__(self, port) -> None:
        self.port, self.seen = port, []
        self.listener = socket.create_server(('127.0.0.1', 0))
        self.own = self.listener.getsockname()[1]
        threading.Thread(target=self.pass_on, daemon=True).start()

    def pass_on(self) -> None:
        client, _ = self.listener.accept()
        server = socket.create_connection(('127.0.0.1', self.port))
        self.note(0, SYN, b'')
        self.note(1, SYN | ACK, b'')
        ways = [threading.Thread(target=self.one_way, args=it)
                for it in ((0, client, server), (1, server, client))]
        for way in ways:
            way.start()
        for way in ways:
            way.join()
        self.note(0, FIN, b'')

    def note(self, side, flags, octets) -> None:
        self.seen.append((time.time(), side, flags, octets))

    def one_way(self, side, source, target) -> None:
        while piece := source.recv(65536):
            self.note(side, ACK, piece)
            target.sendall(piece)
        target.shutdown(socket.SHUT_WR)

    def packets(self, is_torn) -> Iterator:
        """The packets of what went through; where they are torn, each comes in two parts, the later
        one first, and both once more."""
        numbers = [1001, 5001]
        for moment, side, flags, octets in self.seen:
            ends = (CLIENT, SERVER) if side == 0 else (SERVER, CLIENT)
            number, half = numbers[side] - (flags & SYN) // SYN, len(octets) // 2
            numbers[side] += len(octets)
            parts = [(number + half, octets[half:]), (number, octets[:half])] * 2
            for at, part in parts if is_torn and octets else [(number, octets)]:
                yield moment, segment(*ends, at, flags, part)

    def capture(self, is_torn) -> bytes:
        """What went through, as a capture of tcpdump."""
        out = struct.pack('<IHHiIII', 0xA1B2C3D4, 2, 4, 0, 0, 65535, 101)
        for moment, packet in self.packets(is_torn):
            size = len(packet)
            out += struct.pack('<IIII', int(moment), int(moment % 1 * 10**6), size, size) + packet
        return out


def sessions(checks) -> None:
    """A session is told and drawn by what its client sent, and by a capture of it."""
    with Server(checks.bayctl, BAY, LOGIC, '--trace', TRACE) as server:
        watching = server.client()
        until(lambda: value(watching, 'MMXU1$MX$A$phsA$cVal$mag$i') == 212, 'the trace is done')
        sent, tap = checks.folder / 'sent', Tap(server.port)
        words = ['--bay', BAY, '--trace', sent, str(tap.own), 'operate', 'QA1', 'open', '--wait',
                 '0']
        checks.wants('a client', *checks.run('client', *words), ['operate QA1: accepted'], 0)
        another_bay(checks, server)
        watching.close()
    joined = checks.file('joined', checks.run('join', BAY, LOGIC, TRACE, sent)[0])
    asked = ['--bayctl', checks.bayctl]
    checks.wants('what a client sent, joined and told', *checks.run('explain', joined, *asked),
                 ['UTC', 'QA1 is closed', 'operate QA1: done', 'command: open QA1'], 0)
    checks.wants('what a client sent, drawn', *draw(checks, joined, *asked),
                 ['UTC', 'operate QA1 open', 'command: open QA1 at'], 0)
    until(lambda: tap.seen[-1][2] == FIN, 'the client is gone')
    for is_torn in (False, True):
        check_capture(checks, checks.file('session.pcap', tap.capture(is_torn)))
    same_bays(checks)
    check_log(checks)


# Shows P-121.
def check_log(checks) -> None:
    """tools/log tells what a server logged: where the switches were, what was released, who asked,
    how an operate ended, and that the process was lost."""
    with Server(checks.bayctl, BAY, LOGIC, '--log', with_process=True) as server:
        with contextlib.closing(server.client()) as client, \
                Simulator(BAY, server, '--at', 'QA1=closed', '--travel', 20):
            until(lambda: value(client, 'XCBR1$ST$Pos$stVal') == CLOSED, 'all is told')
            checks.wants('a client', *checks.run('client', '--bay', BAY, str(server.port),
                                                 'operate', 'QA1', 'open', '--as', 'anna'),
                         ['operate QA1: done: open'], 0)
        until(lambda: server.printed().count('position QC1') > 1, 'the loss is logged')
        log = checks.file('session.log', server.printed())
    checks.wants('the log of a session', *checks.run('log', log), [
        'QA1 is closed', 'operate QA1 open (orIdent anna): done', 'QA1 is open',
        'QB1 may be opened and closed', 'operate of QA1 ended: position reached',
        'the process is lost', 'QC1 is bad'], 0)


def another_bay(checks, server) -> None:
    """Nothing is operated with the file of another bay: its first two switches changed places."""
    head, one, two, *rest = re.split(r'(?m)^(?=\[\[)', BAY.read_text())
    bay = checks.file('another.toml', head + two + one + ''.join(rest))
    words = ['--bay', bay, str(server.port), 'operate', 'QB1', 'open']
    checks.wants('a client with another bay', *checks.run('client', *words),
                 ['the server\'s CSWI1 has control sbo, the bay file\'s QB1 has sbo-enhanced',
                  'nothing is operated without --anyway'])


def same_bays(checks) -> None:
    """The server of each example says the bay of its file."""
    logic = checks.file('none.il', 'PROGRAM P\nEND_PROGRAM\n')
    for path in sorted(SERVED.parent.glob('*/bay.toml')):
        text, file = bay_at(path)
        with Server(checks.bayctl, path, logic) as server:
            server.client().close()
            client = Client('127.0.0.1', server.port, Names(text))
            found = compare_with_server(client, file).lines()
            client.close()
        checks.wants(f'the bay of {path.parent.name}', '\n'.join(found) or 'the same', 0,
                     ['the same'], 0)


def draw(checks, *words) -> tuple:
    """The picture that a timeline draws, or what it says where it draws none."""
    out = checks.folder / 'drawn.svg'
    said, status = checks.run('timeline', *words, '--out', out)
    return said + (out.read_text() if status == 0 else ''), status


def check_capture(checks, path) -> None:
    """A capture is told, replayed and drawn."""
    bay, more = ['--bay', BAY], ['--replay', LOGIC, '--trace', TRACE, '--bayctl', checks.bayctl]
    checks.wants('a capture, told', *checks.run('explain', path, *bay),
                 ['asks for a transport connection', 'select QA1: done', 'operate QA1: done'], 0)
    checks.wants('a capture, replayed', *checks.run('explain', path, *bay, *more),
                 ['the replay sends what the server sent'], 0)
    changed = checks.file('changed.il', LOGIC.read_text().replace('LD TRUE', 'LD FALSE'))
    more[1] = changed
    checks.wants('a capture, replayed with another program',
                 *checks.run('explain', path, *bay, *more), ['of the server differs'], 1)
    checks.wants('a capture, drawn', *draw(checks, path, *bay),
                 ['UTC', 'operate QA1 open', 'Client 1'], 0)
    more[1] = LOGIC
    checks.wants('a capture, drawn with its switches', *draw(checks, path, *bay, *more),
                 ['command: open QA1 at', 'QB1 closed from'], 0)
