"""What a process leaves that has gone, which of those that wait comes next, and what it is told of
releases. Each check has the name of the wrong behaviour that it refuses."""
import contextlib
import re
import socket
import struct
import time

from devtools.served import PATIENCE, Server, until, value

BAY = '''[bay]
domain = "B"
vendor = "V"
model = "M"
revision = "1"
scan_max_age_ms = 1000
[[switch]]
id = "QA1"
kind = "breaker"
control = "status"
[[switch]]
id = "QC1"
kind = "earthing"
control = "status"
[[input]]
name = "VT_DEAD"
[[input]]
name = "SPARE"
[[input]]
name = "ES"
'''
LOGIC = '''PROGRAM P
VAR_EXTERNAL
VT_DEAD, ES, QA1_ENA_OPN, QA1_ENA_CLS : BOOL;
END_VAR
LD VT_DEAD
ST QA1_ENA_OPN
LD ES
ST QA1_ENA_CLS
END_PROGRAM
'''
ROWS = ('CILO1$ST$EnaOpn$stVal', 'CILO1$ST$EnaCls$stVal')
POSITIONS = ('CSWI1$ST$Pos$stVal', 'CSWI2$ST$Pos$stVal')
COUNTS = ('XCBR1$ST$OpCnt$stVal', 'XSWI1$ST$OpCnt$stVal')
OPEN, BAD = '01', '11'
# Lines that a process may send, at any moments. The last one names no input of the bay.
RIGHT_LINES = '''7 contact QA1 1
5 input ES 1
18446744073709551615 measure M1 HZ 1
3 measure M1 HZ bad
0 input NONE 1
'''


# Shows P-115.
def check_next_process(checks) -> None:
    """A process tells of inputs and goes, and another comes that tells of a contact alone."""
    bay, logic = checks.file('bay.toml', BAY), checks.file('logic.il', LOGIC)
    with Server(checks.bayctl, bay, logic, with_process=True) as server, \
            contextlib.closing(server.client()) as client:
        with connect_process(server) as process:
            process.sendall(b'0 contact QA1 1\n0 input VT_DEAD 1\n0 input ES 1\n')
            until(lambda: all(value(client, row) for row in ROWS), 'the inputs are TRUE')
        with contextlib.suppress(TimeoutError):
            until(lambda: not any(value(client, row) for row in ROWS), 'the inputs are FALSE')
        checks.holds('a process that has gone leaves an input true',
                     not any(value(client, row) for row in ROWS)
                     and all(value(client, row) == BAD for row in POSITIONS), server.printed())
        with connect_process(server) as process:
            process.sendall(b'0 contact QA1 1\n')
            until(lambda: value(client, POSITIONS[0]) == '01', 'QA1 is open')
            time.sleep(0.1)
            checks.holds('what a process said is told for the next one',
                         not any(value(client, row) for row in ROWS)
                         and value(client, POSITIONS[1]) == BAD, server.printed())


def connect_process(server: Server) -> socket.socket:
    """A process that has connected."""
    return socket.create_connection(('127.0.0.1', server.process))


def leaves(server: Server, said: bytes, is_reset: bool) -> None:
    """A process that connects, says something, and goes, or resets its connection."""
    with connect_process(server) as process:
        process.sendall(said)
        if is_reset:
            process.setsockopt(socket.SOL_SOCKET, socket.SO_LINGER, struct.pack('ii', 1, 0))


def process_lines(server: Server) -> list[str]:
    """What a server has printed of its processes, without the moments."""
    return re.findall(r'(?m)^\d+ (process .*)$', server.printed())


# Shows P-115.
def check_waiting_processes(checks) -> None:
    """While a process is served four others come and go: two say nothing, of which one resets its
    connection, one says half a line, and one a line. Then the first one goes."""
    bay, logic = checks.file('bay.toml', BAY), checks.file('logic.il', LOGIC)
    with Server(checks.bayctl, bay, logic, with_process=True) as server, \
            contextlib.closing(server.client()) as client:
        with connect_process(server) as first:
            first.sendall(b'0 input ES 1\n')
            until(lambda: value(client, ROWS[1]), 'the first one is served')
            for said, is_reset in ((b'', False), (b'', True), (b'0 contact QC1 1', False),
                                   (b'0 contact QA1 1\n', False)):
                leaves(server, said, is_reset)
            time.sleep(0.1)
            checks.holds('two processes at once', process_lines(server) == ['process open'],
                         server.printed())
        with contextlib.suppress(TimeoutError):
            until(lambda: len(process_lines(server)) > 3, 'two have come and gone')
        time.sleep(0.1)
        checks.holds('a process that waited and went is taken',
                     process_lines(server) == ['process open', 'process closed 0'] * 2
                     and value(client, COUNTS[1]) == 0, server.printed())
        checks.holds('what a process sent that waited and went is lost',
                     value(client, COUNTS[0]) == 1 and value(client, POSITIONS[0]) == BAD,
                     server.printed())


# Shows P-113, P-114, P-115.
def line_lengths(checks) -> None:
    """Lines of 256 octets before their LF, a CR among them, are taken. A line of 257 is not: in its
    turn the process is lost and closed, though it stays."""
    bay, logic = checks.file('bay.toml', BAY), checks.file('logic.il', LOGIC)
    with Server(checks.bayctl, bay, logic, with_process=True) as server, \
            contextlib.closing(server.client()) as client:
        for length, end, is_taken in ((256, '\n', True), (257, '\n', False),
                                      (255, '\r\n', True), (256, '\r\n', False)):
            head, tail = '0 contact ', ' 1'
            line = head + 'N' * (length - len(head + tail)) + tail + end
            before = len(server.printed())
            with connect_process(server) as process:
                process.sendall(b'0 contact QA1 1\n' + line.encode())
                wanted = ' refused 113\n' if is_taken else ' process closed 120\n'
                with contextlib.suppress(TimeoutError):
                    until(lambda: wanted in server.printed()[before:], 'the line is judged')
                position = value(client, POSITIONS[0])
            with contextlib.suppress(TimeoutError):
                until(lambda: ' process closed ' in server.printed()[before:], 'it is gone')
            told = server.printed()[before:]
            checks.holds('a line of a process is taken that is too long, or not one that is not',
                         wanted in told and (' refused 113\n' in told) == is_taken
                         and position == (OPEN if is_taken else BAD),
                         f'{length} {end!r}: {position} {told}')


def lines_of(process: socket.socket, count: int) -> list[str]:
    """The next lines that a process is told, as many as come within the patience."""
    process.settimeout(PATIENCE)
    octets = b''
    with contextlib.suppress(TimeoutError):
        while octets.count(b'\n') < count:
            piece = process.recv(4096)
            if not piece:
                break
            octets += piece
    return octets.decode().splitlines()


# Shows P-115, P-116.
def releases_are_sent(checks) -> None:
    """A process is told all releases at first, and then each change; and none without the
    option."""
    bay, logic = checks.file('bay.toml', BAY), checks.file('logic.il', LOGIC)
    with Server(checks.bayctl, bay, logic, '--tell', 'releases', with_process=True) as server, \
            contextlib.closing(server.client()):
        with connect_process(server) as process:
            first = lines_of(process, 2)
            process.sendall(b'0 input VT_DEAD 1\n0 input ES 1\n0 input VT_DEAD 0\n')
            changes = lines_of(process, 3)
            process.sendall(b'0 contact NONE 1\n')
            refusal = lines_of(process, 1)
        checks.holds('a release that fell is not told',
                     (first, changes) == (['QA1=00', 'QC1=00'], ['QA1=10', 'QA1=11', 'QA1=01']),
                     f'{first}, {changes}')
        checks.holds('each turn tells releases', refusal[0].endswith(' refused 113'), str(refusal))
        with connect_process(server) as process:
            again = lines_of(process, 2)
        checks.holds('a new process is told what has changed alone',
                     again == ['QA1=00', 'QC1=00'], str(again))
    with Server(checks.bayctl, bay, logic, with_process=True) as server, \
            contextlib.closing(server.client()), connect_process(server) as process:
        process.sendall(b'0 input VT_DEAD 1\n0 contact NONE 1\n')
        first = lines_of(process, 1)
        checks.holds('releases are told unasked', first[0].endswith(' refused 113'), str(first))


# Shows P-097.
def check_other_lines(checks) -> None:
    """A process that sends an event of a trace other than a contact, an input or a measure is
    closed with 120; one that sends these is not, whatever their moments."""
    bay = checks.file('bay.toml', f'{BAY}[[meter]]\nid = "M1"\n')
    with Server(checks.bayctl, bay, checks.file('logic.il', LOGIC), with_process=True) as server, \
            contextlib.closing(server.client()):
        for said, why in (('0 lost\n', 120), ('0 scan\n', 120), ('0 open 1\n', 120),
                          ('0 recv 1 00\n', 120), ('0 close 1\n', 120), (RIGHT_LINES, 0)):
            before = len(process_lines(server))
            with connect_process(server) as process:
                process.sendall(said.encode())
                told = lines_of(process, 1)
            with contextlib.suppress(TimeoutError):
                until(lambda: len(process_lines(server)) == before + 2, 'the process is closed')
            checks.holds('a line of a process is taken or refused otherwise',
                         process_lines(server)[before:] == ['process open', f'process closed {why}']
                         and [it.endswith(' refused 113') for it in told] == [True] * (why == 0),
                         f'{said!r}: {told}, {server.printed()}')


PARTS = (check_next_process, check_waiting_processes, line_lengths, releases_are_sent,
         check_other_lines)
