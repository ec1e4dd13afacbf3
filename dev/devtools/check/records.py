"""A served session that is recorded, joined and replayed. Each check has the name of the wrong
behaviour that it refuses. The comparison is tried, too: it must refuse the replay of a record that
lacks some of its lines."""
import contextlib
import dataclasses
import pathlib
import re
import socket
import subprocess
import tempfile
import time
from collections.abc import Iterator

from baytools.bay.files import octets_of
from baytools.report.joined import merge_traces, read_lines, renumber, scenario_of
from baytools.wire.client import Client
from devtools.made_captures import FIN
from devtools.served import Server, free_port, until, value

from .sessions import BAY, LOGIC, Tap

SAID = (b'0 contact QA1 2\n0 contact qb1 2\n0 contact QC1 1\n0 input SPRING 1\n'
        b'0 measure M1 TOTW -4180\n0 measure M1 AA bad\n0 contact NONE 1\n')
SAID_LATER = b'0 contact QA1 1\n0 contact QB1 1\n0 contact QC1 1\n0 input SPRING 1\n'
POSITION = 'CSWI1$ST$Pos$stVal'
# What the watching client reads of each switch, of the meter, of the input and of the device:
# values, qualities and times.
WATCHED = ('CSWI1$ST$Pos', 'CSWI2$ST$Pos', 'CSWI3$ST$Pos', 'CILO1$ST$EnaOpn', 'CILO2$ST$EnaOpn',
           'MMXU1$MX$TotW', 'MMXU1$MX$A', 'GGIO1$ST', 'LLN0$ST$Health')
OPEN, BAD = '01', '11'
RELEASED = 'release QA1 open=1 close=1'
WATCHING, OPERATING = 1, 2  # associations
# The events of a turn, in their order, by a letter for each line of a record: an association opens;
# the loss; what each association has sent, or its end; the line of the trace; one scan.
LETTERS = {'open': 'o', 'lost': 'l', 'recv': 'r', 'close': 'r', 'scan': 's'}
TURN = 'o?l?r*p?s'
# Lines of a record, without which the replay must not pass for the session.
PARTS_OF_RECORD = (
    ('the losses', r'lost'), ('association 1', r'(?:open|recv|close) 1\b.*'),
    ('association 2', r'(?:open|recv|close) 2\b.*'), ('the contacts', r'contact .*'),
    ('the inputs', r'input .*'), ('the measured values', r'measure .*'), ('the scans', r'scan'))


@dataclasses.dataclass(frozen=True)
class Seen:
    """What went through a served session: what the server printed and logged, the octets that it
    sent to each association, and received of it, and what it told the first process and the second
    one."""
    printed: str
    sent: dict[int, bytes]
    received: dict[int, bytes]
    told: tuple[str, str]


def replay(checks, scenario: bytes) -> str:
    """What a replay of a scenario prints."""
    return subprocess.run([checks.bayctl, 'replay'], input=scenario, check=False,
                          capture_output=True).stdout.decode()


def scenario_without(record: str, form: str) -> bytes:
    """The scenario of a record without the lines of a form, as tools/join makes it."""
    text = re.sub(rf'(?m)^\d+ {form}\n', '', record)
    assert text != record, form
    trace = merge_traces(renumber([read_lines(text)]))
    return scenario_of(octets_of(BAY), octets_of(LOGIC), trace.encode())


def lines_in(text: str, form: str) -> list[str]:
    return re.findall(f'(?m)^{form}$', text)


def releases_in(report: str) -> list[str]:
    """The releases of a report that change, in order; at first nothing is released."""
    known: dict[str, str] = {}
    found = []
    for scan in lines_in(report, r'\d+ scan steps=\d+ (.*)'):
        for name, release in (told.split('=') for told in scan.split()):
            if release != known.get(name, '00'):
                found.append(f'{name}={release}')
            known[name] = release
    return found


def logged_releases(log: str) -> list[str]:
    """The releases that a server logged, as a report has them."""
    found = lines_in(log, r'\S+Z release (\w+) open=([01]) close=([01])')
    return [f'{name}={opens}{closes}' for name, opens, closes in found]


def matches_changes(told: list[str], changes: list[str]) -> bool:
    """Whether a process was told the state of each switch after some of the changes, and then the
    changes that follow these."""
    states = dict.fromkeys(it.partition('=')[0] for it in told)
    head, rest = told[:len(states)], told[len(states):]
    state = {it: f'{it}=00' for it in states}
    for at in range(len(changes) + 1):
        if head == list(state.values()) and rest == changes[at:at + len(rest)] != []:
            return True
        if at < len(changes):
            state[changes[at].partition('=')[0]] = changes[at]
    return False


def differences(seen: Seen, report: str) -> Iterator[tuple[str, bool, str]]:
    """Compares a session with the report of a replay: the name of each wrong behaviour, whether the
    session is free of it, and what shows it."""
    form = r'\d+ (?:command .*|refused \d+)'
    commands, again = lines_in(seen.printed, form), lines_in(report, form)
    yield ('a command or a refusal is replayed another way', commands == again != [],
           f'{commands}\n{again}')
    for place in WATCHING, OPERATING:
        sent, answers = seen.sent[place].hex(), ''.join(lines_in(report, rf'\d+ send {place} (.*)'))
        yield ('a client is replayed another answer', sent == answers != '',
               f'association {place}: {sent}\n{answers}')
    releases, again = logged_releases(seen.printed), releases_in(report)
    yield ('a release is replayed another way', releases == again != [], f'{releases}\n{again}')
    for told in seen.told:
        found = lines_in(told, r'\w+=[01]{2}')
        yield ('a process is told other releases than those of the replay',
               matches_changes(found, again), f'{found}\n{again}')


def watch(client: Client, wanted: str) -> None:
    """Reads until QA1 has a position, and then everything that is watched."""
    until(lambda: value(client, POSITION) == wanted, f'QA1 is {wanted}')
    for row in WATCHED:
        client.read([row])


def served_session(checks, record) -> Seen:
    """A process reports and goes, and another one comes and goes; one client watches, and one
    operates and goes."""
    with Server(checks.bayctl, BAY, LOGIC, '--tell', 'releases', '--record', record, '--log',
                with_process=True) as server:
        server.waits_for(f'clients on 127.0.0.1:{server.port}')
        taps = {it: Tap(server.port) for it in (WATCHING, OPERATING)}
        with contextlib.closing(Client('127.0.0.1', taps[WATCHING].own,
                                       on_report=lambda told: None)) as watching:
            with socket.create_connection(('127.0.0.1', server.process)) as process:
                process.sendall(SAID)
                until(lambda: ' refused 113' in server.printed(), 'what the process said is taken')
                checks.run('client', '--bay', BAY, str(taps[OPERATING].own), 'operate', 'QA1',
                           'open', '--wait', '0')
                process.sendall(b'0 contact QA1 1\n')
                watch(watching, OPEN)
                first = process.recv(65536).decode()
            watch(watching, BAD)
            with socket.create_connection(('127.0.0.1', server.process)) as process:
                process.sendall(SAID_LATER)
                watch(watching, OPEN)
                until(lambda: RELEASED in server.printed().rpartition('lost')[2], 'QA1 is released')
                later = process.recv(65536).decode()
            watch(watching, BAD)
        until(lambda: all(it.seen[-1][2] == FIN for it in taps.values()), 'the clients are gone')
        until(lambda: len(lines_in(server.printed(), r'\d+ closed \d 0')) == len(taps),
              'their ends are reported')
        size = record.stat().st_size
        until(lambda: record.stat().st_size > size, 'a later turn is recorded')
        return Seen(server.printed(), *({it: sent_by(taps[it], side) for it in taps}
                                        for side in (1, 0)), (first, later))


def sent_by(tap: Tap, side: int) -> bytes:
    """What a server (1) or its client (0) sent through a tap."""
    return b''.join(octets for _, sender, _, octets in tap.seen if sender == side)


# Shows P-097, P-116, P-125, P-126, P-127, P-132, P-158.
def session(checks) -> None:
    """A record is replayed as the session was, and a record that lacks lines is not. It has the
    octets that each client has sent, and each line has the moment of its turn. A record for which
    no size is named has room for 16,000,000 octets."""
    path = checks.folder / 'record'
    seen = served_session(checks, path)
    checks.holds('a record for which no size is named has another one',
                 ' the record has room for 16000000 octets: ' in seen.printed, seen.printed)
    joined, record = checks.run('join', BAY, LOGIC, path)[0], path.read_text()
    for place, octets in seen.received.items():
        found = ''.join(lines_in(record, rf'\d+ recv {place} (\w+)'))
        checks.holds('the octets of a client are lost, repeated or torn',
                     found == octets.hex() != '', f'association {place}: {found}\n{octets.hex()}')
    moments = lines_in(seen.printed, r'(\d+) refused 113')
    checks.holds('a line is recorded at another moment than that of its turn',
                 lines_in(record, r'(\d+) contact NONE 1') == moments != [], f'{moments}\n{record}')
    for name, is_so, told in differences(seen, replay(checks, joined.encode())):
        checks.holds(name, is_so, told)
    for what, form in PARTS_OF_RECORD:
        report = replay(checks, scenario_without(record, form))
        checks.holds(f'a record without {what} passes for the session',
                     not all(is_so for _, is_so, _ in differences(seen, report)), record)


# Shows P-121, P-122, P-125, P-158.
def in_order(checks) -> None:
    """Clients and a process come and go while each turn has a line of a trace: the record has the
    events of each turn in their order, and one scan."""
    record = checks.folder / 'ordered'
    trace = checks.file('ordered.trace', ''.join(f'0 contact QA1 {1 + at % 2}\n'
                                                 for at in range(2000)))
    with Server(checks.bayctl, BAY, LOGIC, '--cycle', 10, '--record', record, '--trace', trace,
                with_process=True) as server:
        clients = [server.client() for _ in range(3)]
        for client in clients:
            value(client, POSITION)
            client.close()
        with socket.create_connection(('127.0.0.1', server.process)):
            server.waits_for(' process open')
        server.waits_for(' process closed 0')
        until(lambda: re.search(r'(?m)^\d+ lost$', record.read_text()), 'the loss is recorded')
    words = re.findall(r'(?m)^\d+ (\w+)', record.read_text())
    told = ''.join(LETTERS.get(it, 'p') for it in words)
    turns = told[:told.rindex('s') + 1]
    checks.holds('the events of a turn have another order',
                 re.fullmatch(f'(?:{TURN})+', turns) and turns.count('o') == len(clients)
                 and re.search('or*ps', turns) and re.search('rps', turns)
                 and re.search('lr*ps', turns), turns)


# Shows P-113, P-114, P-158.
def lines(checks) -> None:
    """A process sends lines in pieces, with empty lines and both ends of lines, and goes within a
    line. Another one comes, whose first octet would end that line."""
    record = checks.folder / 'lines'

    def wait_for_line(line: str) -> None:
        with contextlib.suppress(TimeoutError):
            until(lambda: f'{line}\n' in record.read_text(), 'the line is recorded')

    said = [f'0 measure M1 TOTW {at}' for at in range(200)]
    text = ''.join(it + ('\n', '\r\n', '\n\n')[at % 3] for at, it in enumerate(said)).encode()
    with Server(checks.bayctl, BAY, LOGIC, '--record', record, with_process=True) as server:
        server.client().close()
        with socket.create_connection(('127.0.0.1', server.process)) as process:
            process.setsockopt(socket.IPPROTO_TCP, socket.TCP_NODELAY, 1)
            rest, size = text + b'0 measure M1 TOTW 7', 0
            while rest:
                size = size % 97 + 1
                process.sendall(rest[:size])
                rest = rest[size:]
                time.sleep(0.002)
            wait_for_line(said[-1][2:])
        with socket.create_connection(('127.0.0.1', server.process)) as process:
            process.sendall(b'\n0 measure M1 AA 1\n')
            wait_for_line('measure M1 AA 1')
    found = lines_in(record.read_text(), r'\d+ (lost|measure .*)')
    wanted = [*(it[2:] for it in said), 'lost', 'measure M1 AA 1']
    checks.holds('a line of a process is lost, repeated, torn or joined with that of another',
                 found in (wanted, [*wanted, 'lost']), str(found))


# Shows P-120, P-121, P-158.
def full(checks) -> None:
    """A record ends with the last line that fits, and a name that is taken ends the server."""
    record = checks.folder / 'full'
    with Server(checks.bayctl, BAY, LOGIC, '--log', '--record', record, '--record-most',
                100) as server:
        server.waits_for(' the record has room for 100 octets: about 0 minutes without clients, '
                         "about 0 beside a panel and a station's page\n")
        server.waits_for(' the record has ended: it is full\n')
        with contextlib.closing(server.client()) as client:
            client.domain()
        held = record.read_text()
        checks.holds('a full record holds a part of a line, or lacks one that fits',
                     len(lines_in(held, r'\d{13} scan')) == 5 and len(held) == 95, held)
    loaded = subprocess.run([checks.bayctl, 'check', '--bay', BAY, '--logic', LOGIC], check=False,
                            capture_output=True).stdout
    ran = subprocess.run([checks.bayctl, 'serve', '--bay', BAY, '--logic', LOGIC, '--port',
                          str(free_port()), '--turns', '0', '--record', record], check=False,
                         capture_output=True)
    checks.holds('a record replaces a file',
                 (ran.returncode, ran.stdout, ran.stderr) == (3, loaded, b'fault 122\n')
                 and record.read_text() == held, str(ran))
    ran = subprocess.run([*ran.args, '--log'], check=False, capture_output=True, text=True)
    why = f'bayctl: fault 122: {record}: it exists already, so name a new file\n'
    checks.holds('the log does not say why there is no record',
                 (ran.returncode, ran.stderr) == (3, f'{why}fault 122\n'), str(ran))


# Shows P-121, P-158.
def shown_lines(checks) -> None:
    """Lines of the process whose event the device refuses, as the log and the record have them:
    with a control character escaped, and up to 80 octets. A line of more than these ends the
    record, and not the server."""
    record = checks.folder / 'shown'
    with Server(checks.bayctl, BAY, LOGIC, '--log', '--record', record,
                with_process=True) as server, contextlib.closing(server.client()) as client:
        with socket.create_connection(('127.0.0.1', server.process)) as process:
            process.sendall(b'0 contact X\x1b 1\n0 contact ' + b'N' * 200 + b' 1\n')
            server.waits_for(' the record has ended: a line is too long for it\n')
        is_served = client.domain() == 'E05'
        log, text = server.printed(), record.read_text()
    shown = lines_in(log, r'\S+Z refused 113: (.*)')
    checks.holds('a refused line is logged another way',
                 shown == ['0 contact X\\x1b 1', '0 contact ' + 'N' * 70 + '..'], str(shown))
    checks.holds('a line that is too long for a record is recorded, or ends the server',
                 is_served and lines_in(text, r'\d+ (contact .*)') == ['contact X\\x1b 1']
                 and text.endswith('\n'), text)


# Shows P-158.
def check_failing_record(checks) -> None:
    """A record whose file can't be written any more ends, and the server does not."""
    limited = checks.file('limited', f'''#!/bin/sh
trap "" 25
ulimit -f 2
exec {checks.bayctl} "$@"
''')
    limited.chmod(0o755)
    with Server(limited, BAY, LOGIC, '--log', '--record', checks.folder / 'failed') as server, \
            contextlib.closing(server.client()) as client:
        server.waits_for(" the record has ended: its file can't be written\n")
        time.sleep(0.1)
        checks.holds('a failed write of a record ends the server', client.domain() == 'E05',
                     server.printed())


def content_of(folder: pathlib.Path) -> dict[str, tuple[bytes, int]]:
    """The files of a folder, each with its octets and when it was changed."""
    return {it.name: (it.read_bytes(), it.stat().st_mtime_ns) for it in folder.iterdir()}


# Shows P-158.
def check_no_record(checks) -> None:
    """A server that is told of no record makes and changes no file."""
    with tempfile.TemporaryDirectory() as name:
        folder = pathlib.Path(name)
        for path in BAY, LOGIC:
            (folder / path.name).write_bytes(octets_of(path))
        (folder / 'trace').write_text('0 contact QA1 1\n')
        before = content_of(folder)
        ran = subprocess.run([checks.bayctl, 'serve', '--log', '--bay', BAY.name, '--logic',
                              LOGIC.name, '--trace', 'trace', '--turns', '3', '--port',
                              str(free_port())], cwd=folder, check=False, capture_output=True)
        checks.holds('a server without a record changes a file',
                     ran.returncode == 0 and content_of(folder) == before, str(ran))


PARTS = (session, in_order, lines, full, shown_lines, check_failing_record, check_no_record)
