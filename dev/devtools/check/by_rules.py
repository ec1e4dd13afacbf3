"""What only a served bay can show of `serve --rules`: a server whose rules hold serves, and its log
has the sums of its files; it waits as a rule with a time demands; of files that were edited after
an audit no port is opened. Each check has the name of the wrong behaviour that it refuses."""
import contextlib
import hashlib
import pathlib
import re
import socket
import subprocess
import time

from baytools.bay.names import Names
from baytools.common.paths import TOP
from baytools.wire.client import Client
from baytools.wire.control import Control
from devtools.served import TURNS, Running, Server, free_port, until, value

SERVED = TOP / 'examples' / '09_served'
BAY, LOGIC, RULES = SERVED / 'bay.toml', SERVED / 'logic.il', SERVED / 'rules'
LOAD, HELD, COUNT = 'instructions=20 depth=2 budget=20\n', 'rules 9\n', 9
CUT = LOAD.replace('20', '18')  # the load of a program without a line
# What is edited after the audit, its text and what takes its place; the status, and a pattern of
# what is printed.
EDITS = (
    ('a rule', RULES, 'when QA1 open and QC1 open', 'when QA1 open', 4,
     LOAD + r'rule 7 QB1 open broken QA1=1 QC1=0\|2\|3\n'
     r'rule 7 QB1 close broken QA1=1 QC1=0\|2\|3\n'),
    ('a rule that was added', RULES, 'never  QC1 open|close', 'never QA1 open', 4,
     LOAD + 'rule 9 QA1 open broken\n'),
    ('the program', LOGIC, '    AND SPRING\n', '', 4,
     CUT + r'rule 3 QA1 close broken .* SPRING=0\n'),
    ('the bay file', BAY, 'name = "SPRING"', 'name = "SPRNG"', 1, 'load refused 70 line 7\n'),
    ('the words of a rule', RULES, 'always QA1 open', 'allways QA1 open', 1,
     LOAD + 'rules refused 141 line 2\n'))
WAIT = 1_500  # ms for which the condition of a rule must have held
HELD_BAY = '''[bay]
domain = "B"
vendor = "V"
model = "M"
revision = "1"
scan_max_age_ms = 1000
[[switch]]
id = "QA1"
kind = "breaker"
control = "direct"
travel_ms = 1
[[input]]
name = "ES"
'''
HELD_LOGIC = f'''PROGRAM P
VAR_EXTERNAL
ES, QA1_ENA_CLS : BOOL;
END_VAR
VAR
t1 : TON;
END_VAR
CAL t1(IN := ES, PT := T#{WAIT}ms)
LD t1.Q
ST QA1_ENA_CLS
END_PROGRAM
'''
HELD_LOAD = 'instructions=10 depth=2 budget=10\n'
RELEASED = 'CILO1$ST$EnaCls$stVal'
HELD_RULES = f'never QA1 close until ES for {WAIT}ms\nnever QA1 open\n'


def line_of_file(path: pathlib.Path, what: str, more: str = '') -> str:
    """The line of the log for a file that is served, without its moment."""
    return f' {what} SHA-256 {hashlib.sha256(path.read_bytes()).hexdigest()}{more}\n'


# Shows P-146, P-148.
def holding(checks) -> None:
    """A server whose rules hold prints their number and serves; its log has the sums of the files
    that it serves, and no other line of sums: after the line of its ports, and before the position
    that its first turn logs."""
    image = checks.folder / 'ruled.image'
    subprocess.run([checks.bayctl, 'compile', '--bay', BAY, '--logic', LOGIC, '--out', image],
                   check=True, capture_output=True)
    trace = checks.file('opened.trace', '0 contact QA1 1\n')
    bay, rules = line_of_file(BAY, 'bay'), line_of_file(RULES, 'rules', f', {COUNT} hold')
    for name, words, printed, sums in (
            ('rules', ['--logic', LOGIC, '--rules', RULES], LOAD + HELD,
             [bay, line_of_file(LOGIC, 'program'), rules]),
            ('an image', ['--image', image, '--rules', RULES], LOAD + HELD,
             [bay, line_of_file(image, 'image'), rules]),
            ('no rules', ['--logic', LOGIC], LOAD, [bay, line_of_file(LOGIC, 'program')])):
        done = subprocess.run([checks.bayctl, 'serve', '--log', '--bay', BAY, *words, '--port',
                               str(free_port()), '--turns', '1', '--trace', trace],
                              capture_output=True, text=True, timeout=60)
        lines = [line[24:] for line in done.stderr.splitlines(True)]
        found, later = lines[1:len(sums) + 1], lines[len(sums) + 1:]
        checks.holds(f'a server with {name} prints otherwise',
                     (done.returncode, done.stdout.splitlines(True)[:printed.count('\n')])
                     == (0, printed.splitlines(True)), str(done))
        checks.holds(f'the log of a server with {name} has other sums, or has them after a turn',
                     found == sums and ' position QA1 open\n' in later
                     and not any(' SHA-256 ' in it for it in later), done.stderr)
    with Server(checks.bayctl, BAY, LOGIC, '--rules', RULES) as server:
        client = server.client()
        checks.holds('a server whose rules hold does not serve', client.domain() == 'E05',
                     server.printed())
        client.close()


# Shows P-064.
def counted(checks) -> None:
    """A text may have 1,000 rules, where one for opening and closing counts twice. The next rule is
    refused with its line."""
    bay, logic = checks.file('held.toml', HELD_BAY), checks.file('held.il', HELD_LOGIC)
    one, two = 'never QA1 open\n', 'never QA1 open|close when ES and not ES\n'
    for text, status, printed in (
            (one * 1_000, 0, 'rules 1000\n'), (one * 1_001, 1, 'rules refused 144 line 1001\n'),
            (two * 500, 0, 'rules 1000\n'), (two * 501, 1, 'rules refused 144 line 501\n'),
            (one * 999 + two, 1, 'rules refused 144 line 1000\n')):
        done = subprocess.run([checks.bayctl, 'serve', '--bay', bay, '--logic', logic, '--port',
                               str(free_port()), '--turns', '0', '--rules',
                               checks.file('counted.rules', text)], capture_output=True, text=True,
                              timeout=60)
        checks.holds(f'{text.count(chr(10))} lines of rules are counted otherwise',
                     (done.returncode, done.stdout) == (status, HELD_LOAD + printed), str(done))


def is_port_reached(port: int, run: subprocess.Popen) -> bool:
    """Whether a port is open at any time while a program runs."""
    while run.poll() is None:
        with socket.socket() as one:
            if one.connect_ex(('127.0.0.1', port)) == 0:
                return True
        time.sleep(0.001)
    return False


def start_server(checks, files: dict, port: int, *more: str) -> subprocess.Popen:
    """A server of these files."""
    return subprocess.Popen([checks.bayctl, 'serve', '--bay', files[BAY], '--logic', files[LOGIC],
                             '--rules', files[RULES], '--port', str(port), '--turns', '1000000',
                             *more], stdout=subprocess.PIPE, stderr=subprocess.PIPE, text=True)


# Shows P-146, P-147.
def check_edited_files(checks) -> None:
    """A file that was edited after the audit is not served: nobody reaches the port, and a port
    that another program has is not even tried."""
    for name, path, old, new, status, wanted in EDITS:
        text = path.read_text(encoding='utf-8')
        assert old in text, old
        files = {it: it for it in (BAY, LOGIC, RULES)}
        files[path] = checks.file(f'edited_{path.name}', text.replace(old, new, 1))
        port = free_port()
        run = start_server(checks, files, port, '--process', str(free_port()))
        checks.holds(f'a port is opened though {name} was edited',
                     not is_port_reached(port, run), name)
        told, error = run.communicate(timeout=60)
        checks.holds(f'{name} was edited, and the server tells otherwise',
                     (run.returncode, error) == (status, '') and re.fullmatch(wanted, told),
                     f'{run.returncode} {told!r} {error!r}')
        with socket.create_server(('127.0.0.1', 0)) as taken:
            run = start_server(checks, files, taken.getsockname()[1])
            told = run.communicate(timeout=60)[0]
            checks.holds(f'{name} was edited, and a port is tried first',
                         run.returncode == status and re.fullmatch(wanted, told),
                         f'{run.returncode} {told!r}')


# Shows P-146.
def unread(checks) -> None:
    """Rules that are not there, and rules that are refused, are logged."""
    absent = checks.folder / 'absent.rules'
    words = [checks.bayctl, 'serve', '--log', '--bay', BAY, '--logic', LOGIC, '--port',
             str(free_port()), '--turns', '1', '--rules']
    for name, rules, wanted in (
            ('rules that are not there', absent,
             (3, 'fault 121\n', f'bayctl: fault 121: {absent}: there is no such file\n')),
            ('rules that are refused', checks.file('no.rules', '# none\n'),
             (1, LOAD + 'rules refused 145 line 1\n',
              'bayctl: rules refused 145 line 1: a text without a rule\n'))):
        done = subprocess.run([*words, rules], capture_output=True, text=True, timeout=60)
        told = done.returncode, done.stdout, done.stderr
        checks.holds(f'{name} are told otherwise', told == wanted, str(told))


def releases_by_rule(report: str, record: str) -> tuple[list[bool], list[bool]]:
    """Of each scan of a record whether QA1 may be closed: as the replay of the record has it, and
    as the rule and a TON of its time have it. That is so once the input has been TRUE at each scan
    of that time."""
    found = [it == '1' for it in re.findall(r'(?m)^\d+ scan .*QA1=\d(\d)', report)]
    wanted, since, is_true = [], None, False
    for moment, word, last in re.findall(r'(?m)^(\d+) (input|scan)(?: ES (\d))?$', record):
        if word == 'input':
            is_true = last == '1'
        else:
            since = (since or int(moment)) if is_true else None
            wanted.append(since is not None and int(moment) - since >= WAIT)
    return found, wanted


def lines_for(process: socket.socket) -> str:
    """What the server has sent to its process, up to a second without more."""
    found = b''
    process.settimeout(1)
    with contextlib.suppress(TimeoutError):
        while piece := process.recv(4_096):
            found += piece
    return found.decode()


def held_session(server) -> tuple[list[bool], str]:
    """Whether operates of QA1 are accepted, twice: a close when the input has just become TRUE, a
    close once the server releases QA1, and an open; and what the process has received."""
    server.client().close()
    client = Client('127.0.0.1', server.port, Names(HELD_BAY), on_report=lambda told: None)
    found = []
    with contextlib.closing(client), \
            socket.create_connection(('127.0.0.1', server.process)) as process:
        control = Control(client, 'QA1')
        for _ in range(2):
            process.sendall(b'0 contact QA1 1\n0 input ES 1\n')
            until(lambda: value(client, 'XCBR1$ST$Pos$stVal') == '01', 'QA1 is open')
            found.append(control.operate(True).is_good)
            until(lambda: value(client, RELEASED), 'QA1 is released')
            found.append(control.operate(True).is_good)
            process.sendall(b'0 contact QA1 2\n0 input ES 0\n')
            until(lambda: not value(client, RELEASED), 'QA1 is released no more')
            found.append(control.operate(False).is_good)
        received = lines_for(process)
    return found, received


class FormServer(Server):
    """A server of a program in a form, its text or its image, with a process."""

    def __init__(self, bayctl, *words: object) -> None:
        self.port, self.process = free_port(), free_port()
        Running.__init__(self, bayctl, 'serve', *words, '--port', self.port, '--process',
                         self.process, '--turns', TURNS)


def check_waiting(checks, words: list, path, *more: object) -> None:
    """A session of a server: its scans and its operates obey the rules, and so do the lines of its
    commands."""
    with FormServer(checks.bayctl, *words, *more, '--record', path) as server:
        accepted, received = held_session(server)
        printed = server.printed()
    record = path.read_text().rpartition('\n')[0] + '\n'
    scenario = f'{HELD_BAY}%%\n{HELD_LOGIC}%%\n{record}'.encode()
    report = subprocess.run([checks.bayctl, 'replay'], input=scenario, capture_output=True,
                            check=False).stdout.decode()
    found, wanted = releases_by_rule(report, record)
    checks.holds('a scan does not wait as a rule demands', found == wanted and any(wanted)
                 and ('rules 2\n' in printed) == bool(more), f'{found}, {wanted}, {printed}')
    checks.holds('a scan releases what a rule forbids',
                 found and not re.search(r'(?m)^\d+ scan .*QA1=1', report), report)
    checks.holds('an operate does not obey as the rules demand',
                 accepted == [False, True, False] * 2
                 and re.findall(r' command (.*)', printed) == ['QA1 on'] * 2
                 and re.findall(r' command (.*)', received) == ['QA1 on'] * 2,
                 f'{accepted}, {printed}, {received}')


# Shows P-071, P-147.
def waiting(checks) -> None:
    """A switch may not be closed until an input has been TRUE for a time: each scan of a server
    waits for it, and so does each operate. Nor may it ever be opened: no scan releases it for that,
    and no operate opens it. By an audit both rules hold. So all this is so of a server with the
    rules and of one without them, and of one of the program's image."""
    bay, logic = checks.file('held.toml', HELD_BAY), checks.file('held.il', HELD_LOGIC)
    rules, image = checks.file('held.rules', HELD_RULES), checks.folder / 'held.image'
    subprocess.run([checks.bayctl, 'compile', '--bay', bay, '--logic', logic, '--out', image],
                   stdout=subprocess.DEVNULL, timeout=60, check=True)
    text, octets = ['--bay', bay, '--logic', logic], ['--bay', bay, '--image', image]
    for words in text, octets:
        audit = subprocess.run([checks.bayctl, 'audit', *words, '--rules', rules],
                               capture_output=True, text=True, timeout=60, check=False)
        held = re.findall(r'(?m)^rule (\d+ \w+ \w+) holds ', audit.stdout)
        checks.holds('rules that hold are answered otherwise',
                     audit.returncode == 0 and held == ['1 QA1 close', '2 QA1 open'], str(audit))
    check_waiting(checks, text, checks.folder / 'ruled', '--rules', rules)
    check_waiting(checks, text, checks.folder / 'unruled')
    check_waiting(checks, octets, checks.folder / 'ruled_image', '--rules', rules)


PARTS = (holding, counted, waiting, check_edited_files, unread)
