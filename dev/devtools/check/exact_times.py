"""What a server does to the millisecond: both of its clocks show what a file says, so each check
chooses the moments of the turns. Each check has the name of the wrong behaviour that it refuses."""
import contextlib
import os
import pathlib
import re
import signal
import subprocess
import threading
import time
from collections.abc import Iterator

from baytools.bay.names import Names
from baytools.wire.client import Client
from baytools.wire.control import Control
from devtools import preloads
from devtools.paths import DEV
from devtools.served import Server, free_port, until, value

from .processes import connect_process, process_lines

HOLDING = DEV / 'devtools' / 'check' / 'holding.c'
SYSTEM, STEADY = 1_700_000_000_000, 5_000_000  # the times of the clocks at first, in milliseconds
BEGUN = '2023-11-14T22:13:20.000Z'  # the first of them in UTC
LIMIT, AGE = 500, 1_000  # ms of a process' silence, and of a scan's age
LAST = 4_294_967_295_999  # the last moment that a time stamp holds
QUIET = 0.15  # seconds in which an idle server takes several turns
SENT = 0.5  # seconds in which a client's request reaches a server that is stopped
SKIPPING = 63  # turns in a row that take a line and read no client; the next one waits a cycle
TRIES = 5
NAMED = 'bay - B 1'
BAY = '''[bay]
domain = "B"
vendor = "V"
model = "M"
revision = "1"
scan_max_age_ms = 1000
[[switch]]
id = "QA1"
kind = "breaker"
control = "direct"
travel_ms = 1000
[[switch]]
id = "QB1"
kind = "disconnector"
control = "direct"
travel_ms = 1000
[[input]]
name = "ES"
'''
# QA1 may be opened once ES has been TRUE for two seconds; all else is always released.
LOGIC = '''PROGRAM P
VAR_EXTERNAL
ES, QA1_ENA_OPN, QA1_ENA_CLS, QB1_ENA_OPN, QB1_ENA_CLS : BOOL;
END_VAR
VAR
t1 : TON;
END_VAR
CAL t1(IN := ES, PT := T#2s)
LD t1.Q
ST QA1_ENA_OPN
LD TRUE
ST QA1_ENA_CLS
ST QB1_ENA_OPN
ST QB1_ENA_CLS
END_PROGRAM
'''
POSITIONS = ('CSWI1$ST$Pos$stVal', 'CSWI2$ST$Pos$stVal')
OPEN, CLOSED = '01', '10'
PROCESS = ('--supervise', LIMIT)


class Held:
    """The clocks of a server, which a file holds."""

    def __init__(self, path: pathlib.Path) -> None:
        self.path, self.system, self.steady = path, SYSTEM, STEADY
        self.write()

    def write(self) -> None:
        beside = self.path.with_suffix('.new')
        beside.write_text(f'{self.system} {self.steady}')
        beside.replace(self.path)

    def go_on(self, passed: int, jump: int = 0) -> None:
        """The clock that does not jump goes on, and the system's with it, and some more."""
        self.system, self.steady = self.system + passed + jump, self.steady + passed
        self.write()


class Bay:
    """A server whose clocks are held, a client of it, and its process."""

    def __init__(self, server: Server, held: Held) -> None:
        self.server, self.held, self.told = server, held, b''
        server.client().close()
        self.client = Client('127.0.0.1', server.port, Names(BAY), on_report=lambda told: None)
        self.process = connect_process(server)
        self.process.settimeout(QUIET)

    def says(self, *lines: str, at: int | None = None) -> None:
        """The process sends lines, with the time of the clocks or another one."""
        moment = self.held.system if at is None else at
        with contextlib.suppress(ConnectionError):
            self.process.sendall(''.join(f'{moment} {it}\n' for it in lines).encode())

    def begins(self) -> None:
        """The process says which bay it is of, and that both switches are open."""
        self.says(NAMED, 'contact QA1 1', 'contact QB1 1')
        until(lambda: all(value(self.client, row) == OPEN for row in POSITIONS), 'it is heard')

    def lines(self, count: int | None = None) -> list[str]:
        """What the process was told, up to this number of lines, or to a pause."""
        with contextlib.suppress(TimeoutError, ConnectionError):
            while (count is None or self.told.count(b'\n') < count) and (
                    piece := self.process.recv(65_536)):
                self.told += piece
        return self.told.decode().splitlines()

    def fills(self, line: str) -> None:
        """The process sends a line so often that the server waits for the end of a cycle, with
        lines that no turn has taken. Each of them is answered with a line."""
        count = len(self.lines()) + SKIPPING
        self.says(*[line] * (2 * SKIPPING))
        self.process.settimeout(10)
        self.lines(count)
        self.process.settimeout(QUIET)

    def control(self, switch: str) -> Control:
        """The control of a switch, whose model the client reads here."""
        return Control(self.client, switch)

    def operates_within(self, control: Control, change) -> bool:
        """Whether a close is accepted that the server reads in its first turn after a change."""
        answers = []
        self.server.run.send_signal(signal.SIGSTOP)
        asking = threading.Thread(target=lambda: answers.append(control.operate(True)), daemon=True)
        asking.start()
        time.sleep(SENT)
        change()
        self.server.run.send_signal(signal.SIGCONT)
        asking.join(10)
        return bool(answers) and answers[0].is_good

    def operates_in_parts(self, control: Control, between) -> bool:
        """Whether an open is accepted of which the server reads the second half after a change."""
        def send(octets: bytes) -> None:
            half = len(octets) // 2
            self.client.socket.sendall(octets[:half])
            time.sleep(QUIET)
            between()
            self.client.socket.sendall(octets[half:])

        self.client.send = send
        return control.operate(False).is_good

    def waits_for_release(self, told: str, count: int) -> None:
        """Waits until the log has told something of the release of QA1 this number of times."""
        until(lambda: self.server.printed().count(f'release QA1 {told} close=1\n') == count, told)

    def is_lost(self, wanted: bool) -> bool:
        """Whether the process is lost: within some turns, or, if that is wanted, seconds."""
        time.sleep(QUIET)
        end = time.monotonic() + wanted * 5
        while not (found := len(process_lines(self.server)) > 1) and time.monotonic() < end:
            time.sleep(QUIET)
        return found


@contextlib.contextmanager
def held_bay(checks, library: str, *more, age: int = 60_000) -> Iterator[Bay]:
    """A bay whose clocks are held."""
    held = Held(checks.folder / 'clocks')
    env = {**os.environ, 'LD_PRELOAD': library, 'HELD_CLOCKS': str(held.path)}
    bay = checks.file('held.toml', BAY.replace('ms = 1000\n[[', f'ms = {age}\n[[', 1))
    with Server(checks.bayctl, bay, checks.file('held.il', LOGIC), '--log', *more,
                with_process=True, env=env) as server:
        one = Bay(server, held)
        with contextlib.closing(one.client), contextlib.closing(one.process):
            yield one


def lives_for(bay: Bay, passed: int) -> bool:
    """Whether the process is not lost this number of milliseconds later, and is a millisecond after
    that."""
    bay.held.go_on(passed)
    is_lost = bay.is_lost(False)
    bay.held.go_on(1)
    return not is_lost and bay.is_lost(True)


# Shows P-117.
def line_times(checks, library: str) -> None:
    """A line is as far ahead as it may be, and a millisecond more. Others wait while the clocks go
    on, until they are as old as they may be, and a millisecond more."""
    for more in 0, 1:
        wanted = ['process open', 'process closed 133'][:1 + more]
        with held_bay(checks, library, *PROCESS) as bay:
            bay.begins()
            bay.says('contact QA1 2', at=bay.held.system + LIMIT + more)
            bay.is_lost(bool(more))
            checks.holds('a line is taken from further ahead, or not from as far as it may be',
                         process_lines(bay.server) == wanted, f'{more}: {bay.server.printed()}')
        with held_bay(checks, library, *PROCESS, '--cycle', 100) as bay:
            bay.begins()
            bay.fills('alive')
            bay.held.go_on(LIMIT + more)
            bay.is_lost(bool(more))
            checks.holds('a line is taken that is older, or not one as old as it may be',
                         process_lines(bay.server) == wanted
                         and (bay.lines().count(f'{bay.held.system} alive') > 0) == (not more),
                         f'{more}: {bay.server.printed()}')


# Shows P-117, P-132, P-133.
def silences(checks, library: str) -> None:
    """Silence counts from the time of the last line, from no later one than that of its turn, and
    before the first line from the acceptance. A process that is lost in a turn gets no command in
    it."""
    for name, ahead, passed in (('its last line', None, LIMIT), ('a line from ahead', 400, LIMIT),
                                ('a line from before its turn', -200, LIMIT - 200)):
        with held_bay(checks, library, *PROCESS) as bay:
            bay.begins()
            if ahead is not None:
                bay.held.go_on(300)
                bay.says('alive', at=bay.held.system + ahead)
                bay.lines()
            checks.holds(f'silence does not count from {name}', lives_for(bay, passed)
                         and process_lines(bay.server)[1:] == ['process closed 134'],
                         bay.server.printed())
    with held_bay(checks, library, *PROCESS) as bay:
        bay.server.waits_for(' process open')
        checks.holds('silence does not count from the acceptance', lives_for(bay, LIMIT),
                     bay.server.printed())
    for more in 0, 1:
        with held_bay(checks, library, *PROCESS) as bay:
            bay.begins()
            is_given = bay.operates_within(bay.control('QB1'),
                                           lambda: bay.held.go_on(LIMIT + more))
            checks.holds('a process is commanded in the turn in which it is lost, or not while it '
                         'lives', is_given == (not more), f'{more}: {bay.server.printed()}')


# Shows P-117, P-133.
def jumps(checks, library: str) -> None:
    """The system's clock jumps as far as it may, and a millisecond further."""
    for more in 0, 1:
        with held_bay(checks, library, *PROCESS) as bay:
            bay.begins()
            is_given = bay.operates_within(bay.control('QB1'),
                                           lambda: bay.held.go_on(0, LIMIT + more))
            checks.holds('a process stays after a longer jump, or is lost after a short one',
                         is_given == (not more) and bay.is_lost(bool(more)) == bool(more)
                         and ('the clock has jumped' in bay.server.printed()) == bool(more),
                         f'{more}: {bay.server.printed()}')


# Shows P-132.
def scan_ages(checks, library: str) -> None:
    """The last scan before an operate is as old as it may be, and a millisecond older."""
    for more in 0, 1:
        with held_bay(checks, library, age=AGE) as bay:
            bay.says('contact QA1 1', 'contact QB1 1')
            until(lambda: value(bay.client, POSITIONS[1]) == OPEN, 'QB1 is open')
            is_given = bay.operates_within(bay.control('QB1'), lambda: bay.held.go_on(AGE + more))
            wanted = [f'{SYSTEM + AGE} command QB1 on'][more:]
            commands = bay.lines()
            checks.holds('a command is released by an older scan, or not by one that is as old as '
                         'it may be', is_given == (not more) and commands == wanted,
                         f'{more}: {bay.server.printed()}')


# Shows P-132.
def halves(checks, library: str) -> None:
    """An operate arrives in two halves, between which its release comes, or goes. The last scan
    before the second half decides."""
    for comes in False, True:
        with held_bay(checks, library) as bay:
            bay.says('contact QA1 2', *(() if comes else ('input ES 1',)))
            until(lambda: value(bay.client, POSITIONS[0]) == CLOSED, 'QA1 is closed')
            control = bay.control('QA1')
            if comes:
                def between() -> None:
                    bay.says('input ES 1')
                    time.sleep(QUIET)
                    bay.held.go_on(2000)
                    bay.waits_for_release('open=1', 1)
            else:
                time.sleep(QUIET)
                bay.held.go_on(2000)
                bay.waits_for_release('open=1', 1)

                def between() -> None:
                    bay.says('input ES 0')
                    bay.waits_for_release('open=0', 2)
            is_given = bay.operates_in_parts(control, between)
            wanted = [f'{SYSTEM + 2000} command QA1 off'] if comes else []
            commands = bay.lines()
            checks.holds('the release at the first half of an operate counts',
                         is_given == comes and commands == wanted,
                         f'{comes}: {is_given} {commands} {bay.server.printed()}')


# Shows P-123.
def last_moments(checks, library: str) -> None:
    """A turn at the last moment is done, and one a millisecond later is refused."""
    held = Held(checks.folder / 'clocks')
    env = {**os.environ, 'LD_PRELOAD': library, 'HELD_CLOCKS': str(held.path)}
    words = [checks.bayctl, 'serve', '--bay', checks.file('held.toml', BAY), '--logic',
             checks.file('held.il', LOGIC), '--turns', '1', '--port']
    for system, wanted in ((LAST, (0, '')), (LAST + 1, (3, 'fault 114\n'))):
        held.system = system
        held.write()
        done = subprocess.run([*words, str(free_port())], env=env, text=True, capture_output=True,
                              timeout=60)
        printed = re.sub(r'(?m)^instructions=.*\n', '', done.stdout)
        checks.holds('the last moment is refused, or a later one is none',
                     (done.returncode, printed) == wanted, f'{system}: {done}')


# Shows P-121.
def paces(checks, library: str) -> None:
    """The moments of turns, by refusals. The system's clock is set back by an hour, and forward by
    two; the clock that does not jump goes back once."""
    with held_bay(checks, library) as bay:
        found = []
        for passed, jump in ((0, 0), (1000, -3_600_000), (50, 0), (50, 0), (100, 7_200_000),
                             (-10, 0), (10, 0), (0, 0)):
            bay.held.go_on(passed, jump)
            time.sleep(QUIET)
            bay.says('contact NONE 1')
            count = len(found) + 1
            until(lambda: bay.server.printed().count(' refused 113\n') == count, 'it is refused')
            found = [int(it) - SYSTEM for it in
                     re.findall(r'(?m)^(\d+) refused 113$', bay.server.printed())]
    checks.holds('the clock goes back, or keeps another pace',
                 found == [0, 990, 1040, 1089, 1190, 1190, 1190, 1190], str(found))


# Shows P-121.
def shifts(checks, library: str) -> None:
    """The system's clock is set forward or back by as much as is not logged, and by a millisecond
    more; then it is set right again."""
    for jump, told in ((1000, None), (-1000, None), (1001, 'is 1001 ms ahead'),
                       (-1001, 'is 1001 ms behind')):
        with held_bay(checks, library) as bay:
            for change in jump, -jump:
                bay.held.go_on(0, change)
                time.sleep(QUIET)
            found = re.findall(r"(?m)^(\S+) the system's clock (.*)$", bay.server.printed())
        checks.holds('a clock that differs by more than a second is not logged, or another one is',
                     found == [(BEGUN, it) for it in (told, 'agrees again') if told],
                     f'{jump}: {found}')


def order_in_turn(checks, library: str, line: str) -> list[str]:
    """What a process is told for one turn, in which it says this, the time of an operate is over,
    another switch is operated, and a release changes. The lines that wait before it are taken in
    turns that skip their reads; the turn after these begins a cycle later, behind a jump of the
    clocks."""
    with held_bay(checks, library, '--supervise', 60_000, '--tell', 'releases', '--cycle',
                  100) as bay:
        bay.begins()
        bay.says('input ES 1')
        bay.control('QB1').operate(True)
        control = bay.control('QA1')
        bay.fills(line)
        bay.operates_within(control, lambda: bay.held.go_on(2000))
        told = bay.lines()
    later = str(bay.held.system)
    begun = next((at for at, it in enumerate(told) if it.startswith(later)), len(told))
    end = f'{later} {line}' if line == 'alive' else 'QA1=11'
    found = told[begun:]
    return [it.removeprefix(f'{later} ') for it in found[:found.index(end) + 1]
            ] if end in found else found


# Shows P-115.
def report_order(checks, library: str) -> None:
    """What a process is told for a turn comes in one order: the end of an operate, a refusal, a
    command, a release, and that the server lives."""
    for line, wanted in (('alive', ['over QB1', 'command QA1 on', 'QA1=11', 'alive']),
                         ('contact NONE 1',
                          ['over QB1', 'refused 113', 'command QA1 on', 'QA1=11'])):
        found = []
        for _ in range(TRIES):  # the server may be stopped within a turn
            found = order_in_turn(checks, library, line)
            if found == wanted:
                break
        checks.holds('a process is told of a turn in another order', found == wanted,
                     f'{line}: {found}')


def exact_times(checks) -> None:
    """Does all of it."""
    library = preloads.library(checks.folder, HOLDING)
    if library is None:
        checks.left_out('neither the kit nor cc is installed', 'times to the millisecond')
        return
    for part in (line_times, silences, jumps, scan_ages, halves, last_moments, paces, shifts,
                 report_order):
        part(checks, library)


PARTS = (exact_times,)
