"""A process that the server supervises: one that freezes, that waits, that is another's, whose
lines are of another time or go back in time; a server that is held up; what a process is told; and
steps of the system's clock. Each check has the name of the wrong behaviour that it refuses."""
import concurrent.futures
import contextlib
import os
import pathlib
import select
import signal
import subprocess
import sys
import threading
import time
from collections.abc import Iterator

from baytools.bay.names import Names
from baytools.wire.client import Client
from baytools.wire.control import Control
from baytools.wire.process import Life, ServerClock, greeting_of, moment_of
from devtools import preloads
from devtools.paths import DEV
from devtools.served import Server, Simulator, free_port, until, value

from .processes import connect_process, process_lines

LIMIT, SLACK = 500, 0.5  # ms of a process' silence; seconds that a check may be late
GREETED = 5  # seconds for a greeting
NAMED = 'B 1 a'
BAY = '''[bay]
domain = "B"
vendor = "V"
model = "M"
revision = "1 a"
scan_max_age_ms = 1000
[[switch]]
id = "QA1"
kind = "breaker"
control = "sbo"
sbo_timeout_ms = 60000
travel_ms = 1000
[[switch]]
id = "QB1"
kind = "disconnector"
control = "sbo-enhanced"
sbo_timeout_ms = 60000
travel_ms = 1000
[[meter]]
id = "M1"
'''
LOGIC = '''PROGRAM P
VAR_EXTERNAL
QA1_ENA_OPN, QA1_ENA_CLS, QB1_ENA_OPN, QB1_ENA_CLS : BOOL;
END_VAR
LD TRUE
ST QA1_ENA_OPN
ST QA1_ENA_CLS
ST QB1_ENA_OPN
ST QB1_ENA_CLS
END_PROGRAM
'''
POSITIONS = ('CSWI1$ST$Pos$stVal', 'CSWI2$ST$Pos$stVal')
COUNTS = ('XCBR1$ST$OpCnt$stVal', 'XSWI1$ST$OpCnt$stVal')
OPEN, CLOSED, BAD = '01', '10', '11'
BY_PROCESS = 9  # the AddCause while the process is lost
KEY = '0123456789abcdef' * 3
STEPPING = DEV / 'devtools' / 'check' / 'stepping.c'
STEPS = '+3600', '-3600', '+315360000'  # seconds
STALLS = 0.3, 0.7, 0.9, 2, 8  # seconds for which a server is held up
BUSY = 6  # busy loops beside a server


class Process:
    """A process at a supervised port, which knows the server's time and sends what it is told to.
    In a `with` block that begins with `lives` it also says in time that it lives."""

    def __init__(self, server, first: str | None = f'bay - {NAMED}') -> None:
        self.socket, self.rest, self.seen = connect_process(server), b'', []
        self.lock, self.is_over = threading.Lock(), threading.Event()
        self.clock = None
        end = time.monotonic() + GREETED
        while self.clock is None and time.monotonic() < end:
            self.receive_lines(0.1)
        if self.clock is None:
            raise TimeoutError('the server does not greet')
        if first:
            self.sends(first)

    def receive_lines(self, seconds: float) -> None:
        """Takes the lines that come within so many seconds."""
        if not select.select([self.socket], [], [], seconds)[0]:
            return
        piece = self.socket.recv(4096)
        if not piece:
            self.is_over.set()
        *whole, self.rest = (self.rest + piece).split(b'\n')
        for line in map(bytes.decode, whole):
            self.seen.append(line)
            if self.clock is None and greeting_of(line):
                self.clock = ServerClock(greeting_of(line).moment)
            elif self.clock and moment_of(line) is not None:
                self.clock.on_moment(moment_of(line))

    def sends(self, *lines: str, ahead: int = 0) -> int:
        """Sends lines with a time so many milliseconds ahead, and returns this time."""
        with self.lock:
            moment = self.clock.now() + ahead if ahead else self.clock.stamp()
            with contextlib.suppress(ConnectionError):
                self.socket.sendall(''.join(f'{moment} {line}\n' for line in lines).encode())
            return moment

    @contextlib.contextmanager
    def lives(self) -> Iterator:
        """Says within the block that it lives, and hears what it is told."""
        def keep() -> None:
            life = Life(LIMIT)
            while not self.is_over.is_set():
                with contextlib.suppress(ConnectionError):
                    self.receive_lines(life.wait())
                if life.is_due():
                    self.sends('alive')

        living = threading.Thread(target=keep, daemon=True)
        living.start()
        try:
            yield self
        finally:
            self.is_over.set()
            living.join()
            self.socket.close()

    def received_lines(self) -> list[str]:
        """What it was told, without the times."""
        return [line.partition(' ')[2] for line in self.seen]


def files_of(checks) -> tuple:
    """The bay file and the program, which `write_files` writes."""
    return checks.folder / 'supervised.toml', checks.folder / 'supervised.il'


def write_files(checks) -> None:
    """Writes the bay file and the program of these checks."""
    for path, text in zip(files_of(checks), (BAY, LOGIC)):
        checks.file(path.name, text)


@contextlib.contextmanager
def supervised_bay(checks, *more, env=None) -> Iterator:
    """A server that supervises its process, and a client of it."""
    with Server(checks.bayctl, *files_of(checks), '--supervise', LIMIT, *more, with_process=True,
                env=env) as server:
        server.client().close()
        client = Client('127.0.0.1', server.port, Names(BAY), on_report=lambda told: None)
        with contextlib.closing(client):
            yield server, client


def positions(client) -> tuple:
    return tuple(value(client, row) for row in POSITIONS)


def counts(client) -> tuple:
    return tuple(value(client, row) for row in COUNTS)


def becomes(test) -> bool:
    """Whether something comes to be so within five seconds."""
    end = time.monotonic() + 5
    while not (found := test()) and time.monotonic() < end:
        time.sleep(0.01)
    return bool(found)


def cause_of(client, switch: str) -> int | None:
    """The cause with which a close is refused, or None where it is accepted."""
    control = Control(client, switch)
    control.select(True)
    return None if control.operate(True).is_good else client.cause


# Shows P-117, P-133, P-139.
def frozen(checks) -> None:
    """A process freezes just before an operate, for three seconds."""
    with supervised_bay(checks) as (server, client):
        checks.holds('a process that never spoke is commanded',
                     cause_of(client, 'QB1') == BY_PROCESS and positions(client) == (BAD, BAD),
                     f'{client.cause}, {positions(client)}')
        with Simulator(files_of(checks)[0], server, '--supervised') as gear:
            until(lambda: positions(client) == (OPEN, OPEN), 'the process has told all')
            control = Control(client, 'QB1')
            control.select(True)
            gear.run.send_signal(signal.SIGSTOP)
            begun, is_given = time.monotonic(), control.operate(True).is_good
            becomes(lambda: positions(client) == (BAD, BAD))
            waited = time.monotonic() - begun
            checks.holds('a frozen process is believed', waited < LIMIT / 1000 + SLACK,
                         f'{waited:.2f} s: {server.printed()}')
            checks.holds('a process is lost that was heard', waited > LIMIT / 1000 / 3, f'{waited}')
            time.sleep(max(0, begun + 1.5 - time.monotonic()))
            checks.holds('a frozen process is commanded', cause_of(client, 'QB1') == BY_PROCESS,
                         str(client.cause))
            checks.holds('the end of a frozen process is not told',
                         process_lines(server) == ['process open', 'process closed 134'],
                         server.printed())
            time.sleep(max(0, begun + 3 - time.monotonic()))
            gear.run.send_signal(signal.SIGCONT)
            is_back = becomes(lambda: positions(client) == (OPEN, OPEN))
            time.sleep(0.7)
            checks.holds('a process that wakes does what it slept through',
                         is_given and is_back and positions(client) == (OPEN, OPEN)
                         and 'not carried out: ' in gear.printed(),
                         f'{is_given}, {gear.printed()}')


# Shows P-117.
def check_waiting_processes(checks) -> None:
    """While a process is served two others wait: one says open and dies, one has sent 4,000 lines.
    Both are of this bay, and their lines are old when their turn comes."""
    with supervised_bay(checks) as (server, client), contextlib.ExitStack() as kept:
        with Process(server).lives() as first:
            first.sends('contact QA1 2', 'contact QB1 2')
            until(lambda: positions(client) == (CLOSED, CLOSED), 'the first one is served')
            head = f'{first.clock.now()} '
            lines = [f'{head}contact QB1 {1 + at % 2}\n' for at in range(4000)]
            for said in ([f'{head}contact QA1 1\n'], lines):
                one = kept.enter_context(connect_process(server))
                one.settimeout(1)
                with contextlib.suppress(TimeoutError):  # the system may not keep all of it
                    one.sendall(''.join([f'{head}bay - {NAMED}\n', *said]).encode())
                if len(said) == 1:
                    one.close()
            time.sleep(LIMIT / 1000 + 0.3)
        is_told = becomes(lambda: len(process_lines(server)) == 6)
        checks.holds('what waited counts as new', is_told and process_lines(server)[2:] == [
            'process open', 'process closed 133'] * 2, server.printed())
        checks.holds('an old line is taken', counts(client) == (1, 1)
                     and positions(client) == (BAD, BAD), f'{counts(client)} {positions(client)}')


# Shows P-112, P-117, P-133, P-139.
def strangers(checks) -> None:
    """Processes of another bay, without a first line, with another key, or a part of it."""
    key = checks.file('key', KEY + '\n')
    key.chmod(0o600)
    wrong = [('bay - C 1 a', 'contact QA1 1'), ('bay - B 1', 'contact QA1 1'), ('contact QA1 1',),
             ('alive', 'contact QA1 1')]
    keyed = [(f'bay {word} {NAMED}', 'contact QA1 1') for word in
             ('-', KEY[:32], KEY + KEY[:16], KEY[:-1] + '0', '')]
    for more, cases, right in (([], wrong, '-'), (['--key', key], keyed, KEY)):
        with supervised_bay(checks, *more) as (server, client):
            for lines in cases:
                before = len(process_lines(server))
                process = Process(server, None)
                process.sends(*lines)
                becomes(lambda: len(process_lines(server)) == before + 2)
                checks.holds('a stranger is the process',
                             process_lines(server)[before:]
                             == ['process open', 'process closed 132']
                             and counts(client) == (0, 0), f'{lines}: {server.printed()}')
                process.socket.close()
            with Process(server, f'bay {right} {NAMED}').lives() as process:
                process.sends('contact QA1 1')
                checks.holds('the process of this bay is a stranger',
                             becomes(lambda: positions(client)[0] == OPEN), server.printed())


# Shows P-117, P-139.
def untimely(checks) -> None:
    """Lines whose times are too far away, and one whose is not."""
    with supervised_bay(checks) as (server, client):
        for ahead in (-LIMIT - 200, LIMIT + 200):
            before = len(process_lines(server))
            process = Process(server)
            process.sends('contact QA1 1', ahead=ahead)
            becomes(lambda: len(process_lines(server)) == before + 2)
            checks.holds('a line of another time is taken',
                         process_lines(server)[before:] == ['process open', 'process closed 133']
                         and counts(client) == (0, 0), f'{ahead}: {server.printed()}')
            process.socket.close()
        process = Process(server, None)
        process.sends(f'bay - {NAMED}', 'contact QA1 1', ahead=-LIMIT // 3)
        with process.lives():
            checks.holds('a line of this time is not taken',
                         becomes(lambda: positions(client)[0] == OPEN), server.printed())


# Shows P-117.
def backward(checks) -> None:
    """Lines of one time, and then one whose time is a millisecond before theirs."""
    with supervised_bay(checks, '--log') as (server, client):
        process = Process(server)
        moment = process.sends('contact QA1 1', 'contact QB1 1')
        checks.holds('a line of the same time is not taken',
                     becomes(lambda: positions(client) == (OPEN, OPEN)), server.printed())
        with contextlib.suppress(ConnectionError):
            process.socket.sendall(f'{moment - 1} contact QA1 2\n'.encode())
        checks.holds('a line that goes back in time is taken',
                     becomes(lambda: positions(client) == (BAD, BAD)) and counts(client) == (1, 1)
                     and process_lines(server) == ['process open', 'process closed 133']
                     and 'its time is before that of the line before' in server.printed(),
                     f'{counts(client)} {server.printed()}')
        process.socket.close()


def stall_server(checks, limit: int, age: int, stall: float) -> tuple[bool, list[int], str]:
    """A process says that it lives. Then the server is held up for so many seconds, while an
    operate waits in its socket. Returns whether the operate was accepted, how many milliseconds
    before each command the process had said it, and what the server printed."""
    bay = checks.folder / f'stalled-{limit}-{age}-{stall}.toml'
    bay.write_text(BAY.replace('control = "sbo"\nsbo_timeout_ms = 60000\n', 'control = "direct"\n')
                   .replace('scan_max_age_ms = 1000', f'scan_max_age_ms = {age}'))
    with Server(checks.bayctl, bay, files_of(checks)[1], '--supervise', limit,
                with_process=True) as server, contextlib.ExitStack() as kept:
        server.client().close()
        client = kept.enter_context(contextlib.closing(
            Client('127.0.0.1', server.port, Names(BAY), on_report=lambda told: None)))
        process = Process(server)
        kept.callback(process.socket.close)
        last = process.sends('contact QA1 1', 'contact QB1 1')
        end = time.monotonic() + GREETED
        while positions(client) != (OPEN, OPEN) and time.monotonic() < end:
            last = process.sends('alive')
        control, answers = Control(client, 'QA1'), []
        last = process.sends('alive')
        time.sleep(min(0.05, limit / 4000))
        server.run.send_signal(signal.SIGSTOP)
        asking = threading.Thread(target=lambda: answers.append(control.operate(True)), daemon=True)
        asking.start()
        time.sleep(stall)
        server.run.send_signal(signal.SIGCONT)
        asking.join(GREETED)
        becomes(lambda: len(process_lines(server)) == 2)
        commands = [int(line.split()[0]) - last for line in server.printed().splitlines()
                    if ' command ' in line]
        return bool(answers) and answers[0].is_good, commands, server.printed()


def stalled_between_turns(checks, limit: int, age: int, stall: float) -> tuple:
    """The same, tried again if the server was stopped within a turn: then its command has the time
    of that turn, from before the stop, and a process drops it by its age."""
    for _ in range(5):
        found = stall_server(checks, limit, age, stall)
        commands = found[1]
        if not commands or stall * 1000 <= limit or any(it > limit for it in commands):
            break
    return found


# Shows P-117, P-133.
def stalls(checks) -> None:
    """Servers that are held up, each for another time."""
    cases = [(limit, age, stall) for limit in (100, 500) for age in (1_000, 600_000)
             for stall in STALLS]
    with concurrent.futures.ThreadPoolExecutor(len(cases)) as pool:
        found = list(pool.map(lambda case: stalled_between_turns(checks, *case), cases))
    for case, (is_given, commands, printed) in zip(cases, found):
        limit, _, stall = case
        checks.holds('a command on a word that is too old', all(age <= limit for age in commands),
                     f'{case}: {commands} {printed}')
        checks.holds('a process is commanded that was silent while the server was held up',
                     stall * 1000 <= limit or not is_given and not commands,
                     f'{case}: {is_given} {printed}')
        checks.holds('a process stays that was silent while the server was held up',
                     'process closed 134' in printed, f'{case}: {printed}')


def check_loaded_machine(checks) -> None:
    """A process that lives on a machine on which six programs work without a pause."""
    loops = [subprocess.Popen([sys.executable, '-c', 'while True: pass']) for _ in range(BUSY)]
    try:
        with supervised_bay(checks) as (server, client), Process(server).lives() as process:
            process.sends('contact QA1 1')
            time.sleep(6)
            checks.holds('a process that lives is lost on a machine under load',
                         process_lines(server) == ['process open'] and positions(client)[0] == OPEN,
                         server.printed())
    finally:
        for loop in loops:
            loop.kill()
            loop.wait()


# Shows P-117.
def silent(checks) -> None:
    """Processes that say nothing, or half a line, behind their first one."""
    with supervised_bay(checks) as (server, client):
        for half in (b'', b'5 contact QA1 1'):
            before, process = len(process_lines(server)), Process(server)
            process.socket.sendall(half)
            begun = time.monotonic()
            becomes(lambda: len(process_lines(server)) == before + 2)
            spent = time.monotonic() - begun
            checks.holds('a silent process stays', LIMIT / 2000 < spent < LIMIT / 1000 + SLACK
                         and process_lines(server)[-1] == 'process closed 134',
                         f'{spent:.2f} s: {server.printed()}')
            process.socket.close()


# Shows P-115.
def overdue(checks) -> None:
    """A process that does nothing is told that the time of an operate is over."""
    with supervised_bay(checks) as (server, client), Process(server).lives() as process:
        process.sends('contact QA1 1', 'contact QB1 1')
        until(lambda: positions(client) == (OPEN, OPEN), 'the process has told all')
        time.sleep(0.1)
        checks.holds('a live process is not commanded', cause_of(client, 'QB1') is None,
                     f'{client.cause}: {server.printed()}')
        becomes(lambda: 'over QB1' in process.received_lines())
        told = [line for line in process.received_lines() if line != 'alive']
        checks.holds('the end of a command is not told',
                     told[1:] == ['command QB1 on', 'over QB1'], str(told))


# Shows P-115.
def idle(checks) -> None:
    """Six seconds with `alive` alone."""
    with supervised_bay(checks) as (server, client), Process(server).lives() as process:
        process.sends('contact QA1 1')
        time.sleep(6)
        answers = process.received_lines().count('alive')
        checks.holds('a process that only lives is lost', process_lines(server) == ['process open']
                     and positions(client)[0] == OPEN, server.printed())
        checks.holds('no alive is answered', answers > 6000 / LIMIT, str(answers))
        checks.holds('an answer to alive is printed', 'alive' not in server.printed(), 'it is')


# Shows P-112.
def keys(checks) -> None:
    """A key file that others may read, also one that holds no key, files that hold no key, and
    files that hold one: of the fewest and the most digits, and with an end of a line."""
    bay, logic = files_of(checks)
    others, none = 'only its owner may read it', 'a key has 32 to 64 hexadecimal digits'
    for name, text, mode, why in (('open', KEY, 0o644, others), ('group', KEY, 0o640, others),
                                  ('world', KEY, 0o601, others), ('both', 'a' * 31, 0o604, others),
                                  ('short', 'a' * 31, 0o600, none),
                                  ('long', 'a' * 65, 0o600, none),
                                  ('odd', 'g' * 40, 0o600, none),
                                  ('ends', KEY + '\n\n', 0o600, none),
                                  ('space', KEY + ' ', 0o600, none),
                                  ('absent', None, 0, 'there is no such file'),
                                  ('least', 'a' * 32, 0o600, ''), ('most', 'F' * 64, 0o600, ''),
                                  ('lf', KEY + '\n', 0o600, ''),
                                  ('crlf', KEY + '\r\n', 0o400, '')):
        key = checks.folder / f'{name}.key'
        if text is not None:
            key.write_text(text)
            key.chmod(mode)
        words = ['serve', '--log', '--bay', bay, '--logic', logic, '--port', str(free_port()),
                 '--turns', '1', '--process', str(free_port()), '--supervise', '500', '--key', key]
        done = subprocess.run([checks.bayctl, *words], capture_output=True, text=True, timeout=60)
        if not why:
            checks.holds('a key is refused', done.returncode == 0, f'{name}: {done}')
            continue
        checks.holds('a key that is none, or that others read, is taken, or refused otherwise',
                     (done.returncode, done.stdout, done.stderr)
                     == (3, 'fault 121\n', f'bayctl: fault 121: {key}: {why}\n'),
                     f'{name}: {done}')


# Shows P-111.
def refused_words(checks) -> None:
    """Words of a server that make no sense together, and limits that are none."""
    words = ['serve', '--bay', 'b', '--logic', 'l', '--port', '7', '--turns', '0']
    for more in (['--supervise', '500'], ['--process', '8', '--key', 'k'],
                 ['--process', '8', '--supervise', '500', '--trace', 't'],
                 ['--process', '8', '--supervise', '99'],
                 ['--process', '8', '--supervise', '60001'],
                 ['--process', '8', '--supervise', 'x']):
        done = subprocess.run([checks.bayctl, *words, *more], capture_output=True, text=True,
                              timeout=60)
        checks.holds('words that supervise nothing are taken',
                     (done.returncode, done.stdout) == (2, '')
                     and done.stderr.startswith('error: '), f'{more}: {done}')


# Shows P-117, P-121.
def steps(checks) -> None:
    """The system's clock steps while a switch is selected: no moment does, and no selection ends. A
    step forward, which looks like a machine that slept, ends the process; a step back does not."""
    library = preloads.library(checks.folder, STEPPING)
    if library is None:
        checks.left_out('neither the kit nor cc is installed', "steps of the system's clock")
        return
    step = checks.file('step', '+0')
    env = {**os.environ, 'LD_PRELOAD': library, 'CLOCK_STEP': str(step)}
    with supervised_bay(checks, '--log', env=env) as (server, client):
        maps = pathlib.Path(f'/proc/{server.run.pid}/maps').read_text(encoding='utf-8')
        if library not in maps:
            checks.left_out('bayctl loads no library', "steps of the system's clock")
            return
        control = Control(client, 'QA1')
        for word in STEPS:
            with Process(server).lives() as process:
                process.sends('contact QA1 1', 'contact QB1 1')
                until(lambda: positions(client) == (OPEN, OPEN), 'the process has told all')
                if word == STEPS[0]:
                    control.select()
                one_step(checks, server, client, process, step, word)
                checks.holds('a step of the clock ends a selection', control.is_selected(), word)
            until(lambda: positions(client) == (BAD, BAD), 'the process has gone')


def one_step(checks, server, client, process, step: pathlib.Path, word: str) -> None:
    """The system's clock makes one step, beside a process whose switches are open."""
    before, printed = value(client, 'XSWI1$ST$Pos$t'), server.printed()
    ends = len(process_lines(server))
    step_clock(step, word)
    time.sleep(0.5)
    if word.startswith('+'):
        becomes(lambda: positions(client) == (BAD, BAD))
        checks.holds('a process is believed after the clock has jumped',
                     process_lines(server)[ends:] == ['process closed 134']
                     and 'the clock has jumped' in server.printed()[len(printed):],
                     f'{word}: {server.printed()}')
    else:
        process.sends('contact QB1 2')
        becomes(lambda: value(client, POSITIONS[1]) == CLOSED)
        checks.holds('a step back of the clock ends a process', len(process_lines(server)) == ends,
                     f'{word}: {server.printed()}')
    checks.holds('a step of the clock is not logged',
                 word != STEPS[0] or server.printed() != printed, printed)
    passed = value(client, 'XSWI1$ST$Pos$t') - before
    least = 0 if word.startswith('+') else 400  # a jump is a loss at once, a contact came later
    checks.holds('a step of the clock steps moments', least < passed < 10_000,
                 f'{word}: {passed} ms')


def step_clock(path: pathlib.Path, word: str) -> None:
    """The clock is now so many seconds away."""
    beside = path.with_suffix('.new')
    beside.write_text(word)
    beside.replace(path)


def all_of(checks) -> None:
    """Does all of it. The process that only lives does so meanwhile."""
    write_files(checks)
    living = threading.Thread(target=checks.run_part, args=(idle,))
    living.start()
    for part in (refused_words, keys, frozen, check_waiting_processes, strangers, untimely,
                 backward, silent, overdue, steps):
        checks.run_part(part)
    living.join()
    for part in (stalls, check_loaded_machine):
        checks.run_part(part)
