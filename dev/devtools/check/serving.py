"""What only a served bay can show: clients that come, go and are silent, moments, and the pace of
the turns. Each check has the name of the wrong behaviour that it refuses."""
import contextlib
import itertools
import os
import re
import socket
import struct
import subprocess
import threading
import time

from baytools.common.paths import TOP
from baytools.wire import mms, stream
from devtools import preloads
from devtools.served import PATIENCE, Server, free_port, until, value

from .supervision import STEPPING

SERVED = TOP / 'examples' / '09_served'
BAY, LOGIC, TRACE = SERVED / 'bay.toml', SERVED / 'logic.il', SERVED / 'trace'
IDENTIFY = stream.tpkt_frames(stream.data_tsdu(mms.request_octets(1, 0x82)))
PAGE = stream.tpkt_frames(stream.data_tsdu(mms.names_request(1, 'E05')))
PAUSE = 0.010  # the longest rest of an idle server, in seconds
TRIES = 5
ROOM = 262_144  # octets that wait for a client
LATE = '+4294967296'  # seconds after which no moment is one that a time stamp holds
# The line of a turn, and whether a turn has it.
GIVEN = (('', True), ('0 contact QA1 1\n', True), ('0 input SPRING 1\n', True),
         ('0 measure M1 AA 5\n', True), ('0 measure M1 AA bad\n', True), ('0 lost\n', True),
         ('0 contact NONE 1\n', True), ('0 scan\n', False), ('0 open 1\n', False),
         ('0 lost now\n', False))
CONFIRMED = 22  # octets of the answer to a transport connection
BUSY = 0.4  # of a processor: far more than an idle server takes
# A bay of which every release follows one input, and two lines that change all of them and back.
SWITCHES = [f'Q{at}' for at in range(1, 33)]
FOLLOWING_BAY = 'bay = { domain = "B", vendor = "V", model = "M", revision = "1", ' \
    'scan_max_age_ms = 1000 }\n[[input]]\nname = "ES"\n' + ''.join(
        f'[[switch]]\nid = "{it}"\nkind = "breaker"\ncontrol = "status"\n' for it in SWITCHES)
FOLLOWING_LOGIC = 'PROGRAM P\nVAR_EXTERNAL\nES : BOOL;\n' + ''.join(
    f'{it}_ENA_OPN, {it}_ENA_CLS : BOOL;\n' for it in SWITCHES) + 'END_VAR\nLD ES\n' + ''.join(
    f'ST {it}_ENA_OPN\nST {it}_ENA_CLS\n' for it in SWITCHES) + 'END_PROGRAM\n'
CHANGES = b'0 input ES 1\n0 input ES 0\n'


def connect(port: int) -> socket.socket:
    """A connection to a port, on which nothing was said yet."""
    one = socket.create_connection(('127.0.0.1', port), PATIENCE)
    one.settimeout(PATIENCE)
    return one


def number_of(one: socket.socket) -> int:
    """Asks for a transport connection, and tells the association's number in the answer; 0 where
    there is no answer."""
    one.sendall(stream.connection_request())
    try:
        return int.from_bytes(one.recv(100)[8:10], 'big')
    except (TimeoutError, ConnectionError):
        return 0


def prints(server: Server, told: str, behind: int = 0) -> bool:
    """Whether a server prints something within five seconds, behind this number of characters."""
    end = time.monotonic() + 5
    while told not in server.printed()[behind:] and time.monotonic() < end:
        time.sleep(0.05)
    return told in server.printed()[behind:]


def took(do, *words) -> float:
    """How many seconds a call takes."""
    begun = time.monotonic()
    do(*words)
    return time.monotonic() - begun


def rests_in(server: Server, do, *words) -> int:
    """How often a server rests during a call: how often it gave up its processor. It is the least
    of some tries, since another load of the machine may have octets come late."""
    def given() -> int:
        with open(f'/proc/{server.run.pid}/status', encoding='utf-8') as file:
            return int(re.search(r'^voluntary_ctxt_switches:\s*(\d+)', file.read(), re.M)[1])

    def tried() -> int:
        before = given()
        do(*words)
        return given() - before

    return min(tried() for _ in range(TRIES))


def ask_at_once(client, request: bytes, count: int) -> None:
    """Sends a request so many times at once, and waits for as many answers."""
    client.socket.sendall(request * count)
    for _ in range(count):
        client.next('mms')


def processor_seconds(server: Server) -> float:
    """The processor's seconds that a server takes within one second."""
    def taken() -> int:
        with open(f'/proc/{server.run.pid}/stat', encoding='utf-8') as file:
            return sum(map(int, file.read().rpartition(')')[2].split()[11:13]))

    before = taken()
    time.sleep(1)
    return (taken() - before) / os.sysconf('SC_CLK_TCK')


# Shows P-129, P-139.
def silence(checks) -> None:
    """Ten seconds of silence end a connection from its start on, and not behind its first octet."""
    with Server(checks.bayctl, BAY, LOGIC) as server, contextlib.ExitStack() as kept:
        client, begun = server.client(), time.monotonic()
        client.domain()
        with connect(server.port) as one:
            one.settimeout(20)
            try:
                is_closed = one.recv(1) == b''
            except TimeoutError:
                is_closed = False
            waited = time.monotonic() - begun
        checks.holds('a client that says nothing is never closed',
                     is_closed and 9.5 < waited < 20 and prints(server, ' closed 2 131\n'),
                     f'after {waited:.1f} s: {server.printed()!r}')
        time.sleep(max(0, begun + 12 - time.monotonic()))
        kept.callback(client.close)
        checks.holds('a client that pauses for ten seconds is closed',
                     not re.search(' closed 1 ', server.printed()) and is_served(client),
                     repr(server.printed()))


def is_served(client) -> bool:
    """Whether a client is still answered."""
    try:
        return value(client, 'LPHD1$ST$PhyHealth$stVal') == 1
    except Exception as error:  # the server may be gone in any way
        print(f'no answer: {error!r}')
        return False


# Shows P-128.
def clients(checks) -> None:
    """A client that hangs up is told, and its number is the next one's."""
    with Server(checks.bayctl, BAY, LOGIC) as server:
        server.client().socket.close()
        is_told = prints(server, ' closed 1 0\n')
        with connect(server.port) as second:
            second.sendall(stream.connection_request())
            number = receive(second, 5)[8:10]
        checks.holds('the end of a client is never seen', is_told and number == b'\0\1',
                     f'number {number!r}, {server.printed()!r}')


# Shows P-128.
def closings(checks) -> None:
    """Clients that go in each way, some with two reasons at once: a fault in what they sent, and
    their end or a reset."""
    with Server(checks.bayctl, BAY, LOGIC) as server:
        server.client().socket.close()
        numbers = [1]
        for rubbish in (b'', b'\x04'):
            for is_reset in (False, True):
                for _ in range(3):
                    one = connect(server.port)
                    numbers.append(number_of(one))
                    one.sendall(rubbish)
                    if is_reset:
                        one.setsockopt(socket.SOL_SOCKET, socket.SO_LINGER, struct.pack('ii', 1, 0))
                    one.close()
        with contextlib.suppress(TimeoutError):
            until(lambda: server.printed().count(' closed ') >= len(numbers), 'all are closed')
        time.sleep(0.3)
        closed = [int(it) for it in re.findall(r'(?m)^\d+ closed (\d) \d+$', server.printed())]
        checks.holds('an association is reported closed twice, or never',
                     sorted(closed) == sorted(numbers), f'{numbers}, {server.printed()!r}')


# Shows P-129, P-139.
def reasons(checks) -> None:
    """A client that releases its association and stays is closed with 0. One that goes is closed
    with 0, and with 131 if it resets its connection; one that stays and sends no TPKT, or a TPDU
    that is malformed, is closed with the number of that fault."""
    with Server(checks.bayctl, BAY, LOGIC) as server:
        with server.client().socket as one:
            one.sendall(stream.tpkt_frames(stream.release_request()))
            checks.holds('a client that releases its association is closed with another number',
                         prints(server, ' closed 1 0\n'), server.printed())
        for why, octets in ((0, None), (131, None), (10, b'\x04\0\0\0'),
                            (11, bytes.fromhex('0300000803f08005'))):
            before = len(server.printed())
            with connect(server.port) as one:
                number = number_of(one)
                if octets is None:
                    one.setsockopt(socket.SOL_SOCKET, socket.SO_LINGER,
                                   struct.pack('ii', why != 0, 0))
                    one.close()
                else:
                    one.sendall(octets)
                checks.holds(f'what is closed with {why} has another number',
                             prints(server, f' closed {number} {why}\n', before),
                             server.printed())


# Shows P-122, P-124, P-125.
def eight(checks) -> None:
    """Eight clients are served; a ninth waits until one of them goes."""
    with Server(checks.bayctl, BAY, LOGIC) as server, contextlib.ExitStack() as kept:
        eight = [kept.enter_context(server.client().socket)]
        eight += [kept.enter_context(connect(server.port)) for _ in range(7)]
        numbers = [number_of(one) for one in eight[1:]]
        ninth = kept.enter_context(connect(server.port))
        ninth.sendall(stream.connection_request())
        early_answer = receive(ninth, 0.3)
        checks.holds('eight clients end the server',
                     server.run.poll() is None and numbers == [*range(2, 9)] and not early_answer,
                     f'numbers {numbers}, {early_answer!r}, {server.printed()!r}')
        eight[4].close()
        late_answer = receive(ninth, 5)
        checks.holds('a ninth client is never served', late_answer[8:10] == b'\0\5',
                     f'{late_answer!r}, {server.printed()!r}')


def receive(one: socket.socket, seconds: float) -> bytes:
    """What comes within so many seconds."""
    one.settimeout(seconds)
    try:
        return one.recv(100)
    except (TimeoutError, ConnectionError):
        return b''


# Shows P-121.
def moments(checks) -> None:
    """A trace is done beside a process, at the moments of the system's clock."""
    with Server(checks.bayctl, BAY, LOGIC, '--trace', TRACE, with_process=True) as server:
        begun = time.time()
        try:
            client = server.client()
        except RuntimeError as error:
            checks.holds('a trace and a process want memory', False, str(error))
            return
        with connect(server.process) as process:
            process.sendall(b'0 measure M1 AB 77\n')
            seen = []
            with contextlib.suppress(TimeoutError):
                until(lambda: seen.append(values(client)) or seen[-1] == [212, 77], 'both')
        checks.holds('a trace and a process want memory', seen[-1] == [212, 77],
                     f'{seen[-1]}, {server.printed()!r}')
        moment = value(client, 'XCBR1$ST$Pos$t') / 1000
        checks.holds("the clock counts from the machine's start",
                     begun - 1 < moment < time.time() + 1, f'{moment} at {time.time()}')
        client.close()


def values(client) -> list:
    """A current of the trace and one of the process."""
    return [value(client, f'MMXU1$MX$A$phs{phase}$cVal$mag$i') for phase in 'AB']


def turns(checks) -> None:
    """An idle server takes its turns: a hundred of them within two seconds, and not at once."""
    words = [checks.bayctl, 'serve', '--bay', BAY, '--logic', LOGIC, '--turns', '100', '--port']

    def served() -> None:
        with contextlib.suppress(subprocess.TimeoutExpired):
            subprocess.run([*words, str(free_port())], stdout=subprocess.DEVNULL, timeout=5)

    least = min(took(served) for _ in range(2))
    checks.holds('an idle server sleeps two seconds', least < 100 * 2 * PAUSE + 2,
                 f'100 turns take {least:.2f} s')
    checks.holds('an idle server never rests', least > 100 * PAUSE / 2,
                 f'100 turns take {least:.2f} s')


# Shows P-121.
def cycles(checks) -> None:
    """With a cycle, no turn is shorter: neither the turns of a server that nobody uses, nor those
    beside a client that asks without a pause."""
    cycle, count = 0.050, 20
    words = ['--cycle', str(round(cycle * 1000))]
    command = [checks.bayctl, 'serve', '--bay', BAY, '--logic', LOGIC, '--turns', str(count),
               '--port', str(free_port()), *words]
    seconds = took(lambda: subprocess.run(command, stdout=subprocess.DEVNULL, check=False))
    checks.holds('a turn is shorter than its cycle', seconds >= count * cycle,
                 f'{count} turns take {seconds:.2f} s')
    with Server(checks.bayctl, BAY, LOGIC, *words) as server:
        client = server.client()
        ask_at_once(client, IDENTIFY, 1)
        seconds = took(lambda: [ask_at_once(client, IDENTIFY, 1) for _ in range(count)])
        checks.holds('a busy client shortens the turns', seconds >= (count - 1) * cycle,
                     f'{count} requests take {seconds:.2f} s')
        client.close()


# Shows P-121.
def check_waiting_lines(checks) -> None:
    """Ten lines of a process wait while a trace is played, with a cycle. The turn after the last
    line of the trace does not skip its reads, so it begins a cycle later; the next ones do."""
    cycle, count, more = 50, 100, 10
    trace = checks.file('waiting.trace', '0 contact NONE 1\n' * count)
    with Server(checks.bayctl, BAY, LOGIC, '--trace', trace, '--cycle', cycle,
                with_process=True) as server:
        server.client().close()
        with connect(server.process) as process:
            process.sendall(b'0 contact NONE 1\n' * more)
            with contextlib.suppress(TimeoutError):
                until(lambda: server.printed().count(' refused 113\n') == count + more, 'all lines')
        found = [int(it) for it in re.findall(r'(?m)^(\d+) refused 113$', server.printed())]
    least = cycle - 1  # the server's clock may be slower than the steady one
    steps = [second - first for first, second in itertools.pairwise(found)]
    checks.holds('a turn after a line of a trace skips its reads',
                 len(found) == count + more and min(steps[:count]) >= least, str(found))
    checks.holds('each line of a process waits for a turn that reads',
                 any(it < least for it in steps[count:]), str(found))


# Shows P-121, P-122, P-125.
def check_skipped_reads(checks) -> None:
    """A client and a process send at once what several turns take. The turns that begin at once, 63
    of them in a row, take a line of the process and read no client; the next one does both."""
    record, count = checks.folder / 'skipped.record', 240
    with Server(checks.bayctl, BAY, LOGIC, '--cycle', 100, '--record', record,
                with_process=True) as server:
        client = server.client()
        with connect(server.process) as process:
            server.waits_for(' process open')
            client.socket.sendall(IDENTIFY * (10 * 4_096 // len(IDENTIFY)))
            process.sendall(b'0 contact NONE 1\n' * count)
            with contextlib.suppress(TimeoutError):
                until(lambda: server.printed().count(' refused 113\n') == count, 'all lines')
        client.socket.close()
        text = record.read_text()
    letters = {'recv': 'r', 'contact': 'p', 'scan': 's'}
    told = ''.join(letters.get(it, '') for it in re.findall(r'(?m)^\d+ (\w+)', text))
    checks.holds('a turn that skips its reads reads, or other turns skip theirs',
                 re.search('(?:ps){63}rps(?:ps){63}rps', told)
                 and not re.search('(?<!r)(?:ps){64}', told), told)


def pieces(checks) -> None:
    """What comes at once is read in pieces of 4,096 octets, without a rest between them."""
    with Server(checks.bayctl, BAY, LOGIC) as server:
        client = server.client()
        for name, octets in (('a read brings 64 octets', 4_000),
                             ('a server rests though octets wait', 65_536)):
            least = rests_in(server, ask_at_once, client, IDENTIFY, octets // len(IDENTIFY))
            checks.holds(name, least < 10, f'{least} rests within {octets} octets')
        client.close()


# Shows P-125, P-126.
def reads(checks) -> None:
    """Three clients ask in one turn, the last association first: each is read once in the turn, the
    lowest first, and the record has what each has sent."""
    record, rounds = checks.folder / 'reads.record', 5
    with Server(checks.bayctl, BAY, LOGIC, '--cycle', 100, '--record', record) as server:
        clients = [server.client() for _ in range(3)]
        for _ in range(rounds):
            for client in reversed(clients):
                client.socket.sendall(IDENTIFY)
            for client in clients:
                client.next('mms')
        for client in clients:
            client.socket.close()
        until(lambda: len(re.findall(r'(?m)^\d+ close [123]$', record.read_text())) == 3,
              'their ends are recorded')
    text = record.read_text()
    turns = [re.findall(r'(?m)^\d+ recv (\d)', it) for it in text.split(' scan\n')]
    checks.holds('clients are read in another order, or twice in a turn',
                 all(it == sorted(set(it)) for it in turns) and ['1', '2', '3'] in turns,
                 str([it for it in turns if it]))
    for number in '123':
        octets = ''.join(re.findall(rf'(?m)^\d+ recv {number} (\w+)$', text))
        checks.holds('what a client has sent is lost or repeated',
                     octets.endswith(IDENTIFY.hex() * rounds)
                     and octets.count(IDENTIFY.hex()) == rounds, f'{number}: {octets}')


def wakes(checks) -> None:
    """Each port wakes an idle server. A request comes two milliseconds behind the answer to the
    one before, when the server has just begun to rest."""
    with Server(checks.bayctl, BAY, LOGIC, with_process=True) as server:
        client = server.client()
        waited = [later(ask_at_once, client, IDENTIFY, 1) for _ in range(100)]
        checks.holds('only the last port wakes the server', early(waited) < PAUSE / 2,
                     f'a request takes {early(waited) * 1000:.1f} ms')
        with connect(server.process) as process:
            waited = [later(await_refusal, process) for _ in range(100)]
        checks.holds('only the first port wakes the server', early(waited) < PAUSE / 2,
                     f'a line of the process takes {early(waited) * 1000:.1f} ms')
        client.close()


def later(do, *words) -> float:
    """How many seconds a call takes two milliseconds from now."""
    time.sleep(0.002)
    return took(do, *words)


def early(times: list[float]) -> float:
    """A time that three quarters of some times are not below."""
    return sorted(times)[len(times) // 4]


def await_refusal(process: socket.socket) -> None:
    """Tells of a switch that there is not, and waits for the refusal."""
    process.sendall(b'0 contact NONE 1\n')
    process.recv(100)


def rests(checks) -> None:
    """Neither a process that has nothing to say nor a client that reads nothing keeps the server
    busy."""
    with Server(checks.bayctl, BAY, LOGIC, with_process=True) as server:
        client = server.client()
        with connect(server.process) as process:
            await_refusal(process)
            seconds = processor_seconds(server)
            checks.holds('a process keeps the server awake', seconds < BUSY,
                         f'{seconds} of one second')
        client.close()
    with Server(checks.bayctl, BAY, LOGIC) as server:
        client = server.client()
        fill(client, server.port)
        seconds = processor_seconds(server)
        checks.holds('a client that reads nothing keeps the server busy',
                     seconds < BUSY and ' closed ' not in server.printed(),
                     f'{seconds} of one second, {server.printed()!r}')
        client.socket.close()


def under_way(port: int) -> int:
    """How many octets of answers the system keeps between a server and its client."""
    with open('/proc/net/tcp', encoding='utf-8') as file:
        rows = [line.split() for line in file][1:]
    place = f'0100007F:{port:04X}'
    return sum(int(row[4].split(':')[row[2] == place], 16) for row in rows
               if row[3] == '01' and place in row[1:3])


def fill(client, port: int, room: int = 4_096) -> int:
    """Asks for names, and reads none, until the system takes no more of them. What is asked at a
    time fits the server's queue. Returns how often it has asked."""
    client.socket.setsockopt(socket.SOL_SOCKET, socket.SO_RCVBUF, room)
    before, count = -1, 0
    while under_way(port) > before:
        before = under_way(port)
        client.socket.sendall(PAGE * 50)
        count += 50
        time.sleep(0.05)
    return count


def settled(port: int) -> int:
    """How many octets of answers the system keeps between a server and its client, once that no
    longer changes."""
    found = [-1, under_way(port)]
    while found[-1] != found[-2]:
        time.sleep(0.5)
        found.append(under_way(port))
    return found[-1]


def fill_queue(client, port: int) -> tuple[int, list[int]]:
    """Asks, and reads nothing, until the queue of a client has no room for one more answer to an
    identify. Returns the number of octets that were asked for, and the sizes of the answers."""
    sizes = []
    for request in (PAGE, IDENTIFY):
        client.socket.sendall(request)
        sizes.append(len(client.socket.recv(65_536)))
    asked = fill(client, port) * sizes[0]
    while (count := (ROOM - asked + settled(port)) // sizes[1]) > 0:
        client.socket.sendall(IDENTIFY * count)
        asked += count * sizes[1]
    return asked, sizes


# Shows P-122, P-130, P-131, P-134, P-136, P-139.
def full_queues(checks) -> None:
    """As many octets wait for a client that reads nothing as its queue has room for; with an answer
    more it is closed. The next client, which has its number, gets its own answers alone."""
    with Server(checks.bayctl, BAY, LOGIC) as server:
        client = server.client()
        asked, sizes = fill_queue(client, server.port)
        is_open = ' closed ' not in server.printed()
        client.socket.sendall(IDENTIFY)
        is_closed = prints(server, ' closed 1 130\n')
        checks.holds('a queue has more than its room, or less', is_open and is_closed,
                     f'{asked} octets of {sizes}: {server.printed()!r}')
        with connect(server.port) as other:
            other.sendall(stream.connection_request())
            octets, more = receive(other, 5), receive(other, 0.5)
        checks.holds('what waited for a client goes to the next one',
                     octets[8:10] == b'\0\1' and len(octets) == CONFIRMED and not more,
                     f'{octets!r}, {more!r}, {server.printed()!r}')
        client.socket.close()


# Shows P-129, P-130.
def full_and_faulty(checks) -> None:
    """A client asks for an answer for which its queue has no room, and sends at once what is no
    TPKT: it is closed with the number of this fault, and not for its queue."""
    with Server(checks.bayctl, BAY, LOGIC) as server:
        client = server.client()
        fill_queue(client, server.port)
        is_open = ' closed ' not in server.printed()
        client.socket.sendall(IDENTIFY + b'\x04\0\0\0')
        is_closed = prints(server, ' closed 1 10\n')
        checks.holds('a full queue is reported of a client that was closed for a fault',
                     is_open and is_closed and ' 130\n' not in server.printed(),
                     repr(server.printed()))
        client.socket.close()


# Shows P-097, P-120, P-123, P-139.
def right_turns(checks) -> None:
    """A turn without a line, or with one that the process may send, is done; with another line it
    is refused for that, also past the last moment, at which every turn is refused."""
    library, step = preloads.library(checks.folder, STEPPING), checks.file('step', LATE)
    clocks = [('a turn', None, (0, ''))]
    if library is None:
        checks.left_out('neither the kit nor cc is installed', 'turns past the last moment')
    else:
        late = {**os.environ, 'LD_PRELOAD': library, 'CLOCK_STEP': str(step)}
        clocks.append(('a late turn', late, (3, 'fault 114\n')))
    words = [checks.bayctl, 'serve', '--bay', BAY, '--logic', LOGIC, '--turns', '1', '--trace']
    for (line, is_right), (name, env, right) in itertools.product(GIVEN, clocks):
        done = subprocess.run([*words, checks.file('trace', line), '--port', str(free_port())],
                              env=env, text=True, capture_output=True, timeout=60)
        printed = re.sub(r'(?m)^(instructions=.*|\d+ refused 113)\n', '', done.stdout)
        wanted = right if is_right else (3, 'fault 120 line 1\n')
        checks.holds(f'{name} is done or refused otherwise',
                     (done.returncode, printed) == wanted, f'{line!r}: {done}')


# Shows P-127.
def unread(checks) -> None:
    """A client asks until the system takes no more answers, and then reads them all: each is the
    answer that it has got when nothing waited."""
    with Server(checks.bayctl, BAY, LOGIC) as server:
        client, read = server.client(), b''
        client.socket.sendall(PAGE)
        answer = client.socket.recv(65_536)
        wanted = answer * fill(client, server.port, 131_072)
        client.socket.settimeout(5)
        with contextlib.suppress(OSError):
            while len(read) < len(wanted) and (piece := client.socket.recv(1_048_576)):
                read += piece
        checks.holds('octets that a socket does not take are lost, or others come', read == wanted,
                     f'{len(read)} of {len(wanted)} octets, {server.printed()!r}')
        client.socket.close()


def releases_told(*values: str) -> bytes:
    """What a process is told if all releases have these values, one after the other."""
    return ''.join(f'{it}={value}\n' for value in values for it in SWITCHES).encode()


def fill_process(process: socket.socket, port: int) -> int:
    """Sends lines and reads none, until the system takes no more of what the process is told. What
    it is told at a time fits the server's queue. Returns how often it has sent the two lines."""
    before, count = -1, 0
    while under_way(port) > before:
        before = under_way(port)
        process.sendall(CHANGES * 50)
        count += 50
        time.sleep(0.05)
    return count


def read_up_to(process: socket.socket, count: int) -> bytes:
    """The next octets, this number of them, or all up to the end of the connection."""
    octets = b''
    with contextlib.suppress(OSError):
        while len(octets) < count and (piece := process.recv(65_536)):
            octets += piece
    return octets


# Shows P-115, P-116, P-139.
def check_slow_process(checks) -> None:
    """A process sends lines until the system takes no more of what it is told, and then reads all
    of that. Then it never reads, until it is closed for its full queue."""
    bay, logic = (checks.file('following.toml', FOLLOWING_BAY),
                  checks.file('following.il', FOLLOWING_LOGIC))
    first, changes = releases_told('00'), releases_told('11', '00')
    with Server(checks.bayctl, bay, logic, '--tell', 'releases', with_process=True) as server:
        server.client().close()
        with connect(server.process) as process:
            process.setsockopt(socket.SOL_SOCKET, socket.SO_RCVBUF, 131_072)
            is_begun = read_up_to(process, len(first)) == first
            wanted = changes * fill_process(process, server.process)
            octets = read_up_to(process, len(wanted))
            checks.holds('what a process does not read at once is lost',
                         is_begun and octets == wanted
                         and ' process closed' not in server.printed(),
                         f'{len(octets)} of {len(wanted)} octets, {server.printed()!r}')
            count = 0
            with contextlib.suppress(OSError):
                while ' process closed' not in server.printed() and count < 100_000:
                    count += 500
                    process.sendall(CHANGES * 500)
                    time.sleep(0.05)
            is_closed, wanted = prints(server, ' process closed 130\n'), changes * count
            octets = read_up_to(process, len(wanted))
            checks.holds('a process that never reads is told something else, or stays',
                         is_closed and wanted.startswith(octets) and octets != wanted,
                         f'{len(octets)} of {len(wanted)} octets, {server.printed()!r}')


def all_of(checks) -> None:
    """Does all of it. The connections that are silent for ten seconds are so meanwhile."""
    silent = threading.Thread(target=checks.run_part, args=(silence,))
    silent.start()
    for part in (clients, closings, reasons, eight, moments, turns, cycles, check_waiting_lines,
                 check_skipped_reads, pieces, reads, wakes, rests, full_queues, full_and_faulty,
                 right_turns, unread, check_slow_process):
        checks.run_part(part)
    silent.join()
