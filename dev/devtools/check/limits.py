"""What is asked at the limits of bayctl with ample memory: nothing may answer want of memory. And
texts and events of which an octet is another one. Each check has the name of the wrong behaviour
that it refuses."""
import concurrent.futures
import contextlib
import os
import re
import subprocess

from baytools.wire import mms, stream
from baytools.wire.client import Client
from devtools.served import Server, free_port

LEAST, MOST = 256, 65_000  # octets of a PDU
FRAME = ('PROGRAM P\nVAR_EXTERNAL\nQA1_OPEN, QA1_ENA_OPN, QA1_ENA_CLS : BOOL;\nEND_VAR\n{}'
         'LD TRUE\nST QA1_ENA_OPN\nST QA1_ENA_CLS\n{}END_PROGRAM\n')
LOGIC = FRAME.format('', '')
ROWS = 2_691  # of the largest bay: 32 enhanced disconnectors and 8 meters
SCENARIO = 16_777_216  # octets at most
# A short scenario with each kind of event, and what takes the place of each of its octets: NUL, an
# octet that no text has, a digit, and a quote. Then what a replay prints, by its status.
SHORT = b'''bay={domain="B",vendor="V",model="M",revision="1",scan_max_age_ms=1}
switch=[{id="QA1",kind="breaker",control="sbo",sbo_timeout_ms=5,travel_ms=5}]
input=[{name="ES"}]
meter=[{id="M1"}]
%%
PROGRAM P
VAR_EXTERNAL ES, QA1_ENA_CLS : BOOL; END_VAR
LDN ES
ST QA1_ENA_CLS
END_PROGRAM
%%
9 open 1
9 recv 1 03000006
9 contact QA1 1
9 input ES 1
9 measure M1 AA 5
9 measure M1 AA bad
9 lost
9 scan
9 close 1
'''
OTHERS = (b'\0', b'\x80', b'9', b'"')
LOADED = r'instructions=\d+ depth=\d+ budget=\d+\n(?:\d+ (?:scan|refused|closed|send) .*\n)*'
PRINTED = {0: LOADED, 1: r'load refused \d+(?: line \d+)?\n',
           3: rf'(?:{LOADED})?fault 120 line \d+\n'}


def bay(switches: int = 1, inputs: int = 0, meters: int = 0, text: str = 'Demo') -> str:
    """A bay of enhanced switches, inputs and meters; its vendor, model and revision are a text."""
    return ('[bay]\ndomain = "BAY1"\nscan_max_age_ms = 1000\n'
            + ''.join(f'{key} = "{text}"\n' for key in ('vendor', 'model', 'revision'))
            + ''.join(f'[[switch]]\nid = "QA{at}"\nkind = "disconnector"\ncontrol = "sbo-enhanced"'
                      '\nsbo_timeout_ms = 5000\ntravel_ms = 500\n'
                      for at in range(1, switches + 1))
            + ''.join(f'[[input]]\nname = "IN{at}"\n' for at in range(inputs))
            + ''.join(f'[[meter]]\nid = "M{at}"\n' for at in range(meters)))


class SmallClient(Client):
    """A client whose PDUs are as small as can be."""

    def open(self) -> None:
        self.send(stream.connection_request())
        self.size = self.first_answer().size
        self.send(stream.tpkt_frames(stream.association_request(mms.initiate_request(LEAST)),
                                     self.size))
        self.next('accept')


def replay(checks, scenario: str | bytes) -> str:
    """What a replay prints, with its status behind it."""
    octets = scenario if isinstance(scenario, bytes) else scenario.encode()
    done = subprocess.run([checks.bayctl, 'replay'], input=octets, capture_output=True, timeout=60)
    return f'{done.stdout.decode()}status {done.returncode}'


def replay_requests(checks, of_bay: str, pdus: list[bytes],
                    size: int = MOST, more: str = '') -> tuple[str, list[mms.Pdu]]:
    """What a replay prints in which a client with PDUs of a size asks, and more events follow, and
    what it is sent."""
    initiate = stream.association_request(mms.initiate_request(size))
    sent = [stream.connection_request(), stream.tpkt_frames(initiate)]
    sent += [stream.tpkt_frames(stream.data_tsdu(pdu)) for pdu in pdus]
    trace = '1000 contact QA1 1\n1000 scan\n1000 open 1\n'
    trace += ''.join(f'1000 recv 1 {octets.hex()}\n' for octets in sent) + more
    printed = replay(checks, f'{of_bay}%%\n{LOGIC}%%\n{trace}')
    answers = stream.Stream()
    octets = b''.join(bytes.fromhex(line.split(' ')[3]) for line in printed.splitlines()
                      if ' send 1 ' in line)
    return printed, [mms.read_pdu(got.octets) for got in answers.feed(octets)
                     if got.kind == 'mms']


# Shows P-095.
def names(checks) -> None:
    """All names of the largest bay in the largest pages and in the smallest."""
    path, logic = checks.file('bay.toml', bay(32, 0, 8)), checks.file('logic.il', LOGIC)
    for kind, name in ((Client, 'the names of a large bay want memory'),
                       (SmallClient, 'the second page of a small client wants memory')):
        with Server(checks.bayctl, path, logic) as server:
            found = []
            with contextlib.suppress(Exception):
                server.client().close()
                client = kind('127.0.0.1', server.port)
                found = client.names()
                client.close()
            checks.holds(name, len(found) == len(set(found)) == ROWS,
                         f'{len(found)} names, {server.printed()!r}')


def inputs(checks) -> None:
    """The bay with the most of everything."""
    told = report_of_check(checks, '--bay', checks.file('bay.toml', bay(32, 64, 8)),
                           '--logic', checks.file('logic.il', LOGIC))
    checks.holds('a bay of many inputs wants memory', told.startswith('instructions='), told)


# Shows P-092, P-093.
def messages(checks) -> None:
    """The longest identity, and reads and writes of 32 variables in the smallest PDUs."""
    printed, pdus = replay_requests(checks, bay(text='~' * 64), [mms.request_octets(1, 0x82)])
    checks.holds('a long nameplate wants memory', printed.count('7e' * 64) == 3, printed)
    values = ['BAY1/CILO1$ST$EnaOpn$stVal'] * 32
    printed, pdus = replay_requests(checks, bay(), [mms.read_request(2, values)], LEAST)
    checks.holds('a read on the smallest pdus wants memory',
                 bool(pdus) and len(pdus[-1].data) == 32, printed)
    written = mms.write_request(3, ['BAY1/CILO1$ST$EnaOpn$stVal'] * 32, [mms.control(True)] * 32)
    printed, pdus = replay_requests(checks, bay(), [written], LEAST)
    checks.holds('a write of 32 variables finds no memory',
                 bool(pdus) and len(pdus[-1].data) == 32, printed)


# Shows P-013, P-026, P-080, P-093, P-094.
def long_answers(checks) -> None:
    """Reads that select: the answer to the first is an octet longer than a PDU may be, that to the
    second just as long. The octets of results are 23 of SBO, 10 of each t, 3 of each stSeld, and
    there are 12 before them."""
    select, stamp, state = (f'BAY1/{it}' for it in (
        'CSWI1$CO$Pos$SBO', 'XSWI1$ST$Pos$t', 'CSWI1$ST$Pos$stSeld'))
    long, fitting = ([select, *[stamp] * stamps, *[state] * states]
                     for stamps, states in ((21, 4), (20, 7)))
    asked = [mms.read_request(at, names)
             for at, names in enumerate((long, [state], fitting, [state]), 1)]
    printed, pdus = replay_requests(checks, bay().replace('sbo-enhanced', 'sbo'), asked, LEAST)
    found = [(it.kind, it.invoke, it.code) for it in pdus]
    checks.holds('a read whose answer is too long is answered',
                 found == [('error', 1, (3, 0)), *[('response', at, ()) for at in (2, 3, 4)]],
                 printed)
    no, yes = (mms.Data(mms.BOOLEAN, it) for it in (False, True))
    checks.holds('a read whose answer is too long selects', [no] in [it.data for it in pdus[1:2]],
                 printed)
    granted = [it.data[:1] + it.data[21:] for it in pdus[2:]]
    checks.holds('an answer as long as a pdu is too long', 'a181fd020103' in printed
                 and granted == [[mms.Data(mms.TEXT, select), *[yes] * 7], [yes]], printed)


# Shows P-091, P-093.
def long_types(checks) -> None:
    """The type of a node and the data of one are errors if a PDU may have 256 octets, in which the
    type and the data of a value fit. If it may have the most, all are answered."""
    value = 'BAY1/CSWI1$ST$Pos$stVal'
    asked = [mms.attributes_request(1, 'BAY1/CSWI1'), mms.read_request(2, ['BAY1/LLN0']),
             mms.attributes_request(3, value), mms.read_request(4, [value])]
    for size, wanted in ((LEAST, [('error', (3, 0))] * 2 + [('response', ())] * 2),
                         (MOST, [('response', ())] * 4)):
        printed, pdus = replay_requests(checks, bay(text='~' * 64), asked, size)
        checks.holds('a type or data are written that have no room, or others are not',
                     [(it.kind, it.code) for it in pdus] == wanted, printed)


# Shows P-096.
def controls(checks) -> None:
    """A select with value and its operate by the longest originator, with their report."""
    value = mms.control(True, ident=b'\xFF' * 64)
    written = [mms.write_request(at, [f'BAY1/CSWI1$CO$Pos${item}'], [value])
               for at, item in ((1, 'SBOw'), (2, 'Oper'))]
    printed, _ = replay_requests(checks, bay(), written)
    checks.holds('a long originator wants memory', '1000 command QA1 on\n' in printed, printed)


# Shows P-096.
def wrong_controls(checks) -> None:
    """Selects with value, operates and cancels whose data have another shape (7), or a value that
    is just out of range (11), also where both the shape and a value are wrong (7)."""
    far = b'\xFF' * 65
    values = [(7, mms.Data(mms.BOOLEAN, True)), (11, {'ident': far}), (11, {'category': 128}),
              (11, {'category': -129}), (11, {'count': 256}), (7, {'check': '000', 'count': 256})]
    for item, right in (('SBOw', '00'), ('Oper', '00'), ('Cancel', None)):
        wanted, pdus = [], []
        for at, (code, value) in enumerate(values, 1):
            if isinstance(value, dict):
                value = mms.control(True, **{'check': right, **value})
            wanted.append([mms.Failure(code)])
            pdus.append(mms.write_request(at, [f'BAY1/CSWI1$CO$Pos${item}'], [value]))
        printed, found = replay_requests(checks, bay(), pdus)
        checks.holds(f'a wrong {item} has another error', [it.data for it in found] == wanted,
                     f'{[it.data for it in found]}, {printed}')


# Shows P-020, P-093.
def long_reports(checks) -> None:
    """The report that the time of an operate has expired has 135 octets and twice those of the
    originator, so 255 by an originator of 60 octets, and 257, which is more than the smallest PDU
    has, by one of 61. The report that the switch is where it was asked to go is shorter."""
    late, there = '1499 scan\n1500 scan\n', '1400 contact QA1 2\n1500 scan\n'
    for ident, size, more, wanted in ((60, LEAST, late, 255), (61, LEAST, late, None),
                                      (61, MOST, late, 257), (61, LEAST, there, 134)):
        value = mms.control(True, ident=b'\xFF' * ident)
        written = [mms.write_request(at, [f'BAY1/CSWI1$CO$Pos${item}'], [value])
                   for at, item in ((1, 'SBOw'), (2, 'Oper'))]
        printed, pdus = replay_requests(checks, bay(), written, size, more)
        kinds = [it.kind for it in pdus]
        checks.holds('a report is sent that is longer than a pdu, or another is not',
                     kinds == ['response'] * 2 + ['report'] * (wanted is not None), printed)
        checks.holds('a report has another length',
                     wanted is None or f'a381{wanted - 3:02x}a0' in printed, printed)


def report_of_check(checks, *words) -> str:
    """What a check prints."""
    done = subprocess.run([checks.bayctl, 'check', *words], capture_output=True, timeout=60)
    return done.stdout.decode()


def programs(checks) -> None:
    """Programs with many variables, on a line and on lines of their own, and none at all."""
    path, names_of = checks.file('bay.toml', bay()), [f'v{at}' for at in range(300)]
    long, many = (FRAME.format(f'VAR\n{lines} : BOOL;\nEND_VAR\n', '')
                  for lines in (', '.join(names_of), ' : BOOL;\n'.join(names_of)))
    told = report_of_check(checks, '--bay', path, '--logic', checks.file('logic.il', long))
    checks.holds('a line of 61 tokens wants memory', told.startswith('instructions='), told)
    out = checks.folder / 'out.image'
    told = report_of_compilation(checks, path, checks.file('logic.il', many), out)
    checks.holds('an image with many variables is not written',
                 out.is_file() and told.startswith('instructions='), told)
    told = report_of_check(checks, '--bay', path, '--logic', checks.file('empty.il', ''))
    checks.holds('an empty text is out of memory', told == 'load refused 61 line 1\n', told)


def report_of_compilation(checks, path, logic, out) -> str:
    """What a compilation prints."""
    out.unlink(missing_ok=True)
    words = [checks.bayctl, 'compile', '--bay', path, '--logic', logic, '--out', out]
    return subprocess.run(words, capture_output=True, timeout=60).stdout.decode()


# Shows P-003, P-016, P-017, P-040.
def images(checks) -> None:
    """An image of nearly 65,535 octets is written, checked and served; a longer one is refused."""
    path = checks.file('bay.toml', bay())
    calls = 'CAL t1(IN := QA1_OPEN, PT := T#1s)\n' * 3_800
    logic = checks.file('logic.il', FRAME.format('VAR\nt1 : TON;\nEND_VAR\n', calls))
    out = checks.folder / 'out.image'
    told = report_of_compilation(checks, path, logic, out)
    checks.holds('a long image is not written',
                 out.is_file() and 60_000 < out.stat().st_size < 65_536, told)
    again = report_of_check(checks, '--bay', path, '--image', out)
    checks.holds('an image over 32 kib is not loaded', again == told, again)
    calls = 'CAL t1(IN := QA1_OPEN, PT := T#1s)\n' * 3_990
    long = checks.file('long.il', FRAME.format('VAR\nt1 : TON;\nEND_VAR\n', calls))
    told_long = report_of_check(checks, '--bay', path, '--logic', long)
    checks.holds('a program with a longer image is loaded', told_long.startswith('load refused 85'),
                 told_long)
    words = ['--bay', path, '--image', out, '--turns', '1', '--port', str(free_port())]
    done = subprocess.run([checks.bayctl, 'serve', *words], capture_output=True, timeout=60)
    checks.holds('an image over 32 kib is not served',
                 done.stdout.decode() == told and done.returncode == 0, repr(done.stdout))


# Shows P-100, P-103, P-104.
def texts(checks) -> None:
    """The longest scenario, one that is longer, and a long line of a trace."""
    begin = f'{bay()}%%\n{LOGIC}%%\n'.encode()
    full = begin + b'\n' * (SCENARIO - len(begin) - 10) + b'1000 scan\n'
    told = replay(checks, full)
    checks.holds('a megabyte wants memory',
                 told.startswith('instructions=') and told.endswith('QA1=11\nstatus 0'), told)
    told = replay(checks, full + b'\n')
    checks.holds('the longest scenario has no end', told == 'fault 121\nstatus 3', told)
    told = replay(checks, begin + b'1 open 1\n1 recv 1 ' + b'00' * 65_535 + b'\n')
    checks.holds('a long line is want of memory', told.endswith('\n1 closed 1 10\nstatus 0'),
                 told)


# Shows P-002.
def other_octets(checks) -> None:
    """Each octet of a bay file, a program and a trace is replaced by others: each replay ends, with
    a report of its status."""
    def ends(at: int, other: bytes) -> str:
        changed = SHORT[:at] + other + SHORT[at + 1:]
        done = subprocess.run([checks.bayctl, 'replay'], input=changed, capture_output=True,
                              timeout=60)
        form = PRINTED.get(done.returncode)
        is_right = form and re.fullmatch(form, done.stdout.decode()) and not done.stderr
        return '' if is_right else f'{at} {other!r}: {done}'

    with concurrent.futures.ThreadPoolExecutor(os.cpu_count()) as pool:
        told = [pool.submit(ends, at, other) for at in range(len(SHORT)) for other in OTHERS]
        wrong = [it.result() for it in told if it.result()]
    checks.holds('a text or an event with another octet ends a replay otherwise', not wrong,
                 str(wrong[:3]))


PARTS = (names, inputs, messages, long_answers, long_types, controls, wrong_controls,
         long_reports, programs, images, texts, other_octets)
