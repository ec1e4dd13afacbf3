"""What a device is at its start, what ends and changes its state, and which of several requests is
a command: replays of sessions whose answers follow from docs/PROTOCOL.md. Each check has the name
of the wrong behaviour that it refuses."""
import itertools

from baytools.wire import mms, stream

from .limits import FRAME, bay, replay, report_of_check
from .singles import BAY as DIRECT, FIRST, LOGIC, SECOND, SELECTED

ENHANCED = bay(2, 2, 1)
# QA1 may always be closed, and opened while IN0 is FALSE; QA2 may be opened while a variable has
# its first value, which the scan replaces; no line is about the closing of QA2.
FIRST_LOGIC = '''PROGRAM P
VAR_EXTERNAL
IN0, QA1_ENA_OPN, QA1_ENA_CLS, QA2_ENA_OPN : BOOL;
END_VAR
VAR
level : INT := 7;
END_VAR
LD TRUE
ST QA1_ENA_CLS
LDN IN0
ST QA1_ENA_OPN
LD level
EQ 7
ST QA2_ENA_OPN
LD 8
ST level
END_PROGRAM
'''
# What a lost process leaves: bad positions, and inputs that are FALSE.
LOST_LOGIC = '''PROGRAM P
VAR_EXTERNAL
QA1_POS, QA2_POS : INT;
IN0, IN1, QA1_ENA_OPN, QA1_ENA_CLS, QA2_ENA_OPN, QA2_ENA_CLS : BOOL;
END_VAR
LD QA1_POS
EQ 3
ST QA1_ENA_OPN
LD QA2_POS
EQ 3
ST QA1_ENA_CLS
LDN IN0
ST QA2_ENA_OPN
LDN IN1
ST QA2_ENA_CLS
END_PROGRAM
'''
OPER, SBOW, SBO = (f'BAY1/CSWI1$CO$Pos${it}' for it in ('Oper', 'SBOw', 'SBO'))
GOOD, INVALID = '0' * 13, '01' + '0' * 11
ABORT = b'\x19\x00'  # the TSDU of an abort (X.225)
IDENTIFY = mms.request_octets(9, 0x82)


def frames(*pdus: bytes) -> bytes:
    """The octets of these PDUs of a client."""
    return b''.join(stream.tpkt_frames(stream.data_tsdu(it)) for it in pdus)


def recv(now: int, association: int, octets: bytes) -> str:
    return f'{now} recv {association} {octets.hex()}\n'


def asks(now: int, association: int, *pdus: bytes) -> str:
    """The line in which a client sends these PDUs in one event."""
    return recv(now, association, frames(*pdus))


def opens(now: int, association: int) -> str:
    """The lines in which a client connects and associates."""
    initiate = stream.tpkt_frames(stream.association_request(mms.initiate_request()))
    return f'{now} open {association}\n' + ''.join(
        recv(now, association, it) for it in (stream.connection_request(), initiate))


def reads(*names: str) -> bytes:
    return mms.read_request(1, [f'BAY1/{it}' for it in names])


def writes(name: str, is_on: bool = True) -> bytes:
    """A write of a whole control, to on or to off."""
    return mms.write_request(1, [name], [mms.control(is_on)])


def word_of(pdu: mms.Pdu) -> list | str:
    """What a PDU is in short: the results of an answer, the cause of a refusal, `ended` for the end
    of an operation in its position, `late` for one that is not, or what names it has."""
    if pdu.kind == 'report':
        if 'LastApplError' not in pdu.names:
            return 'ended'
        return 'late' if len(pdu.names) > 1 else f'cause {pdu.data[0].value[-1].value}'
    if pdu.kind == 'response' and pdu.service in ('read', 'write'):
        return [it.code if isinstance(it, mms.Failure) else it and it.value for it in pdu.data]
    return pdu.names or pdu.kind


def answers_of(printed: str) -> list:
    """The lines of a replay after its first, in their order: of each PDU of MMS that is sent the
    association and what it is in short, and the other lines as they are."""
    found, streams = [], {}
    for line in printed.splitlines()[1:-1]:
        words = line.split(' ')
        if words[1] != 'send':
            found.append(line)
            continue
        octets = bytes.fromhex(words[3])
        if octets[5] == stream.CC:
            streams[words[2]] = stream.Stream()
        found += [(int(words[2]), word_of(mms.read_pdu(it.octets)))
                  for it in streams[words[2]].feed(octets) if it.kind == 'mms']
    return found


def device(checks, of_bay: str, logic: str, trace: str) -> list:
    """What a replay prints of a device."""
    printed = replay(checks, f'{of_bay}%%\n{logic}%%\n{trace}')
    checks.holds('a session of a device is not replayed', printed.endswith('status 0'), printed)
    return answers_of(printed)


# Shows P-001, P-006, P-019, P-023.
def first_state(checks) -> None:
    """A device that was just loaded has eight closed associations, no selection (18 without a
    select), no execution (else 12 or 14), no scan (10), and a process that is not lost (else 9). It
    has the values of a start. A first scan reads an input as FALSE, and a variable as it is
    declared, and writes each interlocking value, FALSE if no line is about it."""
    released = [f'CILO{at}$ST$Ena{way}${part}' for at in (1, 2) for way in ('Opn', 'Cls')
                for part in ('stVal', 'q')]
    rows = [*[f'XSWI{at}$ST$Pos${part}' for at in (1, 2) for part in ('stVal', 'q')],
            *[f'CSWI{at}$ST$Pos$stSeld' for at in (1, 2)], 'MMXU1$MX$TotW$mag$i', 'MMXU1$MX$TotW$q']
    closed = ''.join(f'0 recv {at} 00\n0 close {at}\n' for at in range(1, 9))
    found = device(checks, ENHANCED, FIRST_LOGIC, closed + opens(0, 1) + ''.join(
        f'0 open {at}\n' for at in range(2, 10)) + asks(
            0, 1, IDENTIFY, mms.names_request(1), reads(*rows), reads(*released), writes(OPER),
            writes(SBOW), writes(OPER)) + '0 scan\n' + asks(
                0, 1, reads(*released), writes(SBOW), writes(OPER)) + '1 scan\n')
    wanted = ['0 refused 111'] * 17 + [
        (1, ['Demo'] * 3), (1, ['BAY1']),
        (1, ['00', INVALID] * 2 + [False] * 2 + [0, INVALID]), (1, [False, INVALID] * 4),
        (1, 'cause 18'), (1, [3]), (1, [None]), (1, 'cause 10'), (1, [3]), 'scan QA1=11 QA2=10',
        (1, [True, GOOD] * 3 + [False, GOOD]), (1, [None]), (1, [None]), '0 command QA1 on',
        'scan QA1=11 QA2=00']
    told = [f'scan {it.split(" ", 3)[3]}' if ' scan ' in it else it for it in found]
    checks.holds('a device that was just loaded is another, or its first scan', told == wanted,
                 str(found))


# Shows P-010.
def lost_values(checks) -> None:
    """From a loss on each position is bad and invalid, and each input FALSE, and a scan reads them
    so; a report changes what it is about, and nothing else."""
    rows = [f'{node}{at}$ST$Pos${part}' for at in (1, 2) for node in ('XSWI', 'CSWI')
            for part in ('stVal', 'q')]
    begun = '1000 contact QA1 1\n1000 contact QA2 2\n1000 input IN0 1\n1000 input IN1 1\n'
    found = device(checks, ENHANCED, LOST_LOGIC, begun + '1000 scan\n' + opens(1000, 1) + ''.join(
        f'{now} {event}\n' + asks(now, 1, reads(*rows)) + f'{now} scan\n' for now, event in (
            (1100, 'lost'), (1200, 'lost'), (1300, 'measure M0 HZ 5'), (1400, 'contact QA2 1'),
            (1500, 'input IN0 1'))))
    bad = ['11', INVALID] * 2
    wanted = ['QA1=00 QA2=00', bad * 2, 'QA1=11 QA2=11', bad * 2, 'QA1=11 QA2=11', bad * 2,
              'QA1=11 QA2=11', bad + ['01', GOOD] * 2, 'QA1=10 QA2=11', bad + ['01', GOOD] * 2,
              'QA1=10 QA2=01']
    told = [it[1] if isinstance(it, tuple) else it.split(' ', 3)[3] for it in found]
    checks.holds('a lost process leaves a value, or a report changes another', told == wanted,
                 str(found))


# Shows P-007, P-009, P-020.
def heard_again(checks) -> None:
    """After a loss an operate is refused with 9 until the process reports a position, an input, a
    measured value or that one is invalid; a scan, a client, and a report of what is not there,
    which is refused (113), do not end the loss."""
    for report, is_heard in (('contact QA1 0', True), ('contact QA2 3', True),
                             ('input IN1 0', True), ('input IN1 1', True),
                             ('measure M0 TOTW 5', True),
                             ('measure M0 HZ bad', True), ('contact NONE 1', False),
                             ('input NONE 1', False), ('measure NONE HZ bad', False),
                             ('lost', False), ('scan', False)):
        found = device(checks, ENHANCED, LOGIC, '1000 contact QA1 1\n1000 scan\n' + opens(1000, 1)
                       + f'1100 lost\n1100 {report}\n1200 scan\n'
                       + asks(1200, 1, writes(SBOW), writes(OPER)))
        wanted = [(1, [None]), (1, [None]), '1200 command QA1 on'] if is_heard else [
            (1, [None]), (1, 'cause 9'), (1, [3])]
        is_there = ('1100 refused 113' in found) == ('NONE' in report)
        checks.holds('a loss ends by another event, or not by a report',
                     found[-3:] == wanted and is_there, f'{report}: {found}')


# Shows P-009, P-022.
def qualities(checks) -> None:
    """Another quality with the value of before makes the last scan stale: a first report of the
    value that a position or a measured value has from the start on, when it is invalid. A report
    after which value and quality are as before, and the same report again, leave the scan fresh."""
    begun = '1000 contact QA1 1\n1000 scan\n' + opens(1000, 1)
    for report, is_stale in (('contact QA2 0', True), ('measure M0 TOTW 0', True),
                             ('measure M0 TOTW bad', False), ('input IN0 0', False)):
        for before in ('', f'1050 {report}\n1060 scan\n'):
            found = device(checks, ENHANCED, LOGIC, f'{begun}{before}1100 {report}\n'
                           + asks(1100, 1, writes(SBOW), writes(OPER)))
            wanted = [(1, 'cause 10'), (1, [3])] if is_stale and not before else [
                (1, [None]), '1100 command QA1 on']
            checks.holds('a quality that changed leaves a scan fresh, or one that did not',
                         found[-3:] == [(1, [None]), *wanted], f'{before}{report}: {found}')


# Shows P-020, P-149.
def key_reports(checks) -> None:
    """A report about a key counts only if it is accepted: one with a moment before the last one is
    refused (110), and leaves the key where it was."""
    of_bay = ENHANCED.replace('travel_ms = 500\n', 'travel_ms = 500\nremote = "IN0"\n', 1)
    for before, refused, is_remote in (('1000 input IN0 1\n', '999 input IN0 0\n', True),
                                       ('', '999 input IN0 1\n', False),
                                       ('1000 input IN0 0\n', '999 input IN0 1\n', False)):
        found = device(checks, of_bay, LOGIC, f'1000 contact QA1 1\n{before}1000 scan\n'
                       + opens(1000, 1) + refused + asks(1000, 1, writes(SBOW), writes(OPER)))
        wanted = [(1, [None]), '1000 command QA1 on'] if is_remote else [(1, 'cause 2'), (1, [3])]
        checks.holds('a report that is refused turns a key',
                     found[1:] == ['999 refused 110', (1, [None]), *wanted], str(found))


# Shows P-007, P-028.
def others_wait(checks) -> None:
    """While a switch is operating, no other is operated: up to the millisecond before its travel
    time is over, and not until then if its position is reported."""
    for more, now, is_commanded in (('', 1499, False), ('', 1500, True),
                                    ('1200 contact QA1 2\n', 1200, False),
                                    ('1200 contact QA1 2\n1200 scan\n', 1200, True),
                                    ('1200 contact QA1 0\n1200 scan\n', 1200, False)):
        found = device(checks, DIRECT, LOGIC, '1000 contact QA1 1\n1000 contact QA2 1\n1000 scan\n'
                       + opens(1000, 1) + asks(1000, 1, writes(FIRST)) + more
                       + asks(now, 1, writes(SECOND)))
        wanted = [(1, [None]), f'{now} command QA2 on'] if is_commanded else [(1, [3])]
        checks.holds('two switches operate at once, or one waits for too long',
                     found[-len(wanted):] == wanted, f'{more!r} {now}: {found}')


# Shows P-007.
def own_releases(checks) -> None:
    """EnaOpn of a switch lets it be opened, and EnaCls closed; neither does the other, nor do those
    of another switch."""
    for at, way in itertools.product((1, 2), ('OPN', 'CLS')):
        line = f'ST QA{at}_ENA_{way}\n'
        logic = LOGIC.split('LD TRUE\n')[0] + f'LD TRUE\n{line}END_PROGRAM\n'
        for of, is_on in itertools.product((1, 2), (False, True)):
            found = device(checks, DIRECT, logic, ''.join(
                f'1000 contact QA{it} {1 if is_on else 2}\n' for it in (1, 2)) + '1000 scan\n'
                + opens(1000, 1) + asks(1000, 1, writes((FIRST, SECOND)[of - 1], is_on)))
            is_released = (of, is_on) == (at, way == 'CLS')
            word = f'1000 command QA{of} {"on" if is_on else "off"}'
            wanted = [(1, [None]), word] if is_released else [(1, [3])]
            checks.holds('a switch is operated by the release of another, or not by its own',
                         found[1:] == wanted, f'{line} {of} {is_on}: {found}')


# Shows P-008.
def paired_answers(checks) -> None:
    """Of two requests with one invoke id the accepted one is the command, whichever comes first;
    also of two variables of one write. QA1 is open, so that it is not opened. Octets of an
    association that is not open, or no longer, are no command."""
    begun = '1000 contact QA1 1\n1000 contact QA2 1\n1000 scan\n' + opens(1000, 1)
    to_open, to_close = (FIRST, False), (SECOND, True)
    for pair in (to_open, to_close), (to_close, to_open):
        results = [[3] if it == to_open else [None] for it in pair]
        alone = [writes(*it) for it in pair]
        both = mms.write_request(1, [name for name, _ in pair],
                                 [mms.control(is_on) for _, is_on in pair])
        found = device(checks, DIRECT, LOGIC, begun + asks(1000, 1, *alone))
        checks.holds('an answer belongs to another request of its number', found[1:] == [
            *[(1, it) for it in results], '1000 command QA2 on'], str(found))
        found = device(checks, DIRECT, LOGIC, begun + asks(1000, 1, both))
        checks.holds('a result belongs to another variable of its request', found[1:] == [
            (1, sum(results, [])), '1000 command QA2 on'], str(found))
    found = device(checks, DIRECT, LOGIC, begun + asks(1000, 2, writes(SECOND)) + '1000 close 1\n'
                   + asks(1000, 1, writes(SECOND)))
    checks.holds('an association that is not open operates a switch',
                 found[1:] == ['1000 refused 111'] * 2, str(found))


# Shows P-012, P-013, P-014, P-022.
def attempts(checks) -> None:
    """An operate with a value of another type (7) or out of range (11) is no attempt: the selection
    is still valid. One that is refused for a test, and a cancel, end it; a cancel by another
    association, which is refused, does not. An association that was closed and opened again has no
    selection. Whatever clients do, the scan stays fresh."""
    select, short = reads(SBO.partition('/')[2]), mms.Data(mms.BOOLEAN, True)
    test = mms.write_request(1, [OPER], [mms.control(True, test=True)])
    cancel = mms.write_request(1, [OPER.replace('Oper', 'Cancel')], [mms.control(True, check=None)])
    granted, accepted = ['BAY1/CSWI1$CO$Pos$SBO'], [(1, [None]), '1100 command QA1 on']
    for between, told, is_valid in (
            (asks(1000, 1, mms.write_request(1, [OPER], [short])), [(1, [7])], True),
            (asks(1000, 1, mms.write_request(1, [OPER], [mms.control(True, count=256)])),
             [(1, [11])], True),
            (asks(1000, 1, test), [(1, [3])], False), (asks(1000, 1, cancel), [(1, [None])], False),
            (asks(1000, 2, cancel), [(2, [3])], True),
            (asks(1000, 2, select, writes(OPER)), [(2, ['']), (2, [3])], True),
            ('1000 close 1\n' + opens(1000, 1), [], False),
            (asks(1000, 1, select), [(1, granted)], True)):
        found = device(checks, SELECTED, LOGIC, '1000 contact QA1 1\n1000 scan\n' + opens(1000, 1)
                       + opens(1000, 2) + asks(1000, 1, select) + between
                       + asks(1100, 1, writes(OPER)))
        checks.holds('another request ends a selection, or one that ends it does not',
                     found[1:] == [(1, granted), *told, *(accepted if is_valid else [(1, [3])])],
                     str(found))


# Shows P-020.
def ends_of_operations(checks) -> None:
    """The end of an operation is reported to the association that requested it, and to no other,
    not even to a new one of its number; and only of a switch with enhanced security."""
    begun = '1000 contact QA1 1\n1000 scan\n' + opens(1000, 1) + opens(1000, 2)
    reached, late = '1300 contact QA1 2\n', '1499 input IN0 0\n1500 input IN0 0\n'
    for of_bay, more, ended, wanted in (
            (ENHANCED, '', reached, [(1, 'ended')]), (ENHANCED, '', late, [(1, 'late')]),
            (ENHANCED, '1100 close 2\n' + opens(1200, 2), reached, [(1, 'ended')]),
            (ENHANCED, '1100 close 1\n', reached, []), (ENHANCED, '1100 close 1\n', late, []),
            (ENHANCED, '1100 close 1\n' + opens(1200, 1), reached, []),
            (ENHANCED, '1100 close 1\n' + opens(1200, 1), late, []),
            (ENHANCED.replace('sbo-enhanced', 'sbo'), '', reached, []),
            (ENHANCED.replace('sbo-enhanced', 'sbo'), '', late, [])):
        select = writes(SBOW) if 'enhanced' in of_bay else reads(SBO.partition('/')[2])
        found = device(checks, of_bay, LOGIC, begun + asks(1000, 1, select, writes(OPER)) + more
                       + ended)
        checks.holds('the end of an operation is reported to others, or not as it was',
                     found[3:] == ['1000 command QA1 on', *wanted], f'{more} {ended}: {found}')


# Shows P-021.
def endings(checks) -> None:
    """An abort, a release and a fault close the association, end its selection, and drop the octets
    after them; what came before them is answered."""
    select, name = reads(SBO.partition('/')[2]), 'BAY1/CSWI1$CO$Pos$SBO'
    for octets, code in ((stream.tpkt_frames(ABORT), 0), (b'\x03\x00\x00\x06', 10),
                         (stream.tpkt_frames(stream.release_request()), 0)):
        found = device(checks, SELECTED, LOGIC, opens(1000, 1) + opens(1000, 2)
                       + asks(1000, 1, select) + asks(1000, 2, select)
                       + recv(1100, 1, frames(IDENTIFY) + octets + frames(IDENTIFY))
                       + asks(1100, 1, IDENTIFY) + asks(1100, 2, select))
        wanted = [(1, [name]), (2, ['']), (1, ['Demo'] * 3), f'1100 closed 1 {code}',
                  '1100 refused 111', (2, [name])]
        checks.holds('an association that has ended is answered, or leaves its selection',
                     found == wanted, str(found))


# Shows P-016, P-017.
def first_faults(checks) -> None:
    """A fault of the bay file comes before one of the text; this before one of the checks, though
    that is on an earlier line; and that before the refusal of an image that would be too long."""
    files = {name: checks.file(f'{name}.toml', text) for name, text in (
        ('right', bay()), ('wrong', bay() + 'x'))}
    calls = 'CAL t1(IN := QA1_OPEN, PT := T#1s)\n' * 3_990
    timer = 'VAR\nt1 : TON;\nEND_VAR\n'
    for name, logic, wanted in (
            ('wrong', FRAME.format('LD none\nLD $\n', ''), '50'),
            ('right', FRAME.format('LD none\nLD $\n', ''), '60 line 6'),
            ('right', FRAME.format('LD none\n', ''), '70 line 5'),
            ('wrong', FRAME.format(timer, f'{calls}LD none\n'), '50'),
            ('right', FRAME.format(timer, f'{calls}LD none\nLD $\n'), '60 line 4002'),
            ('right', FRAME.format(timer, f'{calls}LD none\n'), '70 line 4001'),
            ('right', FRAME.format(timer, calls), '85')):
        told = report_of_check(checks, '--bay', files[name], '--logic',
                               checks.file('logic.il', logic))
        checks.holds('another fault than the first is answered',
                     told == f'load refused {wanted}\n', f'{name}, {wanted}: {told}')


PARTS = (first_state, lost_values, heard_again, qualities, key_reports, others_wait, own_releases,
         paired_answers, attempts, ends_of_operations, endings, first_faults)
