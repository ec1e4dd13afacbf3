"""Several operates in one event: in one write, and in messages that come together; the results of
reads and writes of several variables; and which values an event changes. Each check has the name of
the wrong behaviour that it refuses."""
from baytools.wire import mms, stream

from .limits import bay, replay

# Two switches, both of which the program releases.
BAY = bay(2).replace('sbo-enhanced', 'direct').replace('sbo_timeout_ms = 5000\n', '')
LOGIC = ('PROGRAM P\nVAR_EXTERNAL\nQA1_ENA_OPN, QA1_ENA_CLS, QA2_ENA_OPN, QA2_ENA_CLS : BOOL;\n'
         'END_VAR\nLD TRUE\nST QA1_ENA_OPN\nST QA1_ENA_CLS\nST QA2_ENA_OPN\nST QA2_ENA_CLS\n'
         'END_PROGRAM\n')
# The same two, which are selected by a read.
SELECTED = BAY.replace('direct"\n', 'sbo"\nsbo_timeout_ms = 5000\n')
FIRST, SECOND = (f'BAY1/CSWI{at}$CO$Pos$Oper' for at in (1, 2))


def write_of(*names: str) -> bytes:
    """The octets of a write of an operate to on for each of these controls."""
    pdu = mms.write_request(1, list(names), [mms.control(True)] * len(names))
    return stream.tpkt_frames(stream.data_tsdu(pdu))


def replay_of(checks, of_bay: str, octets: bytes, more: str = '') -> str:
    """What a replay prints in which a client of a bay of two switches, each of which is open and
    released, sends these octets in one event, and once more after further lines, if there are
    any."""
    opening = stream.connection_request(), stream.tpkt_frames(
        stream.association_request(mms.initiate_request(65_000)))
    trace = '1000 contact QA1 1\n1000 contact QA2 1\n1000 scan\n1000 open 1\n' + ''.join(
        f'1000 recv 1 {it.hex()}\n' for it in (*opening, octets))
    trace += more and f'{more}2000 recv 1 {octets.hex()}\n'
    printed = replay(checks, f'{of_bay}%%\n{LOGIC}%%\n{trace}')
    checks.holds('what a client sends in one event is not read',
                 printed.endswith('status 0') and 'closed' not in printed, printed)
    return printed


def commands_for(checks, octets: bytes, of_bay: str = BAY) -> list[str]:
    """The commands that a replay prints for these octets."""
    return [line for line in replay_of(checks, of_bay, octets).splitlines() if ' command ' in line]


def results_for(checks, pdu: bytes) -> list:
    """The results of a read or a write that comes alone."""
    return results_of(replay_of(checks, SELECTED, stream.tpkt_frames(stream.data_tsdu(pdu))))


def results_of(printed: str) -> list:
    """The results in the last answer."""
    return all_results(printed)[-1]


def all_results(printed: str) -> list[list]:
    """The results in each answer: values, errors by their numbers, and None for a success."""
    answers, octets = stream.Stream(), b''.join(
        bytes.fromhex(line.split(' ')[3]) for line in printed.splitlines() if ' send 1 ' in line)
    pdus = [mms.read_pdu(got.octets) for got in answers.feed(octets) if got.kind == 'mms']
    return [[it.code if isinstance(it, mms.Failure) else it and it.value for it in pdu.data]
            for pdu in pdus]


# Shows P-008, P-011, P-026, P-028, P-135.
def several_operates(checks) -> None:
    """Of several operates in one event the first alone is a command, also if an operation lasts for
    1 ms, which is the least."""
    alone = {name: commands_for(checks, write_of(name)) for name in (FIRST, SECOND)}
    checks.holds('an operate of a switch that is released is no command',
                 list(alone.values()) == [['1000 command QA1 on'], ['1000 command QA2 on']],
                 str(alone))
    for what, octets in (('one write', write_of(FIRST, SECOND)),
                         ('messages that come together', write_of(FIRST) + write_of(SECOND)),
                         ('one write twice', write_of(FIRST, FIRST))):
        for of_bay in (BAY, BAY.replace('travel_ms = 500', 'travel_ms = 1')):
            found = commands_for(checks, octets, of_bay)
            checks.holds(f'an event with several operates, in {what}, has two commands',
                         found == ['1000 command QA1 on'], str(found))


# Shows P-026, P-094.
def several_results(checks) -> None:
    """The results of a read and of a write stand in the order of their variables: values, a text,
    an error and a success."""
    select, released = 'BAY1/CSWI2$CO$Pos$SBO', 'BAY1/CILO1$ST$EnaOpn$stVal'
    found = results_for(checks, mms.read_request(
        1, [released, 'BAY1/none', select, 'BAY1/XSWI1$ST$Pos$stVal', 'BAY1/CSWI1$CO$Pos$SBO']))
    checks.holds('results of a read stand in another order, or are others',
                 found == [True, 10, 'BAY1/CSWI2$CO$Pos$SBO', '01', ''], str(found))
    pdus = mms.read_request(1, [select]), mms.write_request(
        2, [released, SECOND, FIRST], [mms.Data(mms.BOOLEAN, True), *[mms.control(True)] * 2])
    found = results_for(checks, pdus[1])
    checks.holds('a write without a select has a success', None not in found, str(found))
    octets = b''.join(stream.tpkt_frames(stream.data_tsdu(it)) for it in pdus)
    found = results_of(replay_of(checks, SELECTED, octets))
    checks.holds('results of a write stand in another order, or are others',
                 found == [3, None, 3], str(found))


# Shows P-027.
def whole_control(checks) -> None:
    """A control that is read as a whole has the empty text as its SBO, as the tree has it, and
    nothing is selected; SBO by itself selects, and its result is its name."""
    select, state = 'BAY1/CSWI1$CO$Pos$SBO', 'BAY1/CSWI1$ST$Pos$stSeld'
    whole, *others = results_for(checks, mms.read_request(
        1, ['BAY1/CSWI1$CO$Pos', state, select, state]))
    texts = [it.value for it in whole if it.tag == mms.TEXT]
    checks.holds('a read of a whole control selects, or one of its SBO does not',
                 (texts, others) == ([''], [False, select, True]), f'{texts}, {others}')


# Shows P-022, P-029, P-076.
def one_contact(checks) -> None:
    """A contact changes the values of its switch, and no other; all are read by the names that they
    had."""
    names = [f'BAY1/{node}{at}$ST$Pos${part}' for node in ('XSWI', 'CSWI') for at in (1, 2)
             for part in ('stVal', 'q', 't')]
    names += [f'BAY1/CILO{at}$ST${way}$stVal' for at in (1, 2) for way in ('EnaOpn', 'EnaCls')]
    read = stream.tpkt_frames(stream.data_tsdu(mms.read_request(1, names)))
    before, after = all_results(replay_of(checks, BAY, read, '1500 contact QA1 2\n'))[-2:]
    changed = {name: value for name, value, old in zip(names, after, before) if value != old}
    checks.holds('a contact changes other values than those of its switch', changed == {
        f'BAY1/{node}1$ST$Pos${part}': value for node in ('XSWI', 'CSWI')
        for part, value in (('stVal', '10'), ('t', 1500))}, str(changed))
    checks.holds('a value changes its type',
                 [type(it) for it in before] == [type(it) for it in after], f'{before}, {after}')


# Shows P-022, P-026, P-028.
def other_events(checks) -> None:
    """A client that connects, selects, cancels, selects again, operates and leaves changes no value
    that is read: the positions, their moments and counts, and the releases."""
    names = [f'BAY1/{node}{at}$ST$Pos${part}' for node in ('XSWI', 'CSWI') for at in (1, 2)
             for part in ('stVal', 'q', 't')]
    names += [f'BAY1/CILO{at}$ST${way}$stVal' for at in (1, 2) for way in ('EnaOpn', 'EnaCls')]
    names += [f'BAY1/XSWI{at}$ST$OpCnt$stVal' for at in (1, 2)]
    select, cancel = 'BAY1/CSWI1$CO$Pos$SBO', 'BAY1/CSWI1$CO$Pos$Cancel'
    pdus = [mms.read_request(1, [select]),
            mms.write_request(2, [cancel], [mms.control(True, check=None)]),
            mms.read_request(3, [select]), mms.write_request(4, [FIRST], [mms.control(True)])]
    sent = [stream.connection_request(),
            stream.tpkt_frames(stream.association_request(mms.initiate_request(65_000))),
            *[stream.tpkt_frames(stream.data_tsdu(it)) for it in pdus]]
    more = ''.join(['1500 open 2\n', *[f'1500 recv 2 {it.hex()}\n' for it in sent],
                    '1600 close 2\n'])
    read = stream.tpkt_frames(stream.data_tsdu(mms.read_request(1, names)))
    printed = replay_of(checks, SELECTED, read, more)
    before, after = all_results(printed)[-2:]
    checks.holds('a client that selects may not operate', '1500 command QA1 on\n' in printed,
                 printed)
    known = dict(zip(names, before))
    told = [known[f'BAY1/{name}'] for name in (
        'XSWI1$ST$Pos$stVal', 'CSWI2$ST$Pos$stVal', 'XSWI1$ST$Pos$t', 'CILO1$ST$EnaCls$stVal',
        'XSWI1$ST$OpCnt$stVal')]
    checks.holds('a position, its moment, a release and a count are others',
                 told == ['01', '01', 1000, True, 1], str(told))
    checks.holds('what a client does changes a value', after == before, f'{before}, {after}')


PARTS = (several_operates, several_results, whole_control, one_contact, other_events)
