"""Keys and synchrochecks of a served bay, over sockets: which cause a client and a panel are told,
and what the log says. Each check of bayctl has the name of the wrong behaviour that it refuses."""
import contextlib
import re
import sys
from collections.abc import Iterator

from baytools.bay.names import Names
from baytools.common.paths import TOOLS
from baytools.wire.client import Client
from baytools.wire.control import NO_CHECK, SYNCHROCHECK, Control
from devtools.served import Running, Server, until, value

from .panels import Page, positions
from .processes import connect_process

BAY = '''[bay]
domain = "B"
vendor = "V"
model = "M"
revision = "1"
scan_max_age_ms = 60000
[[switch]]
id = "QA1"
kind = "breaker"
control = "sbo-enhanced"
sbo_timeout_ms = 60000
travel_ms = 60000
remote = "Key"
synchrocheck = "refuse"
[[switch]]
id = "QB1"
kind = "disconnector"
control = "direct"
travel_ms = 60000
remote = "KEY"
[[switch]]
id = "QB2"
kind = "disconnector"
control = "sbo-enhanced"
sbo_timeout_ms = 60000
travel_ms = 60000
[[input]]
name = "FREE"
[[input]]
name = "KEY"
'''
LOGIC = '''PROGRAM P
VAR_EXTERNAL
FREE : BOOL;
QA1_ENA_OPN, QA1_ENA_CLS, QB1_ENA_OPN, QB1_ENA_CLS, QB2_ENA_OPN, QB2_ENA_CLS : BOOL;
END_VAR
LD FREE
ST QA1_ENA_OPN
ST QA1_ENA_CLS
ST QB1_ENA_OPN
ST QB1_ENA_CLS
ST QB2_ENA_OPN
ST QB2_ENA_CLS
END_PROGRAM
'''
KEY, PROCESS, INTERLOCKING, SYNCHRO = 2, 9, 10, 11  # causes
SWITCHES = {'QA1': 'CSWI1', 'QB1': 'CSWI2', 'QB2': 'CSWI3'}
ALL_OPEN = ('contact QA1 1', 'contact QB1 1', 'contact QB2 1', 'input FREE 1')


class Keyed:
    """A served bay, its process, and a client of it."""

    def __init__(self, server: Server, client: Client) -> None:
        self.server, self.client, self.process = server, client, None
        self.count = 0

    def send_lines(self, *lines: str) -> None:
        """The process tells lines, and the server has taken them: the last one is a measure that a
        client sees, of a switch that nobody operates here."""
        self.process.sendall(''.join(f'0 {line}\n' for line in lines).encode())
        for position, bits in (('0', '00'), ('1', '01')):
            self.process.sendall(f'0 contact QB2 {position}\n'.encode())
            until(lambda: value(self.client, 'CSWI3$ST$Pos$stVal') == bits, 'the lines are taken')

    def cause(self, switch: str, check: str = NO_CHECK, between: tuple[str, ...] = ()) -> object:
        """The cause with which a close is refused, `refused` where none is told, or None where it
        is accepted; then the switch comes to be closed and open again."""
        control = Control(self.client, switch, check=check)
        if control.is_selected_first() and not control.select(True).is_good:
            return f'select {self.client.cause}'
        if between:
            self.send_lines(*between)
        if not control.operate(True).is_good:
            return self.client.cause or 'refused'
        self.send_lines(f'contact {switch} 2', f'contact {switch} 1')
        return None

    @contextlib.contextmanager
    def connects(self) -> Iterator[None]:
        """A process is connected."""
        with connect_process(self.server) as self.process:
            yield


@contextlib.contextmanager
def keyed_bay(checks, *more: str) -> Iterator[Keyed]:
    bay, logic = checks.file('bay.toml', BAY), checks.file('logic.il', LOGIC)
    with Server(checks.bayctl, bay, logic, *more, with_process=True) as server, \
            contextlib.closing(server.client()) as client:
        client.bay = Names(BAY)
        yield Keyed(server, client)


# Shows P-132, P-149.
def keys(checks) -> None:
    """A key at local and at remote, shared, turned between select and operate, and lost."""
    with keyed_bay(checks, '--log') as it:
        with it.connects():
            it.send_lines(*ALL_OPEN)
            found = it.cause('QA1'), it.cause('QB1')
            checks.holds('a key that was never reported lets an operate pass',
                         found == (KEY, 'refused'), str(found))
            checks.holds('a key holds for a switch that does not name it',
                         it.cause('QB2') is None, it.client.cause)
            it.send_lines('input KEY 1')
            found = it.cause('QA1'), it.cause('QB1')
            checks.holds('a key at remote refuses an operate', found == (None, None), str(found))
            checks.holds('the key of the select counts',
                         it.cause('QA1', between=('input KEY 0',)) == KEY, it.client.cause)
            checks.holds('the interlocking comes before the key', it.cause(
                'QA1', between=('input FREE 0',)) == KEY, it.client.cause)
            checks.holds('a key at remote passes the interlocking', it.cause(
                'QA1', between=('input KEY 1',)) == INTERLOCKING, it.client.cause)
            it.send_lines('input FREE 1')
        until(lambda: value(it.client, 'CSWI1$ST$Pos$stVal') == '11', 'the process is lost')
        checks.holds('the key comes before the process', it.cause('QA1') == PROCESS,
                     it.client.cause)
        with it.connects():
            it.send_lines(*ALL_OPEN)
            found = it.cause('QA1'), it.cause('QB1')
            checks.holds('a loss leaves the key at remote', found == (KEY, 'refused'), str(found))
            it.send_lines('input KEY 1')
            checks.holds('a key that is reported again is not taken', it.cause('QA1') is None,
                         it.client.cause)
        logged = [line for line in it.server.printed().splitlines() if ' refused 2: ' in line]
        checks.holds('the log does not say that a key refused', len(logged) == 6
                     and all(' operate Q' in line for line in logged), it.server.printed())
        commands = re.findall(r'(?m)^\d+ command (.*)$', it.server.printed())
        checks.holds('a refused operate is a command', commands == [
            f'{switch} on' for switch in ('QB2', 'QA1', 'QB1', 'QA1')], it.server.printed())


def synchrochecks(checks) -> None:
    """A close with the bit of Check."""
    with keyed_bay(checks) as it, it.connects():
        it.send_lines(*ALL_OPEN, 'input KEY 1')
        found = [it.cause(switch, SYNCHROCHECK) for switch in SWITCHES]
        checks.holds('a synchrocheck is taken, or refused of a switch that names none',
                     found == [SYNCHRO, None, None], str(found))
        found = it.cause('QA1', '01'), it.cause('QA1', '11', ('input FREE 0',))
        checks.holds('a synchrocheck comes before the interlocking, or has its bit',
                     found == (None, INTERLOCKING), str(found))
        it.send_lines('input FREE 1', 'contact QA1 2')
        control = Control(it.client, 'QA1', check=SYNCHROCHECK)
        is_good = control.select(False).is_good and control.operate(False).is_good
        checks.holds('an open is refused for its synchrocheck', is_good, str(it.client.cause))


def at_a_panel(checks) -> None:
    """What a panel says of a switch with a key, and of one that is told no cause."""
    with keyed_bay(checks) as it, it.connects():
        it.send_lines(*ALL_OPEN)
        words = [sys.executable, '-B', TOOLS / 'panel', '--bay', checks.folder / 'bay.toml',
                 it.server.port, '--http', '0', '--operate']
        with Running(*words) as running:
            found = re.search(r'http://127\.0\.0\.1:(\d+)/', running.waits_for('/\n'))
            with Page(int(found[1])) as page:
                state = page.known(lambda it: positions(it).get('QA1') == 'open')
                checks.wants('the keys of a panel', str([one['key'] for one in state['switches']]),
                             0, ["['Key', 'KEY', '']"], 0)
                said = [page.send_control(verb, name, 'close') for name in ('QA1', 'QB1')
                        for verb in ('select', 'operate')]
                checks.wants('a panel at local', '\n'.join(said), 0, [
                    'good: select QA1: done refused: operate QA1 is refused: blocked by switching '
                    'hierarchy (2): its key is not at remote. QA1 is open, may be opened and may '
                    'be closed',
                    'refused: operate QB1: object access denied (3). QB1 is open, may be opened '
                    'and may be closed; its key KEY must be at remote, which is not seen here'], 0)


PARTS = (keys, synchrochecks, at_a_panel)
