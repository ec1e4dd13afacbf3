"""What only a served bay can show of `serve --diagram`: a server of whose releases none is a hazard
serves, its log has the sum of the diagram, and no client moves a switch while that is a hazard; of
a diagram or a program that was edited no port is opened. Each check has the name of the wrong
behaviour that it refuses."""
import contextlib
import re
import socket
import subprocess

from baytools.bay.names import Names
from baytools.common.paths import TOP
from baytools.wire.client import Client
from baytools.wire.control import Control
from devtools.served import Server, free_port, until, value

from .by_rules import FormServer, is_port_reached, line_of_file, lines_for

FOLDER = TOP / 'examples' / '07_diagrams' / 'single'
BAY, LOGIC, DIAGRAM = FOLDER / 'bay.toml', FOLDER / 'logic.il', FOLDER / 'diagram.toml'
RULES = FOLDER / 'rules_of_diagram'
LOAD, COUNT = 'instructions=67 depth=3 budget=67\n', 10
HELD, KEPT = f'diagram {COUNT}\n', 'rules 17\n'
HAZARD = r'diagram QC9 close broken .*: earths CABLE, which is not isolated: .*\n'
# What is edited after the audit, its text and what takes its place; the status, and a pattern of
# what is printed.
EDITS = (
    ('a key of the diagram', DIAGRAM, 'dead = "VT_DEAD"\n', '', 4, LOAD + HAZARD),
    ('the program', LOGIC, '    AND VT_DEAD\n', '', 4, LOAD.replace('67', '65') + HAZARD),
    ('a word of the diagram', DIAGRAM, 'kind = "cable"', 'kind = "cabel"', 1,
     LOAD + 'diagram refused 149 node 2\n'),
    ('the end of the diagram', DIAGRAM, '[[between]]', '[[between]', 1,
     LOAD + 'diagram refused 146\n'),
    ('a switch of the diagram', DIAGRAM, '[[between]]\nswitch = "QC1"\nnodes = ["N1", "E"]\n', '',
     1, LOAD + 'diagram refused 155 switch 4\n'),
    ('the bay file', BAY, 'name = "VT_DEAD"', 'name = "VT_DED"', 1, r'load refused 70 line \d+\n'))
# A busbar with a disconnector, and an earthing switch behind it.
EARTHED_BAY = '''[bay]
domain = "B"
vendor = "V"
model = "M"
revision = "1"
scan_max_age_ms = 60000
[[switch]]
id = "QB1"
kind = "disconnector"
control = "direct"
travel_ms = 60000
[[switch]]
id = "QC1"
kind = "earthing"
control = "direct"
travel_ms = 60000
'''
EARTHED_LOGIC = '''PROGRAM P
VAR_EXTERNAL
QB1_OPEN, QC1_OPEN : BOOL;
QB1_ENA_OPN, QB1_ENA_CLS, QC1_ENA_OPN, QC1_ENA_CLS : BOOL;
END_VAR
LD QC1_OPEN
ST QB1_ENA_OPN
ST QB1_ENA_CLS
LD QB1_OPEN
ST QC1_ENA_CLS
LD TRUE
ST QC1_ENA_OPN
END_PROGRAM
'''
EARTHED_DIAGRAM = '''[[node]]
name = "BB"
kind = "busbar"
source = true
[[node]]
name = "N1"
kind = "junction"
[[node]]
name = "E"
kind = "earth"
[[between]]
switch = "QC1"
nodes = ["N1", "E"]
[[between]]
switch = "QB1"
nodes = ["BB", "N1"]
'''
RELEASES = ['QB1 open', 'QB1 close', 'QC1 open', 'QC1 close']
BITS = ('00', '01', '10', '11')
# The positions of QB1 and QC1, the switch that a client closes then, and whether that is a hazard:
# it earths the busbar, or joins it to an earth that may be closed.
CLOSES = ((2, 1, 'QC1', True), (1, 1, 'QC1', False), (1, 2, 'QB1', True), (1, 3, 'QB1', True),
          (1, 1, 'QB1', False))


# Shows P-146, P-148, P-154, P-157.
def holding(checks) -> None:
    """A server of whose releases none is a hazard prints their number and serves; its log has the
    sum of the diagram after those of the other files."""
    bay, program = line_of_file(BAY, 'bay'), line_of_file(LOGIC, 'program')
    rules = line_of_file(RULES, 'rules', ', 17 hold')
    diagram = line_of_file(DIAGRAM, 'diagram', f', {COUNT} hold')
    for name, words, printed, sums in (
            ('a diagram', ['--diagram', DIAGRAM], LOAD + HELD, [bay, program, diagram]),
            ('rules and a diagram', ['--diagram', DIAGRAM, '--rules', RULES], LOAD + KEPT + HELD,
             [bay, program, rules, diagram])):
        done = subprocess.run([checks.bayctl, 'serve', '--log', '--bay', BAY, '--logic', LOGIC,
                               *words, '--port', str(free_port()), '--turns', '1'],
                              capture_output=True, text=True, timeout=60)
        found = [line[24:] for line in done.stderr.splitlines(True) if ' SHA-256 ' in line]
        checks.holds(f'a server with {name} prints otherwise',
                     (done.returncode, done.stdout) == (0, printed), str(done))
        checks.holds(f'the log of a server with {name} has other sums', found == sums, done.stderr)
    with Server(checks.bayctl, BAY, LOGIC, '--diagram', DIAGRAM) as server:
        client = server.client()
        checks.holds('a server without a hazard does not serve', client.domain() == 'E11',
                     server.printed())
        client.close()


def start_server(checks, files: dict, port: int, *more: object) -> subprocess.Popen:
    """A server of these files."""
    return subprocess.Popen([checks.bayctl, 'serve', '--bay', files[BAY], '--logic', files[LOGIC],
                             '--diagram', files[DIAGRAM], '--port', str(port), '--turns', '1000000',
                             *map(str, more)], stdout=subprocess.PIPE, stderr=subprocess.PIPE,
                            text=True)


# Shows P-146, P-154, P-157.
def check_edited_files(checks) -> None:
    """A file that was edited after the audit is not served: nobody reaches the port, and a port
    that another program has is not even tried."""
    for name, path, old, new, status, wanted in EDITS:
        text = path.read_text(encoding='utf-8')
        assert old in text, old
        files = {it: it for it in (BAY, LOGIC, DIAGRAM)}
        files[path] = checks.file(f'edited_{path.name}', text.replace(old, new, 1))
        port = free_port()
        run = start_server(checks, files, port, '--process', free_port())
        checks.holds(f'a port is opened though {name} was edited',
                     not is_port_reached(port, run), name)
        told, error = run.communicate(timeout=60)
        checks.holds(f'{name} was edited, and the server tells otherwise',
                     (run.returncode, error) == (status, '') and re.fullmatch(wanted, told),
                     f'{run.returncode} {told!r} {error!r}')
        with socket.create_server(('127.0.0.1', 0)) as taken:
            run = start_server(checks, files, taken.getsockname()[1])
            told = run.communicate(timeout=60)[0]
            checks.holds(f'{name} was edited, and a port is tried first',
                         run.returncode == status and re.fullmatch(wanted, told),
                         f'{run.returncode} {told!r}')


def closes_accepted(server) -> tuple[list[bool], str]:
    """Whether each close of a client is accepted, once it reads the positions; and what the process
    has received."""
    server.client().close()
    client, found = Client('127.0.0.1', server.port, Names(EARTHED_BAY),
                           on_report=lambda told: None), []
    with contextlib.closing(client), \
            socket.create_connection(('127.0.0.1', server.process)) as process:
        for disconnector, earth, switch, _ in (*CLOSES, (2, 1, None, False)):
            process.sendall(f'0 contact QB1 {disconnector}\n0 contact QC1 {earth}\n'.encode())
            wanted = [BITS[disconnector], BITS[earth]]
            until(lambda: [value(client, f'CSWI{at}$ST$Pos$stVal') for at in (1, 2)] == wanted,
                  f'the positions are {wanted}')
            if switch:
                found.append(Control(client, switch).operate(True).is_good)
        received = lines_for(process)
    return found, received


def operate_by(checks, form: str, words: list, diagram) -> None:
    """By an audit each release of a program in a form holds in a diagram. So a server of the same
    files, with the diagram or without it, lets no client close a switch while that is a hazard, and
    lets it while it is none."""
    audit = subprocess.run([checks.bayctl, 'audit', *words, '--diagram', diagram],
                           capture_output=True, text=True, timeout=60, check=False)
    held = re.findall(r'(?m)^diagram (\w+ \w+) holds ', audit.stdout)
    checks.holds(f'a release of {form} that is never a hazard does not hold',
                 audit.returncode == 0 and held == RELEASES, str(audit))
    wanted = [f'{switch} on' for _, _, switch, is_hazard in CLOSES if not is_hazard]
    for name, more in (('a diagram', ['--diagram', diagram]), ('no diagram', [])):
        with FormServer(checks.bayctl, *words, *more) as server:
            accepted, received = closes_accepted(server)
            printed = server.printed()
        commands, sent = (re.findall(r'(?m)^\d+ command (.*)$', it) for it in (printed, received))
        checks.holds(f'a server of {form} with {name} commands a hazard, or nothing',
                     accepted == [not is_hazard for *_, is_hazard in CLOSES]
                     and commands == wanted and sent == wanted,
                     f'{accepted}, {printed}, {received}')


# Shows P-156, P-157.
def operating(checks) -> None:
    """No client of a server by a diagram moves a switch while that is a hazard, whether the program
    is a text or an image."""
    bay, logic = checks.file('earthed.toml', EARTHED_BAY), checks.file('earthed.il', EARTHED_LOGIC)
    diagram, image = checks.file('earthed.diagram', EARTHED_DIAGRAM), checks.folder / 'earthed'
    subprocess.run([checks.bayctl, 'compile', '--bay', bay, '--logic', logic, '--out', image],
                   stdout=subprocess.DEVNULL, timeout=60, check=True)
    for form, option, program in (('a program', '--logic', logic), ('an image', '--image', image)):
        operate_by(checks, form, ['--bay', bay, option, program], diagram)


# Shows P-146, P-154.
def in_order(checks) -> None:
    """A diagram that is not there is told before the load; one that is refused is logged with its
    words; and it is not judged if a rule does not hold."""
    absent = checks.folder / 'absent.toml'
    text = DIAGRAM.read_text(encoding='utf-8')
    broken = checks.file('broken.toml', text.replace('"cable"', '"cabel"'))
    rules = checks.file('broken.rules', 'never QA1 open\n')
    words = [checks.bayctl, 'serve', '--log', '--bay', BAY, '--logic', LOGIC, '--port',
             str(free_port()), '--turns', '1']
    meaning = ('a value has a wrong type, or is none of the words of its key: write one of them')
    for name, more, status, out, error in (
            ('a diagram that is not there', ['--diagram', absent], 3, 'fault 121\n',
             f'bayctl: fault 121: {absent}: there is no such file\n'),
            ('a diagram that is refused', ['--diagram', broken], 1,
             LOAD + 'diagram refused 149 node 2\n',
             f'bayctl: diagram refused 149 node 2: {meaning}\n'),
            ('a diagram beside broken rules', ['--diagram', broken, '--rules', rules], 4,
             LOAD + 'rule 1 QA1 open broken\n', '')):
        done = subprocess.run([*words, *more], capture_output=True, text=True, timeout=60)
        told = done.returncode, done.stdout, done.stderr
        checks.holds(f'{name} is told otherwise', told == (status, out, error), str(told))


PARTS = (holding, operating, check_edited_files, in_order)
