"""The rules of single line diagrams and the hazards in them, asked of bayctl: the programs of the
examples keep them, and whatever mistake of one line breaks a rule by hand breaks one of the
diagram's too."""
import re
import subprocess
import sys
from collections.abc import Iterator

from baytools.audit import answers, questions
from baytools.audit.variables import WAYS, keys_of
from baytools.bay.files import bay_at, text_of
from baytools.common.paths import TOOLS
from devtools.served import Running, Server, Simulator

from .panels import Page, positions
from .planted import EXAMPLES, read_faults

DIAGRAMS = EXAMPLES / '07_diagrams'
BY_HAND, OF_DIAGRAM = 'rules', 'rules_of_diagram'
JUDGED = 'judged'  # the file of an example with what bayctl prints of its diagram
TOLD = ('instructions=', 'rule ', 'release ', 'lost ')  # the lines that an example keeps
PART = re.compile(r'(AND|OR)N? \w+')
# A text of the diagram of a single busbar and what takes its place, the number and the place of the
# fault, and what the log says of it.
FAULTS = (
    ('[[between]]', '[[between]', '146',
     'the text is not a TOML document, or is too long: mend it, or shorten it'),
    ('kind = "cable"', 'kind = "cable"\nlive = 1', '147 node 2',
     'a section or a key is unknown: leave it out, or write the one that is meant'),
    ('name = "CABLE"\n', '', '148 node 2', 'a section or a key is missing: add it'),
    ('kind = "cable"', 'kind = "cabel"', '149 node 2',
     'a value has a wrong type, or is none of the words of its key: write one of them'),
    ('name = "N2"', 'name = "n1"', '151 node 3', 'two tables have one name: give each its own'),
    ('dead = "VT_DEAD"', 'dead = "VT_DED"', '152 node 2',
     'a name is unknown: write that of a node, or of a switch or an input of the bay file'),
    ('kind = "junction"', 'kind = "junction"\nsource = true', '153 node 3',
     'only a busbar, a line, a cable or a transformer may be a source, and only a source may have '
     'the keys `dead` and `system`: leave the keys out, or change the kind'),
    ('switch = "QA1"', 'switch = "QA1"\nkind = "breaker"', '154 between 2',
     'a switch of the bay has the keys `switch` and `nodes`, one of another bay `name`, `kind` and '
     '`nodes`, and only a breaker of the bay `synchro` and `coupler`: leave the others out'),
    ('["N1", "N2"]', '["N1", "N1"]', '154 between 2',
     'a switch leads to two nodes, an earthing switch to a node and to an earth, and no other '
     'switch to an earth: change its nodes or its kind'),
    ('[[between]]\nswitch = "QC1"\nnodes = ["N1", "E"]\n', '', '155 switch 4',
     'a switch of the bay, a switch at a node, or a source is missing: add it'))
TOO_MANY = 'a section has more than 64 tables: leave out what no switch of the bay can reach'
LONGEST, MOST = 262_144, 64  # octets of a diagram file; tables of a section
# Faults that a diagram has all at once, in the order in which they are named: a text, what takes
# its place, the number and the place.
AT_ONCE = (
    ('[[between]]\nswitch = "QB1"', '[[between]\nswitch = "QB1"', '146'),
    ('# A cable feeder', '[[check]]\n#', '149'),
    ('kind = "cable"', 'kind = "cable"\nlive = 1', '147 node 2'),
    ('nodes = ["BB1", "N1"]\n', '', '148 between 1'),
    ('name = "N1"\nkind = "junction"', 'name = "N1"\nkind = "joint"', '149 node 3'),
    ('name = "N2"', 'name = "n1"', '151 node 3'),
    ('dead = "VT_DEAD"', 'dead = "VT_DED"', '152 node 2'),
    ('kind = "earth"', 'kind = "earth"\nsource = true', '153 node 5'),
    ('switch = "QA1"', 'switch = "QA1"\nkind = "breaker"', '154 between 2'),
    ('["N2", "CABLE"]', '["N2", "N2"]', '154 between 3'),
    ('[[between]]\nswitch = "QC1"\nnodes = ["N1", "E"]\n', '', '155 switch 4'))


def answers_file(name: str) -> str:
    """The file of an example that has what bayctl prints of a file of rules."""
    return name.replace(BY_HAND, 'audited', 1)


class Asked:
    """One of the examples, with its files of rules."""

    def __init__(self, checks, path) -> None:
        self.checks, self.path, self.name = checks, path, f'diagrams/{path.parent.name}'
        self.keys = keys_of(bay_at(path)[1])
        self.logic = text_of(path.with_name('logic.il'))

    def printed(self, name: str) -> str:
        """What bayctl prints of the rules of one file, without the cases."""
        done = questions.run(self.checks.bayctl, 'audit', '--bay', self.path, '--logic',
                          self.path.with_name('logic.il'), '--rules', self.path.with_name(name))
        return ''.join(line + '\n' for line in done.stdout.decode().split('\n')
                       if line.startswith(TOLD))

    def releases(self, logic: str, name: str, *kinds: str) -> set[tuple[str, str]]:
        """The releases of which a rule of one file has one of these answers."""
        changed = self.checks.file('logic.il', logic)
        found = questions.run_audit(self.checks.bayctl, self.path, changed,
                                    self.path.with_name(name),
                             self.keys)
        return {(it.name, WAYS[it.way]) for it in found.rules if it.verdict in kinds}


    def judged(self, logic: str) -> str:
        """What bayctl prints of the hazards of a program in the diagram."""
        changed = self.checks.file('logic.il', logic)
        done = questions.run(self.checks.bayctl, 'audit', '--bay', self.path, '--logic', changed,
                             '--diagram', self.path.with_name('diagram.toml'))
        return done.stdout.decode()

    def hazards(self, logic: str) -> set[tuple[str, str]]:
        """The releases of a program that are a hazard in the diagram."""
        found = answers.read(self.judged(logic), self.keys).judged
        return {(it.name, WAYS[it.way]) for it in found if it.verdict == answers.BROKEN}


def without_a_line(logic: str) -> Iterator[tuple[int, str]]:
    """A program without one of the lines that may be left out: of its conditions."""
    lines = logic.split('\n')
    for at, line in enumerate(lines):
        if PART.fullmatch(line.strip()):
            yield at + 1, '\n'.join([*lines[:at], '', *lines[at + 1:]])


def named_releases(told: str) -> set[tuple[str, str]]:
    """The releases that the line of a fault names."""
    found = set()
    for part in told.split(', '):
        switch, ways = part.split(' ')
        found |= {(switch, way) for way in ways.split('|')}
    return found


def diagrams_are_kept(checks) -> None:
    """The programs keep the rules by hand and of the diagrams, which tools/rules writes anew."""
    bad = [kind for kind in answers.WORST if kind != answers.HOLDS]
    for path in sorted(DIAGRAMS.glob('*/bay.toml')):
        asked = Asked(checks, path)
        found, status = checks.run('rules', path, path.with_name('diagram.toml'))
        checks.holds(f'{asked.name}: the rules of the diagram', status == 0 and found == text_of(
            path.with_name(OF_DIAGRAM)), f'are others: status {status}')
        for name in (BY_HAND, OF_DIAGRAM):
            said, wanted = asked.printed(name), text_of(path.with_name(answers_file(name)))
            checks.holds(f'{asked.name}: {answers_file(name)}', said == wanted,
                         f'bayctl says:\n{said}')
            broken = asked.releases(asked.logic, name, *bad)
            checks.holds(f'{asked.name}: {name}', not broken, f'not proved of {sorted(broken)}')


def hands_follow(checks) -> None:
    """Whatever the rules by hand find of a program without one line, those of the diagram find."""
    for path in sorted(DIAGRAMS.glob('*/bay.toml')):
        asked, count = Asked(checks, path), 0
        for line, logic in without_a_line(asked.logic):
            hands = asked.releases(logic, BY_HAND, answers.BROKEN)
            missing = hands and hands - asked.releases(logic, OF_DIAGRAM, answers.BROKEN)
            count += bool(hands)
            checks.holds(f'{asked.name} without line {line}', not missing,
                         f'only the rules by hand are broken of {sorted(missing)}')
        checks.holds(f'{asked.name} without a line', count, 'no rule by hand is ever broken')


# Shows P-066, P-067.
def planted_faults_break(checks) -> None:
    """Each planted fault breaks a rule of the diagram for the releases that its line names."""
    count = 0
    for path in sorted(DIAGRAMS.glob('*/bay.toml')):
        asked = Asked(checks, path)
        for fault in read_faults(text_of(path.with_name('faults'))):
            found = asked.releases(fault.planted(asked.logic), OF_DIAGRAM, answers.BROKEN)
            count += 1
            checks.holds(f'{asked.name}: {fault.new or "nothing"!r} in line {fault.line}',
                         found == named_releases(fault.told), f'broken: {sorted(found)}')
    checks.holds('planted faults of diagrams', count >= 20, f'only {count}')


# Shows P-150, P-153.
def hazards_are_judged(checks) -> None:
    """No release of the programs is a hazard in its diagram, by as many cases as the example says;
    and each planted fault makes a hazard of just the releases that its line names."""
    count = 0
    for path in sorted(DIAGRAMS.glob('*/bay.toml')):
        asked = Asked(checks, path)
        found, wanted = asked.judged(asked.logic), text_of(path.with_name(JUDGED))
        checks.holds(f'{asked.name}: {JUDGED}', found == wanted, f'bayctl says:\n{found}')
        for fault in read_faults(text_of(path.with_name('faults'))):
            broken = asked.hazards(fault.planted(asked.logic))
            count += 1
            checks.holds(f'{asked.name}: the hazards of {fault.new or "nothing"!r} in line '
                         f'{fault.line}', broken == named_releases(fault.told),
                         f'broken: {sorted(broken)}')
    checks.holds('hazards of planted faults', count >= 20, f'only {count}')


def audit_of_diagram(checks, text: str | bytes) -> tuple[int, str, str]:
    """The status, what is printed behind the line of the load, and the log of an audit of the
    program of a single busbar, by a diagram."""
    folder, path = DIAGRAMS / 'single', checks.file('diagram.toml', text)
    done = subprocess.run([checks.bayctl, 'audit', '--log', '--bay', folder / 'bay.toml', '--logic',
                           folder / 'logic.il', '--diagram', path], capture_output=True, text=True,
                          timeout=60)
    return done.returncode, done.stdout.partition('\n')[2], done.stderr


# Shows P-151.
def faults_are_named(checks) -> None:
    """A fault of a diagram file is printed with its number and its place, and logged with its
    words."""
    text = text_of(DIAGRAMS / 'single' / 'diagram.toml')
    for old, new, told, words in FAULTS:
        found = audit_of_diagram(checks, text.replace(old, new, 1))
        line = f'diagram refused {told}'
        checks.holds(f'{line} is told otherwise',
                     old in text and found == (1, f'{line}\n', f'bayctl: {line}: {words}\n'),
                     str(found))


# Shows P-151.
def first_faults(checks) -> None:
    """Of many faults the first is named: what is no TOML, then a section, then tables in the order
    of the numbers. And octets that are not UTF-8 are no TOML."""
    text = text_of(DIAGRAMS / 'single' / 'diagram.toml')
    for at, (_, _, told) in enumerate(AT_ONCE):
        faulty = text
        for old, new, _ in AT_ONCE[at:]:
            assert faulty.count(old) == 1, old
            faulty = faulty.replace(old, new)
        found = audit_of_diagram(checks, faulty)
        checks.holds(f'{told} is not the first fault',
                     found[:2] == (1, f'diagram refused {told}\n'), str(found))
    found = audit_of_diagram(checks, text.encode() + b'# \xff\n')
    checks.holds('octets that are not UTF-8 are told otherwise',
                 found[:2] == (1, 'diagram refused 146\n'), str(found))


# Shows P-151.
def diagrams_at_the_limits(checks) -> None:
    """The longest diagram file and one that is longer; as many tables as a section may have, and
    one more."""
    text = text_of(DIAGRAMS / 'single' / 'diagram.toml')
    held = audit_of_diagram(checks, text)
    full = text + '#' * (LONGEST - len(text.encode()))
    node, switch = '[[node]]\nname = "M{}"\nkind = "busbar"\n', (
        '[[between]]\nname = "D{}"\nkind = "disconnector"\nnodes = ["N1", "{}"]\n')
    nodes, switches = text.count('[[node]]'), text.count('[[between]]')
    parallel = ''.join(switch.format(at, 'N2') for at in range(MOST - switches))
    joined = ''.join(node.format(at) for at in range(MOST - nodes)) + ''.join(
        switch.format(at, f'M{at}') for at in range(MOST - switches))
    many = (1, 'diagram refused 150\n', f'bayctl: diagram refused 150: {TOO_MANY}\n')
    for name, more, wanted in (
            ('the longest diagram file is refused', full, held),
            ('a longer diagram file is read', f'{full}#', (1, 'diagram refused 146\n',
             f'bayctl: diagram refused 146: {FAULTS[0][3]}\n')),
            ('a diagram without a switch is read', text.partition('[[between]]')[0],
             (1, 'diagram refused 148\n', f'bayctl: diagram refused 148: {FAULTS[2][3]}\n')),
            ('65 switches are read', f'{text}{parallel}{switch.format(MOST, "N2")}', many),
            ('65 nodes are read', f'{text}{joined}{node.format(MOST)}', many)):
        found = audit_of_diagram(checks, more)
        checks.holds(name, found == wanted and held[0] == 0, str(found))
    for name, more in (('64 switches are refused', parallel), ('64 nodes are refused', joined)):
        found = audit_of_diagram(checks, text + more)
        checks.holds(name, found[0] in (0, 4) and 'refused' not in found[1], str(found))


def diagram_on_the_panel(checks) -> None:
    """The diagram of a served bay on a panel, with its positions and what is released."""
    bay = DIAGRAMS / 'line' / 'bay.toml'
    with Server(checks.bayctl, bay, bay.with_name('logic.il'), with_process=True) as server:
        server.client().close()
        words = [sys.executable, '-B', TOOLS / 'panel', '--bay', bay, server.port, '--http', '0',
                 '--diagram', bay.with_name('diagram.toml')]
        gear = Simulator(bay, server, '--at', 'QB1=closed', '--at', 'QA1=closed')
        with gear, Running(*words) as running:
            port = int(re.search(r':(\d+)/\n', running.waits_for('/\n'))[1])
            with Page(port) as page:
                checks.wants('a diagram on the panel', page.text, 0,
                             ['class="diagram wide"', 'data-switch="QB7"', '>TA1</text>'], 0)
                state = page.known(lambda it: positions(it).get('QB1') == 'closed' and any(
                    one['open']['free'] for one in it['switches']))
                free = {one['id']: (one['open']['free'], one['close']['free'])
                        for one in state['switches']}
                checks.holds('releases on the panel', free['QA1'] == (True, True) and free[
                    'QB1'] == (False, False), str(free))


PARTS = (diagrams_are_kept, hands_follow, planted_faults_break, hazards_are_judged,
         faults_are_named, first_faults, diagrams_at_the_limits, diagram_on_the_panel)
