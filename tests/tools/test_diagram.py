"""What a single line diagram asks of an interlocking: paths, rules, refusals, and the examples,
whose programs and rules are gone through in every state."""
import re
import tomllib
import types
import unittest
from pathlib import Path
from unittest import mock

from baytools.audit.answers import BROKEN, HOLDS, Answer, Proof
from baytools.audit.variables import keys_of
from baytools.bay.files import bay_at
from baytools.bay.rules import read_rules
from baytools.common.paths import TOP
from baytools.diagram.diagram_file import read_diagram, file_text
from baytools.diagram.network import BadDiagram
from baytools.rules.demands import ALONE, CURRENT, JOINS, MEETS, STAYS, SYSTEMS, demands_of, text_of
from baytools.rules.paths import paths_between
from devtools.check import diagrams
from devtools.check.planted import read_faults
from devtools.truths import States, forbidden, forbidden_states, releases
from tests.tool import Tools

FOLDER = TOP / 'examples' / '07_diagrams'
EXAMPLES = sorted(FOLDER.glob('*/bay.toml'))
AUDITED = (diagrams.diagrams_are_kept, diagrams.hands_follow, diagrams.planted_faults_break)
KINDS = {'QA': 'breaker', 'QB': 'disconnector', 'QC': 'earthing'}


def bay(*names: str, inputs: tuple = ()) -> dict:
    """The tables of a bay file with these switches and inputs."""
    return {'bay': {'domain': 'E01'}, 'input': [{'name': name} for name in inputs],
            'switch': [{'id': name, 'kind': KINDS[name[:2]]} for name in names]}


def diagram(*rows: str) -> str:
    """A diagram of nodes (`BB1 busbar source=true`) and switches (`QB1: BB1 N1`, and of another bay
    `X breaker closed="A": BB1 N1`)."""
    lines = []
    for row in rows:
        head, colon, ends = row.partition(': ')
        name, *words = head.split(' ')
        if not colon:
            lines += ['[[node]]', f'name = "{name}"', f'kind = "{words.pop(0)}"', *words]
            continue
        is_other = bool(words) and words[0] in KINDS.values()
        lines += ['[[between]]', f'{"name" if is_other else "switch"} = "{name}"']
        kind = [f'kind = "{words.pop(0)}"'] if is_other else []
        lines += kind + words
        one, other = ends.split(' ')
        lines += [f'nodes = ["{one}", "{other}"]']
    return '\n'.join(lines) + '\n'


def rules_of(found: dict, *rows: str) -> set[str]:
    """The rules of a diagram."""
    return {it.text() for it in demands_of(read_diagram(diagram(*rows), 'd', found))}


FEEDER = ('BB1 busbar source=true', 'LINE line source=true dead="VT_DEAD"', 'N1 junction',
          'N2 junction', 'E earth', 'QB1: BB1 N1', 'QA1: N1 N2', 'QB9: N2 LINE', 'QC1: N1 E',
          'QC9: LINE E')
OWN = bay('QA1', 'QB1', 'QB9', 'QC1', 'QC9', inputs=('VT_DEAD', 'OTHER'))


class Paths(unittest.TestCase):
    def test_simple_paths(self):
        net = read_diagram(diagram(*FEEDER), 'd', OWN)
        self.assertEqual([it.text() for it in paths_between(net, 'BB1', 'LINE')],
                         ['BB1 - QB1 - N1 - QA1 - N2 - QB9 - LINE'])
        self.assertEqual([it.text() for it in paths_between(net, 'LINE', 'LINE')], ['LINE'])

    def test_no_path_goes_through_an_earth(self):
        net = read_diagram(diagram(*FEEDER), 'd', OWN)
        found = paths_between(net, 'N1', 'LINE')
        self.assertFalse(any('E' in path.nodes for path in found))
        self.assertEqual(len(found), 1)

    def test_too_many_paths_are_refused(self):
        names = [f'QB{n}' for n in range(1, 46)]
        pairs = [(a, b) for a in range(10) for b in range(a)]
        rows = [f'B{n} busbar source=true' for n in range(10)]
        rows += [f'{name}: B{a} B{b}' for name, (a, b) in zip(names, pairs)]
        with self.assertRaisesRegex(BadDiagram, 'more than 20,000 paths from'):
            net = read_diagram(diagram(*rows), 'd', bay(*names))
            paths_between(net, 'B0', 'B9')


class Rules(unittest.TestCase):
    def test_a_feeder(self):
        self.assertEqual(rules_of(OWN, *FEEDER), {
            'never QC1 close when QB1 not open', 'never QC1 close when QB9 not open',
            'never QC9 close when QB1 not open and QB9 not open',
            'never QC9 close when not VT_DEAD',
            'never QB9 close when QC1 not open',
            'never QB9 close when QC9 not open and QB1 not open',
            'never QB1 close when QC9 not open and QB9 not open',
            'never QA1 close when QC1 not open and QB9 not open',
            'never QA1 close when QC9 not open and QB1 not open and QB9 not open',
            'never QB1 open|close when QA1 not open', 'never QB9 open|close when QA1 not open',
            'never QB1 open|close when QC1 not open',
            'never QA1 close when QB1 not open|closed', 'never QA1 close when QB9 not open|closed'})

    def test_an_open_breaker_does_not_keep_apart_unless_it_isolates(self):
        rows = ('BB1 busbar source=true', 'C cable', 'N1 junction', 'E earth', 'QB1: BB1 N1',
                'QA1: N1 C', 'QC9: C E')
        own = bay('QA1', 'QB1', 'QC9')
        self.assertIn('never QC9 close when QB1 not open', rules_of(own, *rows))
        found = rules_of(own, *rows[:5], 'QA1 isolates=true: N1 C', 'QC9: C E')
        self.assertIn('never QC9 close when QB1 not open and QA1 not open', found)
        self.assertNotIn('never QC9 close when QB1 not open', found)

    def test_a_line_that_is_fed_from_here_alone_is_no_source(self):
        rows = ('BB1 busbar source=true', 'C cable', 'N1 junction', 'E earth', 'QB1: BB1 N1',
                'QA1: N1 C', 'QC1: N1 E')
        found = rules_of(bay('QA1', 'QB1', 'QC1'), *rows)
        self.assertIn('never QC1 close when QB1 not open', found)
        self.assertIn('never QB1 open|close when QA1 not open', found)
        self.assertFalse(any('QA1 close when QC1' in it for it in found))

    def test_a_switch_of_another_bay_counts_as_the_worse_of_both(self):
        rows = ('BB1 busbar source=true', 'C cable source=true', 'N1 junction', 'N2 junction',
                'E earth', 'QB1: BB1 N1', 'QA1: N1 N2', 'QC1: N1 E')
        own = bay('QA1', 'QB1', 'QC1', inputs=('X_OPEN', 'X_CLOSED'))
        told = rules_of(own, *rows, 'X disconnector closed="X_CLOSED" open="X_OPEN": N2 C')
        self.assertIn('never QC1 close when (not X_OPEN or X_CLOSED)', told)
        self.assertIn('never QA1 close when (X_CLOSED and X_OPEN or not X_CLOSED and not X_OPEN)',
                      told)
        self.assertIn('never QA1 close when QC1 not open and (not X_OPEN or X_CLOSED)', told)
        untold = rules_of(own, *rows, 'X disconnector closed="X_CLOSED": N2 C')
        self.assertIn('never QC1 close', untold)
        self.assertIn('never QA1 close when not X_CLOSED', untold)

    def test_a_disconnector_without_a_breaker_never_breaks_alone(self):
        own = bay('QB1')
        rows = ('BB1 busbar source=true', 'BB2 busbar source=true', 'QB1: BB1 BB2')
        self.assertEqual(rules_of(own, *rows), {'never QB1 open|close'})
        with_other = bay('QB1', inputs=('A',))
        self.assertEqual(rules_of(with_other, *rows, 'X breaker closed="A": BB1 BB2'),
                         {'never QB1 open|close when not A'})

    def test_paths_beside_it(self):
        """Two of them, of which one goes through a transformer and does not count."""
        own = bay('QB1', inputs=('A', 'B', 'T'))
        rows = ('BB1 busbar source=true', 'BB2 busbar source=true', 'QB1: BB1 BB2',
                'X breaker closed="A": BB1 BB2', 'Y breaker closed="B": BB1 BB2',
                'T1 transformer', 'V breaker closed="T": BB1 T1', 'W breaker closed="T": T1 BB2')
        self.assertEqual(rules_of(own, *rows), {'never QB1 open|close when not (A or B)'})

    def test_a_path_beside_a_disconnector_on_its_way_stays(self):
        """A coupler bay, whose breaker is beside the disconnectors of a feeder."""
        own = bay('QA1', inputs=('F1_CLOSED', 'F1_OPEN', 'F2_CLOSED', 'F2_OPEN'))
        rows = ('BB1 busbar source=true', 'BB2 busbar source=true', 'N junction', 'QA1: BB1 BB2',
                'F1 disconnector closed="F1_CLOSED" open="F1_OPEN": BB1 N',
                'F2 disconnector closed="F2_CLOSED" open="F2_OPEN": BB2 N')
        found = {it.text(): it.head for it in demands_of(read_diagram(diagram(*rows), 'd', own))}
        self.assertEqual(found, {
            'never QA1 open when (F1_CLOSED and F1_OPEN or not F1_CLOSED and not F1_OPEN)'
            ' and (not F2_OPEN or F2_CLOSED)': STAYS,
            'never QA1 open when (F2_CLOSED and F2_OPEN or not F2_CLOSED and not F2_OPEN)'
            ' and (not F1_OPEN or F1_CLOSED)': STAYS})

    def test_a_breaker_in_series_may_open(self):
        """It takes the current off the disconnectors beside which another bay has a path."""
        own = bay('QA1', 'QB1', 'QB2', inputs=('X_CLOSED', 'X_OPEN'))
        rows = ('BB1 busbar source=true', 'BB2 busbar source=true', 'N1 junction', 'N2 junction',
                'QB1: BB1 N1', 'QA1: N1 N2', 'QB2: N2 BB2',
                'X breaker closed="X_CLOSED" open="X_OPEN": BB1 BB2')
        self.assertFalse([it for it in rules_of(own, *rows) if it.startswith('never QA1 open')])
        beside = rules_of(bay('QA1', 'QB1', 'QB2', 'QA2', inputs=('X_CLOSED',)),
                          *rows[:-1], 'QA2: BB1 BB2')
        self.assertIn('never QA2 open when QB1 not open|closed and QA1 not open and QB2 not open',
                      {it for it in beside if it.startswith('never QA2 open')})

    def test_a_breaker_that_energises_what_is_dead(self):
        """A disconnector after a transformer, whose other side nothing feeds but this breaker."""
        own = bay('QA1', 'QA2', 'QB1', 'QB2')
        rows = ('BB1 busbar source=true', 'N1 junction', 'T1 transformer', 'N2 junction',
                'C {}', 'QB1: BB1 N1', 'QA1: N1 T1', 'QA2: T1 N2', 'QB2: N2 C')
        dead = [row.format('cable') for row in rows]
        found = {it.text(): it for it in demands_of(read_diagram(diagram(*dead), 'd', own))}
        rule = found['never QA1 close when QB2 not open|closed and QA2 not open']
        self.assertEqual((rule.head, rule.why), (MEETS, [
            'QB2 would make the current: BB1 - QB1 - N1 - QA1 - T1 - QA2 - N2 - QB2 - C']))
        live = [row.format('cable source=true') for row in rows]
        self.assertFalse([it for it in rules_of(own, *live)
                          if it.startswith('never QA1 close when QB2 not open|closed')])

    def test_unlike_systems(self):
        own = bay('QB1', 'QB2', inputs=('A',))
        rows = ('BB1 busbar source=true system="a"', 'BB2 busbar source=true system="{}"',
                'N junction', 'QB1: BB1 N', 'QB2: BB2 N', 'X breaker closed="A": BB1 BB2')
        for system, wanted in (('a', False), ('b', True)):
            text = diagram(*(row.format(system) for row in rows))
            found = [it for it in demands_of(read_diagram(text, 'd', own)) if it.head == SYSTEMS]
            self.assertEqual({it.text() for it in found}, {
                'never QB1 close when QB2 not open', 'never QB2 close when QB1 not open'}
                if wanted else set())

    def test_voltage_goes_through_a_transformer_and_systems_do_not(self):
        own = bay('QB1', 'QC1', 'QA1')
        rows = ('BB1 busbar source=true system="110kV"', 'LV busbar source=true system="20kV"',
                'T1 transformer', 'E earth', 'QB1: BB1 T1', 'QA1 isolates=true: T1 LV', 'QC1: T1 E')
        found = demands_of(read_diagram(diagram(*rows), 'd', own))
        told = {it.text() for it in found}
        self.assertIn('never QC1 close when QA1 not open', told)
        self.assertIn('never QC1 close when QB1 not open', told)
        self.assertFalse(any(it.head == SYSTEMS for it in found))

    def test_reasons(self):
        found = demands_of(read_diagram(diagram(*FEEDER), 'd', OWN))
        heads = {it.text(): (it.head, it.why) for it in found}
        self.assertEqual(heads['never QB9 close when QC1 not open'], (JOINS, [
            'the source LINE would be earthed: LINE - QB9 - N2 - QA1 - N1 - QC1 - E']))
        self.assertEqual(heads['never QB1 open|close when QA1 not open'][0], CURRENT)
        self.assertEqual(heads['never QB1 open|close when QC1 not open'][0], ALONE)
        self.assertTrue(all(it.why for it in found))


class Refusals(unittest.TestCase):
    def test_what_is_refused(self):
        node, between = '\n[[node]]\n', '\n[[between]]\n'
        good = diagram(*FEEDER)
        for text, told in (
                (good + '[[x', 'd: it is not TOML that Python can read'),
                (good + '[[nodes]]', 'd: nodes: there is no such table: is node meant?'),
                ('node = 1', r'd: node: it must be a list of tables: write \[\[node\]\]'),
                (good + node + 'kind = "line"', 'd: node 6: the key name is missing'),
                (good + node + 'name = "a b"\nkind = "line"', 'the name a b must be a letter'),
                (good + node + 'name = "bb1"\nkind = "line"', 'the name bb1 stands twice'),
                (good + node + 'name = "X"\nkind = "lin"', r'node 6 \(X\): kind = "lin" is none: '
                 'is line meant'),
                (good + node + 'name = "X"\nkind = "earth"\nsource = true',
                 'a node of kind earth can\'t be a source'),
                (good + node + 'name = "X"\nkind = "line"\nsource = 1', 'source must be true or'),
                (good + node + 'name = "X"\nkind = "line"\ndead = "OTHER"', 'dead is told of '
                 'sources alone: add source = true'),
                (good + node + 'name = "X"\nkind = "line"\nsourc = true', 'is source meant'),
                (good + node + 'name = "X"\nkind = "line"', 'node X: no switch leads to it'),
                (good.replace('VT_DEAD', 'VT_DEED'), 'VT_DEED" is no input of the bay file: is '
                 'VT_DEAD meant'),
                (good.replace('nodes = ["BB1", "N1"]', ''), 'between 1 .QB1.: the key nodes is'),
                (good.replace('["BB1", "N1"]', '["BB1"]'), 'nodes must be two names'),
                (good.replace('["BB1", "N1"]', '["BB1", "BB1"]'), 'both its nodes are BB1'),
                (good.replace('["BB1", "N1"]', '["BB11", "N1"]'), 'BB11 is no node: is BB1'),
                (good.replace('"QB1"', '"QB2"'), 'QB2 is no switch of the bay file: is QB. meant'),
                (good.replace('"QB1"', '"QB9"'), 'the name QB9 stands twice'),
                (good.replace('switch = "QB1"', 'switch = "QB1"\nkind = "breaker"'),
                 'kind belongs to a switch of another bay'),
                (good.replace('switch = "QB1"', 'name = "QB1"\nkind = "breaker"'),
                 'QB1 is a switch of this bay: write switch'),
                (good.replace('switch = "QB1"', 'switch = "QB1"\nname = "X"'), 'and not both'),
                (good + '\n[[check]]', r'd: check: it must be a table: write \[check\]'),
                (good + '\n[check]\nlive_part = true',
                 'd: check: there is no key live_part: is live'),
                (good + '\n[check]\nfed_earths = 1', 'd: check: fed_earths must be true or false'),
                (good.replace('switch = "QA1"', 'switch = "QA1"\nsynchro = "VT"'),
                 'synchro = "VT" is no input of the bay file'),
                (good.replace('switch = "QB1"', 'switch = "QB1"\ncoupler = true'),
                 'coupler is a key of breakers of the bay'),
                (good.replace('switch = "QB1"', 'name = "X"\nkind = "fuse"'), 'fuse" is none'),
                (good.replace('["N1", "E"]', '["N1", "N2"]'), 'of kind earthing, so one of its'),
                (good.replace('["BB1", "N1"]', '["N1", "E"]'), 'it leads to the earth E, so it'),
                (good + between + 'switch = "QB9"\nnodes = ["N1", "N2"]', 'QB9 stands twice'),
                (good.replace('source = true', '').replace('source=true', '').replace(
                    'dead="VT_DEAD"', ''), 'no node is a source'),
                (good.replace('dead="VT_DEAD"', ''), 'd: QC9 earths LINE, and no disconnector '
                 'parts it from the source LINE: give the node LINE a key dead')):
            with self.assertRaisesRegex(BadDiagram, told):
                demands_of(read_diagram(text, 'd', OWN))

    def test_a_switch_or_a_node_that_is_left_out(self):
        with self.assertRaisesRegex(BadDiagram, r'd: QC9: this switch of the bay is in no'):
            read_diagram(diagram(*FEEDER[:-1]), 'd', OWN)
        with self.assertRaisesRegex(BadDiagram, 'node N3: it is a junction of 1 switch'):
            read_diagram(diagram(*FEEDER[:3], 'N3 junction', *FEEDER[3:],
                                 'X breaker closed="OTHER": N3 N2'), 'd', OWN)


class Examples(Tools):
    def test_each_example_has_the_rules_of_its_diagram(self):
        self.assertEqual(len(EXAMPLES), 4)
        for path in EXAMPLES:
            found = self.call_tool('rules', path, path.with_name('diagram.toml'))
            self.assertEqual((found.status, found.error), (0, ''))
            self.assertEqual(found.out, path.with_name('rules_of_diagram').read_text(), path)

    def test_a_diagram_is_written_as_it_was_read(self):
        for path in EXAMPLES:
            file = bay_at(path)[1]
            net = read_diagram(path.with_name('diagram.toml').read_text(), 'd', file)
            again = read_diagram(file_text(net), 'd', file)
            self.assertEqual((net.nodes, net.switches), (again.nodes, again.switches))

    def test_keys_that_ask_for_hazards(self):
        path = next(it for it in EXAMPLES if it.parent.name == 'double')
        file, text = bay_at(path)[1], path.with_name('diagram.toml').read_text()
        asked = '[check]\nlive_parts = true\nfed_earths = true\n' + text.replace(
            'switch = "QA1"', 'switch = "QA1"\nsynchro = "ca1_closed"\ncoupler = true')
        net = read_diagram(asked, 'd', file)
        breaker = next(it for it in net.switches if it.name == 'QA1')
        self.assertEqual((net.live_parts, net.fed_earths), (True, True))
        self.assertEqual((breaker.synchro, breaker.is_coupler), ('CA1_CLOSED', True))
        again = read_diagram(file_text(net), 'd', file)
        self.assertEqual((net.nodes, net.switches, net.live_parts, net.fed_earths),
                         (again.nodes, again.switches, again.live_parts, again.fed_earths))
        plain = read_diagram(text, 'd', file)
        self.assertIn('no rule covers these', text_of(net, 'Q1').replace('\n# ', ' '))
        self.assertNotIn('covers', text_of(plain, 'Q1'))
        self.assertEqual([it.text() for it in demands_of(net)],
                         [it.text() for it in demands_of(plain)])

    def test_programs_keep_both_files_of_rules_in_every_state(self):
        for path in EXAMPLES:
            states = States(bay_at(path)[1])
            given = releases(states, path.with_name('logic.il').read_text())
            for name in ('rules', 'rules_of_diagram'):
                for release, rows in forbidden(states, path.with_name(name).read_text()).items():
                    for line, bits in rows:
                        self.assertTrue(bits, f'{path}: {name}: line {line} never applies')
                        self.assertFalse(given[release] & bits, f'{path}: {name}: line {line}')

    def test_each_rule_by_hand_follows_from_those_of_the_diagram(self):
        for path in EXAMPLES:
            states = States(bay_at(path)[1])
            rules = path.with_name('rules_of_diagram').read_text()
            tools = forbidden_states(forbidden(states, rules))
            for release, rows in forbidden(states, path.with_name('rules').read_text()).items():
                for line, bits in rows:
                    self.assertFalse(bits & ~tools.get(release, 0), f'{path}: rules: line {line}')

    def test_each_planted_fault_breaks_a_rule_of_the_diagram(self):
        count = 0
        for path in EXAMPLES:
            states, logic = States(bay_at(path)[1]), path.with_name('logic.il').read_text()
            rules = path.with_name('rules_of_diagram').read_text()
            tools = forbidden_states(forbidden(states, rules))
            for fault in read_faults(path.with_name('faults').read_text()):
                given = releases(states, fault.planted(logic))
                broken = {release for release in given if given[release] & tools.get(release, 0)}
                told = {(part.split(' ')[0], ('open', 'close').index(way))
                        for part in fault.told.split(', ') for way in part.split(' ')[1].split('|')}
                self.assertEqual(broken, told, f'{path}: line {fault.line}')
                count += 1
        self.assertGreaterEqual(count, 20)

    def test_rules_are_read_by_the_audit(self):
        for path in EXAMPLES:
            file = bay_at(path)[1]
            for name in ('rules', 'rules_of_diagram'):
                found = read_rules(path.with_name(name).read_text(), keys_of(file))
                self.assertTrue(found and all(it.can_apply() for it in found), path)


def audit_by_states(states: States):
    """What bayctl answers, by going through all states."""
    def run_audit(bayctl, bay_file, logic, rules, keys) -> Answer:
        given = releases(states, Path(logic).read_text())
        text = Path(rules).read_text()
        broken = {(line, way) for (switch, way), rows in forbidden(states, text).items()
                  for line, bits in rows if given[switch, way] & bits}
        return Answer('', [Proof(rule.line, rule.switch, way,
                                 BROKEN if (rule.line, way) in broken else HOLDS)
                           for rule in read_rules(text, keys) for way in rule.ways])
    return run_audit


class Checked(Tools):
    """What dev/check asks of bayctl, which is stood for by going through all states."""

    def run_parts(self, *parts, changed=None) -> list[str]:
        told = []
        checks = types.SimpleNamespace(
            bayctl='none', file=self.file,
            holds=lambda name, is_so, why: None if is_so else told.append(name),
            run=lambda tool, *words: (lambda it: (it.out, it.status))(self.call_tool(tool, *words)))
        def run(bayctl, *words) -> types.SimpleNamespace:
            kept = Path(words[-1]).with_name(Path(words[-1]).name.replace('rules', 'audited'))
            return types.SimpleNamespace(stdout=kept.read_bytes() + b'released QA1=1\n')
        by_path = {path: audit_by_states(States(bay_at(path)[1])) for path in EXAMPLES}

        def run_audit(bayctl, bay_file, logic, rules, keys) -> Answer:
            return by_path[bay_file](bayctl, bay_file, logic, rules, keys)
        with mock.patch.multiple('devtools.check.diagrams.questions',
                                 run_audit=changed or run_audit, run=run):
            for part in parts:
                part(checks)
        return told

    def test_all_is_kept(self):
        self.assertEqual(self.run_parts(*AUDITED), [])

    def test_what_goes_wrong_is_told(self):
        """An audit that finds nothing broken, and one that finds all."""
        def answer_all(verdict):
            def run_audit(bayctl, bay_file, logic, rules, keys) -> Answer:
                return Answer('', [Proof(rule.line, rule.switch, way, verdict) for rule in
                                   read_rules(Path(rules).read_text(), keys) for way in rule.ways])
            return run_audit
        told = self.run_parts(*AUDITED, changed=answer_all(HOLDS))
        self.assertIn('diagrams/line without a line', told)
        self.assertIn("diagrams/line: 'nothing' in line 94", told)
        told = self.run_parts(diagrams.diagrams_are_kept, changed=answer_all(BROKEN))
        self.assertEqual(len(told), 8)

    def test_hazards(self):
        """What bayctl prints of each program, and of one with a planted fault."""
        answered, wrong = {}, []
        for path in EXAMPLES:
            text = path.with_name('logic.il').read_text()
            held = path.with_name('judged').read_text()
            answered[path, text] = held
            for fault in read_faults(path.with_name('faults').read_text()):
                changed = held
                for switch, way in diagrams.named_releases(fault.told):
                    changed, count = re.subn(rf'(?m)^diagram {switch} {way} holds .*$',
                                             f'diagram {switch} {way} broken: x', changed)
                    self.assertEqual(count, 1, f'{path}: {fault}')
                answered[path, fault.planted(text)] = changed
        checks = types.SimpleNamespace(
            bayctl='none', file=self.file,
            holds=lambda name, is_so, why: None if is_so else wrong.append(name))
        for change, count in ((str, 0), (lambda it: it.replace(' broken: x', ' many'), 27),
                              (lambda it: it.replace('cases=1\n', 'cases=2\n'), 4)):
            def run(bayctl, *words) -> types.SimpleNamespace:
                said = answered[Path(words[2]), Path(words[4]).read_text()]
                return types.SimpleNamespace(stdout=change(said).encode())
            wrong.clear()
            with mock.patch.multiple('devtools.check.diagrams.questions', run=run):
                diagrams.hazards_are_judged(checks)
            self.assertEqual(len(wrong), count, wrong)

    def test_lines_that_are_left_out(self):
        found = dict(diagrams.without_a_line('LD a\nAND b\nAND( c\n    ORN d\n)\nST e\n'))
        self.assertEqual(found, {2: 'LD a\n\nAND( c\n    ORN d\n)\nST e\n',
                                 4: 'LD a\nAND b\nAND( c\n\n)\nST e\n'})


class Command(Tools):
    def test_statuses(self):
        bay_file = EXAMPLES[0]
        good = bay_file.with_name('diagram.toml').read_text()
        bad = self.file('bad.toml', good.replace('kind = "line"', 'kind = "lin"'))
        found = self.call_tool('rules', bay_file, bad)
        self.assertEqual((found.status, found.out, found.error.count('\n')), (1, '', 1))
        self.assertIn('bad.toml: node', found.error)
        self.assertEqual(self.call_tool('rules', bay_file, 'none.toml').status, 3)
        self.assertEqual(self.call_tool('rules', bay_file).status, 2)

    def test_a_file_of_rules_names_what_other_bays_must_keep(self):
        path = next(it for it in EXAMPLES if it.parent.name == 'double')
        text = path.with_name('diagram.toml').read_text()
        net = read_diagram(text, 'd', tomllib.loads(path.read_text()))
        told = ' '.join(text_of(net, 'E12').replace('# ', '').split())
        self.assertIn('must keep it closed: CB1_CLOSED, CA1_CLOSED, CB2_CLOSED.', told)


if __name__ == '__main__':
    unittest.main()
