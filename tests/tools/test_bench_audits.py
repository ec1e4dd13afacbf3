"""The trial of audits and their measure, without bayctl."""
import contextlib
import importlib.machinery
import io
import random
import sys
import tempfile
import tomllib
import types
import unittest
from pathlib import Path
from unittest import mock

from baytools.audit import answers, program_inputs
from baytools.audit.answers import Answer, Case, Proof, Release
from baytools.audit.proofs import Shown
from baytools.audit.variables import bay_of, keys_of
from baytools.bay.rules import INPUT, MEASURE, SWITCH, read_rules
from baytools.common.paths import TOP
from baytools.diagnosis.lines import read


def script(path: str) -> types.ModuleType:
    """A script of bench/ as a module."""
    loader = importlib.machinery.SourceFileLoader(path.replace('/', '_'), str(TOP / path))
    found = types.ModuleType(loader.name)
    found.__file__ = str(TOP / path)
    sys.path.insert(0, str(Path(found.__file__).parent))
    loader.exec_module(found)
    return found


TRIAL, SPEED = script('bench/trials/audits'), script('bench/speed/audit')
IN = {(INPUT, 'I1'): 1}
OUT = {(INPUT, 'I1'): 0}
ASKED, NOT_ASKED = {(SWITCH, 'QB1'): 1}, {(SWITCH, 'QB1'): 2}


def releases_of_all(given: bool) -> dict:
    return {name: (given, given) for name in TRIAL.SWITCHES}


def run(*scans: tuple) -> list:
    """A run, of the moment, the state and the release of each scan."""
    return [TRIAL.Scan(moment, state, releases_of_all(given)) for moment, state, given in scans]


def case(value: int, *kept: str) -> Case:
    return Case({(INPUT, 'I1'): ((value, value),)}, kept)


class Trial(unittest.TestCase):

    def setUp(self):
        folder = tempfile.TemporaryDirectory()
        self.addCleanup(folder.cleanup)
        self.trial = TRIAL.Audits(folder.name, folder.name)
        self.rule, = read_rules('never QA1 open when I1', self.trial.keys)
        self.until, self.after = read_rules(
            'never QA1 open until I1 for 50ms when QB1 open\n'
            'always QA1 open after I1 for 50ms when QB1 open', self.trial.keys)

    def wrong(self, proof: Proof, *scans: tuple, has_memory: bool = False, rule=None) -> str | None:
        return self.trial.check_proof(rule or self.rule, proof, [run(*scans)], has_memory)

    def test_a_rule_that_holds_is_broken_nowhere(self):
        holds = Proof(1, 'QA1', 0, answers.HOLDS)
        self.assertIsNone(self.wrong(holds, (0, IN, False), (0, OUT, True)))
        self.assertEqual(self.wrong(holds, (0, IN, True)), 'a proved rule is broken')

    def test_each_scan_of_a_case_breaks_its_rule(self):
        broken = Proof(1, 'QA1', 0, answers.BROKEN, case=case(1))
        self.assertIsNone(self.wrong(broken, (0, IN, True), (0, OUT, False)))
        self.assertEqual(self.wrong(broken, (0, IN, False)), 'a broken rule holds')
        self.assertEqual(self.wrong(broken, (0, OUT, True)), 'a case that no scan is in')
        self.assertIsNone(self.wrong(broken, (0, OUT, True), has_memory=True))

    def breaks(self, rule, *scans: tuple) -> list[int]:
        """The moments at which a rule is broken."""
        told = run(*scans)
        return [scan.moment for scan, is_so in zip(told, TRIAL.breaks_of(rule, told)) if is_so]

    def test_a_condition_is_to_have_held_for_a_time(self):
        held = [(at, IN | ASKED, True) for at in (5, 54, 55, 60)]
        self.assertEqual(self.breaks(self.until, *held), [5, 54])
        again = (61, OUT | ASKED, True), (62, IN | ASKED, True), (112, IN | ASKED, True)
        self.assertEqual(self.breaks(self.until, *held, *again), [5, 54, 61, 62])
        self.assertEqual(self.breaks(
            self.until, (0, IN | ASKED, False), (1, IN | NOT_ASKED, True), (50, IN | ASKED, True),
            (51, OUT | ASKED, False)), [])

    def test_from_then_on_a_release_is_demanded(self):
        held = [(at, IN | ASKED, False) for at in (5, 54, 55)]
        self.assertEqual(self.breaks(self.after, *held, (60, IN | NOT_ASKED, False),
                                     (61, IN | ASKED, True), (62, OUT | ASKED, False),
                                     (63, IN | ASKED, False)), [55])
        self.assertEqual(self.breaks(self.rule, (0, IN, True), (1, IN, False), (2, OUT, True)),
                         [0])

    def test_a_timer_bears_only_a_rule_with_a_time(self):
        by = Proof(1, 'QA1', 0, answers.HOLDS, timer='d')
        late = [(0, IN | ASKED, False), (50, IN | ASKED, True)]
        for rule, scans, wrong in (
                (self.rule, [], 'a timer proves a rule without a time'), (self.after, late, None),
                (self.after, [late[0], (50, IN | ASKED, False)], 'a proved rule is broken')):
            self.assertEqual(self.wrong(by, *scans, rule=rule), wrong)

    def test_until_holds_without_a_timer_where_nothing_is_released(self):
        holds, late = Proof(1, 'QA1', 0, answers.HOLDS), [(0, IN | ASKED, False),
                                                          (50, IN | ASKED, True)]
        by = Proof(1, 'QA1', 0, answers.HOLDS, timer='d')
        for proof, rule, scans, wrong in (
                (by, self.until, late, None), (holds, self.until, late, 'a proved rule is broken'),
                (by, self.until, [(49, IN | ASKED, True)], 'a proved rule is broken'),
                (holds, self.until, [(0, IN | NOT_ASKED, True)], None)):
            self.assertEqual(self.wrong(proof, *scans, rule=rule), wrong)

    def test_after_holds_where_the_condition_alone_releases(self):
        holds = Proof(1, 'QA1', 0, answers.HOLDS)
        self.assertIsNone(self.wrong(holds, (0, IN | ASKED, True), (1, OUT | ASKED, False),
                                     rule=self.after))
        self.assertEqual(self.wrong(holds, (0, IN | ASKED, False), rule=self.after),
                         'a proved rule is broken')

    def test_a_case_that_breaks_a_rule_with_a_time(self):
        broken = Proof(1, 'QA1', 0, answers.BROKEN, case=case(1))
        for rule, given, wrong in ((self.after, False, None), (self.until, False, None),
                                   (self.after, True, 'a broken rule holds')):
            self.assertEqual(self.wrong(broken, (0, IN | ASKED, given), rule=rule), wrong)

    def test_a_broken_rule_is_shown_by_a_replay(self):
        for verdict, is_so, wrong in ((answers.BROKEN, True, None), (answers.HOLDS, False, None),
                                      (answers.BROKEN, False, 'a broken rule is not shown')):
            with mock.patch.object(TRIAL, 'replay_case', return_value=Shown({}, [], is_so)):
                proof = Proof(1, 'QA1', 0, verdict)
                self.assertEqual(self.trial.check_replay(self.rule, proof, None), wrong)

    def test_how_rules_end_is_counted(self):
        rules = self.trial.rules
        for verdict, given, timer, told in (
                (answers.HOLDS, True, 'd', 'holds by a timer'), (answers.HOLDS, True, '', 'holds'),
                (answers.BROKEN, True, '', 'broken'), (answers.OPEN, False, '', 'open'),
                (answers.OPEN, True, '', 'open, and a scan breaks it'),
                (answers.MANY, False, '', 'many')):
            proof = Proof(1, 'QA1', 0, verdict, timer=timer)
            ended = TRIAL.outcome_of(self.rule, proof, [run((0, OUT, True)), run((0, IN, given))])
            self.assertEqual(ended, told)
            rules['with memory', TRIAL.kind_of(self.until), ended] += 1
        rules['without memory', TRIAL.kind_of(self.rule), 'holds'] += 7
        with contextlib.redirect_stdout(io.StringIO()) as out:
            self.trial.print_rules()
        self.assertEqual(out.getvalue(), (
            'rules until, programs with memory: 1 broken; 1 holds; 1 holds by a timer; 1 many; '
            '1 open; 1 open, and a scan breaks it\n'
            'rules without a time, programs without memory: 7 holds\n'
            'of 4 rules of programs with memory that nothing breaks 2 have no answer\n'))

    def test_only_memory_leaves_a_rule_open(self):
        for verdict in (answers.OPEN, answers.MANY):
            self.assertIsNone(self.wrong(Proof(1, 'QA1', 0, verdict), has_memory=True))
            self.assertIn('without an answer', self.wrong(Proof(1, 'QA1', 0, verdict)))

    def test_what_is_released_while_the_process_is_lost(self):
        bad = {(SWITCH, 'QA1'): 3, (INPUT, 'I1'): 0, (MEASURE, 'M1_AA'): 5}
        for state, given, told, found in (
                (bad, True, answers.RELEASED, []), (bad, False, answers.BLOCKED, []),
                (bad, True, answers.DEPENDS, []), ({**bad, (INPUT, 'I1'): 1}, True, 'blocked', []),
                ({**bad, (SWITCH, 'QA1'): 2}, True, 'blocked', []),
                (bad, True, answers.BLOCKED, ['another release while the process is lost']),
                (bad, False, answers.RELEASED, ['another release while the process is lost'])):
            self.trial.wrong.clear()
            self.trial.judge_lost(answers.Lost('QA1', 0, told), run((0, state, given)))
            self.assertEqual(list(self.trial.wrong), found)

    def judge(self, release: Release, given: bool, has_memory: bool = False) -> list[str]:
        self.trial.wrong.clear()
        self.trial.judge_release(release, run((0, IN, given)), has_memory)
        return list(self.trial.wrong)

    def test_the_cases_of_a_release(self):
        given, not_given = Release('QA1', 0, [case(1)], [case(0)]), Release('QA1', 0, [], [case(1)])
        self.assertEqual(self.judge(given, True) + self.judge(not_given, False), [])
        self.assertEqual(self.judge(given, False), ['another release'])
        self.assertEqual(self.judge(not_given, True), ['another release'])
        self.assertEqual(self.judge(Release('QA1', 0, [case(1)], [case(1)]), True),
                         ['cases are not parts'])
        self.assertEqual(self.judge(Release('QA1', 0), True), ['cases are not parts'])
        hangs = Release('QA1', 0, [case(1, 'a')])
        self.assertEqual(self.judge(hangs, True, True) + self.judge(hangs, False, True), [])
        self.assertEqual(self.judge(hangs, True), ['a case that depends on nothing'])

    def test_programs_without_memory_have_none(self):
        for seed in range(20):
            for has_memory in (False, True):
                text = TRIAL.Program(random.Random(seed), has_memory).text()
                verbs = {item.verb for item in read(text).items}
                self.assertTrue(has_memory or not verbs & {'S', 'R', 'CAL', 'JMPC', 'JMPCN'}, text)

    def test_a_timer_delays_what_some_rules_ask_for(self):
        rng, kinds, asked = random.Random(1), set(), 0
        for _ in range(40):
            program = TRIAL.Program(rng, True)
            delays = [item for item in read(program.text()).items
                      if item.verb == 'CAL' and item.operand[0].text == TRIAL.DELAY]
            self.assertEqual(len(delays), program.delayed is not None)
            texts = [TRIAL.random_rule(rng, program.delayed) for _ in range(8)]
            kinds |= {TRIAL.kind_of(it) for it in read_rules(''.join(texts), self.trial.keys)}
            if program.delayed:
                name, way, fact = program.delayed
                asked += sum(f'{name} {way} until {fact} for' in text for text in texts)
        self.assertEqual(kinds, {'without a time', 'until', 'after'})
        self.assertGreater(asked, 0)

    def test_the_moments_of_scans(self):
        bay = bay_of(self.trial.file_of, (TRIAL.BAY, ''), program_inputs.read(''), {},
                     {(INPUT, 'I1')})
        with mock.patch.object(TRIAL, 'scans_of', side_effect=lambda _, octets: iter(
                [releases_of_all(True)] * octets.count(b' scan'))):
            found = TRIAL.scan_combinations(bay, [(0,), (1,)], [0, 49, 100])
            self.assertEqual([(it.moment, it.state) for it in found], [
                *((at, OUT) for at in (0, 49, 100)), *((at, IN) for at in (100, 149, 200))])
            self.assertEqual(len(TRIAL.walk(random.Random(1), bay)), TRIAL.STEPS)

    def test_all_that_bayctl_says_is_judged(self):
        answer = Answer('', [Proof(1, 'QA1', 0, answers.HOLDS)], [Release('QA1', 1)])
        self.trial.judge(answer, [self.rule], [run((0, IN, False))], None, False)
        self.assertEqual(list(self.trial.wrong), ['cases are not parts'])
        self.assertEqual(dict(self.trial.rules),
                         {('without memory', 'without a time', answers.HOLDS): 1})


class Large(unittest.TestCase):

    def test_the_large_bay_is_as_large_as_is_said(self):
        file = tomllib.loads(SPEED.bay())
        self.assertEqual([len(file[kind]) for kind in ('switch', 'input', 'meter')], [16, 20, 4])
        rules = read_rules(SPEED.rules(), keys_of(file))
        self.assertEqual({rule.switch for rule in rules}, set(SPEED.SWITCHES))
        self.assertTrue(all(rule.can_apply() and not rule.since for rule in rules))
        bay = bay_of(file, (SPEED.bay(), SPEED.program()), program_inputs.read(SPEED.program()), {},
                     set())
        self.assertEqual(len(bay.things), 16 + 20 + 4)
        self.assertEqual(bay.unread, [])


if __name__ == '__main__':
    unittest.main()
