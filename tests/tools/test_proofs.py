"""What bayctl proves, by texts of its answers that are written by hand; a program in its place
answers them."""
import random
import sys
import unittest
from unittest import mock

from baytools.audit import answers, questions, rule_findings, proofs, verdicts
from baytools.audit.answers import COMPUTED, Bad, Case, read
from baytools.audit.page import Report
from baytools.audit.variables import all_things, keys_of
from baytools.bay.conditions import Variable
from baytools.bay.cubes import condition_of, is_covered, products_of
from baytools.bay.rules import INPUT, MEASURE, SWITCH, read_rules
from baytools.common.ending import Failed
from baytools.panel.reasons import Seen, why_not
from tests.tool import Tools
from tests.tools.test_audit import AFTER, FILE, UNTIL, audit_rules

KEYS = keys_of(FILE)
QA1, QC1, DEAD, AA = (SWITCH, 'QA1'), (SWITCH, 'QC1'), (INPUT, 'VT_DEAD'), (MEASURE, 'M1_AA')
LOADED = 'instructions=20 depth=2 budget=20\n'
RULES = '''always QA1 open
never QC1 close when not VT_DEAD
never QC1 close when QA1 not open
never QC1 close until VT_DEAD for 5s
never QC1 open
'''
ANSWER = LOADED + '''rule 1 QA1 open holds cases=1
rule 2 QC1 close open VT_DEAD=0 by t1
rule 3 QC1 close broken QA1=0|2|3 VT_DEAD=1
rule 4 QC1 close open VT_DEAD=1 by t1 LOCK
rule 5 QC1 open many
release QA1 open cases=1
released
release QA1 close cases=0
release QC1 open cases=0
release QC1 close cases=3
released QA1=1 VT_DEAD=1 M1_AA=0
depends QA1=1 M1_AA=-2147483648..-1|6..2147483647 on t1 LOCK
blocked QA1=0|2|3
lost QA1 open released
lost QA1 close blocked
lost QC1 open depends on t1 LOCK
lost QC1 close released
'''


class Answers(unittest.TestCase):
    def test_all_kinds_of_lines(self):
        found = read(ANSWER, KEYS)
        self.assertEqual(found.report, LOADED.rstrip())
        self.assertEqual([(it.line, it.name, it.way, it.verdict, it.cases) for it in found.rules],
                         [(1, 'QA1', 0, 'holds', 1), (2, 'QC1', 1, 'open', 0),
                          (3, 'QC1', 1, 'broken', 0), (4, 'QC1', 1, 'open', 0),
                          (5, 'QC1', 0, 'many', 0)])
        self.assertEqual(found.rules[1].case, Case({DEAD: ((0, 0),)}, ('t1',)))
        self.assertEqual(found.rules[2].case.values[QA1], ((0, 0), (2, 2), (3, 3)))
        self.assertEqual([(it.name, it.way, len(it.cases)) for it in found.releases],
                         [('QA1', 0, 1), ('QA1', 1, 0), ('QC1', 0, 0), ('QC1', 1, 2)])
        self.assertEqual(found.releases[0].cases, [Case({})])
        self.assertEqual(found.releases[3].blocked,
                         [Case({QA1: ((0, 0), (2, 2), (3, 3))})])
        self.assertEqual(found.releases[3].cases[1], Case(
            {QA1: ((1, 1),), AA: ((-2 ** 31, -1), (6, 2 ** 31 - 1))}, ('t1', 'LOCK')))

    def test_of_several_answers_on_one_line_the_worst_counts(self):
        found = read(LOADED + 'rule 1 QA1 open holds cases=2\nrule 1 QA1 close broken ES=1\n'
                     'rule 1 QA1 close many\n', KEYS | {(INPUT, 'ES')})
        self.assertEqual(found.of_line(1).verdict, 'broken')
        self.assertIsNone(found.of_line(2))

    def test_a_switch_and_an_input_of_one_name(self):
        both = KEYS | {(INPUT, 'QA1')}
        case = read(LOADED + 'rule 1 QA1 open broken QA1=1 QA1=0\n', both).rules[0].case
        self.assertEqual(case.values, {QA1: ((1, 1),), (INPUT, 'QA1'): ((0, 0),)})

    def test_a_case_that_depends_on_a_calculation(self):
        """`LD M1_AA`, `MUL 3`, `GT 12`, of which no range is followed."""
        text = LOADED + ('rule 1 QA1 close open M1_AA=3\nrelease QA1 close cases=2\n'
                         'depends M1_AA=3\ndepends M1_AA=4..11 on M1_AA\n')
        found = read(text, KEYS)
        self.assertEqual(found.rules[0].case, Case({AA: ((3, 3),)}, (COMPUTED,)))
        self.assertEqual([case.kept for case in found.releases[0].cases], [(COMPUTED,), ('M1_AA',)])
        told = proofs.conditions(found, FILE)['QA1', 1].lines()
        self.assertEqual(told, [f'M1_AA 3 (depends on {COMPUTED})',
                                'M1_AA >= 4 and M1_AA <= 11 (depends on M1_AA)'])
        audit = prove('never QA1 close when M1_AA = 3\n', text)
        self.assertIn(f'holds, unless {COMPUTED} breaks it with M1_AA 3',
                      verdicts.lines_of(audit, audit.findings[0])[1])

    def test_what_is_released_while_the_process_is_lost(self):
        found = read(ANSWER, KEYS)
        self.assertEqual([(it.name, it.way, it.state, it.kept) for it in found.lost], [
            ('QA1', 0, 'released', ()), ('QA1', 1, 'blocked', ()),
            ('QC1', 0, 'depends', ('t1', 'LOCK')), ('QC1', 1, 'released', ())])
        one, = read(LOADED + 'lost QC1 open depends\n', KEYS).lost
        self.assertEqual(one.kept, (COMPUTED,))
        self.assertEqual(read(LOADED, KEYS).lost, [])

    def test_lines_that_are_none_of_an_answer(self):
        for odd in ('', 'load refused 53\n', LOADED + 'rules\n',
                    *(LOADED + f'rule {told}\n' for told in (
                        'x QA1 open holds cases=1', '1 holds cases=1', '1 QX open holds cases=1',
                        '1 QA1 shut holds cases=1', '1 QA1 open', '1 QA1 open holds',
                        '1 QA1 open holds cases=1 by', '1 QA1 open holds cases=x',
                        '1 QA1 open perhaps', '1 QA1 open timed', '1 QA1 open many QA1=0',
                        '1 QA1 open broken QX=0', '1 QA1 open broken QA1',
                        '1 QA1 open broken QA1=', '1 QA1 open broken QA1=0..',
                        '1 QA1 open broken M1_AA=5..4', '1 QA1 open broken M1_AA=2147483648')),
                    LOADED + 'release QX open cases=0\n', LOADED + 'release QA1 shut cases=0\n',
                    LOADED + 'release QA1 open cases=2\nblocked QA1=0\n',
                    LOADED + 'release QA1 open cases=1\nQA1=0\n',
                    LOADED + 'release QA1 open cases=1\ndepends QA1=0 on\n',
                    LOADED + 'release QA1 open cases=1\ndepends QA1=0 by t1\n',
                    LOADED + 'release QA1 open cases=1\nreleased QA1=0 by t1\n',
                    LOADED + 'release QA1 open cases=1\nreleased QA1=0 by\n',
                    LOADED + 'release QA1 open cases=1\nperhaps QA1=0\n',
                    LOADED + 'lost QX open released\n', LOADED + 'lost QA1 shut released\n',
                    LOADED + 'lost QA1 open\n', LOADED + 'lost QA1 open perhaps\n',
                    LOADED + 'lost QA1 open depends on\n', LOADED + 'lost QA1 open depends t1\n',
                    LOADED + 'lost QA1 open blocked by t1\n',
                    LOADED + 'lost QA1 open released QA1=3\n',
                    LOADED + 'rule 1 QA1 open many\n\n'):
            with self.assertRaises(Bad, msg=odd):
                read(odd, KEYS)


class Asking(Tools):
    def bayctl(self, printed, status=0, commands='  audit    Proves rules\n'):
        """A program in the place of bayctl: its help, and its answer on rules."""
        path = self.file('bayctl', f'#!{sys.executable}\nimport sys\n'
                         f'if "--help" in sys.argv:\n    sys.exit(print({commands!r}) or 2)\n'
                         'if sys.argv[1] != "audit":\n'
                         '    sys.stdin.buffer.read()\n'
                         f'    print({LOADED!r}, end="")\n'
                         '    print("0 scan steps=0 QA1=11 QC1=11\\n" * 40, end="")\n'
                         '    sys.exit(0)\n'
                         f'print({printed!r}, end="")\nsys.exit({status})\n')
        path.chmod(0o755)
        return path

    def answer(self, *more):
        return questions.answer_of(self.bayctl(*more), 'bay', 'logic', 'rules', KEYS)

    def test_a_program_that_has_no_such_command(self):
        self.assertIsNone(self.answer(ANSWER, 0, '  check    Checks, and is no audit\n'))
        self.assertIsNone(questions.releases_of(self.bayctl('', 0, ''), 'bay', 'logic', KEYS))

    def test_releases_are_asked_for_with_a_rule_that_asks_nothing(self):
        keys = {(SWITCH, 'CLOSED'), (SWITCH, 'QB1'), (INPUT, 'A')}
        rule, = read_rules(questions.any_rule(keys), keys)
        self.assertEqual((rule.switch, rule.can_apply()), ('QB1', False))
        found = questions.releases_of(self.bayctl(ANSWER), 'bay', 'logic', KEYS)
        self.assertEqual((found.rules, len(found.releases)), ([], 4))

    def test_statuses(self):
        for status in (0, 4):
            self.assertEqual(len(self.answer(ANSWER, status).rules), 5)
        for printed, status, told in (
                (LOADED + 'rules refused 142 line 7\n', 1,
                 'rules: line 7: bayctl refuses it with 142: A rule has a name that no switch,'),
                (LOADED + 'rules refused 9 line 7\n', 1, 'line 7: bayctl refuses it with 9'),
                ('load refused 53\n', 1, 'bayctl audit: load refused 53 (tools/diagnose tells why'),
                ('fault 121\n', 3, 'bayctl audit: fault 121'),
                ('', 3, 'bayctl audit: it ended with status 3'),
                (LOADED + 'nonsense\n', 0, 'can\'t read: nonsense')):
            with self.assertRaises(Failed) as raised:
                self.answer(printed, status)
            self.assertIn(told, str(raised.exception))

    def test_the_tool(self):
        bay = ('[bay]\ndomain = "B"\nvendor = "V"\nmodel = "M"\nrevision = "1"\n[[switch]]\n'
               'id = "QA1"\nkind = "breaker"\n[[switch]]\nid = "QC1"\nkind = "earthing"\n'
               '[[input]]\nname = "VT_DEAD"\n')
        words = [self.file('bay', bay), self.file('logic', 'PROGRAM p\nEND_PROGRAM\n')]
        rules = 'always QA1 open when VT_DEAD\nnever QC1 close when QA1 not open\n'
        printed = LOADED + ('rule 1 QA1 open holds cases=2\nrule 2 QC1 close broken QA1=0\n'
                            'lost QA1 open released\nlost QA1 close blocked\n'
                            'lost QC1 open released\nlost QC1 close depends on t1\n')
        found = self.call_tool('audit', *words, self.file('rules', rules), '--bayctl',
                               self.bayctl(printed, 4))
        self.assertEqual((found.status, found.out.splitlines()[:5]), (1, [
            'PROVED: QA1 may always be opened when VT_DEAD',
            'BROKEN: never QC1 close when QA1 not open',
            '    proved: broken in every state that the program can reach, with QA1 intermediate',
            '    tried: broken in 6 of 6 combinations, first by QA1 intermediate, VT_DEAD 0',
            '    replay broken_2.scenario, which shows it']), found)
        at = found.out.splitlines().index(
            'When the process is lost (each position is bad, each input 0):')
        self.assertEqual(found.out.splitlines()[at + 1:at + 5], [
            '         open      close', '    QA1  released  blocked',
            '    QC1  released  depends on t1', 'WARNING: QC1 may be opened while the process is '
            'lost: each position is bad and each input 0'])
        scenario = (self.folder / 'broken_2.scenario').read_text()
        self.assertTrue(scenario.endswith('%%\n0 contact QA1 0\n0 contact QC1 1\n'
                                          '0 input VT_DEAD 0\n0 scan\n'))
        found = self.call_tool('audit', *words, self.file('rules', rules.split('\n')[0] + '\n'),
                               '--inputs', 'VT_DEAD=1', '--bayctl',
                               self.bayctl(LOADED + 'rule 1 QA1 open holds cases=2\n'))
        self.assertEqual(found.out.splitlines()[0],
                         'RESTRICTED: VT_DEAD only 1. This bears on what is tried alone.')
        self.assertEqual((found.out.splitlines()[-1], found.status), (
            'PROVED: the rule is proved; the restriction bears on nothing that is proved.', 0))


def prove(rules, printed, **more):
    return audit_rules(rules, answer=read(printed, KEYS), **more)


class Warned(Tools):
    def test_what_is_proved_of_releases(self):
        printed = LOADED + ''.join(f'release {name} {way} cases=0\n' for name, way in (
            ('QA1', 'open'), ('QA1', 'close'), ('QC1', 'open'))) + (
            'release QC1 close cases=2\nreleased QA1=1 VT_DEAD=1\ndepends M1_AA=5 on t1\n')
        found = questions.proved_of(Asking.bayctl(self, printed), 'bay', 'logic', FILE)
        self.assertEqual(found.never, {('QA1', 'opened'), ('QA1', 'closed'), ('QC1', 'opened')})
        self.assertEqual(found.points, {'QA1_POS', 'QA1_OPEN', 'QA1_CLOSED', 'VT_DEAD', 'M1_AA'})
        self.assertEqual(found.kept, {'T1'})


def page_of(found):
    return Report(found, {}, __file__, 0).page()


class Verdicts(unittest.TestCase):
    def lines(self, found):
        return [verdicts.lines_of(found, it) for it in found.findings]

    def test_each_line_says_what_is_proved_and_what_was_tried(self):
        found = prove(RULES, ANSWER)
        self.assertEqual(self.lines(found), [
            ['PROVED: QA1 may always be opened'],
            ['OPEN: never QC1 close when not VT_DEAD',
             'holds, unless t1 breaks it with VT_DEAD 0; tried in 4 combinations, no break found'],
            ['BROKEN: never QC1 close when QA1 not open',
             'proved: broken in every state that the program can reach, with '
             'QA1 intermediate|closed|bad, '
             'VT_DEAD 1',
             verdicts.DOUBTED],
            ['OPEN: never QC1 close until VT_DEAD for 5s',
             'holds, unless t1 or LOCK breaks it with VT_DEAD 1; tried in 8 combinations, no break '
             'found'],
            ['OPEN: never QC1 open',
             'there are too many cases to prove it; tried in 8 combinations, no break found']])
        self.assertEqual((verdicts.status(found), verdicts.verdict(found)), (
            1, 'NOT PASSED: of 5 rules 1 proved, 1 broken, 3 open.'))

    def test_a_rule_with_a_time_that_a_timer_bears(self):
        found = prove(RULES.split('\n')[3] + '\n',
                      LOADED + 'rule 1 QC1 close holds cases=11 by t1\n')
        self.assertEqual(found.answer.rules[0].timer, 't1')
        self.assertEqual(self.lines(found), [
            ['PROVED: no command to close QC1 until VT_DEAD for 5s (by timer t1)']])
        self.assertEqual((verdicts.status(found), verdicts.verdict(found)),
                         (0, 'PASSED: the rule is proved.'))

    def test_verdicts(self):
        held = 'rule 1 QA1 open holds cases=3\n'
        for rules, printed, status, told in (
                ('always QA1 open\n', held, 0, 'PASSED: the rule is proved.'),
                ('look M1_AA 0|5\nalways QA1 open\n', 'rule 2 QA1 open holds cases=1\n', 0,
                 'PROVED: the rule is proved; the restriction bears on nothing that is proved.'),
                ('look QA1 open\nalways QA1 open\n', 'rule 2 QA1 open holds cases=1\n', 0,
                 'PROVED: the rule is proved; the restriction bears on nothing that is proved.'),
                ('always QA1 open when VT_DEAD and not VT_DEAD\n',
                 'rule 1 QA1 open holds cases=2\n', 4,
                 'NOT ALL WAS PROVED OR TRIED: the rule never applied.'),
                ('always QA1 open\nnever QC1 open\n', held + 'rule 2 QC1 open open by t1\n', 4,
                 'NOT ALL WAS PROVED OR TRIED: of 2 rules 1 proved, 1 open; M1_AA was tried only '
                 '0.')):
            found = prove(rules, LOADED + printed)
            self.assertEqual((verdicts.status(found), verdicts.verdict(found)), (status, told))

    def test_timed_rules_beside_what_is_proved(self):
        file = {**FILE, 'meter': []}
        logic = 'PROGRAM p\nVAR_EXTERNAL\nQA1_OPEN, VT_DEAD : BOOL;\nEND_VAR\nLD VT_DEAD\n' \
            'AND QA1_OPEN\nEND_PROGRAM\n'
        held = LOADED + 'rule 1 QA1 open holds cases=1\n'
        found = prove('always QA1 open\nnever QC1 open\n', held + 'rule 2 QC1 open open by t1\n',
                      file=file, logic=logic)
        self.assertEqual((verdicts.status(found), verdicts.verdict(found)), (
            4, 'NOT ALL WAS PROVED OR TRIED: of 2 rules 1 proved, 1 open.'))
        found = prove('always QA1 open\nnever QC1 close until VT_DEAD for 5s\n',
                      held + 'rule 2 QC1 close holds cases=1\n', file=file, logic=logic)
        self.assertEqual((verdicts.status(found), verdicts.verdict(found)), (
            0, 'PASSED: all 2 rules are proved.'))

    def test_a_rule_with_a_time_that_is_broken(self):
        for released, wanted in ((6000, True), (5000, False)):
            finding, = prove(AFTER, LOADED + 'rule 1 QC1 close broken QA1=1 VT_DEAD=1\n',
                             time=released).findings
            self.assertEqual(finding.shown.lines[-2:], ['0 scan', '5000 scan'])
            self.assertEqual((finding.shown.is_so, finding.is_doubted()), (wanted, not wanted))
            finding, = prove(UNTIL, LOADED + 'rule 1 QC1 close broken QA1=1|2\n',
                             time=released - 2000).findings
            self.assertEqual(finding.shown.state, {
                **finding.shown.state, QA1: 1, DEAD: 1, AA: -2 ** 31})
            self.assertEqual(finding.shown.lines[-2:], ['0 scan', '4999 scan'])
            self.assertTrue(finding.shown.is_so)
        found = prove(AFTER, LOADED + 'rule 1 QC1 close holds cases=2\n')
        self.assertEqual(self.lines(found), [
            ['PROVED: QC1 may always be closed after VT_DEAD for 5s when QA1 open']])

    def test_a_replay_that_speaks_against_a_proof(self):
        found = prove('never QA1 open\n', LOADED + 'rule 1 QA1 open holds cases=1\n')
        self.assertEqual((found.findings[0].verdict(), verdicts.status(found)), ('BROKEN', 1))
        self.assertIn(verdicts.DOUBTED, self.lines(found)[0])

    def test_what_is_settled_is_not_tried_where_that_is_much(self):
        look = 'look M1_AA ' + '|'.join(map(str, range(10_000))) + '\n'
        found = prove(look + 'always QA1 open\n', LOADED + 'rule 2 QA1 open holds cases=1\n')
        self.assertEqual((len(found.table), verdicts.status(found)), (0, 0))
        self.assertEqual(rule_findings.uncovered_release(found), {})
        with mock.patch.multiple('baytools.audit.rule_findings', USUAL=4, WHOLE=100):
            rules, answer = 'always QA1 open\n', LOADED + 'rule 1 QA1 open holds cases=2\n'
            self.assertEqual([len(prove(rules, answer, is_table_asked=it).table)
                              for it in (False, True)], [0, 8])
        with mock.patch.multiple('baytools.audit.rule_findings', USUAL=4, WHOLE=4, SAMPLED=5):
            self.assertEqual(len(prove(rules, answer, is_table_asked=True).table), 5)

    def test_what_is_released_while_the_process_is_lost(self):
        found = prove(RULES, ANSWER)
        self.assertEqual(proofs.lost_table(found.answer, FILE), [
            ('QA1', 'released', 'blocked'), ('QC1', 'depends on t1, LOCK', 'released')])
        self.assertEqual(verdicts.lost_warnings(found), [
            'QC1 may be closed while the process is lost: each position is bad and each input 0'])
        self.assertIn('<h2>When the process is lost</h2>', page_of(found))
        self.assertIn('QC1 may be closed while the process is lost', page_of(found))
        breaker = prove('always QA1 open\n', LOADED + 'rule 1 QA1 open holds cases=1\n'
                        'lost QA1 open released\nlost QA1 close released\n'
                        'lost QC1 open released\n')
        self.assertEqual([it.split(' while')[0] for it in verdicts.lost_warnings(breaker)],
                         ['QA1 may be closed', 'QC1 may be opened'])

    def test_what_is_released_after_a_restart(self):
        text = (LOADED + 'rule 1 QA1 open holds cases=1\n'
                'release QC1 close cases=2\ndepends M1_AA=0 on LOCK\nblocked M1_AA=1\n'
                'start QA1 open released\nstart QA1 close released\n'
                'start QC1 open blocked\nstart QC1 close depends on M1_AA\n')
        found = prove('always QA1 open\n', text)
        self.assertEqual(proofs.start_table(found.answer, FILE), [
            ('QA1', 'released', 'released'), ('QC1', 'blocked', 'depends on M1_AA')])
        self.assertEqual(verdicts.start_warnings(found), [
            'QA1 may be closed right after a restart, whatever the process reports',
            'QC1 may be closed right after a restart, which forgets LOCK'])
        self.assertIn('<h2>After a restart</h2>', page_of(found))
        self.assertIn('which forgets LOCK', page_of(found))
        locked = prove('always QA1 open\n', text.replace('close depends on M1_AA', 'close blocked')
                       .replace('start QA1 close released', 'start QA1 close depends on M1_AA'))
        self.assertEqual(verdicts.start_warnings(locked), [])

    def test_a_bayctl_that_does_not_tell_it(self):
        for found in (audit_rules('always QA1 open\n'),
                      prove('always QA1 open\n', LOADED + 'rule 1 QA1 open holds cases=1\n')):
            self.assertEqual(proofs.lost_table(found.answer, FILE), [])
            self.assertEqual(verdicts.lost_warnings(found), [])
            self.assertEqual(proofs.start_table(found.answer, FILE), [])
            self.assertEqual(verdicts.start_warnings(found), [])
            self.assertNotIn('process is lost', page_of(found))

    def test_the_report(self):
        page = page_of(prove(RULES, ANSWER))
        for told in ('proved: QA1 may always be opened', '<span class="mark good">PROVED</span>',
                     'holds, unless t1 breaks it with VT_DEAD 0; tried in 4', 'NOT PASSED: of 5',
                     '(depends on t1, LOCK)', '<b>Proved</b>: bayctl runs', 'as it is proved'):
            self.assertIn(told, page)
        self.assertNotIn('Nothing is proved', page)

    def test_a_rule_of_which_nothing_is_said(self):
        with self.assertRaisesRegex(Failed, 'says nothing of the rule of line 1'):
            prove('always QA1 open\n', LOADED)


class Scenarios(unittest.TestCase):
    def test_a_state_of_a_case(self):
        case = Case({QA1: ((2, 2), (3, 3)), AA: ((5, 9),)})
        self.assertEqual(proofs.complete_state(case, list(all_things(FILE)))[QA1], 2)
        self.assertEqual(proofs.complete_state(case, list(all_things(FILE)))[AA], 5)
        self.assertEqual(proofs.complete_state(Case({}), list(all_things(FILE)))[QC1], 1)

    def test_a_case_in_words(self):
        case = Case({QA1: ((0, 0), (2, 3)), DEAD: ((1, 1),), AA: ((-2 ** 31, -1), (6, 9))})
        self.assertEqual(proofs.case_text(case, list(all_things(FILE))),
                         'QA1 intermediate|closed|bad, VT_DEAD 1, M1_AA up to -1|6 to 9')


class Cubes(unittest.TestCase):
    SIZES = [4, 2, 3]

    def all_of(self, cube):
        return {(a, b, c) for a in range(4) for b in range(2) for c in range(3)
                if cube[0] >> a & 1 and cube[1] >> b & 1 and cube[2] >> c & 1}

    def test_products_are_what_the_cubes_are(self):
        rng = random.Random(7)
        for _ in range(300):
            cubes = [tuple(rng.randrange(1, 1 << size) for size in self.SIZES)
                     for _ in range(rng.randrange(6))]
            wanted = set().union(*map(self.all_of, cubes)) if cubes else set()
            for most in (20_000, 0):  # exactly, and by growing
                with mock.patch('baytools.bay.cubes.EXACT', most):
                    found, _ = products_of(cubes, self.SIZES)
                self.assertEqual(set().union(*map(self.all_of, found)) if found else set(), wanted)
                for one in found:
                    self.assertFalse(is_covered(one, [it for it in found if it != one]))
            cube = tuple(rng.randrange(1, 1 << size) for size in self.SIZES)
            self.assertEqual(is_covered(cube, cubes), self.all_of(cube) <= wanted)

    def test_never_and_always(self):
        self.assertEqual(condition_of([], []).text(), 'never')
        self.assertEqual(condition_of([], [()]).text(), 'always')

    def test_measures_are_compared(self):
        ranges = ((-2 ** 31, 4), (5, 5), (6, 2 ** 31 - 1))
        variable = Variable('M1_AA', ('a', 'b', 'c'), ranges=ranges)
        for bits, told in ((1, 'M1_AA <= 4'), (2, 'M1_AA 5'), (4, 'M1_AA >= 6'),
                           (3, 'M1_AA <= 5'), (5, '(M1_AA <= 4 or M1_AA >= 6)')):
            self.assertEqual(condition_of([variable], [(bits,)]).text(), told)
        self.assertEqual([variable.word_of(it) for it in ('-9', '5', '6')], ['a', 'b', 'c'])


class Conditions(unittest.TestCase):
    FOUND = proofs.conditions(read(ANSWER, KEYS), FILE)

    def test_releases_with_what_they_hang_on(self):
        told = {key: it.lines() for key, it in self.FOUND.items()}
        self.assertEqual(told[('QA1', 0)], ['always'])
        self.assertEqual(told[('QC1', 0)], ['never'])
        self.assertEqual(told[('QC1', 1)], [
            'QA1 open and VT_DEAD and M1_AA 0',
            'QA1 open and (M1_AA <= -1 or M1_AA >= 6) (depends on t1, LOCK)'])

    def test_what_no_rule_asks_for(self):
        """By the cases that are proved, though not all was tried: the part of each that lies in no
        rule."""
        rules = ('always QA1 open\nalways QC1 close when QA1 open and VT_DEAD and M1_AA >= 0\n'
                 'always QC1 close after VT_DEAD for 5s when M1_AA > 9\n')
        held = ''.join(f'rule {line} {way} holds cases=1\n' for line, way in (
            (1, 'QA1 open'), (2, 'QC1 close'), (3, 'QC1 close')))
        found = prove(rules, LOADED + held + ANSWER[ANSWER.index('release'):])
        bare = rule_findings.uncovered_release(found)
        self.assertEqual({key: (count, it.lines()) for key, (count, it) in bare.items()}, {
            ('QC1', 1): (None, ['QA1 open and M1_AA <= -1 (depends on t1, LOCK)',
                                'QA1 open and not VT_DEAD and (M1_AA <= -1 or M1_AA >= 6) '
                                '(depends on t1, LOCK)'])})
        self.assertIn('is released, as proved, and no rule with', page_of(found))
        self.assertIn('and M1_AA &lt;= -1 (depends on', page_of(found))

    def test_it_is_exact(self):
        rng, words = random.Random(3), ('QA1 open', 'QA1 not bad', 'VT_DEAD', 'not VT_DEAD',
                                        'M1_AA > 3', 'M1_AA <= 5', 'QC1 open|closed')
        for _ in range(60):
            cases = [self.any_case(rng) for _ in range(rng.randrange(4))]
            text = ''.join(f'always QC1 close when {rng.choice(words)} and {rng.choice(words)}\n'
                           for _ in range(rng.randrange(3)))
            rules = read_rules(text, KEYS)
            told = proofs.derive_release(answers.Release('QC1', 1, cases), FILE, rules)
            for _ in range(40):
                state = {QA1: rng.randrange(4), QC1: rng.randrange(4), DEAD: rng.randrange(2),
                         AA: rng.randrange(-1, 9)}
                is_given = any(all(case.allows(*it) for it in state.items()) for case in cases)
                is_asked = any(rule.condition(state) for rule in rules)
                self.assertEqual(self.is_true(told.condition, state), is_given and not is_asked)

    @staticmethod
    def any_case(rng):
        values = {QA1: ((rng.randrange(4),) * 2,), DEAD: ((rng.randrange(2),) * 2,),
                  AA: ((-2 ** 31, rng.randrange(3)), (rng.randrange(3, 6), 7))}
        return Case({key: it for key, it in values.items() if rng.randrange(3)})

    @staticmethod
    def is_true(condition, state):
        values = {name: value for (_, name), value in state.items()}
        return any(all((it.word_of(str(values[it.name])) if it.ranges else
                        it.values[values[it.name]]) in words for it, words in product)
                   for product in condition.facts)

    def test_cases_that_are_too_many(self):
        answer = read(LOADED + 'release QA1 open many\nrelease QA1 close cases=0\n', KEYS)
        found = proofs.conditions(answer, FILE)
        self.assertIsNone(found['QA1', 0])
        self.assertEqual(found['QA1', 1].lines(), ['never'])

    def test_why_not(self):
        closing = self.FOUND['QC1', 1]
        for position, value, told in (
                ('closed', 7, 'QA1 is closed and must be open'),
                ('open', 7, 'the program does not release it yet: it depends on t1, LOCK'),
                ('open', 0, 'input VT_DEAD must be 1 (not seen here)')):
            seen = Seen({'QA1': position}, {'M1_AA': value})
            self.assertIn(told, why_not(closing, seen))


class Comparisons(unittest.TestCase):
    def test_rules_that_never_apply(self):
        for text, can in (('M1_AA < 5 and M1_AA > 4', False), ('M1_AA <= 5 and M1_AA > 4', True),
                          ('QA1 open and QA1 closed', False), ('not QA1 not bad', True),
                          ('M1_AA 0 and M1_AB 0', True), ('M1_AA <> 5', True)):
            rule, = read_rules(f'never QC1 close when {text}\n', KEYS)
            self.assertEqual(rule.can_apply(), can, text)
        rule, = read_rules('never QC1 close\n', KEYS)
        self.assertTrue(rule.can_apply())

    def test_rules_compare_measures(self):
        for text, value, holds in (('M1_AA < 5', 4, True), ('M1_AA<5', 5, False),
                                   ('M1_AA >= -5', -5, True), ('M1_AA <> 5', 5, False),
                                   ('M1_AA = 5', 5, True), ('M1_AA <= 5 and M1_AA > 1', 6, False)):
            rule, = read_rules(f'never QC1 close when {text}\n', KEYS)
            self.assertEqual(rule.condition({AA: value}), holds, text)
        self.assertEqual(answers.MOST, 2 ** 31 - 1)


if __name__ == '__main__':
    unittest.main()
