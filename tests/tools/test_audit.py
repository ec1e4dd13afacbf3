"""Audits without bayctl: a small interlocking in Python answers in its place."""
import re
import unittest
import xml.etree.ElementTree as ET
from unittest import mock

from baytools.audit import rule_findings, matrix, program_inputs, replays, verdicts
from baytools.audit.page import Report
from baytools.audit.variables import bay_of, keys_of
from baytools.bay.rules import (INPUT, MEASURE, SWITCH, BadOption, BadRule, Look, looked_at,
                                looks_of_option, read_looks, read_rules, time_of, value_of)
from baytools.common.ending import UsageError
from baytools.common.svg import SMALL
from baytools.report.bayctl import TRY
from tests.tool import Tools, zone

FILE = {'bay': {'domain': 'E1', 'vendor': 'V', 'model': 'M', 'revision': '1'},
        'switch': [{'id': 'QA1', 'kind': 'breaker'}, {'id': 'QC1', 'kind': 'earthing'}],
        'input': [{'name': 'VT_DEAD'}, {'name': 'SPARE'}], 'meter': [{'id': 'M1'}]}
LOGIC = '''PROGRAM p
VAR_EXTERNAL
    QA1_OPEN, VT_DEAD : BOOL;
    M1_AA : DINT;
    QC1_ENA_CLS : BOOL;
END_VAR
VAR
    t1 : TON;
END_VAR
    CAL t1(IN := VT_DEAD, PT := T#5s)
    LD t1.Q
    AND QA1_OPEN
    AND( M1_AA
        EQ 0
    )
    ST QC1_ENA_CLS
END_PROGRAM
'''


class Interlocking:
    """QC1 may be closed with QA1 open once VT_DEAD has been seen for a time."""

    def __init__(self, time):
        self.time, self.values, self.since = time, {'QA1': 0, 'VT_DEAD': 0}, None

    def scans(self, bayctl, octets):
        for line in octets.decode().rpartition('%%\n')[2].splitlines():
            moment, verb, *words = line.split(' ')
            if verb in ('contact', 'input'):
                self.values[words[0]] = int(words[1])
            elif verb == 'scan':
                yield self.scan(int(moment))

    def scan(self, moment):
        if not self.values['VT_DEAD']:
            self.since = None
        elif self.since is None:
            self.since = moment
        ended = self.since is not None and moment - self.since >= self.time
        return {'QA1': (True, False), 'QC1': (False, ended and self.values['QA1'] == 1)}


class Pulse(Interlocking):
    """QC1 may be closed for a tenth of a second behind VT_DEAD, and never again."""

    def scan(self, moment):
        found = super().scan(moment)
        is_new = self.since is not None and moment - self.since < 100
        return {**found, 'QC1': (False, is_new)}


class Held(Interlocking):
    """QC1 may be closed 5 s behind VT_DEAD, but at once where QA1 was closed as VT_DEAD began."""

    last = was_closed = False

    def scan(self, moment):
        if self.values['VT_DEAD'] and self.since is None:
            self.was_closed = self.last
        found, self.last = super().scan(moment), self.values['QA1'] == 2
        if self.since is not None and self.was_closed:
            found['QC1'] = (False, True)
        return found


def audit_rules(rules, time=5000, logic=LOGIC, kind=Interlocking, pause=None, file=FILE, given=(),
                answer=None, is_table_asked=False):
    found, known = program_inputs.read(logic), keys_of(file)
    read = read_rules(rules, known)
    named = {key for rule in read for key in rule.names}
    looks = looked_at(read_looks(rules), known) | looked_at(list(given), known)
    bay = bay_of(file, ('bay', logic), found, looks, named)
    with mock.patch('baytools.audit.rule_findings.scans_of', kind(time).scans), \
            mock.patch('baytools.audit.proofs.scans_of', kind(time).scans), \
            mock.patch('sys.stderr'):
        return rule_findings.audit(bay, read, None, pause, answer, is_table_asked)


def verdicts_of(rules, time=5000):
    return [it.verdict() for it in audit_rules(rules, time).findings]


UNTIL = 'never QC1 close until VT_DEAD for 5s\n'
AFTER = 'always QC1 close after VT_DEAD for 5s when QA1 open\n'


class Programs(unittest.TestCase):
    def test_what_is_read(self):
        found = program_inputs.read(LOGIC)
        self.assertEqual(found.points, {'QA1_OPEN', 'VT_DEAD', 'M1_AA'})
        self.assertEqual((found.times, found.timers, found.untold), ([5000], 1, []))
        self.assertEqual(found.moments(), [4999, 5000])

    def test_a_time_that_is_a_variable(self):
        text = LOGIC.replace('T#5s', 'delay').replace('t1 : TON;', 't1 : TON;\n{}')
        kept = program_inputs.read(text.replace('{}', 'delay : TIME := T#2s;'))
        self.assertEqual(kept.times, [2000])
        changed = program_inputs.read(text.replace('{}', 'delay : TIME;'))
        self.assertEqual((changed.times, changed.untold), ([], ['t1']))

    def test_a_text_that_is_no_program(self):
        found = program_inputs.read('no program')
        self.assertTrue(found.reads('ANY') and found.reads_switch('ANY'))


class Rules(unittest.TestCase):
    def test_times(self):
        self.assertEqual([time_of(word) for word in ('5S', '1M30S', '500MS', '1H')],
                         [5000, 90_000, 500, 3_600_000])
        for word in ('5', 'S', '5X', '0S', '99999999H'):
            with self.assertRaises(BadRule):
                time_of(word)

    def test_words_that_do_not_go_together(self):
        for rule in ('never QC1 close after VT_DEAD for 5s', 'never QC1 close until VT_DEAD',
                     'always QC1 close until VT_DEAD for 5s', 'never QC1 close until VT_DEAD for'):
            with self.assertRaises(BadRule):
                read_rules(rule, {(SWITCH, 'QC1'), (INPUT, 'VT_DEAD')})

    def test_parentheses_that_are_too_deep(self):
        for text in ('(' * 400 + 'VT_DEAD' + ')' * 400, 'not ' * 400 + 'VT_DEAD'):
            with self.assertRaisesRegex(BadRule, 'within each other'):
                read_rules(f'never QC1 close when {text}', {(SWITCH, 'QC1'), (INPUT, 'VT_DEAD')})


class Values(unittest.TestCase):
    """The words that a value has: of a switch positions, of an input truths."""
    KNOWN = keys_of(FILE)

    def values(self, text):
        return looked_at(read_looks(text), self.KNOWN)

    def test_words(self):
        self.assertEqual([value_of(SWITCH, it) for it in ('open', 'CLOSED', 'off', 'ON', '1')],
                         [1, 2, 1, 2, None])
        self.assertEqual([value_of(INPUT, it) for it in ('0', '1', 'TRUE', 'false', 'on', '2')],
                         [0, 1, 1, 0, None, None])
        self.assertEqual([value_of(MEASURE, it) for it in ('-5', '007', '2147483648', '9' * 5000,
                                                           'open')], [-5, 7, None, None, None])

    def test_an_input_has_no_position(self):
        told = 'line 1, column 12: open is not a value of the input SPARE'
        with self.assertRaisesRegex(BadRule, told):
            self.values('look SPARE open')
        with self.assertRaisesRegex(BadOption, 'SPARE=open: open is not a value of the input'):
            looked_at(looks_of_option('--inputs', 'SPARE=open', INPUT), self.KNOWN)
        with self.assertRaisesRegex(BadRule, 'open is not a value of the input'):
            read_rules('never QC1 close when SPARE open', self.KNOWN)

    def test_only_an_input_stands_alone(self):
        self.assertEqual(read_rules('never QC1 close when SPARE', self.KNOWN)[0].names,
                         {(INPUT, 'SPARE')})
        for name, kind in (('M1_AA', MEASURE), ('QA1', SWITCH)):
            with self.assertRaisesRegex(BadRule, f'the end is not a value of the {kind} {name}'):
                read_rules(f'never QC1 close when {name}', self.KNOWN)

    def test_blanks_between_values(self):
        self.assertEqual(self.values('look QA1 open | closed |bad'), {(SWITCH, 'QA1'): [1, 2, 3]})

    def test_a_switch_has_no_truth(self):
        with self.assertRaisesRegex(BadRule, 'TRUE is not a value of the switch QA1'):
            self.values('look QA1 TRUE')

    def test_a_second_look_of_a_name(self):
        with self.assertRaisesRegex(BadRule, 'line 2: QA1 is in line 1 already'):
            self.values('look QA1 open\nlook qa1 on')

    def test_a_value_that_is_given_twice(self):
        with self.assertRaisesRegex(BadRule, 'FALSE is given twice'):
            self.values('look SPARE 0|FALSE')

    def test_options_are_for_things_of_their_kind(self):
        for option, text, told in (('--inputs', 'QA1=open', 'QA1 is a switch'),
                                   ('--switches', 'QA1=openn', 'openn is not a value of the'),
                                   ('--switches', 'QA1', 'the form is NAME=VALUE|VALUE'),
                                   ('--measures', 'M9_AA=0', 'M9_AA is not in the bay')):
            kind = {'--inputs': INPUT, '--switches': SWITCH, '--measures': MEASURE}[option]
            with self.assertRaisesRegex(BadOption, re.escape(f'{option} {text}: {told}')):
                looked_at(looks_of_option(option, text, kind), self.KNOWN)

    def test_a_switch_and_an_input_of_one_name(self):
        file = {**FILE, 'input': [{'name': 'QA1'}, {'name': 'VT_DEAD'}]}
        logic = LOGIC.replace('QA1_OPEN, ', 'QA1_OPEN, QA1, ').replace('LD t1.Q', 'LD QA1')
        read = read_rules('never QC1 close when QA1 not open and QA1\n', keys_of(file))
        self.assertEqual(read[0].names, {(SWITCH, 'QA1'), (INPUT, 'QA1')})
        found = audit_rules('never QC1 close when QA1 not open and QA1\n', file=file, logic=logic)
        self.assertEqual((found.bay.count(), found.findings[0].looked), (16, 6))
        looks = looked_at([Look('QA1', ['open'], 'line 1'), Look('QA1', ['1'], 'line 2')],
                          keys_of(file))
        self.assertEqual(looks, {(SWITCH, 'QA1'): [1], (INPUT, 'QA1'): [1]})


class Audits(unittest.TestCase):
    def test_only_what_is_read_is_combined(self):
        found = audit_rules('always QA1 open')
        self.assertEqual([it.name for it in found.bay.things], ['QA1', 'VT_DEAD', 'M1_AA'])
        self.assertEqual((len(found.table), found.bay.unread), (8, ['QC1', 'SPARE']))

    def test_what_a_rule_names_is_combined(self):
        found = audit_rules('always QA1 open when not SPARE')
        self.assertEqual((found.bay.count(), found.findings[0].looked), (16, 8))

    def test_rules(self):
        self.assertEqual(verdicts_of('always QA1 open\nnever QC1 close when not VT_DEAD\n'
                                  'always QC1 close when VT_DEAD and QA1 open\n'), ['TRIED'] * 3)
        self.assertEqual(verdicts_of('never QA1 open\nalways QC1 close\n'), ['BROKEN'] * 2)
        self.assertEqual(verdicts_of('never QA1 open when M1_AA 7\n'), ['never applies'])

    def test_statuses_and_verdicts(self):
        limit = 'TRIED UNDER A RESTRICTION: the rule holds in what was tried; tried with M1_AA '
        for rules, status, told in (
                ('look M1_AA 0\nalways QA1 open\n', 0, limit + 'only 0.'),
                ('always QA1 open\n', 4, 'NOT ALL WAS PROVED OR TRIED: the rule holds in what was '
                 'tried; M1_AA was tried only 0.'),
                ('# nothing\n', 4, 'NOTHING AUDITED: there are no rules.'),
                ('look M1_AA 0\nalways QA1 open\nnever QA1 open when M1_AA 7\n', 4,
                 'NOT ALL WAS PROVED OR TRIED: of 2 rules 1 tried without a break, 1 never '
                 'applied.'),
                ('never QA1 open\nalways QA1 open when M1_AA 7\n', 1,
                 'NOT PASSED: of 2 rules 1 broken, 1 never applied.'),
                ('look QA1 open\nlook M1_AA 0|5\nalways QA1 open\n', 4,
                 'NOT ALL WAS PROVED OR TRIED: the rule holds in what was tried; QA1 was tried '
                 'only open.'),
                ('look M1_AA 0|5\nalways QA1 open\n', 0, limit + 'only 0|5.')):
            found = audit_rules(rules)
            self.assertEqual((verdicts.status(found), verdicts.verdict(found)), (status, told))

    def test_a_timer_whose_time_is_not_in_the_text(self):
        logic = LOGIC.replace('T#5s', 'delay').replace('t1 : TON;', 't1 : TON;\ndelay : TIME;')
        found = audit_rules('look M1_AA 0\nalways QA1 open\n', logic=logic)
        self.assertEqual((verdicts.status(found), verdicts.verdict(found)), (
            4, 'NOT ALL WAS PROVED OR TRIED: the rule holds in what was tried; the end of t1 was '
            'not tried: its time is not a number of the text.'))

    def test_a_pause_that_is_too_short(self):
        for pause in (1, 4999, 5000):
            with self.assertRaisesRegex(UsageError, f'--pause {pause}: it must be more than'):
                audit_rules(AFTER, pause=pause)
        self.assertEqual(audit_rules(AFTER, pause=5001).findings[0].verdict(), 'TRIED')

    def test_each_state_before_is_tried(self):
        rule = 'never QC1 close until VT_DEAD for 5s when QA1 open\n'
        found, = audit_rules(rule, kind=Held).findings
        self.assertEqual(found.verdict(), 'BROKEN')
        self.assertIn('contact QA1 2', '\n'.join(found.lines))
        nearest = 'never QC1 close until VT_DEAD for 5s when M1_AA 0\n'
        self.assertEqual(audit_rules(nearest, kind=Held).findings[0].verdict(), 'BROKEN')

    def test_too_many_states_before(self):
        with mock.patch('baytools.audit.rule_findings.PAIRS', 3):
            found = audit_rules('never QC1 close until VT_DEAD for 5s when QA1 open\n')
        self.assertIn('the rule of line 1 was tried from', verdicts.verdict(found))
        self.assertEqual(verdicts.status(found), 4)

    def test_a_line_that_parts_a_scenario_in_a_comment(self):
        bay = audit_rules('always QA1 open', logic='(* a\n%%\n*)\n' + LOGIC).bay
        parts = bay.scenario(['0 scan']).split(b'\n%%\n')
        self.assertEqual(len(parts), 3)
        self.assertIn(b'\n %%\n', parts[1])

    def test_never_is_to_hold_at_each_scan(self):
        found, = audit_rules('never QC1 close when VT_DEAD\n', kind=Pulse).findings
        self.assertEqual((found.verdict(), found.after), ('BROKEN', 0))

    def test_the_times_of_rules_are_looked_at(self):
        plain = LOGIC.replace('    CAL t1(IN := VT_DEAD, PT := T#5s)\n', '')
        for time, verdict in ((4999, 'BROKEN'), (5000, 'TRIED')):
            found = audit_rules(UNTIL, time, plain)
            self.assertEqual((found.offsets[1:3], found.findings[0].verdict()),
                             ([4999, 5000], verdict))

    def test_a_time_that_is_kept(self):
        self.assertEqual(verdicts_of(UNTIL + AFTER), ['TRIED', 'TRIED'])

    def test_a_time_that_is_too_short(self):
        for time in (0, 1, 4999):
            self.assertEqual(verdicts_of(UNTIL + AFTER, time), ['BROKEN', 'TRIED'], time)

    def test_a_time_that_is_too_long(self):
        for time in (5001, 6000, 60_000):
            self.assertEqual(verdicts_of(UNTIL + AFTER, time), ['TRIED', 'BROKEN'], time)

    def test_what_has_no_room_in_one_scenario(self):
        rules, whole = UNTIL + AFTER, []
        for latest in (replays.LATEST, 130_000):
            with mock.patch('baytools.audit.replays.LATEST', latest):
                found = audit_rules(rules)
            whole.append((found.table, [(it.looked, it.broken) for it in found.findings]))
        self.assertEqual(*whole)

    def test_too_many_combinations(self):
        rules = 'look M1_AA ' + '|'.join(map(str, range(600))) + '\nalways QA1 open\n'
        with mock.patch.multiple('baytools.audit.rule_findings', WHOLE=1000, SAMPLED=50):
            found = audit_rules(rules)
        self.assertEqual((len(found.table), found.bay.count()), (50, 4800))
        self.assertIn('50 of 4,800 combinations were tried', verdicts.verdict(found))
        self.assertEqual((verdicts.status(found), rule_findings.uncovered_release(found)),
                         (4, None))
        places = range(0, 4800, 7)
        whole = list(found.bay.combinations())
        self.assertEqual([found.bay.combination_at(it) for it in places],
                         [whole[it] for it in places])

    def test_a_condition_that_never_begins(self):
        self.assertEqual(verdicts_of('always QC1 close after VT_DEAD or not VT_DEAD for 5s\n'),
                         ['never applies'])

    def test_the_scenario_that_breaks_a_time(self):
        found = audit_rules(UNTIL, 0).findings[0]
        self.assertEqual((found.after, found.looked), (0, 8))
        moments = [int(line.split(' ')[0]) for line in found.lines]
        self.assertEqual(moments, sorted(moments))
        self.assertIn('input VT_DEAD 1', '\n'.join(found.lines))

    def test_releases_that_no_rule_asks_for(self):
        found = rule_findings.uncovered_release(audit_rules('never QC1 close when not VT_DEAD\n'))
        told = {key: (count, it.text()) for key, (count, it) in found.items()}
        self.assertEqual(told, {('QA1', 0): (8, 'always'),
                                ('QC1', 1): (1, 'QA1 open and VT_DEAD')})
        found = audit_rules('always QA1 open\n' + AFTER)
        self.assertEqual(rule_findings.uncovered_release(found), {})


class Sampled(unittest.TestCase):
    def test_more_combinations_than_a_list_can_have(self) -> None:
        bay = mock.Mock()
        bay.count.return_value = 2 ** 70
        bay.combination_at.side_effect = lambda place: (place,)
        finding = mock.Mock()
        finding.is_settled.return_value = False
        chosen = rule_findings.chosen_of(bay, [finding], False)
        self.assertEqual(len(chosen), rule_findings.SAMPLED)
        self.assertEqual(chosen, sorted(chosen))
        self.assertTrue(all(0 <= place < 2 ** 70 for place, in chosen))


class Pictures(unittest.TestCase):
    def test_equal_columns_are_one(self):
        found = audit_rules('always QA1 open')
        blocks = matrix.blocks_of(found.bay, found.table)
        told = {block.thing.name: [(it.told, it.looked, it.counts) for it in block.columns]
                for block in blocks}
        self.assertEqual(told['QA1'], [('not open', 6, [6, 0, 0, 0]), ('open', 2, [2, 0, 0, 1])])
        self.assertEqual(told['VT_DEAD'], [('0', 4, [4, 0, 0, 0]), ('1', 4, [4, 0, 0, 1])])
        self.assertEqual(blocks[0].depends, {3})

    def test_bands(self):
        found = audit_rules('always QA1 open')
        blocks = matrix.blocks_of(found.bay, found.table)
        self.assertEqual([len(band) for band in matrix.bands_of(blocks, 250)], [1, 1])

    def test_heads_of_columns_do_not_touch(self):
        found = audit_rules('always QA1 open')
        with mock.patch('baytools.audit.matrix.looked_text', lambda column: 'of 99,999,999'):
            drawn = ET.fromstring(matrix.draw(found.bay, found.table))
        heads = [it.get('transform') for it in drawn.iter() if 'rotate' in it.get('transform', '')]
        places = sorted(float(re.search(r'\((\S+)', it)[1]) for it in heads)
        self.assertEqual(len(places), 8)
        self.assertTrue(all(after - it >= SMALL for it, after in zip(places, places[1:])))

    def test_letters_are_not_small(self):
        found = audit_rules('always QA1 open')
        drawn = ET.fromstring(matrix.draw(found.bay, found.table, 'Bay'))
        sizes = [float(it.get('font-size')) for it in drawn.iter() if it.get('font-size')]
        self.assertEqual(min(sizes), SMALL)

    def test_each_band_is_a_picture_of_the_page(self):
        found = audit_rules('always QA1 open')
        parts = [ET.fromstring(part) for part in matrix.draw_parts(found.bay, found.table, 250)]
        self.assertEqual(len(parts), 3)
        ids = [it.get('id') for part in parts for it in part.iter() if it.get('id')]
        self.assertEqual(len(ids), len(set(ids)))

    def test_the_report_is_whole(self):
        files = {'Rules': ('rules <&>', b'always QA1 open')}
        with zone('XYZ-5:30'):
            page = Report(audit_rules('look M1_AA 0\nalways QA1 open'), files, __file__, 0).page()
        for told in ('the rule holds in what was tried', 'rules &lt;&amp;&gt;',
                     '1970-01-01 05:30:00 UTC+05:30', 'how long they run is not audited',
                     'QA1 open and VT_DEAD', 'Signature', 'SPARE'):
            self.assertIn(told, page)
        self.assertIsNone(re.search(r'(src|href)=', page), 'it needs no other file')
        self.assertLess(page.index('Signatures'), page.index('what was tried</h2>'))
        timed = Report(audit_rules(UNTIL), files, __file__, 0).page()
        self.assertNotIn('is not audited', timed)

    def test_a_report_of_sources_that_are_not_proved(self):
        for program, is_told in ((__file__, False), (TRY, True)):
            page = Report(audit_rules('always QA1 open'), {}, program, 0).page()
            self.assertEqual('rests on a program that is not.' in page, is_told)

    def test_comments_above_rules_stand_in_the_report(self):
        text = ('# Rules of <E1>,\n#  by a planner\n\n# The breaker\nlook M1_AA 0\n'
                'always QA1 open # at any time\nalways QA1 open\n#none\n\nnever QC1 open\n# end\n')
        found = audit_rules(text)
        self.assertEqual([it.rule.remarks for it in found.findings], [
            ('Rules of <E1>, by a planner', 'The breaker', 'at any time'), (), ('none',)])
        page = Report(found, {}, __file__, 0).page()
        self.assertIn('<span class="remark">Rules of &lt;E1&gt;, by a planner</span>'
                      '<span class="remark">The breaker</span>', page)
        self.assertEqual(page.count('class="remark"'), 4)

    def test_a_report_of_what_is_broken(self):
        page = Report(audit_rules('never QA1 open\n'), {}, __file__, 0).page()
        self.assertIn('NOT PASSED: the rule is broken.', page)
        self.assertIn('first by QA1 intermediate', page)


class Asked(Tools):
    """The tool itself, without a bayctl."""

    def words(self, rules='always QA1 open\n'):
        bay = '[bay]\ndomain = "B"\nvendor = "V"\nmodel = "M"\nrevision = "1"\n' + (
            '[[switch]]\nid = "QA1"\nkind = "breaker"\n')
        return [self.file('bay', bay), self.file('logic', 'PROGRAM p\nEND_PROGRAM\n'),
                self.file('rules', rules)]

    def test_what_can_not_be_written_is_told_first(self):
        for option in ('--html', '--table', '--scenarios'):
            found = self.call_tool('audit', *self.words(), option, 'none/it', '--bayctl', 'none')
            self.assertIn('none/it', found.error)
            self.assertIn('there is no folder none', found.error)
            self.assertEqual((found.out, found.status), ('', 3))

    def test_an_option_that_is_wrong_names_itself(self):
        found = self.call_tool('audit', *self.words(), '--switches', 'QA1=openn')
        self.assertEqual(found.error, 'audit: --switches QA1=openn: openn is not a value of the '
                         'switch QA1: it can be intermediate, open, closed or bad\n')
        self.assertEqual(found.status, 2)

    def test_rules_that_can_not_be_read(self):
        found = self.call_tool('audit', *self.words('never QX open\n'))
        self.assertIn('rules: line 1, column 7: QX is not a switch of the bay', found.error)
        self.assertEqual((found.out, found.status), ('', 3))
        marked = self.call_tool('audit', *self.words('\ufeffnever QX open\n'))
        self.assertEqual(marked.error, found.error)

    def test_old_scenarios_go(self):
        for name in ('broken_7.scenario', 'broken_x.scenario'):
            self.file(name, '')
        scans = 'instructions=0 depth=0 budget=0\n' + '0 scan steps=0 QA1=10\n' * 2
        found = self.call_tool('audit', *self.words(), '--bayctl', self.bayctl(scans))
        self.assertEqual((found.out.splitlines()[:3], found.status), (
            ['NOTHING IS PROVED: this bayctl has no command `audit`, so all is tried.',
             'TRIED: always QA1 open',
             '    not proved; tried in 1 combination, no break found'], 0))
        self.assertEqual([path.name for path in self.folder.glob('broken*')],
                         ['broken_x.scenario'])

    def test_statuses(self):
        for rules, digits, status in (('always QA1 open\n', '10', 0), ('never QA1 open\n', '10', 1),
                                      ('', '10', 4)):
            scans = 'instructions=0 depth=0 budget=0\n' + f'0 scan steps=0 QA1={digits}\n' * 2
            found = self.call_tool('audit', *self.words(rules), '--bayctl', self.bayctl(scans))
            self.assertEqual(found.status, status, found)
        found = self.call_tool('audit', *self.words(), '--bayctl',
                              self.bayctl('load refused 53\n', 1))
        self.assertEqual((found.status, found.error.splitlines()[-1]),
                         (3, 'audit: load refused 53 (tools/diagnose tells why)'))


if __name__ == '__main__':
    unittest.main()
