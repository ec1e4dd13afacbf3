"""How the tools report the faults of rules: with the column, the line with a mark, and a
suggestion; and those of programs: without faults that follow from another one, with a remedy, and
with warnings of mistakes in releases."""
import unittest

from baytools.bay.rules import BadRule, faults_of, looked_at, read_looks, read_rules
from baytools.diagnosis import lines, program
from baytools.diagnosis.releases import release_warnings
from tests.tool import Tools

KNOWN = {('switch', 'QA1'), ('switch', 'QB1'), ('switch', 'QC1'), ('input', 'ES'),
         ('measure', 'M1_AA')}
SWITCHES = {'switch': [{'id': 'QA1'}, {'id': 'QB1'}, {'id': 'QC1'}]}
# A rule, the word that the tool marks (the last of that name), and what it suggests.
SUGGESTIONS = [
    ('never QC1 close when QB1 == open', '==', 'write QB1 open'),
    ('never QC1 close when QB1 = open', '=', 'write QB1 open'),
    ('never QC1 close when QB1 != open', '!=', 'write QB1 not open'),
    ('never QC1 close when ES == TRUE', '==', 'write ES TRUE'),
    ('never QC1 close when M1_AA == 5', '==', 'is = meant?'),
    ('never QC1 close when M1_AA => 5', '=>', 'is >= meant?'),
    ('never QC1 close when M1_AA < 5.5', '5.5', 'measures are compared as whole numbers'),
    ('never QC1 open and close when ES', 'and', 'write open|close'),
    ('never QC1 open, close', ',', 'write open|close'),
    ('nevr QC1 open', 'nevr', 'is never meant?'),
    ('allow QC1 open', 'allow', 'is always meant?'),
    ('never QX1 open', 'QX1', 'is QC1 meant?'),
    ('never QC1 close when QB1_OPEN', 'QB1_OPEN', 'write QB1 open'),
    ('never QC1 close when QB1 clsed', 'clsed', 'is closed meant?'),
    ('never QC1 open when QB1 close', 'close', 'is closed meant?'),
    ('never QC1 close if QB1 open', 'if', 'is when meant?'),
    ('never QC1 close unless QB1 open', 'unless', 'is when not meant?'),
    ('never QC1 close when QB1 open && ES', '&&', 'is and meant?'),
    ('never QC1 close when QB1 open || ES', '||', 'is or meant?'),
    ('never QC1 close when ES QB1 open', 'QB1', ''),
    ('never QC1 close when QB1 open ES', 'ES', 'write and, or or, before ES'),
    ('never QC1 close when QB1 open closed', 'closed', 'write |closed'),
    ('never QC1 close when QB1 open)', ')', 'no ( is open'),
    ('never QC1 close when ES when ES', 'when', 'is and meant?'),
    ('never QC1 closed', 'closed', 'is close meant?'),
    ('never QC1 close until ES for 0.5s', '0.5s', 'is 500ms meant?'),
    ('never QC1 close until ES for 10', '10', 'is 10s or 10ms meant?'),
    ('never QC1 close until ES for T#5s', 'T', 'is 5s meant?'),
    ('always QC1 close until ES for 5s', 'until', 'is after meant?')]
HEAD = """PROGRAM p
VAR_EXTERNAL
    QA1_OPEN, QA1_CLOSED, QA1_ENA_OPN, QA1_ENA_CLS : BOOL;
    QB1_OPEN, QB1_CLOSED, QB1_ENA_OPN, QB1_ENA_CLS : BOOL;
END_VAR
VAR
    open_coil : BOOL;
    t : TON;
END_VAR
"""


def program_of(*rows: str) -> str:
    return HEAD + ''.join(f'    {row}\n' for row in rows) + 'END_PROGRAM\n'


class Rules(unittest.TestCase):
    def test_each_report_has_the_column_and_a_suggestion(self):
        for text, word, suggestion in SUGGESTIONS:
            with self.assertRaises(BadRule) as caught:
                read_rules(f'# a comment\n  {text}  # why', KNOWN)
            at = f'  {text}'.rindex(word)
            message = str(caught.exception)
            if text.endswith('QB1 open') and word == 'QB1':
                at = text.index('QB1') + 2
            self.assertTrue(message.startswith(f'line 2, column {at + 1}: '), (text, message))
            self.assertIn(suggestion, message)
            line, mark = caught.exception.more
            self.assertEqual(line, f'     2 |   {text}  # why')
            self.assertEqual(mark.index('^') - 9, at, text)
            self.assertEqual(mark.count('^'), len(word), text)

    def test_the_end_of_a_rule(self):
        with self.assertRaises(BadRule) as caught:
            read_rules('never QC1 close when (ES', KNOWN)
        self.assertEqual(str(caught.exception),
                         'line 1, column 25: there must be ) here, not the end')
        self.assertEqual(caught.exception.more[1].index('^') - 9, 24)

    def test_a_line_with_values_to_try(self):
        with self.assertRaises(BadRule) as caught:
            looked_at(read_looks('look  QAl open'), KNOWN)
        self.assertEqual(str(caught.exception),
                         'line 1, column 7: QAL is not in the bay; is QA1 meant?')
        self.assertEqual(caught.exception.more[0], '     1 | look  QAl open')

    def test_all_faulty_lines(self):
        found = faults_of('never QX open\n\nlook ESS 1\nnever QC1 close\nnever QC1 shut\n', KNOWN)
        self.assertEqual([it.line for it in found], [1, 3, 5])

    def test_rules_without_fault(self):
        for text in ('never QC1 close when M1_AA<-5 and M1_AA>=-2147483648',
                     'never QC1 close when QB1 not open|closed or(ES and not ES 0)',
                     'always QC1 open after ES for 1m30s when M1_AA<>5'):
            self.assertEqual(len(read_rules(text, KNOWN)), 1)


class FollowingFaults(unittest.TestCase):
    def fault_lines(self, *rows: str) -> list[tuple[int, int]]:
        found = program.faults_of(program_of(*rows), None)
        return [(it.code, it.line - HEAD.count('\n')) for it in found]

    def test_a_misspelt_name_is_the_only_fault(self):
        rest = ('AND QB1_OPEN', 'ST QA1_ENA_OPN', 'OR( QB1_OPEN', 'AND QB1_CLOSED', ')',
                'JMPC done', 'NOT', 'done: ST QA1_ENA_CLS', 'GT 5', 'ST QB1_ENA_OPN')
        self.assertEqual(self.fault_lines('LD QA1_OPN', *rest)[0], (70, 1))
        self.assertEqual(self.fault_lines('LD QA1_OPN', *rest[:8]), [(70, 1)])
        self.assertEqual(self.fault_lines('LD QA1_OPEN', 'AND( QB1_OPN', 'OR QB1_OPEN', ')',
                                          'ST QA1_ENA_OPN'), [(70, 2)])
        self.assertEqual(self.fault_lines('LD t', 'ST QA1_ENA_OPN'), [(72, 1)])

    def test_an_independent_fault_is_reported_too(self):
        self.assertEqual(self.fault_lines('LD QA1_OPN', 'ST QA1_ENA_OPN', 'LD 5', 'ST QA1_ENA_OPN'),
                         [(70, 1), (72, 4)])
        self.assertEqual(self.fault_lines('LD QA1_OPN', 'CAL t(IN := TRUE)', 'ST QA1_ENA_OPN'),
                         [(70, 1), (73, 3)])
        self.assertEqual(self.fault_lines('AND QA1_OPEN', 'ST QA1_ENA_OPN'), [(73, 1), (73, 2)])
        self.assertEqual(self.fault_lines('LD QA1_OPN', 'GT 5', 'ADD 1'), [(70, 1), (72, 3)])

    def test_a_suggestion_spells_a_name_as_the_declaration_does(self):
        found = program.faults_of(program_of('LD open_coli', 'ST QA1_ENA_OPN'), {})
        self.assertIn('open_coli is not declared; is open_coil meant?', [it.told for it in found])


class Remedies(unittest.TestCase):
    def test_numbers_of_other_languages(self):
        for row, message, remedy in (
                ('CAL t(IN := TRUE, PT := T#0.5s)', 'a duration has no fraction', 'write T#500ms'),
                ('CAL t(PT := T#1,25m)', 'a duration has no fraction', 'write T#75000ms'),
                ('LD time#0.0001s', 'a duration has no fraction', 'whole numbers'),
                ('LD 30,000', 'a number has no comma', 'write 30_000'),
                ('LD 1,5', 'a number has no comma', 'write a whole number'),
                ('LD 1.5', 'a number can\'t have a fraction', 'write a whole number')):
            text = program_of(row)
            found = lines.locate(text, HEAD.count('\n') + 1)
            self.assertEqual(found.told, message)
            self.assertIn(remedy, found.mend)
        text = HEAD.replace('open_coil : BOOL;', 'n : DINT := 30,000;')
        self.assertIn('30_000', lines.locate(text, 7).mend)


class Releases(unittest.TestCase):
    def warn(self, *rows: str) -> list[tuple[int, str]]:
        found = release_warnings(lines.read(program_of(*rows)), SWITCHES)
        return [(it.line - HEAD.count('\n'), it.told.split(';')[0].split(':')[0]) for it in found]

    def test_set_and_never_reset(self):
        wanted = 'S sets the release QA1_ENA_CLS, and no line takes it back'
        self.assertEqual(self.warn('LD QB1_OPEN', 'S QA1_ENA_CLS'), [(2, wanted)])
        for back in ('R QA1_ENA_CLS', 'ST qa1_ena_cls', 'STN QA1_ENA_CLS'):
            self.assertEqual(self.warn('LD QB1_OPEN', 'S QA1_ENA_CLS', back), [])
        self.assertEqual(self.warn('LD QB1_OPEN', 'S open_coil'), [])

    def test_releases_after_a_return(self):
        self.assertEqual(self.warn('LD QB1_OPEN', 'RETC', 'ST QA1_ENA_CLS', 'ST QA1_ENA_OPN'),
                         [(2, 'where RETC returns, QA1_ENA_CLS, QA1_ENA_OPN keep what an earlier '
                              'scan gave')])
        self.assertEqual(self.warn('LD QB1_OPEN', 'ST QA1_ENA_CLS', 'RETCN', 'ST QA1_ENA_CLS'), [])

    def test_two_stores(self):
        rows = ('LD QB1_OPEN', 'ST QA1_ENA_CLS', 'LD QB1_CLOSED', 'ST QA1_ENA_CLS')
        self.assertEqual(self.warn(*rows), [(4, 'QA1_ENA_CLS is stored twice')])
        self.assertEqual(self.warn(*rows[:2], 'JMPC done', *rows[2:], 'done: ST open_coil'), [])
        self.assertEqual(self.warn(*rows[:3], 'S QA1_ENA_CLS'), [])

    def test_not_closed_for_open(self):
        self.assertEqual(self.warn('LDN QB1_CLOSED', 'ANDN QA1_CLOSED', 'ANDN QB1_OPEN',
                                   'ST QA1_ENA_CLS'),
                         [(1, 'LDN QB1_CLOSED takes QB1 for open also while it is on its way or '
                              'bad'),
                          (2, 'ANDN QA1_CLOSED takes QA1 for open also while it is on its way or '
                              'bad')])


class Reports(Tools):
    def test_audit_and_diagnose_show_the_line(self):
        bay = self.file('bay', '[bay]\ndomain = "B"\nvendor = "V"\nmodel = "M"\nrevision = "1"\n'
                               '[[switch]]\nid = "QA1"\nkind = "breaker"\n')
        logic = self.file('logic', 'PROGRAM p\nEND_PROGRAM\n')
        rules = self.file('rules', 'never QA1 open\nnever QAl close\n')
        found = self.call_tool('audit', bay, logic, rules, '--bayctl', 'none')
        self.assertEqual(found.error, f'audit: {rules}: line 2, column 7: QAL is not a switch of '
                         'the bay; is QA1 meant?\n     2 | never QAl close\n       |       ^^^\n')
        answers = self.bayctl('instructions=0 depth=0 budget=0\n', 0)
        found = self.call_tool('diagnose', '--bay', bay, '--rules', rules, '--bayctl', answers)
        self.assertEqual(found.status, 1)
        self.assertIn('     2 | never QAl close\n       |       ^^^\n', found.out)
        rules.write_text('never QA1 open\n')
        found = self.call_tool('diagnose', '--bay', bay, '--rules', rules, '--bayctl', answers)
        self.assertEqual(found.status, 0)
        self.assertIn('each line of the rules can be read\n', found.out)


if __name__ == '__main__':
    unittest.main()
