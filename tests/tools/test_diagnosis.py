"""What tools/diagnose finds by itself: names and calls of a program, mistakes of a bay file, lines
of a trace, and what it warns of."""
import tomllib
import unittest
from hashlib import sha256

from baytools.common.paths import TOP
from baytools.diagnosis import bay_file, lines, program, tokens, trace
from baytools.diagnosis.depends import Flow
from baytools.diagnosis.warnings import Proved, warnings
from tests.tool import Tools

EXAMPLES = sorted((TOP / 'examples').glob('*/bay.toml'))
BAY = {'switch': [{'id': 'QA1'}], 'input': [{'name': 'ES'}], 'meter': [{'id': 'M1'}]}
HEAD = 'PROGRAM p\nVAR\n    {}\nEND_VAR\n'
FILE = '''[bay]
domain = "B"
vendor = "V"
model = "M"
revision = "1"
scan_max_age_ms = 1000
''' + ''.join(f'''[[switch]]
id = "{name}"
kind = "earthing"
control = "direct"
travel_ms = 500
''' for name in ('QC2', 'QC9'))
ASKED = '''PROGRAM p
VAR_EXTERNAL
    QC2_ENA_CLS : BOOL;
END_VAR
    LD TRUE
    ST {}
END_PROGRAM
'''


def trace_faults(text, is_replay=False):
    """Why a line of a trace is not taken."""
    octets = text if isinstance(text, bytes) else text.encode()
    return [(it.line, it.code, it.told) for it in trace.troubles(octets, BAY, is_replay)]


def first_refusal(text):
    """Why a bay file is refused: the number, the words and the remedy."""
    found = bay_file.refusals(text if isinstance(text, bytes) else text.encode())
    return (found[0].code, found[0].place.told, found[0].place.mend) if found else None


def warning_texts(text, file=FILE, proved=None):
    points = bay_file.bay_points(file.encode())
    found = warnings(text, points, tomllib.loads(file), proved)
    return [it.told for it in found]


class Names(Tools):
    """A name that is unknown: no other switch is ever suggested."""

    def explain_name(self, name):
        points = bay_file.bay_points(FILE.encode())
        fault = program.faults_of(ASKED.format(name), points)[0]
        return fault.told, fault.mend

    def test_a_point_that_was_forgotten(self):
        told, mend = self.explain_name('QC9_ENA_CLS')
        self.assertEqual(told, 'QC9_ENA_CLS is a point of the bay, but not declared')
        self.assertEqual(mend, 'add it to VAR_EXTERNAL: QC9_ENA_CLS : BOOL;')

    def test_a_switch_that_is_not_there(self):
        self.assertEqual(self.explain_name('QC8_ENA_CLS')[0],
                         'QC8_ENA_CLS is not declared: the bay has no switch QC8')

    def test_a_point_that_is_misspelled(self):
        self.assertEqual(self.explain_name('QC9_ENA_CSL')[0],
                         'QC9_ENA_CSL is not declared; is QC9_ENA_CLS meant?')

    def test_an_external_that_is_not_there(self):
        text = ASKED.format('QC2_ENA_CLS').replace('    QC2', '    QC7_ENA_CLS, QC2', 1)
        fault = program.faults_of(text, bay_file.bay_points(FILE.encode()))[0]
        self.assertEqual(fault.told,
                         'the bay has no point QC7_ENA_CLS: the bay has no switch QC7')

    def test_names_are_raised_as_the_device_raises_them(self):
        self.assertEqual(tokens.Token('name', 'q\u017f1', 0).upper, 'Q\u017f1')
        self.assertEqual(trace_faults('0 contact QA\u0131 1\n')[0][1], 113)

    def test_the_tool_tells_the_remedy_of_this_fault_alone(self):
        words = ['--bay', self.file('bay', FILE), '--logic',
                 self.file('logic', ASKED.format('QC9_ENA_CLS')), '--bayctl']
        found = self.call_tool('diagnose', *words, self.bayctl('load refused 70 line 6\n', 1))
        self.assertEqual(found.status, 1)
        self.assertIn('Mend: add it to VAR_EXTERNAL: QC9_ENA_CLS : BOOL;\n', found.out)
        self.assertNotIn('declare it in VAR', found.out)
        self.assertNotIn('QC2_ENA_CLS meant', found.out)


class Warnings(unittest.TestCase):
    def test_a_point_that_is_hidden(self):
        text = ASKED.replace('END_VAR', 'END_VAR\nVAR\n    QC9_ENA_CLS : BOOL;\nEND_VAR')
        self.assertIn('QC9_ENA_CLS hides the point QC9_ENA_CLS of the bay: what you store in it '
                      'reaches no switch', warning_texts(text.format('QC9_ENA_CLS')))

    def test_a_comment_within_a_comment(self):
        text = ASKED.format('QC2_ENA_CLS').replace('    LD', '    (* a (* b *) LD', 1)
        self.assertIn('comments don\'t nest', warning_texts(text)[0])
        self.assertEqual(tokens.nested_comments('(* a *) (* b *)'), [])

    def test_what_is_never_read_used_called_or_released(self):
        text = ASKED.replace('END_VAR', '    QC2_POS : INT;\nEND_VAR\nVAR\n    kept : BOOL;\n'
                             '    t1 : TON;\nEND_VAR', 1)
        found = warning_texts(text.format('kept'), FILE + '[[input]]\nname = "ES"\n')
        for told in ('the point QC2_POS is never used', 'kept is never read',
                     'the timer t1 is never called', 'QC9 can never be closed: no line writes '
                     'QC9_ENA_CLS', 'the point QC2_ENA_CLS is never used',
                     'no line reads the position of QC9', 'no line reads the input ES'):
            self.assertIn(told, found)

    def test_a_key_that_no_line_reads(self):
        file = FILE + 'remote = "ES"\n[[input]]\nname = "es"\n[[input]]\nname = "ET"\n'
        found = [it for it in warning_texts(ASKED.format('QC2_ENA_CLS'), file) if 'the input' in it]
        self.assertEqual(found, ['no line reads the input ET'])

    HEAD = ('PROGRAM p\nVAR_EXTERNAL\nQC2_OPEN, QC9_OPEN, ES, QC2_ENA_CLS : BOOL;\nEND_VAR\n'
            'VAR\na, no : BOOL;\nt1 : TON;\nEND_VAR\n{}\nEND_PROGRAM\n')

    def flow(self, *body):
        return Flow(lines.read(self.HEAD.format('\n'.join(body))))

    def test_what_outputs_depend_on(self):
        for body, names in (
                (('LD QC2_OPEN', 'ST a', 'LD a', 'AND ES', 'ST QC2_ENA_CLS'), {'QC2_OPEN', 'ES'}),
                (('CAL t1(IN := ES)', 'LD t1.Q', 'ST QC2_ENA_CLS'), {'ES'}),
                (('LD QC2_OPEN', 'OR( ES', 'AND QC9_OPEN', ')', 'ST QC2_ENA_CLS'),
                 {'QC2_OPEN', 'ES', 'QC9_OPEN'}),
                (('LD ES', 'JMPC x', 'LD TRUE', 'ST QC2_ENA_CLS', 'x:'), {'ES'}),
                (('LD ES', 'AND FALSE', 'ST QC2_ENA_CLS', 'LD QC9_OPEN', 'ST a'), set()),
                (('LD ES', 'JMPC x', 'LD QC2_OPEN', 'x: ST QC2_ENA_CLS'), {'QC2_OPEN', 'ES'})):
            found = self.flow(*body).dependencies({'QC2_ENA_CLS'})
            self.assertEqual(found & {'QC2_OPEN', 'QC9_OPEN', 'ES'}, names, body)

    def test_outputs_that_are_never_true(self):
        for body, is_never in (
                (('LD FALSE', 'ST QC2_ENA_CLS'), True), (('LD ES', 'ST QC2_ENA_CLS'), False),
                (('LD no', 'AND ES', 'ST QC2_ENA_CLS'), True),
                (('LD ES', 'ANDN TRUE', 'ST QC2_ENA_CLS'), True),
                (('LD ES', 'R QC2_ENA_CLS'), True), (('LD FALSE', 'STN QC2_ENA_CLS'), False),
                (('LD FALSE', 'ST QC2_ENA_CLS', 'LD ES', 'S QC2_ENA_CLS'), False),
                (('LD ES', 'AND( FALSE', ')', 'ST QC2_ENA_CLS'), True),
                (('LD ES', 'JMPC x', 'LD FALSE', 'x: ST QC2_ENA_CLS'), False)):
            self.assertEqual(self.flow(*body).is_never_true('QC2_ENA_CLS'), is_never, body)

    def test_releases_that_are_never_given_and_points_of_no_use(self):
        file = FILE + '[[input]]\nname = "ES"\n'
        text = self.HEAD.format('LD FALSE\nST QC2_ENA_CLS\nLD ES\nST a\nLD QC2_OPEN\nST a')
        found = warning_texts(text, file)
        for told in ('QC2 can never be closed: only FALSE is stored in QC2_ENA_CLS',
                     'no release depends on ES', 'no release depends on QC2_OPEN',
                     'QC9 can never be opened: no line writes QC9_ENA_OPN'):
            self.assertIn(told, found)
        text = self.HEAD.format('LD QC2_OPEN\nAND ES\nST QC2_ENA_CLS')
        self.assertNotIn('no release depends on ES', warning_texts(text, file))
        proved = Proved({('QC2', 'closed')}, {'QC2_OPEN'}, set())
        found = warning_texts(text, file, proved)
        self.assertIn('QC2 can never be closed: QC2_ENA_CLS is never TRUE (proved)', found)
        self.assertIn('no release depends on ES (proved)', found)
        text = self.HEAD.format('CAL t1(IN := ES)\nLD t1.Q\nST QC2_ENA_CLS')
        self.assertNotIn('no release depends on ES (proved)',
                         warning_texts(text, file, Proved(set(), set(), {'T1'})))

    def test_the_examples_are_warned_of_nothing_but_points(self):
        for path in EXAMPLES:
            file = path.read_text()
            for told in warning_texts((path.parent / 'logic.il').read_text(), file):
                self.fail(f'{path.parent.name}: {told}')


class Bays(unittest.TestCase):
    def test_the_remedy_of_each_mistake(self):
        two = FILE.replace('[[switch]]', '[switch]')
        for text, code, told, mend in (
                (FILE.partition('[[')[0] + '[switch]\nid = "QA1"\n', 53,
                 'switch must be a list of tables', 'write [[switch]] for each switch'),
                (two, 50, 'the section [switch] is given twice',
                 'write [[switch]] for each switch'),
                (FILE.replace('[[switch]]', '[switch]', 1), 50, 'the section [switch] is given',
                 'write [[switch]] for each switch'),
                (FILE + '[bay]\n', 50, 'the section [bay] is given twice', 'remove one of them'),
                (FILE.replace('"V"', '"V'), 50, 'this quote is not closed', 'put a quote'),
                (FILE.replace('[bay]', '// a comment\n[bay]'), 50, 'a key can\'t begin with //',
                 'begin a comment with #'),
                (FILE.replace('\n', '\r'), 50, 'a carriage return', 'LF or CR LF'),
                (FILE.encode('utf-16'), 50, 'it is UTF-16', 'save the file as UTF-8'),
                (FILE.replace('"direct"', '"SBO-enhanced"'), 53,
                 '"SBO-enhanced" must be in lower case', 'write control = "sbo-enhanced"')):
            found = first_refusal(text)
            self.assertEqual(found[0], code, told)
            self.assertIn(told, found[1])
            self.assertIn(mend, found[2])

    def test_the_column_at_which_a_quote_opens(self):
        found, = bay_file.refusals(FILE.replace('"V"', '"V').encode())
        self.assertEqual((found.place.line, found.place.start), (3, 9))
        self.assertEqual(bay_file.open_quote('a = "b\\"" # "'), None)
        self.assertEqual(bay_file.open_quote('a = \'b\' "c'), 8)

    def test_quotes_that_are_typographic(self):
        for text, quote in ((FILE.replace('"B"', '\u201cB\u201d'), '\u201c (U+201C)'),
                            (FILE.replace('"B"', '"B\u201d'), '\u201d (U+201D)'),
                            (FILE.replace('"B"', '\u201eB\u201c'), '\u201e (U+201E)')):
            self.assertEqual(first_refusal(text), (50, f'{quote} is not the quote of TOML',
                                                   'write " before and behind the text'))
        self.assertIsNone(first_refusal(FILE + '# \u201cB\u201d\n'))

    def test_more_than_the_first(self):
        text = FILE.replace('"direct"', '"Status"').replace('"1"', '1')
        self.assertEqual([it.code for it in bay_file.refusals(text.encode())], [53, 53, 53])
        self.assertEqual([it.code for it in bay_file.refusals(FILE.replace(
            'control = "direct"\n', '').encode())], [51, 51])

    def test_numbers_and_lists_past_all_limits(self):
        for value in ('9' * 5000, '[' * 3000 + ']' * 3000):
            text = FILE.replace('1000', value)
            self.assertEqual(bay_file.refusals(text.encode())[0].code, 50)

    def test_keys_and_synchrochecks(self):
        text = FILE.replace('"earthing"', '"breaker"', 1) + '[[input]]\nname = "Remote"\n'

        def refusal_with(first='', second='', file=text):
            head, one, other = file.split('[[switch]]')
            other, sign, more = other.partition('[[')
            return first_refusal(
                f'{head}[[switch]]{one}{first}[[switch]]{other}{second}{sign}{more}')

        key, none = 'remote = "REMOTE"\n', 'remote = "NONE"\n'
        self.assertIsNone(refusal_with(key + 'synchrocheck = "refuse"\n', 'remote = "remote"\n'))
        for found, code, why in (
                (refusal_with(none, key), 53, 'there is no input NONE'),
                (refusal_with('remote = "QC2_OPEN"\n'), 53, 'there is no input QC2_OPEN'),
                (refusal_with(none, file=text.replace('"Remote"', '"TIME"')), 53, 'the point TIME'),
                (refusal_with(none, file=text.replace('"QC9"', '"QC2"')), 54, 'QC2'),
                (refusal_with('remote = "1"\n'), 53, '"1" must begin with a letter'),
                (refusal_with('remote = 1\n'), 53, 'the value must be a text'),
                (refusal_with('remote = "A234567890123456x"\n'), 53, '17 characters'),
                (refusal_with('synchrocheck = "Refuse"\n'), 53, 'must be in lower case'),
                (refusal_with('synchrocheck = "check"\n'), 53, '"check" is not refuse'),
                (refusal_with('', 'synchrocheck = "refuse"\n'), 52,
                 'kind = "earthing" has no synchrocheck'),
                (refusal_with('Remote = "REMOTE"\n'), 52, 'no key Remote here; is remote meant?'),
                (refusal_with('remote = 5\n', file=text.replace('travel_ms = 500\n', '', 1)), 51,
                 'the key travel_ms is missing')):
            self.assertEqual(found[0], code, why)
            self.assertIn(why, found[1])
        status = text.replace('control = "direct"\ntravel_ms = 500', 'control = "status"', 1)
        for key in ('remote = "REMOTE"', 'synchrocheck = "refuse"'):
            self.assertEqual(refusal_with(key + '\n', file=status)[:2], (
                52, f'control = "status" has no {key.partition(" ")[0]}'))

    def test_the_profile_of_the_model(self):
        def told(line, more=''):
            age = 'scan_max_age_ms = 1000\n'
            return first_refusal(FILE.replace(age, f'{age}{line}\n') + more)

        meter = '[[meter]]\nid = "M9"\nscale = '
        self.assertIsNone(told('profile = 1'))
        self.assertIsNone(told('profile = 2'))
        for scale in ('-6', '0', '6'):
            self.assertIsNone(told('profile = 2', f'{meter}{scale}\n'))
        only = 'only a meter of profile 2 has a scale'
        for line, more, code, why in (
                ('profile = 0', '', 53, '0 is not from 1 to 2'),
                ('profile = 3', '', 53, '3 is not from 1 to 2'),
                ('profile = "1"', '', 53, 'the value must be a whole number'),
                ('Profile = 1', '', 52, 'no key Profile here; is profile meant?'),
                ('profile = 1', f'{meter}3\n', 52, only), ('', f'{meter}3\n', 52, only),
                ('profile = 2', f'{meter}7\n', 53, '7 is not from -6 to 6'),
                ('profile = 2', f'{meter}-7\n', 53, '-7 is not from -6 to 6'),
                ('profile = 2', f'{meter}"3"\n', 53, 'the value must be a whole number')):
            found = told(line, more)
            self.assertEqual(found[0], code, line)
            self.assertIn(why, found[1])

    def test_two_points_of_one_name(self):
        found = first_refusal(FILE.replace('QC9', 'qc2'))
        self.assertEqual(found[1], 'switch 1 (QC2) and switch 2 (qc2) would both have a point '
                         'QC2_POS')

    def test_the_examples(self):
        for path in EXAMPLES:
            self.assertEqual(bay_file.refusals(path.read_bytes()), [])


class Programs(unittest.TestCase):
    def explain_line(self, text, line):
        return lines.locate(text, line).told

    def test_a_reserved_word_as_a_variable(self):
        for names in ('r : BOOL;', 'a, R : BOOL;', 's, b : INT;', 'ton : TON;'):
            told = self.explain_line(HEAD.format(names), 3)
            self.assertIn('is a reserved word, so no variable can have that name', told)

    def test_an_instruction_in_a_block(self):
        self.assertIn('END_VAR is missing', self.explain_line(HEAD.format('LD a'), 3))

    def test_a_forgotten_cal(self):
        text = HEAD.format('t1 : TON;') + 't1(IN := a, PT := T#5s)\nEND_PROGRAM\n'
        self.assertIn('a timer is called by CAL, as CAL t1(', self.explain_line(text, 5))

    def test_the_remedy_of_each_mistake(self):
        head = HEAD.format('a, b : BOOL;')
        for line, told, mend in (
                ('AND NOT a', 'NOT is an operator', 'write ANDN instead of AND'),
                ('LD NOT a', 'NOT is an operator', 'write LDN instead of LD'),
                ('ST t1.IN', 't1.IN is an input of a timer', 'set it by CAL t1(IN := a'),
                ('VAR_INPUT', 'VAR_INPUT is not a block', 'points of the bay in VAR_EXTERNAL'),
                ('// a', 'nothing can begin with', 'write a comment between (* and *)'),
                ('LD \u00e9', 'is not ASCII', 'put it in a comment')):
            found = lines.locate(head + line + '\nEND_PROGRAM\n', 5)
            self.assertIn(told, found.told)
            self.assertIn(mend, found.mend)

    def test_words_of_other_dialects(self):
        head = HEAD.format('a, b : BOOL;')
        for line, told, mend in (
                ('U SF6_OK', 'U is an operator of another dialect: here it is AND',
                 'write AND SF6_OK, or LD SF6_OK where a condition begins'),
                ('on a', 'on is an operator of another dialect: here it is ORN',
                 'write ORN a, or LDN a where a condition begins'),
                ('U(', 'here it is AND', 'write AND ('), ('BEA', 'here it is RET', 'write RET'),
                ('SET', 'here it is LD TRUE', 'write LD TRUE'),
                ('= a', '= is no operator: ST stores the result', 'write ST or EQ'),
                ('b := TRUE;', 'is Structured Text', 'write LD TRUE, and ST b on the next line'),
                ('b := a AND c;', 'is Structured Text',
                 'write its value by LD and operators, and ST b on the next line'),
                ('IF a THEN', 'IF is a word of Structured Text',
                 'use JMPC, JMP and labels, or AND and OR of the conditions')):
            found = lines.locate(head + line + '\nEND_PROGRAM\n', 5)
            self.assertEqual((told in found.told, found.mend), (True, mend), found.told)
        found = lines.locate(HEAD.format('a : BOOL := WAHR;') + 'END_PROGRAM\n', 3)
        self.assertEqual((found.told, found.mend), (
            'WAHR is not a word of the language: here it is TRUE', 'write TRUE'))
        fault = program.faults_of(head + 'LD wahr\nST a\nEND_PROGRAM\n', None)[0]
        self.assertEqual((fault.code, fault.mend), (70, 'write TRUE'))

    def test_a_duration_without_its_beginning(self):
        text = HEAD.format('t1 : TON;\na : BOOL;') + 'CAL t1(IN := a, PT := 10s)\nEND_PROGRAM\n'
        found = lines.locate(text, 6)
        self.assertEqual((found.told, found.mend, found.start),
                         ('10s is a duration, which begins with T#', 'write T#10s', 22))
        self.assertEqual(tokens.word_token('1h_30m', 0).mend, 'write T#1h_30m')
        self.assertEqual(tokens.word_token('10', 0).literal.value, 10)
        self.assertEqual(tokens.word_token('5x', 0).told, 'X is not a digit of base 10')

    def test_carriage_returns_and_marks(self):
        text = HEAD.format('a : BOOL;') + 'END_PROGRAM\n'
        for odd, mend in ((text.replace('\n', '\r'), 'lines that end with LF or CR LF'),
                          ('\ufeff' + text, 'as UTF-8 without a byte order mark')):
            self.assertIn(mend, lines.locate(odd, 1).mend)

    def test_numbers_of_many_digits(self):
        for word in ('9' * 5000, 'T#' + '9' * 5000 + 's', '16#' + 'F' * 5000):
            self.assertEqual(tokens.word_token(word, 0).kind, 'far')
        self.assertEqual(tokens.word_token('0' * 5000 + '7', 0).literal.value, 7)

    def test_what_stands_before_a_hash(self):
        self.assertIn('3 can\'t be before #', tokens.number_of('3#1'))

    def test_more_than_the_first(self):
        text = HEAD.format('a : BOOL;') + '    LD c\n    ST d\nEND_PROGRAM\n'
        self.assertEqual([(it.line, it.code) for it in program.faults_of(text, None)],
                         [(5, 70), (6, 70)])


class Traces(unittest.TestCase):
    def test_what_is_taken(self):
        text = ('0 contact QA1 2\n\n00 contact qa1 0\r\n5 input es 1\n'
                '1 measure m1 TOTW -2147483648\n1 measure M1 AC 2147483647')
        self.assertEqual(trace_faults(text), [])

    def test_lines_of_a_replay(self):
        for line in ('1 scan', '1 open 1', '1 recv 1 03', '1 close 1'):
            (_, code, told), = trace_faults(line)
            self.assertEqual(code, 120)
            self.assertIn('is a line of a replay', told)

    def test_a_replay(self):
        text = ('1 scan\n2 open 1\n2 recv 1 03aB\n3 close 1\n3 open 1\n3 contact QA1 1\n'
                '4294967295999 scan\n')
        self.assertEqual(trace_faults(text, True), [])
        for text, code in (('5 scan\n4 scan', 110), ('1 open 9', 111), ('1 recv 1 03', 111),
                           ('1 close 1', 111), ('1 open 1\n1 open 1', 112), ('1 input E 1', 113),
                           ('4294967296000 scan', 114), ('1 recv 1 0', 120), ('1 recv 1', 120),
                           ('1 scan 5', 120), ('1 open x', 120), ('1 open 0', 111)):
            found = trace_faults(text, True)
            self.assertEqual([it[1] for it in found], [code], text)

    def test_a_refused_line_changes_nothing(self):
        self.assertEqual(trace_faults('9 input X 1\n5 scan\n', True)[1:], [])

    def test_a_trace_with_a_mark_at_its_start(self):
        (_, code, told), = trace_faults('\ufeff0 contact QA1 1\n')
        self.assertEqual((code, told), (120, 'the trace begins with a byte order mark: save it as '
                                        'UTF-8 without one'))

    def test_numbers_of_many_digits(self):
        self.assertEqual(trace_faults('0' * 5000 + '1 contact QA1 1'), [])
        self.assertEqual(trace_faults('9' * 5000 + ' contact QA1 1')[0][1], 120)
        self.assertEqual(trace_faults('1 measure M1 HZ ' + '9' * 5000)[0][1], 120)

    def test_names_that_are_not_there(self):
        self.assertEqual(trace_faults('1 contact QB1 1\n'),
                         [(1, 113, 'the bay has no switch QB1; is QA1 meant?')])
        self.assertEqual(trace_faults('1 input QA1 1\n'),
                         [(1, 113, 'the bay has no input QA1; QA1 is its switch: write contact')])

    def test_forms(self):
        bad = ['contact QA1 1', '-1 contact QA1 1', '1  contact QA1 1', '1 contact QA1 4', ' ',
               '1 contact QA1 01', '1 input ES 2', '1 measure M1 totw 5', '1 measure M1 TOTW',
               '1 measure M1 TOTW 2147483648', '1 measure M1 TOTW +5', '1 contact QA1', '1',
               '1 Contact QA1 1', '1 contact QA1 1 ', '18446744073709551616 contact QA1 1',
               '1 contact QA1 1\r', b'1 contact Q\xff 1']
        for line in bad:
            self.assertEqual([code for _, code, _ in trace_faults(line)], [120], line)

    def test_what_is_lost(self):
        for is_replay in (False, True):
            self.assertEqual(trace_faults('1 lost\n1 measure M1 TOTW bad', is_replay), [])
            for line in ('1 lost QA1', '1 lost ', '1 LOST', '1 measure M1 TOTW BAD',
                         '1 input ES bad'):
                self.assertEqual([it[1] for it in trace_faults(line, is_replay)], [120], line)
        process = trace.Known(BAY, is_process=True)
        self.assertIsNone(process.trouble(b'1 measure M1 TOTW bad'))
        self.assertEqual(process.trouble(b'1 lost'), (
            120, 'a process can\'t send lost: the server sees by itself that it is'))

    def test_line_numbers(self):
        self.assertEqual([line for line, _, _ in trace_faults('\n1 scan\r\n\n1 scan')], [2, 4])

    def test_examples(self):
        for path in EXAMPLES:
            if not (path.parent / 'trace').exists():
                continue  # (its process is a driver)
            octets, file = (path.parent / 'trace').read_bytes(), tomllib.loads(path.read_text())
            found = list(trace.troubles(octets, file))
            self.assertLessEqual({it.told.split(' ')[0] for it in found if it.code == 120},
                                 {'scan', 'open', 'recv', 'close'})
            if trace.has_replayed(octets):
                self.assertNotIn(120, [it.code for it in trace.troubles(octets, file, True)])


class Asked(Tools):
    """The tool itself, with its statuses."""

    def words(self, trace_text):
        return ['--bay', self.file('bay', FILE), '--trace', self.file('trace', trace_text),
                '--bayctl', self.bayctl('instructions=1 depth=1 budget=1\n')]

    def test_the_sum_of_the_bay_file(self):
        told = sha256(FILE.encode()).hexdigest()
        for printed, status in (('instructions=1 depth=1 budget=1\n', 0), ('load refused 50\n', 1)):
            found = self.run_tool('diagnose', '--bay', self.file('bay', FILE), '--bayctl',
                                  self.bayctl(printed, status))
            self.assertRegex(found.out, f'\nSHA-256 of .*bay: {told}\n$')
            self.assertEqual(found.status, status)

    def test_which_trace_it_is(self):
        found = self.call_tool('diagnose', *self.words('0 scan\n'))
        self.assertIn('then ask with --replay', found.out)
        self.assertIn('1 line of the trace is not taken', found.out)
        self.assertEqual(found.status, 1)
        found = self.call_tool('diagnose', *self.words('0 scan\n'), '--replay')
        self.assertIn('a replay takes each line of the trace', found.out)
        self.assertEqual(found.status, 0)

    def test_a_number_of_many_meanings_is_told_by_its_place(self):
        logic = self.file('logic', 'PROGRAM p\n    ST\nEND_PROGRAM\n')
        words = ['--bay', self.file('bay', FILE), '--logic', logic, '--bayctl']
        found = self.call_tool('diagnose', *words, self.bayctl('load refused 61 line 2\n', 1))
        self.assertIn('ST needs an operand', found.out)
        self.assertNotIn('Usually', found.out)
        found = self.call_tool('diagnose', *words, self.bayctl('load refused 61 line 1\n', 1))
        self.assertIn('this tool does not find the fault', found.out)
        self.assertIn('Usually', found.out)

    def test_further_faults(self):
        bad = self.file('bay', FILE.replace('"direct"', '"Status"'))
        found = self.call_tool('diagnose', '--bay', bad, '--bayctl',
                              self.bayctl('load refused 53\n', 1))
        self.assertIn('What else was found:\n  line 15: switch 2 (QC9), key control', found.out)

    def test_what_can_not_be_read(self):
        found = self.call_tool('diagnose', '--bay', 'none', '--bayctl',
                               self.bayctl('fault 121\n', 3,
                                           'bayctl: fault 121: none: there is no such file\n'))
        self.assertEqual((found.out, found.error, found.status),
                         ('', 'diagnose: none: there is no such file (121)\n', 3))


if __name__ == '__main__':
    unittest.main()
