"""What tools/audit says of the hazards in a single line diagram, by answers that are written by
hand; a program in the place of bayctl gives them."""
import sys
import unittest

from baytools.audit import answers, hazards, questions
from baytools.audit.answers import Bad, Case, Judged, read
from baytools.audit.variables import keys_of
from baytools.bay.files import bay_at
from baytools.bay.rules import SWITCH
from baytools.common.ending import Failed
from tests.tool import Tools
from tests.tools.test_diagram import EXAMPLES

SINGLE = next(it for it in EXAMPLES if it.parent.name == 'single')
KEYS = keys_of(bay_at(SINGLE)[1])
LOADED = 'instructions=20 depth=2 budget=20\n'
WHY = 'earths BB, which is not isolated: N1 - QB1 - BB'
HELD = ''.join(f'diagram {name} {way} holds cases={count}\n' for count, (name, way) in enumerate(
    (name, way) for name in ('QA1', 'QB1', 'QB9', 'QC1') for way in ('open', 'close')))
BROKEN = (f'diagram QC9 open broken: {WHY}\ndiagram QC9 close broken QB1=0|2|3 QA1=1: {WHY}\n')
OTHERS = f'diagram QC9 open many\ndiagram QC9 close open QB1=2: {WHY}\n'
HELP = '  audit    Proves rules\n      --diagram <F>  Diagram file\n'


class Answers(unittest.TestCase):
    def test_lines(self):
        found = read(LOADED + HELD + BROKEN + OTHERS + 'diagram QA1 open open QB1=2\n', KEYS).judged
        self.assertEqual(found[:2], [Judged('QA1', 0, answers.HOLDS, 0),
                                     Judged('QA1', 1, answers.HOLDS, 1)])
        self.assertEqual(found[8:], [
            Judged('QC9', 0, answers.BROKEN, why=WHY),
            Judged('QC9', 1, answers.BROKEN, case=Case({
                (SWITCH, 'QB1'): ((0, 0), (2, 2), (3, 3)), (SWITCH, 'QA1'): ((1, 1),)}), why=WHY),
            Judged('QC9', 0, answers.MANY),
            Judged('QC9', 1, answers.OPEN, case=Case({(SWITCH, 'QB1'): ((2, 2),)}), why=WHY),
            Judged('QA1', 0, answers.OPEN, case=Case({(SWITCH, 'QB1'): ((2, 2),)}))])

    def test_lines_that_are_none(self):
        for odd in ('', ' QA1 open', ' QA1 shut many', ' QX open many', ' QA1 open holds',
                    ' QA1 open holds cases=x', ' QA1 open many QA1=0', ' QA1 open broken QX=0: a',
                    ' QA1 open broken QA1=5..4: a', ' QA1 open broken QA1', ' QA1 open perhaps'):
            with self.assertRaises(Bad, msg=odd):
                read(f'{LOADED}diagram{odd}\n', KEYS)


class Asking(Tools):
    def bayctl(self, printed: str, status: int, help_text: str = HELP, releases: str = '11'):
        """A program in the place of bayctl: its help, its answer, and what its replays release."""
        row = f'0 scan steps=0 QA1=11 QB1=11 QB9=11 QC1=11 QC9={releases}'
        asked = str(self.folder / 'asked')
        path = self.file('bayctl', f'#!{sys.executable}\nimport sys\n'
                         f'if "--help" in sys.argv:\n    sys.exit(print({help_text!r}) or 2)\n'
                         'if sys.argv[1] != "audit":\n    sys.stdin.buffer.read()\n'
                         f'    print({LOADED!r}, end="")\n'
                         f'    print({row + chr(10)!r} * 5000, end="")\n'
                         '    sys.exit(0)\n'
                         f'print(" ".join(sys.argv[1:]), file=open({asked!r}, "a"))\n'
                         f'print({printed!r}, end="")\nsys.exit({status})\n')
        path.chmod(0o755)
        return path

    def run_audit(self, *words, **more):
        program = self.bayctl(**more)
        return self.call_tool('audit', SINGLE, SINGLE.with_name('logic.il'), *words, '--diagram',
                              SINGLE.with_name('diagram.toml'), '--bayctl', program)

    def test_a_diagram_without_rules(self):
        held = HELD + 'diagram QC9 open holds cases=1\ndiagram QC9 close holds cases=2\n'
        found = self.run_audit('--html', 'page.html', printed=LOADED + held, status=0)
        self.assertEqual((found.status, found.out.splitlines()[0], found.out.splitlines()[-1]), (
            0, 'PROVED: no command to open QA1 while that is a hazard in diagram.toml',
            'PASSED: none of 10 operations is released while it is a hazard in diagram.toml.'))
        self.assertRegex((self.folder / 'asked').read_text(), '--rules .* --diagram .*diagram.toml')
        page = (self.folder / 'page.html').read_text()
        for told in ('<h2>Hazards in the single line diagram</h2>', 'the diagram is that of the '
                     'plant', '<td class="name"><b>QC9</b> close</td>'):
            self.assertIn(told, page)
        self.assertNotIn('>Rules</td>', page)

    def test_a_hazard(self):
        found = self.run_audit('--html', 'page.html', printed=LOADED + HELD + BROKEN, status=4)
        lines = found.out.splitlines()
        at = lines.index('BROKEN: QC9 close is released while it is a hazard in diagram.toml')
        self.assertEqual(lines[at + 1:at + 3], [
            f'    proved: with QA1 open, QB1 intermediate|closed|bad: {WHY}',
            '    replay broken_QC9_close.scenario, which shows the release'])
        self.assertIn(f'    proved: with anything: {WHY}', lines)
        self.assertEqual((found.status, lines[-1]), (1, (
            'NOT PASSED: of 10 operations 2 released while a hazard in diagram.toml.')))
        scenario = (self.folder / 'broken_QC9_close.scenario').read_text()
        self.assertIn('%%\n0 contact QA1 1\n0 contact QB1 0\n', scenario)
        self.assertIn(f'QC9 close is released while it is a hazard: {WHY}',
                      (self.folder / 'page.html').read_text())
        again = self.run_audit(printed=LOADED + HELD + OTHERS, status=4)
        self.assertEqual(again.status, 4)
        self.assertFalse((self.folder / 'broken_QC9_close.scenario').exists())

    def test_what_is_open(self):
        found = self.run_audit(printed=LOADED + HELD + OTHERS, status=4)
        lines = found.out.splitlines()
        at = lines.index('OPEN: no command to open QC9 while that is a hazard in diagram.toml')
        self.assertEqual(lines[at + 1:at + 4], [
            '    there are too many cases to prove it',
            'OPEN: no command to close QC9 while that is a hazard in diagram.toml',
            '    holds, unless the program, by what it keeps or calculates, releases it with QB1 '
            f'closed: {WHY}'])
        self.assertEqual(lines[-1], 'NOT ALL WAS PROVED OR TRIED: of 10 operations 2 open.')

    def test_a_replay_that_does_not_show_it(self):
        found = self.run_audit(printed=LOADED + HELD + BROKEN, status=4, releases='00')
        self.assertIn(f'    {hazards.DOUBTED}', found.out.splitlines())

    def test_rules_and_a_diagram(self):
        rules = self.file('rules', 'always QA1 open\n')
        held = HELD + 'diagram QC9 open holds cases=1\ndiagram QC9 close holds cases=2\n'
        found = self.run_audit(rules, printed=f'{LOADED}rule 1 QA1 open holds cases=1\n{held}',
                               status=0)
        self.assertEqual((found.status, found.out.splitlines()[-1]), (0, (
            'PASSED: the rule is proved; none of 10 operations is released while it is a hazard in '
            'diagram.toml.')))

    def test_a_program_without_the_option(self):
        rules = self.file('rules', 'always QA1 open\n')
        found = self.run_audit(rules, printed=LOADED + 'rule 1 QA1 open holds cases=1\n', status=0,
                               help_text='  audit    Proves rules\n')
        self.assertIn('diagram.toml IS NOT JUDGED: this bayctl has no `audit --diagram`.',
                      found.out.splitlines())
        self.assertEqual((found.status, found.out.splitlines()[-1]), (4, (
            'NOT ALL WAS PROVED OR TRIED: the rule is proved; diagram.toml is not judged.')))
        self.assertNotIn('--diagram', (self.folder / 'asked').read_text())

    def test_neither_rules_nor_a_diagram(self):
        found = self.call_tool('audit', SINGLE, SINGLE.with_name('logic.il'))
        self.assertEqual(found.status, 2)

    def test_the_page_of_tools_rules(self):
        program = self.bayctl(printed=LOADED + HELD + BROKEN, status=4)
        words = ['rules', SINGLE, SINGLE.with_name('diagram.toml'), '--logic',
                 SINGLE.with_name('logic.il'), '--bayctl', program]
        self.assertEqual(self.call_tool(*words).status, 2)
        found = self.call_tool(*words, '--html', 'page.html')
        self.assertEqual(found.status, 0, found)
        page = (self.folder / 'page.html').read_text()
        for told in (f'proved: with QA1 open, QB1 intermediate|closed|bad: {WHY}', 'logic.il',
                     'Hazards in the single line diagram'):
            self.assertIn(told, page)
        self.assertNotIn('--rules', (self.folder / 'asked').read_text())
        program = self.bayctl(printed='', status=4, help_text='  audit    Proves rules\n')
        self.assertEqual(self.call_tool(*words, '--html', 'page.html').status, 3)

    def test_refusals(self):
        for line, told in (('152 between 3', 'between 3: bayctl refuses it with 152: '),
                           ('146', 'diagram.toml: bayctl refuses it with 146: ')):
            program = self.bayctl(LOADED + f'diagram refused {line}\n', 1)
            with self.assertRaises(Failed) as raised:
                questions.run_audit(program, 'bay', 'logic', 'rules', KEYS, diagram='diagram.toml')
            self.assertIn(told, str(raised.exception))
            self.assertEqual(questions.refusal_of_diagram(program, 'bay', 'logic', 'd'),
                             (int(line[:3]), line[4:]))


if __name__ == '__main__':
    unittest.main()
