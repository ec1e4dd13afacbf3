"""A process that is lost, and measures that are bad: told, drawn and joined."""
import unittest

from baytools.wire.words import cause_text
from tests.tool import Tools

BAY = '''[bay]
domain = "B"
vendor = "V"
model = "M"
revision = "1"
scan_max_age_ms = 1000
[[switch]]
id = "QA1"
kind = "breaker"
control = "status"
[[switch]]
id = "QC1"
kind = "earthing"
control = "status"
[[input]]
name = "ES"
[[meter]]
id = "M1"
'''
LOGIC = 'PROGRAM P\nEND_PROGRAM\n'
TRACE = '''1000 contact QA1 2
1000 input ES 1
1000 measure M1 TOTW 5
1000 measure M1 HZ 50
2000 lost
3000 measure M1 TOTW 6
4000 measure M1 TOTW bad
5000 contact QA1 1
9000 scan
'''
REPORT = '''instructions=0 depth=0 budget=0
9000 scan steps=0 QA1=00 QC1=00
'''


class Lost(Tools):
    def scenario(self):
        return self.file('scenario', f'{BAY}%%\n{LOGIC}%%\n{TRACE}')

    def test_in_words(self):
        found = self.call_tool('explain', self.scenario(), '--bayctl', self.bayctl(REPORT))
        self.assertEqual((found.status, found.error), (0, ''))
        for told in ('2000      the process is lost: every position is bad, every input is FALSE, '
                     'every measured value is bad', 'M1_TOTW is bad (total active power)',
                     'M1_TOTW is 6 in the unit of the process (total active power)'):
            self.assertIn(told, found.out)

    def test_drawn(self):
        out = self.folder / 'picture.svg'
        found = self.call_tool('timeline', self.scenario(), '--bayctl', self.bayctl(REPORT),
                               '--out', out)
        self.assertEqual((found.status, found.error), (0, ''))
        drawn = out.read_text()
        for told in ('QA1 closed from 1000 ms', 'QA1 bad from 2000 ms', 'QA1 open from 5000 ms',
                     'QC1 bad from 2000 ms', 'ES 1 from 1000 ms', 'M1_TOTW bad from 2000 ms',
                     'M1_TOTW bad from 4000 ms', 'M1_HZ bad from 2000 ms'):
            self.assertEqual(drawn.count(f'>{told}'), 1, told)
        self.assertIn('the process is lost at 2000 ms', drawn)

    def test_the_cause_of_a_refused_operate(self):
        self.assertEqual([cause_text(code) for code in (2, 9, 10, 11, 99)], [
            'blocked by switching hierarchy (2): its key is not at remote',
            'blocked by process (9): the process is lost', 'blocked by interlocking (10)',
            'blocked by synchrocheck (11): the switch has no synchrocheck', 'cause (99)'])

    def test_joined(self):
        bay, logic = self.file('bay', BAY), self.file('logic', LOGIC)
        one, other = self.file('one', '5 lost\n'), self.file('other', '4 measure M1 HZ bad\n')
        found = self.call_tool('join', bay, logic, one, other)
        self.assertEqual(found.out.split('%%\n')[2], '4 measure M1 HZ bad\n5 lost\n')

    def test_what_a_server_prints_of_its_process(self):
        report = self.file('report', REPORT.partition('\n')[0] + '''
1000 process open
1000 process 500 B 1 of two
1100 alive
1200 over QA1
1300 process closed 134
1400 process closed 0
1500 process gone
''')
        found = self.call_tool('explain', '--printed', report)
        self.assertEqual([line.strip() for line in found.out.splitlines()[1:]], [
            '1000      the process connects',
            '1000      the process is greeted by bay B 1 of two: it is to be heard within 500 ms',
            '1100      the server lives', "1200      the time of QA1's operate is over",
            '1300      the process is closed for a fault: no line in time (134)',
            '1400      the process is closed', "a line that can't be read: 1500 process gone"])


if __name__ == '__main__':
    unittest.main()
