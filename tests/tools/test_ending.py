"""How tools end: one table of statuses, errors in one line, and no traceback whatever they are
given."""
import io
import pathlib
import re
import signal
import subprocess
import sys
import time
import unittest
import xml.etree.ElementTree as ET
from unittest import mock

from baytools.common.ending import OF_TOOLS, STATUSES, status_of
from baytools.common.paths import TOOLS, TOP
from baytools.common.texts import quantity, visible_text, in_line, upcase
from tests.tool import Tools, interruptible

BAY = '''[bay]
domain = "B"
vendor = "V"
model = "M"
revision = "1"
scan_max_age_ms = 1000
[[switch]]
id = "QA1"
kind = "breaker"
control = "direct"
travel_ms = 500
'''
LOGIC = 'PROGRAM p\nEND_PROGRAM\n'
LOADED = 'instructions=0 depth=0 budget=0\n'
GUIDE = TOP / 'README.md'
PLAIN = ('', 'switch = [5]\n', '[bay]\ndomain = 5\nswitch = []\n')  # TOML that is no bay


class Texts(unittest.TestCase):
    def test_names(self):
        self.assertEqual(upcase('q\u017f1_\u0131\u00e9'), 'Q\u017f1_\u0131\u00e9')

    def test_what_can_not_be_seen(self):
        self.assertEqual(visible_text('a\x1b[2J\n\x00\u202eb\u00e9\ud800'),
                         'a\\x1b[2J\n\\x00\\u202eb\u00e9\\ud800')
        self.assertEqual(in_line('a\nb\tc'), 'a\\nb\\tc')

    def test_counts(self):
        self.assertEqual(
            [quantity(1, 'line'), quantity(2, 'line'), quantity(0, 'switch', 'switches')],
            ['1 line', '2 lines', '0 switches'])


class Statuses(Tools):
    def test_each_tool_tells_those_of_the_table(self):
        for tool, statuses in OF_TOOLS.items():
            found = self.call_tool(tool, '--help')
            told = found.out.partition('Exit status: ')[2].partition('It needs Python')[0]
            told = ' '.join(told.split())
            numbers = [int(it) for it in re.findall(r'(?:^|; )([0-9]) ', told)]
            self.assertEqual((found.status, numbers), (0, list(statuses)), tool)
            self.assertLessEqual(set(statuses), set(STATUSES))
            self.assertIn('2 the command line is wrong', told)
            for line in found.out.partition('\npositional')[0].splitlines():
                self.assertLessEqual(len(line), 100, tool)

    def test_the_table_stands_in_the_guide(self):
        text = GUIDE.read_text(encoding='utf-8')
        for status, told in STATUSES.items():
            self.assertTrue(f'| {status} | {told}' in text, told)

    def test_words_that_make_no_sense(self):
        for tool in OF_TOOLS:
            found = self.call_tool(tool, '--no-such-option')
            self.assertEqual((found.status, found.out, found.error.count('\n')), (2, '', 1), tool)
            self.assertTrue(found.error.startswith(f'{tool}: '), tool)

    def words(self, bay, scenario):
        """A call of each tool that reads a bay file."""
        bay, logic = self.file('bay', bay), self.file('logic', LOGIC)
        rules, path = self.file('rules', 'always QA1 open\n'), self.file('scenario', scenario)
        asked = ['--bayctl', self.bayctl(LOADED)]
        return {'audit': [bay, logic, rules, *asked], 'client': ['--bay', bay, 1, 'browse'],
                'panel': ['--bay', bay, 1], 'scl': [bay], 'explain': [path, *asked],
                'station': ['--bay', bay, 1],
                'simulate': [bay, '--process', 1, '--once'], 'timeline': [path, *asked],
                'diagnose': ['--bay', bay, '--trace', bay, *asked],
                'modbus': ['--bay', bay, '--wiring', bay, '--check'],
                'gpio': ['--bay', bay, '--wiring', bay, '--check']}

    def test_bays_that_can_not_be_read(self):
        for odd in ('a = ' + '9' * 5000, 'a = ' + '[' * 5000, '[bay', *PLAIN,
                    BAY.encode('utf-16')):
            octets = odd if isinstance(odd, bytes) else odd.encode()
            scenario = octets + b'\n%%\n' + LOGIC.encode() + b'%%\n0 scan\n'
            for tool, words in self.words(octets, scenario).items():
                if odd and not octets.startswith(b'a') and tool not in ('scl', 'explain'):
                    continue
                found = self.call_tool(tool, *words)
                status = 1 if tool == 'scl' and odd in PLAIN else 3
                self.assertEqual((found.status, found.error.count('\n')), (status, 1),
                                 (tool, found))

    def test_files_that_are_not_there(self):
        for tool, words in self.words(BAY, '').items():
            if tool == 'diagnose':
                words[-1] = self.bayctl('fault 121\n', 3,
                                        'bayctl: fault 121: none: No such file or directory\n')
            words = ['none' if str(word).endswith(('/bay', '/scenario')) else word
                     for word in words]
            found = self.call_tool(tool, *words)
            self.assertEqual((found.status, found.out), (3, ''), tool)
            self.assertIn(f'{tool}: none: No such file or directory', found.error)
        found = self.call_tool('join', 'none', 'none', 'none')
        self.assertEqual((found.status, found.error),
                         (3, 'join: none: No such file or directory\n'))

    def test_a_bayctl_that_is_not_there(self):
        scenario = f'{BAY}%%\n{LOGIC}%%\n0 scan\n'
        for tool in ('audit', 'diagnose', 'explain', 'timeline'):
            words = [*self.words(BAY, scenario)[tool][:-1], 'none']
            found = self.call_tool(tool, *words)
            self.assertEqual((found.status, found.out), (3, ''), tool)
            self.assertIn('none: No such file or directory; put bayctl on the path, build it by',
                          found.error)


class Errors(unittest.TestCase):
    def test_an_error_of_another_thing_than_the_output(self):
        def main():
            raise TimeoutError('timed out')

        told = io.StringIO()
        with mock.patch('sys.stderr', told), \
                mock.patch('baytools.common.ending.stop_output') as stop:
            self.assertEqual(status_of(main), 3)
        self.assertTrue(told.getvalue().endswith(': timed out\n'))
        stop.assert_not_called()


class Outputs(Tools):
    """Output that can't be written, and tools that are interrupted."""

    def words(self):
        return [sys.executable, '-B', TOOLS / 'scl', self.file('bay', BAY)]

    @unittest.skipUnless(pathlib.Path('/dev/full').exists(), 'this system has no /dev/full')
    def test_a_full_disk(self):
        with open('/dev/full', 'w') as full:
            done = subprocess.run(self.words(), stdout=full, stderr=subprocess.PIPE, text=True)
            help_of_it = subprocess.run([*self.words(), '--help'], stdout=full,
                                        stderr=subprocess.PIPE, text=True)
        for it in (done, help_of_it):
            self.assertEqual((it.returncode, it.stderr),
                             (3, 'scl: standard output: No space left on device\n'))

    def test_a_closed_output(self):
        run = subprocess.Popen(self.words(), stdout=subprocess.PIPE, stderr=subprocess.PIPE)
        run.stdout.close()
        self.assertEqual((run.stderr.read(), run.wait()), (b'', 3))
        run.stderr.close()
        done = subprocess.run(['sh', '-c', 'exec "$@" >&-', 'sh', *self.words()],
                              stderr=subprocess.PIPE, text=True)
        self.assertEqual((done.returncode, done.stderr),
                         (3, 'scl: standard output: it is closed\n'))

    def test_an_interrupt(self):
        """Also where the tests ignore one, as a gate does in the background of a shell."""
        before = signal.signal(signal.SIGINT, signal.SIG_IGN)
        self.addCleanup(signal.signal, signal.SIGINT, before)
        started = self.folder / 'started'
        slow = self.file('slow', f'#!{sys.executable}\nimport pathlib\nimport time\n'
                         f'pathlib.Path({str(started)!r}).touch()\ntime.sleep(60)\n')
        slow.chmod(0o755)
        scenario = self.file('scenario', f'{BAY}%%\n{LOGIC}%%\n0 scan\n')
        words = [sys.executable, '-B', TOOLS / 'explain', scenario, '--bayctl', slow]
        with interruptible():
            run = subprocess.Popen(words, stdout=subprocess.PIPE, stderr=subprocess.PIPE,
                                   text=True, start_new_session=True)
        self.addCleanup(run.kill)
        for _ in range(600):  # a minute, on a machine that is busy
            if started.exists():
                break
            time.sleep(0.1)
        run.send_signal(signal.SIGINT)
        self.assertEqual((*run.communicate(timeout=10), run.returncode), ('', '', 130))


class Scenarios(Tools):
    """What explain and timeline make of a scenario and a report that are odd."""

    def run_on(self, tool, trace, report, *more):
        scenario = self.file('scenario', f'{BAY}%%\n{LOGIC}%%\n{trace}')
        return self.call_tool(tool, scenario, '--bayctl', self.bayctl(LOADED + report, 0), *more)

    def test_a_replay_that_ends_early(self):
        for report, told in (('fault 120 line 2\n', 'the replay ends at line 2 of the trace, which '
                              'can\'t be read (120): 5 nonsense'),
                             ('fault memory\n', 'the replay ends early: memory ran out')):
            for tool in ('explain', 'timeline'):
                found = self.run_on(tool, '0 contact QA1 1\n5 nonsense\n', report)
                self.assertEqual((found.status, found.out.splitlines()[-1]), (1, told), found)
        report = self.file('report', LOADED + 'fault memory\n')
        self.assertEqual(self.call_tool('explain', '--printed', report).status, 1)

    def test_a_report_that_begins_otherwise(self):
        for tool in ('explain', 'timeline'):
            scenario = self.file('scenario', f'{BAY}%%\n{LOGIC}%%\n0 scan\n')
            report = self.file('report', 'a\nb\nc\n')
            found = self.call_tool(tool, scenario, '--printed', report)
            self.assertEqual((found.status, found.error), (
                3, f'{tool}: the report begins with no line of a load: a\n'))
            report = self.file('report', 'fault 120 line 0\n')
            self.assertIn('two lines %% stand between its parts (120); tools/join makes one',
                          self.call_tool(tool, scenario, '--printed', report).error)
            found = self.call_tool(tool, self.file('bay', BAY), '--bayctl', self.folder / 'none')
            self.assertIn('a part is missing', found.error, 'before bayctl is asked')

    def test_moments_that_are_too_large(self):
        for moment in ('253402300800000', '4294967296000', '18446744073709551615'):
            for tool in ('explain', 'timeline'):
                found = self.run_on(tool, f'{moment} contact QA1 1\n', f'{moment} refused 114\n')
                self.assertEqual((found.status, found.error), (0, ''), (tool, found))

    def test_control_octets(self):
        text = '0 contact QA1\x1b[2J 1\n'
        found = self.run_on('explain', text, '0 refused 113\n')
        self.assertNotIn('\x1b', found.out)
        self.assertIn('QA1\\x1b[2J 1', found.out)
        self.run_on('timeline', text, '0 refused 113\n')
        ET.parse(self.folder / 'timeline.svg')

    def test_days_are_told_where_they_begin(self):
        day = 1_795_000_000_000
        trace = f'{day} contact QA1 1\n{day + 90_000_000} contact QA1 2\n'
        self.assertEqual(self.run_on('timeline', trace, '').error, '')
        text = (self.folder / 'timeline.svg').read_text()
        self.assertIn('>2026-11-19<', text)
        self.assertEqual(min(map(float, re.findall(r'font-size="([^"]+)"', text))), 12)
        said = self.run_on('explain', trace, '').out
        self.assertEqual([line[:10] for line in said.splitlines() if line.startswith('2026')],
                         ['2026-11-18', '2026-11-19'])

    def test_positions_have_one_word_each(self):
        trace = ''.join(f'{value} contact QA1 {value}\n' for value in range(4))
        said = self.run_on('explain', trace, '').out
        for told in ('QA1 is intermediate', 'QA1 is open', 'QA1 is closed', 'QA1 is bad'):
            self.assertIn(told, said)

    def test_reports_of_another_scenario(self):
        for report in ('0 refused 5\n', 'x\n', '0 command QX on\n', '0 scan\n',
                       '0 scan steps=1 QA1=1\n', '0 send 1 zz\n',
                       '0 closed 1\n', '0 command\n', '9' * 5000 + ' scan\n', '0 send 1 \n'):
            for tool in ('explain', 'timeline'):
                self.run_on(tool, '0 scan\n0 open 1\n0 recv 1 03\n', report)
                self.run_on(tool, '0 open x\n0 contact\n0 measure M1 HZ\n', report)
            self.call_tool('explain', '--printed', '-', given=report)


if __name__ == '__main__':
    unittest.main()
