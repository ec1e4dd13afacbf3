"""Inputs that block while they are TRUE: which they are by what bayctl answers, and who warns."""
import sys
import tomllib
import unittest

from baytools.audit.answers import read
from baytools.audit.blocking_inputs import good_name, needs_of_inputs, warnings
from baytools.audit.variables import keys_of
from tests.tool import Tools
from tests.tools.driven import BAY, WIRING

FILE = tomllib.loads(BAY)
LINE = 'instructions=1 depth=1 budget=1\n'
HAS_AUDIT = '  audit    Says of each rule whether it is kept\n'


def answer(*lines):
    return read(LINE + '\n'.join(lines) + '\n', keys_of(FILE))


def need(*lines):
    """What the releases need of ES, FALSE and TRUE."""
    found = {it.name: (it.false, it.true) for it in needs_of_inputs(answer(*lines), FILE)}
    return found['ES']


class Needs(unittest.TestCase):
    def test_an_input_that_blocks_while_it_is_true(self):
        self.assertEqual(need('release QA1 close cases=2', 'released ES=0', 'blocked ES=1'),
                         (('QA1 close',), ()))

    def test_an_input_that_blocks_while_it_is_false(self):
        self.assertEqual(need('release QA1 close cases=2', 'released ES=1', 'blocked ES=0'),
                         ((), ('QA1 close',)))

    def test_an_input_on_which_nothing_depends(self):
        """A case names it, and the release is given for its other value too."""
        self.assertEqual(need('release QA1 close cases=3', 'released QC1=1 ES=0',
                              'released QC1=1 ES=1', 'blocked QC1=0|2|3'), ((), ()))

    def test_what_depends_on_a_timer_counts(self):
        self.assertEqual(need('release QA1 open cases=2', 'depends ES=0 on after_trip',
                              'blocked ES=1', 'release QA1 close cases=1', 'released'),
                         (('QA1 open',), ()))

    def test_what_its_true_leaves_to_a_timer_is_not_blocked(self):
        self.assertEqual(need('release QA1 open cases=2', 'released ES=0', 'depends ES=1 on t'),
                         ((), ()))

    def test_an_input_that_works_both_ways(self):
        self.assertEqual(need('release QA1 close cases=4', 'released QC1=1 ES=0',
                              'released QC1=2 ES=1', 'blocked QC1=2 ES=0', 'blocked QC1=0|3'),
                         (('QA1 close',), ('QA1 close',)))

    def test_too_many_cases(self):
        self.assertEqual(need('release QA1 close many'), ((), ()))

    def test_names(self):
        self.assertEqual([good_name(it) for it in ('TRIP', 'VT_FAIL', 'vt_fault')],
                         ['NO_TRIP', 'VT_OK', 'vt_OK'])

    def test_the_warning(self):
        found, = warnings(answer('release QA1 close cases=2', 'released ES=0', 'blocked ES=1',
                                 'release QA1 open cases=2', 'released ES=0', 'blocked ES=1'), FILE)
        self.assertTrue(found.startswith('ES blocks QA1 close, QA1 open while it is TRUE. '), found)
        self.assertIn('and name it NO_ES.', found)
        self.assertEqual(warnings(None, FILE), [])


class Checks(Tools):
    """tools/modbus --check with a program that plays `bayctl audit`."""

    def check(self, cases, fault='false', has_audit=True):
        bayctl = self.file('bayctl', f'''#!{sys.executable}
import sys
print({HAS_AUDIT if has_audit else ''!r} if '--help' in sys.argv else {LINE + cases!r}, end='')
''')
        bayctl.chmod(0o700)
        wiring = self.file('wiring.toml', WIRING.replace('fault = false', f'fault = {fault}'))
        return self.call_tool('modbus', '--bay', self.file('bay.toml', BAY), '--wiring', wiring,
                              '--check', '--logic', self.file('logic.il', ''), '--bayctl', bayctl)

    def warnings_of(self, *words):
        found = self.check(*words)
        self.assertEqual((found.status, found.error), (0, ''))
        return [line for line in found.out.splitlines() if line.startswith('WARNING: ')]

    def test_an_input_that_blocks_while_it_is_true(self):
        cases = 'release QA1 close cases=2\nreleased ES=0\nblocked ES=1\n'
        first, second = self.warnings_of(cases)
        self.assertIn('ES blocks QA1 close while it is TRUE', first)
        self.assertIn('ES has fault = false, and so a lost module releases QA1 close: write '
                      'fault = true.', second)
        self.assertEqual(self.warnings_of(cases, 'true'), [first])

    def test_an_input_that_blocks_while_it_is_false(self):
        cases = 'release QA1 close cases=2\nreleased ES=1\nblocked ES=0\n'
        self.assertEqual(self.warnings_of(cases), [])
        found, = self.warnings_of(cases, 'true')
        self.assertIn('ES has fault = true, and so a lost module releases QA1 close', found)

    def test_a_bayctl_that_proves_nothing(self):
        found = self.check('', has_audit=False)
        self.assertEqual((found.status, 'it has no command `audit`' in found.error), (3, True))

    def test_without_a_program(self):
        found = self.call_tool('modbus', '--bay', self.file('bay.toml', BAY), '--wiring',
                               self.file('wiring.toml', WIRING), '--check')
        self.assertIn('are not looked for: name the program by --logic', found.out)
        found = self.call_tool('modbus', '--bay', 'bay.toml', '--wiring', 'wiring.toml', '--off',
                               '--logic', 'logic.il')
        self.assertEqual((found.status, '--logic is of --check' in found.error), (2, True))


if __name__ == '__main__':
    unittest.main()
