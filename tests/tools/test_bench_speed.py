"""The scripts of bench/speed that print tables, without bayctl."""
import contextlib
import importlib.machinery
import io
import sys
import types
import unittest
from pathlib import Path

from baytools.common.paths import TOP

TABLE = '''Measured by nobody.

| What | bayctl | C | Times |
|---|---|---|---|
| a poll | 1,200 | 1,000 | 1.20 |
| another poll | 900 | 1,000 | 0.90 |
'''


def script(path: str) -> types.ModuleType:
    """A script of bench/ as a module."""
    loader = importlib.machinery.SourceFileLoader(path.replace('/', '_'), str(TOP / path))
    found = types.ModuleType(loader.name)
    found.__file__ = str(TOP / path)
    sys.modules[loader.name] = found
    sys.path.insert(0, str(Path(found.__file__).parent))
    loader.exec_module(found)
    return found


COSTS, REPLAY, SERVE = (script(f'bench/speed/{it}') for it in ('costs', 'replay', 'serve'))


def printed(call, *given) -> str:
    """What a call prints."""
    out = io.StringIO()
    with contextlib.redirect_stdout(out):
        call(*given)
    return out.getvalue()


class Costs(unittest.TestCase):
    def test_a_cell_is_that_of_its_row_and_column(self):
        self.assertEqual(COSTS.cell_of(TABLE, 'a poll', 1), '1,200')
        self.assertEqual(COSTS.cell_of(TABLE, 'another poll', 3), '0.90')
        with self.assertRaises(SystemExit):
            COSTS.cell_of(TABLE, 'no poll', 1)

    def test_a_row_says_whether_it_is_as_wanted(self):
        for now, wanted, answer in (('1,200', '1,200', 'yes'), ('1,201', '1,200', 'no'),
                                    ('7', '', '')):
            self.assertEqual(printed(COSTS.print_row, 'a poll', '2', now, wanted),
                             f'| a poll | 2 | {now} | {wanted} | {answer} |\n')

    def test_functions_belong_to_a_crate_or_to_a_task(self):
        for name, group in (('bay_mms::request::read_request', '`bay_mms`'),
                            ('_int_free', 'memory is allocated and freed'),
                            ('malloc', 'memory is allocated and freed'),
                            ('__memcpy_avx_unaligned', 'octets are copied, cleared and compared'),
                            ('strlen', 'the rest of the C library and the loader')):
            self.assertEqual(COSTS.group_of(name), group)

    def test_shares_are_of_all_but_the_totals(self):
        own = {COSTS.TOTALS: 100.0, 'bay_mms::a': 75.0, 'malloc': 25.0}
        with_all = {COSTS.TOTALS: 100.0, 'bay_main::main': 100.0, 'bay_mms::a': 80.0}
        told = printed(COSTS.print_shares, 'A run', {False: own, True: with_all})
        self.assertIn('A run: 100 instructions.\n', told)
        self.assertIn('| `bay_mms` | 75 | 75.0 % |\n', told)
        self.assertIn('| memory is allocated and freed | 25 | 25.0 % |\n', told)
        self.assertIn('| `bay_mms::a` | 80 | 80.0 % |\n', told)
        self.assertNotIn('bay_main', told)


class Polls(unittest.TestCase):
    def test_a_poll_has_32_values_of_switches_from_the_first_to_the_last(self):
        for polled in (REPLAY.EIGHT, REPLAY.THIRTY_TWO):
            self.assertEqual(len(polled.leaves), 32)
            self.assertIn('B/XCBR1$ST$Pos$stVal', polled.leaves)
            self.assertIn(f'B/CSWI{polled.count}$ST$Pos$stVal', polled.leaves)
            self.assertEqual(polled.bay.count('[[switch]]'), polled.count)


class Answers(unittest.TestCase):
    def test_a_cell_has_the_middle_the_least_and_the_greatest(self):
        self.assertEqual(SERVE.cell([1000, 2000, 30000]), '2,000 (1,000 to 30,000)')
