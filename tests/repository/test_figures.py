"""Measured figures: each table says where it comes from, aims and figures agree, and what the gate
costs counts nothing that was not measured."""
import os
import re
import unittest
from unittest import mock

from baytools.common.paths import TOP
from devtools.figures import costs, stamps
from devtools.figures.kinds import kind_of
from tests.tool import Tools

STAMPED = ('Measured by `bench/speed/replay polls` on 2026-11-26 at\ncommit 2beba37f+; machine: '
           'Xeon, quiet; kit: rattle-kit-13f.')
PAGE = f'''# Page

| a | b |
|---|---|
| 1 | 2 |

## Section

{STAMPED}

```
one

| two |
```

| of the same |
|---|

## Next

```
three
```
'''
CRATES = ['bayctl', 'bay_server', 'bayctl_tests', 'layer_cases']


def rows_of(text: str) -> list[list[str]]:
    """The rows of all tables of a text."""
    return [[it.strip() for it in line.strip('|').split(' | ')] for line in text.split('\n')
            if line.startswith('| ')]


class Stamps(unittest.TestCase):
    def test_a_page(self):
        found = [(it.line, it.head, bool(it.stamp)) for it in stamps.figures_in('page', PAGE)]
        self.assertEqual(found, [(3, '| a | b |', False),
                                 (9, STAMPED.split('\n')[0], True), (23, 'three', False)])

    def test_the_kits(self):
        """README names each kit with which the gate was run, or the program that was measured."""
        said = (TOP / 'README.md').read_text(encoding='utf-8').partition('proved with ')[2]
        said = ' '.join(said.partition('\n- ')[0].split())
        told = ''.join((TOP / 'bench' / f'{name}.md').read_text(encoding='utf-8')
                       for name in ('GATE', 'RESULTS'))
        found = set(re.findall(r'rattle-kit-\w+', told))
        self.assertTrue(found)
        self.assertEqual(set(re.findall(r'rattle-kit-\w+', said)), found)
        self.assertEqual(set(re.findall(r'logic \w+', said)), set(re.findall(r'logic [0-9a-f]{16}',
                                                                              told)))

    def test_what_is_printed_is_a_stamp(self):
        told = stamps.STAMP.match(stamps.stamp('bench/speed/serve'))
        self.assertEqual(told['command'], 'bench/speed/serve')
        self.assertEqual(stamps.STAMP.match(STAMPED)['machine'], 'Xeon, quiet')

    def test_a_program_that_may_be_of_another_commit(self):
        with mock.patch.dict(os.environ, BAYCTL='x'):
            self.assertEqual(stamps.STAMP.match(stamps.stamp('bench/speed/serve'))['changed'], '+')

    def test_what_is_told(self):
        figures = stamps.figures_in('page', PAGE)[1]
        for files, told in ((0, 'as new as'), (3, 'older than 3 of'), (None, 'unknown, for want')):
            with mock.patch.object(stamps, 'changed_since', return_value=files):
                self.assertIn(told, stamps.figures_text(figures))
        self.assertIsNone(stamps.changed_since('0' * 40, ('crates',)))

    def test_what_a_command_measures(self):
        paths = stamps.measured_by('bench/speed/serve 3')
        self.assertIn('crates/il_scan/src', paths)
        self.assertNotIn('crates/bayctl_tests/src', paths)
        self.assertEqual(paths[-1], 'bench/speed/serve')

    def test_each_table_has_a_stamp_of_a_script_that_is_there(self):
        for page in stamps.PAGES:
            for it in stamps.figures_in(page, (TOP / page).read_text(encoding='utf-8')):
                self.assertTrue(it.stamp, f'{page}:{it.line}: {it.head}')
                self.assertTrue((TOP / it.stamp['command'].split()[0]).exists(), it.head)


class Aims(unittest.TestCase):
    def setUp(self):
        front, _, behind = (TOP / 'bench' / 'RESULTS.md').read_text(encoding='utf-8').partition(
            '## Aims and bounds\n')
        self.aims, _, self.figures = behind.partition('\n## ')
        self.front = front

    def test_what_is_reached_agrees_with_the_figures(self):
        """Each aim has one row of the tables under the same words."""
        aims = [row for row in rows_of(self.aims) if row[0] != 'What']
        self.assertGreater(len(aims), 9)
        for what, aim, is_reached, _ in aims:
            times = [row[-1].rstrip(' |') for row in rows_of(self.figures) if row[0] == what]
            self.assertEqual(len(times), 1, what)
            self.assertEqual(is_reached, 'yes' if float(times[0]) <= float(aim) else 'no', what)

    def test_no_figure_stands_beside_the_aims_too(self):
        def figures(text):
            return set(re.findall(r'\b\d{1,3}(?:,\d{3})+\b|\b\d+\.\d\d\b', text))
        self.assertEqual(figures(self.aims) & figures(self.front + self.figures), {'4,000'})

    def test_figures_tell_of_no_aim(self):
        self.assertIsNone(re.search(r'\bAim\b|[Rr]eached with|[Nn]ot reached',
                                    self.front + self.figures))


class Gate(unittest.TestCase):
    def test_kinds(self):
        run = '/tmp/rt-run-7-abc'
        for words, folder, kind in (
                (f'{run}/bin/bayctl replay', f'{run}/data', ('bayctl', 'runs')),
                (f'/kit/rattle-test --seconds 60 {run}/bin/bayctl_tests_tests', f'{run}/data',
                 ('bayctl_tests', 'tests')),
                (f'{run}/bin/other', f'{run}/data', ('', '')),
                ('rattle --crate-name bay_server x', '/x/crates/bay_server',
                 ('bay_server', 'proof')),
                ('rattle x', '/x/crates/bay_server/out/a', ('bay_server', 'proof')),
                ('rattle --test --crate-name bayctl_tests', '/x', ('bayctl_tests', 'tests')),
                ('clang x', '/x/crates/bayctl/out', ('bayctl', 'builds')),
                ('rattle --crate-name bayctl', '/tmp/rt-edits-7-abc/bayctl', ('bayctl', 'edits')),
                ('rattle x', '/tmp/rt-edit-7-abc/crates/bayctl', ('bayctl', 'edits')),
                ('/x/bay_server', '/x/elsewhere', ('', '')),
                ('sh x', '/x/crates/bayctl', ('', '')),
                ('', '', ('', ''))):
            self.assertEqual(kind_of(words.split(' '), folder, CRATES), kind, words)

    def test_what_is_not_measured_is_in_no_sum(self):
        rows = [['a', 10, 2, 3, 0, 5, 0, 0, 0, 0, 'c1'], ['b', 20, 2, 3, 1, '-', 0, '-', 0, 0, '-']]
        self.assertEqual(costs.missing(rows), 'proof: b; edits: b')
        self.assertEqual(costs.total_of(rows),
                         ['all 2, as far as measured', 30, 4, 6, 1, 5, 0, 0, 0, 0, ''])
        self.assertEqual(costs.total_of(rows[:1])[0], 'all 1')

    def test_what_a_run_no_longer_does_costs_nothing(self):
        row = costs.row_of('bay_base', {'proof': 36.0, 'edits': 20.0, 'tests': 7.0})
        self.assertEqual(row[5:10], [36, 0, 0, 0, 0])

    def test_the_table_has_a_row_for_each_crate(self):
        with mock.patch.object(costs, 'figures', return_value={}):
            rows = costs.rows()
        self.assertEqual([row[0] for row in rows], costs.crates())
        self.assertTrue(all(row[-1] == '-' and row[5] == '-' for row in rows))


class Told(Tools):
    def test_the_tool_ends_well(self):
        found = self.call_tool('figures')
        self.assertEqual((found.status in (0, 1), found.error), (True, ''))
        self.assertIn('bench/GATE.md: ', found.out)
        self.assertNotIn('no stamp', found.out)


if __name__ == '__main__':
    unittest.main()
