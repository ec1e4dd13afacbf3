"""bayctl where it is not built: its sources, run by an `rt` that a test writes."""
import os
import sys
import unittest
from types import SimpleNamespace
from unittest import mock

from baytools.audit import replays
from baytools.report import bayctl
from tests.tool import Tools

# Runs each case as `rt try --cases` does: what is printed tells the words, the files and the input.
RT = '''#!{python}
import pathlib, sys
words = sys.argv[1:]
folder = pathlib.Path(words[words.index('--cases') + 1])
data = dict(it.split('=', 1) for at, it in enumerate(words) if words[at - 1] == '--data')
with open({log!r}, 'a') as log:
    print(len(list(folder.glob('*.args'))), file=log)
for case in sorted(folder.glob('*.args')):
    given = (folder / case.stem).read_text()
    args = case.read_text().splitlines()
    print(f'== {{case.stem}}')
    if args[0] == 'replay':
        print({report!r}, end='')
    else:
        print(*args, *(pathlib.Path(data[it]).read_text() for it in args if it in data), given)
    absent = [it for it in args if it.startswith('file') and it not in data]
    if absent:
        print('bayctl: fault 121: ' + absent[0] + ': there is no such file', file=sys.stderr)
    run = {run!r} if args[0] != 'odd' else 'no-answer'
    print(f'case={{case.stem}} run={{run}} status={{len(args)}} runners=1 proved=no',
          file=sys.stderr)
print('cases=1 ended=1 fault=0 differs=0 no-answer=0 proved=no', file=sys.stderr)
'''
BAY = '[bay]\ndomain = "E1"\n[[switch]]\nid = "QA1"\nkind = "breaker"\ncontrol = "status"\n'
REPORT = 'instructions=0 depth=0 budget=0\n1 scan steps=0 QA1=00\n'


class Tried(Tools):
    def setUp(self) -> None:
        super().setUp()
        self.asks = self.folder / 'asks'
        self.rt()
        for patched in (mock.patch.dict(os.environ, PATH=str(self.folder)),
                        mock.patch('baytools.common.paths.BUILT', self.folder / 'none'),
                        mock.patch('baytools.report.bayctl.USUAL', bayctl.Usual())):
            patched.start()
            self.addCleanup(patched.stop)

    def rt(self, run: str = 'ended') -> None:
        text = RT.format(python=sys.executable, log=str(self.asks), report=REPORT, run=run)
        self.file('rt', text).chmod(0o755)

    def asks_of_runs(self) -> list[int]:
        """How many commands each run of `rt try` was asked to carry out."""
        return [int(it) for it in self.asks.read_text().split()]

    def test_an_ask(self):
        bay, logic = self.file('bay', 'text of a bay'), self.folder / 'none.il'
        found = self.call_tool('bayctl_try', 'check', '--bay', bay, '--logic', logic)
        self.assertEqual((found.out, found.status),
                         (f'check --bay {bay} --logic {logic} text of a bay \n', 5))
        self.assertEqual(found.error, f'bayctl: fault 121: {logic}: there is no such file\n')

    def test_standard_input(self):
        found = self.call_tool('bayctl_try', 'replay', given='a scenario')
        self.assertEqual((found.out, found.error, found.status), (REPORT, '', 1))

    def test_many_asks_in_one_go(self):
        folder = self.folder / 'many'
        folder.mkdir()
        for name in 'abc':
            (folder / f'{name}.args').write_text(f'check\n{name}\n')
        (folder / 'b.stdin').write_text('given')
        self.assertEqual(self.call_tool('bayctl_try', '--asks', folder).status, 0)
        self.assertEqual(self.asks_of_runs(), [3])
        self.assertEqual((folder / 'b.stdout').read_text(), 'check b given\n')
        self.assertEqual((folder / 'c.status').read_text(), '2\n')

    def test_words_that_are_no_ask(self):
        for words, status in ((['serve', '--port', 1], 2), (['compile'], 2), (['--asks'], 2),
                              (['--asks', self.folder / 'x'], 3), (['odd'], 3)):
            found = self.call_tool('bayctl_try', *words)
            self.assertEqual((found.status, found.out, found.error.count('\n')), (status, '', 1))

    def test_an_rt_that_gives_no_answer(self):
        self.file('rt', f'#!{sys.executable}\nprint("x\\na: error: no such crate\\n"\n'
                  '"run=none proved=no")\n').chmod(0o755)
        found = self.call_tool('bayctl_try', 'check')
        self.assertEqual((found.status, found.error),
                         (3, 'bayctl_try: `rt try` in crates/bayctl: a: error: no such crate\n'))
        (self.folder / 'rt').unlink()
        found = self.call_tool('bayctl_try', 'check')
        self.assertEqual((found.status, found.error.count('\n')), (3, 1))

    def test_the_tools_take_it_by_themselves_and_say_so(self):
        path = self.file('one.scenario', f'{BAY}%%\nPROGRAM P\nEND_PROGRAM\n%%\n1 scan\n')
        found = self.call_tool('explain', path)
        self.assertIn('scan, 0 steps; may: nothing', found.out)
        self.assertEqual((found.error, found.status), (f'explain: {bayctl.SAID}\n', 0))
        self.assertEqual(bayctl.usual(), bayctl.TRY)
        built = self.bayctl(REPORT)
        with mock.patch('baytools.common.paths.BUILT', built):
            self.assertEqual(bayctl.usual(), built)
            self.assertEqual(self.call_tool('explain', path).error, '')

    def test_what_is_asked_ahead(self):
        asks = [bayctl.Ask(('check', 'a')), bayctl.Ask(('check', 'b'))]
        bayctl.ask_ahead(bayctl.TRY, asks)
        found = [bayctl.run(bayctl.TRY, 'check', name).stdout for name in 'ab']
        self.assertEqual((found, self.asks_of_runs()), ([b'check a \n', b'check b \n'], [2]))
        bayctl.run(bayctl.TRY, 'check', 'a')
        self.assertEqual(self.asks_of_runs(), [2, 1])
        bayctl.ask_ahead(self.bayctl(''), asks)
        self.assertEqual(self.asks_of_runs(), [2, 1])

    def test_replays_of_an_audit_are_asked_in_one_go(self):
        parts = [(1, b'a'), (2, b'b')]
        with mock.patch('baytools.report.bayctl.complain'):
            self.assertEqual(list(replays.replay_ahead(bayctl.TRY, parts)), parts)
        scans = [list(replays.scans_of(bayctl.TRY, octets)) for _, octets in parts]
        self.assertEqual((scans, self.asks_of_runs()), ([[{'QA1': (False, False)}]] * 2, [2]))

    def test_no_replay_prints_more_than_a_mebibyte(self):
        bay = SimpleNamespace(file={'switch': [{'id': 'QA1'}, {'id': 'QB1'}]})
        line = f'{replays.LATEST} scan steps={10 ** 7} QA1=11 QB1=11\n'
        count = replays.printable(bay, 5, bayctl.TRY)
        self.assertLess(count * 5 * len(line), 1_000_000)
        self.assertGreater(count, 1000)
        self.assertEqual(replays.printable(bay, 5, self.folder / 'bayctl'), replays.LATEST)


if __name__ == '__main__':
    unittest.main()
