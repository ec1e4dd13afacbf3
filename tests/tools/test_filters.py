"""What explain and timeline show of a long record: of some switches, some clients, and a span."""
import unittest

from baytools.common.paths import TOP
from baytools.report.filters import Picked
from baytools.report.history import History
from baytools.report.joined import scenario_at
from baytools.report.replay import Replay
from tests.tool import Tools, zone

OPERATED = TOP / 'examples' / '08_operated'
WORDS = OPERATED, '--printed', OPERATED / 'expected'


class Picks(Tools):
    def lines(self, *options) -> list[str]:
        found = self.call_tool('explain', *WORDS, *options)
        self.assertEqual((found.status, found.error), (0, ''))
        return found.out.splitlines()[1:]

    def test_a_switch(self):
        found = self.lines('--switch', 'qa1')
        self.assertIn('      1000      QA1 is closed', found)
        self.assertTrue(all('QA1' in line or 'values' in line for line in found), found)
        scans = [line for line in found if 'scan: ' in line]
        self.assertTrue(scans)
        self.assertFalse(any(one[10:] == other[10:] for one, other in zip(scans, scans[1:])))
        self.assertLess(len(found), len(self.lines()))
        both = self.lines('--switch', 'QA1,QB1')
        self.assertEqual(both, self.lines('--switch', 'QA1', '--switch', 'QB1'))
        self.assertIn('      1000      QB1 is closed', both)

    def test_a_client(self):
        everything = self.lines()
        others = [line for line in self.lines('--client', '7')]
        self.assertEqual(others, [line for line in everything if line in others])
        self.assertFalse(any('asks' in line or 'connects' in line for line in others))
        self.assertIn('      1000      QA1 is closed', others)
        self.assertEqual(self.lines('--client', '1,2,3,4,5,6,7,8'), everything)

    def test_a_span(self):
        found = [line for line in self.lines('--from', '2200', '--to', '4200') if line[:10].strip()]
        moments = [int(line[:10]) for line in found]
        self.assertEqual((min(moments), max(moments)), (2200, 4000))

    def test_a_span_of_a_day(self):
        start = 1_795_867_200_000  # 2026-11-28 12:00:00 UTC
        report = self.file('report', ''.join(f'{start + at} command QA1 on\n'
                                             for at in (0, 60_000, 120_000)))
        with zone('UTC'):
            found = self.call_tool('explain', '--printed', report, '--from', '2026-11-28 12:01',
                                   '--to', '2026-11-28 12:01:30')
        self.assertEqual(found.out, '2026-11-28 UTC\n12:01:00.000      command: close QA1\n')

    def test_what_makes_no_sense(self):
        for words, told in ((['--switch', 'QX'], '--switch QX: the bay has no such switch; it has '
                             'QA1, QB1, QC1'), (['--client', 'a'], '--client a: it is the number'),
                            (['--from', '5', '--to', '5'], '--from is not before --to'),
                            (['--from', 'noon'], 'noon is no time such as')):
            for tool in ('explain', 'timeline'):
                more = ['--out', self.folder / 'x.svg'] if tool == 'timeline' else []
                found = self.call_tool(tool, *WORDS, *words, *more)
                self.assertEqual(found.status, 2)
                self.assertIn(told, found.error)


class Pictures(Tools):
    def history(self, **picked) -> History:
        scenario, printed = scenario_at(WORDS[0]), WORDS[2].read_text()
        return History.of_replay(Replay(scenario, printed), Picked(**picked))

    def test_all(self):
        self.assertEqual(set(self.history().switches), {'QA1', 'QB1', 'QC1'})

    def test_a_switch(self):
        found = self.history(switches=frozenset({'QA1'}))
        for lanes in (found.switches, found.opens, found.closes, found.commands):
            self.assertEqual(set(lanes), {'QA1'})

    def test_a_client(self):
        self.assertEqual(set(self.history().clients), {1, 2})
        self.assertEqual(set(self.history(clients=frozenset({2})).clients), {2})
        found = self.history(clients=frozenset({7}))
        self.assertEqual((found.clients, found.refusals), ({}, []))
        self.assertTrue(any(found.commands.values()))

    def test_what_held_before_a_span_holds_at_its_begin(self):
        whole, found = self.history(), self.history(first=4400, behind=5300)
        self.assertEqual(found.switches['QA1'].changes[0], (4400, 'open'))
        self.assertEqual(found.clients[1].open.changes, [(4400, True)])
        self.assertEqual(found.moments[0], 4400)
        self.assertTrue(all(4400 <= it < 5300 for it in found.moments))
        self.assertEqual(found.commands['QA1'], [])
        self.assertEqual(found.commands['QB1'], [it for it in whole.commands['QB1']
                                                 if 4400 <= it[0] < 5300])
        self.assertTrue(all(4400 <= mark.moment < 5300 for mark in found.clients[1].marks))
        self.assertTrue(all(mark.number is None or mark.number < len(found.refusals)
                            for mark in found.clients[1].marks))

    def test_a_picture_of_each(self):
        for words in (['--switch', 'QA1'], ['--client', '2'], ['--from', '4400', '--to', '5300'],
                      ['--from', '90000000']):
            out = self.folder / 'x.svg'
            found = self.call_tool('timeline', *WORDS, *words, '--out', out)
            self.assertEqual((found.status, found.error), (0, ''), words)
            self.assertIn('</svg>', out.read_text())


if __name__ == '__main__':
    unittest.main()
