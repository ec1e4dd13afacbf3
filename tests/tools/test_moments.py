"""Moments, joined traces, and what a captured session was over time."""
import unittest

from baytools.bay.names import Names
from baytools.common import moments
from baytools.report.history import History
from baytools.report.joined import BadTrace, lines_of, merge_traces, read_lines, renumber
from baytools.wire import stream
from baytools.wire.capture import Event
from tests.tool import Tools, zone

DAY = 1_795_000_000_000
REQUEST = stream.connection_request()
RELEASE = stream.tpkt_frames(stream.release_request())


class Moments(unittest.TestCase):
    def test_words(self):
        self.enterContext(zone('UTC'))
        self.assertEqual(moments.moment_text(5000), '5000 ms')
        self.assertEqual(moments.moment_text(DAY + 7), '11:06:40.007')
        self.assertEqual(moments.day_text(DAY), '2026-11-18 UTC')

    def test_times_of_day_are_those_here(self):
        self.enterContext(zone('XYZ-5:30'))
        self.assertEqual(moments.moment_text(DAY + 7), '16:36:40.007')
        self.assertEqual(moments.day_text(DAY), '2026-11-18 UTC+05:30')

    def test_past_the_year_9999(self):
        for moment in (253_402_300_799_999, 253_402_300_800_000, 4_294_967_295_999_000):
            self.assertEqual(moments.moment_text(moment), f'{moment} ms')
        self.assertTrue(moments.is_clock(4_294_967_295_999))

    def test_warnings(self):
        self.assertEqual(moments.warnings([0, 5], 0), [])
        self.assertEqual(moments.warnings([DAY, DAY + 1], 0), [])
        told, = moments.warnings([0, DAY], 0)
        self.assertIn('1 line has a time that does not count from 1970', told)
        told, = moments.warnings([5], 2)
        self.assertIn('2 lines were refused (110) because times go back', told)


class Joined(Tools):
    def test_lines_of_a_trace_come_first(self):
        found = merge_traces([[(0, 'contact QA1 2'), (9, 'scan')], [(DAY, 'open 1')]])
        self.assertEqual(found, f'{DAY} contact QA1 2\n{DAY} scan\n{DAY} open 1')

    def test_moments_are_kept_where_none_is_of_our_days(self):
        self.assertEqual(merge_traces([[(5, 'scan')], [(3, 'contact QA1 1')]]),
                         '3 contact QA1 1\n5 scan')

    def test_clients_have_numbers_of_their_own(self):
        found = renumber([[(1, 'open 1'), (2, 'recv 1 03'), (3, 'scan')], [(1, 'open 1')]])
        self.assertEqual(found, [[(1, 'open 1'), (2, 'recv 1 03'), (3, 'scan')], [(1, 'open 2')]])
        with self.assertRaises(BadTrace):
            renumber([[(1, f'open {n}')] for n in range(9)])

    def test_lines_that_are_none(self):
        for text in ('scan', '5', 'x scan', '-1 scan'):
            with self.assertRaises(BadTrace):
                read_lines(text)

    def test_a_session_that_its_client_ends(self):
        events = [Event(DAY, 1, 'open'), Event(DAY, 1, 'client', REQUEST),
                  Event(DAY, 1, 'client', RELEASE), Event(DAY, 1, 'close')]
        verbs = [line.split(' ')[0] for _, line in lines_of(events)]
        self.assertEqual(verbs, ['open', 'scan', 'recv', 'scan', 'recv'])
        cut_off = [line.split(' ')[0] for _, line in lines_of(events[:2] + events[3:])]
        self.assertEqual(cut_off, ['open', 'scan', 'recv', 'close'])

    def test_the_tool(self):
        paths = [self.file(name, text) for name, text in (
            ('bay', '[bay]'), ('logic', 'PROGRAM\r\n'), ('trace', '\ufeff0 scan\n'),
            ('sent', f'{DAY} open 1'))]
        self.assertEqual(self.call_tool('join', *paths).out,
                         f'[bay]\n%%\nPROGRAM\r\n%%\n{DAY} scan\n{DAY} open 1\n')
        for text in ('no trace', '9' * 5000 + ' scan'):
            paths[2].write_text(text)
            done = self.call_tool('join', *paths)
            self.assertEqual((done.out, done.status), ('', 3))
            self.assertIn('trace: line 1 is not a line of a trace', done.error)

    def test_a_folder(self):
        """Its trace stays in its order, also where a line comes too late."""
        for name, text in (('bay.toml', '[bay]\n'), ('logic.il', 'PROGRAM\n'),
                           ('trace', '5 scan\n\n4 scan\n')):
            self.file(name, text)
        self.assertEqual(self.call_tool('join', self.folder).out,
                         '[bay]\n%%\nPROGRAM\n%%\n5 scan\n\n4 scan\n')
        (self.folder / 'trace').unlink()
        done = self.call_tool('join', self.folder)
        self.assertEqual((done.out, done.status), ('', 3))
        self.assertEqual(self.call_tool('join', self.folder / 'bay.toml').status, 2)

    def test_a_line_that_parts_a_scenario(self):
        paths = [self.file('bay', 'a = 1\n'), self.file('logic', '(*\n%%\r\n*)\n'),
                 self.file('trace', '0 scan\n')]
        self.assertEqual(self.call_tool('join', *paths).out,
                         'a = 1\n%%\n(*\n %%\r\n*)\n%%\n0 scan\n')
        paths[0].write_text('a = """\n%%\n"""\n')
        self.assertEqual(self.call_tool('join', *paths).status, 3)


class Histories(unittest.TestCase):
    def test_a_capture(self):
        file = {'bay': {'domain': 'E1'}, 'switch': [{'id': 'QA1', 'kind': 'breaker'}],
                'input': [{'name': 'ES'}]}
        events = [Event(DAY, 1, 'open'), Event(DAY + 5, 1, 'client', REQUEST),
                  Event(DAY + 9, 1, 'close')]
        history = History.of_capture(file, Names(), events)
        self.assertEqual((history.switches, history.inputs, history.warnings()), ({}, {}, []))
        client = history.clients[1]
        self.assertEqual(client.open.changes, [(DAY, True), (DAY + 9, False)])
        self.assertIn('a transport connection', client.ticks()[DAY + 5][0])


if __name__ == '__main__':
    unittest.main()
