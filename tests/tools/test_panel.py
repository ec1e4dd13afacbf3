"""The panel without a server: reasons, the picture, the pages and who may control."""
import contextlib
import http.client
import json
import queue
import shutil
import signal
import socket
import subprocess
import sys
import threading
import time
import unittest
import xml.etree.ElementTree as ET
from unittest import mock

from baytools.audit.proofs import Derived
from baytools.bay.conditions import Condition, Variable
from baytools.bay.names import Names
from baytools.common.paths import DATA, TOOLS
from baytools.panel.boxes import draw
from baytools.panel.expiry import KNOWN, Turns, is_closed, moment, request_of
from baytools.panel.lost_process import is_process_lost, process_text
from baytools.panel.operating import Operator
from baytools.panel.reasons import Seen, why_not
from baytools.panel.watch import Watcher, may_text, measures_of, place_text, switch_of
from baytools.panel.web import Pages
from baytools.wire.ber import element
from baytools.wire.client import Client, Lost
from baytools.wire.control import Control, Outcome
from baytools.wire.conversation import Description
from baytools.wire.mms import BITS, BOOLEAN, INTEGER, STRUCTURE, TIME, Data, octets_of
from devtools.served import until
from tests.tool import Tools, interruptible, zone
from tests.tools.loopback import needs_loopback
from tests.tools.test_audit import FILE
from tests.tools.test_client import Bay, serve_once
from tests.tools.test_same_bay import FILE as BAY, Model

QA1, QC1 = (Variable(name, ('intermediate', 'open', 'closed', 'bad')) for name in ('QA1', 'QC1'))
KEY = Variable('KEY', ('0', '1'), True)
SWITCHES = [{'id': name, 'kind': kind, 'control': 'sbo'} for name, kind in (
    ('QA1', 'breaker'), ('QB1', 'disconnector'), ('QB2', 'disconnector'), ('QB9', 'disconnector'),
    ('QC1', 'earthing'), ('QC9', 'earthing'))]


def reason(*products, **positions):
    return why_not(Condition([[]], facts=list(products)), Seen(positions, {}))


class Reasons(unittest.TestCase):
    def test_what_is_missing(self):
        both = [(QA1, ['open']), (QC1, ['open'])]
        self.assertEqual(reason(both, QA1='closed', QC1='open'), 'QA1 is closed and must be open')
        self.assertEqual(reason(both, QA1='closed', QC1='bad'),
                         'QA1 is closed and must be open; QC1 is bad and must be open')

    def test_the_product_of_which_the_least_is_missing(self):
        found = reason([(QA1, ['open']), (QC1, ['open'])], [(QC1, ['open', 'closed'])],
                       QA1='closed', QC1='intermediate')
        self.assertEqual(found, 'QC1 is intermediate and must be open or closed')

    def test_what_must_not_be(self):
        self.assertEqual(reason([(QA1, ['intermediate', 'closed', 'bad'])], QA1='open'),
                         'QA1 is open and must not be open')

    def test_inputs(self):
        self.assertEqual(reason([(KEY, ['1'])], [(QA1, ['open'])], QA1='closed'),
                         'QA1 is closed and must be open, or input KEY must be 1 (not seen here)')
        self.assertEqual(reason([(QA1, ['open']), (KEY, ['0'])], QA1='open'),
                         'input KEY must be 0 (not seen here)')
        self.assertEqual(reason([(QA1, ['open']), (KEY, ['0'])], QA1='closed'),
                         'QA1 is closed and must be open (not seen here: input KEY must be 0)')

    def test_only_what_is_enough_is_offered(self):
        qb2, ca1, key = (Variable('QB2', QA1.values), Variable('CA1_CLOSED', ('0', '1'), True),
                         Variable('KEY_REMOTE', ('0', '1'), True))
        self.assertEqual(
            reason([(qb2, ['closed']), (ca1, ['1'])], [(key, ['1'])], QB2='open'),
            'QB2 is open and must be closed (not seen here: input CA1_CLOSED must be 1), or input '
            'KEY_REMOTE must be 1 (not seen here)')

    def test_what_it_depends_on_besides(self):
        for product, told in (
                ([(KEY, ['1'])], 'input KEY must be 1 (not seen here; then it depends on T1)'),
                ([(QA1, ['open'])], 'QA1 is closed and must be open (then it depends on T1)'),
                ([(QA1, ['open']), (KEY, ['1'])], 'QA1 is closed and must be open (not seen here: '
                 'input KEY must be 1; then it depends on T1)'),
                ([(QA1, ['closed'])], 'the program does not release it yet: it depends on T1')):
            found = Derived(Condition([]), [(('T1',), Condition([[]], facts=[product]))])
            self.assertEqual(why_not(found, Seen({'QA1': 'closed'}, {})), told)

    def test_measures(self):
        current = Variable('M1_AA', ('0', '5'))
        found = why_not(Condition([[]], facts=[[(current, ['0'])]]), Seen({}, {'M1_AA': 212}))
        self.assertEqual(found, 'M1_AA is 212 in the unit of the process and must be 0')

    def test_an_input_with_the_name_of_a_switch(self):
        key = Variable('QA1', ('0', '1'), True)
        self.assertEqual(reason([(key, ['1']), (QA1, ['open'])], QA1='open'),
                         'input QA1 must be 1 (not seen here)')

    def test_nothing_is_missing(self):
        self.assertIn('a timer may still run', reason([(QA1, ['open'])], QA1='open'))
        self.assertEqual(why_not(Condition([]), Seen({}, {})), 'the program never releases it')
        self.assertEqual(why_not(None, Seen({}, {})), 'the program does not release it')


class Pictures(unittest.TestCase):
    def test_a_box_for_each_switch_in_the_order_of_the_file(self):
        for switches in (SWITCHES, SWITCHES[:1], SWITCHES[::-1], SWITCHES * 5):
            root = ET.fromstring(f'<div>{draw(switches)}</div>')
            drawn = [it for it in root.iter() if it.get('data-switch')]
            self.assertEqual([it.get('data-switch') for it in drawn],
                             [it['id'] for it in switches])
            for it in drawn:
                self.assertEqual((it.get('role'), it.get('tabindex'), it.get('class')),
                                 ('button', '0', 'switch unknown'))
                self.assertEqual(it.get('aria-label'), f'{it.get("data-switch")}, not known')
                self.assertEqual([word.text for word in it.iter('text')][:4],
                                 ['?', it.get('data-switch'), mock.ANY, 'not known'])

    def test_nothing_is_drawn_of_what_the_file_does_not_say(self):
        found = draw(SWITCHES)
        self.assertIn('no diagram: order of the bay file', found)
        self.assertNotIn('class="wire"', found)
        self.assertNotIn('busbar', found)

    def test_a_long_name_has_room(self):
        for name in ('QA1', f'Q{"B" * 15}'):
            root = ET.fromstring(f'<div>{draw([{"id": name, "kind": "disconnector"}])}</div>')
            width = int(next(root.iter('svg')).get('width'))
            self.assertGreaterEqual(width, 54 + 11 * len(name))


class Values(unittest.TestCase):
    def test_a_switch(self):
        position = Data(STRUCTURE, [Data(BITS, '10'), Data(BITS, '0100000000000'), Data(TIME, 5),
                                    Data(BOOLEAN, True)])
        found = switch_of(SWITCHES[0], position, Data(BOOLEAN, True), Data(BOOLEAN, False))
        self.assertEqual((found['position'], found['quality'], found['selected'], found['time']),
                         ('closed', 'invalid', True, '5 ms'))
        self.assertEqual((found['open'], found['close']), ({'free': True}, {'free': False}))
        self.assertEqual(place_text(found), 'closed (invalid)')
        keyed = switch_of({**SWITCHES[0], 'remote': 'ER'}, position, Data(BOOLEAN, True),
                          Data(BOOLEAN, False))
        self.assertEqual((found['key'], keyed['key']), ('', 'ER'))
        odd = Data(STRUCTURE, [Data(INTEGER, 1)])
        for words in ((odd, Data(BOOLEAN, True), Data(BOOLEAN, True)),
                      (position, odd, Data(BOOLEAN, True)), (position, Data(BOOLEAN, True), odd)):
            with self.assertRaisesRegex(Lost, 'QA1 values of another type'):
                switch_of(SWITCHES[0], *words)

    def test_a_switch_that_has_not_reported_yet(self):
        for bits, quality, told in (('00', '01', 'not known: not reported yet'),
                                    ('00', '00', 'intermediate'), ('11', '01', 'bad (invalid)')):
            position = Data(STRUCTURE, [Data(BITS, bits), Data(BITS, quality + '0' * 11),
                                        Data(TIME, 0)])
            found = switch_of(SWITCHES[0], position, Data(BOOLEAN, False), Data(BOOLEAN, False))
            self.assertEqual(place_text(found), told)
            self.assertEqual(found['known'], not told.startswith('not known'))

    def test_a_meter(self):
        good = Data(BITS, '0' * 13)

        def plain(number):
            return Data(STRUCTURE, [Data(INTEGER, number)])

        three = [Data(STRUCTURE, [plain(n), good, Data(TIME, 0)]) for n in (1, 2, 3)]
        phases = [Data(STRUCTURE, [Data(STRUCTURE, [plain(n)]), good, Data(TIME, 0)])
                  for n in (4, 5, 6)]
        found = measures_of({'id': 'M1'}, Data(STRUCTURE, [*three, Data(STRUCTURE, phases)]))
        self.assertEqual({it['name']: it['value'] for it in found},
                         {'M1_TOTW': 1, 'M1_TOTVAR': 2, 'M1_HZ': 3, 'M1_AA': 4, 'M1_AB': 5,
                          'M1_AC': 6})
        three[0].value[0] = Data(STRUCTURE, [Data(STRUCTURE, [])])
        with self.assertRaisesRegex(Lost, 'M1 values of another type'):
            measures_of({'id': 'M1'}, Data(STRUCTURE, [*three, Data(STRUCTURE, phases)]))


class Switch:
    """A control as an operator has it, whose answers a test gives."""
    model, enhanced, refused = 2, False, ()

    def __init__(self, client, switch, originator):
        self.name = switch

    def is_selected_first(self):
        return self.model == 2

    def has_termination(self):
        return self.enhanced

    def answer(self, verb):
        return Outcome(verb not in self.refused, f'{verb} {self.name}: said')

    def select(self, on):
        return self.answer('select')

    def operate(self, on):
        return self.answer('operate')

    def cancel(self, on):
        return self.answer('cancel')

    def position_bits(self):
        return '01'

    def state(self, on):
        return f'{self.name} is there'


class Operating(unittest.TestCase):
    def setUp(self):
        kind = type('Kind', (Switch,), {})
        patched = mock.patch('baytools.panel.operating.Control', kind)
        patched.start()
        self.addCleanup(patched.stop)
        self.kind, self.watcher = kind, Watcher(FILE, '', '127.0.0.1', 1)
        self.watcher.client, self.operator = object(), Operator(self.watcher)
        for page in ('one', 'other'):
            self.operator.page_comes(page)

    def act(self, verb, switch='QA1', way='open', page='one', late=lambda: ''):
        found = self.operator.act(verb, switch, way, page, late)
        return found['good'], found['told']

    def record_requests(self):
        """What goes to the server from now on."""
        said = []
        for verb in ('select', 'operate', 'cancel', 'position_bits'):
            def act(switch, *on, verb=verb, before=getattr(self.kind, verb)):
                said.append(verb)
                return before(switch, *on)
            setattr(self.kind, verb, act)
        return said

    def read_position(self, position, selected=True):
        for act in self.watcher.on_read:
            act([{'id': 'QA1', 'position': position, 'selected': selected},
                 {'id': 'QC1', 'position': 'open', 'selected': False}])

    def test_to_the_end(self):
        self.assertEqual(self.act('select'), (True, 'select QA1: said'))
        self.assertEqual(self.watcher.state['control']['stage'], 'selected')
        self.assertEqual(self.act('operate'), (True, 'operate QA1 open: the command is given'))
        self.read_position('intermediate', False)
        self.assertEqual(self.watcher.state['control']['stage'], 'moving')
        self.read_position('open', False)
        self.assertIsNone(self.watcher.state['control'])
        self.assertEqual(self.watcher.state['last'],
                         {'good': True, 'told': 'operate QA1 open has ended: done', 'number': 1})

    def test_nothing_is_operated_without_its_select(self):
        self.assertFalse(self.act('operate')[0])
        self.act('select')
        for switch, way in (('QC1', 'open'), ('QA1', 'close')):
            self.assertEqual(self.act('operate', switch, way),
                             (False, f'{switch} is not selected by this page'))
        self.act('operate')
        self.assertFalse(self.act('operate')[0])

    def test_one_at_a_time(self):
        self.act('select')
        self.assertEqual(self.act('select', 'QC1'), (False, 'QA1 is selected by this panel'))

    def test_refusals(self):
        self.kind.refused = ('select',)
        self.assertEqual(self.act('select'), (False, 'select QA1: said'))
        self.assertIsNone(self.watcher.state['control'])
        self.kind.refused = ('operate',)
        self.act('select')
        self.assertEqual(self.act('operate'), (False, 'operate QA1: said. QA1 is there'))
        self.assertIsNone(self.watcher.state['control'])

    def test_giving_up(self):
        self.assertFalse(self.act('cancel')[0])
        self.act('select')
        self.assertEqual(self.act('cancel'), (True, 'cancel QA1: said'))
        self.assertIsNone(self.watcher.state['control'])

    def test_each_page_may_give_up_and_one_alone_may_confirm(self):
        self.act('select')
        self.assertEqual(self.act('operate', page='other'),
                         (False, 'QA1 is not selected by this page'))
        self.assertEqual(self.act('cancel', page='other', way='close'),
                         (True, 'cancel QA1: said'))
        self.assertIsNone(self.watcher.state['control'])

    def test_a_page_that_goes_gives_up(self):
        for model in (2, 1):
            self.kind.model = model
            self.act('select')
            self.operator.page_gone('other')
            self.assertIsNotNone(self.watcher.state['control'])
            self.operator.page_gone('one')
            self.assertIsNone(self.watcher.state['control'])
            for page in ('one', 'other'):
                self.operator.page_comes(page)

    def test_an_operate_that_is_too_late_is_not_sent(self):
        """Whatever the server makes wait, waits before that is judged."""
        said = self.record_requests()
        self.act('select')
        found = self.act('operate', late=lambda: 'x' * ('position_bits' in said))
        self.assertEqual(found, (False, 'operate QA1 open is not done: x'))
        self.assertEqual(said, ['select', 'position_bits', 'cancel'])
        self.assertIsNone(self.watcher.state['control'])
        self.assertEqual(self.watcher.events[-1]['kind'], 'refused')

    def test_a_select_that_is_given_up_while_it_waits(self):
        said = self.record_requests()
        found = self.act('select', late=lambda: 'x' * ('select' in said))
        self.assertEqual(found, (False, 'select QA1 open is not done: x'))
        self.assertEqual(said, ['select', 'cancel'])
        self.assertIsNone(self.watcher.state['control'])
        self.assertEqual(self.act('select', late=lambda: 'x'),
                         (False, 'select QA1 open is not done: x'))
        self.assertEqual(said, ['select', 'cancel'])

    def test_a_page_that_is_gone_selects_and_operates_nothing(self):
        said = self.record_requests()
        self.act('select')
        self.operator.pages.clear()
        self.assertEqual(self.act('operate'),
                         (False, 'operate QA1 open is not done: its page is gone'))
        self.assertEqual(self.act('select'),
                         (False, 'select QA1 open is not done: its page is gone'))
        self.assertEqual(said, ['select', 'position_bits', 'cancel'])

    def test_it_is_never_too_late_to_give_up(self):
        self.act('select')
        self.assertEqual(self.act('cancel', late=lambda: 'x'), (True, 'cancel QA1: said'))

    def test_a_page_that_leaves_its_dialog_gives_up(self):
        self.act('select')
        self.operator.give_up('other')
        self.assertIsNotNone(self.watcher.state['control'])
        self.operator.give_up('one')
        self.assertIsNone(self.watcher.state['control'])
        self.assertTrue(self.act('select')[0])

    def test_a_page_that_goes_stops_no_switch_that_moves(self):
        self.act('select')
        self.act('operate')
        self.operator.page_gone('one')
        self.assertEqual(self.watcher.state['control']['stage'], 'moving')

    def test_a_control_without_select_that_is_not_confirmed(self):
        self.kind.model = 1
        self.assertEqual(self.act('select'), (True, 'QA1 needs no select'))
        self.read_position('closed', False)
        self.assertIsNotNone(self.watcher.state['control'])
        self.operator.end = 0
        self.read_position('closed', False)
        self.assertIn('it was not confirmed', self.watcher.state['last']['told'])

    def test_a_select_that_runs_out(self):
        self.act('select')
        self.read_position('closed')
        self.assertIsNotNone(self.watcher.state['control'])
        self.read_position('closed', False)
        self.assertEqual(self.watcher.state['last']['told'],
                         'operate QA1 open: the selection has run out')

    def test_an_end_that_is_told(self):
        self.kind.enhanced = True
        self.act('select')
        self.act('operate')
        self.read_position('open', False)
        self.assertIsNotNone(self.watcher.state['control'])
        self.watcher.on_report(
            Description('ended', '', ['it has ended'], None, 'QA1', 'open', False))
        self.assertEqual(self.watcher.state['last'],
                         {'good': False, 'told': 'it has ended', 'number': 1})

    def test_a_switch_that_does_not_come(self):
        self.act('select')
        self.act('operate')
        self.operator.end = 0
        self.read_position('intermediate', False)
        self.assertEqual(self.watcher.state['last']['told'],
                         'operate QA1 open: it is intermediate, and its time is over')

    def test_a_connection_that_is_lost(self):
        self.act('select')
        self.watcher.client = mock.Mock()
        self.watcher.lose(OSError('gone'))
        self.assertIsNone(self.watcher.state['control'])
        self.assertEqual(self.act('operate'), (False, 'there is no connection to the server'))

    def test_when_all_was_last_known(self):
        self.watcher.client = None
        self.watcher.lose(OSError('gone'))
        self.assertEqual(self.watcher.state['read'], '')
        self.watcher.last_read = 1_790_000_000_123
        with zone('UTC'):
            self.watcher.lose(OSError('gone'))
        self.assertEqual(self.watcher.state['read'], '2026-09-21 14:13:20.123')


class Events(unittest.TestCase):
    def change_text(self, before, after):
        old, new = ({way: {'free': free} for way, free in zip(('open', 'close'), it)}
                    for it in (before, after))
        return may_text(old, new)

    def test_releases_that_are_gained_and_lost(self):
        self.assertEqual(self.change_text((True, True), (True, False)), ['may no longer be closed'])
        self.assertEqual(self.change_text((False, False), (True, True)),
                         ['may now be opened and closed'])
        self.assertEqual(self.change_text((True, False), (False, True)),
                         ['may now be closed', 'may no longer be opened'])
        self.assertEqual(self.change_text((True, True), (False, False)),
                         ['may no longer be opened or closed'])
        self.assertEqual(self.change_text((True, False), (True, False)), [])


class Told(unittest.TestCase):
    """What the pages say of a switch, where node is there to run their script."""
    ASKED = ("const it = {control: process.argv[1], open: {free: true, why: ''}, "
             "close: {free: false, why: 'W'}};"
             "console.log(JSON.stringify([may(it, 'open'), may(it, 'close'), notesOf(it)]));")

    @unittest.skipUnless(shutil.which('node'), 'there is no node')
    def test_releases_of_a_switch_that_is_moved_by_hand(self):
        script = (DATA / 'shown.js').read_text(encoding='utf-8').partition('const byId')
        for control, note in (('status', 'by hand'), ('sbo', '')):
            done = subprocess.run(
                ['node', '-e', f'const byId{script[2]}\n{self.ASKED}', control],
                capture_output=True, check=True)
            self.assertEqual(json.loads(done.stdout), [
                {'free': True, 'told': '\u2713 may be opened', 'why': ''},
                {'free': False, 'told': '\u2715 may not be closed', 'why': 'W'}, ['', note]])


class Lateness(unittest.TestCase):
    """Whether a request is still to be done."""

    def lateness_text(self, made=0, number=1, is_left=False, last=None):
        turns = Turns()
        self.assertTrue(turns.takes('one', number))
        if last:
            self.assertTrue(turns.takes('one', last))
        asked = {'page': 'one', 'number': number, 'made': moment() + made}
        return request_of('operate', asked, lambda: is_left).late(turns)

    def test_a_request_of_now(self):
        for made in (0, -1500, 100):
            self.assertEqual(self.lateness_text(made), '')

    def test_an_old_one_and_one_of_a_clock_that_is_ahead(self):
        self.assertEqual(self.lateness_text(-2300), 'it is 2.3 s old')
        self.assertIn('ahead', self.lateness_text(500))

    def test_one_that_was_given_up(self):
        self.assertEqual(self.lateness_text(last=2), 'it was given up')
        self.assertEqual(self.lateness_text(is_left=True), 'it was given up')

    def test_the_turns_of_pages(self):
        turns = Turns()
        self.assertEqual([turns.takes('one', it) for it in (1, 3, 2, 3, 4)],
                         [True, True, False, False, True])
        self.assertTrue(turns.takes('other', 1))
        self.assertEqual([turns.is_last('one', it) for it in (3, 4)], [False, True])
        for number in range(KNOWN):
            turns.takes(f'page {number}', 1)
        self.assertEqual(len(turns.last), KNOWN)

    def test_a_connection_whose_other_end_is_gone(self):
        one, other = socket.socketpair()
        with one:
            self.assertFalse(is_closed(one))
            other.sendall(b'x')
            self.assertFalse(is_closed(one))
            one.recv(1)
            other.close()
            self.assertTrue(is_closed(one))
        self.assertTrue(is_closed(one))

    def test_what_is_no_request(self):
        good = {'page': 'one', 'number': 1, 'made': 5, 'switch': 'QA1', 'way': 'open'}
        self.assertEqual(request_of('select', good, bool).switch, 'QA1')
        for key, value in (('page', 1), ('number', True), ('number', '1'), ('made', 1.5),
                           ('made', None)):
            with self.assertRaises(ValueError):
                request_of('select', good | {key: value}, bool)
        for key in ('page', 'number', 'made'):
            with self.assertRaises(LookupError):
                request_of('select', {it: good[it] for it in good if it != key}, bool)


class Losses(unittest.TestCase):
    """What positions say of the process."""
    BAD = {'position': 'bad', 'quality': 'invalid', 'moment': 5, 'time': 'T5'}
    OPEN = {'position': 'open', 'quality': 'good', 'moment': 7, 'time': 'T7'}
    UNKNOWN = {'position': 'intermediate', 'quality': 'invalid', 'moment': 0, 'time': ''}

    def judge_process(self, *switches, measures=()):
        found = [{'quality': it} for it in measures]
        return is_process_lost(switches, found), process_text(switches, found)

    def test_a_process_that_is_lost(self):
        later = {**self.BAD, 'moment': 9, 'time': 'T9'}
        told = 'every position is bad: the process is lost, since T9'
        self.assertEqual(self.judge_process(self.BAD, later), (True, told))
        self.assertEqual(self.judge_process(later, measures=['invalid']), (True, told))
        self.assertEqual(self.judge_process(self.BAD, self.OPEN), (False, ''))

    def test_where_nobody_knows(self):
        self.assertEqual(self.judge_process(self.BAD), (False, 'every position is bad'))
        self.assertEqual(self.judge_process(self.BAD, self.BAD, measures=['good', 'invalid']),
                         (False, 'every position is bad'))
        self.assertEqual(self.judge_process(self.UNKNOWN, self.UNKNOWN),
                         (False, 'no position is known yet'))
        self.assertEqual(self.judge_process(), (False, ''))

    def test_nothing_counts_as_released(self):
        watcher = Watcher(FILE, '', '127.0.0.1', 1)
        for switches, free in (([self.BAD, self.BAD], False), ([self.BAD, self.OPEN], True)):
            found = [{**it, 'id': name, 'open': {'free': True}, 'close': {'free': True}}
                     for name, it in zip(('QA1', 'QC1'), switches)]
            watcher.explain(found, [])
            told = '' if free else 'the process is lost, so every operate is refused'
            self.assertEqual([it['open'] for it in found], [{'free': free, 'why': told}] * 2)

    def test_a_server_that_does_not_answer(self):
        watcher = Watcher(FILE, '', '127.0.0.1', 1)
        watcher.last_read = time.time_ns() // 1_000_000 - 5000
        self.assertEqual(watcher.silent_since(), '')
        watcher.client = object()
        self.assertRegex(watcher.silent_since(), r'^\d{4}-\d\d-\d\d ')
        watcher.last_read += 4500
        self.assertEqual(watcher.silent_since(), '')


@needs_loopback
class States(unittest.TestCase):
    """What a client and a panel tell of a refused operate."""

    def state_text(self, *bits, text=BAY):
        model = Model(text)
        for place, it in enumerate(bits, 1):
            model.rows[f'CSWI{place}$ST$Pos$stVal'] = Data(BITS, it)
        nodes = [f'CSWI{place}' for place in range(1, len(bits) + 1)]
        with serve_once(Bay(model)) as server, mock.patch.object(Client, 'names', lambda it: nodes):
            with contextlib.closing(Client(*server.getsockname(), Names(text))) as client:
                return Control(client, 'QA1').state(False)

    def test_a_process_that_is_lost(self):
        self.assertEqual(self.state_text('11', '11', '11', '11'),
                         'every position is bad: the process is lost')

    def test_a_switch_that_is_bad(self):
        for bits in (['11', '11', '10', '11'], ['11']):
            self.assertEqual(self.state_text(*bits), 'QA1 is bad, may be opened and may be closed')

    def test_a_key_of_which_no_cause_tells(self):
        told = 'QA1 is closed, may be opened and may be closed'
        for control, more in (('sbo', '; its key ER must be at remote, which is not seen here'),
                              ('sbo-enhanced', '')):
            text = BAY.replace('sbo_timeout_ms = 2000\n', 'sbo_timeout_ms = 2000\nremote = "ER"\n')
            text = text.replace('"sbo"', f'"{control}"') + '[[input]]\nname = "ER"\n'
            self.assertEqual(self.state_text('10', text=text), told + more)


@needs_loopback
class Web(unittest.TestCase):
    def serve(self, operates, vendor='V'):
        file = {**FILE, 'bay': {**FILE['bay'], 'vendor': vendor}}
        watcher = Watcher(file, '', '127.0.0.1', 1)
        operator = Operator(watcher) if operates else None
        pages = Pages(0, watcher, draw(FILE['switch']), operator)
        serving = threading.Thread(target=pages.serve_forever, args=(0.02,))
        serving.start()

        def end():
            watcher.is_over.set()
            pages.shutdown()
            serving.join()
            pages.server_close()

        self.addCleanup(end)
        return pages

    def ask(self, pages, verb, path, body=None, **heads):
        port = pages.server_address[1]
        connection = http.client.HTTPConnection('127.0.0.1', port, timeout=5)
        self.addCleanup(connection.close)
        found = {'Host': f'127.0.0.1:{port}', **{k.replace('_', '-'): v for k, v in heads.items()}}
        connection.request(verb, path, body, found)
        answer = connection.getresponse()
        return answer.status, answer.read().decode()

    def request_body(self, **more):
        """The body of a request of now."""
        return json.dumps({'switch': 'QA1', 'way': 'open', 'page': 'one', 'number': 1,
                           'made': moment(), **more})

    def events(self, pages, name, count):
        """The first events of a page, each with its kind."""
        connection = http.client.HTTPConnection(*pages.server_address, timeout=5)
        self.addCleanup(connection.close)
        connection.request('GET', f'/events?{name}')
        lines, found, kind = connection.getresponse(), [], ''
        self.addCleanup(lines.close)
        while len(found) < count and (line := lines.readline().decode()):
            word, _, told = line.rstrip('\n').partition(': ')
            if word == 'data':
                found.append((kind, told))
            kind = told if word == 'event' else kind if word else ''
        return found

    def test_the_page(self):
        pages = self.serve(False)
        status, text = self.ask(pages, 'GET', '/')
        self.assertEqual(status, 200)
        for told in ('Bay E1', 'data-operates="false"', 'data-switch="QA1"', 'aria-live'):
            self.assertIn(told, text)
        self.assertNotIn('@', text)
        self.assertIn('times of this machine, UTC', text)
        for path in ('/page.js', '/page.css', '/state'):
            self.assertEqual(self.ask(pages, 'GET', path)[0], 200)
        self.assertEqual(self.ask(pages, 'GET', '/../panel')[0], 404)

    def test_a_vendor_with_the_name_of_a_part(self):
        pages = self.serve(True, '@TOKEN@ @PICTURE@')
        text = self.ask(pages, 'GET', '/')[1]
        self.assertIn('<p class="device">@TOKEN@ @PICTURE@ M</p>', text)
        self.assertEqual(text.count(pages.token), 1)

    def test_another_origin(self):
        pages = self.serve(True)
        port, body = pages.server_address[1], self.request_body()
        for origin, status in (('http://evil', 403), ('null', 403),
                               (f'http://127.0.0.1:{port}', 200)):
            self.assertEqual(self.ask(pages, 'POST', '/select', body, X_Panel=pages.token,
                                      Origin=origin)[0], status)

    def test_a_page_that_goes(self):
        pages = self.serve(True)
        gone = mock.Mock()
        pages.operator.page_gone = gone
        with mock.patch('baytools.panel.web.BEAT', 0.05):
            with socket.create_connection(pages.server_address) as one:
                host = f'127.0.0.1:{pages.server_address[1]}'
                one.sendall(f'GET /events?mine HTTP/1.1\r\nHost: {host}\r\n\r\n'.encode())
                self.assertIn(b'200', one.recv(100))
            until(lambda: gone.called, 'the page is gone')
        gone.assert_called_with('mine')

    def test_a_connection_that_says_nothing(self):
        pages = self.serve(True)
        with mock.patch('baytools.panel.web.Handler.timeout', 0.1), \
                socket.create_connection(pages.server_address, 5) as one:
            self.assertEqual(one.recv(100), b'')

    def test_another_host(self):
        pages = self.serve(True)
        for verb, path in (('GET', '/'), ('GET', '/events'), ('POST', '/operate')):
            self.assertEqual(self.ask(pages, verb, path, '', Host='evil:80')[0], 403)

    def test_who_may_control(self):
        body = self.request_body()
        pages = self.serve(True)
        self.assertEqual(self.ask(pages, 'POST', '/select', body)[0], 403)
        self.assertEqual(self.ask(pages, 'POST', '/select', body, X_Panel='other'), (
            403, 'the panel was started anew since this page was loaded: load it again'))
        status, text = self.ask(pages, 'POST', '/select', body, X_Panel=pages.token)
        self.assertEqual((status, json.loads(text)), (200, {
            'good': False, 'told': 'there is no connection to the server'}))
        for bad in ('', '{}', '[]', '{"switch": 1}', self.request_body(made='5'),
                    self.request_body(number=1.5)):
            self.assertEqual(self.ask(pages, 'POST', '/select', bad, X_Panel=pages.token)[0], 400)
        watched = self.serve(False)
        status, text = self.ask(watched, 'POST', '/select', body, X_Panel=watched.token)
        self.assertEqual((status, text), (403, 'the panel was started without --operate'))

    def test_what_is_no_control(self):
        pages = self.serve(True)
        for path, switch, way in (('/write', 'QA1', 'open'), ('/select', 'QX', 'open'),
                                  ('/select', 'QA1', 'up')):
            body = self.request_body(switch=switch, way=way, page=switch + way)
            _, text = self.ask(pages, 'POST', path, body, X_Panel=pages.token)
            self.assertEqual(json.loads(text)['told'], 'there is no such control')

    def test_a_request_behind_a_later_one(self):
        """As one that was given up, or that a browser sends twice."""
        pages = self.serve(True)
        told = [json.loads(self.ask(pages, 'POST', path, self.request_body(number=number),
                                    X_Panel=pages.token)[1])['told']
                for path, number in (('/select', 2), ('/operate', 2), ('/operate', 1),
                                     ('/leave', 5), ('/operate', 4))]
        self.assertEqual(told, ['there is no connection to the server', 'it was given up',
                                'it was given up', 'given up', 'it was given up'])

    def test_signs_of_life_and_the_start_of_the_panel(self):
        pages = self.serve(True)
        with mock.patch('baytools.panel.web.BEAT', 0):
            found = self.events(pages, 'one', 5)
        self.assertEqual([kind for kind, _ in found], ['start', 'life', '', 'life', 'life'])
        self.assertEqual(found[0][1], pages.start)
        self.assertIn(f'data-start="{pages.start}"', self.ask(pages, 'GET', '/')[1])
        lives = [json.loads(told) for kind, told in found if kind == 'life']
        self.assertTrue(all(it['silent'] == '' and 0 <= moment() - it['moment'] < 5000
                            for it in lives), lives)
        self.assertNotEqual(self.serve(True).start, pages.start)

    def test_more_pages_than_a_browser_has_connections_for(self):
        pages = self.serve(True)
        for name in 'abcd':
            self.assertEqual(self.events(pages, name, 1)[0][0], 'start')
        (kind, told), = self.events(pages, 'e', 9)
        self.assertEqual(kind, 'full')
        self.assertIn('4 pages of this site are open', told)
        self.assertEqual(self.ask(pages, 'GET', '/state')[0], 200)

    def test_a_page_that_goes_makes_room(self):
        pages = self.serve(True)
        with contextlib.ExitStack() as open_ones:
            host = f'127.0.0.1:{pages.server_address[1]}'
            for name in range(4):
                one = open_ones.enter_context(socket.create_connection(pages.server_address, 5))
                one.sendall(f'GET /events?{name} HTTP/1.1\r\nHost: {host}\r\n\r\n'.encode())
                self.assertIn(b'200', one.recv(100))
        until(lambda: self.events(pages, 'e', 1)[0][0] == 'start', 'there is room')

    def test_the_events_of_a_page(self):
        watcher = Watcher(FILE, '', '127.0.0.1', 1)
        found = watcher.subscribe()
        self.assertEqual(json.loads(found.get_nowait())['connected'], False)
        for number in range(20):
            watcher.event(f'{number}')
            watcher.publish()
        last = None
        with self.assertRaises(queue.Empty):
            while True:
                last = json.loads(found.get_nowait())
        self.assertEqual([it['told'] for it in last['events']], [str(n) for n in range(20)])


@needs_loopback
class Stopped(Tools):
    def test_reports_without_end_do_not_keep_it(self):
        def reports(pdu):
            while True:
                yield element(0xA3, element(0xA0, element(0xA0, element(0x30, element(
                    0xA0, element(0x80, b'LastApplError')))), element(0xA0, octets_of(
                        Data(INTEGER, 5)))))

        with serve_once(Bay(reports)) as server:
            bay = self.file('bay', '[bay]\ndomain = "B"\nvendor = "V"\nmodel = "M"\n'
                            'revision = "1"\nscan_max_age_ms = 500\n'
                            '[[switch]]\nid = "QA1"\nkind = "breaker"\n'
                            'control = "status"\n')
            words = [sys.executable, '-B', TOOLS / 'panel', '--bay', bay,
                     str(server.getsockname()[1]), '--http', '0']
            with interruptible():
                run = subprocess.Popen(words, stdout=subprocess.PIPE, stderr=subprocess.PIPE,
                                       text=True)
            self.addCleanup(run.kill)
            self.assertIn('http://127.0.0.1:', run.stdout.readline())
            time.sleep(0.5)
            run.send_signal(signal.SIGINT)
            out, error = run.communicate(timeout=12)
        self.assertEqual((out, error, run.returncode), ('', '', 0))


if __name__ == '__main__':
    unittest.main()
