"""A single line diagram where a panel and the report of an audit show it."""
import http.client
import itertools
import threading
import unittest
from types import SimpleNamespace
from unittest import mock

from baytools.audit.answers import Answer, Case, Release
from baytools.audit.states import MOST, drawn_states, is_released, positions_of, state_of
from baytools.bay.files import bay_at
from baytools.bay.rules import INPUT, SWITCH
from baytools.diagram.diagram_file import diagram_at
from baytools.diagram.drawing import draw, in_service, usual_positions
from baytools.panel.web import Pages
from devtools.commands import load_command
from tests.tool import Tools
from tests.tools import test_proofs
from tests.tools.loopback import needs_loopback
from tests.tools.test_diagram import EXAMPLES
from tests.tools.test_drawing import SVG, groups

LINE = next(it for it in EXAMPLES if it.parent.name == 'line')
SINGLE = next(it for it in EXAMPLES if it.parent.name == 'single')
QA1, QB1, VT_DEAD = (SWITCH, 'QA1'), (SWITCH, 'QB1'), (INPUT, 'VT_DEAD')


class States(unittest.TestCase):
    def test_what_is_released_in_a_state(self):
        def release(*cases):
            return Answer('', releases=[Release('QB1', 0, list(cases))])
        free = Case({QA1: ((1, 1),)})
        for answer, state, wanted in (
                (release(free), {QA1: 1}, True), (release(free), {QA1: 2}, False),
                (release(), {QA1: 1}, False), (Answer(''), {QA1: 1}, None),
                (release(Case({QA1: ((1, 1),)}, ('t1',))), {QA1: 1}, None),
                (release(Case({QA1: ((1, 2),)}, ('t1',)), free), {QA1: 1}, True),
                (release(Case({VT_DEAD: ((1, 1),)})), {VT_DEAD: 0}, False)):
            self.assertIs(is_released(answer, 'qb1', 0, state), wanted)
        unknown = Answer('', releases=[Release('QB1', 0, is_known=False)])
        self.assertIsNone(is_released(unknown, 'QB1', 0, {QA1: 1}))

    def test_inputs_say_the_positions_of_other_bays(self):
        file = bay_at(LINE)[1]
        net = diagram_at(LINE.with_name('diagram.toml'), file)
        state = state_of(net, in_service(net), file)
        self.assertEqual([state[INPUT, name] for name in (
            'TA1_CLOSED', 'TA1_OPEN', 'TB1_CLOSED', 'VT_DEAD')], [1, 0, 1, 0])
        self.assertEqual((state[QB1], state[SWITCH, 'QC9']), (2, 1))
        self.assertEqual(positions_of(net, state), in_service(net))
        apart = positions_of(net, state_of(net, usual_positions(net), file))
        self.assertEqual((apart['TA1'], 'TB1' in apart, apart['QB7']), ('open', False, 'open'))
        state[INPUT, 'TA1_OPEN'] = 1
        self.assertNotIn('TA1', positions_of(net, state))


class Reports(Tools):
    def test_a_report_with_a_diagram(self):
        bay, rules = SINGLE, self.file('rules', 'never QB1 open when QA1 not open\n')
        printed = test_proofs.LOADED + (
            'rule 1 QB1 open broken QA1=2\nrelease QB1 open cases=1\nreleased QC1=1\n'
            'release QB1 close cases=1\ndepends QA1=1 on t1\n')
        program = test_proofs.Asking.bayctl(self, printed, 4)
        program.write_text(program.read_text().replace(
            'QA1=11 QC1=11', 'QA1=11 QB1=11 QB9=00 QC1=00 QC9=00').replace('* 40', '* 5000'))
        words = ['audit', bay, bay.with_name('logic.il'), rules, '--bayctl', program]
        found = self.call_tool(*words, '--html', 'page.html', '--diagram',
                               bay.with_name('diagram.toml'))
        self.assertEqual(found.status, 1, found)
        page = (self.folder / 'page.html').read_text(encoding='utf-8')
        self.assertIn('diagram.toml', page)
        pictures = [part.partition('</svg>')[0] + '</svg>' for part in page.split('<svg')
                    if 'class="diagram"' in part]
        self.assertEqual(len(pictures), 3)
        shown = [groups('<svg' + it) for it in pictures]
        self.assertEqual([it['QA1'].get('class') for it in shown],
                         ['switch open', 'switch closed', 'switch closed'])
        words = [[it.text for it in drawn['QB1'].findall(f'{SVG}text')][2] for drawn in shown]
        self.assertEqual(words, ['open ✓ close ?', 'open ✓ close ✕', 'open ✓ close ✕'])
        self.assertIn('The rule of line 1 is broken: never QB1 open when QA1 not open', page)
        self.assertNotIn('not drawn', page)

    def test_of_many_broken_rules_some_are_drawn(self):
        file = bay_at(SINGLE)[1]
        net = diagram_at(SINGLE.with_name('diagram.toml'), file)
        state = state_of(net, usual_positions(net), file)
        found = [SimpleNamespace(rule=SimpleNamespace(line=line, text='never QA1 open'),
                                 shown=SimpleNamespace(state=state)) for line in range(MOST + 3)]
        audit = SimpleNamespace(bay=SimpleNamespace(file=file), findings=found, answer=None,
                                judged=[])
        states, left = drawn_states(audit, net)
        self.assertEqual((len(states), left, states[0].releases), (MOST + 2, 3, {}))

    def test_a_diagram_that_is_refused(self):
        words = ['audit', SINGLE, SINGLE.with_name('logic.il'), SINGLE.with_name('rules'),
                 '--bayctl', self.bayctl(test_proofs.LOADED), '--diagram']
        found = self.call_tool(*words, LINE.with_name('diagram.toml'), '--html', 'page.html')
        self.assertEqual((found.status, found.error.count('\n')), (1, 1))
        self.assertFalse((self.folder / 'page.html').exists())


class Panels(Tools):
    def picture(self, *words) -> str:
        panel = load_command('panel')
        chosen = panel.options().parse_args(['--bay', str(LINE), '1', *map(str, words)])
        return panel.picture_of(chosen, bay_at(LINE)[1])

    def test_the_picture(self):
        found = groups(self.picture('--diagram', LINE.with_name('diagram.toml')))
        own = {switch['id'] for switch in bay_at(LINE)[1]['switch']}
        self.assertEqual({name for name, it in found.items() if it.get('data-switch')}, own)
        self.assertEqual(found['TA1'].get('class'), 'other unknown')
        for name, it in found.items():
            self.assertEqual([word.text for word in it.iter(f'{SVG}text')
                              if word.get('class') != 'id' and word.text],
                             ['?', 'not known'] + ['another bay'] * (name not in own), name)
        for it in found.values():
            self.assertEqual([word.get('class') for word in it.findall(f'{SVG}text')],
                             ['id', 'told', 'frees', 'more'])
        self.assertNotIn('frees', self.picture())

    def test_no_box_of_a_switch_reaches_into_another(self):
        """What a box is drawn over is hidden where its switch is selected, and can't be clicked."""
        for path in EXAMPLES:
            net = diagram_at(path.with_name('diagram.toml'), bay_at(path)[1])
            found = groups(draw(net, '', is_live=True))
            boxes = {name: [float(it.find(f'{SVG}rect').get(key))
                            for key in ('x', 'y', 'width', 'height')]
                     for name, it in found.items()}
            for (one, (x, y, wide, high)), (other, (left, top, width, height)) in (
                    itertools.combinations(boxes.items(), 2)):
                self.assertFalse(x < left + width and left < x + wide and y < top + height
                                 and top < y + high, f'{path.parent.name}: {one}, {other}')

    def test_words_that_do_not_fit(self):
        found = self.call_tool('panel', '--bay', LINE, 1, '--diagram',
                               SINGLE.with_name('diagram.toml'))
        self.assertEqual((found.status, found.error.count('\n')), (1, 1))

    @needs_loopback
    def test_the_page(self):
        watcher = mock.Mock(file=bay_at(LINE)[1], tls=None)
        picture = self.picture('--diagram', LINE.with_name('diagram.toml'))
        pages = Pages(0, watcher, picture)
        thread = threading.Thread(target=pages.serve_forever, daemon=True)
        thread.start()
        self.addCleanup(thread.join)
        self.addCleanup(pages.server_close)
        self.addCleanup(pages.shutdown)
        connection = http.client.HTTPConnection('127.0.0.1', pages.server_address[1], timeout=10)
        self.addCleanup(connection.close)
        connection.request('GET', '/')
        text = connection.getresponse().read().decode()
        self.assertIn(picture, text)
        self.assertNotIn('<style', text)


if __name__ == '__main__':
    unittest.main()
