"""The panel, driven as a browser does it: its page, its events, and operates to their ends."""
import http.client
import json
import re
import secrets
import sys
import time

from baytools.common.paths import TOOLS, TOP
from devtools.served import PATIENCE, Running, Server, Simulator

SERVED = TOP / 'examples' / '09_served'
LOST = 'every position is bad: the process is lost'


class Page:
    """A page of a panel: what it has, the states that it is sent, and what it asks."""

    def __init__(self, port) -> None:
        self.port, self.name, self.number, self.moment = port, secrets.token_hex(8), 0, 0
        self.text = self.ask('GET', '/')
        self.token = re.search(r'data-token="([^"]+)"', self.text)[1]
        self.connection = http.client.HTTPConnection('127.0.0.1', port, timeout=PATIENCE)
        self.connection.request('GET', f'/events?{self.name}')
        self.answer = self.connection.getresponse()
        self.until(lambda it: True)

    def __enter__(self) -> 'Page':
        return self

    def __exit__(self, *error) -> None:
        self.connection.close()

    def ask(self, verb, path, body=None, heads=()) -> str:
        connection = http.client.HTTPConnection('127.0.0.1', self.port, timeout=PATIENCE)
        connection.request(verb, path, body, dict(heads))
        text = connection.getresponse().read().decode()
        connection.close()
        return text

    def send_control(self, verb, switch, way, age=0) -> str:
        """What a control is answered, in words, that was asked some milliseconds ago."""
        self.number += 1
        made = self.moment + int((time.monotonic() - self.heard) * 1000) - age
        body = json.dumps({'switch': switch, 'way': way, 'page': self.name, 'made': made,
                           'number': self.number})
        found = json.loads(self.ask('POST', f'/{verb}', body, {'X-Panel': self.token}))
        return f'{"good" if found["good"] else "refused"}: {found["told"]}'

    def known(self, test) -> dict:
        """The last state that it was sent if something is so of it, else the first such state."""
        return self.state if test(self.state) else self.until(test)

    def until(self, test) -> dict:
        """The first state that it is sent from now on of which something is so."""
        end, kind = time.monotonic() + PATIENCE, ''
        while time.monotonic() < end:
            word, _, told = self.answer.readline().decode().rstrip('\n').partition(': ')
            if word == 'data' and kind == 'life':
                self.moment, self.heard = json.loads(told)['moment'], time.monotonic()
            elif word == 'data' and not kind:
                self.state = json.loads(told)
                if test(self.state):
                    return self.state
            kind = told if word == 'event' else kind if word else ''
        raise TimeoutError('the panel does not tell it')


def positions(state) -> dict:
    return {it['id']: it['position'] for it in state['switches']}


def outcome_of_operate(page, switch, way) -> str:
    """An operate to its end, in words."""
    said = [page.send_control('select', switch, way), page.send_control('operate', switch, way)]
    done = {'open': 'open', 'close': 'closed'}[way]
    state = page.until(lambda it: it['control'] is None and positions(it).get(switch) == done)
    return '\n'.join([*said, state['last']['told']])


def gear(server) -> Simulator:
    return Simulator(SERVED / 'bay.toml', server, '--at', 'QA1=closed', '--at', 'QB1=closed',
                     '--set', 'SPRING=1', '--travel', '300')


def panel(checks) -> None:
    """The panel of the example that is served."""
    bay, logic = SERVED / 'bay.toml', SERVED / 'logic.il'
    with Server(checks.bayctl, bay, logic, with_process=True) as server:
        server.client().close()
        words = [sys.executable, '-B', TOOLS / 'panel', '--bay', bay, server.port, '--http', '0',
                 '--operate', '--logic', logic, '--bayctl', checks.bayctl]
        with gear(server) as simulator, Running(*words) as running:
            found = re.search(r'http://127\.0\.0\.1:(\d+)/', running.waits_for('/\n'))
            with Page(int(found[1])) as page:
                page_shows_operates(checks, page)
                simulator.kill()
                check_lost_process(checks, page, server)
            with gear(server), Page(int(found[1])) as page:
                page.known(lambda it: positions(it).get('QC1') == 'open')
                checks.wants('the panel, with the process again',
                             outcome_of_operate(page, 'QA1', 'open'), 0,
                             ['operate QA1 open has ended: done'], 0)
                server.kill()
                state = page.until(lambda it: not it['connected'])
                checks.wants('the panel without a server', state['told'], 0, ['the server closed'],
                             0)


def page_shows_operates(checks, page) -> None:
    """What a page has and is told, and two operates."""
    checks.wants('the page of the panel', page.text, 0,
                 [f'data-switch="{it}"' for it in ('QA1', 'QB1', 'QC1')], 0)
    state = page.known(lambda it: positions(it).get('QA1') == 'closed' and all(
        'must be' in it['switches'][1][way]['why'] for way in ('open', 'close')))
    checks.wants('why not, on the panel', json.dumps(state['switches'][1]), 0,
                 ['QA1 is closed and must be open', '"quality": "good"'], 0)
    checks.wants('a select that is given up', page.send_control('select', 'QA1', 'open')
                 + page.send_control('cancel', 'QA1', 'open'), 0,
                 ['select QA1: done', 'cancel QA1: done'], 0)
    checks.wants('an operate that was asked long ago', page.send_control('select', 'QA1', 'open')
                 + page.send_control('operate', 'QA1', 'open', 2500)
                 + page.send_control('operate', 'QA1', 'open'), 0,
                 ['select QA1: done', 'operate QA1 open is not done: it is 2.5 s old',
                  'QA1 is not selected by this page'], 0)
    checks.wants('the breaker, by the panel', outcome_of_operate(page, 'QA1', 'open'), 0,
                 ['good: select QA1: done', 'the command is given',
                  'operate QA1 open has ended: done'], 0)
    checks.wants('the disconnector, by the panel', outcome_of_operate(page, 'QB1', 'open'), 0,
                 ['good: select QB1: done', 'operate QB1 open has ended: done'], 0)


def check_lost_process(checks, page, server) -> None:
    """The process is gone: all is bad, nothing counts as released, and an operate is refused."""
    state = page.until(lambda it: set(positions(it).values()) == {'bad'})
    checks.wants('a panel without a process', state['process'], 0, [LOST], 0)
    checks.holds('something is released without a process', not any(
        it[way]['free'] for it in state['switches'] for way in ('open', 'close')),
        json.dumps(state['switches']))
    words = ['--bay', SERVED / 'bay.toml', str(server.port), 'operate', 'QA1', 'open']
    checks.wants('a client without a process', *checks.run('client', *words), [LOST], 1)
    said = (page.send_control('select', 'QB1', 'close')
            + page.send_control('operate', 'QB1', 'close'))
    checks.wants('an operate by the panel without a process', said, 0,
                 ['refused: operate QB1 is refused: blocked by process (9): the process is lost',
                  LOST], 0)
