"""The page of all bays, of two served ones: what it shows of each, while one loses its process and
then its server. Each check has the name of the wrong behaviour that it refuses."""
import http.client
import json
import pathlib
import re
import sys
import time

from baytools.common.paths import TOOLS, TOP
from devtools.served import PATIENCE, Running, Server, Simulator

EXAMPLES = TOP / 'examples'
OTHER, SERVED = EXAMPLES / '03_single_busbar', EXAMPLES / '09_served'
GONE = 'every position is bad: the process is lost, since '


def state(port: int) -> dict[str, dict]:
    """What the page is told of each bay."""
    connection = http.client.HTTPConnection('127.0.0.1', port, timeout=PATIENCE)
    connection.request('GET', '/state')
    bays = json.loads(connection.getresponse().read())['bays']
    connection.close()
    return {bay['name']: bay for bay in bays}


def comes(port: int, test) -> tuple[bool, dict[str, dict]]:
    """Whether something comes to be told within five seconds, and what is."""
    end = time.monotonic() + 5
    while not test(found := state(port)):
        if time.monotonic() > end:
            return False, found
        time.sleep(0.05)
    return True, found


def domain_of(path: pathlib.Path) -> str:
    """The domain of a bay file."""
    found = re.search(r'(?m)^domain\s*=\s*"(\w+)"', path.read_text(encoding='utf-8'))
    assert found
    return found[1]


def place(bay: dict, switch: str) -> str:
    return next((it['position'] for it in bay['switches'] if it['id'] == switch), '')


def station(checks) -> None:
    """Two bays on one page."""
    bays = [folder / 'bay.toml' for folder in (SERVED, OTHER)]
    first, second = map(domain_of, bays)
    with Server(checks.bayctl, bays[0], SERVED / 'logic.il', with_process=True) as one, \
            Server(checks.bayctl, bays[1], OTHER / 'logic.il', with_process=True) as two:
        for server in (one, two):
            server.client().close()
        words = [sys.executable, '-B', TOOLS / 'station', '--http', '0', '--bay', bays[0],
                 one.port, '--bay', bays[1], two.port]
        with Simulator(bays[0], one, '--at', 'QA1=closed', '--set', 'SPRING=1') as gear, \
                Simulator(bays[1], two), Running(*words) as running:
            page = int(re.search(r':(\d+)/\n', running.waits_for('/\n'))[1])
            is_told, found = comes(page, lambda it: place(it[first], 'QA1') == 'closed'
                                   and place(it[second], 'QA1') == 'open')
            checks.holds('one bay is shown for the other', is_told, json.dumps(found))
            free = {it['id']: it['open']['free'] for it in found[first]['switches']}
            checks.holds('a release is shown that is none', free.get('QA1') is True
                         and free.get('QB1') is False, json.dumps(found[first]))
            gear.kill()
            is_told, found = comes(page, lambda it: it[first]['process'].startswith(GONE))
            checks.holds('a lost process is not told', is_told and not found[second]['process'],
                         json.dumps(found))
            one.kill()
            is_told, found = comes(page, lambda it: not it[first]['connected'])
            checks.holds('a bay is shown that does not answer', is_told
                         and not found[first]['switches'] and found[second]['connected'],
                         json.dumps(found))
