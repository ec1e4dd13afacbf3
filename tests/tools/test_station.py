"""The page of all bays, with servers of the tests' own and a journal that is a script."""
import contextlib
import http.client
import json
import signal
import socket
import subprocess
import sys
import threading
import unittest

from baytools.bay.files import BadFile
from baytools.common.ending import UsageError
from baytools.common.paths import TOOLS
from baytools.station.bays import all_of, settings_of
from baytools.station.journal import Follower, Journal
from baytools.station.page import StationPages
from baytools.station.servers import Station
from devtools.served import free_port, until
from tests.tool import Tools, interruptible
from tests.tools.loopback import needs_loopback
from tests.tools.test_client import Bay as Server, serve_once
from tests.tools.test_same_bay import FILE, Model

OTHER = FILE.replace('"B1"', '"B2"')
LOGGED = '''instructions=14 depth=2 budget=14
2026-07-25T17:20:00.000Z clients on 127.0.0.1:10102, process on 127.0.0.1:10103
1785000001000 process open
2026-07-25T17:20:01.000Z process open
2026-07-25T17:20:02.000Z association 1 open from 127.0.0.1:40000
2026-07-25T17:20:02.500Z association 2 open from 127.0.0.1:40002
2026-07-25T17:20:03.000Z association 1 operate QB1 open orCat=2 orIdent=A ctlNum=7: refused 10: \
the interlocking does not release the operation
2026-07-25T17:20:04.000Z association 1 operate QA1 open orCat=2 orIdent=A ctlNum=8: done
1785000004000 command QA1 off
1785000005000 closed 2 0
2026-07-25T17:20:05.000Z association 2 closed 0: its client ended it
2026-07-25T17:20:06.000Z operate of QA1 ended: time over
'''


class Listing(Tools):
    """Which bays there are."""

    def bay(self, name, text, settings=None):
        """A folder with a bay, and with its settings where they are given."""
        (self.folder / name).mkdir()
        self.file(f'{name}/bay.toml', text)
        if settings is not None:
            self.file(f'{name}/env', settings)
        return self.folder / name

    def test_a_folder(self):
        self.bay('E06', OTHER, '# ports\nPORT=10112\nPROCESS=10113\n')
        self.bay('E05', FILE, 'PROCESS=10103\nPORT="10102"\n')
        (self.folder / 'empty').mkdir()
        found = all_of([], str(self.folder))
        self.assertEqual([(it.name, it.port, it.file['bay']['domain'], it.trouble)
                          for it in found],
                         [('E05', 10102, 'B1', ''), ('E06', 10112, 'B2', '')])

    def test_folders_that_can_not_be_read_stand_beside_the_others(self):
        self.bay('A', '[bay', 'PORT=1\n')
        self.bay('B', FILE, 'PROCESS=10103\n#PORT=1\n')
        self.bay('C', FILE)
        self.bay('D', FILE, 'PORT=0\n')
        self.bay('E', FILE, 'PORT=10102\n')
        found = {it.name: it.trouble for it in all_of([], str(self.folder))}
        for name, told in (('A', 'refused with 50'), ('B', 'B/env: it has no line PORT=..'),
                           ('C', 'C/env: No such file'), ('D', '0 is not a port')):
            self.assertIn(told, found[name])
        self.assertEqual(found['E'], '')

    def test_settings(self):
        path = self.file('env', '; no\n#PORT=1\n PORT=2 \nA=\'b c\'\nno sign\nE=\n')
        self.assertEqual(settings_of(path), {'PORT': '2', 'A': 'b c', 'E': ''})

    def test_pairs(self):
        one, two = self.file('one', FILE), self.file('two', OTHER)
        found = all_of([[str(one), '1'], [str(two), '65535']], None)
        self.assertEqual([(it.name, it.port) for it in found], [('B1', 1), ('B2', 65535)])
        for pairs, told in (([[str(one), '0']], '0 is not a port'),
                            ([[str(one), '7'], [str(two), '7']], 'two bays have port 7'),
                            ([], 'name a FOLDER')):
            with self.assertRaisesRegex(UsageError, told):
                all_of(pairs, None)

    def test_a_folder_without_bays(self):
        for folder in (self.folder, self.folder / 'none'):
            with self.assertRaisesRegex(BadFile, 'no folder in it has a bay.toml'):
                all_of([], str(folder))


class Journals(Tools):
    """What the lines of a server come to."""

    def journal_state(self, text):
        found = Journal()
        for line in text.splitlines(True):
            found.add_line(line)
        return found.state()

    def test_commands_process_and_links(self):
        found = self.journal_state(LOGGED)
        self.assertEqual([(it['told'], it['good']) for it in found['commands']], [
            ('QB1 open: refused, the interlocking does not release the operation (10)', False),
            ('QA1 open: commanded', True), ('QA1: time over', False)])
        self.assertRegex(found['process'], r'^process connected since \S+ \d\d:\d\d:01\.000$')
        self.assertEqual(found['links'], [(1, '127.0.0.1:40000')])

    def test_a_process_that_is_gone(self):
        found = self.journal_state(LOGGED + '1785000009000 process closed 134\n'
                                   '1785000009000 process closed 134: no line for 500 ms\n')
        self.assertRegex(found['process'],
                         r'^process gone since .*:09\.000 \(134: no line for 500 ms\)$')

    def test_a_server_that_starts_again_has_no_links(self):
        found = self.journal_state(LOGGED + LOGGED.splitlines()[0] + '\n')
        self.assertEqual((found['links'], found['process']), ([], ''))

    def test_without_a_log(self):
        """The links are not told, which is another thing than that there are none."""
        printed = [line for line in LOGGED.splitlines(True)
                   if 'Z ' not in line]
        found = self.journal_state(''.join(printed))
        self.assertIsNone(found['links'])
        self.assertEqual([it['told'] for it in found['commands']], ['QA1 open: commanded'])

    def test_a_client_that_calls_itself_a_line(self):
        """What a client says of itself stands between the words of the line that it is in."""
        found = self.journal_state(
            '5 association 1 operate QA1 on orCat=2 orIdent=x ctlNum=1: refused 9: the process '
            'is lost ctlNum=7: done\n'
            '6 association 1 select QA1 on orCat=2 orIdent=5 command QB1 on ctlNum=7: done\n'
            '7 association 1 operate QA1 on orCat=2 orIdent=: refused 1: x ctlNum=7: refused 12: '
            'the switch is operating\n')
        self.assertEqual([it['told'] for it in found['commands']],
                         ['QA1 close: refused, the switch is operating (12)'])

    def test_the_last_ones_are_kept(self):
        found = self.journal_state(''.join(f'{n} command Q{n} on\n' for n in range(9)))
        self.assertEqual([it['told'][:2] for it in found['commands']], ['Q5', 'Q6', 'Q7', 'Q8'])

    def program(self, text):
        path = self.file('journalctl', f'#!{sys.executable}\nimport sys, time\n{text}\n')
        path.chmod(0o755)
        return path

    def following(self, program):
        follower = Follower(str(program), 'E05', threading.Event())
        running = threading.Thread(target=follower.run, daemon=True)
        running.start()
        self.addCleanup(running.join, 5)
        self.addCleanup(follower.stop)
        return follower

    def test_a_journal_that_is_followed(self):
        follower = self.following(self.program(
            f'print({LOGGED!r}, end="", flush=True)\n'
            'print("9000 command", sys.argv[1].replace("@", "_")[7:17], "on", flush=True)\n'
            'time.sleep(60)'))
        found = until(lambda: (it := follower.state())['commands'][3:] and it, 'it is read')
        self.assertEqual(found['commands'][3]['told'], 'bayctl_E05 close: commanded')
        self.assertEqual((found['links'], found['trouble']), ([(1, '127.0.0.1:40000')], ''))

    def test_a_journal_that_can_not_be_read(self):
        for text, told in ((None, 'No such file or directory'), ('sys.exit(1)', 'it ended'),
                           ('sys.exit("no access")', 'no access')):
            program = self.program(text) if text else self.folder / 'none'
            follower = self.following(program)
            found = until(lambda: follower.state()['trouble'], 'it is told')
            self.assertEqual(found, f'the journal can\'t be read: {program}: {told}')


@needs_loopback
class Stations(Tools):
    """Bays with servers, without one, and with another one's."""

    def station(self, *models):
        """A station of bays with these servers, or with none, that runs."""
        pairs = []
        for place, (text, model) in enumerate(models):
            port = free_port()
            if model:
                server = serve_once(Server(model))
                self.addCleanup(server.close)
                port = server.getsockname()[1]
            pairs.append([str(self.file(f'bay{place}', text)), str(port)])
        station = Station(all_of(pairs, None))
        running = threading.Thread(target=station.run)
        running.start()
        self.addCleanup(running.join)
        self.addCleanup(station.stop)
        return station

    def until(self, station, test, told):
        return until(lambda: (it := json.loads(station.state_json())['bays']) and test(it) and it,
                     told)

    def test_bays_that_answer_and_one_that_does_not(self):
        station = self.station((FILE, Model(FILE)), (OTHER, Model(OTHER)), (FILE, None))
        found = self.until(station, lambda it: it[0]['switches'] and it[1]['switches'] and
                           'no server' in it[2]['told'], 'all is told')
        self.assertEqual([it['connected'] for it in found], [True, True, False])
        self.assertEqual(found[2]['switches'], [])
        self.assertEqual((found[0]['device'], found[0]['process'], found[0]['journal']),
                         ('V M 1', '', None))
        one = found[1]['switches'][0]
        self.assertEqual((one['id'], one['position'], one['quality'], one['open'], one['close']),
                         ('QA1', 'closed', 'good', {'free': True, 'why': ''},
                          {'free': True, 'why': ''}))
        self.assertIn('QA1 is closed', [it['told'] for it in found[0]['moves']])

    def test_a_process_that_is_lost(self):
        text = FILE.partition('[[meter]]')[0]
        model = Model(text)
        station = self.station((text, model))
        self.until(station, lambda it: it[0]['switches'], 'it is read')
        for row, value in model.rows.items():
            if row.endswith('$ST$Pos') and row.startswith('CSWI'):
                value.value[0].value, value.value[1].value = '11', '01' + '0' * 11
        found = self.until(station, lambda it: it[0]['process'], 'it is told')
        self.assertRegex(found[0]['process'],
                         '^every position is bad: the process is lost, since ')
        self.assertFalse(any(it[way]['free'] for it in found[0]['switches']
                             for way in ('open', 'close')))
        self.assertEqual(found[0]['moves'][-1]['told'], 'QC1 is bad (invalid)')

    def test_another_bay(self):
        station = self.station((FILE, Model(FILE.replace('"M"', '"N"'))))
        found = self.until(station, lambda it: it[0]['switches'], 'it is read')
        self.assertTrue(found[0]['barred'])

    def test_a_server_that_goes(self):
        """No position of it is shown any longer, and the reason is told."""
        model, is_over = Model(FILE), threading.Event()

        def act(connection):
            threading.Thread(target=lambda: (is_over.wait(20), connection.shutdown(2)),
                             daemon=True).start()
            Server(model)(connection)

        with serve_once(act) as server:
            pair = [str(self.file('bay', FILE)), str(server.getsockname()[1])]
            station = Station(all_of([pair], None))
            running = threading.Thread(target=station.run)
            running.start()
            self.addCleanup(running.join)
            self.addCleanup(station.stop)
            self.until(station, lambda it: it[0]['switches'], 'it is read')
            is_over.set()
            found = self.until(station, lambda it: not it[0]['connected'], 'it is gone')
        self.assertEqual((found[0]['switches'], found[0]['told']),
                         ([], 'the server closed the connection'))
        self.assertTrue(found[0]['moves'])

    def test_a_server_that_hangs(self):
        """It is not read any longer, and the other bay is."""
        model, is_over = Model(FILE), threading.Event()
        answer, hangs = model.answer, threading.Event()

        def slow(pdu):
            if hangs.is_set():
                is_over.wait(20)
            return answer(pdu)

        model.answer = slow
        self.addCleanup(is_over.set)
        station = self.station((FILE, model), (OTHER, Model(OTHER)))
        self.until(station, lambda it: all(one['switches'] for one in it), 'both are read')
        hangs.set()
        self.until(station, lambda it: it[1]['read'] - it[0]['read'] > 1000, 'one is not read')
        is_over.set()

    def pages(self, *models):
        pages = StationPages(0, self.station(*models))
        serving = threading.Thread(target=pages.serve_forever, args=(0.02,))
        serving.start()
        self.addCleanup(pages.server_close)
        self.addCleanup(serving.join)
        self.addCleanup(pages.shutdown)
        return pages.server_address[1]

    def ask(self, port, verb, path, **heads):
        connection = http.client.HTTPConnection('127.0.0.1', port, timeout=5)
        with contextlib.closing(connection):
            connection.request(verb, path, '', {'Host': f'127.0.0.1:{port}', **heads})
            answer = connection.getresponse()
            return answer.status, answer.read().decode()

    def test_the_page(self):
        port = self.pages((FILE, Model(FILE)), (OTHER, None))
        status, text = self.ask(port, 'GET', '/')
        self.assertEqual(status, 200)
        self.assertIn('2 bays, times of this machine', text)
        self.assertNotIn('@', text)
        for name in ('page.css', 'station.css', 'shown.js', 'station.js'):
            self.assertIn(f'"{name}"', text)
            self.assertEqual(self.ask(port, 'GET', f'/{name}')[0], 200)
        self.assertEqual([self.ask(port, 'GET', path)[0] for path in ('/page.js', '/../station')],
                         [404, 404])
        names = [it['name'] for it in json.loads(self.ask(port, 'GET', '/state')[1])['bays']]
        self.assertEqual(names, ['B1', 'B2'])

    def test_who_asks_for_more(self):
        port = self.pages((FILE, None))
        self.assertEqual(self.ask(port, 'GET', '/', Host='evil:80')[0], 403)
        self.assertEqual(self.ask(port, 'POST', '/select', **{'X-Panel': 'x'})[0], 403)

    def test_states_are_pushed_each_second(self):
        port = self.pages((FILE, Model(FILE)))
        with socket.create_connection(('127.0.0.1', port), 5) as one:
            one.sendall(f'GET /events HTTP/1.1\r\nHost: 127.0.0.1:{port}\r\n\r\n'.encode())
            with one.makefile() as lines:
                states = (json.loads(line[6:]) for line in lines if line.startswith('data: {"now"'))
                first = next(it for it in states if it['bays'][0]['switches'])
                later = next(it for it in states if it['bays'][0]['read'] > first['now'])
        self.assertEqual(later['bays'][0]['moves'], first['bays'][0]['moves'])

    def test_the_tool(self):
        with serve_once(Server(Model(FILE))) as server:
            words = [sys.executable, '-B', TOOLS / 'station', '--http', '0', '--bay',
                     self.file('bay', FILE), str(server.getsockname()[1])]
            with interruptible():
                run = subprocess.Popen(words, stdout=subprocess.PIPE, stderr=subprocess.PIPE,
                                       text=True)
            self.addCleanup(run.kill)
            port = int(run.stdout.readline().rpartition(':')[2].rstrip('/\n'))
            until(lambda: '"QA1"' in self.ask(port, 'GET', '/state')[1], 'it is read')
            run.send_signal(signal.SIGINT)
            out, error = run.communicate(timeout=12)
        self.assertEqual((out, error, run.returncode), ('', '', 0))

    def test_a_port_that_is_taken(self):
        with socket.create_server(('127.0.0.1', 0)) as one:
            port = one.getsockname()[1]
            found = self.call_tool('station', '--bay', self.file('bay', FILE), 1, '--http', port)
        self.assertEqual((found.status, found.error),
                         (3, f'station: port {port}: Address already in use\n'))


if __name__ == '__main__':
    unittest.main()
