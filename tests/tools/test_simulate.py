"""tools/simulate on a port that a test plays the server on."""
import pathlib
import signal
import socket
import subprocess
import sys
import tempfile
import time
import unittest

from baytools.common.paths import TOOLS
from baytools.wire.process import Life, ServerClock, greeting_of
from devtools.served import Running, free_port, until
from tests.tool import Tools, interruptible
from tests.tools.loopback import needs_loopback, needs_waiting

BAY = '''[bay]
domain = "E1"
vendor = "V"
model = "M"
revision = "2 b"
scan_max_age_ms = 500
[[switch]]
id = "QA1"
kind = "breaker"
control = "direct"
travel_ms = 40
[[input]]
name = "ES"
[[meter]]
id = "M1"
'''


GREETING = '5000 process {} E1 2 b\n'


def now():
    return time.time_ns() // 1_000_000


class Simulations(unittest.TestCase):
    """A simulator of this bay whose server is the test."""

    def play(self, *words, text=BAY):
        """The connection of a simulator, and the simulator."""
        folder = tempfile.TemporaryDirectory()
        self.addCleanup(folder.cleanup)
        bay = pathlib.Path(folder.name) / 'bay.toml'
        bay.write_text(text)
        server = socket.create_server(('127.0.0.1', 0))
        self.addCleanup(server.close)
        server.settimeout(10)
        self.out = tempfile.TemporaryFile('w+')
        self.addCleanup(self.out.close)
        run = subprocess.Popen([TOOLS / 'simulate', bay, '--process', str(server.getsockname()[1]),
                                '--once', *words], stdin=subprocess.PIPE, stdout=self.out,
                               stderr=subprocess.STDOUT)
        connection, _ = server.accept()
        connection.settimeout(10)

        def end():
            connection.close()
            run.stdin.close()
            run.wait(10)

        self.addCleanup(end)
        return connection.makefile('rw'), run

    def lines(self, file, count):
        return [file.readline().rstrip('\n') for _ in range(count)]

    def tell(self, file, *lines):
        file.write(''.join(line + '\n' for line in lines))
        file.flush()

    def wait_for(self, told):
        """Waits until the simulator has said something."""
        def find_text():
            self.out.seek(0)
            found = self.out.read()
            return found if told in found else None

        return until(find_text, told)


@needs_loopback
class Simulated(Simulations):
    def test_first_values(self):
        file, _ = self.play('--at', 'QA1=closed', '--set', 'es=1', '--set', 'm1_aa=-5',
                            '--set', 'M1_HZ=bad')
        self.assertEqual(self.lines(file, 4), ['0 contact QA1 2', '0 input ES 1',
                                               '0 measure M1 AA -5', '0 measure M1 HZ bad'])
        file.close()

    def test_a_command(self):
        file, _ = self.play()
        self.lines(file, 2)
        self.tell(file, f'{now()} command QA1 on')
        self.assertEqual(self.lines(file, 2), ['0 contact QA1 0', '0 contact QA1 2'])
        file.close()

    def test_a_key(self):
        file, run = self.play(text=BAY.replace('[[input]]', 'remote = "es"\n[[input]]'))
        self.assertEqual(self.lines(file, 2), ['0 contact QA1 1', '0 input ES 1'])
        run.stdin.write(b'qa1 local\n')
        run.stdin.flush()
        self.assertEqual(self.lines(file, 1), ['0 input ES 0'])
        self.tell(file, f'{now()} command QA1 on')
        self.wait_for('QA1 is not carried out: its key is not at remote')
        run.stdin.write(b'QA1 remote\n')
        run.stdin.flush()
        self.assertEqual(self.lines(file, 1), ['0 input ES 1'])
        self.tell(file, f'{now()} command QA1 on')
        self.assertEqual(self.lines(file, 2), ['0 contact QA1 0', '0 contact QA1 2'])
        file.close()

    def test_a_switch_without_a_key(self):
        file, run = self.play()
        self.lines(file, 2)
        run.stdin.write(b'QA1 local\n')
        run.stdin.flush()
        self.wait_for('QA1 has no key in the bay file')
        file.close()

    def test_lines_that_come_at_once(self):
        file, run = self.play()
        self.lines(file, 2)
        run.stdin.write(b'ES 1\nM1 HZ 50\nnonsense\nM1 TOTW -5\n')
        run.stdin.flush()
        self.assertEqual(self.lines(file, 3),
                         ['0 input ES 1', '0 measure M1 HZ 50', '0 measure M1 TOTW -5'])
        file.close()

    def test_a_line_that_the_server_would_not_take_is_not_sent(self):
        file, run = self.play()
        self.lines(file, 2)
        typed = b'M1 FOO 5\nM1 TOTW 3.5\nM1 HZ 9999999999\nES 2\nQA1 up\nM1 hz 50\n'
        run.stdin.write(typed)
        run.stdin.flush()
        self.assertEqual(self.lines(file, 1), ['0 measure M1 HZ 50'])
        file.close()
        self.out.seek(0)
        said = self.out.read()
        for told in ("not sent: 'FOO' is not a field", 'the value must be a whole number or bad, '
                     "not '3.5'", 'not sent: \'9999999999\' does not fit', '2 is none of 0, 1',
                     'up is none of open, close'):
            self.assertIn(told, said)

    def test_odd_lines_of_the_server(self):
        file, _ = self.play()
        self.lines(file, 2)
        file.buffer.write(b'x command QA1 sideways\n\xff\n1 command QX on\n\n1 command\n'
                          b'alive\n1 over\n1 over QX\n1 process 5\n'
                          b'%d command qa1 on\r\n' % now())
        file.buffer.flush()
        self.assertEqual(self.lines(file, 2), ['0 contact QA1 0', '0 contact QA1 2'])
        file.close()

    def test_a_switch_that_is_stuck(self):
        file, run = self.play('--stuck', 'QA1')
        self.lines(file, 2)
        self.tell(file, f'{now()} command QA1 on')
        run.stdin.write(b'ES 1\n')
        run.stdin.flush()
        self.assertEqual(self.lines(file, 1), ['0 input ES 1'])
        file.close()

    def test_a_switch_that_is_bad(self):
        file, _ = self.play('--bad', 'qa1')
        self.lines(file, 2)
        self.tell(file, f'{now()} command QA1 on')
        self.assertEqual(self.lines(file, 1), ['0 contact QA1 3'])
        file.close()

    def test_a_measure_that_is_bad(self):
        file, run = self.play()
        self.lines(file, 2)
        run.stdin.write(b'M1 HZ bad\nM1 HZ 50\n')
        run.stdin.flush()
        self.assertEqual(self.lines(file, 2), ['0 measure M1 HZ bad', '0 measure M1 HZ 50'])
        file.close()

    def test_a_command_that_is_not_of_now(self):
        file, _ = self.play('--oldest', '2000')
        self.lines(file, 2)
        self.tell(file, f'{now() - 9000} command QA1 on', f'{now() + 9000} command QA1 on',
                  f'{now() - 100} command QA1 off')
        self.assertEqual(self.lines(file, 2), ['0 contact QA1 0', '0 contact QA1 1'])
        file.close()
        said = self.wait_for('contact QA1 1')
        self.assertRegex(said, r'on\nnot carried out: it is [89],\d\d\d ms old\n')
        self.assertRegex(said, r"carried out: its time is [89],\d\d\d ms ahead of this machine's")

    def test_a_switch_that_is_too_late(self):
        file, _ = self.play('--travel', '60000')
        self.lines(file, 2)
        self.tell(file, f'{now()} command QA1 on')
        self.assertEqual(self.lines(file, 1), ['0 contact QA1 0'])
        self.tell(file, f'{now()} over QX', f'{now()} over qa1')
        self.wait_for('QA1 stays where it is: the time of its command is over')
        file.close()

    def test_a_switch_that_is_moved_by_hand_goes_on(self):
        file, run = self.play('--travel', '500')
        self.lines(file, 2)
        run.stdin.write(b'QA1 close\n')
        run.stdin.flush()
        self.assertEqual(self.lines(file, 1), ['0 contact QA1 0'])
        self.tell(file, f'{now()} over QA1')
        self.assertEqual(self.lines(file, 1), ['0 contact QA1 2'])
        file.close()


@needs_loopback
class Supervised(Simulations):
    def greet(self, limit, *words):
        """A simulator that has answered the greeting and told its first values."""
        file, run = self.play(*words)
        self.tell(file, GREETING.format(limit).rstrip())
        first = self.lines(file, 3)
        return file, run, first

    def split(self, line):
        moment, _, rest = line.partition(' ')
        return int(moment), rest

    def next_line(self, file):
        """The next line that is no `alive`."""
        while True:
            moment, rest = self.split(file.readline().rstrip('\n'))
            if rest != 'alive':
                return moment, rest

    def test_a_greeting(self):
        file, run, first = self.greet(60_000)
        moments, lines = zip(*map(self.split, first))
        self.assertEqual(lines, ('bay - E1 2 b', 'contact QA1 1', 'input ES 0'))
        self.assertTrue(all(5000 <= it < 8000 for it in moments), moments)
        time.sleep(0.1)
        run.stdin.write(b'ES 1\n')
        run.stdin.flush()
        moment, rest = self.next_line(file)
        self.assertEqual(rest, 'input ES 1')
        self.assertTrue(5100 <= moment < 9000, moment)
        self.tell(file, '900000 alive')
        time.sleep(0.1)
        run.stdin.write(b'ES 0\n')
        run.stdin.flush()
        self.assertTrue(900_000 <= self.next_line(file)[0] < 904_000)
        file.close()
        self.assertNotIn('alive', self.wait_for('input ES 0'))

    def test_a_key(self):
        with tempfile.NamedTemporaryFile('w') as key:
            key.write('0123456789abcdefABCDEF0123456789\n')
            key.flush()
            file, _, first = self.greet(60_000, '--process-key', key.name)
        self.assertEqual(self.split(first[0])[1], 'bay 0123456789abcdefABCDEF0123456789 E1 2 b')
        file.close()
        said = self.wait_for('contact QA1 1')
        self.assertIn(' bay KEY E1 2 b\n', said)
        self.assertNotIn('0123456789abcdef', said)

    def test_another_bay(self):
        for greeting in ('1 process 500 E1 2\n', '1 process 500 e1 2 b\n'):
            file, run = self.play()
            self.tell(file, greeting.rstrip())
            self.assertEqual(run.wait(10), 1)
            said = self.wait_for('simulate: port ')
            self.assertRegex(said, r'simulate: port \d+: the server has bay [Ee]1, revision 2( b)?'
                             ', the bay file E1, 2 b\n$')
            file.close()

    def test_a_server_that_must_supervise(self):
        file, run = self.play('--supervised')
        self.tell(file, 'QA1=10')
        self.assertEqual(run.wait(10), 1)
        self.wait_for('the server does not greet: it is no supervised port')
        file.close()

    def test_that_both_live(self):
        begun = time.monotonic()
        file, run, _ = self.greet(900)
        for _ in range(5):
            moment, rest = self.split(file.readline().rstrip('\n'))
            self.assertEqual(rest, 'alive')
            self.tell(file, f'{moment} alive')
        passed = time.monotonic() - begun
        self.assertTrue(4 * 0.225 - 0.1 < passed < 5 * 0.3 + 5, passed)
        self.assertEqual(run.wait(10), 3)
        self.wait_for('the connection was lost: the server has not said for 900 ms that it lives')
        file.close()

    def test_what_it_slept_through(self):
        file, run, _ = self.greet(60_000, '--oldest', '500')
        run.send_signal(signal.SIGSTOP)
        self.tell(file, '5200 command QA1 on')
        time.sleep(1.5)
        run.send_signal(signal.SIGCONT)
        said = self.wait_for('not carried out')
        self.assertRegex(said, r'< 5200 command QA1 on\nnot carried out: it is [1-9],?\d+ ms old\n')
        self.tell(file, '9000 command QA1 on')
        self.assertEqual([self.next_line(file)[1] for _ in range(2)],
                         ['contact QA1 0', 'contact QA1 2'])
        file.close()

    def test_what_it_slept_through_while_it_was_to_live(self):
        file, run, _ = self.greet(600)
        run.send_signal(signal.SIGSTOP)
        self.tell(file, '5200 command QA1 on')
        time.sleep(1.5)
        run.send_signal(signal.SIGCONT)
        self.assertEqual(run.wait(10), 3)
        self.assertRegex(self.wait_for('that it lives'), r'not carried out: it is [\d,]+ ms old\n'
                         'the connection was lost: the server has not said for 600 ms')
        file.close()

    def test_a_limit_of_the_server_binds(self):
        file, run, _ = self.greet(700, '--oldest', '60000')
        self.tell(file, '7000 alive', '6200 command QA1 on', '6800 command QA1 off')
        self.assertEqual(self.next_line(file)[1], 'contact QA1 0')
        self.assertIn('on\nnot carried out: it is 8', self.wait_for('not carried out'))
        file.close()

    def test_a_command_that_is_over(self):
        file, run, _ = self.greet(60_000, '--oldest', '60000')
        self.tell(file, '5000 command QA1 on', '5000 over QA1', '5000 over QX')
        self.wait_for('on\nnot carried out: its time is over')
        run.stdin.write(b'ES 1\n')
        run.stdin.flush()
        self.assertEqual(self.next_line(file)[1], 'input ES 1')
        file.close()


class Clocks(unittest.TestCase):
    def test_a_line_that_was_long_on_its_way(self):
        clock = ServerClock(1000)
        time.sleep(0.1)
        clock.on_moment(1001)
        self.assertGreaterEqual(clock.now(), 1098)
        clock.on_moment(5000)
        self.assertTrue(5000 <= clock.now() < 5500)

    def test_life(self):
        life = Life(400)
        self.assertEqual([life.is_due(), life.is_due(), life.is_silent()], [True, False, False])
        self.assertTrue(0 < life.wait() <= 0.1)
        life.heard -= 1
        self.assertTrue(life.is_silent())
        life.on_alive()
        self.assertFalse(life.is_silent())

    def test_greetings(self):
        found = greeting_of('7 process 500 E05 1.0  and more')
        self.assertEqual((found.moment, found.limit, found.domain, found.revision),
                         (7, 500, 'E05', '1.0  and more'))
        for line in ('7 process 500 E05', 'x process 500 E05 1', '7 process 0 E05 1', 'QA1=10',
                     '7 command QA1 on', '7 process open', '7 alive', ''):
            self.assertIsNone(greeting_of(line), line)


@needs_loopback
class Waiting(Tools):
    """What it says while nobody takes it."""

    def running(self, port, *words):
        with interruptible():
            run = Running(sys.executable, '-B', TOOLS / 'simulate', self.file('bay', BAY),
                          '--process', port, *words, stdin=subprocess.PIPE)
        self.addCleanup(run.__exit__)
        return run

    def test_without_a_server(self):
        run = self.running(free_port())
        run.waits_for('no server listens there; it is tried again until one does')
        try:
            run.run.wait(1.5)
        except subprocess.TimeoutExpired:
            pass
        self.assertEqual(run.printed().count('\n'), 1)
        run.run.send_signal(signal.SIGINT)
        self.assertEqual(run.run.wait(10), 0)

    @needs_waiting
    def test_a_second_process_waits(self):
        with socket.create_server(('127.0.0.1', 0)) as server:
            run = self.running(server.getsockname()[1])
            run.waits_for('the server takes one process at a time, and has another: waiting')
            self.assertNotIn('connected', run.printed())
            connection, _ = server.accept()
            run.waits_for('connected')
            connection.close()

    def test_a_port_that_ends_it_at_the_first_lines(self):
        """As that of the clients does."""
        with socket.create_server(('127.0.0.1', 0)) as server:
            port = server.getsockname()[1]
            run = self.running(port)
            for _ in range(2):
                connection, _ = server.accept()
                self.assertTrue(connection.recv(4096).startswith(b'0 contact QA1 1'))
                connection.close()
            run.waits_for('the connection was lost: the server ends it at the first lines, so port '
                          f'{port} is not that of a process: is it that of the clients?\n')
            self.assertNotIn('connected', run.printed())

    def test_a_server_with_another_key_or_with_one(self):
        """It ends the connection without a word: the reason is told once, and no `connected`."""
        key = self.file('key', '0123456789abcdef' * 2)
        for words, told in ((['--key', key], 'no server there has the key of --process-key'),
                            ([], 'no server there takes a process without --process-key')):
            with socket.create_server(('127.0.0.1', 0)) as server:
                run = self.running(server.getsockname()[1], *words)
                for _ in range(3):
                    connection, _ = server.accept()
                    connection.sendall(GREETING.format(500).encode())
                    self.assertIn(b' bay ', connection.recv(4096))
                    connection.close()
                connection, _ = server.accept()
                said = run.waits_for(told)
                self.assertEqual((said.count('ended the connection'), said.count(' bay ')), (1, 1))
                self.assertNotIn('connected', said)
                connection.sendall(GREETING.format(60_000).encode())
                connection.recv(4096)
                connection.sendall(b'5001 alive\n')
                run.waits_for('connected')
                connection.close()
                run.waits_for('the connection was ')
                self.assertEqual(run.printed().count('connected'), 1)

    def test_statuses(self):
        bay = self.file('bay', BAY)
        short, long = self.file('short', 'a' * 31), self.file('long', 'a' * 64 + '\n\n')
        for words, status in ((['--at', 'QX=open'], 2), (['--at', 'QA1=ajar'], 2),
                              (['--travel', 'nan'], 2), (['--process', '0'], 2), (['--once'], 3),
                              (['--oldest', '-1'], 2), (['--process-key', 'absent'], 3),
                              (['--process-key', short], 3), (['--process-key', long], 3)):
            found = self.call_tool('simulate', bay, '--process', free_port(), *words)
            self.assertEqual((found.status, found.error.count('\n'), found.out), (status, 1, ''))


if __name__ == '__main__':
    unittest.main()
