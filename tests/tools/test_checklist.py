"""The checklist before a bay goes into a network: what each step finds good, and what wrong."""
import datetime
import hashlib
import os
import socket
import unittest
from unittest import mock

from baytools.checklist import here, steps, there
from baytools.checklist.steps import GOOD, OPEN, WRONG, Step, Verdict, check_step
from baytools.common.ending import Failed
from tests.tool import Tools
from tests.tools.loopback import needs_loopback

HEAD = '  sl  local_address rem_address   st\n'
LINE = '   0: {}:{:04X} 00000000:0000 {} 0\n'
LOCAL, ANY = '0100007F', '00000000'
LOG = '  10:24:59.507  [O=Station A, CN=operator] operate QA1 open (orIdent operator): done'


class Here(Tools):
    """A bay's folder, and a /proc beside it."""

    def setUp(self):
        super().setUp()
        self.bay = self.folder / 'E05'
        self.process, self.trust = self.folder / 'proc', self.folder / 'trust'
        for folder in (self.bay, self.process / 'net', self.process / '77', self.trust):
            folder.mkdir(parents=True)
        for name in ('bay.toml', 'logic.il', 'rules'):
            (self.bay / name).write_text('')
            os.utime(self.bay / name, (1, 1))
        (self.bay / 'env').write_text('PORT=10102\nPROCESS=10103\nSUPERVISE=500\n')
        self.machine = here.Machine(self.bay, None, 'none', self.process, self.trust)
        self.write_command_line()

    def write_listeners(self, *lines):
        (self.process / 'net' / 'tcp').write_text(HEAD + ''.join(
            LINE.format(address, port, state) for address, port, state in lines))

    def write_command_line(self, *more, bay='bay.toml'):
        words = ['/usr/bin/bayctl', 'serve', '--bay', str(self.bay / bay), '--logic',
                 str(self.bay / 'logic.il'), '--rules', str(self.bay / 'rules'), '--port', '10102',
                 '--supervise', '500', '--key', 'k', '--log', *more]
        (self.process / '77' / 'cmdline').write_text('\0'.join(words) + '\0')

    def test_ports(self):
        self.write_listeners((LOCAL, 10102, '0A'), (LOCAL, 10103, '0A'), (ANY, 22, '0A'))
        self.assertEqual(self.machine.listening().state, GOOD)
        self.write_listeners((LOCAL, 10102, '0A'), (ANY, 10103, '0A'))
        self.assertEqual(self.machine.listening(), Verdict(
            WRONG, 'port 10102: on 127.0.0.1\nport 10103: on ANOTHER ADDRESS'))
        self.write_listeners((LOCAL, 10102, '0A'), (LOCAL, 10103, '01'))
        self.assertEqual(self.machine.listening().state, WRONG)

    def test_a_port_of_ipv6(self):
        self.write_listeners((LOCAL, 10102, '0A'), (LOCAL, 10103, '0A'))
        (self.process / 'net' / 'tcp6').write_text(HEAD + LINE.format('0' * 32, 10102, '0A'))
        self.assertEqual(self.machine.listening().state, WRONG)

    def test_the_server(self):
        self.assertEqual(self.machine.server().state, GOOD)
        os.utime(self.bay / 'logic.il', (2 ** 33, 2 ** 33))
        self.assertIn('logic.il has changed since it was started', self.machine.server().told)
        self.write_command_line(bay='other.toml')
        self.assertIn('it serves --bay', self.machine.server().told)
        (self.process / '77' / 'cmdline').write_text('bayctl\0serve\0--port\x0010102\0')
        found = self.machine.server()
        self.assertEqual((found.state, found.told.count('it was started without --')), (WRONG, 4))
        (self.process / '77' / 'cmdline').write_text('')
        self.assertEqual(self.machine.server(), Verdict(WRONG, '0 servers at port 10102'))

    def test_the_diagram(self):
        self.assertEqual(self.machine.diagram().state, OPEN)
        path = self.bay / 'diagram.toml'
        path.write_text('x')
        os.utime(path, (1, 1))
        self.assertIn('it serves --diagram None', self.machine.diagram().told)
        self.write_command_line('--diagram', str(path))
        digest = hashlib.sha256(b'x').hexdigest()
        for lines, state, told in (
                (f'.. diagram SHA-256 {"0" * 64}, 9 hold\n.. diagram SHA-256 {digest}, 10 hold\n',
                 GOOD, f'SHA-256 {digest}, 10 operations hold'),
                (f'diagram SHA-256 {"0" * 64}, 9 hold', WRONG, f'{path} HAS ANOTHER SUM'),
                ('bay SHA-256', OPEN, 'the log has no sum of a diagram')):
            with mock.patch.object(here, 'run_program', return_value=(0, lines)):
                found = self.machine.diagram()
                self.assertEqual(found.state, state)
                self.assertIn(told, found.told)
        os.utime(path, (2 ** 33, 2 ** 33))
        self.assertIn('diagram.toml has changed since', self.machine.diagram().told)
        (self.process / '77' / 'cmdline').write_text('')
        self.assertEqual(self.machine.diagram(), Verdict(WRONG, '0 servers at port 10102'))

    def test_keys(self):
        for path in (self.bay / 'key', self.trust / 'server.key'):
            path.write_text('')
            path.chmod(0o400)
        own = os.stat(self.bay / 'key').st_uid
        with mock.patch.object(here, 'run_program', return_value=(0, 'find: /x: denied')):
            self.assertEqual(self.machine.keys().state, GOOD if own else WRONG)
            (self.bay / 'key').chmod(0o440)
            self.assertEqual(self.machine.keys().state, WRONG)
        with mock.patch.object(here, 'run_program', return_value=(0, '/home/x/authority.key')):
            self.assertIn('/home/x/authority.key: the key of an authority',
                          self.machine.keys().told)

    def test_the_clock_and_the_list(self):
        def check_clock(synchronized, date):
            def run_program(words, given=b''):
                return (0, synchronized) if words[0] == 'timedatectl' else (0, f'nextUpdate={date}')
            with mock.patch.object(here, 'run_program', run_program):
                return self.machine.clock()
        later = datetime.datetime.now(datetime.UTC) + datetime.timedelta(days=3)
        date = f'{later:%b %d %H:%M:%S %Y} GMT'
        self.assertEqual(check_clock('yes', date).state, GOOD)
        self.assertEqual(check_clock('no', date).state, WRONG)
        self.assertEqual(check_clock('yes', 'Jan  2 03:04:05 2020 GMT').state, WRONG)

    def test_the_audit_and_the_log(self):
        self.assertEqual(self.machine.audit().state, OPEN)
        machine = here.Machine(self.bay, 'rules', 'none', self.process, self.trust)
        for said, state in (('PASSED: all 3 rules are proved.', GOOD),
                            ('PASSED (TRIED, NOT PROVED): all', WRONG), ('NOT PASSED: 1', WRONG)):
            with mock.patch.object(here, 'run_program', return_value=(0, f'PROVED: x\n{said}')):
                self.assertEqual(machine.audit(), Verdict(state, said))
        for said, state in ((LOG, GOOD), ('  10:24:59.507  operate QA1 open: done', OPEN)):
            with mock.patch.object(here, 'run_program', return_value=(0, said)):
                self.assertEqual(machine.subject().state, state)

    @needs_loopback
    def test_another_user(self):
        with socket.create_server(('127.0.0.1', 0)) as server:
            port = server.getsockname()[1]
            (self.bay / 'env').write_text(f'PORT={port}\nPROCESS={port}\n')
            found = check_step(Step('', self.machine.by_others))
            self.assertEqual(found.state, OPEN if os.geteuid() else WRONG, found)
        self.assertEqual(check_step(Step('', self.machine.by_others)).state,
                         OPEN if os.geteuid() else GOOD)

    @needs_loopback
    def test_a_port_that_could_not_be_tried_is_not_out_of_reach(self):
        with socket.create_server(('127.0.0.1', 0)) as one:
            port = one.getsockname()[1]
            self.assertTrue(here.reached_by(os.getuid(), port))
            with mock.patch('os.setuid', side_effect=LookupError), \
                    self.assertRaisesRegex(Failed, 'could try it'):
                here.reached_by(os.getuid(), port)
        self.assertFalse(here.reached_by(os.getuid(), port))


@needs_loopback
class There(unittest.TestCase):
    def test_ports_that_are_reached(self):
        with socket.create_server(('127.0.0.1', 0)) as server:
            port = server.getsockname()[1]
            far = there.Far('127.0.0.1', port, (port,), None)
            self.assertEqual(far.plain().state, WRONG)
        self.assertEqual(far.plain().state, GOOD)
        self.assertEqual(check_step(Step('', far.stranger)).state, OPEN)
        self.assertEqual(far.revoked().state, OPEN)


class Told(Tools):
    def test_statuses(self):
        for states, status in (((GOOD, GOOD), 0), ((GOOD, OPEN), 4), ((OPEN, WRONG), 1)):
            with mock.patch('builtins.print'):
                self.assertEqual(steps.print_steps([Step('x', lambda it=it: Verdict(it, 'a'))
                                                    for it in states]), status)

    def test_command_lines(self):
        for words in ((), ('here',), ('from', 'x', '--closed', '1,x'), ('from', 'x', '--tls')):
            found = self.call_tool('checklist', *words)
            self.assertEqual((found.status, found.out), (2, ''), words)
        self.assertEqual(self.call_tool('checklist', 'here', self.folder / 'none').status, 3)


if __name__ == '__main__':
    unittest.main()
