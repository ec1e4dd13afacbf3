"""What examples/11_networked ships, and how checks use it, without stunnel and nftables."""
import contextlib
import io
import pathlib
import re
import tempfile
import unittest
from unittest import mock

from baytools.checklist import here, there
from baytools.common.paths import TOP
from baytools.wire.tls import CIPHERS
from devtools import guarded
from devtools.check import doors, reachable
from devtools.commands import load_command

PAGE_OF_ALL = TOP / 'packaging' / 'units' / 'bayctl-station.service'
PAGE = TOP / 'examples' / '11_networked' / 'README.md'
SECURITY = TOP / 'docs' / 'SECURITY.md'


class Shipped(unittest.TestCase):
    CONFIGURATION = guarded.CONFIGURATION.read_text(encoding='utf-8')

    def setting(self, name):
        found = re.findall(rf'(?m)^{name} = (.*)$', self.CONFIGURATION)
        self.assertEqual(len(found), 1, name)
        return found[0]

    def test_what_keeps_strangers_out(self):
        """Each of these lines off, and somebody is let in whom the page says is kept out."""
        for name, value in (('verifyChain', 'yes'), ('sslVersionMin', 'TLSv1.2'),
                            ('sessionResume', 'no'), ('renegotiation', 'no'),
                            ('setuid', 'stunnel4'), ('accept', '3782'),
                            ('connect', '127.0.0.1:10102'), ('debug', 'notice'), ('syslog', 'no')):
            self.assertEqual(self.setting(name), value)
        self.assertTrue(self.setting('CAfile') and self.setting('CRLfile'))
        self.assertEqual(self.setting('ciphers'), CIPHERS)

    def test_a_client_that_has_vanished(self):
        """The system of a client that is silent is asked whether it is there."""
        told = dict(re.findall(r'(?m)^socket = l:(\w+)=(\d+)$', self.CONFIGURATION))
        self.assertEqual(told['SO_KEEPALIVE'], '1')
        seconds = int(told['TCP_KEEPIDLE']) + int(told['TCP_KEEPINTVL']) * int(told['TCP_KEEPCNT'])
        self.assertEqual(seconds, 25)
        for page in (PAGE, SECURITY):
            self.assertRegex(page.read_text(encoding='utf-8'), rf'within {seconds} s')

    def test_the_table_has_the_ports_of_the_configuration(self):
        table = reachable.TABLE.read_text(encoding='utf-8')
        ports = dict(re.findall(r'(?m)^define (\w+)_port = (\d+)$', table))
        self.assertEqual(ports, {name: str(port) for name, port in reachable.PORTS.items()})
        self.assertTrue(self.setting('connect').endswith(f':{ports["clients"]}'))
        self.assertIn(f'define clients = {{ {self.setting("setuid")} }}', table)
        page, = re.findall(r'(?m)^User=(.*)$', PAGE_OF_ALL.read_text(encoding='utf-8'))
        self.assertIn(f'{{ {self.setting("setuid")}, {page} }}', table)

    def test_the_page_has_the_steps_of_the_checklist(self):
        part = PAGE.read_text(encoding='utf-8').partition('## Before it goes into a network')[2]
        with tempfile.TemporaryDirectory() as folder:
            (pathlib.Path(folder) / 'env').write_text('PORT=10102\nPROCESS=10103\n')
            steps = [here.steps_of(here.Machine(pathlib.Path(folder), None, '')),
                     there.steps_of(there.Far('', 3782, (10102, 10103), None))]
        for act, found in zip(('here', 'from'), steps):
            table = part.partition(f'tools/checklist {act} ')[2].partition('\n\nAnd')[0]
            numbers = re.findall(r'(?m)^\| (\d+) \|', table.partition('\n\n## ')[0])
            self.assertEqual(numbers, [str(at) for at in range(1, len(found) + 1)], act)

    def test_both_pages_have_one_layout(self):
        """What the page names of a bay is what packaging/ installs."""
        page = PAGE.read_text(encoding='utf-8')
        units = {path.name.partition('@')[0] for path in PAGE_OF_ALL.parent.glob('*@.service')}
        self.assertLessEqual(set(re.findall(r'([\w-]+)@E05', page)), units)
        rows = (TOP / 'packaging/configuration/tmpfiles.conf').read_text(encoding='utf-8')
        for path in re.findall(r'/etc/(?:bayctl|stunnel)/[\w./-]*\w', page):
            self.assertTrue(path == '/etc/bayctl/bay.nft' or path.replace('E05', '*') in rows
                            or path == '/etc/bayctl/E05', path)


class Used(unittest.TestCase):
    def test_other_values(self):
        text = guarded.configuration_with({'accept': '7', 'CRLfile': '/x y\\1'})
        self.assertIn('\naccept = 7\n', text)
        self.assertIn('\nCRLfile = /x y\\1\n', text)
        self.assertNotIn('setuid', text)
        self.assertEqual(text.count('verifyChain = yes'), 1)
        with self.assertRaisesRegex(ValueError, 'verify does not stand there'):
            guarded.configuration_with({'verify': '2'})

    def test_users_that_need_not_exist(self):
        text = reachable.with_users(reachable.TABLE.read_text(encoding='utf-8'))
        self.assertNotRegex(text, r'(?m)^define .*\{ [a-z]')
        with self.assertRaisesRegex(ValueError, 'no one line `define clients`'):
            reachable.with_users('')

    def test_what_is_not_installed_is_told_and_counted(self):
        checks = load_command('check').Checks(None, None)
        with mock.patch('shutil.which', lambda name: None), \
                contextlib.redirect_stdout(io.StringIO()) as told:
            doors.all_of(checks)
        self.assertEqual(told.getvalue(), (
            'left out, since nftables is not installed or may not be asked: who reaches the ports\n'
            'left out, since openssl and stunnel are not installed: a bay behind stunnel\n'))
        self.assertEqual((checks.left, checks.count, checks.failed), (2, 0, 0))


if __name__ == '__main__':
    unittest.main()
