"""The small authority of tools/certify: what it makes, who may read it, and what it refuses."""
import stat
import subprocess
import unittest
from unittest import mock

from baytools.certify import authority
from devtools.commands import load_command
from tests.tool import Tools
from tests.tools.trust import needs_openssl

VERIFY = ['openssl', 'verify', '-crl_check', '-CAfile', 'a/authority.pem', '-CRLfile',
          'a/authority.crl']


@needs_openssl
class Certificates(Tools):
    def certify(self, *words, status=0, told=''):
        found = self.call_tool('certify', 'a', *words)
        self.assertEqual(found.status, status, found)
        self.assertIn(told, found.error if status else found.out)
        return found

    def text(self, name, *words):
        done = subprocess.run(['openssl', *words, '-in', f'a/{name}', '-noout', '-text'],
                              cwd=self.folder, capture_output=True, text=True, check=True)
        return ' '.join(done.stdout.split())

    def is_taken(self, name, purpose):
        done = subprocess.run([*VERIFY, '-purpose', purpose, f'a/{name}.pem'], cwd=self.folder,
                              capture_output=True, text=True)
        return done.returncode == 0

    def test_an_authority_and_what_it_issues(self):
        self.certify('authority', 'root', '--organization', 'Station A', '--days', 100)
        self.certify('server', 'bay', '--host', 'bay-e05', '10.0.0.5', 'fd00::5', '--days', 9)
        self.certify('client', 'operator', '--unit', 'Control room', '--key-type', 'rsa')
        server, client = self.text('bay.pem', 'x509'), self.text('operator.pem', 'x509')
        for told in ('Issuer: O = Station A, CN = root', 'Subject: O = Station A, CN = bay ',
                     'CA:FALSE', 'TLS Web Server Authentication',
                     'DNS:bay-e05, IP Address:10.0.0.5, IP Address:FD00:0:0:0:0:0:0:5'):
            self.assertIn(told, server)
        for told in ('Subject: O = Station A, OU = Control room, CN = operator ', '(3072 bit)',
                     'TLS Web Client Authentication'):
            self.assertIn(told, client)
        self.assertNotIn('Alternative', client)
        self.assertIn('CA:TRUE, pathlen:0', self.text('authority.pem', 'x509'))
        self.assertEqual([self.is_taken(*it) for it in (
            ('bay', 'sslserver'), ('bay', 'sslclient'), ('operator', 'sslclient'),
            ('operator', 'sslserver'))], [True, False, True, False])

    def test_validity(self):
        self.certify('authority', '--days', 100, '--list-days', 3)
        self.certify('server', 'bay', '--host', 'x', '--days', 9)
        for name, days in (('bay', 9), ('authority', 100)):
            for seconds, status in ((days * 86_400 - 600, 0), (days * 86_400 + 600, 1)):
                done = subprocess.run(['openssl', 'x509', '-in', f'a/{name}.pem', '-noout',
                                       '-checkend', str(seconds)], cwd=self.folder,
                                      capture_output=True)
                self.assertEqual(done.returncode, status, name)
        for word in ('0', '-1', '36526', 'x'):
            self.certify('client', 'c', '--days', word, status=2, told='number of days from 1')

    def test_who_may_read_what(self):
        self.certify('authority')
        self.certify('client', 'c')
        self.assertEqual(stat.S_IMODE((self.folder / 'a').stat().st_mode), 0o700)
        for path in (self.folder / 'a').iterdir():
            mode = stat.S_IMODE(path.stat().st_mode)
            is_public = path.suffix in ('.pem', '.crl')
            self.assertEqual(mode, 0o644 if is_public else 0o600, path.name)
        self.assertFalse([it for it in (self.folder / 'a').iterdir() if it.is_dir()])

    def test_a_revoked_one(self):
        self.certify('authority')
        for name in ('old', 'kept'):
            self.certify('client', name)
        self.certify('revoke', 'old', told='old is revoked')
        self.assertEqual([self.is_taken(it, 'sslclient') for it in ('old', 'kept')], [False, True])
        self.certify('revoke', 'old', status=1, told='old.pem: it is revoked already')
        self.certify('revoke', 'none', status=1, told='none.pem: there is no such certificate')
        self.certify('revoke', 'authority', status=1, told='this authority has not issued it')
        before = self.text('authority.crl', 'crl')
        self.certify('renew', '--list-days', 5)
        self.assertNotEqual(self.text('authority.crl', 'crl'), before)
        found = self.certify('list').out
        self.assertRegex(found, r'(?s)^revoked  until \d{4}-\d\d-\d\d  /O=Station/CN=old, revoked '
                                r'\d{4}-\d\d-\d\d\nvalid    until \S+  /O=Station/CN=kept\n$')
        self.assertFalse(self.is_taken('old', 'sslclient'))

    def test_nothing_is_overwritten(self):
        self.certify('authority')
        self.certify('client', 'c')
        before = {path.name: path.read_bytes() for path in (self.folder / 'a').iterdir()}
        self.certify('authority', status=1, told='authority.pem: it is there already, and nothing '
                                                 'is overwritten')
        self.certify('client', 'c', status=1, told='there is a valid certificate of that subject')
        self.certify('server', 'c', '--host', 'x', status=1, told='there is a valid certificate')
        (self.folder / 'a' / 'd.key').symlink_to('nowhere')
        self.certify('client', 'd', status=1, told='d.key: it is there already')
        (self.folder / 'a' / 'd.key').unlink()
        after = {path.name: path.read_bytes() for path in (self.folder / 'a').iterdir()}
        self.assertEqual(after, before)

    def test_names(self):
        self.certify('authority')
        for words, told in ((['client', '../c'], '../c is no name'), (['client', ''], 'is no name'),
                            (['client', 'a/CN=b'], 'is no name'), (['client', '-c'], ''),
                            (['client', 'a' * 65], 'is no name'),
                            (['client', 'Authority'], 'is the name of the authority\'s own files'),
                            (['client', 'c', '--unit', 'a/O=b'], 'a/O=b is no unit'),
                            (['server', 's', '--host', 'a,DNS:b'], 'is no host name or address'),
                            (['server', 's', '--host', 'x\ny'], 'is no host name or address'),
                            (['server', 's'], '--host')):
            self.certify(*words, status=2, told=told)
        self.certify('server', 's', '--host', '1.2.3.400', status=3, told='openssl ')
        self.assertFalse([it for it in (self.folder / 'a').glob('s.*')])

    def test_without_an_authority(self):
        for words in (['client', 'c'], ['renew'], ['revoke', 'c'], ['list']):
            self.certify(*words, status=1, told='a: there is no authority: make it first')

    def test_without_openssl(self):
        found = self.run_tool('certify', 'a', 'authority')
        self.assertEqual(found.status, 0)
        (self.folder / 'bin').mkdir()
        one = authority.Authority(str(self.folder / 'a'))
        with mock.patch.dict('os.environ', PATH=str(self.folder / 'bin')):
            with self.assertRaisesRegex(authority.Failed, 'openssl: it is not installed'):
                one.renew(5)


class Days(unittest.TestCase):
    def test_days_of_openssl(self):
        day_of = load_command('certify').day_of
        self.assertEqual([day_of(it) for it in ('271128100705Z', '20501128100705Z',
                                                '261128100707Z,keyCompromise')],
                         ['2027-11-28', '2050-11-28', '2026-11-28'])


if __name__ == '__main__':
    unittest.main()
