"""Clients and panels by TLS: with a certificate, without, with one that is revoked, or of another
authority; servers that are none; and whose a certificate is."""
import socket
import ssl
import struct
import subprocess
import time
import tomllib
import unittest
import warnings

from baytools.panel.boxes import draw
from baytools.panel.operating import Operator
from baytools.panel.watch import Watcher
from baytools.panel.web import Pages
from baytools.wire import ber, tls
from tests.tool import Tools
from tests.tools.loopback import needs_loopback
from tests.tools.test_client import serve_once
from tests.tools.test_same_bay import FILE, Model, Server
from tests.tools.trust import door, door_context, needs_openssl, trust


def files(name='operator', authority='a', trusted='a') -> list[str]:
    """The options of a client with this certificate, which trusts an authority."""
    folder = trust()
    return ['--tls', '--cert', folder / authority / f'{name}.pem', '--key',
            folder / authority / f'{name}.key', '--ca', folder / trusted / 'authority.pem']


@needs_openssl
@needs_loopback
class Clients(Tools):
    def run_client(self, options, *words, context=None, seen=None):
        """What a client prints that asks a bay behind TLS, and what reached the bay."""
        reached = []

        def act(connection):
            reached.append(connection.getpeername())
            Server(seen or Model(FILE))(connection)

        with door(act, context or door_context()) as port:
            found = self.call_tool('client', '--timeout', 3, *options, port,
                                   *(words or ('read', 'CSWI1$ST$Pos$stVal')))
        return found, reached

    def refuse(self, options, told, **more):
        """Nothing reaches the bay, and the client says why in one line."""
        found, reached = self.run_client(options, **more)
        self.assertEqual((found.status, found.out, found.error.count('\n'), reached),
                         (3, '', 1, []), found)
        self.assertIn(told, found.error)

    def test_with_a_certificate(self):
        model = Model(FILE)
        for most in (ssl.TLSVersion.TLSv1_2, ssl.TLSVersion.TLSv1_3):
            found, reached = self.run_client([*files(), '--crl', trust() / 'a' / 'authority.crl'],
                                             context=door_context(most=most), seen=model)
            self.assertEqual((found.out, found.status, len(reached)),
                             ('CSWI1$ST$Pos$stVal = closed\n', 0, 1), found)
        bay = self.file('bay.toml', FILE)
        found, _ = self.run_client([*files(), '--bay', bay], 'operate', 'QB1', 'close', seen=model)
        self.assertEqual((found.out, found.status),
                         ('operate QB1: accepted\noperate QB1: done: closed\n', 0), found)

    def test_a_key_in_the_file_of_the_certificate(self):
        one = self.file('one.pem', b''.join((trust() / 'a' / f'operator.{it}').read_bytes()
                                            for it in ('key', 'pem')))
        options = ['--tls', '--cert', one, '--ca', trust() / 'a' / 'authority.pem']
        self.assertEqual(self.run_client(options)[0].status, 0)

    def test_a_revoked_one(self):
        self.refuse(files('old'), 'the server says that this certificate is revoked')

    def test_one_of_another_authority(self):
        self.refuse(files(authority='b'), 'the server does not know the authority')

    def test_a_server_is_no_client(self):
        self.refuse(files('bay'), 'the server says that this certificate is none of a client')

    def test_none(self):
        """Without one, in the clear, and by TLS 1.1."""
        with door(self.fail, door_context()) as port:
            for most in (None, *[ssl.TLSVersion.TLSv1_1] * ssl.HAS_TLSv1_1):
                with self.assertRaises(ssl.SSLError):
                    self.connect_by(port, most)
            found = self.call_tool('client', '--timeout', 3, port, 'browse')
        self.assertEqual(found.status, 3)
        self.assertRegex(found.error, 'needs --tls|closed the connection')

    def test_a_connection_that_is_reset(self):
        def reset(connection):
            connection.setsockopt(socket.SOL_SOCKET, socket.SO_LINGER, struct.pack('ii', 1, 0))

        server = serve_once(reset)
        found = self.call_tool('client', '--timeout', 3, server.getsockname()[1], 'browse')
        server.close()
        self.assertRegex(found.error, 'Connection reset by peer|Broken pipe|closed')
        self.assertEqual((found.status, found.error.count('\n')), (3, 1))

    def test_an_alert_of_tls(self):
        server = serve_once(lambda connection: connection.sendall(b'\x15\x03\x01\0\2\2\x46'))
        found = self.call_tool('client', '--timeout', 3, server.getsockname()[1], 'browse')
        server.close()
        self.assertIn('it answers with an alert of TLS: this is a port of TLS, which needs --tls',
                      found.error)

    def connect_by(self, port, most):
        """Connects by a version of TLS that our server refuses; or, without a version, without a
        certificate."""
        context = ssl.SSLContext(ssl.PROTOCOL_TLS_CLIENT)
        context.check_hostname, context.verify_mode = False, ssl.CERT_NONE
        if most is not None:
            folder = trust() / 'a'
            context.load_cert_chain(folder / 'operator.pem', folder / 'operator.key')
            context.set_ciphers('ALL:@SECLEVEL=0')
            with warnings.catch_warnings():
                warnings.simplefilter('ignore')
                context.minimum_version, context.maximum_version = ssl.TLSVersion.TLSv1, most
        with socket.create_connection(('127.0.0.1', port), 3) as plain, \
                context.wrap_socket(plain) as one:
            one.recv(1)

    def test_servers_that_are_none(self):
        self.refuse(files(trusted='b'), 'the server\'s certificate is not taken: ')
        self.refuse([*files(), '--server-name', 'bay-e06'],
                    'certificate is not valid for \'bay-e06\'')
        if not ssl.HAS_TLSv1_1:
            return
        with warnings.catch_warnings():
            warnings.simplefilter('ignore')
            old = door_context(ssl.TLSVersion.TLSv1, ssl.TLSVersion.TLSv1_1)
            old.set_ciphers('ALL:@SECLEVEL=0')
        self.refuse(files(), 'the server has no version of TLS that is asked for', context=old)

    def test_a_name_in_place_of_the_host(self):
        found, _ = self.run_client([*files(), '--server-name', 'localhost'])
        self.assertEqual(found.status, 0)
        found, reached = self.run_client([*files(), '--server-name', '.'])
        self.assertEqual((found.status, found.error, reached),
                         (2, 'client: . is no name of a server\n', []))

    def test_a_server_that_is_revoked(self):
        folder = trust() / 'b'
        context = ssl.SSLContext(ssl.PROTOCOL_TLS_SERVER)
        context.load_cert_chain(folder / 'bay.pem', folder / 'bay.key')
        listed = [*files(trusted='b'), '--crl', folder / 'authority.crl']
        self.assertEqual(self.run_client(listed, context=context)[0].status, 0)
        wrong = [*files(trusted='b'), '--crl', trust() / 'a' / 'authority.crl']
        self.refuse(wrong, 'unable to get certificate CRL', context=context)

    def test_ports_of_no_tls(self):
        for octets, told in ((b'no TLS\r\n', 'no TLS is spoken there'),
                             (b'', 'the server ended the handshake: is it a port of TLS?')):
            server = serve_once(
                lambda connection: (connection.recv(999), connection.sendall(octets)))
            found = self.call_tool('client', '--timeout', 3, *files(), server.getsockname()[1],
                                   'browse')
            server.close()
            self.assertEqual((found.status, found.out), (3, ''))
            self.assertIn(told, found.error)

    def test_a_port_that_says_nothing(self):
        server = serve_once(lambda connection: time.sleep(2))
        found = self.call_tool('client', '--timeout', 0.4, *files(), server.getsockname()[1],
                               'browse')
        server.close()
        self.assertEqual(found.status, 3)
        self.assertIn('nothing is answered', found.error)

    def test_the_identity_of_a_control(self):
        """The CN of the certificate, or what is given."""
        bay = self.file('bay.toml', FILE)
        for more, ident in (([], b'operator'), (['--originator', 'A'], b'A')):
            model = Noted(FILE)
            self.run_client([*files(), '--bay', bay], 'operate', 'QB1', 'close', *more, seen=model)
            self.assertEqual(model.idents, {ident})


class Noted(Model):
    """A bay that notes each orIdent."""

    def __init__(self, text) -> None:
        super().__init__(text)
        self.idents = set()

    def __call__(self, pdu):
        if pdu.service == 'write':
            self.idents.add(pdu.data[0].value[1].value[1].value)
        return super().__call__(pdu)


@needs_openssl
class Words(Tools):
    def test_words_that_make_no_sense(self):
        pem = trust() / 'a' / 'operator.pem'
        for words, told in ((['--cert', pem], '--cert says nothing without --tls'),
                            (['--server-name', 'x'], '--server-name says nothing without --tls'),
                            (['--tls'], '--tls needs --cert FILE'),
                            (['--tls', '--cert', pem], '--tls needs --ca FILE')):
            found = self.call_tool('client', *words, 1, 'browse')
            self.assertEqual((found.status, found.error), (2, f'client: {told}\n'))

    def test_files(self):
        folder, locked = trust() / 'a', self.make_locked_key()
        pem, key, ca = (folder / it for it in ('operator.pem', 'operator.key', 'authority.pem'))
        odd = self.file('odd', b'-----BEGIN CERTIFICATE-----\nMAA=\n-----END CERTIFICATE-----\n')
        for cert, own, authority, told in (
                ('none', key, ca, 'none: No such file or directory'),
                (pem, 'none', ca, 'none: No such file or directory'),
                (pem, key, 'none', 'none: No such file or directory'),
                (key, key, ca, 'operator.key: there is no certificate (PEM)'),
                (odd, key, ca, 'odd: the certificate can\'t be read'),
                (pem, None, ca, 'operator.pem: no key can be read'),
                (pem, folder / 'bay.key', ca, 'bay.key: its key is not that of the certificate'),
                (pem, locked, ca, 'locked: its key has a passphrase, which is not asked for'),
                (pem, key, key, 'operator.key: no certificate or revocation list can be read')):
            more = ['--key', own] if own else []
            found = self.call_tool('client', '--tls', '--cert', cert, *more, '--ca', authority, 1,
                                   'browse')
            self.assertEqual((found.status, found.error.count('\n')), (3, 1), found)
            self.assertIn(told, found.error)

    def make_locked_key(self):
        """A key with a passphrase."""
        path = self.folder / 'locked'
        subprocess.run(['openssl', 'ec', '-in', trust() / 'a' / 'operator.key', '-aes128',
                        '-passout', 'pass:secret', '-out', path], capture_output=True, check=True)
        return path


class Subjects(unittest.TestCase):
    def test_names_and_values(self):
        def part(oid, tag, value):
            return ber.element(0x31, ber.element(0x30, ber.element(6, oid),
                                                 ber.element(tag, value)))

        name = ber.element(0x30, part(b'\x55\x04\x0a', 0x0C, 'Stätion, A'.encode()),
                           part(b'\x2a\x03', 0x13, b'x\n'),
                           part(b'\x55\x04\x03', 0x1E, 'é'.encode('utf-16-be')))
        for version in (ber.element(0xA0, ber.number(2, 2)), b''):
            fields = version, ber.number(2, 1), *[ber.element(0x30)] * 3, name
            octets = ber.element(0x30, ber.element(0x30, *fields), ber.element(0x30))
            found = tls.subject_of(octets)
            self.assertEqual(found, [('O', 'Stätion, A'), ('oid.2a03', 'x\n'), ('CN', 'é')])
            self.assertEqual(tls.subject_text(found), 'O="Stätion, A", oid.2a03="x\\\\n", CN=é')
        for odd in (b'', b'\x30', ber.element(0x30), ber.element(0x30, ber.element(0x30))):
            with self.assertRaises(ber.Unreadable):
                tls.subject_of(odd)

    def test_identities_have_64_octets(self):
        for name, told in (('a' * 70, 'a' * 64), ('é' * 40, 'é' * 32), ('é' * 31 + 'abé', 'é' * 31
                                                                        + 'ab')):
            self.assertEqual(tls.Tls(None, [('O', 'x'), ('CN', name)]).identity(), told)
        self.assertEqual(tls.Tls(None, [('O', 'x')]).identity(), '')


@needs_openssl
@needs_loopback
class Panels(unittest.TestCase):
    def test_the_page_names_the_certificate(self):
        folder, model = trust() / 'a', Noted(FILE)
        own = tls.read(*(str(folder / it) for it in ('operator.pem', 'operator.key',
                                                     'authority.pem')))
        file = tomllib.loads(FILE)
        with door(Server(model), door_context()) as port:
            watcher = Watcher(file, FILE, '127.0.0.1', port, False, own)
            watcher.connect()
            self.addCleanup(watcher.client.close)
            self.assertEqual(watcher.state['told'],
                             f'connected to port {port} of O=Station A, CN=bay')
            operator = Operator(watcher)
            operator.page_comes('p')
            operator.act('select', 'QB1', 'close', 'p')
            self.assertTrue(operator.act('operate', 'QB1', 'close', 'p')['good'])
        self.assertEqual(model.idents, {b'operator'})
        pages = Pages(0, watcher, draw(file['switch']))
        self.addCleanup(pages.server_close)
        self.assertIn('as O=Station A, OU=Control, CN=operator, by TLS', pages.page())


if __name__ == '__main__':
    unittest.main()
