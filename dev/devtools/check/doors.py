"""A bay behind stunnel, as examples/11_networked has it: who has a certificate reads and operates,
and no octet of anybody else reaches the bay. Each check has the name of the wrong behaviour that it
refuses."""
import contextlib
import re
import socket
import ssl
import sys
import time
import warnings
from collections.abc import Callable, Iterator
from dataclasses import dataclass

from baytools.bay.names import Names
from baytools.certify.authority import LIST, SETTINGS, Authority
from baytools.common.paths import TOOLS
from baytools.wire import stream
from baytools.wire.client import Client
from devtools.guarded import Door, authority_in, missing, tls_of, words_of
from devtools.served import PATIENCE, Running, Server, free_port, until, value

from .cables import check_pulled_cable
from .panels import SERVED, Page, gear
from .reachable import packets

BAY, LOGIC = SERVED / 'bay.toml', SERVED / 'logic.il'
CLOSED, QA1 = '10', 'XCBR1$ST$Pos$stVal'
NEW, OLD = ssl.TLSVersion.TLSv1_3, ssl.TLSVersion.TLSv1_2
TOO_OLD = ssl.TLSVersion.TLSv1_1
SETTLED = 0.5  # seconds in which a server logs what has come


@dataclass
class Guarded:
    """A served bay, stunnel before it, and the authority of both."""
    server: Server
    door: Door
    authority: Authority
    other: Authority

    def opens(self) -> int:
        """How many associations the bay was asked for."""
        return len(re.findall(r'(?m)^\S+ association \d open from ', self.server.printed()))

    def client(self, name: str) -> Client:
        return Client('127.0.0.1', self.door.port, Names(BAY.read_text(encoding='utf-8')),
                      on_report=lambda told: None, tls=tls_of(self.authority, name))


@contextlib.contextmanager
def guarded_bay(checks, name: str) -> Iterator[Guarded]:
    """The bay of the example that is served, with its switchgear, behind stunnel."""
    folder = checks.folder / name
    folder.mkdir()
    authority = authority_in(folder / 'own', 'operator', 'panel', 'old')
    authority.revoke('old', 30)
    other = authority_in(folder / 'other', 'operator')
    with Server(checks.bayctl, BAY, LOGIC, '--log', with_process=True) as server:
        first = server.client()
        with gear(server), Door(authority, server.port) as door:
            until(lambda: value(first, QA1) == CLOSED, 'the switchgear has told all')
            first.close()
            yield Guarded(server, door, authority, other)


def context_of(authority: Authority | None, name: str, least=OLD, most=NEW) -> ssl.SSLContext:
    """A client that holds to no rule: it takes any server, and any version."""
    found = ssl.SSLContext(ssl.PROTOCOL_TLS_CLIENT)
    found.check_hostname, found.verify_mode = False, ssl.CERT_NONE
    if most == TOO_OLD:
        found.set_ciphers('ALL:@SECLEVEL=0')
    with warnings.catch_warnings():
        warnings.simplefilter('ignore')
        found.minimum_version, found.maximum_version = least, most
    if authority:
        found.load_cert_chain(authority.path(f'{name}.pem'), authority.path(f'{name}.key'))
    return found


def knock(port: int, context: ssl.SSLContext | None, octets: bytes = b'') -> bytes:
    """Asks for a transport connection, and gives what is answered."""
    one: socket.socket
    with contextlib.suppress(OSError), socket.create_connection(('127.0.0.1', port)) as plain:
        plain.settimeout(PATIENCE)
        with context.wrap_socket(plain) if context else plain as one:
            one.sendall(octets or stream.connection_request())
            return one.recv(100)
    return b''


def strangers(checks, own: Authority,
              other: Authority) -> list[tuple[str, Callable[[], object], bytes]]:
    """Those that must not reach the bay, each with the octets that it sends."""
    http = b'GET / HTTP/1.1\r\n\r\n'
    found: list[tuple[str, Callable[[], object], bytes]] = [
        ('in the clear', lambda: None, b''), ('by HTTP', lambda: None, http)]
    if ssl.HAS_TLSv1_1:
        found.append(('by TLS 1.1', lambda: context_of(own, 'operator', TOO_OLD, TOO_OLD), b''))
    else:
        checks.left_out('this Python has no TLS 1.1', 'a client by TLS 1.1')
    for version in (OLD, NEW):
        for name, whose, file in (('without a certificate', None, ''),
                                  ('with a revoked certificate', own, 'old'),
                                  ('with a certificate of another authority', other, 'operator'),
                                  ('with the certificate of a server', own, 'bay')):
            found.append((f'{name}, by {version.name}', lambda whose=whose, file=file, most=version:
                          context_of(whose, file, OLD, most), b''))
    return found


def let_in(checks) -> None:
    """Clients with a certificate read and operate; nobody else reaches the bay; the log tells."""
    with guarded_bay(checks, 'doors') as it:
        reads(checks, it)
        first = it.opens()
        for name, context, octets in strangers(checks, it.authority, it.other):
            before, answer = it.opens(), knock(it.door.port, context(), octets)
            checks.holds(f'a client {name} is answered', answer in (b'', alert(answer)),
                         f'{answer!r}')
            time.sleep(0.1)
            checks.holds(f'a client {name} reaches the bay', it.opens() == before,
                         it.server.printed())
        time.sleep(SETTLED)
        checks.holds('a client without a certificate that counts reaches the bay',
                     it.opens() == first, it.server.printed())
        in_its_words(checks, it)
        joined_logs(checks, it)
        panel_names_certificate(checks, it)
        gone_through(checks, it)


def alert(answer: bytes) -> bytes:
    """An answer, where it is an alert of TLS, or of HTTP that it is none."""
    return answer if answer[:2] == b'\x15\x03' else b''


def reads(checks, it: Guarded) -> None:
    """By both versions of TLS, and with both ends of an operate."""
    asked = ['--bay', BAY, *words_of(it.authority, 'operator'), it.door.port]
    words = [str(word) for word in asked]
    checks.wants('a client by TLS', *checks.run('client', *words, 'read', QA1),
                 [f'{QA1} (QA1) = closed'], 0)
    checks.wants('an operate by TLS', *checks.run('client', *words, 'operate', 'QB1', 'open'),
                 ['operate QB1 is refused: blocked by interlocking (10)'])
    checks.wants('an operate by TLS', *checks.run('client', *words, 'operate', 'QA1', 'open'),
                 ['select QA1: done', 'operate QA1: accepted', 'operate QA1: done: open'], 0)
    for version in (OLD, NEW):
        before = it.opens()
        answer = knock(it.door.port, context_of(it.authority, 'operator', version, version))
        is_open = bool(until(lambda: it.opens() == before + 1, 'an association is open'))
        checks.holds(f'a client by {version.name} is refused', is_open and answer[5:6] == b'\xd0',
                     f'{answer!r}')


def in_its_words(checks, it: Guarded) -> None:
    """What tools/client says where it is refused."""
    words = ['--timeout', '5', *words_of(it.authority, 'old'), str(it.door.port), 'browse']
    checks.wants('a revoked client', *checks.run('client', *words),
                 ['the server says that this certificate is revoked'], 3)
    wrong = [*words_of(it.authority, 'operator')[:-1], str(it.other.path('authority.pem'))]
    checks.wants('a client of another station', *checks.run(
        'client', *wrong, str(it.door.port), 'browse'), ['the server\'s certificate is not taken'],
        3)


def gone_through(checks, it: Guarded) -> None:
    """The checklist, as on another machine."""
    words = ['from', '127.0.0.1', '--port', str(it.door.port), '--closed']
    checks.wants('the checklist', *checks.run(
        'checklist', *words, str(free_port()), *words_of(it.authority, 'old')),
        ['1. good: ', '2. good: ', 'a client without a certificate is refused: ',
         *['3. good: '] * ssl.HAS_TLSv1_1, '4. good: ', 'certificate is revoked'],
        0 if ssl.HAS_TLSv1_1 else 4)
    checks.wants('the checklist of a bay that is open', *checks.run(
        'checklist', *words, str(it.server.port), *words_of(it.authority, 'operator')),
        ['1. WRONG: ', 'IT IS REACHED', '4. WRONG: ', 'CN=operator IS SERVED'], 1)


def joined_logs(checks, it: Guarded) -> None:
    """tools/log joins both logs."""
    files = [checks.file('server.log', it.server.printed()),
             checks.file('door.log', it.door.printed())]
    checks.wants('the log of a guarded bay', *checks.run('log', *files), [
        '[O=Station, CN=operator] operate QA1 open (orIdent operator): done',
        '[O=Station, CN=operator] operate QB1 open (orIdent operator): refused (10)',
        'command: open QA1', 'it showed no certificate',
        *['its version of TLS is too old'] * ssl.HAS_TLSv1_1, 'it speaks no TLS',
        'certificate revoked; it showed a certificate of O=Station, CN=old',
        'no certificate, from 127.0.0.1: 1 association'], 0)
    page = checks.folder / 'day.html'
    checks.wants('the page of a log', *checks.run('log', *files, '--html', page), [], 0)
    checks.wants('the page of a log', page.read_text(encoding='utf-8'), 0,
                 ['O=Station, CN=operator', 'operate QA1 open (orIdent operator): done'], 0)


def panel_names_certificate(checks, it: Guarded) -> None:
    """A panel by TLS names its certificate, and operates."""
    words = [sys.executable, '-B', TOOLS / 'panel', '--bay', BAY, it.door.port, '--http', '0',
             '--operate', *words_of(it.authority, 'panel')]
    with Running(*words) as running:
        found = re.search(r'http://127\.0\.0\.1:(\d+)/', running.waits_for('/\n'))
        with Page(int(found[1])) as page:
            checks.wants('a panel by TLS', page.text, 0, ['as O=Station, CN=panel, by TLS'], 0)
            state = page.known(lambda it: it['connected'] and it['switches'])
            checks.wants('a panel by TLS', state['told'], 0, ['of O=Station, CN=bay'], 0)
            said = (page.send_control('select', 'QA1', 'close')
                    + page.send_control('operate', 'QA1', 'close'))
            checks.wants('an operate of a panel by TLS', said, 0, ['the command is given'], 0)
    checks.holds('a panel by TLS does not say who it is', 'orIdent=panel' in it.server.printed(),
                 it.server.printed())


def revocations(checks) -> None:
    """What a new revocation list does to those who come, and to those who are there."""
    with guarded_bay(checks, 'lists') as it:
        held = it.client('panel')
        it.authority.revoke('panel', 30)
        it.door.reads_again()
        before = it.opens()
        answer = knock(it.door.port, context_of(it.authority, 'panel'))
        time.sleep(SETTLED)
        checks.holds('a new revocation list is not read', not answer and it.opens() == before,
                     f'{answer!r}, {it.server.printed()}')
        checks.holds('a new list ends who is there, as examples/11_networked says it does not',
                     value(held, QA1) != '', it.server.printed())
        out_of_date(checks, it)
        it.door.run.terminate()
        it.door.run.wait(PATIENCE)
        ended = until(lambda: re.search(r'(?m)^\S+ association \d closed ', it.server.printed()
                                        .partition('open from ')[2]), 'the association is closed')
        checks.holds('an end of stunnel leaves an association', bool(ended), it.server.printed())
        held.socket.close()


def out_of_date(checks, it: Guarded) -> None:
    """A list whose time is over lets nobody in."""
    it.authority.openssl('ca', '-config', SETTINGS, '-gencrl', '-crlsec', '1', '-out', LIST)
    time.sleep(2)
    it.door.reads_again()
    before = it.opens()
    answer = knock(it.door.port, context_of(it.authority, 'operator'))
    time.sleep(SETTLED)
    checks.holds('a list that is out of date lets somebody in',
                 not answer and it.opens() == before and 'CRL has expired' in it.door.printed(),
                 it.door.printed())


def all_of(checks) -> None:
    """Does all of it, where it can be done."""
    checks.run_part(packets)
    absent = missing()
    if absent:
        are = 'is' if len(absent) == 1 else 'are'
        checks.left_out(f'{" and ".join(absent)} {are} not installed', 'a bay behind stunnel')
        return
    for part in (let_in, revocations, check_pulled_cable):
        checks.run_part(part)
