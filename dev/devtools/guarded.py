"""stunnel before a served bay, for checks and benches: the configuration of examples/11_networked
with ports and files of their own, and the certificates of a small authority."""
import pathlib
import re
import shutil
import signal
import socket

from baytools.certify.authority import CERTIFICATE, LIST, Authority
from baytools.common.paths import TOP
from baytools.wire import tls

from .served import Running, free_port, until

CONFIGURATION = TOP / 'examples' / '11_networked' / 'stunnel.conf'
NAMES = ('stunnel', 'stunnel4')
READ = 'Configuration successful'  # what stunnel logs at its start, and after SIGHUP
SETTING = re.compile(r'(?m)^(\w+) = .*$')
USERS = ('setuid', 'setgid')  # which only root may set


def missing() -> list[str]:
    """Which programs are not installed that a guarded bay needs."""
    found = [] if shutil.which('openssl') else ['openssl']
    return found + ([] if any(map(shutil.which, NAMES)) else ['stunnel'])


def authority_in(folder: pathlib.Path, *clients: str) -> Authority:
    """An authority, with a server's certificate and those of some clients."""
    found = Authority(str(folder))
    found.make('authority', 'Station', 30, 30, 'ec')
    found.issue('server', 'bay', '', ['localhost', '127.0.0.1'], 30, 'ec')
    for name in clients:
        found.issue('client', name, '', [], 30, 'ec')
    return found


def words_of(authority: Authority, name: str) -> list[str]:
    """The options of a tool that has a certificate."""
    return ['--tls', '--cert', str(authority.path(f'{name}.pem')), '--key',
            str(authority.path(f'{name}.key')), '--ca', str(authority.path(CERTIFICATE))]


def tls_of(authority: Authority, name: str) -> tls.Tls:
    """The same for a client of this process."""
    _, _, cert, _, key, _, trusted = words_of(authority, name)
    return tls.read(cert, key, trusted)


class Door(Running):
    """stunnel, which hands clients on to a port of this machine."""

    def __init__(self, authority: Authority, to: int, settings: dict[str, str] | None = None,
                 port: int | None = None) -> None:
        self.port = port or free_port()
        values = {'accept': f'127.0.0.1:{self.port}', 'connect': f'127.0.0.1:{to}',
                  'cert': authority.path('bay.pem'), 'key': authority.path('bay.key'),
                  'CAfile': authority.path(CERTIFICATE), 'CRLfile': authority.path(LIST)}
        own = {name: str(value) for name, value in values.items()}
        text = configuration_with(own | (settings or {}))
        path = authority.path(f'stunnel.{self.port}.conf')
        path.write_text(text, encoding='utf-8')
        super().__init__(next(filter(None, map(shutil.which, NAMES))), path)
        until(self.is_open, 'stunnel listens')

    def is_open(self) -> bool:
        if self.run.poll() is not None:
            raise RuntimeError(f'stunnel ended: {self.printed()}')
        try:
            socket.create_connection(('127.0.0.1', self.port)).close()
        except ConnectionRefusedError:
            return False
        return True

    def reads_again(self) -> None:
        """Has it read its files anew."""
        before = self.printed().count(READ)
        self.run.send_signal(signal.SIGHUP)
        until(lambda: self.printed().count(READ) > before, 'stunnel has read its files')


def configuration_with(values: dict[str, str]) -> str:
    """The example's configuration with other values for settings that it has."""
    text = CONFIGURATION.read_text(encoding='utf-8')
    known = set(SETTING.findall(text))
    if not set(values) <= known:
        raise ValueError(f'{CONFIGURATION}: {", ".join(set(values) - known)} does not stand there')
    lines = [line for line in text.splitlines() if line.partition(' = ')[0] not in USERS]
    return SETTING.sub(lambda it: f'{it[1]} = {values[it[1]]}' if it[1] in values else it[0],
                       '\n'.join(lines)) + '\n'
