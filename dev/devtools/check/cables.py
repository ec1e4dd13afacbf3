"""A cable that is pulled between a client and the door of a bay: two network namespaces, each with
an end of it, with stunnel and bayctl in one and the client in the other. As a program this module
is the client: python3 -m checking.cables HOST PORT CERT KEY CA."""
import contextlib
import os
import pathlib
import shutil
import subprocess
import sys
import time
from collections.abc import Iterator

from baytools.certify.authority import CERTIFICATE, LIST, Authority
from baytools.wire import tls
from baytools.wire.client import Client
from devtools.guarded import NAMES, READ, authority_in, configuration_with
from devtools.paths import MODULES
from devtools.served import Running

from .panels import SERVED

NEAR, FAR = '10.255.255.1', '10.255.255.2'  # the addresses of the two ends
CLIENTS, DOOR = 10_102, 3_782
TOLD, TOO_SOON = 40, 5  # seconds within which the server is to be told, and a pause of a client


def ip(*words: str) -> subprocess.CompletedProcess:
    return subprocess.run(('ip', *words), capture_output=True, text=True, timeout=60)


class Cable:
    """Two namespaces and the cable between them."""

    def __init__(self) -> None:
        self.near, self.far = (f'bayctl-{end}-{os.getpid()}' for end in ('near', 'far'))

    def lay(self) -> str:
        """Lays it; why it can't be had, or nothing."""
        if not shutil.which('ip'):
            return 'ip is not installed'
        ends = {self.near: ('near0', NEAR), self.far: ('far0', FAR)}
        steps = [['netns', 'add', self.near], ['netns', 'add', self.far],
                 ['-n', self.near, 'link', 'add', 'near0', 'type', 'veth', 'peer', 'name', 'far0',
                  'netns', self.far]]
        for name, (link, address) in ends.items():
            steps += [['-n', name, 'addr', 'add', f'{address}/30', 'dev', link],
                      ['-n', name, 'link', 'set', link, 'up'],
                      ['-n', name, 'link', 'set', 'lo', 'up']]
        for step in steps:
            done = ip(*step)
            if done.returncode:
                return f'`ip {" ".join(step[:4])}` is refused ({done.stderr.strip()})'
        return ''

    def pull(self) -> None:
        """Nothing comes through any more, and neither end gets a sign of it."""
        done = ip('-n', self.far, 'link', 'set', 'far0', 'down')
        if done.returncode:
            raise RuntimeError(done.stderr)

    def remove(self) -> None:
        for name in (self.near, self.far):
            ip('netns', 'delete', name)

    def run_at(self, end: str, *words: object) -> Running:
        """Starts a program at one end."""
        return Running('ip', 'netns', 'exec', end, *words, env=os.environ | {
            'PYTHONPATH': MODULES, 'PYTHONDONTWRITEBYTECODE': '1'})


@contextlib.contextmanager
def lay_cable(checks) -> Iterator[Cable | None]:
    """A cable that is laid for the block; or None, if this system allows none, which counts as not
    tried."""
    cable = Cable()
    try:
        why = cable.lay()
        if why:
            checks.left_out(why, 'a cable that is pulled')
        yield None if why else cable
    finally:
        cable.remove()


def door_of(authority: Authority) -> pathlib.Path:
    """The configuration of stunnel at the near end."""
    values = {'accept': f'{NEAR}:{DOOR}', 'connect': f'127.0.0.1:{CLIENTS}',
              'cert': authority.path('bay.pem'), 'key': authority.path('bay.key'),
              'CAfile': authority.path(CERTIFICATE), 'CRLfile': authority.path(LIST)}
    path = pathlib.Path(authority.path('stunnel.conf'))
    text = configuration_with({name: str(it) for name, it in values.items()})
    path.write_text(text, encoding='utf-8')
    return path


def client_at(cable: Cable, end: str, authority: Authority) -> Running:
    """Starts a client at an end, which opens an association, prints `open`, and is silent."""
    files = [authority.path(name) for name in ('panel.pem', 'panel.key', CERTIFICATE)]
    return cable.run_at(end, sys.executable, '-m', 'devtools.check.cables', NEAR, DOOR, *files)


def check_pulled_cable(checks) -> None:
    """The server closes the association of a client whose cable was pulled, and keeps that of a
    silent client."""
    with lay_cable(checks) as cable:
        if cable:
            folder = checks.folder / 'cable'
            folder.mkdir()
            check_clients(checks, cable, authority_in(folder, 'panel'))


def check_clients(checks, cable: Cable, authority: Authority) -> None:
    words = ['serve', '--bay', SERVED / 'bay.toml', '--logic', SERVED / 'logic.il', '--port',
             CLIENTS, '--turns', 1_000_000, '--log']
    stunnel = next(filter(None, map(shutil.which, NAMES)))
    with (cable.run_at(cable.near, checks.bayctl, *words) as server,
          cable.run_at(cable.near, stunnel, door_of(authority)) as door):
        server.waits_for('instructions=')
        door.waits_for(READ)
        with client_at(cable, cable.far, authority) as far:
            far.waits_for('open')
            with client_at(cable, cable.near, authority) as near:
                near.waits_for('open')
                time.sleep(TOO_SOON)
                cable.pull()
                begun, closed = time.monotonic(), 'association 1 closed'
                with contextlib.suppress(TimeoutError):
                    while time.monotonic() - begun < TOLD and closed not in server.printed():
                        time.sleep(0.2)
                spent = time.monotonic() - begun
                checks.holds('a client whose cable was pulled keeps its association',
                             closed in server.printed(), f'{spent:.0f} s: {server.printed()}')
                checks.holds('a client that is silent loses its association',
                             'association 2 open' in server.printed()
                             and 'association 2 closed' not in server.printed(),
                             f'{spent:.0f} s: {server.printed()}')


def hold(host: str, port: str, cert: str, key: str, authority: str) -> None:
    """Opens an association, and is silent."""
    asked = tls.read(cert, key, authority, name='localhost')
    client = Client(host, int(port), on_report=lambda told: None, tls=asked)
    print('open', client.port, flush=True)
    time.sleep(3600)


if __name__ == '__main__':
    hold(*sys.argv[1:])
