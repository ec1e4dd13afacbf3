"""The nftables table of examples/11_networked: its syntax is right, and, in a network namespace of
its own, it lets only its users reach the two ports. As a program this module is what runs in the
namespace: python3 -m checking.reachable FILE."""
import os
import re
import shutil
import socket
import subprocess
import sys

from baytools.common.paths import TOP
from devtools.paths import MODULES

TABLE = TOP / 'examples' / '11_networked' / 'bay.nft'
CLIENTS, DRIVERS, NEITHER = 61_001, 61_002, 61_003  # users, by their numbers
PORTS = {'clients': 10_102, 'process': 10_103}
WANTED = {(CLIENTS, 'clients'), (DRIVERS, 'process')}
USERS = {'clients': CLIENTS, 'drivers': DRIVERS}


def with_users(text: str) -> str:
    """The table with users that need not exist."""
    for name, number in USERS.items():
        text, count = re.subn(rf'(?m)^define {name} = \{{.*\}}$', f'define {name} = {{ {number} }}',
                              text)
        if count != 1:
            raise ValueError(f'{TABLE}: there is no one line `define {name}`')
    return text


def run_check(*words: str, given: str = '') -> subprocess.CompletedProcess[str]:
    return subprocess.run(words, input=given, capture_output=True, text=True, timeout=60)


def packets(checks) -> None:
    """The syntax of the table, and what it does."""
    text = with_users(TABLE.read_text(encoding='utf-8'))
    if not shutil.which('nft') or run_check('nft', 'list', 'tables').returncode:
        checks.left_out('nftables is not installed or may not be asked', 'who reaches the ports')
        return
    done = run_check('nft', '-c', '-f', '-', given=text)
    checks.holds('the table of nftables is refused', done.returncode == 0, done.stderr)
    if not all(map(shutil.which, ('unshare', 'ip'))) or run_check(
            'unshare', '--net', 'nft', 'list', 'tables').returncode:
        checks.left_out('there may be no network namespace', 'who reaches the ports')
        return
    path = checks.file('bay.nft', text)
    words = ['unshare', '--net', sys.executable, '-B', '-m', 'devtools.check.reachable', path]
    done = subprocess.run(words, capture_output=True, text=True, timeout=60,
                          env={**os.environ, 'PYTHONPATH': MODULES})
    said = dict(line.rsplit(' ', 1) for line in done.stdout.splitlines())
    for user in (0, *USERS.values(), NEITHER):
        for port in PORTS:
            for is_there, wanted in (('before', True), ('behind', (user, port) in WANTED)):
                found = said.get(f'{is_there} {user} {port}')
                name = 'reaches not' if wanted else 'reaches'
                checks.holds(f'user {user} {name} the port of the {port}, {is_there} the table',
                             found == ('reached' if wanted else 'refused'), f'{found} {done}')


def tries(user: int, port: int) -> str:
    """Whether a user reaches a port: a child of this process becomes him."""
    reading, writing = os.pipe()
    child = os.fork()
    if child == 0:
        os.setuid(user)
        os.write(writing, reachable_names(port).encode())
        os._exit(0)
    os.close(writing)
    with open(reading, encoding='ascii') as file:
        told = file.read()
    os.waitpid(child, 0)
    return told


def reachable_names(port: int) -> str:
    try:
        with socket.socket() as one:
            one.settimeout(5)
            one.connect(('127.0.0.1', port))
            one.sendall(b'x')
        return 'reached'
    except ConnectionRefusedError:
        return 'refused'
    except OSError as error:
        return type(error).__name__


def inside(path: str) -> None:
    """In a namespace: who reaches what before the table is loaded, and behind that."""
    subprocess.run(['ip', 'link', 'set', 'lo', 'up'], check=True)
    servers = [socket.create_server(('127.0.0.1', port)) for port in PORTS.values()]
    for is_there in ('before', 'behind'):
        for user in (0, *USERS.values(), NEITHER):
            for name, port in PORTS.items():
                print(is_there, user, name, tries(user, port), flush=True)
        for _ in range(2):  # the second one takes the place of the first
            subprocess.run(['nft', '-f', path], check=True)
    for server in servers:
        server.close()


if __name__ == '__main__':
    inside(sys.argv[1])
