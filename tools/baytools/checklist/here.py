"""The steps on the machine of a bay, whose files are where examples/12_station puts them."""
import datetime
import os
import pathlib
import pwd
import re
import socket
import stat
import sys
from dataclasses import dataclass

from baytools.common import page_head
from baytools.common.ending import Failed
from baytools.common.paths import TOOLS
from baytools.station.bays import settings_of

from .steps import OPEN, Step, Verdict, verdict_of, run_program

TRUST = pathlib.Path('/etc/stunnel/bay')  # where stunnel.conf has its certificates
LISTENS, LOCAL = '0A', ('0100007F',)  # of /proc/net/tcp: a state, and 127.0.0.1
DATE = '%b %d %H:%M:%S %Y %Z'
NOBODY = 'nobody'
REACHED, REFUSED, UNTRIED = range(3)  # how a child ends that tries a port
OPTIONS = ('--supervise', '--key', '--rules', '--log')
DIAGRAM = 'diagram.toml'
SUBJECT = re.compile(r'\[[^\]]*CN=[^\]]*\] operate .*')
SUM = re.compile(r'diagram SHA-256 ([0-9a-f]{64}), (\d+) hold', re.ASCII)


@dataclass(frozen=True)
class Machine:
    """A bay by its folder, and what is looked at beside it."""
    folder: pathlib.Path
    rules: str | None
    bayctl: str
    process: pathlib.Path = pathlib.Path('/proc')
    trust: pathlib.Path = TRUST

    def ports(self) -> tuple[int, int]:
        """Those of clients and process."""
        found = settings_of(self.folder / 'env')
        try:
            return int(found['PORT']), int(found['PROCESS'])
        except (KeyError, ValueError):
            raise Failed(f'{self.folder / "env"}: it must have PORT=.. and PROCESS=..') from None

    # Ports.

    def listening(self) -> Verdict:
        """Both ports on 127.0.0.1, and on no other address."""
        wanted, found = set(self.ports()), []
        for name in ('tcp', 'tcp6'):
            path = self.process / 'net' / name
            for line in path.read_text().splitlines()[1:] if path.exists() else ():
                address, port = line.split()[1].split(':')
                if line.split()[3] == LISTENS and int(port, 16) in wanted:
                    found.append((int(port, 16), name == 'tcp' and address in LOCAL))
        missing = wanted - {port for port, _ in found}
        told = [f'port {port}: on {"127.0.0.1" if is_local else "ANOTHER ADDRESS"}'
                for port, is_local in sorted(found)]
        told += [f'port {port}: nobody listens' for port in sorted(missing)]
        return verdict_of(not missing and all(is_local for _, is_local in found), '\n'.join(told))

    def by_others(self) -> Verdict:
        """Another user of the machine reaches neither port."""
        if os.geteuid():
            raise Failed(f'only root can look as {NOBODY}')
        found = [(port, reached_by(pwd.getpwnam(NOBODY).pw_uid, port)) for port in self.ports()]
        return verdict_of(not any(is_reached for _, is_reached in found), '\n'.join(
            f'port {port}: {NOBODY} {"REACHES IT" if is_reached else "does not reach it"}'
            for port, is_reached in found))

    # Files.

    def clock(self) -> Verdict:
        """The clock is set, and the revocation list is valid."""
        _, synchronized = run_program(['timedatectl', 'show', '-p', 'NTPSynchronized', '--value'])
        status, told = run_program(['openssl', 'crl', '-in', self.trust / 'authority.crl', '-noout',
                                    '-nextupdate'])
        if status:
            raise Failed(told.splitlines()[0])
        until = datetime.datetime.strptime(told.partition('=')[2], DATE).replace(
            tzinfo=datetime.UTC)
        is_valid = until > datetime.datetime.now(datetime.UTC)
        is_set = synchronized == 'yes'
        return verdict_of(is_set and is_valid,
                          f'the clock is {"set" if is_set else "NOT SET"}; the '
                          f'revocation list {"is valid until" if is_valid else "RAN OUT on"} '
                          f'{until:%Y-%m-%d %H:%M} UTC')

    def keys(self) -> Verdict:
        """Each key is for its one user alone, and there is none of an authority."""
        told, is_good = [], True
        for path in (self.folder / 'key', self.trust / 'server.key'):
            it = path.stat()
            is_own = stat.S_IMODE(it.st_mode) in (0o400, 0o600) and it.st_uid != 0
            told.append(f'{path}: mode {stat.S_IMODE(it.st_mode):o}, user {user_text(it.st_uid)}'
                        + ('' if is_own else ': must be 400 or 600, of the service\'s user'))
            is_good = is_good and is_own
        _, found = run_program(['find', '/', '-xdev', '-name', 'authority.key', '-not', '-path',
                                '/proc/*'])
        others = [line for line in found.splitlines() if line.endswith('/authority.key')]
        told += [f'{line}: the key of an authority: it belongs on a machine without a network'
                 for line in others] or ['no authority.key']
        return verdict_of(is_good and not others, '\n'.join(told))

    # The server.

    def servers(self) -> list[tuple[pathlib.Path, list[str]]]:
        """The processes that serve at this bay's port, with their words."""
        found = []
        for path in self.process.glob('[0-9]*/cmdline'):
            try:
                words = path.read_bytes().decode('utf-8', 'replace').split('\0')[:-1]
            except OSError:
                continue  # it has ended
            if 'serve' in words and option(words, '--port') == str(self.ports()[0]):
                found.append((path.parent, words))
        return found

    def server(self) -> Verdict:
        """How the server was started, and of which files."""
        running = self.servers()
        if len(running) != 1:
            return verdict_of(False, f'{len(running)} servers at port {self.ports()[0]}')
        (process, words), told = running[0], []
        told += [f'it was started without {name}' for name in OPTIONS if name not in words]
        for name, file in (('--bay', 'bay.toml'), ('--logic', 'logic.il'), ('--rules', 'rules')):
            told += self.served(process, words, name, file)
        return verdict_of(not told, '\n'.join(told) or ' '.join(words))

    def served(self, process: pathlib.Path, words: list[str], name: str, file: str) -> list[str]:
        """What is wrong with a file of the folder that an option of a server names."""
        path, found = self.folder / file, option(words, name)
        if found is None or not os.path.exists(found) or not path.samefile(found):
            return [f'it serves {name} {found}, not {path}']
        if path.stat().st_mtime > process.stat().st_ctime:
            return [f'{path} has changed since it was started: restart it']
        return []

    def diagram(self) -> Verdict:
        """The server has proved the diagram of the folder, which has the sum of its log."""
        path = self.folder / DIAGRAM
        if not path.exists():
            return Verdict(OPEN, f'there is no {path}: nobody proves that no command is a hazard')
        running = self.servers()
        if len(running) != 1:
            return verdict_of(False, f'{len(running)} servers at port {self.ports()[0]}')
        if wrong := self.served(*running[0], '--diagram', DIAGRAM):
            return verdict_of(False, '\n'.join(wrong))
        _, lines = run_program(['journalctl', '-u', f'bayctl@{self.folder.name}', '-o', 'cat',
                                '--no-pager'])
        found = SUM.findall(lines)
        if not found:
            return Verdict(OPEN, 'the log has no sum of a diagram')
        digest, count = found[-1]
        is_same = digest == page_head.source_at('', path).digest
        return verdict_of(is_same, f'SHA-256 {digest}, {count} operations hold'
                          + ('' if is_same else f': {path} HAS ANOTHER SUM'))

    def audit(self) -> Verdict:
        """The files that are served keep the rules, and no release is a hazard in the diagram."""
        if not self.rules:
            return Verdict(OPEN, 'name the rules of the bay by --rules')
        more = ['--diagram', self.folder / DIAGRAM] if (self.folder / DIAGRAM).exists() else []
        _, found = run_program([sys.executable, '-B', TOOLS / 'audit', self.folder / 'bay.toml',
                                self.folder / 'logic.il', self.rules, *more, '--bayctl',
                                self.bayctl])
        lines = found.splitlines()
        told = [line for line in lines if line.startswith('WARNING: ')] + lines[-1:]
        return verdict_of(any(line.startswith('PASSED: ') for line in lines), '\n'.join(told))

    def subject(self) -> Verdict:
        """An operate of today stands in the log beside the subject of a certificate."""
        name = self.folder.name
        _, lines = run_program(['journalctl', '-u', f'bayctl@{name}', '-u', f'bayctl-tls@{name}',
                                '-o', 'short-iso-precise', '--since', 'today', '--no-pager'])
        _, found = run_program([sys.executable, '-B', TOOLS / 'log', '-', '--day', 'today'],
                               lines.encode())
        operates = [it[0] for it in map(SUBJECT.search, found.splitlines()) if it]
        if not operates:
            return Verdict(OPEN, 'no operate of today by a certificate: make one, and look again')
        return verdict_of(True, operates[-1])


def reached_by(user: int, port: int) -> bool:
    """Whether a user reaches a port of this machine: a child of this process becomes him. Fails if
    the child could not try."""
    child = os.fork()
    if child == 0:
        status = UNTRIED
        try:
            os.setuid(user)
            with socket.socket() as one:  # (no name is looked up: the user may not read Python)
                one.settimeout(5)
                status = REFUSED if one.connect_ex(('127.0.0.1', port)) else REACHED
        finally:
            os._exit(status)
    status = os.waitstatus_to_exitcode(os.waitpid(child, 0)[1])
    if status not in (REACHED, REFUSED):
        raise Failed(f'port {port}: no program of {user_text(user)} could try it')
    return status == REACHED


def user_text(number: int) -> str:
    try:
        return pwd.getpwuid(number).pw_name
    except KeyError:
        return str(number)


def option(words: list[str], name: str) -> str | None:
    """The value of an option."""
    return words[words.index(name) + 1] if name in words[:-1] else None


def steps_of(it: Machine) -> list[Step]:
    clients, process = it.ports()
    return [
        Step(f'ports {clients} and {process} are open on 127.0.0.1, and on no other address',
             it.listening),
        Step('another user of the machine reaches neither port', it.by_others),
        Step('the clock is set, and the revocation list is valid', it.clock),
        Step('each key is for its one user alone, and there is none of an authority', it.keys),
        Step('the server runs with --supervise, --key, --rules and --log, and the files of the '
             'folder', it.server),
        Step('the server has proved that no command is a hazard in the diagram of the folder',
             it.diagram),
        Step('the files that are served keep the rules, and those of the diagram', it.audit),
        Step('the log has your certificate beside an operate that you made today', it.subject)]
