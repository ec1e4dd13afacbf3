"""The unit files of packaging/: their keys and values, users, paths and variables, and how
far systemd would shut each service in."""
import os
import pathlib
import re
import shutil
import subprocess
import tempfile
import unittest

from baytools.common.paths import TOOLS, TOP
from baytools.station.bays import PORT, settings_of
from devtools.paths import DATA
from tests.tool import Tools

EXAMPLES = TOP / 'examples'
UNITS, CONFIGURATION = (TOP / 'packaging' / name for name in ('units', 'configuration'))
HELP = DATA / 'help.txt'
YES, NO, TIME = 'yes', 'no', r'\d+(s|min)?'
NAMES = r'[\w%@. -]+'
# What a key may have. A key that is not here, or a value of another form, is a slip.
VALUES = {
    'Unit': {'Description': r'[A-Z].*', 'Wants': NAMES, 'After': NAMES, 'PartOf': r'bays\.target',
             'StartLimitIntervalSec': '0'},
    'Install': {'WantedBy': r'bays\.target|multi-user\.target'},
    'Service': {
        'Type': 'exec', 'ExecStart': r'(/usr/bin/\S+ .*)?', 'ExecStopPost': r'(/usr/bin/\S+ .*)?',
        'Environment': 'DIAGRAM=',
        'EnvironmentFile': '/etc/bayctl/%i/env', 'LoadCredential': 'key:/etc/bayctl/%i/key',
        'Restart': 'always', 'RestartSec': TIME, 'TimeoutStopSec': TIME,
        'TimeoutStartSec': TIME,
        'RestartPreventExitStatus': r'\d( \d)*', 'SuccessExitStatus': r'\d+',
        'SyslogIdentifier': r'%p(@%i)?', 'SyslogLevel': 'info|notice', 'SyslogLevelPrefix': NO,
        'User': r'[\w-]+', 'Group': r'[\w-]+', 'SupplementaryGroups': r'[\w-]+',
        'TemporaryFileSystem': '/etc/bayctl:ro', 'BindReadOnlyPaths': '/etc/bayctl/%i',
        'RestrictAddressFamilies': r'AF_\w+( AF_\w+)*', 'IPAddressDeny': 'any',
        'IPAddressAllow': r'localhost( [\d.]+/\d+)*', 'SocketBindDeny': r'any|ipv6',
        'SocketBindAllow': r'ipv4:tcp:\d+', 'NoExecPaths': '/', 'ExecPaths': r'(-?/\S+ ?)+',
        'LimitAS': r'\d+M', 'MemoryMax': r'\d+M', 'LimitCORE': '0', 'TasksMax': r'\d+',
        'AmbientCapabilities': '', 'CapabilityBoundingSet': '', 'DevicePolicy': 'closed',
        'KeyringMode': 'private', 'ProcSubset': 'pid', 'ProtectProc': 'invisible',
        'ProtectSystem': 'strict', 'SystemCallArchitectures': 'native',
        'SystemCallErrorNumber': 'EPERM', 'UMask': '0077',
        'SystemCallFilter': r'~?@[\w-]+( @[\w-]+)*|sched_setscheduler',
        **dict.fromkeys((
            'LockPersonality', 'MemoryDenyWriteExecute', 'NoNewPrivileges', 'PrivateDevices',
            'PrivateIPC', 'PrivateMounts', 'PrivateTmp', 'PrivateUsers', 'ProtectClock',
            'ProtectControlGroups', 'ProtectHome', 'ProtectHostname', 'ProtectKernelLogs',
            'ProtectKernelModules', 'ProtectKernelTunables', 'RemoveIPC', 'RestrictNamespaces',
            'RestrictRealtime', 'RestrictSUIDSGID'), YES)},
    'Journal': {'Storage': 'persistent', 'SyncIntervalSec': TIME},
    'Manager': {'RuntimeWatchdogSec': TIME, 'RebootWatchdogSec': TIME}}
OWN = ('root', 'systemd-journal')  # users and groups that each system with systemd has
LOOSEST = 2.0  # of what systemd-analyze finds
SHARED = '# What no service of a bay needs. The same lines stand in each of these files.\n'


class Entries:
    """The sections of a file of systemd: each key with its values, in their order."""

    def __init__(self, path: pathlib.Path) -> None:
        self.name, self.found, section = path.name, {}, ''
        self.text = path.read_text(encoding='utf-8')
        for line in self.text.replace('\\\n', ' ').splitlines():
            if line.startswith('['):
                section = line.strip('[]')
            elif line and not line.startswith('#'):
                key, _, value = line.partition('=')
                self.found.setdefault((section, key), []).append(' '.join(value.split()))

    def all(self, key: str, section: str = 'Service') -> list[str]:
        return self.found.get((section, key), [])

    def one(self, key: str, section: str = 'Service') -> str:
        found, = self.all(key, section)
        return found

    def commands(self) -> list[list[str]]:
        return [value.split() for key in ('ExecStart', 'ExecStopPost') for value in self.all(key)
                if value]


def services() -> list[Entries]:
    return [Entries(path) for path in sorted(UNITS.glob('*.service'))]


def files() -> list[Entries]:
    """All that has sections."""
    names = ('simulate.conf', 'journald.conf', 'watchdog.conf', 'time.conf')
    return [*services(), Entries(UNITS / 'bays.target'),
            *(Entries(CONFIGURATION / it) for it in names)]


def rows_of(name: str) -> list[list[str]]:
    """The lines of a sysusers or a tmpfiles file, in their columns."""
    text = (CONFIGURATION / name).read_text(encoding='utf-8')
    return [line.split() for line in text.splitlines() if line and not line.startswith('#')]


def systemd_analyze(*words: str) -> subprocess.CompletedProcess:
    return subprocess.run(['systemd-analyze', *words], capture_output=True, text=True, timeout=60)


class Units(Tools):
    def test_each_key_and_its_value(self):
        for unit in files():
            for (section, key), values in unit.found.items():
                self.assertIn(key, VALUES.get(section, ()), f'{unit.name}: [{section}]')
                for value in values:
                    self.assertRegex(value, rf'^(?:{VALUES[section][key]})$', f'{unit.name}: {key}')

    def test_each_service_starts_again_and_with_the_machine(self):
        self.assertEqual([unit.name for unit in services()], [
            'bayctl-driver@.service', 'bayctl-station.service', 'bayctl-tls@.service',
            'bayctl@.service'])
        for unit in services():
            self.assertEqual((unit.one('Restart'), unit.one('RestartSec')), ('always', '1'))
            for key, section in (('StartLimitIntervalSec', 'Unit'), ('PartOf', 'Unit'),
                                 ('WantedBy', 'Install')):
                self.assertTrue(unit.one(key, section), unit.name)
        self.assertEqual(Entries(UNITS / 'bays.target').one('WantedBy', 'Install'),
                         'multi-user.target')

    def test_the_driver_and_the_door_stop_before_the_server_and_the_network(self):
        """They do not start it: a server whose file is refused would be started with each."""
        for name in ('bayctl-driver@.service', 'bayctl-tls@.service'):
            unit = Entries(UNITS / name)
            self.assertEqual(unit.one('After', 'Unit').split(),
                             ['bayctl@%i.service', 'network.target'])
            self.assertEqual(unit.all('Wants', 'Unit'), [])

    def test_users(self):
        rows = rows_of('sysusers.conf')
        users = {row[1] for row in rows if row[0] == 'u'}
        self.assertEqual({row[0] for row in rows}, {'g', 'u'})
        self.assertLessEqual({row[2] for row in rows}, {'-', *(f'-:{user}' for user in users)})
        self.assertEqual({unit.one('User') for unit in services()}, users)
        self.assertLessEqual({row[1] for row in rows}, users)
        for unit in services():
            self.assertEqual(unit.one('User'), unit.one('Group'))
            self.assertLessEqual(set(unit.all('SupplementaryGroups')), set(OWN))
        for _, path, _, user, group, *_ in rows_of('tmpfiles.conf'):
            self.assertLessEqual({user, group}, users | set(OWN), path)

    def test_paths_of_a_bay(self):
        """What a unit names below a bay's folder has its owner and mode, which let it be read."""
        modes = {path: (mode, user) for kind, path, mode, user, *_ in rows_of('tmpfiles.conf')
                 if path.startswith('/etc/bayctl/')}
        named = set()
        for unit in [*services(), Entries(CONFIGURATION / 'simulate.conf')]:
            text = re.sub(r'(?m)^#.*$', '', unit.text)
            for name in re.findall(r'/etc/bayctl/%i/([\w.]+)', text):
                mode, user = modes[f'/etc/bayctl/*/{name}']
                is_given = f'LoadCredential=key:/etc/bayctl/%i/{name}' in text
                if unit.all('User') and not is_given:
                    self.assertTrue(mode == '0644' or user == unit.one('User'),
                                    f'{unit.name}: {name}')
                named.add(f'/etc/bayctl/*/{name}')
        text = (EXAMPLES / '12_station' / 'env').read_text(encoding='utf-8')
        for name in re.findall(r'/etc/bayctl/NAME/(\w+\.\w+)', text):
            self.assertEqual(modes[f'/etc/bayctl/*/{name}'], ('0644', 'root'))
            named.add(f'/etc/bayctl/*/{name}')
        self.assertEqual(modes['/etc/bayctl/*/key'], ('0400', 'bayctl'))
        self.assertEqual(set(modes), named)

    def test_the_door(self):
        """The configuration of the networked example stays in the foreground, as a service must,
        and what it names has its owner and mode."""
        text = (EXAMPLES / '11_networked' / 'stunnel.conf').read_text(encoding='utf-8')
        self.assertRegex(text, r'(?m)^foreground = yes$')
        modes = {row[1]: (row[2], row[3]) for row in rows_of('tmpfiles.conf')}
        named = re.findall(r'(?m)^(?:cert|key|CAfile|CRLfile) = (\S+)$', text)
        self.assertEqual(len(named), 4)
        for path in named:
            mode, user = modes[path]
            self.assertEqual((mode, user), ('0400', 'stunnel4') if path.endswith('.key')
                             else ('0644', 'root'))

    def test_programs_may_be_run_and_tools_are_there(self):
        for unit in services():
            allowed = [path.lstrip('-') for path in unit.one('ExecPaths').split()]
            for command in unit.commands():
                programs = [word for word in command if re.match(r'/usr/(local/)?bin/', word)]
                self.assertEqual(programs[0], command[0])
                for program in programs:
                    self.assertTrue(any(program == path or program.startswith(f'{path}/')
                                        for path in allowed), f'{unit.name}: {program}')
        for unit in [*services(), Entries(CONFIGURATION / 'simulate.conf')]:
            for command in unit.commands():
                for word in command:
                    if tool := re.fullmatch('/usr/local/lib/bayctl/tools/(.*)', word):
                        self.assertTrue((TOOLS / tool[1]).is_file(), tool[1])

    def test_options_are_those_of_the_programs(self):
        helps = {'bayctl': HELP.read_text(encoding='utf-8')}
        for unit in [*services(), Entries(CONFIGURATION / 'simulate.conf')]:
            for command in unit.commands():
                at = max(place for place, word in enumerate(command)
                         if re.match(r'/usr/local/|/usr/bin/stunnel', word))
                name = command[at].rpartition('/')[2]
                if name == 'stunnel':
                    continue
                if name not in helps:
                    helps[name] = self.call_tool(name, '--help').out
                for word in command[at:]:
                    if word.startswith('--'):
                        self.assertRegex(helps[name], rf'{word}\b', f'{unit.name}: {name}')

    def test_variables_and_specifiers(self):
        settings = settings_of(EXAMPLES / '12_station' / 'env')
        used = set()
        for unit in [*services(), Entries(CONFIGURATION / 'simulate.conf')]:
            names = set(re.findall(r'\$\{?(\w+)', unit.text))
            if names and unit.name != 'simulate.conf':
                self.assertEqual(unit.one('EnvironmentFile'), '/etc/bayctl/%i/env')
            used |= names
            specifiers = set(re.findall('%(.)', unit.text))
            self.assertLessEqual(specifiers, set('ipd'), unit.name)
            self.assertTrue('@' in unit.name or 'i' not in specifiers
                            or unit.name == 'simulate.conf', unit.name)
        self.assertEqual(used, set(settings))
        self.assertIn(PORT, settings)
        for name, value in settings.items():
            self.assertRegex(value, '^$' if name == 'DIAGRAM' else r'^\d+$', name)

    def test_a_diagram_is_an_option_of_the_settings(self):
        """A service without it has no such word: the variable is empty, and stands alone."""
        unit = Entries(UNITS / 'bayctl@.service')
        self.assertEqual(unit.one('Environment'), 'DIAGRAM=')
        self.assertIn(' $DIAGRAM ', unit.one('ExecStart'))
        self.assertRegex(HELP.read_text(encoding='utf-8'),
                         r'(?s)bayctl serve --help.*--diagram <F>')

    def test_what_all_share_is_the_same(self):
        parts = {unit.text.partition(SHARED)[2].partition('\n\n')[0] for unit in services()}
        self.assertEqual(len(parts), 1)
        self.assertGreater(len(parts.pop().splitlines()), 30)

    def test_only_the_server_has_another_priority(self):
        """The two streams of the server have theirs by systemd-cat, the others by the unit."""
        server = Entries(UNITS / 'bayctl@.service')
        self.assertEqual(server.one('ExecStart').split()[:5], [
            '/usr/bin/systemd-cat', '--identifier=%p@%i', '--priority=notice',
            '--stderr-priority=info', '--level-prefix=false'])
        for unit in services():
            if unit.name != server.name:
                self.assertEqual((unit.one('SyslogLevel'), unit.one('SyslogLevelPrefix')),
                                 ('info', NO))

    @unittest.skipUnless(shutil.which('systemd-analyze'), 'there is no systemd-analyze')
    def test_how_far_systemd_shuts_them_in(self):
        if '--offline' not in systemd_analyze('--help').stdout:
            self.skipTest('this systemd-analyze has no --offline')
        for unit in services():
            path = self.file(unit.name.replace('@', '@E05'), unit.text)
            done = systemd_analyze('security', '--offline=true', '--no-pager', str(path))
            exposure = re.search(r'exposure level for \S+: ([\d.]+)', done.stdout)
            self.assertTrue(exposure, done.stdout + done.stderr)
            self.assertLess(float(exposure[1]), LOOSEST, unit.name)


class Folders(unittest.TestCase):
    """systemd makes of the two files what they say, in a root of its own."""

    @unittest.skipUnless(os.geteuid() == 0 and shutil.which('systemd-sysusers')
                         and shutil.which('systemd-tmpfiles'),
                         'there is no systemd-sysusers, or this is not root')
    def test_users_and_folders_are_made(self):
        with tempfile.TemporaryDirectory() as folder:
            root = pathlib.Path(folder)
            (root / 'etc').mkdir()
            (root / 'etc/passwd').write_text('root:x:0:0:root:/root:/bin/sh\n')
            (root / 'etc/group').write_text('root:x:0:\nsystemd-journal:x:999:\n')
            bay = root / 'etc/bayctl/E05'
            bay.mkdir(parents=True)
            for name in ('key', 'env', 'bay.toml'):
                (bay / name).write_text('')
                (bay / name).chmod(0o666)
            for tool in ('systemd-sysusers', 'systemd-tmpfiles'):
                name = CONFIGURATION / f'{tool.removeprefix("systemd-")}.conf'
                words = [tool, f'--root={root}', *(['--create'] if 'tmp' in tool else []), name]
                done = subprocess.run(words, capture_output=True, text=True, timeout=60)
                self.assertEqual(done.returncode, 0, done.stderr)
            users = {line.split(':')[0]: int(line.split(':')[2])
                     for line in (root / 'etc/passwd').read_text().splitlines()}
            self.assertEqual(set(users), {'root', *(row[1] for row in rows_of('sysusers.conf'))})
            self.assertEqual([(bay / name).stat().st_mode & 0o7777 for name in ('key', 'env')],
                             [0o400, 0o644])
            self.assertEqual((bay / 'key').stat().st_uid, users['bayctl'])


if __name__ == '__main__':
    unittest.main()
