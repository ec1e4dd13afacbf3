"""What a package installs: it is unpacked into an empty folder, and each command is run from there
with a path that has nothing else of the project."""
import os
import pathlib
import re
import subprocess
import sys

from devtools.release.package import COMMANDS, laid_out
from devtools.served import Running, Server, free_port

from .panels import SERVED, Page

EXAMPLE, AUDITED = (SERVED.parent / name for name in ('03_single_busbar', '08_operated'))
FAULT = 'PROGRAM P\nLD NOBODY\nEND_PROGRAM\n'


class Installed:
    """The folder of an unpacked package."""

    def __init__(self, root: pathlib.Path, program: pathlib.Path) -> None:
        laid_out(root, program)
        self.commands = root / 'usr' / 'bin'
        self.work = root / 'work'
        self.work.mkdir()
        # (Python by its folder alone: the machine's own path may have another bayctl.)
        python = root / 'python'
        python.mkdir()
        (python / 'python3').symlink_to(sys.executable)
        self.env = {'PATH': f'{self.commands}:{python}:/usr/bin:/bin', 'HOME': str(self.work),
                    'LANG': 'C.UTF-8', **({'PYTHONHOME': os.environ['PYTHONHOME']}
                                          if 'PYTHONHOME' in os.environ else {})}

    def run(self, name: str, *words: object) -> tuple[str, int]:
        """What a command prints, and its status."""
        done = subprocess.run([name, *map(str, words)], cwd=self.work, env=self.env,
                              stdin=subprocess.DEVNULL, stdout=subprocess.PIPE,
                              stderr=subprocess.STDOUT, text=True, timeout=120)
        return done.stdout, done.returncode


def installed_commands(checks) -> None:
    """Each command gives its help; and some do what they are for."""
    root = checks.folder / 'installed'
    root.mkdir()
    it = Installed(root, checks.bayctl)
    for name in COMMANDS:
        found, status = it.run(f'bayctl-{name}', '--help')
        checks.wants(f'bayctl-{name} --help', found, status, [f'Usage: bayctl-{name} '], 0)
    fault = it.work / 'fault.il'
    fault.write_text(FAULT, encoding='utf-8')
    checks.wants('an installed diagnose', *it.run(
        'bayctl-diagnose', '--bay', EXAMPLE / 'bay.toml', '--logic', fault),
        ['fault.il is refused with 70 at line 2.', 'NOBODY'], 1)
    checks.wants('an installed audit', *it.run(
        'bayctl-audit', *(AUDITED / name for name in ('bay.toml', 'logic.il', 'rules'))),
        ['PASSED: all '], 0)
    checks.wants('an installed explain', *it.run('bayctl-explain', EXAMPLE),
                 ['scan, 83 steps'], 0)
    checks.wants('an installed timeline', *it.run(
        'bayctl-timeline', EXAMPLE, '--out', 'day.svg'), [], 0)
    panel_of_served_bay(checks, it)


def panel_of_served_bay(checks, it: Installed) -> None:
    """The panel of a served bay."""
    bay, logic, port = SERVED / 'bay.toml', SERVED / 'logic.il', free_port()
    with Server(it.commands / 'bayctl', bay, logic) as server:
        server.client().close()
        words = [it.commands / 'bayctl-panel', '--bay', bay, '--logic', logic, server.port,
                 '--http', port]
        with Running(*words, env=it.env) as running:
            found = re.search(r'http://127\.0\.0\.1:(\d+)/', running.waits_for('/\n'))
            assert found
            with Page(int(found[1])) as page:
                checks.wants('an installed panel', page.text, 0, ['<title>'], 0)


PARTS = (installed_commands,)
