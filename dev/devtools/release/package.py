"""The Debian package of a release: bayctl, the commands of its users, the unit files and the
documents. What the package has of its own is in packaging/."""
import datetime
import email.utils
import gzip
import os
import pathlib
import re
import shutil
import subprocess

from baytools.common.ending import Failed
from baytools.common.paths import TOP

PACKAGING = TOP / 'packaging'
# Where the README of the station installs by hand, and where a package does.
PLACES = {'/usr/local/bin/bayctl': '/usr/bin/bayctl',
          '/usr/local/lib/bayctl/tools': '/usr/share/bayctl/tools'}
# The tools of those who use bayctl: on the path as bayctl-NAME. All others are for its developers.
COMMANDS = ('acceptance', 'audit', 'certify', 'checklist', 'client', 'diagnose', 'explain', 'gpio',
            'join', 'log', 'modbus', 'panel', 'rules', 'scl', 'simulate', 'station', 'timeline')
CONFIGURATION = 'packaging/configuration'
READ = ('docs/FAULTS.md', 'CHANGELOG.md')  # what the tools read beside themselves


def debian(name: str) -> str:
    """A file of the package's own."""
    return (PACKAGING / 'debian' / name).read_text(encoding='utf-8')


def packaged_unit(text: str) -> str:
    """A unit file with the places of a package."""
    for old, new in PLACES.items():
        text = text.replace(old, new)
    return text


def put(root: pathlib.Path, name: str, octets: bytes, mode: int = 0o644) -> None:
    """Writes a file of the package."""
    path = root / name
    path.parent.mkdir(parents=True, exist_ok=True)
    path.write_bytes(octets)
    path.chmod(mode)


def put_folder(root: pathlib.Path, name: str, files: list[str]) -> None:
    """Copies files of the repository, by their names from its top, below a folder."""
    for it in files:
        mode = 0o755 if os.access(TOP / it, os.X_OK) else 0o644
        put(root, f'{name}/{it}', (TOP / it).read_bytes(), mode)


def files_below(*places: str) -> list[str]:
    """The files of the repository below places, without what checks the examples."""
    done = subprocess.run(('git', 'ls-files', '-z', *places), cwd=TOP, capture_output=True,
                          text=True, check=True)
    return [it for it in done.stdout.split('\0')
            if it and not re.fullmatch(r'examples/(check|\w+/(run|try|serve))', it)]


def gzip_octets(text: str) -> bytes:
    """A text as gzip packs it, at no time."""
    return gzip.compress(text.encode(), mtime=0)


def laid_out(root: pathlib.Path, program: pathlib.Path) -> None:
    """Lays out what the package installs."""
    put(root, 'usr/bin/bayctl', program.read_bytes(), 0o755)
    commands = [f'tools/{name}' for name in COMMANDS]
    put_folder(root, 'usr/share/bayctl', [*files_below(*commands, 'tools/baytools'), *READ])
    for name in COMMANDS:
        (root / 'usr' / 'bin' / f'bayctl-{name}').symlink_to(f'../share/bayctl/tools/{name}')
    put_folder(root, 'usr/share/doc/bayctl',
               files_below('README.md', 'docs', 'examples', CONFIGURATION))
    put(root, 'usr/share/doc/bayctl/copyright', debian('copyright').encode())
    changes = (TOP / 'CHANGELOG.md').read_text(encoding='utf-8')
    put(root, 'usr/share/doc/bayctl/CHANGELOG.md.gz', gzip_octets(changes))
    manual = (PACKAGING / 'bayctl.1').read_text(encoding='utf-8')
    put(root, 'usr/share/man/man1/bayctl.1.gz', gzip_octets(manual))
    put(root, 'usr/share/lintian/overrides/bayctl', debian('lintian-overrides').encode())
    put(root, 'usr/share/bash-completion/completions/bayctl',
        (PACKAGING / 'completions' / 'bayctl').read_bytes())
    for it in sorted((PACKAGING / 'units').iterdir()):
        text = packaged_unit(it.read_text(encoding='utf-8'))
        put(root, f'usr/lib/systemd/system/{it.name}', text.encode())
    for kind in ('sysusers', 'tmpfiles'):
        octets = (TOP / CONFIGURATION / f'{kind}.conf').read_bytes()
        put(root, f'usr/lib/{kind}.d/bayctl.conf', octets)
    (root / 'etc' / 'bayctl').mkdir(parents=True)


def package(folder: pathlib.Path, program: pathlib.Path, version: str,
            maintainer: str) -> pathlib.Path:
    """Builds the package in a folder, and returns its path."""
    if shutil.which('dpkg-deb') is None:
        raise Failed('dpkg-deb is not there: it builds the package')
    root = folder / 'package'
    laid_out(root, program)
    date = email.utils.format_datetime(datetime.datetime.now(datetime.UTC))
    put(root, 'usr/share/doc/bayctl/changelog.gz', gzip_octets(debian('changelog').format(
        version=version, maintainer=maintainer, date=date)))
    size = sum(it.stat().st_size for it in root.rglob('*') if it.is_file()) // 1024
    put(root, 'DEBIAN/control', debian('control').format(
        version=version, maintainer=maintainer, size=size).encode())
    put(root, 'DEBIAN/postinst', debian('postinst').encode(), 0o755)
    for it in root.rglob('*'):
        if it.is_dir():
            it.chmod(0o755)
    made = folder / f'bayctl_{version}_amd64.deb'
    done = subprocess.run(('dpkg-deb', '--root-owner-group', '--build', root, made),
                          capture_output=True, text=True)
    shutil.rmtree(root)
    if done.returncode:
        raise Failed(f'dpkg-deb: {done.stderr.strip()}')
    return made
