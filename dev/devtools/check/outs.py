"""What a compilation replaces: a regular file, with the mode that it had, or nothing, through
links, and nothing else. Each check has the name of the wrong behaviour that it refuses."""
import os
import pathlib
import shutil
import socket
import stat
import tempfile

from .command_lines import NOBODY, output_of
from .limits import LOGIC, bay

MODES = (0o600, 0o644, 0o444)


class Place:
    """A folder with the program and the files of a bay, and a folder of its own to write to, in
    which the program runs as a user: whoever runs the checks, or one who may not do everything."""

    def __init__(self, checks, folder: str, **user) -> None:
        self.folder, self.user = pathlib.Path(folder), user
        self.folder.chmod(0o755)
        self.program = shutil.copy(checks.bayctl, self.folder / 'bayctl')
        (self.folder / 'bay.toml').write_text(bay(), encoding='utf-8')
        (self.folder / 'logic.il').write_text(LOGIC, encoding='utf-8')
        self.own = self.folder / 'own'
        self.own.mkdir()
        self.owned(self.own)

    def owned(self, at: pathlib.Path) -> pathlib.Path:
        """The path, which is now the user's."""
        if self.user:
            os.chown(at, NOBODY, NOBODY, follow_symlinks=False)
        return at

    def compile(self, out: pathlib.Path) -> tuple[int, str, str]:
        """The status of a compilation to a file, and what it prints."""
        words = [self.program, 'compile', '--bay', 'bay.toml', '--logic', 'logic.il', '--out', out]
        return output_of(words, cwd=self.folder, **self.user)


def fault_of_write(place: Place, out: pathlib.Path, at: pathlib.Path, mode: int) -> str:
    """An empty text if a compilation to a name leaves an image with a mode at a place, and what
    there is otherwise."""
    told = place.compile(out)
    if told[0] != 0 or not at.is_file():
        return str(told)
    found = stat.S_IMODE(at.stat().st_mode)
    is_image = at.read_bytes()[:4] == b'ILBC'
    left = [it.name for it in at.parent.iterdir() if '.part' in it.name]
    return '' if is_image and found == mode and not left else f'{is_image} {found:o} {left}'


# Shows P-112.
def files_to_replace(checks, place: Place) -> None:
    """Files of some modes, nothing, and links to them."""
    umask = os.umask(0o027)
    try:
        for mode in MODES:
            at = place.own / f'file{mode:o}'
            at.write_bytes(b'old')
            place.owned(at).chmod(mode)
            told = fault_of_write(place, at, at, mode)
            checks.holds('a file that is replaced gets another mode', not told, told)
        told = fault_of_write(place, place.own / 'new', place.own / 'new', 0o640)
        checks.holds('a new file has another mode than the umask leaves', not told, told)
        for name, to, mode in (('to_file', 'file600', 0o600), ('to_none', 'none', 0o640),
                               ('to_link', 'to_file', 0o600)):
            link = place.own / name
            link.symlink_to(to)
            told = fault_of_write(place, place.owned(link), link.resolve(), mode)
            checks.holds('a link is replaced and not followed',
                         not told and link.is_symlink(), f'{name}: {told}')
    finally:
        os.umask(umask)


def special(place: Place) -> list[pathlib.Path]:
    """Names at which something else than a regular file stands."""
    folder, pipe, loop = (place.own / name for name in ('folder', 'pipe', 'loop'))
    folder.mkdir()
    os.mkfifo(pipe)
    loop.symlink_to('loop')
    with socket.socket(socket.AF_UNIX) as listener:
        listener.bind(str(place.own / 'socket'))
    names = [folder, pipe, loop, place.own / 'socket']
    if os.geteuid() == 0:
        names.append(place.own / 'device')
        os.mknod(names[-1], 0o666 | stat.S_IFCHR, os.makedev(1, 3))
    for at in list(names):
        if at != loop:
            names.append(at.with_name(f'to_{at.name}'))
            names[-1].symlink_to(at.name)
    return names


# Shows P-112.
def outs_to_refuse(checks, place: Place) -> None:
    """Folders, pipes, sockets, devices, links to them, and a link that leads nowhere."""
    for at in special(place):
        before = sorted((it.name, it.lstat().st_mode) for it in place.own.iterdir())
        status, _, told = place.compile(at)
        after = sorted((it.name, it.lstat().st_mode) for it in place.own.iterdir())
        checks.holds('what is no regular file is replaced',
                     (status, told) == (3, 'fault 122\n') and before == after,
                     f'{at.name}: {status} {told!r}')


def outs(checks) -> None:
    """Each kind of file, as whoever runs the checks and as a user who may not do everything."""
    nobody = {'user': NOBODY, 'group': NOBODY, 'extra_groups': []}
    for user in ({}, nobody) if os.geteuid() == 0 else ({},):
        with tempfile.TemporaryDirectory() as folder:
            place = Place(checks, folder, **user)
            try:
                place.compile(place.own / 'first')
            except OSError as error:
                checks.left_out('no other user can be had here', f'what is replaced ({error})')
                continue
            files_to_replace(checks, place)
            outs_to_refuse(checks, place)


PARTS = (outs,)
