"""Bay files and other texts that the tools read, and what is said where one can't be read."""
import os
import pathlib
import tomllib
from typing import Any

from baytools.common.ending import Failed, error_text

Path = str | os.PathLike[str]
MARK, WIDE, NEWLINE = '\ufeff', (b'\xff\xfe', b'\xfe\xff'), b'\n'
MARKED = 'begins with a byte order mark: save it as UTF-8 without one'
OTHER = 'this is not a bay file; tools/diagnose tells what is wrong'


class BadFile(Failed):
    """A file that can't be read, or that is no bay file."""


def octets_of(path: Path) -> bytes:
    """The octets of a file."""
    try:
        return pathlib.Path(path).read_bytes()
    except OSError as error:
        raise BadFile(error_text(error)) from None


def text_of(path: Path, kind: str = 'text') -> str:
    """The text of a file, without a byte order mark at its start."""
    octets = octets_of(path)
    try:
        return octets.decode('utf-8-sig')
    except UnicodeDecodeError as error:
        told = encoding_text(octets, error.start)
        raise BadFile(f'{path}: it can\'t be read as a {kind}: {told}') from None


def program_at(path: Path) -> str:
    """The text of a program, in which bayctl takes no byte order mark."""
    if octets_of(path).startswith(MARK.encode()):
        raise BadFile(f'{path}: it {MARKED}')
    return text_of(path, 'program')


def encoding_text(octets: bytes, at: int, names_line: bool = True) -> str:
    """Why octets are no UTF-8."""
    if octets[:2] in WIDE:
        return 'it is UTF-16: save it as UTF-8'
    line = f' of line {octets.count(NEWLINE, 0, at) + 1}' if names_line else ''
    return f'byte {octets[at]:02X}{line} is not UTF-8'


def tables_of(text: str) -> dict[str, Any]:
    """The tables of a bay file, with those that each has: bay, switch, input and meter."""
    try:
        found = tomllib.loads(text)
        named = [found['bay']['domain'], *(one['id'] for one in found['switch']),
                 *(one['kind'] for one in found['switch']),
                 *(one['remote'] for one in found['switch'] if 'remote' in one),
                 *(one['name'] for one in found.get('input', [])),
                 *(one['id'] for one in found.get('meter', []))]
    except tomllib.TOMLDecodeError as error:
        raise BadFile(f'the bay file has TOML that Python can\'t read: {error}') from None
    except (ValueError, RecursionError):
        raise BadFile('the bay file has a number or a list that exceeds what Python can '
                      'read') from None
    except (KeyError, TypeError, AttributeError):
        raise BadFile(OTHER) from None
    if not all(isinstance(name, str) for name in named):
        raise BadFile(OTHER)
    return found


def bay_at(path: Path) -> tuple[str, dict[str, Any]]:
    """The text of a bay file, and its tables."""
    text = text_of(path, 'bay file')
    try:
        return text, tables_of(text)
    except BadFile as error:
        raise BadFile(f'{path}: {error}') from None


def check_replaceable(path: Path) -> None:
    """Ends the tool if a page can't be written to a file, or if the file has something else: it
    might be the file that another option reads."""
    check_writable(path)
    path = pathlib.Path(path)
    if path.is_file() and path.stat().st_size:
        with open(path, 'rb') as file:
            start = file.read(200).lstrip(MARK.encode()).lstrip().lower()
        if not start.startswith((b'<!doctype html', b'<html')):
            raise BadFile(f'{path}: it is no page, so no page replaces it: give another name, or '
                          'remove it')


def check_writable(path: Path) -> None:
    """Ends the tool if a file can't be written, before the tool works for nothing."""
    path = pathlib.Path(path)
    if not path.parent.is_dir():
        raise BadFile(f'{path}: there is no folder {path.parent}')
    if path.is_dir():
        raise BadFile(f'{path}: it is a folder')
    if not os.access(path if path.exists() else path.parent, os.W_OK):
        raise BadFile(f'{path}: it can\'t be written')
