"""Which bays a page shows: pairs of a bay file and a port, or a folder with a folder for each."""
import argparse
import pathlib
from dataclasses import dataclass
from typing import Any

from baytools.bay.accepted import accepted_bay_at
from baytools.bay.files import BadFile, text_of
from baytools.common.ending import Failed, UsageError
from baytools.wire.sockets import port_of

BAY, SETTINGS, PORT = 'bay.toml', 'env', 'PORT'  # of a bay's folder: files, and what one sets


@dataclass(frozen=True)
class Listed:
    """A bay of the page: its name there, its bay file and the port of its clients; or what is wrong
    with its folder, and then it has neither."""
    name: str
    file: dict[str, Any]
    text: str
    port: int
    trouble: str = ''


def pair(path: str, port: str) -> Listed:
    """The bay of a file and a port, by the name of its domain."""
    try:
        number = port_of(port)
    except argparse.ArgumentTypeError as error:
        raise UsageError(f'--bay: {error}') from None
    text, file = accepted_bay_at(path)
    return Listed(file['bay']['domain'], file, text, number)


def settings_of(path: pathlib.Path) -> dict[str, str]:
    """What a file of settings says, as systemd reads it: NAME=VALUE in each line that is no
    comment."""
    found = {}
    for line in text_of(path, 'file of settings').splitlines():
        name, sign, value = line.strip().partition('=')
        if sign and not name.startswith(('#', ';')):
            found[name] = value.strip('"\'')
    return found


def folder_of(path: pathlib.Path) -> Listed:
    """The bay of a folder."""
    try:
        settings = settings_of(path / SETTINGS)
        if PORT not in settings:
            raise BadFile(f'{path / SETTINGS}: it has no line {PORT}=..')
        text, file = accepted_bay_at(path / BAY)
        return Listed(path.name, file, text, port_of(settings[PORT]))
    except (Failed, argparse.ArgumentTypeError) as error:
        return Listed(path.name, {}, '', 0, str(error))


def folders_of(path: str) -> list[Listed]:
    """The bays of a folder, by the names of their folders. One that can't be read is told on the
    page, beside the others."""
    found = sorted(one.parent for one in pathlib.Path(path).glob(f'*/{BAY}'))
    if not found:
        raise BadFile(f'{path}: no folder in it has a {BAY}')
    return [folder_of(one) for one in found]


def all_of(pairs: list[list[str]], folder: str | None) -> list[Listed]:
    """All bays of the page, each with a port of its own."""
    found = [pair(*one) for one in pairs] + (folders_of(folder) if folder else [])
    if not found:
        raise UsageError('name a FOLDER of bays, or bays by --bay FILE PORT')
    ports = [one.port for one in found if not one.trouble]
    twice = sorted({port for port in ports if ports.count(port) > 1})
    if twice:
        raise UsageError(f'two bays have port {twice[0]}')
    return found
