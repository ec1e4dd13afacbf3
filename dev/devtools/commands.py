"""The commands of tools/ and dev/, as files and as modules."""
import functools
import importlib.machinery
import pathlib
import types

from baytools.common.paths import TOOLS

from .paths import DEV


def command(name: str) -> pathlib.Path:
    """The file of a command, of tools/ or of dev/."""
    return TOOLS / name if (TOOLS / name).is_file() else DEV / name


@functools.cache
def load_command(name: str) -> types.ModuleType:
    """A command as a module."""
    path = str(command(name))
    loader = importlib.machinery.SourceFileLoader(f'command_{name}', path)
    module = types.ModuleType(loader.name)
    module.__file__ = path
    loader.exec_module(module)
    return module
