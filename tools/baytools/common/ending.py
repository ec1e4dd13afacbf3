"""How a tool ends: with an exit status of one table, and with an error in one line on standard
error, `tool: what: why`."""
import argparse
import contextlib
import os
import pathlib
import sys
from collections.abc import Callable, Iterator
from typing import Any, NoReturn, TextIO

from .paths import as_called
from .texts import visible_text

DONE, FOUND, CALLED_WRONG, UNREACHED, PARTLY, INTERRUPTED = 0, 1, 2, 3, 4, 130
STATUSES = {
    DONE: 'done',
    FOUND: 'refused, broken or different',
    CALLED_WRONG: 'the command line is wrong',
    UNREACHED: 'something can\'t be read, written or reached',
    PARTLY: 'not all was proved, tried or asked',
    INTERRUPTED: 'it was interrupted'}
# The statuses that each tool ends with, beside 130.
OF_TOOLS = {'acceptance': (0, 1, 2, 3), 'asn1': (0, 2, 3), 'audit': (0, 1, 2, 3, 4),
            'certify': (0, 1, 2, 3), 'checklist': (0, 1, 2, 3, 4), 'client': (0, 1, 2, 3),
            'diagnose': (0, 1, 2, 3), 'explain': (0, 1, 2, 3), 'figures': (0, 1, 2, 3),
            'gpio': (0, 1, 2, 3), 'join': (0, 2, 3), 'log': (0, 2, 3), 'modbus': (0, 1, 2, 3),
            'panel': (0, 1, 2, 3), 'release': (0, 1, 2, 3), 'rules': (0, 1, 2, 3),
            'scl': (0, 1, 2, 3), 'simulate': (0, 1, 2, 3), 'station': (0, 2, 3),
            'timeline': (0, 1, 2, 3), 'trace': (0, 2, 3), 'trusted': (0, 1, 2, 3),
            'wrong_definitions': (0, 1, 2, 3, 4)}


class Failed(Exception):
    """What ends a tool, as `what: why`; `more` are lines that follow, such as a line of a file with
    a mark under the part that is wrong."""
    status = UNREACHED
    more: tuple[str, ...] = ()


class UsageError(Failed):
    """A command line that makes no sense."""
    status = CALLED_WRONG


class Parser(argparse.ArgumentParser):
    """The options of a tool. Its help is the tool's own description."""

    def __init__(self, description: str | None = None, **more: Any) -> None:
        self.new_words: dict[str, str] = {}
        super().__init__(description=as_called(description or ''), allow_abbrev=False,
                         formatter_class=argparse.RawDescriptionHelpFormatter, **more)

    def renamed(self, old: str, new: str) -> None:
        """An option had another word, which is still taken, with a warning."""
        self.new_words[old] = new

    def parse_known_args(self, args: Any = None, namespace: Any = None) -> Any:
        words = list(sys.argv[1:] if args is None else args)
        end = words.index('--') if '--' in words else len(words)
        for at, word in enumerate(words[:end]):
            old, sign, value = word.partition('=')
            if old in self.new_words:
                complain(f'{old} is called {self.new_words[old]} now; the old word is still taken')
                words[at] = self.new_words[old] + sign + value
        return super().parse_known_args(words, namespace)

    def print_help(self, file: Any = None) -> None:
        """Prints the help; where that can't be written the tool says so."""
        print(self.format_help(), end='', file=file or sys.stdout, flush=True)

    def error(self, message: str) -> NoReturn:
        complain(f'{message} (see --help)')
        sys.exit(CALLED_WRONG)


class Unwritten(Exception):
    """The output can't be written; the cause is the error."""


@contextlib.contextmanager
def writing() -> Iterator[None]:
    """What is done here is written to the output."""
    try:
        yield
    except OSError as error:
        raise Unwritten from error


class Shown:
    """A stream to which control characters go escaped."""

    def __init__(self, stream: TextIO) -> None:
        self.stream = stream

    def write(self, text: str) -> int:
        with writing():
            return self.stream.write(visible_text(text))

    def flush(self) -> None:
        with writing():
            self.stream.flush()

    def write_octets(self, octets: bytes) -> None:
        """Writes octets as they are."""
        with writing():
            self.stream.buffer.write(octets)
            self.stream.flush()

    def __getattr__(self, name: str) -> Any:
        return getattr(self.stream, name)


def complain(told: str) -> None:
    """One line on standard error, where that can be written."""
    with contextlib.suppress(Unwritten, OSError):
        print(f'{pathlib.Path(sys.argv[0]).name}: {as_called(told)}', file=sys.stderr, flush=True)


def show_more(lines: tuple[str, ...]) -> None:
    """Lines on standard error that belong to the one before."""
    with contextlib.suppress(Unwritten, OSError):
        for line in lines:
            print(line, file=sys.stderr, flush=True)


def show_plainly() -> None:
    """From here on standard output and standard error show control characters escaped."""
    for name in ('stdout', 'stderr'):
        stream = getattr(sys, name)
        if stream is not None:
            stream.reconfigure(errors='backslashreplace')
            setattr(sys, name, Shown(stream))


def ends(main: Callable[[], int | None]) -> None:
    """Runs a tool, and ends with its status."""
    if sys.stdout is None:
        complain('standard output: it is closed')
        sys.exit(UNREACHED)
    show_plainly()
    sys.exit(status_of(main))


def status_of(main: Callable[[], int | None]) -> int:
    """Runs a tool; what it says and its status where that fails."""
    try:
        status = status_in(main)
        sys.stdout.flush()
        return status
    except Failed as error:
        complain(str(error))
        show_more(error.more)
        return flush_output(error.status)
    except KeyboardInterrupt:
        return flush_output(INTERRUPTED)
    except Unwritten as error:
        assert isinstance(error.__cause__, OSError)
        return without_output(error.__cause__)
    except OSError as error:
        complain(error_text(error))
        return flush_output(UNREACHED)
    except Exception as error:
        if os.environ.get('TOOLS_TRACEBACK'):
            raise
        complain(f'a fault of this tool itself: {type(error).__name__}: {error} (with '
                 'TOOLS_TRACEBACK=1 it tells where)')
        return flush_output(UNREACHED)


def status_in(main: Callable[[], int | None]) -> int:
    """The status of a tool, also where its options end it."""
    try:
        return main() or DONE
    except SystemExit as end:
        return end.code if isinstance(end.code, int) else UNREACHED if end.code else DONE


def flush_output(status: int) -> int:
    """Writes what is left, as far as that can be."""
    try:
        sys.stdout.flush()
    except Unwritten:
        stop_output()
    return status


def without_output(error: OSError) -> int:
    """The output can't be written, or nobody reads it, of which nothing is said."""
    stop_output()
    if not isinstance(error, BrokenPipeError):
        complain(f'standard output: {error.strerror or error}')
    return UNREACHED


def stop_output() -> None:
    """What is left of the output goes nowhere."""
    os.dup2(os.open(os.devnull, os.O_WRONLY), 1)


def error_text(error: OSError) -> str:
    """Which file it was, and why."""
    return f'{error.filename}: {error.strerror}' if error.filename else str(error.strerror or error)
