"""What the scripts of this folder share: where things are, compiling C, running, ports and times.

Importing it also lets a script import baytools and devtools."""
import argparse
import contextlib
import os
import pathlib
import re
import shutil
import socket
import subprocess
import sys
import tempfile
import time
from collections.abc import Callable, Iterator
from typing import TYPE_CHECKING

if TYPE_CHECKING:
    from baytools.wire.client import Client

TOP = pathlib.Path(__file__).resolve().parent.parent
CRATES, EXAMPLES = TOP / 'crates', TOP / 'examples'
PROGRAM = os.path.abspath(os.environ.get('BAYCTL', CRATES / 'bayctl' / 'out' / 'bayctl'))
MIB = 1_048_576
sys.path += [str(TOP / 'tools'), str(TOP / 'dev')]


def print_stamp() -> None:
    """Prints the line that stands above the script's figures in bench/RESULTS.md."""
    from devtools.figures.stamps import stamp_of_script
    print(stamp_of_script(), end='\n\n', flush=True)


def options(text: str) -> argparse.ArgumentParser:
    """A parser of a script's words, whose help is the script's docstring."""
    return argparse.ArgumentParser(
        description=text, formatter_class=argparse.RawDescriptionHelpFormatter)


def need(*programs: str | os.PathLike) -> None:
    """Ends the script where a program is not there."""
    for program in programs:
        if shutil.which(program) is None:
            folder = pathlib.Path(program).parent.parent
            built = f': `rt run` or `rt test` in crates/{folder.name} builds it'
            sys.exit(f'{program} is not there' + (built if folder.parent == CRATES else ''))


def text_of(path: str | os.PathLike) -> str:
    """The text in a file."""
    with open(path, encoding='utf-8') as file:
        return file.read()


def scenario_at(folder: pathlib.Path) -> bytes:
    """The scenario of an example that has its three parts."""
    from baytools.report.joined import scenario_at
    return scenario_at(folder)


def replayed_examples() -> list[pathlib.Path]:
    """The folders of the examples that have the three parts and are not served by a `run`."""
    return sorted(path.parent for path in EXAMPLES.glob('*/trace')
                  if not (path.parent / 'run').exists())


def write(path: str | os.PathLike, text: str) -> None:
    """Writes a text to a file."""
    with open(path, 'w', encoding='utf-8') as file:
        file.write(text)


def compile_c(folder: str, source: str, *words: str) -> str:
    """Compiles a C file of bench/ with -O2 into a folder, and returns the path of the result."""
    need('cc')
    made = os.path.join(folder, pathlib.Path(source).stem)
    subprocess.run(['cc', '-O2', '-o', made, TOP / 'bench' / source, *words], check=True)
    return made


def library(folder: str, source: str) -> str:
    """Compiles a C file of bench/ as a library to preload, and returns its path. The kit's compiler
    does it where the file includes nothing, and else `cc`."""
    from devtools import preloads
    path = TOP / 'bench' / source
    if '#include' not in text_of(path):
        return preloads.library(folder, path) or compile_c(folder, source)
    return compile_c(folder, source, '-shared', '-fPIC', '-ldl')


def run_preloaded(path: str, words: list, given: bytes = b'',
                  **settings: str) -> subprocess.CompletedProcess:
    """Runs a program with a preloaded library, and the library's settings in the environment. Its
    standard input is a file, since a pipe may give fewer octets than are asked for."""
    with tempfile.TemporaryFile() as file:
        file.write(given)
        file.seek(0)
        return subprocess.run(words, stdin=file, capture_output=True, timeout=60,
                              env={'LD_PRELOAD': path, **settings})


def allocations(told: bytes) -> int:
    """How many allocations trials/failmalloc.c counted, which it says last on standard error."""
    count = re.search(rb'(?:\A|\s)(\d+)\n\Z', told)
    return int(count[1]) if count else 0


def need_allocations(count: int) -> None:
    """Ends the script where no allocation was counted."""
    if not count:
        sys.exit('no allocation was counted: the program takes its memory elsewhere')


def least(run: Callable[[], tuple], times: int = 3) -> tuple:
    """The least of several runs' results."""
    return min(run() for _ in range(times))


def measure_run(words: list, given: str, out: str, **more) -> tuple[float, int, int]:
    """One run from a file to a file: the processor's seconds, the peak of memory in KiB, and the
    status."""
    with open(given, 'rb') as source, open(out, 'wb') as sink:
        child = subprocess.Popen(words, stdin=source, stdout=sink, **more)
        _, status, usage = os.wait4(child.pid, 0)
        child.returncode = os.waitstatus_to_exitcode(status)
    return usage.ru_utime + usage.ru_stime, usage.ru_maxrss, child.returncode


def instructions(words: list, given: str, *more: str) -> tuple[bytes, int]:
    """What a run prints, and the processor's instructions that callgrind counts."""
    count = ['valgrind', '--tool=callgrind', '--callgrind-out-file=/dev/null', *more]
    with open(given, 'rb') as source:
        done = subprocess.run([*count, *words], stdin=source, capture_output=True, check=True)
    return done.stdout, int(re.search(rb'Collected : (\d+)', done.stderr)[1])


def count_served(words: list, turns: int, names: list[str], reads: int) -> int:
    """The instructions that callgrind counts of a server of this many turns, and of a client's
    reads of these names within them."""
    port = free_port()
    with tempfile.TemporaryFile() as log:
        count = ['valgrind', '--tool=callgrind', '--callgrind-out-file=/dev/null', PROGRAM, 'serve',
                 *words, '--port', str(port), '--turns', str(turns)]
        with run_in_block(count, stdout=subprocess.DEVNULL, stderr=log) as child:
            if reads:
                client = connect(port)
                for _ in range(reads):
                    client.read(names)
                client.close()
            child.wait()
        log.seek(0)
        found = re.search(rb'Collected : (\d+)', log.read())
        return int(found[1]) if found else sys.exit('nothing is counted')


def connect(port: int) -> 'Client':
    """A client, once the server is there, which takes seconds under valgrind."""
    from baytools.wire.client import Client
    for _ in range(1_000):
        try:
            socket.create_connection(('127.0.0.1', port)).close()
            return Client('127.0.0.1', port, timeout=60)
        except ConnectionRefusedError:
            time.sleep(0.1)
    sys.exit(f'nothing listens on port {port}')


@contextlib.contextmanager
def run_in_block(words: list, **more) -> Iterator[subprocess.Popen]:
    """A program that runs until the block ends."""
    child = subprocess.Popen(words, **more)
    try:
        yield child
    finally:
        child.kill()
        child.wait()


def text_named(name: str) -> str:
    """The text of a constant of the stored session."""
    session = text_of(CRATES / 'bayctl_tests' / 'src' / 'session.rt')
    found = re.search(rf'const {name}: &str =\s*"(.*)";', session)
    return found[1].encode().decode('unicode_escape')


def messages() -> str:
    """The session's three questions, each with its answer, in hexadecimal digits."""
    names = ('REQUEST', 'CONFIRM', 'CONNECT', 'CONNECTED', 'IDENTIFY', 'IDENTITY')
    return ''.join(text_named(name) + '\n' for name in names)


def processor_seconds(child: subprocess.Popen) -> float:
    """The processor's seconds that a running program has taken."""
    ticks = text_of(f'/proc/{child.pid}/stat').rpartition(')')[2].split()[11:13]
    return sum(map(int, ticks)) / os.sysconf('SC_CLK_TCK')


def free_port() -> int:
    """A port of this machine on which nothing listens."""
    with socket.socket() as it:
        it.bind(('127.0.0.1', 0))
        return it.getsockname()[1]


def await_port(port: int) -> None:
    """Waits until something listens on a port, and ends the script where nothing does in 5 s."""
    for _ in range(500):
        try:
            socket.create_connection(('127.0.0.1', port)).close()
            return
        except OSError:
            time.sleep(0.01)
    sys.exit(f'nothing listens on port {port}')
