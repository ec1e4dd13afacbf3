"""What stands in no contract: the words of the help, word for word, words that are no text, files
that may not be read or written, and what reaches standard output and standard error. Each check has
the name of the wrong behaviour that it refuses."""
import contextlib
import fcntl
import os
import pathlib
import re
import resource
import shutil
import signal
import socket
import subprocess
import tempfile
import time
from collections.abc import Iterator

from devtools.paths import DATA
from devtools.served import free_port

from .limits import LOGIC, bay

HELP = DATA / 'help.txt'
NOBODY = 65_534  # the user who is no one, in whose place root runs a program
OLD = [('out.image', b'old')]
FULL = pathlib.Path('/dev/full')
# Octets of a pipe: two pages. The system calls it full as soon as its last page has something.
PIPE = 8_192
NO_TEXT = b'error: a word of the command line is no text\n'


def helps(checks) -> None:
    """The help of the program and of each command, which HELP holds behind the words that ask for
    it."""
    parts = re.split(r'^\$ bayctl (.*)\n', HELP.read_text(encoding='utf-8'), flags=re.M)[1:]
    for asked, wanted in zip(parts[::2], parts[1::2]):
        done = subprocess.run([checks.bayctl, *asked.split()], capture_output=True, text=True)
        told = done.returncode, done.stdout, done.stderr
        checks.holds(f'the help of {asked!r} tells otherwise', told == (2, '', wanted), str(told))


def no_texts(checks) -> None:
    """Words that are no UTF-8, alone and behind others."""
    for asked in ([b'\xff'], [b'check', b'--bay', b'\xc3\x28'], [b'replay', b'\xed\xa0\x80']):
        done = subprocess.run([os.fsencode(checks.bayctl), *asked], capture_output=True,
                              stdin=subprocess.DEVNULL)
        told = done.returncode, done.stdout, done.stderr
        checks.holds('a word that is no text wants memory', told == (2, b'', NO_TEXT), str(told))


def tell_takes_releases(checks) -> None:
    """What a process can be told is `releases`, and there has to be one."""
    words = [checks.bayctl, 'serve', '--bay', 'b', '--logic', 'l', '--port', '7', '--turns', '0']
    for more, wrong in ((['--process', '8', '--tell', 'Releases'], '[possible values: releases]'),
                        (['--tell', 'releases'], '--process <P>')):
        told = output_of([*words, *more])
        checks.holds('words that tell a process nothing are taken',
                     told[:2] == (2, '') and told[2].startswith('error: ') and wrong in told[2],
                     str(told))


def output_of(words: list, **more) -> tuple[int, str, str]:
    """The status of a program, and what it prints on both outputs."""
    done = subprocess.run(words, capture_output=True, text=True, timeout=60, **more)
    return done.returncode, done.stdout, done.stderr


def full() -> None:
    """A disk with room for ten octets of each file."""
    signal.signal(signal.SIGXFSZ, signal.SIG_IGN)
    resource.setrlimit(resource.RLIMIT_FSIZE, (10, 10))


# Shows P-112.
def files(checks) -> None:
    """A write to a disk that is full leaves the file that was there, and nothing beside it."""
    with tempfile.TemporaryDirectory() as folder:
        out = pathlib.Path(folder) / 'out.image'
        out.write_bytes(b'old')
        words = [checks.bayctl, 'compile', '--bay', checks.file('bay.toml', bay()), '--logic',
                 checks.file('logic.il', LOGIC), '--out', out]
        told = output_of(words, preexec_fn=full)
        checks.holds('a failed write removes the file that was there',
                     told[0] == 3 and told[2] == 'fault 122\n' and files_of(out.parent) == OLD,
                     f'{told}, {files_of(out.parent)}')
        told = output_of(words)
        checks.holds('no file is ever written',
                     told[0] == 0 and out.read_bytes()[:4] == b'ILBC', str(told))


def files_of(folder: pathlib.Path) -> list[tuple[str, bytes]]:
    """The files of a folder."""
    return [(it.name, it.read_bytes()) for it in sorted(folder.iterdir())]


# Shows P-099, P-109, P-118.
def closed_files(checks) -> None:
    """A file that may not be read, and a folder that may not be written, by a user who may not do
    everything."""
    user = {'user': NOBODY, 'group': NOBODY, 'extra_groups': []} if os.geteuid() == 0 else {}
    with tempfile.TemporaryDirectory() as name:
        folder = pathlib.Path(name)
        folder.chmod(0o755)
        program = shutil.copy(checks.bayctl, folder / 'bayctl')
        (folder / 'logic.il').write_text(LOGIC, encoding='utf-8')
        for bay_file, mode in (('bay.toml', 0o644), ('closed.toml', 0)):
            (folder / bay_file).write_text(bay(), encoding='utf-8')
            (folder / bay_file).chmod(mode)
        try:
            output_of([program, 'replay'], stdin=subprocess.DEVNULL, **user)
        except OSError as error:
            checks.left_out('no other user can be had here', f'files that are closed ({error})')
            return
        shut = folder / 'shut'
        shut.mkdir()
        (shut / 'out.image').write_bytes(b'old')
        shut.chmod(0o555)
        words = ['--logic', 'logic.il', '--bay']
        told = output_of([program, 'check', *words, 'closed.toml'], cwd=folder, **user)
        checks.holds('a file that may not be read wants memory', told == (3, 'fault 121\n', ''),
                     str(told))
        told = output_of([program, 'check', '--log', *words, 'closed.toml'], cwd=folder, **user)
        why = 'bayctl: fault 121: closed.toml: permission denied\n'
        checks.holds('a file that may not be read is logged otherwise',
                     told == (3, 'fault 121\n', why), str(told))
        told = output_of([program, 'compile', *words, 'bay.toml', '--out', shut / 'out.image'],
                         cwd=folder, **user)
        checks.holds('a write changes a folder that may not be written',
                     told[0] == 3 and told[2] == 'fault 122\n' and files_of(shut) == OLD,
                     f'{told}, {files_of(shut)}')
        shut.chmod(0o755)


# Shows P-099, P-102, P-109, P-110, P-118, P-120.
def ends(checks) -> None:
    """What the program prints, logs and ends with: a file that is not there, is a folder or too
    long, a refused load, a port that is taken, and an output that is full."""
    load = ['--bay', checks.file('bay.toml', bay()), '--logic']
    none, wrong = (checks.folder / 'absent.il',
                   checks.file('wrong.il', 'PROGRAM P\nLD A\nEND_PROGRAM\n'))
    no_bay, long = checks.folder / 'absent.toml', checks.folder / 'long.toml'
    with long.open('wb') as longest:
        longest.truncate(16_777_217)
    right = [*load, checks.file('logic.il', LOGIC)]
    report = output_of([checks.bayctl, 'check', *right])[1]
    with socket.create_server(('127.0.0.1', 0)) as taken:
        port = taken.getsockname()[1]
        for name, words, wanted in (
                ('the program has no report', ['check', '--log', *right], (0, report, '')),
                ('a file that is not there is not logged', ['check', '--log', *load, none],
                 (3, 'fault 121\n', f'bayctl: fault 121: {none}: there is no such file\n')),
                ('another file than the first that is not there is logged',
                 ['check', '--log', '--bay', no_bay, '--logic', none],
                 (3, 'fault 121\n', f'bayctl: fault 121: {no_bay}: there is no such file\n')),
                ('a folder is read as a file', ['check', '--log', *load, checks.folder],
                 (3, 'fault 121\n', f'bayctl: fault 121: {checks.folder}: it is a folder\n')),
                ('a file that is too long is logged otherwise',
                 ['check', '--log', '--bay', long, '--logic', none],
                 (3, 'fault 121\n',
                  f'bayctl: fault 121: {long}: it is longer than 16,777,216 bytes\n')),
                ('a refused load is not logged', ['check', '--log', *load, wrong],
                 (1, 'load refused 70 line 2\n',
                  'bayctl: load refused 70 line 2: the name is unknown\n')),
                ('a taken port is something else',
                 ['serve', '--log', *right, '--turns', '1', '--port', str(port)],
                 (3, f'{report}fault 121\n',
                  f'bayctl: fault 121: port {port}: another program uses it\n'))):
            told = output_of([checks.bayctl, *words])
            checks.holds(name, told == wanted and report.startswith('instructions='), str(told))
    if not FULL.exists():
        checks.left_out(f'there is no {FULL}', 'output that is full')
        return
    why = "bayctl: fault 122: standard output: it can't be written\n"
    served = ['serve', *right, '--turns', '1', '--port', str(free_port())]
    for words, wanted in ((['replay'], 'fault 122\n'), (['replay', '--log'], f'{why}fault 122\n'),
                          (['check', '--log', *load, none], f'{why}fault 122\n'),
                          (['check', '--log', *load, wrong], f'{why}fault 122\n'),
                          (served, 'fault 122\n'), ([*served, '--log'], f'{why}fault 122\n')):
        with FULL.open('wb') as full:
            done = subprocess.run([checks.bayctl, *words], stdin=subprocess.DEVNULL,
                                  stdout=full, stderr=subprocess.PIPE, text=True)
        checks.holds('a full output is no fault, or what it lacks is logged',
                     (done.returncode, done.stderr) == (3, wanted),
                     f'{words}: {done.returncode} {done.stderr!r}')


# Shows P-118, P-119, P-120.
def file_order(checks) -> None:
    """Of two files that are not there, the one that is read first is logged. All files are read
    before a bay file is refused."""
    right, wrong = (checks.file('bay.toml', bay()), checks.file('wrong.toml', 'x'))
    logic = checks.file('logic.il', LOGIC)
    no_bay, no_logic, trace, key, rules, diagram = (
        checks.folder / f'absent.{it}' for it in ('toml', 'il', 'trace', 'key', 'rules', 'diagram'))
    supervised = ['--process', free_port(), '--supervise', 500, '--key', key]
    serve = ['serve', '--port', free_port(), '--turns', 1]
    for words, first in (
            (['compile', '--bay', no_bay, '--logic', no_logic, '--out', trace], no_bay),
            ([*serve, '--bay', no_bay, '--logic', no_logic], no_bay),
            ([*serve, '--bay', right, '--logic', no_logic, '--trace', trace], no_logic),
            ([*serve, '--bay', right, '--logic', logic, '--trace', trace, '--rules', rules], trace),
            ([*serve, '--bay', right, '--logic', logic, *supervised, '--rules', rules], key),
            ([*serve, '--bay', right, '--logic', logic, '--rules', rules, '--diagram', diagram],
             rules),
            ([*serve, '--bay', wrong, '--logic', logic, '--diagram', diagram], diagram)):
        told = output_of([checks.bayctl, *map(str, words), '--log'])
        checks.holds('files are read in another order', told == (
            3, 'fault 121\n', f'bayctl: fault 121: {first}: there is no such file\n'), str(told))


# Shows P-118, P-119.
def untouched(checks) -> None:
    """What reads no file: words that are refused, and a compilation to a file that it would read.
    The files are pipes that nobody writes, so whoever opens one waits. A check changes no file, and
    one that can't print is a fault."""
    with tempfile.TemporaryDirectory() as name:
        folder = pathlib.Path(name)
        one, other = folder / 'one', folder / 'other'
        for it in one, other:
            os.mkfifo(it)
        load = ['--bay', one, '--logic', other]
        for words in (['check', '--bay', one], ['check', *load, '--image', one], ['compile', *load],
                      ['audit', *load], ['serve', *load, '--port', '0', '--turns', '1']):
            told = output_of([checks.bayctl, *words, '--log'])
            checks.holds('words that are refused are more than an error', told[:2] == (2, '')
                         and told[2].startswith('error: ') and 'bayctl: ' not in told[2], str(told))
        for out in one, other:
            told = output_of([checks.bayctl, 'compile', *load, '--out', out, '--log'])
            checks.holds('a compilation reads before it refuses what it would replace', told == (
                3, '', f"bayctl: fault 122: {out}: it can't be written\nfault 122\n"), str(told))
    with tempfile.TemporaryDirectory() as name:
        folder = pathlib.Path(name)
        for at, text in (('bay.toml', bay()), ('logic.il', LOGIC), ('wrong.il', 'x')):
            (folder / at).write_text(text, encoding='utf-8')
        before = files_of(folder), [it.stat().st_mtime_ns for it in sorted(folder.iterdir())]
        told = [output_of([checks.bayctl, 'check', '--bay', 'bay.toml', '--logic', at], cwd=folder)
                for at in ('logic.il', 'wrong.il', 'absent.il')]
        after = files_of(folder), [it.stat().st_mtime_ns for it in sorted(folder.iterdir())]
        checks.holds('a check has another status, logs unasked, or changes a file',
                     [it[0] for it in told] == [0, 1, 3] and not any(it[2] for it in told)
                     and before == after, f'{told} {before} {after}')
        if FULL.exists():
            with FULL.open('wb') as full:
                done = subprocess.run([checks.bayctl, 'check', '--bay', 'bay.toml', '--logic',
                                       'logic.il'], cwd=folder, stdout=full,
                                      stderr=subprocess.PIPE, text=True)
            checks.holds('a check that can print nothing is no fault',
                         (done.returncode, done.stderr) == (3, 'fault 122\n'), str(done))


# Shows P-120.
def port_order(checks) -> None:
    """Ports that are taken: that of the clients is opened first."""
    load = ['--bay', checks.file('bay.toml', bay()), '--logic', checks.file('logic.il', LOGIC)]
    report = output_of([checks.bayctl, 'check', *load])[1]
    with (socket.create_server(('127.0.0.1', 0)) as one,
          socket.create_server(('127.0.0.1', 0)) as other):
        clients, process = one.getsockname()[1], other.getsockname()[1]
        for port in clients, free_port():
            told = output_of([checks.bayctl, 'serve', *load, '--log', '--turns', '1', '--port',
                              str(port), '--process', str(process)])
            wrong = port if port == clients else process
            checks.holds('the port of the process is opened first', told == (
                3, f'{report}fault 121\n',
                f'bayctl: fault 121: port {wrong}: another program uses it\n'), str(told))


# Shows P-119.
def check_unprinted(checks) -> None:
    """A compilation whose line of the load can't be written makes no file."""
    if not FULL.exists():
        checks.left_out(f'there is no {FULL}', 'a compilation whose output is full')
        return
    out = checks.folder / 'unprinted.image'
    words = ['compile', '--bay', checks.file('bay.toml', bay()), '--logic',
             checks.file('logic.il', LOGIC), '--out', out]
    with FULL.open('wb') as full:
        done = subprocess.run([checks.bayctl, *words], stdout=full, stderr=subprocess.PIPE,
                              text=True)
    checks.holds('an image is written after a line that is not',
                 (done.returncode, done.stderr) == (3, 'fault 122\n') and not out.exists(),
                 f'{done.returncode} {done.stderr!r} {out.exists()}')
    told = output_of([checks.bayctl, *words])
    checks.holds('no image is written after its line', told[0] == 0 and out.exists(), str(told))


@contextlib.contextmanager
def unread_server(checks, count: int, *more: str) -> Iterator[tuple]:
    """A server that does so many turns, each of which prints a line, and the end of a pipe for its
    output, which has room for a part of it: nobody has read anything yet."""
    words = ['serve', *more, '--turns', str(count), '--port', str(free_port()),
             '--bay', checks.file('late.toml', bay()), '--logic', checks.file('late.il', LOGIC),
             '--trace', checks.file('late.trace', '0 contact NONE 1\n' * count)]
    reader, writer = os.pipe()
    fcntl.fcntl(writer, fcntl.F_SETPIPE_SZ, PIPE)
    with (open(reader, 'rb') as output,
          subprocess.Popen([checks.bayctl, *words], stdout=writer,
                           stderr=subprocess.PIPE) as server):
        os.close(writer)
        yield server, output


# Shows P-102, P-120.
def late(checks) -> None:
    """A reader of a server's output reads nothing until a while after the last turn. The pipe has
    room for a part of the output; the rest waits."""
    count = 300
    with unread_server(checks, count, '--log') as (server, output):
        log = b''
        while b' all turns are served' not in log and (line := server.stderr.readline()):
            log += line
        time.sleep(0.3)
        out = output.read()
        log += server.stderr.read()
    checks.holds('a reader that is late at the end loses output', server.returncode == 0
                 and out.count(b' refused 113\n') == count, f'{server.returncode} {out!r} {log!r}')


# Shows P-102, P-120.
def never(checks) -> None:
    """A reader of a server's output reads nothing until the server has ended. What the pipe accepts
    is written; the rest waits for a while, and is then a failed write."""
    count = 300
    with unread_server(checks, count) as (server, output):
        told = server.stderr.read()
        status, out = server.wait(60), output.read()
    checks.holds('output that nobody reads counts as written',
                 (status, told) == (3, b'fault 122\n') and out.count(b'\n') < count
                 and re.fullmatch(rb'instructions=.*\n(?:\d+ refused 113\n)+[\w ]*', out),
                 f'{status} {told!r} {out!r}')


def read_waiting(reader: int) -> str:
    """What a pipe has, which does not block."""
    pieces = []
    with contextlib.suppress(BlockingIOError):
        while piece := os.read(reader, 65_536):
            pieces.append(piece)
    return b''.join(pieces).decode()


# Shows P-102.
def unread_log(checks) -> None:
    """A reader of a server's log reads nothing for a while: what the pipe does not accept waits,
    and comes in later turns that log something. If nobody reads it before the server ends, the rest
    is lost, and the server ends as ever."""
    count = 300
    words = [checks.bayctl, 'serve', '--log', '--bay', checks.file('late.toml', bay()), '--logic',
             checks.file('late.il', LOGIC), '--trace',
             checks.file('late.trace', ''.join(f'0 contact N{it} 1\n' for it in range(count)))]
    whole = [f'0 contact N{it} 1' for it in range(count)]
    for ends in False, True:
        port = free_port()
        reader, writer = os.pipe()
        fcntl.fcntl(writer, fcntl.F_SETPIPE_SZ, PIPE)
        os.set_blocking(reader, False)
        with subprocess.Popen([*words, '--port', str(port), '--turns',
                               str(count if ends else 1_000_000)],
                              stdout=subprocess.PIPE, stderr=writer) as server:
            os.close(writer)
            told = 0
            while told < count and (line := server.stdout.readline()):
                told += line.endswith(b' refused 113\n')
            status = server.wait(60) if ends else None
            log = read_waiting(reader)
            limit = time.monotonic() + 60
            while not ends and f'{whole[-1]}\n' not in log and time.monotonic() < limit:
                socket.create_connection(('127.0.0.1', port)).close()  # which the server logs
                time.sleep(0.05)
                log += read_waiting(reader)
            server.terminate()
        os.close(reader)
        found = re.findall(r' refused 113: (.*)\n', log)
        right = 0 < len(found) < count and status == 0 if ends else len(found) == count
        checks.holds('lines of a log that nobody reads are lost, or out of order, or end a server',
                     told == count and found == whole[:len(found)] and right,
                     f'{ends}: {status} {told} {found}')


PARTS = (helps, no_texts, tell_takes_releases, files, closed_files, ends, file_order, untouched,
         port_order, check_unprinted, late, never, unread_log)
