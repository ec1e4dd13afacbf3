"""The line above a table of figures that says what measured it, when, of what and where."""
import dataclasses
import datetime
import enum
import functools
import os
import pathlib
import re
import subprocess
import sys

from baytools.common.paths import TOP

PAGES = ('bench/RESULTS.md', 'docs/SECURITY.md', 'docs/TRUSTED.md')
STAMP = re.compile(r'^Measured by `(?P<command>[^`]+)`\s+on\s+(?P<date>\d{4}-\d\d-\d\d)\s+at\s+'
                   r'commit\s+(?P<commit>[0-9a-f]{7,40})(?P<changed>\+?);\s+machine:\s+'
                   r'(?P<machine>[^;]+?);\s+kit:\s+(?P<kit>[^;]+?)\.$', re.M)
# Tables that hold no figures.
PLAIN = ('| Name | Processors | Beside it |', '| What | Aim | Reached | Script |',
         '| Event | Result |', '| Test | Where | Result |', '| Id |', '| Tool | The claim |',
         '| What | What a fault in it could break |')


@dataclasses.dataclass(frozen=True)
class Figures:
    """What a stamp stands above; or a table, or a block of what a script printed, without one."""
    page: str
    line: int
    head: str
    stamp: re.Match[str] | None


def output_of(*words: str) -> str:
    """The first line that a command prints; an empty one where it can't be run."""
    try:
        done = subprocess.run(words, cwd=TOP, capture_output=True, text=True)
    except OSError:
        return ''
    return done.stdout.split('\n')[0]


def machine() -> str:
    """The processors of this machine, and their name."""
    try:
        told = pathlib.Path('/proc/cpuinfo').read_text(encoding='utf-8')
    except OSError:
        told = ''
    name = re.search(r'model name\s*: (.*)', told)
    return f'{os.cpu_count()} processors, {name[1] if name else "unknown"}'


def commit() -> str:
    """The commit that is measured, with a + where its sources were changed, or where BAYCTL names
    a program that may be of another."""
    changed = os.environ.get('BAYCTL') or output_of('git', 'status', '--porcelain', '--', 'crates',
                                                    'bench')
    return output_of('git', 'rev-parse', '--short', 'HEAD') + ('+' if changed else '')


def stamp(command: str) -> str:
    """The line for figures that a command of this repository measures now."""
    day = datetime.datetime.now(datetime.UTC).date()
    return (f'Measured by `{command}` on {day} at commit {commit()}; machine: {machine()}; kit: '
            f'{output_of("rt", "version")}.')


def stamp_of_script() -> str:
    """The stamp of the script that runs."""
    path = pathlib.Path(sys.argv[0]).resolve()
    name = path.relative_to(TOP).as_posix() if path.is_relative_to(TOP) else path.name
    return stamp(' '.join([name, *sys.argv[1:]]))


def figures_in(page: str, text: str) -> list[Figures]:
    """The figures of a page. A stamp is of all that follows in its section, up to the next."""
    found, is_stamped, line, is_code = [], False, 1, False
    for block in re.split(r'(\n{2,})', text):
        if not is_code:
            stamp = STAMP.match(block)
            is_table = block.startswith(('|', '```')) and not block.startswith(PLAIN)
            is_stamped = bool(stamp) or is_stamped and not block.startswith('#')
            if stamp or is_table and not is_stamped:
                found.append(Figures(page, line, block.strip('`\n').split('\n')[0], stamp))
        is_code ^= block.count('```') % 2 == 1
        line += block.count('\n')
    return found


@functools.cache
def crates_of_program() -> tuple[str, ...]:
    """The crates that bayctl is made of."""
    text = (TOP / 'crates.txt').read_text(encoding='utf-8')
    below = {name: words.split() for name, words in re.findall(r'^(\w+):(.*)$', text, re.M)}
    reached = ['bayctl']
    for name in reached:
        reached += [it for it in below[name] if it in below and it not in reached]
    return tuple(sorted(reached))


def measured_by(command: str) -> list[str]:
    """The sources on which a command's figures depend: the program's code, and the script."""
    return [*(f'crates/{it}/src' for it in crates_of_program()), command.split()[0]]


@functools.cache
def changed_since(commit: str, paths: tuple[str, ...]) -> int | None:
    """How many of these files changed after a commit; None where that is not known here."""
    done = subprocess.run(('git', 'diff', '--name-only', commit, 'HEAD', '--', *paths), cwd=TOP,
                          capture_output=True, text=True)
    return None if done.returncode else len(done.stdout.split())


class Age(enum.Enum):
    """How old figures are."""
    NEW = 'as new as its sources'
    OLD = 'older than some of its sources'
    LOST = 'of no commit that is there'


def age_of(figures: Figures) -> Age:
    """How old figures are, by the commit that their stamp names."""
    if figures.stamp is None:
        return Age.LOST
    files = changed_since(figures.stamp['commit'], tuple(measured_by(figures.stamp['command'])))
    return Age.LOST if files is None else Age.OLD if files else Age.NEW


def figures_text(figures: Figures) -> str:
    """Figures, with whether they are older than what they measure."""
    where, stamp = f'{figures.page}:{figures.line}', figures.stamp
    if stamp is None:
        return f'{where}: no stamp: {figures.head}'
    command, commit = stamp['command'], stamp['commit']
    files = changed_since(commit, tuple(measured_by(command)))
    word = {None: f'unknown, for want of commit {commit}', 0: 'as new as its sources'}.get(
        files, f'older than {files} of its sources')
    return f'{where}: {word}: {command}, {stamp["date"]}, {commit}'
