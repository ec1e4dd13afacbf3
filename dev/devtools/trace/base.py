"""On what the page of `dev/trace` rests, for its head: the kit, its prover, its logic and its
libraries with their sums; a run of the gate; and what the page leaves out."""
import pathlib
import re
import shutil

from baytools.common.html_page import sum_of
from baytools.common.paths import TOP
from baytools.common.texts import quantity
from devtools.figures.stamps import crates_of_program, output_of
from devtools.release.evidence import Run, read_log
from devtools.trusted.sizes import sum_of as sum_at

from . import refusals, shown
from .edits import edits_of, laws_about, refused_of
from .calls import crates
from .promises import borne_by, promises

DIGITS = 16  # of a sum are shown
NO_KIT = 'not known: the command rt is not on the path'
NO_GATE = 'not known: --gate LOG shows what a run of the gate on this commit came to'
LISTED = re.compile(r'^(\w+)(?: staticlib)?:(.*)$', re.M)
OWN_SUM, OVER = re.compile(r'^sum ([0-9a-f]{64})$', re.M), re.compile(r'^over (\w+) ', re.M)


def folder_of_kit() -> pathlib.Path | None:
    """The folder of the kit that `rt` belongs to, if there is one."""
    rt = shutil.which('rt')
    return pathlib.Path(rt).resolve().parent.parent if rt else None


def named_libraries() -> list[str]:
    """The libraries of the kit that crates.txt lists for the crates of the program."""
    listed = {name: words.split() for name, words in LISTED.findall(
        (TOP / 'crates.txt').read_text(encoding='utf-8'))}
    return sorted({it for name in crates_of_program() for it in listed[name]} - set(listed))


def format_of(kit: pathlib.Path, library: str) -> str:
    """The file of a built library that has its sum, and the names of those below it."""
    path = kit / 'rlibs' / f'{library}.rlib' / 'format'
    return path.read_text(encoding='utf-8') if path.is_file() else ''


def sums_of_libraries(kit: pathlib.Path) -> dict[str, str]:
    """The sum of each library of the kit that the program is linked with."""
    names = {*named_libraries(), 'std'}
    names |= {below for it in names for below in OVER.findall(format_of(kit, it))}
    found = {it: OWN_SUM.search(format_of(kit, it)) for it in sorted(names)}
    return {name: it[1] if it else 'unknown' for name, it in found.items()}


def rows_of_kit(kit: pathlib.Path | None) -> list[tuple[str, str]]:
    """The kit, with the sums that it has of itself, and its prover, whose sum is made here."""
    if kit is None:
        return [('Kit', NO_KIT)]
    what = (kit / 'WHAT').read_text(encoding='utf-8').strip() if (kit / 'WHAT').is_file() else ''
    words = ', '.join(what.splitlines()) or 'it has no sums of itself'
    logic = kit / 'logic_built' / 'format'
    known = re.search(r'^logic (\w+)$', logic.read_text(encoding='utf-8'), re.M) \
        if logic.is_file() else None
    libraries = ', '.join(f'{name} {it[:DIGITS]}' for name, it in sums_of_libraries(kit).items())
    return [('Kit', f'{output_of("rt", "version")} ({words})'),
            ('Prover', f'SHA-256 {sum_at(kit / "bin" / "rattle")}'),
            ('Logic', f'{known[1] if known else "unknown"}; taken as built'),
            ('Libraries of the kit', f'{libraries}; taken as built')]


def gate_text(log: pathlib.Path | None) -> str:
    """What a log of the gate says, which whoever makes the page names as that of its commit."""
    if log is None:
        return NO_GATE
    run: Run = read_log(log)
    untried = f', {run.untried} not tried' if run.untried else ''
    return (f'{"passed" if run.is_good else "NOT PASSED"}: {run.passed} passed, {run.failed} failed'
            f'{untried}; {quantity(run.proved, "crate")} proved in this run, {run.taken} taken '
            f'from earlier runs; by {log.name}, SHA-256 {sum_of(log.read_bytes())}')


def left_out() -> str:
    """What the page lacks: by promise, and by the answers of the prover."""
    found = [it for it in promises() if it.id]
    keys = {it.key for crate in crates() for it in edits_of(crate)}
    table = {name: it for name, it in refusals.read_table().items() if name in keys}
    stale = sum(refusals.is_stale(name, it) for name, it in table.items())
    cut = sum(it.goal.endswith(refusals.CUT) for it in table.values())
    return '; '.join((
        f'of {quantity(len(found), "promise")} with an id '
        f'{sum(not laws_about(borne_by(it)) for it in found)} have no law, '
        f'{sum(not refused_of(it) for it in found)} no wrong body and '
        f'{sum(not shown.cases_of(it) for it in found)} no case, each with a reason',
        f'of {quantity(len(keys), "wrong body", "wrong bodies")} {len(keys) - len(table)} have no '
        f'answer of the prover here, {stale} one of code that has changed, {cut} one that the kit '
        f'cut, and {sum(bool(it.caveat) for it in table.values())} one against which the kit has a '
        'caveat', 'what no clause says: see TRUSTED, and the last section of PROVED'))


def rows(log: pathlib.Path | None) -> list[tuple[str, str]]:
    """The rows of the head."""
    return [*rows_of_kit(folder_of_kit()), ('Gate', gate_text(log))]
