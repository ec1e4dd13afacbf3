"""What each crate costs the gate: the figures of dev/gate_table, and what they lack."""
import json
import re
from typing import Any

from baytools.common.paths import TOP
from devtools.paths import DATA

from .kinds import KINDS
from .stamps import changed_since

FIGURES = DATA / 'gate_figures.json'
PAGE = TOP / 'bench' / 'GATE.md'
HEADS = ('Crate', 'Code', 'Definitions', 'Proofs', 'Edits', *(it.capitalize() for it in KINDS),
         'Commit')
Row = list[int | str]


def crates() -> list[str]:
    """The crates of crates.txt, in its order."""
    return re.findall(r'^(\w+)(?: staticlib)?:', (TOP / 'crates.txt').read_text(), re.M)


def figures() -> dict[str, Any]:
    """The figures that were measured, if any."""
    found: dict[str, Any] = json.loads(FIGURES.read_text()) if FIGURES.exists() else {}
    return found


def kinds_in(crate: str) -> set[str]:
    """What a run of the gate does with a crate."""
    folder = TOP / 'crates' / crate
    sources = [it.read_text(encoding='utf-8') for it in (folder / 'src').rglob('*.rt')]
    is_program = (folder / 'src' / 'main.rt').exists()
    does = {'proof': True, 'builds': is_program, 'runs': is_program,
            'tests': any('#[test]' in it for it in sources),
            'edits': any((folder / 'must-fail').glob('*.edit'))}
    return {kind for kind, is_done in does.items() if is_done}


def lines_in(crate: str, part: str, ending: str) -> int:
    """How many lines a part of a crate has."""
    files = (TOP / 'crates' / crate / part).rglob(f'*{ending}')
    return sum(it.read_text(encoding='utf-8').count('\n') for it in files)


def row_of(crate: str, of: dict[str, Any]) -> Row:
    """A crate's row: lines of code, definitions, proofs, edits, and its figures. What a run does
    and no figure tells is `-`; what a run no longer does is 0."""
    edits = len(list((TOP / 'crates' / crate / 'must-fail').glob('*.edit')))
    lines = [lines_in(crate, 'src', '.rt'), lines_in(crate, 'specs', '.antt'),
             lines_in(crate, 'proofs', '.antt')]
    does = kinds_in(crate)
    seconds = [0 if it not in does else round(of[it]) if of.get(it) else '-' for it in KINDS]
    told = of.get('commit', '-') + (' (old)' if is_old(crate, of) else '')
    return [crate, *lines, edits, *seconds, told]


def is_old(crate: str, of: dict[str, Any]) -> bool:
    """Whether a crate was changed after its figures were measured, but for its wrong bodies, which
    the gate does not try, and for what its program reads and prints."""
    parts = tuple(f'crates/{crate}/{it}' for it in ('src', 'specs', 'proofs', 'must-fail'))
    return 'commit' in of and changed_since(of['commit'], parts) != 0


def rows() -> list[Row]:
    """The rows of all crates."""
    measured = figures().get('crates', {})
    return [row_of(it, measured.get(it, {})) for it in crates()]


def missing(rows: list[Row]) -> str:
    """What the rows lack, in words; an empty text where they lack nothing."""
    lacking = {kind: [str(row[0]) for row in rows if row[place] == '-']
               for place, kind in enumerate(KINDS, len(HEADS) - 1 - len(KINDS))}
    return '; '.join(f'{kind}: {", ".join(it)}' for kind, it in lacking.items() if it)


def total_of(rows: list[Row]) -> Row:
    """The last row: the sums of what was measured."""
    label = f'all {len(rows)}' + ', as far as measured' * bool(missing(rows))
    sums = [sum(it for it in of if it != '-') for of in list(zip(*rows))[1:-1]]
    return [label, *sums, '']


def gate_remarks() -> list[str]:
    """What dev/figures says of bench/GATE.md."""
    all_rows = rows()
    old = [row[0] for row in all_rows if str(row[-1]).endswith('(old)')]
    told = [f'bench/GATE.md: {len(old)} of {len(all_rows)} crates changed after their figures: '
            'dev/gate_table']
    lacking = missing(all_rows)
    return told + [f'bench/GATE.md: not measured: {lacking}'] * bool(lacking)
