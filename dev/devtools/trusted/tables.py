"""The tables of docs/TRUSTED.md and of its appendix."""
import pathlib

from baytools.common.ending import Failed
from devtools.figures.stamps import stamp

from .checked import Axioms
from .sizes import Size, definitions, kit, lines_of, statements, sum_of

BEGIN, END = '<!-- the figures of dev/trusted begin -->', '<!-- they end -->'
BINARIES = {'prover and front end': 'bin/rattle', 'compiler, of LLVM': 'toolchain/bin/clang',
            'second compiler': 'toolchain/bin/rattle-x64', 'linker of tests': 'bin/rattle-link'}
TOLD = {'functions': 'definitions that are functions, which cases run',
        'propositions': 'definitions that are propositions',
        'types': 'definitions that are types'}


def row(*cells: str) -> str:
    """A row of a table."""
    return f'| {" | ".join(cells)} |'


def of_definitions() -> list[str]:
    """The rows of the definitions: they are of the sources alone."""
    return [row(TOLD[kind], str(size), '') for kind, size in definitions().items()]


def of_kit(folder: pathlib.Path) -> list[str]:
    """The rows of the kit's own parts."""
    found = []
    for told, name in BINARIES.items():
        path = folder / name
        if not path.is_file():
            raise Failed(f'{name} is not in the kit')
        found.append(row(told, f'{path.stat().st_size:,} octets', sum_of(path)[:16]))
    scripts = [it for it in (folder / 'bin').iterdir() if is_script(it)]
    logic = list((folder / 'rattle' / 'logic').rglob('*.antt'))
    found.append(row('`rt` and its scripts', str(Size(len(scripts), lines_of(scripts))), ''))
    found.append(row('logic: what the code of a program means, and laws of it',
                     str(Size(len(logic), lines_of(logic))), ''))
    return found


def is_script(path: pathlib.Path) -> bool:
    """Whether a file of the kit is a script."""
    with open(path, 'rb') as file:
        return file.read(2) == b'#!' or path.suffix == '.py'


def of_libraries(folder: pathlib.Path, libraries: list[str]) -> list[str]:
    """A row for the statements of the libraries that the program is linked with."""
    lines = clauses = 0
    for it in libraries:
        more = statements(folder / 'rattle' / it)
        lines, clauses = lines + more[0], clauses + more[1]
    return [row(f'statements of the {len(libraries)} libraries of the kit that the program is '
                'linked with', f'{lines:,} lines of definitions, {clauses:,} clauses', '')]


def of_program(libraries: list[str], counts: tuple[int, int]) -> list[str]:
    """The rows of what the program is linked with."""
    reached, declared = counts
    return [*of_libraries(kit(), libraries),
            row('C functions that are assumed to do what they state', f'{reached} of {declared} '
                'that the libraries declare', '')]


def figures(more: list[str] | None = None) -> str:
    """The table of figures, under the line that says what measured it."""
    rows = [*of_definitions(), *of_kit(kit()), *(more or [])]
    return '\n'.join((stamp('dev/trusted'), '', row('What', 'Size', 'SHA-256 begins'),
                      '|---|---|---|', *rows))


def with_figures(page: str, table: str) -> str:
    """The page with these figures in the place of its old ones."""
    before, begins, rest = page.partition(BEGIN)
    _, ends, behind = rest.partition(END)
    if not begins or not ends:
        raise Failed('docs/TRUSTED.md: the marks of its figures are not there')
    return f'{before}{BEGIN}\n\n{table}\n\n{END}{behind}'


def is_of_the_sources(page: str) -> bool:
    """Whether the counts of definitions on the page are those of the sources."""
    return all(it in page for it in of_definitions())


def appendix(axioms: list[Axioms]) -> str:
    """The page of the C functions."""
    told = ['# C functions that are assumed', '',
            'The proof of the program can rest on what these C functions of the kit\'s libraries '
            'state.', 'Nothing checks that the C library and the system do so. `dev/trusted` '
            'writes this page.', '', stamp('dev/trusted')]
    for it in axioms:
        told += ['', f'## {it.library}: {len(it.reached)} of {it.declared}', '']
        told += [f'- `{name}`' for name in it.reached] or ['none']
    return '\n'.join(told) + '\n'
