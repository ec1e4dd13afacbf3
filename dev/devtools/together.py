"""Tries wrong bodies of different functions together, in one check of these functions alone. A call
is proved by the contracts of what it calls, so what another body does changes no answer, and a
crate is refused if one of its functions is."""
import dataclasses
import pathlib
import re
import subprocess
from collections.abc import Callable, Iterator

from devtools.crate_copy import texts_after_edit

MOST = 12  # edits of one check
BAD = 'BAD EDIT: '
CALLED = 'it calls what is not proved'
# Said of a function that calls one which is not proved, so nothing is said of its own body.
CALLS = re.compile(r'no proof: it calls |not proved; it calls ')
FUNCTION = re.compile(r'^ *(?:pub(?:\([\w: ]+\))? )?(?:const )?(?:unsafe )?fn (\w+)', re.M)
BLOCK = re.compile(r'^(?:unsafe )?impl(?:<[^\n]*?>)? (?:([^\n]*) for )?(\w+)[^\n]*$|^}', re.M)
# What a check says of a function, and what it ends with once it has reached the prover.
SAID = re.compile(r'^fn (\S+): (.*)$', re.M)
REACHED, WHOLE = re.compile(r'^only=\d+ proved=\d+$', re.M), re.compile(r'^logic=proved ', re.M)
ERROR = re.compile(r'\berror(?:\[[\w-]+\])?: ')
# A goal and its place, and no advice of the prover.
PLACED = re.compile(r'^(?:note: )?(?:\./)?(\S+?):(\d+):(\d+: (?!note: |warning: ).*)$', re.M)


@dataclasses.dataclass(frozen=True)
class Function:
    """A function of a file: the end of its name as a check prints it, if it is known, and its
    lines."""
    file: str
    name: str
    first: int
    last: int

    def is_of(self, place: str, line: int) -> bool:
        """Whether a line of code, or of a file of its proof, belongs to it."""
        if place == self.file:
            return self.first <= line <= self.last
        return f'/{self.name.rpartition("::")[2]}/' in f'/{place}'


@dataclasses.dataclass(frozen=True)
class Tried:
    """An edit, and the functions that it changes: none if it changes something else, too."""
    name: str
    text: str
    functions: tuple[Function, ...]


def functions_of(file: str, text: str) -> list[Function]:
    """The functions of a file. A method is named by its type, which may be of another module; the
    methods of a trait have no name here, since what a check prints of one is not in the file."""
    module = '::'.join(it for it in pathlib.Path(file).with_suffix('').parts[1:]
                       if it not in ('lib', 'main', 'mod'))
    starts = list(FUNCTION.finditer(text))
    ends = [it.start() for it in starts[1:]] + [len(text)]
    found = []
    for it, end in zip(starts, ends):
        block = next((found for found in reversed(list(BLOCK.finditer(text, 0, it.start())))), None)
        kind = '' if block is None or block[0] == '}' or it[0][0] != ' ' else block[2]
        is_trait = bool(kind and block and block[1])
        before = kind or module
        name = '' if is_trait else f'{before}::{it[1]}' if before else it[1]
        found.append(Function(file, name, text.count('\n', 0, it.start()) + 1,
                              text.count('\n', 0, end)))
    return found


def is_in_body(text: str, function: Function, at: int) -> bool:
    """Whether a place of a file is behind the line with which the body of its function begins, and
    the function promises something."""
    lines = text.splitlines()
    line = text.count('\n', 0, at) + 1
    indent = re.match(' *', lines[function.first - 1])[0]  # type: ignore[index]
    begins = next((number for number in range(function.first, function.last + 1)
                   if lines[number - 1] == f'{indent}{{' or lines[number - 1].endswith(' {') and
                   (number == function.first or lines[number - 1].startswith(f'{indent})'))), None)
    if begins is None or begins >= line:
        return False
    return any('ensures ' in it for it in lines[function.first - 1:begins])


def changed_by(crate: pathlib.Path, edit: str) -> tuple[Function, ...]:
    """The functions whose bodies alone an edit changes, or none."""
    path, found = '', []
    for kind, _, text in (line.partition(': ') for line in edit.splitlines()):
        if kind == 'file':
            path = text
        elif kind == 'old':
            whole = (crate / path).read_text(encoding='utf-8')
            at = whole.find(text)
            line = whole.count('\n', 0, at) + 1
            of = [it for it in functions_of(path, whole) if it.first <= line <= it.last]
            if (at < 0 or not path.startswith('src/') or not of or not of[0].name
                    or not is_in_body(whole, of[0], at)):
                return ()
            found += [it for it in of if it not in found]
    return tuple(found)


def groups(edits: list[Tried]) -> Iterator[list[Tried]]:
    """The edits in groups of which no two change one function, and each other edit alone."""
    left = [it for it in edits if it.functions]
    while left:
        group: list[Tried] = []
        names: set[str] = set()
        for it in left:
            own = {function.name.rpartition('::')[2] for function in it.functions}
            if len(group) < MOST and not own & names:
                group.append(it)
                names |= own
        left = [it for it in left if it not in group]
        yield group
    yield from ([it] for it in edits if not it.functions)


def texts_after(crate: pathlib.Path, edits: list[Tried]) -> dict[str, str]:
    """The texts of files after several edits, of which no two change one place."""
    texts: dict[str, str] = {}
    for it in edits:
        path, old = '', ''
        for kind, _, text in (line.partition(': ') for line in it.text.splitlines()):
            if kind == 'file':
                path = text
            elif kind == 'old':
                old = text
            elif kind in ('new', 'new:'):
                before = texts.get(path) or (crate / path).read_text(encoding='utf-8')
                texts[path] = before.replace(old, text)
    return texts


def answer_to(it: Tried, printed: str) -> str | None:
    """What a check that reached the prover says against an edit: its first open goal; nothing, if
    it proves all that the edit changes."""
    said = dict(SAID.findall(printed))
    lines = PLACED.findall(printed)
    if not it.functions:
        return None if WHOLE.search(printed) else next(
            (f'{place}:{line}:{text}' for place, line, text in lines), 'no proof')
    found = None
    for function in it.functions:
        own = [text for name, text in said.items()
               if name == function.name or name.endswith(f'::{function.name}')]
        if not own or any(text != 'proved' for text in own):
            goal = next((f'{place}:{line}:{text}' for place, line, text in lines
                         if function.is_of(place, int(line))), '')
            goal = goal or next((text for text in own
                                 if text != 'proved' and not CALLS.match(text)), CALLED)
            if goal != CALLED:
                return goal
            found = CALLED
    return found


def try_group(crate: pathlib.Path, edits: list[Tried],
              check: Callable[[list[str]], str]) -> dict[str, str | None]:
    """Tries edits together: by its name, what is said against each, or nothing. If they don't reach
    the prover together, each is tried alone, as is one whose function calls another that is
    refused. What says that an edit is bad begins with BAD."""
    texts = texts_after(crate, edits)
    before = {path: (crate / path).read_text(encoding='utf-8') for path in texts}
    try:
        if len(edits) == 1:
            texts = texts_after_edit(crate, edits[0].text)
        for path, text in texts.items():
            (crate / path).write_text(text, encoding='utf-8')
        printed = check([function.name for it in edits for function in it.functions])
    finally:
        for path, text in before.items():
            (crate / path).write_text(text, encoding='utf-8')
    told: dict[str, str | None] = {}
    if REACHED.search(printed) or WHOLE.search(printed) or (
            not edits[0].functions and SAID.search(printed)):
        told = {it.name: answer_to(it, printed) for it in edits}
    if len(edits) > 1:
        for it in edits:
            if told.get(it.name, CALLED) == CALLED:
                told |= try_group(crate, [it], check)
    if told:
        return told
    lines = [it for it in printed.splitlines() if ERROR.search(it)]
    return {edits[0].name: f'{BAD}{lines[0] if lines else printed[-200:]}'}


def run(words: list[str], folder: pathlib.Path, names: list[str], seconds: int) -> str:
    """What a check of functions by their names prints, or of the whole crate without names."""
    only = [word for name in dict.fromkeys(names) for word in ('--only', name)]
    done = subprocess.run([*words, *only], cwd=folder, stdout=subprocess.PIPE,
                          stderr=subprocess.STDOUT, stdin=subprocess.DEVNULL, text=True,
                          errors='replace', timeout=seconds)
    return done.stdout


def line_of(name: str, said: str | None) -> str:
    """What is printed of an edit, as the kit does."""
    if said is None:
        return f'must-fail {name}.edit: NOT REFUSED: the crate is still proved'
    if said.startswith(BAD):
        return f'must-fail {name}.edit: {said}'
    return f'must-fail {name}.edit: refused, as it must be: {said}'
