"""A copy of the crates with what was built of them, to try a change on."""
import contextlib
import os
import pathlib
import shutil
from collections.abc import Iterator

# Where `rt check` builds; in it what the crates above a crate are proved with, and what a further
# check begins with.
BUILT, LIBRARY, KEPT = 'out', 'rlib', 'incremental'
GATE, EDITS = 'must-fail', 'wrong-bodies'


def take(path: str, to: str) -> None:
    """Copies a file, or only links it where it was built, since a check replaces such a file and
    changes none."""
    if LIBRARY in pathlib.Path(path).parts or path.endswith('.oantt'):
        try:
            os.link(path, to)
            return
        except OSError:
            pass
    shutil.copy2(path, to)


def copy_of(crates: pathlib.Path, room: pathlib.Path, built: set[str]) -> None:
    """Copies the sources without edits, and these folders of what was built."""
    def left_out(folder: str, names: list[str]) -> set[str]:
        is_built = pathlib.Path(folder).name == BUILT
        return set(names) - built if is_built else set(names) & {GATE, EDITS}
    for name in ('crates.txt', 'HANDLES'):
        shutil.copy(crates.parent / name, room / name)
    shutil.copytree(crates, room / 'crates', copy_function=take, ignore=left_out)


def texts_after_edit(crate: pathlib.Path, edit: str) -> dict[str, str]:
    """The texts that an edit makes of the files of a crate: each `old` stands in its file once."""
    path, old = '', ''
    texts: dict[str, str] = {}
    for kind, _, text in (line.partition(': ') for line in edit.splitlines()):
        if kind == 'file':
            path = text
        elif kind == 'old':
            old = text
        elif kind in ('new', 'new:'):
            before = texts.get(path) or (crate / path).read_text(encoding='utf-8')
            if before.count(old) != 1:
                raise ValueError(f'{old} stands in {path} {before.count(old)} times')
            texts[path] = before.replace(old, text)
    return texts


@contextlib.contextmanager
def edited_copy(crate: pathlib.Path, edit: str) -> Iterator[None]:
    """Applies an edit to a copy of a crate, and takes it back at the end of the block."""
    texts = texts_after_edit(crate, edit)
    before = {path: (crate / path).read_text(encoding='utf-8') for path in texts}
    try:
        for path, text in texts.items():
            (crate / path).write_text(text, encoding='utf-8')
        yield
    finally:
        for path, text in before.items():
            (crate / path).write_text(text, encoding='utf-8')
