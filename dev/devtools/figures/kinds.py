"""Which crate a process of the gate works on, and what it does there."""
import pathlib
import re

KINDS = ('proof', 'tests', 'edits', 'builds', 'runs')
RUN = re.compile(r'/rt-run-[^/\s]*/bin/(\w+)')
BUILDERS = ('clang', 'ld', 'ld.lld', 'cc')


def kind_of(words: list[str], folder: str, crates: list[str]) -> tuple[str, str]:
    """The crate and the kind, by a process's words and the folder in which it runs; two empty texts
    where it is none of these. `rt` runs each program, and the tests of a crate, on a copy in a
    folder of their own, and each edit on a copy of its crate."""
    text, program = ' '.join(words), pathlib.Path(words[0]).name
    run = RUN.search(text)
    if run:
        name = run[1] if run[1] in crates else run[1].removesuffix('_tests')
        return (name, 'runs' if name == run[1] else 'tests') if name in crates else ('', '')
    named = re.search(r'--crate-name (\S+)', text)
    inside = [it for it in pathlib.PurePath(folder).parts if it in crates]
    crate = named[1] if named else inside[-1] if inside else ''
    if crate not in crates:
        return '', ''
    if re.search(r'/rt-edits?-', folder):
        return crate, 'edits'
    if '--crate-checked' in words or program in BUILDERS:
        return crate, 'builds'
    if named or program == 'rattle':
        return crate, 'tests' if '--test' in words else 'proof'
    return '', ''
