"""Where things are: bayctl, and what the commands read. In the repository the commands are in
tools/. A package has them, and what they read, below one folder too, and puts each on the path as
bayctl-NAME."""
import pathlib
import re
import shutil
import sys

TOOLS = pathlib.Path(__file__).resolve().parents[2]
TOP = TOOLS.parent
FAULTS, CHANGES = TOP / 'docs' / 'FAULTS.md', TOP / 'CHANGELOG.md'
CRATE = TOP / 'crates' / 'bayctl'
BUILT, TRY = CRATE / 'out' / 'bayctl', TOOLS / 'bayctl_try'
DATA = TOOLS / 'baytools' / 'data'  # what the pages of panel and station are made of
PREFIX = 'bayctl-'  # of a tool that a package put on the path


def as_called(text: str) -> str:
    """A text that names tools, as tools/audit, with the names by which they are called here."""
    if not pathlib.Path(sys.argv[0]).name.startswith(PREFIX):
        return text
    return re.sub(r'\btools/(\w+)\b', lambda it: PREFIX + it[1] if (TOOLS / it[1]).is_file()
                  else it[0], text)


def bayctl() -> pathlib.Path:
    """The program that is asked where no option names one: the one that was built here, or the one
    on the path, or the sources where they can be run. Where there is none, the place at which it
    would be built."""
    if BUILT.exists():
        return BUILT
    found = shutil.which('bayctl')
    if found:
        return pathlib.Path(found)
    return TRY if TRY.exists() and shutil.which('rt') else BUILT
