"""Where the developers' commands are, and what they read beside the sources."""
import os
import pathlib

from baytools.common.paths import TOOLS, TOP

DEV = pathlib.Path(__file__).resolve().parents[1]
DATA = DEV / 'devtools' / 'data'  # tables that commands keep, and texts that a check compares
CRATES = TOP / 'crates'
MODULES = os.pathsep.join(map(str, (TOOLS, DEV)))  # as PYTHONPATH of a program that uses both
