"""The faults by number, read from docs/FAULTS.md, which is the one place of their wording."""
import re
from dataclasses import dataclass

from baytools.common.paths import FAULTS as PAGE


@dataclass
class Fault:
    """What a number means, why it mostly comes, and how it is usually mended."""
    code: int
    meaning: str
    cause: str
    mend: str


def faults() -> dict[int, Fault]:
    """Each fault of the page by its number. A cause and a mend that stand alone are those of the
    entries behind them that have none, up to the next heading."""
    found, shared = {}, ('', '')
    for entry in re.split(r'\n(?=- |#|\n)', PAGE.read_text(encoding='utf-8')):
        entry = ' '.join(entry.split())
        told = re.fullmatch(r'(.*?)(?: \*Cause:\* (.*?) \*Mend:\* (.*))?', entry)
        fault = re.fullmatch(r'- \*\*(\d+)\*\* (.*)', told[1])
        if fault:
            cause, mend = told.groups()[1:] if told[2] else shared
            found[int(fault[1])] = Fault(int(fault[1]), fault[2], cause, mend)
        elif told[2] or entry.startswith('#'):
            shared = told.groups()[1:] if told[2] else ('', '')
    return found
