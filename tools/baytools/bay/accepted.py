"""The bay file of a bay that is operated or played: one that bayctl takes."""
from typing import Any

from baytools.diagnosis.bay_file import refusals

from .files import BadFile, Path, bay_at, octets_of


def accepted_bay_at(path: Path) -> tuple[str, dict[str, Any]]:
    """The text of a bay file, and its tables. One that bayctl would refuse ends the tool: of two
    switches with one id the wrong one could be operated."""
    for found in refusals(octets_of(path)):
        raise BadFile(f'{path} is refused with {found.code}: {found.place.line_text()} '
                      '(tools/diagnose tells more)')
    return bay_at(path)
