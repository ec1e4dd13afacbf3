"""A place in a text, and what is wrong there."""
import difflib
from dataclasses import dataclass, field

from baytools.common.texts import upcase


@dataclass
class Place:
    """What is wrong, in words, and where: a line from 1 with the columns of the offending text from
    0, where they are known. `others` are further lines to look at, each with what it is; `mend` is
    the remedy for this very fault, where one is known."""
    told: str
    where: str = ''
    line: int | None = None
    start: int | None = None
    end: int | None = None
    others: list = field(default_factory=list)
    mend: str = ''

    def line_text(self) -> str:
        """What is wrong, with its place, in one line."""
        at = f'line {self.line}: ' if self.line else ''
        return f'{at}{self.where + ": " if self.where else ""}{self.told}'


def marked_line(text_line, number, start=None, end=None, width=88) -> list[str]:
    """A line with its number, and a mark under the offending part; of a long line the piece around
    it."""
    text_line = text_line.rstrip('\r\n').expandtabs(1)
    shift = max(start - width // 2, 0) if start is not None and len(text_line) > width else 0
    piece = text_line[shift:shift + width]
    lines = [f'{number:>6} | {piece}']
    if start is not None:
        size = max(min(end if end is not None else start + 1, shift + width) - start, 1)
        lines.append(f'{"":>6} | {"":{start - shift}}{"^" * size}')
    return lines


def near(name, names) -> str:
    """A name that is like another, to ask whether it was meant: as it is written there, since the
    keys of a bay file are in lower case."""
    written = {upcase(other): other for other in names}
    found = difflib.get_close_matches(upcase(name), written, 1, 0.6)
    return f'; is {written[found[0]]} meant?' if found else ''
