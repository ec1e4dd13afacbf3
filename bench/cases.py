"""The stored cases of crates/bayctl_cases: its sections, and the scenarios and sessions in them."""
import re
from collections.abc import Iterator

from shared import CRATES, text_of

TEXTS = ('bay', 'frame', 'logic', 'trace')


def sections(crate: str = 'bayctl_cases') -> Iterator[tuple[str, str]]:
    """The head and the body of each section of a program of cases."""
    text = text_of(CRATES / crate / 'stdin')
    for section in text.removeprefix('== ').rstrip('\n').split('\n== '):
        head, _, body = section.partition('\n')
        yield head, body


def expand_octets(trace: str) -> str:
    """A trace in which `{OCTETS*TIMES}` stands for octets that are repeated so many times."""
    return re.sub(r'\{(\w+)\*(\d+)\}', lambda part: part[1] * int(part[2]), trace)


def scenarios() -> Iterator[tuple[str, dict[str, str]]]:
    """The name of each report (empty where it has none), and the texts of its scenario."""
    texts = dict.fromkeys(TEXTS, '')
    for head, body in sections():
        if head in texts:
            texts[head] = expand_octets(body) if head == 'trace' else body
        elif head.startswith('report '):
            yield head.split(' ', 2)[2] if head.count(' ') > 1 else '', dict(texts)


def sessions() -> Iterator[list[tuple[bytes, list[str]]]]:
    """The messages of each session of one client, with the words that each one comes to."""
    for head, body in sections():
        if head == 'fronts':
            lines = (line.partition(' -> ') for line in body.split('\n'))
            yield [(bytes.fromhex(octets), told.split()) for octets, _, told in lines]
