"""What a check of the program reports: the libraries that it links, and the C functions that its
proof can rest on."""
import dataclasses
import re

LIBRARY = re.compile(r'^statements (\w+): ', re.M)
COUNTS = re.compile(r'^axioms (\w+): (\d+) reached of the (\d+) declared', re.M)
# Without --list-axioms three names stand before the counts, or fewer.
SHORT = re.compile(r'^axioms (\w+): .*\((\d+) of the (\d+) declared\)$', re.M)
NONE = re.compile(r'^axioms (\w+): none reached of the (\d+) declared', re.M)
REACHED = re.compile(r'^\s*(\w+::[\w:]+)\b.*\breached$', re.M)
VERDICT = re.compile(r'^logic=proved\b.*$', re.M)


@dataclasses.dataclass(frozen=True)
class Axioms:
    """The C functions of a library: how many it declares, and those that are reached."""
    library: str
    declared: int
    reached: tuple[str, ...]


def libraries_in(report: str, ours: list[str]) -> list[str]:
    """The kit's libraries that the program is linked with."""
    return sorted(set(LIBRARY.findall(report)) - set(ours))


def axioms_in(report: str) -> list[Axioms]:
    """The C functions that are assumed to do what their statements say."""
    found, names = [], REACHED.findall(report)
    for library, reached, declared in COUNTS.findall(report):
        of = tuple(sorted({it for it in names if it.startswith(f'{library}::')}))
        if len(of) != int(reached):
            raise ValueError(f'{library}: {len(of)} are named of {reached}')
        found.append(Axioms(library, int(declared), of))
    return found


def counts_in(report: str) -> tuple[int, int]:
    """How many C functions are reached, and how many the libraries declare."""
    found = COUNTS.findall(report) + SHORT.findall(report)
    unused = sum(int(it[1]) for it in NONE.findall(report))
    return sum(int(it[1]) for it in found), sum(int(it[2]) for it in found) + unused


def verdict_in(report: str) -> str:
    """The line that says that the program is proved, or an empty text."""
    line = VERDICT.search(report)
    return line[0] if line else ''
