"""The definitions by the standards that they stand for: what the comment above each cites, or the
heading under which it stands, or the head of its file."""
import functools
import re

from devtools.paths import CRATES

from .calls import Call, crates
from .definitions import Definition, Reader, definitions_cited
from .promises import public_laws

NAME = (r'X\.\d{3}|ISO \d{4}(?:-\d)?|RFC \d{4}|IEC 61131-3(?::2003)?|'
        r'(?:IEC )?61850-\d(?:-\d)?')
CITED = re.compile(rf'({NAME})(?:[,:]? ((?:(?!{NAME})[^;)])*))?')
CLAUSE = re.compile(r'table \d+|annex [A-Z]\b(?!\.\d)|\b[A-Z](?:\.\d+)+|\d+(?:\.\d+)+|'
                    r'\b\d{1,2}\b(?! octets)|\b[A-Z][\w-]*[A-Z][\w-]*|'
                    r'\b[A-Z][a-z]+(?:-[a-z]+)*\b|\b[a-z]+[A-Z]\w*')
TABLES = re.compile(r'tables (\d+(?:, \d+)* and \d+)')
OWN = 'of this repository alone'
# Words of a sentence that begin like a name.
NO_NAMES = {'It', 'The', 'A', 'In', 'Each', 'What'}
# What a comment, or all of a heading before its colon, says of a definition of our own.
OWN_MARK = re.compile(r'\(own\)|^own$')
# The crates whose definitions all say of what standard and clause they are, or that they are own.
STATED = ('bay_ber', 'bay_transport', 'bay_assoc', 'bay_mms', 'bay_nodes', 'bay_control', 'il_text',
          'il_check', 'il_image')


def clauses_in(text: str) -> list[tuple[str, str]]:
    """The standards that a comment cites, each with a clause, or with an empty text."""
    found = []
    text = TABLES.sub(lambda it: ', '.join(f'table {n}' for n in re.findall(r'\d+', it[1])), text)
    for name, rest in CITED.findall(text):
        name = name if not name.startswith('6') else f'IEC {name}'
        named = [it for it in CLAUSE.findall(rest.split(' with ')[0]) if it not in NO_NAMES]
        found += [(name.removesuffix(':2003'), it) for it in named] or [(name, '')]
    return list(dict.fromkeys(found))


def head_of_file(crate: str, stem: str) -> str:
    """The comment at the head of a file of definitions."""
    lines = (CRATES / crate / 'specs' / f'{stem}.antt').read_text(encoding='utf-8').split('\n')
    head = []
    for it in lines:
        if not it.startswith('--'):
            break
        head.append(it.lstrip('- '))
    return ' '.join(head)


def clauses_of_definition(it: Definition) -> list[tuple[str, str]]:
    """The clauses that the comment above a definition cites, or else its heading before a colon; or
    that it is our own, with what the heading says of it."""
    standard, _, words = it.heading.partition(': ')
    found = [place for place in clauses_in(it.told) if place[1]]
    if OWN_MARK.search(it.told):
        return [(OWN, it.crate)]
    if not found and OWN_MARK.search(standard):
        return [(OWN, f'{it.crate}: {words}')]
    return found or [place for place in clauses_in(standard) if place[1]]


@functools.cache
def definitions_of(crate: str) -> tuple[Definition, ...]:
    """All definitions of a crate."""
    return tuple(it for path in sorted((CRATES / crate / 'specs').glob('*.antt'))
                 for it in Reader(crate, path).read())


def counts(crate: str) -> tuple[int, int, int]:
    """How many definitions a crate has, how many name a clause, and how many say that they are our
    own."""
    places = [clauses_of_definition(it) for it in definitions_of(crate)]
    own = sum(any(standard == OWN for standard, _ in it) for it in places)
    return len(places), sum(map(bool, places)) - own, own


@functools.cache
def by_clause() -> dict[tuple[str, str], list[Definition]]:
    """The definitions of each standard and clause; those that name none are of our own."""
    found: dict[tuple[str, str], list[Definition]] = {}
    for crate in crates():
        for it in definitions_of(crate):
            places = clauses_of_definition(it) or clauses_in(head_of_file(crate, it.path.stem))
            for place in places or [(OWN, crate)]:
                found.setdefault(place, []).append(it)
    return dict(sorted(found.items(), key=lambda it: order_of(*it[0])))


def order_of(standard: str, clause: str) -> tuple:
    """Where a clause stands: by standard, then by its numbers; our own last."""
    numbers = [int(it) for it in re.findall(r'\d+', clause)]
    return standard == OWN, standard, not clause, not clause[:1].isdigit(), numbers, clause


@functools.cache
def laws_of(definition: Definition) -> tuple[Call, ...]:
    """The public laws that cite a definition."""
    return tuple(it for it in public_laws() if definition in definitions_cited(it))
