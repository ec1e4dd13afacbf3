"""Mistakes in how a program that is accepted gives its releases: what stays set, what a return
jumps over, what is stored twice, and a position that counts as open though it is not known."""
from collections.abc import Iterator

from baytools.common.texts import upcase

from .language import JUMPS, RETURNS
from .place import Place

GIVES = ('_ENA_OPN', '_ENA_CLS')
NEGATED = {'LDN': 'LD', 'ANDN': 'AND', '&N': 'AND', 'ORN': 'OR'}
CLOSED, OPEN = '_CLOSED', '_OPEN'


def release_warnings(program, file: dict) -> list[Place]:
    """What looks like a mistake, in the order of the lines."""
    given = {upcase(it['id'] + ending) for it in file['switch'] for ending in GIVES}
    stores = [it for it in program.items if it.verb in ('ST', 'STN', 'S', 'R')
              and it.operand[0].upper in given]
    found = [*never_reset(stores), *jumped_over(program.items, stores),
             *stored_twice(program.items, stores), *not_closed(program.items, file['switch'])]
    return sorted(found, key=lambda it: it.line or 0)


def place(item, told: str, others=()) -> Place:
    token = item.operand[0]
    return Place(told, line=item.line, start=token.start, end=token.end, others=list(others))


def never_reset(stores: list) -> Iterator[Place]:
    """Releases that S sets, and that nothing takes back."""
    for it in stores:
        name = it.operand[0]
        if it.verb == 'S' and not any(other.verb != 'S' for other in stores
                                      if other.operand[0].upper == name.upper):
            yield place(it, f'S sets the release {name.text}, and no line takes it back: once '
                            f'given it stays given; is R {name.text}, or ST, missing?')


def jumped_over(items: list, stores: list) -> Iterator[Place]:
    """Releases that are stored only after a conditional return: a point keeps its value from scan
    to scan."""
    order = {id(it): at for at, it in enumerate(items)}
    first: dict[str, int] = {}
    for it in stores:
        first.setdefault(it.operand[0].upper, order[id(it)])
    for at, it in enumerate(items):
        if it.verb not in RETURNS:
            continue
        kept = [one.operand[0].text for one in stores
                if order[id(one)] == first[one.operand[0].upper] > at]
        if kept:
            names, keep = ', '.join(kept), 'keeps' if len(kept) == 1 else 'keep'
            yield Place(f'where {it.token.text} returns, {names} {keep} what an earlier scan gave: '
                        'store it before', line=it.line, start=it.token.start, end=it.token.end)


def stored_twice(items: list, stores: list) -> Iterator[Place]:
    """Releases that two lines store one after the other, with no jump or label between: the first
    one is of no use."""
    order = {id(it): at for at, it in enumerate(items)}
    last: dict = {}
    for it in stores:
        name = it.operand[0].upper
        before = last.get(name)
        if it.verb in ('ST', 'STN'):
            if before and not any(one.verb == 'label' or one.verb in JUMPS | RETURNS for one in
                                  items[order[id(before)]:order[id(it)]]):
                yield place(it, f'{it.operand[0].text} is stored twice: what line {before.line} '
                                'stores is lost; are both conditions meant, joined by OR?',
                            [(before.line, 'the first time here')])
            last[name] = it


def not_closed(items: list, switches: list) -> Iterator[Place]:
    """Switches that count as open where they are only not closed."""
    closed = {upcase(it['id'] + CLOSED): it['id'] for it in switches}
    for it in items:
        if it.verb in NEGATED and it.operand[0].upper in closed:
            switch, name = closed[it.operand[0].upper], it.operand[0].text
            yield place(it, f'{it.token.text} {name} takes {switch} for open also while it is on '
                            f'its way or bad; is {NEGATED[it.verb]} {switch}{OPEN} meant?')
