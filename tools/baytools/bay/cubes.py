"""The least condition of what cases say, as a sum of products. A case is a cube: for each variable
the set of its values, as bits."""
import math
from collections.abc import Iterator

from .conditions import Condition, Products, TooLarge, Variable, cells, cost, fewest, within

EXACT = 20_000  # combinations of which the fewest products are looked for
MOST = 300  # cubes that are made few, of more combinations


def union(cubes: list[tuple], sizes: list[int]) -> int:
    """The combinations of some cubes, as bits of a table."""
    table = 0
    for cube in cubes:
        table |= cells(cube, sizes)
    return table


def is_covered(cube: tuple, cubes: list[tuple]) -> bool:
    """Whether each combination of a cube lies in one of several."""
    live = [it for it in cubes if all(mine & theirs for mine, theirs in zip(cube, it))]
    if not live or any(within(cube, it) for it in live):
        return bool(live)
    place = next(at for at, theirs in enumerate(live[0]) if cube[at] & ~theirs)
    inside, outside = cube[place] & live[0][place], cube[place] & ~live[0][place]
    return all(is_covered((*cube[:place], part, *cube[place + 1:]), live)
               for part in (inside, outside))


def without(cubes: list[tuple], others: list[tuple]) -> list[tuple]:
    """The parts of some cubes that lie in none of the others. TooLarge where these are too many."""
    for other in others:
        cubes = [part for cube in cubes for part in outside(cube, other)]
        if len(cubes) > EXACT:
            raise TooLarge
    return cubes


def outside(cube: tuple, other: tuple) -> Iterator[tuple]:
    """The parts of a cube that lie outside another."""
    if not all(mine & theirs for mine, theirs in zip(cube, other)):
        yield cube
        return
    for place, theirs in enumerate(other):
        if cube[place] & ~theirs:
            yield (*cube[:place], cube[place] & ~theirs, *cube[place + 1:])
        cube = (*cube[:place], cube[place] & theirs, *cube[place + 1:])


def grown(cube: tuple, cubes: list[tuple], sizes: list[int]) -> tuple:
    """A cube with as many values as the cubes together allow."""
    for place, size in enumerate(sizes):
        whole = (1 << size) - 1
        for more in (whole, *(1 << value for value in range(size))):
            larger = (*cube[:place], cube[place] | more, *cube[place + 1:])
            if larger != cube and is_covered(larger, cubes):
                cube = larger
    return cube


def minimal_cubes(cubes: list[tuple]) -> list[tuple]:
    """The cubes without those that the others cover."""
    found = list(dict.fromkeys(cubes))
    for cube in sorted(found, key=lambda it: sum(part.bit_count() for part in it)):
        others = [it for it in found if it != cube]
        if is_covered(cube, others):
            found = others
    return found


def products_of(cubes: list[tuple], sizes: list[int]) -> tuple[list[tuple], bool]:
    """Few products that are the same combinations as the cubes, and whether none fewer are.
    TooLarge where these are too many."""
    if math.prod(sizes) <= EXACT:
        try:
            table = union(cubes, sizes)
            return fewest(Products(sizes).of(table), table, sizes)
        except TooLarge:
            pass
    if len(cubes) > MOST:
        raise TooLarge
    found = minimal_cubes([grown(cube, cubes, sizes) for cube in cubes])
    return sorted(found, key=lambda it: cost(it, sizes)), False


def condition_of(variables: list[Variable], cubes: list[tuple]) -> Condition:
    """The least condition of what lies in some cubes over these variables."""
    products, is_least = products_of(cubes, [len(it.values) for it in variables])
    parts = [[(variable, values) for variable, values in zip(variables, product)
              if values != (1 << len(variable.values)) - 1] for product in products]
    return Condition.of(parts, is_least)
