"""The least condition under which something holds, as a sum of products (Quine and McCluskey, with
variables of several values)."""
import math
from dataclasses import dataclass, field

STEPS, CHOICES = 20_000, 20_000  # how far it looks for products, and for the fewest of them


class TooLarge(Exception):
    """The condition has too many products to be looked through."""


@dataclass(frozen=True)
class Variable:
    """A name and the values that it goes through, each by its word; of a truth there are two. The
    values of a measure may be ranges, which are those of whole numbers from the first to the
    last."""
    name: str
    values: tuple
    is_truth: bool = False
    ranges: tuple = ()

    def word_of(self, value: str) -> str:
        """The word of a value."""
        found = (word for word, (least, most) in zip(self.values, self.ranges)
                 if least <= int(value) <= most)
        return next(found, value) if self.ranges else value


def reduce_variables(sizes: list[int], truths: str) -> tuple[list[int], str]:
    """The places of the variables on which something depends, and its truths over these alone.
    `truths` has 1 or 0 for each combination of all variables, the first of them the slowest."""
    places, room = [], 1
    for place in reversed(range(len(sizes))):
        size, step = sizes[place], sizes[place] * room
        blocks = range(0, len(truths), step)
        if any(truths[at:at + step - room] != truths[at + room:at + step] for at in blocks):
            places.append(place)
            room *= size
        else:
            truths = ''.join(truths[at:at + room] for at in blocks)
    return places[::-1], truths


class Products:
    """The prime products of a table: for each variable a set of its values, as bits."""

    def __init__(self, sizes) -> None:
        self.sizes, self.steps, self.known = sizes, 0, {}
        self.rooms = [math.prod(sizes[place:]) for place in range(len(sizes) + 1)]

    def of(self, table, place=0) -> list:
        """The largest products within the table, of the variables from a place on."""
        if not table:
            return []
        if table == (1 << self.rooms[place]) - 1:
            return [tuple((1 << size) - 1 for size in self.sizes[place:])]
        key = place, table
        if key not in self.known:
            self.known[key] = self.found(table, place)
        return self.known[key]

    def found(self, table, place) -> list:
        room, size = self.rooms[place + 1], self.sizes[place]
        parts = [table >> room * value & (1 << room) - 1 for value in range(size)]
        found = []
        for values in range((1 << size) - 1, 0, -1):
            self.steps += 1
            if self.steps > STEPS:
                raise TooLarge
            both = (1 << room) - 1
            for value, part in enumerate(parts):
                both &= part if values >> value & 1 else -1
            found += [(values, *rest) for rest in self.of(both, place + 1)]
        return largest(found)


def within(one, other) -> bool:
    return all(mine & theirs == mine for mine, theirs in zip(one, other))


def largest(products) -> list:
    """Those that lie in no other."""
    found = []
    for product in sorted(set(products), key=lambda p: -sum(part.bit_count() for part in p)):
        if not any(within(product, kept) for kept in found):
            found.append(product)
    return found


def cells(product, sizes) -> int:
    """The combinations of a product, as bits of the table."""
    bits, room = 1, 1
    for values, size in reversed(list(zip(product, sizes))):
        bits = sum(bits << room * value for value in range(size) if values >> value & 1)
        room *= size
    return bits


def cost(product, sizes) -> tuple:
    """How much is said by a product: its conditions, and then their values."""
    told = [(values, size) for values, size in zip(product, sizes) if values != (1 << size) - 1]
    return len(told), sum(values.bit_count() for values, _ in told)


def fewest(products, table, sizes) -> tuple:
    """The fewest products that cover the table: those that nothing else can stand for, and of the
    rest the best that is found; whether it is sure that no fewer do."""
    covers = {product: cells(product, sizes) for product in products}
    ordered = sorted(products, key=lambda product: cost(product, sizes))
    chosen, left = [], table
    once, twice = 0, 0
    for bits in covers.values():
        twice |= once & bits
        once |= bits
    for product in ordered:
        if covers[product] & once & ~twice:
            chosen.append(product)
            left &= ~covers[product]
    rest = [product for product in ordered if covers[product] & left]
    more, is_sure = search(rest, covers, left)
    return sorted(chosen + more, key=lambda product: cost(product, sizes)), is_sure


def greedy(rest, covers, left) -> list:
    chosen = []
    while left:
        best = max(rest, key=lambda product: (covers[product] & left).bit_count())
        chosen.append(best)
        left &= ~covers[best]
    return chosen


def search(rest, covers, left) -> tuple:
    """The fewest of the rest that cover what is left, by branch and bound."""
    best, steps = greedy(rest, covers, left), 0

    def go(left, chosen) -> None:
        nonlocal best, steps
        steps += 1
        if not left:
            best = chosen if len(chosen) < len(best) else best
            return
        if len(chosen) + 1 >= len(best) or steps > CHOICES:
            return
        cell = left & -left
        for product in rest:
            if covers[product] & cell:
                go(left & ~covers[product], [*chosen, product])

    go(left, [])
    return best, steps <= CHOICES


@dataclass
class Condition:
    """A sum of products: of each the words for its parts; no product is never, one without parts is
    always. `is_least` is whether no shorter sum is possible; `facts` are the parts once more, each
    as a variable with the words of its values."""
    products: list
    is_least: bool = True
    facts: list = field(default_factory=list)

    @classmethod
    def of(cls, parts: list, is_least: bool = True) -> 'Condition':
        """The condition of products, whose parts are variables with bits for their values."""
        told = [[part_text(*part) for part in product] for product in parts]
        facts = [[(variable, words_of(variable, values)) for variable, values in product]
                 for product in parts]
        return cls(told, is_least, facts)

    def text(self) -> str:
        return ' or '.join(self.lines())

    def lines(self) -> list:
        """The words of each product; never and always have one line."""
        if not self.products:
            return ['never']
        if self.products == [[]]:
            return ['always']
        return [' and '.join(parts) for parts in self.products]


def words_of(variable: Variable, values: int) -> list[str]:
    """The words of some values."""
    return [word for at, word in enumerate(variable.values) if values >> at & 1]


def ranges_text(variable: Variable, values: int) -> str:
    """Which ranges of a measure are meant, as comparisons of the rules."""
    merged = []
    for at, (least, most) in enumerate(variable.ranges):
        if values >> at & 1:
            if merged and merged[-1][1] + 1 == least:
                least = merged.pop()[0]
            merged.append((least, most))
    first, last = variable.ranges[0][0], variable.ranges[-1][1]
    told = [f'{variable.name} {least}' if least == most else
            f'{variable.name} <= {most}' if least == first else
            f'{variable.name} >= {least}' if most == last else
            f'{variable.name} >= {least} and {variable.name} <= {most}' for least, most in merged]
    return told[0] if len(told) == 1 else f'({" or ".join(told)})'


def part_text(variable, values) -> str:
    """One part of a product, in the words of the rules."""
    if variable.ranges:
        return ranges_text(variable, values)
    chosen = words_of(variable, values)
    if variable.is_truth:
        return variable.name if values == 2 else f'not {variable.name}'
    if len(chosen) > len(variable.values) / 2:
        others = [word for word in variable.values if word not in chosen]
        return f'{variable.name} not {"|".join(others)}'
    return f'{variable.name} {"|".join(chosen)}'


def condition(variables: list[Variable], truths: str) -> Condition:
    """The least condition of what holds, by 1 or 0 for each combination of the variables' values,
    the first variable the slowest."""
    places, truths = reduce_variables([len(it.values) for it in variables], truths)
    kept = [variables[place] for place in places]
    if not kept:
        return Condition([[]], facts=[[]]) if truths[:1] == '1' else Condition([])
    sizes, table = [len(it.values) for it in kept], int(truths[::-1], 2)
    products, is_least = fewest(Products(sizes).of(table), table, sizes)
    return Condition.of([[(variable, values) for variable, values in zip(kept, product)
                          if values != (1 << len(variable.values)) - 1]
                         for product in products], is_least)
