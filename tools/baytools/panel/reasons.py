"""Why a switch may not be opened or closed: what is missing of the least condition under which the
program releases it (tools/audit), as far as a client sees it."""
from baytools.audit.proofs import Derived
from baytools.bay.conditions import Condition
from baytools.bay.names import UNIT
from baytools.common.positions import POSITIONS
from baytools.common.texts import upcase

STILL = 'the program does not release it'


class Seen:
    """What a client sees of a bay: positions, measured values and inputs, by names in upper case.
    Inputs are seen in profile 2 alone, and may have the name of a switch."""

    def __init__(self, positions: dict[str, str], measures: dict[str, int],
                 inputs: dict[str, bool] | None = None,
                 units: dict[str, str] | None = None) -> None:
        self.positions, self.units = positions, units or {}
        self.measures = {name: str(value) for name, value in measures.items()}
        self.inputs = {name: str(int(value)) for name, value in (inputs or {}).items()}

    def value(self, variable) -> str | None:
        is_position = set(variable.values) <= set(POSITIONS)
        known = self.positions if is_position else (
            self.inputs if variable.is_truth else self.measures)
        value = known.get(upcase(variable.name))
        return value if value is None else variable.word_of(value)

    def unit(self, variable) -> str:
        """The unit of a variable that is a measured value, behind its value; else nothing."""
        if variable.is_truth or set(variable.values) <= set(POSITIONS):
            return ''
        return ' ' + (self.units.get(upcase(variable.name)) or UNIT)

    def missing(self, product: list) -> tuple[list[str], list[str]]:
        """What of a product does not hold, and what of it nobody sees here, in words."""
        broken, unseen = [], []
        for variable, allowed in product:
            value = self.value(variable)
            if value is None:
                unseen.append(input_text(variable, allowed))
            elif value not in allowed:
                broken.append(fact_text(variable, value + self.unit(variable), allowed))
        return broken, unseen


def fact_text(variable, value, allowed) -> str:
    """A fact that is wanted, with what is so."""
    lead, named = 'be', allowed
    if 2 * len(allowed) > len(variable.values):
        lead, named = 'not be', [word for word in variable.values if word not in allowed]
    kind = 'input ' if variable.is_truth else ''
    return f'{kind}{variable.name} is {value} and must {lead} {" or ".join(named)}'


def input_text(variable, allowed) -> str:
    """An input that is wanted."""
    return f'input {variable.name} must be {" or ".join(allowed)}'


def product_text(broken: list[str], unseen: list[str], kept: tuple) -> str:
    """A product as a whole: what of it does not hold, what nobody sees here, and the timers and
    variables of the program on which it depends besides."""
    further = [f'then it depends on {", ".join(kept)}'] if kept else []
    if not broken:
        return f'{"; ".join(unseen)} ({"; ".join(["not seen here", *further])})'
    hidden = [f'not seen here: {", ".join(unseen)}'] if unseen else []
    more = '; '.join(hidden + further)
    return '; '.join(broken) + (f' ({more})' if more else '')


def products_of(condition: Condition | Derived) -> list[tuple]:
    """The products of a condition, each with the variables and timers on which it depends."""
    if isinstance(condition, Condition):
        return [(product, ()) for product in condition.facts]
    return products_of(condition.condition) + [
        (product, kept) for kept, other in condition.hanging for product in other.facts]


def why_not(condition: Condition | Derived | None, seen: Seen) -> str:
    """Why something is not released: of the products the one of which the least is missing, as far
    as it is seen, and one of which only inputs can be missing, which clients do not see. Each is
    told whole, so that it is enough."""
    if condition is None:
        return STILL
    products = products_of(condition)
    if not products:
        return 'the program never releases it'
    found = [(*seen.missing(product), kept) for product, kept in products]
    for broken, unseen, kept in found:
        if kept and not broken and not unseen:
            return f'{STILL} yet: it depends on {", ".join(kept)}'
    visible, hidden = [it for it in found if it[0]], [it for it in found if not it[0] and it[1]]
    told = [product_text(*min(some, key=lambda it: (len(it[0]), len(it[1]), len(it[2]))))
            for some in (visible, hidden) if some]
    return ', or '.join(told) if told else f'{STILL} yet: a timer may still run'
