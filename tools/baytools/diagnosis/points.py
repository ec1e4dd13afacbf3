"""Which name may be meant where one is unknown. Of a switch no point of another switch is ever
suggested: that would release the wrong one."""
from baytools.common.texts import upcase

from .language import FIELDS
from .place import near

KINDS = {'_POS': 'switch', '_OPEN': 'switch', '_CLOSED': 'switch', '_ENA_OPN': 'switch',
         '_ENA_CLS': 'switch', **{f'_{field}': 'meter' for field in FIELDS}}


def ending_of(name: str) -> str:
    """The ending of a point's name, as _POS, or nothing."""
    return max((ending for ending in KINDS if name.endswith(ending)), key=len, default='')


def owners_of(points) -> set[str]:
    """The switches and meters that have points, in upper case."""
    return {name.removesuffix(ending_of(name)) for name in points if ending_of(name)}


def owner_of(name: str, points) -> str:
    """The switch or meter to which a name seems to belong, or nothing."""
    return max((owner for owner in owners_of(points) if name.startswith(f'{owner}_')), key=len,
               default='')


def suggested_name(name: str, names, points) -> str:
    """What is told beside an unknown name: of these names and the points of a bay the one that is
    like it, or that its switch is not in the bay."""
    points = points or {}
    owner, ending = owner_of(name, points), ending_of(name)
    if owner:
        return near(name, [point for point in points if owner_of(point, points) == owner])
    if ending and points:
        return f': the bay has no {KINDS[ending]} {name.removesuffix(ending)}'
    return near(name, [other for other in names if upcase(other) not in points]
                + [point for point in points if not ending_of(point)])
