"""The names of a bay: those of its file, by the logical nodes that a server has of them."""
import re
import tomllib

from baytools.common.texts import upcase

UNIT = 'in the unit of the process'  # of measured values for which the bay file names none
UNITS = {'TOTW': 'W', 'TOTVAR': 'VAr', 'HZ': 'Hz', 'AA': 'A', 'AB': 'A', 'AC': 'A'}
PREFIXES = {-6: '\u00b5', -3: 'm', 0: '', 3: 'k', 6: 'M'}
INPUTS = 'GGIO1'  # the logical node of the inputs
# The fields of a meter by what stands for them behind MMXU1$MX.
FIELDS = {('TotW',): 'TOTW', ('TotVAr',): 'TOTVAR', ('Hz',): 'HZ', ('A', 'phsA'): 'AA',
          ('A', 'phsB'): 'AB', ('A', 'phsC'): 'AC'}


def unit_text(field: str, scale: int | None) -> str:
    """The unit of a field of a meter with this scale, or nothing where it has none."""
    if scale is None:
        return ''
    return PREFIXES.get(scale, f'10^{scale} ') + UNITS[field]


class Names:
    """The names of a bay: its domain, the ids of its switches and meters by their logical nodes,
    and in profile 2 the names of its inputs. None are known without a bay file."""

    def __init__(self, text=None) -> None:
        bay = tomllib.loads(text) if text is not None else {}
        self.domain = bay.get('bay', {}).get('domain', '')
        self.profile = bay.get('bay', {}).get('profile', 1)
        self.inputs = [it['name'] for it in bay.get('input', [])] if self.profile == 2 else []
        self.scales = {meter['id']: meter.get('scale') for meter in bay.get('meter', [])}
        self.travels = {switch['id']: switch.get('travel_ms') for switch in bay.get('switch', [])}
        self.keys = {switch['id']: switch['remote'] for switch in bay.get('switch', [])
                     if 'remote' in switch}
        self.ids, counts = {}, {'XCBR': 0, 'XSWI': 0}
        for place, switch in enumerate(bay.get('switch', []), 1):
            kind = 'XCBR' if switch['kind'] == 'breaker' else 'XSWI'
            counts[kind] += 1
            self.ids |= {f'CSWI{place}': switch['id'], f'CILO{place}': switch['id'],
                         f'{kind}{counts[kind]}': switch['id']}
        self.ids |= {f'MMXU{place}': meter['id']
                     for place, meter in enumerate(bay.get('meter', []), 1)}

    def travel(self, switch: str) -> int | None:
        """How many milliseconds a switch may take, where that is known."""
        travel = self.travels.get(switch)
        return travel if isinstance(travel, int) else None

    def key(self, switch: str) -> str:
        """The input that is TRUE while the key of a switch is at remote, or nothing."""
        return self.keys.get(switch, '')

    def unit(self, meter: str, field: str) -> str:
        """The unit of a measured value, or that it is not known here."""
        scale = next((it for name, it in self.scales.items() if upcase(name) == upcase(meter)),
                     None)
        return unit_text(upcase(field), scale) or UNIT

    def input(self, path) -> str:
        """The name of the input whose data object a path below GGIO1 names, or nothing."""
        found = re.fullmatch('Ind([1-9][0-9]*)', path[1]) if len(path) > 1 else None
        return self.inputs[int(found[1]) - 1] if found and int(found[1]) <= len(self.inputs) else ''

    def item(self, name) -> str:
        """A name without this bay's domain."""
        domain, _, item = name.partition('/')
        return item if item and (domain == self.domain or not self.domain) else name

    def titled(self, name) -> str:
        """A name without the domain, and with the id of the switch or meter or the name of the
        input that it belongs to; of a measured value with its point and its unit, or that this is
        not known here."""
        item = self.item(name)
        node, *path = item.split('$')
        owner = self.ids.get(node) or (self.input(path) if node == INPUTS else '')
        field = next((word for at, word in FIELDS.items() if tuple(path[1:1 + len(at)]) == at), '')
        if not owner or not node.startswith('MMXU') or not field:
            return f'{item} ({owner})' if owner else item
        is_value = path[0] == 'MX' and path[-1] not in ('q', 't')
        unit = f', {self.unit(owner, field)}' if is_value else ''
        return f'{item} ({owner}_{field}{unit})'

    def switch(self, name) -> str:
        """The id of a control's switch, or its logical node."""
        node = self.item(name).split('$')[0]
        return self.ids.get(node, node)

    def node(self, switch) -> str | None:
        """The control's logical node of a switch, by its id or as it stands; None where there is
        none."""
        found = next((node for node, name in self.ids.items() if node.startswith('CSWI')
                      and upcase(name) == upcase(switch)), None)
        return found or (upcase(switch) if re.fullmatch('CSWI[0-9]+', upcase(switch)) else None)
