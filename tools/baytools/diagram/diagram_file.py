"""A single line diagram as a file of TOML, for a bay that its bay file describes:

    [[node]]
    name = "BB1"
    kind = "busbar"             # busbar, line, cable, transformer, earth or junction
    source = true               # it can be live from outside
    system = "110 kV"           # by which system; two sources of unlike ones are never joined
    [[node]]
    name = "LINE"
    kind = "line"
    source = true
    dead = "VT_DEAD"            # an input that is TRUE only while it is dead
    [[between]]
    switch = "QB1"              # a switch of the bay
    nodes = ["BB1", "N1"]
    [[between]]
    name = "CA1"                # a switch of another bay, by its inputs: `open` may be left out
    kind = "breaker"
    closed = "CA1_CLOSED"
    open = "CA1_OPEN"
    nodes = ["BB1", "BB2"]

A breaker with `isolates = true` keeps apart like a disconnector (IEC 62271-108).

These keys add hazards, which `bayctl audit --diagram` judges. No rule is derived from them:

    [check]
    live_parts = true           # a breaker closes between two live parts
    fed_earths = true           # an earthing switch opens while a source may feed it
    [[between]]
    switch = "QA1"
    synchro = "QA1_SYNC"        # an input that is TRUE only while it may close between live parts
    coupler = true              # it may not open while disconnectors alone bridge it
    nodes = ["BB1", "BB2"]"""
import difflib
import re
import tomllib

from baytools.bay.files import text_of
from baytools.common.texts import quantity, in_line, upcase

from .network import (BREAKER, DISCONNECTOR, EARTH, EARTHING, JUNCTION, KINDS, NODES, BadDiagram,
                      Network, Node, Switch)

NAME = '[A-Za-z][A-Za-z0-9_]{0,31}'
NODE_KEYS = {'name': str, 'kind': str, 'source': bool, 'system': str, 'dead': str}
SWITCH_KEYS = {'switch': str, 'name': str, 'kind': str, 'nodes': list, 'closed': str, 'open': str,
               'isolates': bool, 'synchro': str, 'coupler': bool}
CHECK_KEYS = {'live_parts': bool, 'fed_earths': bool}
TABLES = {'node': NODE_KEYS, 'between': SWITCH_KEYS, 'check': CHECK_KEYS}
CALLED = {str: 'a text', bool: 'true or false', list: 'a list of two names of nodes'}


def suggested_name(name: str, known) -> str:
    """What may be meant by a name that nothing has."""
    near = difflib.get_close_matches(upcase(name), [upcase(it) for it in known], 1, 0.6)
    found = next((it for it in known if near and upcase(it) == near[0]), None)
    return f'is {found} meant?' if found else (
        f'there are {", ".join(known)}' if known else 'there are none')


class Reader:
    """Reads a diagram for a bay. `title` is what the diagram is called in a refusal."""

    def __init__(self, title: str, bay: dict) -> None:
        self.title = title
        self.own = {upcase(it['id']): it for it in bay['switch']}
        self.inputs = {upcase(it['name']): it['name'] for it in bay.get('input', [])}
        self.nodes: dict[str, Node] = {}
        self.switches: list[Switch] = []

    def wrong(self, place: str, told: str) -> BadDiagram:
        return BadDiagram(f'{self.title}: {place}: {in_line(told)}')

    def read(self, text: str) -> Network:
        """The network of a text."""
        try:
            tables = tomllib.loads(text)
        except (ValueError, RecursionError) as error:
            told = f'{self.title}: it is not TOML that Python can read: {error}'
            raise BadDiagram(told) from None
        return self.of_tables(tables)

    def of_tables(self, tables: dict) -> Network:
        """The network of the tables of a diagram."""
        for name, rows in tables.items():
            if name not in TABLES:
                raise self.wrong(
                    name, f'there is no such table: {suggested_name(name, list(TABLES))}')
            if name == 'check':
                if not isinstance(rows, dict):
                    raise self.wrong(name, 'it must be a table: write [check]')
                self.check_keys(name, 'check', rows)
            elif not isinstance(rows, list) or not all(isinstance(row, dict) for row in rows):
                raise self.wrong(name, f'it must be a list of tables: write [[{name}]]')
        for number, row in enumerate(tables.get('node', []), 1):
            self.node(self.check_row('node', number, row), row)
        for number, row in enumerate(tables.get('between', []), 1):
            self.between(self.check_row('between', number, row), row)
        return self.network(tables.get('check', {}))

    def check_row(self, table: str, number: int, row: dict) -> str:
        """Refuses a row with a wrong key, and returns the place of the row for messages."""
        called = row.get('name', row.get('switch'))
        place = f'{table} {number}' + (f' ({called})' if isinstance(called, str) else '')
        self.check_keys(place, table, row)
        return place

    def check_keys(self, place: str, table: str, row: dict) -> None:
        """Refuses a key that is unknown or whose value has another type."""
        for key, value in row.items():
            if key not in TABLES[table]:
                raise self.wrong(
                    place, f'there is no key {key}: {suggested_name(key, list(TABLES[table]))}')
            if not isinstance(value, TABLES[table][key]):
                raise self.wrong(place, f'{key} must be {CALLED[TABLES[table][key]]}')

    def needed(self, place: str, row: dict, key: str) -> str:
        if key not in row:
            raise self.wrong(place, f'the key {key} is missing')
        return row[key]

    def named(self, place: str, name: str, known) -> str:
        """A name of the diagram's own, which nothing else has."""
        if not re.fullmatch(NAME, name):
            raise self.wrong(place, f'the name {name} must be a letter, then letters, digits and '
                             '_, at most 32')
        if upcase(name) in {upcase(it) for it in known}:
            raise self.wrong(place, f'the name {name} stands twice: give each its own')
        return name

    def input(self, place: str, row: dict, key: str) -> str:
        """The input that a key names, as the bay file writes it; nothing where it names none."""
        name = row.get(key, '')
        if name and upcase(name) not in self.inputs:
            raise self.wrong(place, f'{key} = "{name}" is no input of the bay file: '
                             f'{suggested_name(name, list(self.inputs.values()))}')
        return self.inputs[upcase(name)] if name else ''

    def node(self, place: str, row: dict) -> None:
        name = self.named(place, self.needed(place, row, 'name'), self.nodes)
        kind = self.needed(place, row, 'kind')
        if kind not in NODES:
            raise self.wrong(place, f'kind = "{kind}" is none: {suggested_name(kind, NODES)}')
        is_source = row.get('source', False)
        if is_source and kind in (EARTH, JUNCTION):
            raise self.wrong(place, f'a node of kind {kind} can\'t be a source: give what is live '
                             'a node of its own')
        for key in ('dead', 'system'):
            if key in row and not is_source:
                raise self.wrong(place, f'{key} is told of sources alone: add source = true, or '
                                 'leave it out')
        self.nodes[name] = Node(name, kind, is_source, row.get('system', ''),
                                self.input(place, row, 'dead'))

    def ends(self, place: str, row: dict) -> tuple[str, str]:
        """The two nodes of a switch."""
        found = self.needed(place, row, 'nodes')
        if len(found) != 2 or not all(isinstance(it, str) for it in found):
            raise self.wrong(place, 'nodes must be two names of nodes')
        known = {upcase(it): it for it in self.nodes}
        for name in found:
            if upcase(name) not in known:
                raise self.wrong(
                    place, f'{name} is no node: {suggested_name(name, list(self.nodes))}')
        one, other = (known[upcase(it)] for it in found)
        if one == other:
            raise self.wrong(place, f'both its nodes are {one}: a switch has two sides')
        return one, other

    def between(self, place: str, row: dict) -> None:
        """A switch of the bay or of another one."""
        ends, taken = self.ends(place, row), [it.name for it in self.switches]
        if ('switch' in row) == ('name' in row):
            raise self.wrong(place, 'it must have switch, for a switch of the bay, or name, for '
                             'one of another bay, and not both')
        if 'switch' in row:
            switch = self.own_switch(place, row, ends)
        else:
            switch = self.others_switch(place, row, ends)
        self.named(place, switch.name, taken)
        self.fits(place, switch)
        for key in ('synchro', 'coupler'):
            if row.get(key) not in (None, False) and not (switch.is_own and switch.kind == BREAKER):
                raise self.wrong(place, f'{key} is a key of breakers of the bay: leave it out')
        self.switches.append(switch)

    def own_switch(self, place: str, row: dict, ends: tuple[str, str]) -> Switch:
        name = row['switch']
        if upcase(name) not in self.own:
            known = [it['id'] for it in self.own.values()]
            raise self.wrong(
                place, f'{name} is no switch of the bay file: {suggested_name(name, known)}')
        for key in ('kind', 'closed', 'open'):
            if key in row:
                raise self.wrong(place, f'{key} belongs to a switch of another bay: the bay file '
                                 'tells it of this one, so leave it out')
        own = self.own[upcase(name)]
        if own['kind'] not in KINDS:
            raise self.wrong(place, 'the bay file has another kind than breaker, disconnector or '
                             'earthing; tools/diagnose tells')
        return Switch(own['id'], own['kind'], ends, isolates=row.get('isolates', False)
                      or own['kind'] == DISCONNECTOR, synchro=self.input(place, row, 'synchro'),
                      is_coupler=row.get('coupler', False))

    def others_switch(self, place: str, row: dict, ends: tuple[str, str]) -> Switch:
        kind = self.needed(place, row, 'kind')
        if kind not in KINDS:
            raise self.wrong(place, f'kind = "{kind}" is none: {suggested_name(kind, KINDS)}')
        if upcase(row['name']) in self.own:
            raise self.wrong(place, f'{row["name"]} is a switch of this bay: write switch')
        return Switch(row['name'], kind, ends, False, self.input(place, row, 'closed'),
                      self.input(place, row, 'open'), row.get('isolates', False)
                      or kind == DISCONNECTOR)

    def fits(self, place: str, switch: Switch) -> None:
        """Whether the kind of a switch fits its nodes."""
        earths = [name for name in switch.nodes if self.nodes[name].kind == EARTH]
        if len(earths) == 2:
            raise self.wrong(place, 'both its nodes are earths: one is what it earths')
        if bool(earths) != (switch.kind == EARTHING):
            told = (f'it leads to the earth {earths[0]}, so it must be of kind earthing, not '
                    f'{switch.kind}' if earths else
                    'it is of kind earthing, so one of its nodes must be of kind earth')
            raise self.wrong(place, told)
        if switch.isolates and switch.kind == EARTHING:
            raise self.wrong(place, 'an earthing switch does not isolate: leave isolates out')

    def network(self, check: dict) -> Network:
        """What was read, if it is whole."""
        there = {upcase(it.name) for it in self.switches}
        for own, row in self.own.items():
            if own not in there:
                raise self.wrong(row['id'], 'this switch of the bay is in no [[between]]: add it, '
                                 'or its rules would be missing')
        joined = {name for it in self.switches for name in it.nodes}
        for name, node in self.nodes.items():
            ends = sum(name in it.nodes for it in self.switches)
            if name not in joined:
                raise self.wrong(f'node {name}', 'no switch leads to it: leave it out')
            if node.kind == JUNCTION and ends < 2:
                raise self.wrong(f'node {name}', f'it is a junction of {quantity(ends, "switch")}: '
                                 'add the others, or give it the kind of what it is')
        if not any(it.is_source for it in self.nodes.values()):
            raise self.wrong('[[node]]', 'no node is a source: add source = true to each node that '
                             'can be live from outside')
        return Network(self.title, self.nodes, self.switches, check.get('live_parts', False),
                       check.get('fed_earths', False))


def read_diagram(text: str, title: str, bay: dict) -> Network:
    """The diagram of a text, for the tables of a bay file."""
    return Reader(title, bay).read(text)


def diagram_at(path, bay: dict) -> Network:
    """The diagram of a file."""
    return read_diagram(text_of(path, 'diagram'), getattr(path, 'name', str(path)), bay)


def file_text(network: Network) -> str:
    """A diagram as a file."""
    asked = [f'{key} = true' for key, is_asked in (
        ('live_parts', network.live_parts), ('fed_earths', network.fed_earths)) if is_asked]
    lines = ['[check]', *asked, ''] if asked else []
    for node in network.nodes.values():
        lines += ['[[node]]', f'name = "{node.name}"', f'kind = "{node.kind}"']
        lines += ['source = true'] * node.is_source
        lines += [f'{key} = "{value}"' for key, value in (
            ('system', node.system), ('dead', node.dead)) if value] + ['']
    for switch in network.switches:
        lines += ['[[between]]']
        if switch.is_own:
            lines += [f'switch = "{switch.name}"']
        else:
            lines += [f'name = "{switch.name}"', f'kind = "{switch.kind}"']
            lines += [f'{key} = "{value}"' for key, value in (
                ('closed', switch.closed), ('open', switch.opened)) if value]
        lines += ['isolates = true'] * (switch.isolates and switch.kind == BREAKER)
        lines += [f'synchro = "{switch.synchro}"'] * bool(switch.synchro)
        lines += ['coupler = true'] * switch.is_coupler
        lines += [f'nodes = ["{switch.nodes[0]}", "{switch.nodes[1]}"]', '']
    return '\n'.join(lines)
