"""Where and why a diagram file is refused: its refusals, in the order in which bayctl looks for
them, each with its number (146 to 155) and its place. A check goes over all nodes, and then over
all switches; the checks behind one that finds something are left out, since they rest on it."""
import re
from collections.abc import Callable, Iterator
from typing import Any

from baytools.common.texts import quantity, upcase
from baytools.diagram.network import BREAKER, EARTH, EARTHING, JUNCTION, KINDS, NODES

from . import bay_file
from .bay_file import Lines, Refused
from .place import Place, near

NAME = re.compile('[A-Za-z][A-Za-z0-9_]{0,31}', re.ASCII)
MOST = 64  # tables of a section
SECTIONS = ('node', 'between')
CHECK, CHECK_KEYS = 'check', ('live_parts', 'fed_earths')
KEYS = {'node': ('name', 'kind', 'source', 'system', 'dead'),
        'between': ('switch', 'name', 'kind', 'nodes', 'closed', 'open', 'isolates', 'synchro',
                    'coupler')}
NEEDED = {'node': ('name', 'kind'), 'between': ('nodes',)}
WORDS = {'node': NODES, 'between': KINDS}
IDS = ('name', 'switch')
OF_OTHERS = ('kind', 'closed', 'open')  # keys of a switch of another bay
OF_BREAKERS = ('synchro', 'coupler')  # keys of a breaker of the bay


class Rows:
    """The tables of a diagram file, with their places in its text, for the tables of a bay file."""

    def __init__(self, file: dict[str, Any], text: str, bay: dict[str, Any]) -> None:
        self.file, self.lines = file, Lines(text)
        self.bay = {upcase(it['id']): it for it in bay['switch']}
        self.inputs = {upcase(it['name']): it['name'] for it in bay.get('input', [])}

    def of(self, section: str) -> list[dict[str, Any]]:
        """The tables of a section."""
        return self.file[section]

    def refused(self, code: int, section: str, index: int, told: str, key: str | None = None,
                mend: str = '') -> Refused:
        """The refusal of a table, at a key of it."""
        rows = self.of(section)
        row = rows[index] if isinstance(rows[index], dict) else {}
        name = next((row[it] for it in IDS if isinstance(row.get(it), str)), '')
        where = f'{section} {index + 1}' + (f' ({name})' if name else '')
        place = self.lines.place(told, where, section, index, len(rows), key)
        place.mend = mend
        return Refused(code, place)

    def node(self, name: str) -> dict[str, Any] | None:
        """The first node with a name."""
        return next((it for it in self.of('node') if upcase(it['name']) == upcase(name)), None)

    def kind(self, row: dict[str, Any]) -> str:
        """The kind of the switch of a table."""
        return self.bay[upcase(row['switch'])]['kind'] if 'switch' in row else row['kind']


def refusals(octets: bytes, bay: dict[str, Any]) -> list[Refused]:
    """What bayctl refuses of a diagram file, for the tables of a bay file, the first one first."""
    try:
        text = bay_file.text_of(octets)
        rows = Rows(bay_file.table_of(text), text, bay)
    except Refused as refused:
        return [Refused(146, refused.place)]
    for check in CHECKS:
        found = list(check(rows))
        if found:
            return found
    return []


# ---- sections

def sections(rows: Rows) -> Iterator[Refused]:
    """Sections that are unknown, missing, no lists, or too long."""
    for name in rows.file:
        if name not in (*SECTIONS, CHECK):
            yield Refused(147, Place(f'there is no section {name}{near(name, (*SECTIONS, CHECK))}',
                                     line=rows.lines.top.get(name)))
    for name in SECTIONS:
        held, line = rows.file.get(name), rows.lines.top.get(name)
        if held is None or held == []:
            yield Refused(148, Place(f'no section [[{name}]] is there'))
        elif not isinstance(held, list):
            yield Refused(149, Place(f'{name} is no list of tables', line=line,
                                     mend=f'write [[{name}]]'))
        elif len(held) > MOST:
            told = f'there are {quantity(len(held), "table")} [[{name}]], but may be {MOST} at most'
            yield Refused(150, Place(told, line=line))
    yield from check_keys(rows)


def check_keys(rows: Rows) -> Iterator[Refused]:
    """What is wrong with the table `check`, which may be missing."""
    table = rows.file.get(CHECK, {})
    if not isinstance(table, dict):
        yield Refused(149, Place('check is no table', line=rows.lines.top.get(CHECK),
                                 mend='write [check]'))
        return
    for key in table:
        if key not in CHECK_KEYS:
            yield Refused(147, rows.lines.place(f'there is no key {key}{near(key, CHECK_KEYS)}',
                                                CHECK, CHECK, 0, 1, key))
    for key in CHECK_KEYS:
        if not isinstance(table.get(key, False), bool):
            yield Refused(149, rows.lines.place(f'{key} must be true or false', CHECK, CHECK, 0, 1,
                                                key))


# ---- a table by itself

def each(rows: Rows) -> Iterator[tuple[str, int, Any]]:
    """Each table of both sections, with its section and index."""
    for section in SECTIONS:
        for index, row in enumerate(rows.of(section)):
            yield section, index, row


def unknown_keys(rows: Rows) -> Iterator[Refused]:
    for section, index, row in each(rows):
        for key in row if isinstance(row, dict) else ():
            if key not in KEYS[section]:
                yield rows.refused(147, section, index,
                                   f'there is no key {key}{near(key, KEYS[section])}', key)


def missing_keys(rows: Rows) -> Iterator[Refused]:
    for section, index, row in each(rows):
        for key in NEEDED[section]:
            if isinstance(row, dict) and key not in row:
                yield rows.refused(148, section, index, f'the key {key} is missing',
                                   mend=f'add {key}')


def bad_values(rows: Rows) -> Iterator[Refused]:
    for section, index, row in each(rows):
        if not isinstance(row, dict):
            yield rows.refused(149, section, index, 'it is no table', mend=f'write [[{section}]]')
            continue
        for key, value in row.items():
            told = wrong_value(section, key, value)
            if told:
                yield rows.refused(149, section, index, told, key)


def wrong_value(section: str, key: str, value: Any) -> str:
    """What is wrong with the value at a key, in words; nothing if it may be there."""
    if key in ('source', 'isolates', 'coupler'):
        return '' if isinstance(value, bool) else f'{key} must be true or false'
    if key == 'nodes':
        is_pair = isinstance(value, list) and [type(it) for it in value] == [str, str]
        return '' if is_pair else 'nodes must be a list of two names of nodes'
    if not isinstance(value, str):
        return f'{key} must be a text'
    if key == 'kind' and value not in WORDS[section]:
        return f'kind must be one of {", ".join(WORDS[section])}{near(value, WORDS[section])}'
    if key in IDS and not NAME.fullmatch(value):
        return f'{key} must be a letter, then letters, digits and _, at most 32 characters'
    return ''


# ---- names

def name_of(row: dict[str, Any]) -> str:
    """The name of a node or a switch, as far as it has one."""
    return row.get('switch', row.get('name', ''))


def names_twice(rows: Rows) -> Iterator[Refused]:
    for section in SECTIONS:
        seen: dict[str, list[int]] = {}
        for index, row in enumerate(rows.of(section)):
            seen.setdefault(upcase(name_of(row)), []).append(index)
        for one, *others in seen.values():
            if others:
                row = rows.of(section)[one]
                name, key = name_of(row), 'switch' if 'switch' in row else 'name'
                refused = rows.refused(151, section, one, f'the name {name} occurs twice' if name
                                       else 'two tables have no name', key)
                line = rows.lines.entry(section, others[0], len(rows.of(section)))
                refused.place.others = [(line, 'again here')] if line else []
                yield refused


def unknown_names(rows: Rows) -> Iterator[Refused]:
    nodes = [it['name'] for it in rows.of('node')]
    ids = [it['id'] for it in rows.bay.values()]
    inputs = list(rows.inputs.values())
    for section, index, row in each(rows):
        named = [('dead', row.get('dead'), inputs, 'input of the bay file')] if (
            section == 'node') else [
            *(('nodes', name, nodes, 'node') for name in row['nodes']),
            ('switch', row.get('switch'), ids, 'switch of the bay file'),
            *((key, row.get(key), inputs, 'input of the bay file')
              for key in ('closed', 'open', 'synchro'))]
        for key, name, known, what in named:
            if name is not None and upcase(name) not in map(upcase, known):
                yield rows.refused(152, section, index,
                                   f'{name} is no {what}{near(name, known)}', key)


# ---- what nodes and switches may be

def bad_sources(rows: Rows) -> Iterator[Refused]:
    for index, row in enumerate(rows.of('node')):
        is_source = row.get('source', False)
        if is_source and row['kind'] in (EARTH, JUNCTION):
            yield rows.refused(153, 'node', index, f'a node of kind {row["kind"]} is no source',
                               'source', 'give what can be live a node of its own')
        for key in ('dead', 'system'):
            if not is_source and key in row:
                yield rows.refused(153, 'node', index, f'{key} is a key of sources', key,
                                   f'add source = true, or leave {key} out')


def bad_keys(rows: Rows) -> Iterator[Refused]:
    for index, row in enumerate(rows.of('between')):
        if ('switch' in row) == ('name' in row):
            told = 'it has switch and name' if 'switch' in row else 'it has neither switch nor name'
            yield rows.refused(154, 'between', index, told, mend='write switch for a switch of the '
                               'bay, or name and kind for one of another bay')
        elif 'switch' in row:
            for key in OF_OTHERS:
                if key in row:
                    yield rows.refused(154, 'between', index, f'{key} is a key of switches of '
                                       'other bays', key, 'leave it out: the bay file has it')
        elif 'kind' not in row:
            yield rows.refused(154, 'between', index, 'the kind is missing', 'name', 'add kind')
        elif upcase(row['name']) in rows.bay:
            yield rows.refused(154, 'between', index, f'{row["name"]} is a switch of this bay',
                               'name', 'write switch in place of name')
        yield from breaker_keys(rows, index, row)


def breaker_keys(rows: Rows, index: int, row: dict[str, Any]) -> Iterator[Refused]:
    """The keys of a breaker of the bay at a switch that is none."""
    kind = rows.bay[upcase(row['switch'])]['kind'] if 'switch' in row else ''
    for key in OF_BREAKERS:
        if row.get(key) not in (None, False) and kind != BREAKER:
            yield rows.refused(154, 'between', index, f'{key} is a key of breakers of the bay', key,
                               'leave it out')


def bad_nodes(rows: Rows) -> Iterator[Refused]:
    for index, row in enumerate(rows.of('between')):
        one, other = row['nodes']
        kind = rows.kind(row)
        earths = [name for name in (one, other) if is_earth(rows, name)]
        if upcase(one) == upcase(other):
            yield rows.refused(154, 'between', index, f'both its nodes are {one}', 'nodes')
        elif kind == EARTHING and len(earths) != 1:
            told = 'both of its nodes are earths' if earths else 'none of its nodes is an earth'
            yield rows.refused(154, 'between', index, f'it is an earthing switch, and {told}',
                               'nodes')
        elif kind != EARTHING and earths:
            yield rows.refused(154, 'between', index, f'it leads to the earth {earths[0]}, and is '
                               f'of kind {kind}', 'nodes')
        elif kind == EARTHING and row.get('isolates'):
            yield rows.refused(154, 'between', index, 'an earthing switch does not isolate',
                               'isolates', 'leave it out')


def is_earth(rows: Rows, name: str) -> bool:
    found = rows.node(name)
    return found is not None and found['kind'] == EARTH


# ---- what is missing

def absent_switches(rows: Rows) -> Iterator[Refused]:
    there = {upcase(it['switch']) for it in rows.of('between') if 'switch' in it}
    for name, row in rows.bay.items():
        if name not in there:
            yield Refused(155, Place(f'the switch {row["id"]} of the bay is in no table',
                                     f'switch {row["id"]}', mend='add a [[between]] with it'))


def loose_nodes(rows: Rows) -> Iterator[Refused]:
    for index, row in enumerate(rows.of('node')):
        count = sum(upcase(row['name']) in map(upcase, it['nodes']) for it in rows.of('between'))
        least = 2 if row['kind'] == JUNCTION else 1
        if count < least:
            yield rows.refused(155, 'node', index, f'{quantity(count, "switch", "switches")} '
                               f'{"leads" if count == 1 else "lead"} to it, but a node of kind '
                               f'{row["kind"]} needs {least}',
                               mend='add the others, or leave the node out')


def no_source(rows: Rows) -> Iterator[Refused]:
    if not any(it.get('source') for it in rows.of('node')):
        yield Refused(155, Place('no node is a source', mend='add source = true to each node that '
                                 'can be live from outside'))


CHECKS: tuple[Callable[[Rows], Iterator[Refused]], ...] = (
    sections, unknown_keys, missing_keys, bad_values, names_twice, unknown_names, bad_sources,
    bad_keys, bad_nodes, absent_switches, loose_nodes, no_source)
