"""The wiring of a bay: which contacts, coils and registers of which module belong to what. It is
read from TOML, and compared with the bay file: what is not wired, or wired twice, is refused."""
from collections.abc import Collection
from dataclasses import dataclass, field
from typing import Any

from baytools.bay.files import text_of
from baytools.common.texts import upcase
from baytools.diagnosis.language import FIELDS

from .bus import Address, Bus, Lines
from .keyed import Miswired, Table, Tables

TYPES = {'int16': (1, True), 'uint16': (1, False), 'int32': (2, True)}
ORDERS = ('high first', 'low first')
WAYS = ('open', 'close')
LONGEST_POLL, LONGEST_ANSWER, LONGEST_DOUBT, LONGEST_HOLD = 60_000, 10_000, 600_000, 10_000
SHORTEST_PULSE = 10  # ms
MOST = 2 ** 31 - 1  # of a measured value
WHOLE = (-MOST - 1, MOST)
FAULT = ', the value that blocks: the server is told it while the module is not heard'


@dataclass(frozen=True)
class Contact:
    """A contact, and whether it is TRUE where it reads 0."""
    at: int
    inverted: bool


@dataclass(frozen=True)
class Switch:
    id: str
    kind: str  # breaker, disconnector, earthing
    module: str
    open: Contact
    closed: Contact
    coils: dict[str, int]  # by the way, open and close; none of a switch without control
    pulse: float  # seconds at most
    until_there: bool
    remote: Contact | None
    magnet: int | None
    hold: float
    travel: float


@dataclass(frozen=True)
class Input:
    name: str
    module: str
    contact: Contact
    hold: float
    fault: bool  # what is told of it while its module is not heard: the value that blocks


@dataclass(frozen=True)
class Measure:
    meter: str
    field: str
    module: str
    at: int
    kind: str
    low_first: bool
    scale: float
    offset: float
    deadband: int
    valid: tuple[float, float]

    def words(self) -> int:
        return TYPES[self.kind][0]


@dataclass
class Module:
    name: str
    address: Address
    every: float
    timeout: float
    alive: str | None  # the input of the bay that is TRUE while its data are fresh
    counter: int | None  # a register that changes while the module works
    doubt: float  # seconds for which all is bad behind a write without an answer
    setup: list[tuple[int, int]]  # registers and what they must hold, as of its watchdog
    switches: list[Switch] = field(default_factory=list)
    inputs: list[Input] = field(default_factory=list)
    measures: list[Measure] = field(default_factory=list)

    def own_contacts(self) -> list[tuple[int, str]]:
        """The contacts of which each has one meaning, and what."""
        found = [(it.at, f'{one.id} {end}') for one in self.switches
                 for it, end in ((one.open, 'open'), (one.closed, 'closed'))]
        return found + [(one.contact.at, f'input {one.name}') for one in self.inputs]

    def contacts(self) -> list[int]:
        """Those, and the keys at remote, which switches may share."""
        return [at for at, _ in self.own_contacts()] + [
            one.remote.at for one in self.switches if one.remote]

    def own_coils(self) -> list[tuple[int, str]]:
        found = [(coil, f'{one.id} {way}') for one in self.switches
                 for way, coil in one.coils.items()]
        return found + [(one.magnet, f'the magnet of {one.id}') for one in self.switches
                        if one.magnet is not None]

    def commands(self) -> list[int]:
        """The coils that move a switch."""
        return [coil for one in self.switches for coil in one.coils.values()]

    def coils(self) -> list[int]:
        return [coil for coil, _ in self.own_coils()]

    def own_registers(self) -> list[tuple[int, str]]:
        found = [(one.at + word, f'{one.meter} {one.field}') for one in self.measures
                 for word in range(one.words())]
        return found + ([] if self.counter is None else [(self.counter, 'the counter')])

    def registers(self) -> list[int]:
        return [at for at, _ in self.own_registers()]

    def lines(self) -> Lines:
        return Lines(tuple(self.contacts()), tuple(self.coils()), tuple(self.registers()))


class Reading:
    """What is read of a wiring, and what of the bay is wired so far."""

    def __init__(self, bay: dict[str, Any], bus: Bus) -> None:
        self.bus = bus
        self.modules: dict[str, Module] = {}
        self.tables: dict[str, Table] = {}
        self.switches = {upcase(one['id']): one for one in bay['switch']}
        self.inputs = {upcase(one['name']) for one in bay.get('input', [])}
        self.meters = {upcase(one['id']) for one in bay.get('meter', [])}
        self.keys = {upcase(one['remote']): upcase(one['id']) for one in bay['switch']
                     if 'remote' in one}  # the inputs that are keys, and a switch of each
        self.wired: set[tuple[str, ...]] = set()
        self.left_out: list[str] = []
        for name, one in self.switches.items():
            if one.get('control') != 'status' and type(one.get('travel_ms')) is not int:
                raise Miswired(f'switch {name} of the bay file has no travel_ms: tools/diagnose '
                               'tells what is wrong with the bay file')

    # The tables.

    def take_module(self, table: Table) -> None:
        name = table.text('name')
        table.where = f'module {name}'
        if name in self.modules:
            raise table.wrong('it is there twice: give each module a name of its own', 'name')
        registers = self.bus.has_registers
        found = Module(
            name, self.bus.address(table), table.whole('poll_ms', 5, LONGEST_POLL, 20) / 1000,
            table.whole('timeout_ms', 10, LONGEST_ANSWER, 200) / 1000, table.optional('alive'),
            table.whole('counter', 0, self.bus.highest)
            if registers and 'counter' in table.keys else None,
            table.whole('doubt_ms', 0, LONGEST_DOUBT, 10_000) / 1000,
            table.pairs('setup', 65_535) if registers else [])
        table.ends()
        for one in self.modules.values():
            if one.address == found.address:
                raise table.wrong(f'module {one.name} has the same address: join the two')
        self.modules[name], self.tables[name] = found, table

    def module_of(self, table: Table) -> Module:
        """The module that a table names; where there is one it may be left out."""
        names = list(self.modules)
        return self.modules[table.one_of('module', names, names[0] if len(names) == 1 else None)]

    def known(self, table: Table, key: str, what: str, names: Collection[str]) -> str:
        """The name of something of the bay."""
        found = upcase(table.text(key))
        if found not in names:
            raise table.wrong(f'the bay has no {what} {found}: write one of '
                              f'{", ".join(sorted(names)) or "none: it has no " + what}', key)
        table.where = f'{what} {found}'
        return found

    def once(self, table: Table, *what: str) -> None:
        if what in self.wired:
            raise table.wrong(f'{" ".join(what)} is wired twice: leave one out')
        self.wired.add(what)

    def contact(self, table: Table, key: str, inverted: Collection[str]) -> Contact:
        return Contact(table.whole(key, 0, self.bus.highest), key in inverted)

    def hold(self, table: Table) -> float:
        return table.whole('debounce_ms', 0, LONGEST_HOLD, 20) / 1000

    def take_switch(self, table: Table) -> None:
        name = self.known(table, 'id', 'switch', self.switches)
        module = self.module_of(table)
        self.once(table, 'switch', name)
        module.switches.append(self.switch_of(table, name, module.name))
        table.ends('the switch is not controlled, so it has no coils and no pulse'
                   if self.switches[name].get('control') == 'status' else '')

    def switch_of(self, table: Table, name: str, module: str) -> Switch:
        one = self.switches[name]
        travel, is_operated = one.get('travel_ms', 0), one.get('control') != 'status'
        inverted = table.some_of('invert', ('open', 'closed', 'remote'))
        if 'remote' in inverted and 'remote' not in table.keys:
            raise table.wrong('invert names remote, and there is none: leave it out', 'invert')
        coils = {way: table.whole(f'{way}_coil', 0, self.bus.highest)
                 for way in WAYS if is_operated}
        pulse, until_there = pulse_of(table, travel) if is_operated else (0.0, False)
        remote = (self.contact(table, 'remote', inverted)
                  if is_operated and 'remote' in table.keys else None)
        magnet = (table.whole('magnet_coil', 0, self.bus.highest)
                  if 'magnet_coil' in table.keys else None)
        return Switch(name, str(one.get('kind')), module,
                      self.contact(table, 'open', inverted),
                      self.contact(table, 'closed', inverted), coils, pulse, until_there, remote,
                      magnet, self.hold(table), travel / 1000)

    def take_input(self, table: Table) -> None:
        name = self.known(table, 'name', 'input', self.inputs)
        module = self.module_of(table)
        self.once(table, 'input', name)
        contact = Contact(table.whole('contact', 0, self.bus.highest), table.truth('invert'))
        found = Input(name, module.name, contact, self.hold(table),
                      table.truth('fault', None, FAULT))
        if name in self.keys:
            self.check_key(table, found, module)
        module.inputs.append(found)
        table.ends()

    def check_key(self, table: Table, found: Input, module: Module) -> None:
        """An input that is the key of a switch is FALSE, local, while it is not known, and reads as
        the driver's own look at the same contact."""
        told = f'it is TRUE while the key of {self.keys[found.name]} is at remote'
        if found.fault:
            raise table.wrong(f'{told}: write fault = false', 'fault')
        for one in module.switches:
            if one.remote and one.remote.at == found.contact.at and one.remote != found.contact:
                raise table.wrong(f'{told}, and for {one.id} the same contact is inverted the '
                                  'other way: invert both or none', 'contact')

    def take_measure(self, table: Table) -> None:
        if not self.bus.has_registers:
            raise table.wrong('these modules have no registers: leave it out')
        meter = self.known(table, 'meter', 'meter', self.meters)
        name = upcase(table.text('field'))
        if name not in FIELDS:
            raise table.wrong(f'the field is {name}: write one of {", ".join(FIELDS)}', 'field')
        table.where = f'measure {meter} {name}'
        module = self.module_of(table)
        self.once(table, 'measure', meter, name)
        kind = table.one_of('type', TYPES)
        if TYPES[kind][0] == 1 and 'word_order' in table.keys:
            raise table.wrong(f'a measure of {kind} has one word: leave word_order out',
                              'word_order')
        order = table.one_of('word_order', ORDERS, ORDERS[0])
        found = Measure(meter, name, module.name,
                        table.whole('register', 0, self.bus.highest + 1 - TYPES[kind][0]), kind,
                        order == ORDERS[1], table.number('scale', 1), table.number('offset', 0),
                        table.whole('deadband', 0, MOST, 0),
                        table.span('valid') or WHOLE)
        if not found.scale:
            raise table.wrong('scale is 0: write what one of the register stands for', 'scale')
        table.ends()
        module.measures.append(found)

    # The whole.

    def take_alive(self, module: Module) -> None:
        table = self.tables[module.name]
        if module.alive is None:
            if module.measures:
                raise table.wrong('it has measures, which keep their last number when it fails: '
                                  'name an input of the bay as alive, and ask for it beside them')
            return
        module.alive = upcase(module.alive)
        if module.alive not in self.inputs:
            raise table.wrong(f'the bay has no input {module.alive}: write one of '
                              f'{", ".join(sorted(self.inputs)) or "none: it has no input"}',
                              'alive')
        if module.alive in self.keys:
            raise table.wrong(f'{module.alive} is the key of {self.keys[module.alive]}: name '
                              'another input', 'alive')
        self.once(table, 'input', module.alive)

    def leave_out(self, table: Table) -> None:
        """What the file says to hang on no module."""
        for told in table.texts('not_wired'):
            self.left_out.append(upcase(told))
            match upcase(told).split():
                case [name] if name in self.inputs:
                    self.once(table, 'input', name)
                case [meter, name] if meter in self.meters and name in FIELDS:
                    self.once(table, 'measure', meter, name)
                case _:
                    raise table.wrong(f'not_wired has {told[:40]}: write an input of the bay, or a '
                                      'meter and its field', 'not_wired')

    def check_bay(self) -> None:
        """All of the bay is wired, or said not to be."""
        wanted: list[tuple[str, ...]] = [('switch', name) for name in self.switches]
        wanted += [('input', name) for name in sorted(self.inputs)]
        wanted += [('measure', name, of) for name in sorted(self.meters) for of in FIELDS]
        for what in wanted:
            if what not in self.wired:
                rest = '' if what[0] == 'switch' else (
                    f', or name "{" ".join(what[1:])}" in not_wired at the top of the file')
                raise Miswired(f'{" ".join(what)} of the bay is not wired: write a table '
                               f'[[{what[0]}]]{rest}')

    def check_module(self, module: Module) -> None:
        """Nothing of a module is wired twice, or too far apart for one request."""
        table = self.tables[module.name]
        for kind, own, every, most in (
                ('contact', module.own_contacts(), module.contacts(), self.bus.most_bits),
                ('coil', module.own_coils(), module.coils(), self.bus.most_bits),
                ('register', module.own_registers(), module.registers(),
                 self.bus.most_registers)):
            meanings: dict[int, str] = {}
            for at, meaning in own:
                if at in meanings:
                    raise table.wrong(f'{kind} {at} is wired twice, for {meanings[at]} and for '
                                      f'{meaning}: give each a {kind} of its own')
                meanings[at] = meaning
            if every and max(every) - min(every) >= most:
                raise table.wrong(f'its {kind}s {min(every)} and {max(every)} are too far apart: '
                                  f'one request reads {most:,}')
        if not every_line(module):
            raise table.wrong('nothing is wired to it: leave it out')


def every_line(module: Module) -> bool:
    return bool(module.switches or module.inputs or module.measures)


def pulse_of(table: Table, travel: int) -> tuple[float, bool]:
    """How long a pulse lasts at most, in seconds, and whether it ends at the position."""
    if 'pulse' in table.keys:
        if 'pulse_ms' in table.keys:
            raise table.wrong('it has pulse and pulse_ms: leave one out', 'pulse')
        table.one_of('pulse', ('position',))
        return travel / 1000, True
    pulse = table.keys.get('pulse_ms')
    if type(pulse) is int and pulse > travel:
        raise table.wrong(f'pulse_ms is {pulse:,}, longer than travel_ms of the bay file, after '
                          f'which the operate is over: write at most {travel:,}', 'pulse_ms')
    if pulse is None:
        raise table.wrong('pulse_ms is missing: write how long its coils are on, or pulse = '
                          '"position"')
    return table.whole('pulse_ms', min(SHORTEST_PULSE, travel), travel) / 1000, False


class Modules(list[Module]):
    """The modules of a wiring, each with what is wired to it, and what it says is wired to none."""
    not_wired: list[str]


def wiring_of(text: str, bay: dict[str, Any], bus: Bus) -> Modules:
    """What a wiring says of a bay."""
    tables, reading = Tables(text), Reading(bay, bus)
    tables.each('module', reading.take_module)
    if not reading.modules:
        raise Miswired('it has no module: write a table [[module]]')
    tables.each('switch', reading.take_switch)
    tables.each('input', reading.take_input)
    tables.each('measure', reading.take_measure)
    rest = tables.rest()
    reading.leave_out(rest)
    rest.ends('there are [[module]], [[switch]], [[input]], [[measure]] and not_wired')
    for module in reading.modules.values():
        reading.take_alive(module)
    reading.check_bay()
    for module in reading.modules.values():
        reading.check_module(module)
    found = Modules(reading.modules.values())
    found.not_wired = reading.left_out
    return found


def wiring_at(path: str, bay: dict[str, Any], bus: Bus) -> Modules:
    """The modules of a file."""
    try:
        return wiring_of(text_of(path, 'wiring'), bay, bus)
    except Miswired as error:
        raise Miswired(f'{path}: {error}') from None
