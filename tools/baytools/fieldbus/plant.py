"""Switches behind simulated modules: what coils and hands do to them, and what their contacts then
say."""
import time
from collections.abc import Callable

from baytools.common import positions
from baytools.common.ending import UsageError
from baytools.common.texts import upcase

from .wiring import TYPES, Measure, Module, Switch

BY_HAND = 1.0  # seconds in which a switch without travel_ms moves
CONTACTS = {'open': (True, False), 'closed': (False, True), 'bad': (True, True),
            'intermediate': (False, False)}
THERE = {'open': 'open', 'close': 'closed'}
TRUTHS = {'0': False, '1': True}


class Mistyped(UsageError):
    """A line that means nothing here."""


class Moving:
    """A switch that stands or moves."""

    def __init__(self, one: Switch) -> None:
        self.one, self.at, self.target, self.end = one, 'open', 'open', 0.0
        self.is_stuck = False

    def start_moving(self, target: str) -> bool:
        """Begins to move; whether it does."""
        self.arrives()
        if self.is_stuck or target == self.target:
            return False
        self.at, self.target = 'intermediate', target
        self.end = time.monotonic() + (self.one.travel / 2 or BY_HAND)
        return True

    def arrives(self) -> bool:
        """Whether it has just come to where it was to go."""
        if self.at == self.target or time.monotonic() < self.end:
            return False
        self.at = self.target
        return True

    def contacts(self) -> dict[int, bool]:
        """What its contacts read."""
        values = zip((self.one.open, self.one.closed), CONTACTS[self.at])
        return {contact.at: value != contact.inverted for contact, value in values}


class PlayedModule:
    """What a simulated module has: contacts, coils and registers. `moved` is told of each coil that
    changes."""

    def __init__(self, module: Module, moving: dict[str, Moving], say: Callable[[str], None],
                 ) -> None:
        self.module, self.moving, self.say = module, moving, say
        self.fixed = {one.contact.at: one.contact.inverted for one in module.inputs}
        self.fixed |= {one.remote.at: not one.remote.inverted for one in module.switches
                       if one.remote}
        self.meanings = dict(module.own_coils())
        self.on: dict[int, float] = {}  # since when a coil is on
        self.registers = dict.fromkeys(module.registers(), 0)
        self.holding: dict[int, int] = {}

    def contact(self, at: int) -> bool:
        for one in self.module.switches:
            found = self.moving[one.id].contacts()
            if at in found:
                return found[at]
        return self.fixed.get(at, False)

    def register(self, at: int) -> int:
        if at == self.module.counter:
            self.registers[at] = (self.registers[at] + 1) % 65_536
        return self.registers.get(at, 0)

    def put(self, coil: int, value: bool, by: str = '') -> None:
        """Switches a coil, which may move a switch."""
        if value == (coil in self.on):
            return
        name, now = f'{self.module.name} coil {coil} ({self.meanings.get(coil, "free")})', ''
        if value:
            self.on[coil] = time.monotonic()
        else:
            now = f' after {1000 * (time.monotonic() - self.on.pop(coil)):.0f} ms'
        self.say(f'{name} {"on" if value else "off"}{now}{by}')
        for one in self.module.switches if value else ():
            if all(it in self.on for it in one.coils.values()) and one.coils:
                self.say(f'both coils of {one.id} are on')
            for way, at in one.coils.items():
                if at == coil and self.moving[one.id].start_moving(THERE[way]):
                    self.say(f'{one.id} moves')

    def all_off(self, by: str) -> None:
        for coil in list(self.on):
            self.put(coil, False, by)

    def set_measure(self, one: Measure, value: int) -> None:
        """Writes the registers of a measure so that they say this."""
        words, is_signed = TYPES[one.kind]
        bits = 16 * words
        raw = round((value - one.offset) / one.scale)
        least = -1 << bits - 1 if is_signed else 0
        if not least <= raw < least + (1 << bits):
            raise Mistyped(f'{value} does not fit {one.kind} with a scale of {one.scale:g}')
        halves = [raw >> 16 * at & 0xFFFF for at in range(words)]
        for at, half in enumerate(halves if one.low_first else reversed(halves)):
            self.registers[one.at + at] = half


class Plant:
    """The switches of a bay, and its modules."""

    def __init__(self, modules: list[Module], say: Callable[[str], None]) -> None:
        self.say = say
        self.moving = {one.id: Moving(one) for module in modules for one in module.switches}
        self.modules = [PlayedModule(one, self.moving, say) for one in modules]

    def arrive(self) -> None:
        """Tells which switches have come to their ends."""
        for name, one in self.moving.items():
            if one.arrives():
                self.say(f'{name} is {one.at}')

    def typed(self, line: str) -> None:
        """What a typed line does to the bay."""
        match [upcase(word) for word in line.split()]:
            case [name, way] if name in self.moving:
                self.hand(name, way.lower())
            case [name, value] if value in TRUTHS and self.is_input(name, TRUTHS[value]):
                self.say(f'{name} is {value}')
            case [meter, name, value] if self.is_measure(meter, name, value):
                self.say(f'{meter} {name} is {value}')
            case ['STATE']:
                self.print_all()
            case _:
                raise Mistyped('type `QA1 close`, `QA1 stuck`, `QA1 local`, `INPUT 1`, '
                               '`M1 AA 212`, `MODULE off` or `state`')

    def hand(self, name: str, way: str) -> None:
        """A switch is moved by hand, sticks or not, or its key is turned."""
        one = self.moving[name]
        way = positions.WAYS.get(way, way)
        if way in ('stuck', 'free'):
            one.is_stuck = way == 'stuck'
        elif way in ('local', 'remote'):
            self.turn_key(name, way == 'remote')
        elif way not in THERE:
            raise Mistyped(f'{way} is none of open, close, stuck, free, local, remote')
        elif self.is_blocked(one.one):
            raise Mistyped(f'the magnet of {name} blocks it')
        elif one.start_moving(THERE[way]):
            self.say(f'{name} moves by hand')
            return
        self.say(f'{name}: {way}')

    def module_of(self, one: Switch) -> PlayedModule:
        return next(it for it in self.modules if it.module.name == one.module)

    def is_blocked(self, one: Switch) -> bool:
        return one.magnet is not None and one.magnet not in self.module_of(one).on

    def turn_key(self, name: str, is_remote: bool) -> None:
        one = self.moving[name].one
        if one.remote is None:
            raise Mistyped(f'{name} has no key')
        self.module_of(one).fixed[one.remote.at] = is_remote != one.remote.inverted

    def is_input(self, name: str, value: bool) -> bool:
        """Sets an input; whether there is one of this name."""
        for module in self.modules:
            for one in module.module.inputs:
                if one.name == name:
                    module.fixed[one.contact.at] = value != one.contact.inverted
                    return True
        return False

    def is_measure(self, meter: str, name: str, value: str) -> bool:
        """Sets a measure; whether there is one of this name."""
        for module in self.modules:
            for one in module.module.measures:
                if (one.meter, one.field) == (meter, name) and value.lstrip('-').isdecimal():
                    module.set_measure(one, int(value))
                    return True
        return False

    def print_all(self) -> None:
        for name, one in self.moving.items():
            self.say(f'{name} is {one.at}')
        for module in self.modules:
            for it in module.module.inputs:
                value = module.fixed[it.contact.at] != it.contact.inverted
                self.say(f'{it.name} is {value:d}')
            on = ', '.join(module.meanings.get(coil, str(coil)) for coil in sorted(module.on))
            self.say(f'{module.module.name}: coils that are on: {on or "none"}')
