"""A command of the server becomes a pulse of a coil, once, or is not carried out."""
import asyncio
import time
from collections.abc import Callable

from .bus import ModuleFault, ModuleRefused
from .process_link import Command, ProcessLink
from .samples import CLOSED, OPEN, Point, Value
from .units import Unit
from .wiring import Switch

WAYS = {'on': ('close', CLOSED), 'off': ('open', OPEN)}  # as the server tells them
OTHER = {'open': 'close', 'close': 'open'}
GONE = 'its release has gone'


class Untimely(ModuleFault):
    """A command that is not carried out, after its module was asked."""


class Pulse:
    """A command that is carried out. `known` is what the contacts came to, `releases` what the
    server tells of releases: whether each switch may be opened, and closed. It is empty where the
    server tells of none."""

    def __init__(self, command: Command, unit: Unit, one: Switch, process: ProcessLink,
                 known: dict[Point, Value], releases: dict[str, tuple[bool, bool]]) -> None:
        self.command, self.unit, self.one, self.process = command, unit, one, process
        self.known, self.releases = known, releases
        self.way, self.there = WAYS[command.way]
        self.is_over = False
        self.say = unit.say

    def over(self) -> None:
        """The time of its operate is over: what has begun ends, and nothing begins."""
        self.is_over = True
        self.unit.news.set()

    def refusal(self) -> str:
        """Why it is not carried out, or nothing."""
        untimely = self.process.untimely(self.command)
        if untimely or self.is_over:
            return untimely or 'its time is over'
        unit = self.unit
        if not unit.is_fresh(time.monotonic()):
            return f'module {unit.module.name} is not heard: {unit.fault or "no data yet"}'
        if not unit.sampled.is_remote(self.one):
            return 'its key is not at remote'
        return '' if self.is_released() else GONE

    def is_released(self) -> bool:
        """Whether the server releases the operation, as far as it tells."""
        if not self.releases:
            return True
        opens, closes = self.releases.get(self.one.id, (False, False))
        return closes if self.way == 'close' else opens

    def is_there(self) -> bool:
        return self.known['contact', self.one.id] == self.there

    async def run(self, failed: Callable[[Unit, ModuleFault], None]) -> None:
        """Carries the command out; `failed` is told of a module that fails."""
        name, begun = f'{self.one.id} {self.way}', time.monotonic()
        try:
            await self.pulse(begun)
            while not self.is_there() and not self.is_over and (
                    time.monotonic() - begun <= self.one.travel):
                await self.next_sample(begun + self.one.travel)
            spent = 1000 * (time.monotonic() - begun)
            self.say(f'{name}: {"done" if self.is_there() else "not done"} after {spent:.0f} ms')
        except Untimely as fault:
            self.say(f'{name} is not carried out: {fault}')
        except ModuleFault as fault:
            self.say(f'{name} fails: {fault}')
            if not isinstance(fault, ModuleRefused) or fault.may_come:
                failed(self.unit, fault)

    async def next_sample(self, until: float) -> None:
        """Waits until the module is read again, or till a moment."""
        self.unit.news.clear()
        try:
            async with asyncio.timeout(max(until - time.monotonic(), 0.001)):
                await self.unit.news.wait()
        except TimeoutError:
            pass

    async def pulse(self, begun: float) -> None:
        """Switches the coil on, and off again, on one connection. What fails is left to the next
        connection, which begins with all coils off, or to the module's own watchdog."""
        unit, coil = self.unit, self.one.coils[self.way]
        number = unit.link.number
        await unit.check_coils()  # (it answers now: what is written next is not late)
        why = self.refusal()
        if why or number != unit.link.number:
            raise Untimely(why or 'its module was connected anew')
        unit.pulsed.add(coil)
        try:
            on_at = time.monotonic()
            await unit.put(coil, True)
            await self.check(coil, self.one.coils[OTHER[self.way]])
            await self.hold(on_at, number)
        finally:
            try:
                if unit.link.number == number and unit.link.is_open:
                    await unit.put(coil, False)
                    self.say(f'coil {coil} was on for {1000 * (time.monotonic() - on_at):.0f} ms, '
                             f'{1000 * (on_at - begun):.1f} ms after its command')
            finally:  # (where it may be on all the same, the next look switches it off)
                unit.pulsed.discard(coil)

    async def check(self, coil: int, other: int) -> None:
        """The coil is on, and that of the other way is off."""
        after = await self.unit.link.coils([coil, other])
        if not after[coil] or after[other]:
            raise ModuleFault(f'coil {coil} reads {after[coil]:d} and coil {other} '
                              f'{after[other]:d} within a pulse of the first')

    async def hold(self, on_at: float, number: int) -> None:
        """Waits until the coil is to be off. Where the release goes meanwhile, a pulse of a breaker
        goes on."""
        unit, end = self.unit, on_at + self.one.pulse
        while time.monotonic() < end and unit.link.number == number and unit.link.is_open:
            if self.is_over or not unit.is_ready or not unit.sampled.is_remote(self.one):
                return
            if self.one.kind != 'breaker' and not self.is_released():
                self.say(f'{self.one.id} {self.way}: {GONE}, so its pulse ends')
                return
            if self.one.until_there and self.is_there():
                return
            await self.next_sample(end)
