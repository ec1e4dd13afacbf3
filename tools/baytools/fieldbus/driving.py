"""A driver of a bay: modules are read and the server is told, and its commands become pulses."""
import asyncio
import time
from collections.abc import Callable

from baytools.common.texts import upcase
from baytools.wire.process import Different

from .bus import CLOSED as CONNECTION_CLOSED, ModuleFault, ModuleRefused
from .process_link import Command, ProcessLink
from .pulses import WAYS, Pulse
from .samples import CLOSED, OPEN, Point, Value, line_of, lost_inputs, rank
from .units import Unit
from .wiring import Module, Switch

SOON, RETRY = 0.05, 0.5  # seconds until a connection that was good, and one that was none
ENDED = 5  # seconds in which the coils are to be off at the end
UNTOLD = 1  # seconds after which a server should have told of releases


class Driver:
    """What is known of the bay, and what was told of it."""

    def __init__(self, modules: list[Module], process: ProcessLink, say: Callable[[str], None],
                 ) -> None:
        self.units = {one.name: Unit(one, say) for one in modules}
        self.switches = {one.id: one for module in modules for one in module.switches}
        self.alive = {one.alive for one in modules if one.alive}
        self.true_blocks = {one.name for module in modules for one in module.inputs if one.fault}
        self.process, self.say = process, say
        self.known: dict[Point, Value] = {}
        self.owner: dict[Point, Unit] = {}
        self.told: dict[Point, Value] = {}
        self.releases: dict[str, tuple[bool, bool]] = {}
        self.pulses: dict[str, tuple[Pulse, asyncio.Task[None]]] = {}
        self.broken = asyncio.Event()
        process.taken, process.hear = self.taken, self.receive_line
        process.lives, process.lost = self.lives, self.lost
        process.oldest = self.oldest
        for unit in self.units.values():
            found = unit.sampled.forget()
            self.known |= found
            self.owner |= dict.fromkeys(found, unit)

    # What the server is told.

    def longest(self, module: Module) -> float:
        """The seconds that a reading of a module may take. One that takes longer is refused."""
        limit = self.process.limit / 2 if self.process.clock else module.timeout
        return min(module.every + module.timeout, limit)

    def reading_since(self, now: float) -> float:
        """The moment at which the oldest reading began that goes on and may still be sent, or now.
        A line that is sent meanwhile has no later time, or that reading would go back."""
        return min([now, *(unit.asked_at for unit in self.units.values()
                           if unit.asked_at is not None
                           and now - unit.asked_at <= self.longest(unit.module))])

    def changes(self, now: float) -> list[tuple[float, Point, Value]]:
        """What has changed since it was told, with the moment of its reading. What was read longer
        ago than the server would take waits for its next sample."""
        found = []
        for point, value in self.known.items():
            unit = self.owner[point]
            then = unit.heard_at if unit.is_ready else now
            is_new = point not in self.told or self.told[point] != value
            if is_new and now - then <= self.process.limit / 2:
                found.append((then, point, value))
        return found

    def oldest(self) -> float:
        """The moment of the oldest reading that is still to be told."""
        now = time.monotonic()
        return min([self.reading_since(now), *(then for then, _, _ in self.changes(now))])

    def publish(self) -> None:
        """Tells what has changed, in the order of time; of one moment what blocks comes before what
        frees."""
        now = time.monotonic()
        since = self.reading_since(now)
        stamped = [(min(then, since), point, value) for then, point, value in self.changes(now)]
        stamped.sort(key=lambda one: (
            one[0], rank(one[1], one[2], self.alive, self.true_blocks)))
        if stamped and self.process.send(
                [(then, line_of(point, value)) for then, point, value in stamped]):
            self.told |= {point: value for _, point, value in stamped}

    def taken(self) -> None:
        self.told.clear()
        self.check_pace()
        self.publish()
        if any(one.magnet is not None for one in self.switches.values()):
            number = self.process.number
            asyncio.get_running_loop().call_later(UNTOLD, self.misses_releases, number)

    def check_pace(self) -> None:
        """What is known of a module is never older than the server lets a word of its process
        be."""
        limit = self.process.limit
        for unit in self.units.values():
            oldest = unit.module.every + unit.module.timeout
            if oldest > limit:
                raise Different(
                    f'module {unit.module.name}: poll_ms and timeout_ms come to '
                    f'{1000 * oldest:,.0f}, and the server takes no word older than '
                    f'{1000 * limit:,.0f} ms: write less, or give --supervise more')

    def lives(self) -> None:
        """The process is about to say that it lives: whatever happens to the reading of a module,
        none that was not read in time is good."""
        now = time.monotonic()
        for unit in self.units.values():
            if unit.is_ready and not unit.is_fresh(now):
                self.fail(unit, ModuleFault(
                    f'it was not read for {1000 * (now - unit.heard_at):.0f} ms'))

    def misses_releases(self, number: int) -> None:
        if number == self.process.number and self.process.clock and not self.releases:
            self.say('the server tells of no releases, so all magnets stay blocked: start it with '
                     '--tell releases')

    def lost(self) -> None:
        """Nothing is released without a server. A pulse that has begun ends in its time."""
        self.told.clear()
        self.releases.clear()
        self.wake()

    def wake(self) -> None:
        """The magnets follow the releases at once."""
        for unit in self.units.values():
            if any(one.magnet is not None for one in unit.module.switches):
                unit.woken.set()

    # What the server tells.

    def receive_line(self, line: str) -> None:
        match line.split(' '):
            case [moment, 'command', name, way] if way in WAYS and moment.isdecimal():
                self.command(Command(int(moment), upcase(name), way, self.process.number))
            case [_, 'over', name] if upcase(name) in self.pulses:
                self.pulses[upcase(name)][0].over()
            case [word] if word[-3:-2] == '=' and set(word[-2:]) <= {'0', '1'}:
                self.releases[upcase(word[:-3])] = word[-2] == '1', word[-1] == '1'
                self.wake()
                for pulse, _ in self.pulses.values():
                    pulse.unit.news.set()

    def command(self, command: Command) -> None:
        """Begins a pulse, or says why there is none."""
        one = self.switches.get(command.switch)
        why, pulse = 'the wiring has no coils for it', None
        if one is not None and one.coils:
            pulse = Pulse(command, self.units[one.module], one, self.process, self.known,
                          self.releases)
            is_busy = one.id in self.pulses and not self.pulses[one.id][1].done()
            why = 'another command of it has not ended' if is_busy else pulse.refusal()
        if why or pulse is None:
            self.say(f'{command.switch} {WAYS[command.way][0]} is not carried out: {why}')
        else:
            task = asyncio.ensure_future(pulse.run(self.fails))
            task.add_done_callback(self.pulse_ended)
            self.pulses[command.switch] = pulse, task

    def pulse_ended(self, task: asyncio.Task[None]) -> None:
        """A fault of this program within a pulse ends it, with all coils off."""
        if not task.cancelled() and (error := task.exception()):
            self.say(f'a fault of this tool itself: {type(error).__name__}: {error}')
            self.broken.set()

    # The modules.

    def fails(self, unit: Unit, fault: ModuleFault) -> None:
        """A module fails in a pulse: where it did not answer as it should, its next connection
        begins with all coils off."""
        self.fail(unit, fault)
        if not isinstance(fault, ModuleRefused):
            unit.link.reset()
            unit.woken.set()

    def fail(self, unit: Unit, fault: ModuleFault) -> None:
        """What is wired to a module is bad."""
        if str(fault) not in (unit.fault, CONNECTION_CLOSED):
            self.say(f'module {unit.module.name}: {fault}{lost_inputs(unit.module)}')
            unit.fault = str(fault)
        unit.is_ready = False
        self.known |= unit.sampled.forget()
        unit.news.set()
        self.publish()

    async def one_sample(self, unit: Unit) -> None:
        """Reads a module, tells what it comes to, and sets its magnets."""
        unit.asked_at = time.monotonic()
        try:
            await self.read(unit, unit.asked_at)
        finally:
            unit.asked_at = None
        await self.set_magnets(unit)

    async def read(self, unit: Unit, asked: float) -> None:
        """Reads a module, and tells what it comes to."""
        module = unit.module
        await unit.check_coils()
        bits, registers = await unit.sample()
        now = time.monotonic()
        if now - asked > self.longest(module):
            raise ModuleFault(f'reading it takes {1000 * (now - asked):.0f} ms')
        if unit.sampled.is_counter_stuck(registers, now):
            raise ModuleRefused(f'its counter {module.counter} stands still, so its data are old')
        if asked <= unit.doubted_until:
            raise ModuleRefused('it is in doubt: a write to it was not answered')
        if unit.fault:
            self.say(f'module {module.name}: it is heard')
        unit.heard_at, unit.is_ready, unit.fault = asked, True, ''
        self.known |= unit.sampled.take(bits, registers, asked)
        unit.news.set()
        self.publish()

    def is_freed(self, one: Switch) -> bool:
        """Whether a switch that is worked by hand may leave its position."""
        opens, closes = self.releases.get(one.id, (False, False))
        position = self.known['contact', one.id]
        return closes if position == OPEN else opens if position == CLOSED else opens and closes

    async def set_magnets(self, unit: Unit) -> None:
        """Magnets that block are blocked before one is freed."""
        wanted = [(self.is_freed(one), one.id, one.magnet) for one in unit.module.switches
                  if one.magnet is not None]
        for is_freed, name, coil in sorted(wanted):
            if is_freed != (coil in unit.magnets):
                if is_freed:
                    unit.magnets.add(coil)
                await unit.put(coil, is_freed)
                if not is_freed:
                    unit.magnets.discard(coil)
                self.say(f'the magnet of {name} {"frees" if is_freed else "blocks"}')

    async def connected(self, unit: Unit) -> None:
        """Reads a module until its connection is lost."""
        await unit.link.open()
        has_begun = False
        while True:
            begun = time.monotonic()
            try:
                if not has_begun:
                    await unit.begin()
                    has_begun = True
                await self.one_sample(unit)
            except ModuleRefused as fault:
                self.fail(unit, fault)
                has_begun = False
            if not unit.link.is_open:
                raise ModuleFault(CONNECTION_CLOSED)
            await unit.rest(unit.module.every - (time.monotonic() - begun))

    async def attend(self, unit: Unit) -> None:
        """Connects to a module again and again."""
        while True:
            was_heard = unit.heard_at
            try:
                await self.connected(unit)
            except ModuleFault as fault:
                self.fail(unit, fault)
                unit.link.reset()
            await asyncio.sleep(SOON if unit.heard_at != was_heard else RETRY)

    # The whole.

    async def run(self) -> None:
        """Drives until it is cancelled; at the end each coil is off, as far as modules answer."""
        tasks = [asyncio.ensure_future(one) for one in (
            self.process.run(), self.breaks(),
            *(self.attend(unit) for unit in self.units.values()))]
        try:
            done, _ = await asyncio.wait(tasks, return_when=asyncio.FIRST_COMPLETED)
            for one in done:
                one.result()
        finally:
            for one in tasks:
                one.cancel()
            await asyncio.gather(*tasks, return_exceptions=True)
            await self.ends()

    async def breaks(self) -> None:
        await self.broken.wait()
        raise RuntimeError('a pulse ended in a fault')

    async def ends(self) -> None:
        """The pulses end, and each coil is off."""
        self.process.end()
        for pulse, _ in self.pulses.values():
            pulse.over()
        await asyncio.gather(*(task for _, task in self.pulses.values()), return_exceptions=True)
        await asyncio.gather(*(ended(unit) for unit in self.units.values()))


async def ended(unit: Unit) -> bool:
    """Switches each coil of a module off, and says so; whether it is done."""
    name = unit.module.name
    try:
        async with asyncio.timeout(ENDED):
            if not unit.link.is_open:
                await unit.link.open()
            await unit.all_off()
    except (ModuleFault, TimeoutError) as fault:
        told = str(fault) or f'not within {ENDED} s'
        unit.say(f'module {name}: its coils may be on: {told}')
        return False
    finally:
        unit.link.reset()
    unit.say(f'module {name}: all coils are off')
    return True
