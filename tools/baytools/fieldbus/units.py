"""A module with its connection: what was last read of it, which of its coils are on by whom, and
how long it stays in doubt."""
import asyncio
import time
from collections.abc import Callable

from .bus import Link, ModuleFault, ModuleRefused
from .samples import Sampled
from .wiring import Module


class Unit:
    """A module with its connection. `say` tells what happens to it."""

    def __init__(self, module: Module, say: Callable[[str], None]) -> None:
        self.module, self.say, self.sampled = module, say, Sampled(module)
        self.lines = module.lines()
        self.link: Link = module.address.link(module.timeout, self.lines)
        self.heard_at, self.is_ready, self.fault = 0.0, False, ''
        self.asked_at: float | None = None  # when a reading began that has not ended
        self.magnets: set[int] = set()  # coils of magnets that are switched on
        self.pulsed: set[int] = set()  # coils that a command has switched on
        self.doubted_until = 0.0
        self.news, self.woken = asyncio.Event(), asyncio.Event()

    def is_fresh(self, now: float) -> bool:
        """Whether it is heard, with its coils known to be off after it was connected."""
        limit = self.module.every + 2 * self.module.timeout
        return self.is_ready and now - self.heard_at <= limit

    async def rest(self, seconds: float) -> None:
        """Waits until the next sample is due, or it is woken."""
        self.woken.clear()
        try:
            async with asyncio.timeout(max(seconds, 0.001)):
                await self.woken.wait()
        except TimeoutError:
            pass

    async def put(self, coil: int, value: bool) -> None:
        """Switches a coil. Where that isn't answered it may be done later, as by a gateway with a
        queue: for a while all that is wired to the module stays bad, and nothing is released."""
        try:
            await self.link.put(coil, value)
        except ModuleFault as fault:
            if not isinstance(fault, ModuleRefused) or fault.may_come:
                self.doubts(coil)
            raise

    def doubts(self, coil: int) -> None:
        now = time.monotonic()
        if now >= self.doubted_until and self.module.doubt:
            self.say(f'module {self.module.name}: the write of coil {coil} may be done late, so '
                     f'all of it is bad for {1000 * self.module.doubt:.0f} ms')
        self.doubted_until = now + self.module.doubt

    async def all_off(self) -> None:
        """Each coil off, and read as off. One that came on between the two, as where a write comes
        late just then, is switched off at once."""
        for coil in self.lines.coils:
            await self.put(coil, False)
        read = await self.link.coils(self.lines.coils)
        on = [coil for coil, is_on in read.items() if is_on]
        for coil in on:
            await self.put(coil, False)
        if on:
            raise ModuleFault(f'coil {on[0]} was written off, and is on')
        self.magnets.clear()

    async def begin(self) -> None:
        """What a connection begins with: each coil off, and the module's settings."""
        await self.all_off()
        for register, value in self.module.setup:
            await self.link.set_up(register, value)

    async def check_coils(self) -> None:
        """No coil is on but for a command, or to free a magnet: one that is on all the same, as
        where a write comes late or another master writes, is switched off at once."""
        read = await self.link.coils(self.lines.coils)
        stray = [coil for coil, is_on in read.items()
                 if is_on and coil not in self.pulsed and coil not in self.magnets]
        for coil in [*stray, *self.pulsed] if stray else ():  # (a pulse ends then, too)
            await self.put(coil, False)
        self.magnets -= {coil for coil, is_on in read.items() if not is_on}
        if stray:
            raise ModuleFault(f'coil {stray[0]} was on, and nobody here had asked for it: it is '
                              'switched off')

    async def sample(self) -> tuple[dict[int, bool], dict[int, int]]:
        """What its contacts are, and what its registers hold."""
        return (await self.link.contacts(self.lines.contacts),
                await self.link.registers(self.lines.registers))
