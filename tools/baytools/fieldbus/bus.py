"""What a fieldbus offers the driver: addresses of modules, and links to them. tools/modbus has one
kind of each, tools/gpio another."""
from collections.abc import Callable, Sequence
from dataclasses import dataclass
from typing import Protocol

from .keyed import Table

CLOSED = 'the connection is closed'


class ModuleFault(Exception):
    """What was asked was not answered as it should be; of a write nobody knows whether it was
    done."""


class ModuleRefused(ModuleFault):
    """The module is there, and did not do it. It may yet do a write where `may_come`."""

    def __init__(self, told: str, may_come: bool = False) -> None:
        super().__init__(told)
        self.may_come = may_come


class Link(Protocol):
    """A connection to a module. `number` counts connections. Every method but `reset` raises
    ModuleFault; after one that is no ModuleRefused the link is closed."""
    number: int

    @property
    def is_open(self) -> bool:
        """Whether it is connected."""

    async def open(self) -> None:
        """Connects anew."""

    def reset(self) -> None:
        """Ends the connection at once; what waits to be sent is dropped."""

    async def contacts(self, numbers: Sequence[int]) -> dict[int, bool]:
        """What these contacts are, read as late as can be."""

    async def coils(self, numbers: Sequence[int]) -> dict[int, bool]:
        """What these coils are."""

    async def registers(self, numbers: Sequence[int]) -> dict[int, int]:
        """What these registers hold, without signs."""

    async def put(self, coil: int, value: bool) -> None:
        """Switches a coil."""

    async def set_up(self, register: int, value: int) -> None:
        """Writes a register of the module's settings, and reads it back."""


@dataclass(frozen=True)
class Lines:
    """What of a module is wired."""
    contacts: tuple[int, ...]
    coils: tuple[int, ...]
    registers: tuple[int, ...]


class Address(Protocol):
    """Where a module is. Two modules can't have equal ones."""

    def link(self, timeout: float, lines: Lines) -> Link:
        """A link to it, not yet connected."""

    def text(self) -> str:
        """The address in words."""


@dataclass(frozen=True)
class Bus:
    """A kind of fieldbus: how an address is read, how many of each kind one request may span, the
    highest number of a line, and what each kind is called on a sheet of terminals."""
    address: Callable[[Table], Address]
    has_registers: bool
    highest: int
    most_bits: int
    most_registers: int
    contact: str
    coil: str
    references: bool  # whether a sheet also has the numbers from 1 with the digit of the table
