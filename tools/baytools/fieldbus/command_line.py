"""What tools/modbus and tools/gpio do with their command lines."""
import argparse
import asyncio
import hashlib
import pathlib
import signal
import time
from typing import Any

from baytools.audit.blocking_inputs import needed_of
from baytools.bay.accepted import accepted_bay_at
from baytools.bay.files import bay_at, check_writable, octets_of
from baytools.common.ending import DONE, UNREACHED, Failed, Parser
from baytools.common.texts import upcase
from baytools.report.bayctl import usual
from baytools.wire.process import key_of
from baytools.wire.sockets import port_of

from .bus import Bus
from .driving import Driver, ended
from .process_link import ProcessLink
from .terminals import page, sheet, summary
from .units import Unit
from .wiring import Module, Modules, wiring_at


def say(text: str) -> None:
    """A line with its moment."""
    print(f'{time.time_ns() // 1_000_000} {text}', flush=True)


def options(description: str | None) -> Parser:
    """The options that drivers of all buses have."""
    found = Parser(description)
    found.add_argument('--bay', required=True, metavar='F', help='the bay file')
    found.add_argument('--wiring', metavar='F', help='what is wired to which module')
    found.add_argument('--process', type=port_of, metavar='P', help='the port of the process')
    found.renamed('--key', '--process-key')
    found.add_argument('--process-key', dest='key', metavar='F', help='the key of the server')
    found.add_argument('--check', action='store_true',
                       help='compares the files, and prints the table of terminals')
    found.add_argument('--html', metavar='F',
                       help='with --check: writes the table as a page, too')
    found.add_argument('--logic', metavar='F',
                       help='with --check: the program; it warns of inputs that block while TRUE')
    found.add_argument('--bayctl', default=usual(), metavar='PATH',
                       help='with --logic: the program to ask')
    found.add_argument('--off', action='store_true', help='switches each coil off, and ends')
    return found


def named_by(bay: dict[str, Any]) -> tuple[str, str]:
    """The domain and the revision of a bay file."""
    return str(bay['bay'].get('domain', '')), str(bay['bay'].get('revision', ''))


async def until_interrupted(work: asyncio.Task[None]) -> None:
    """Runs until it ends or is interrupted, and then lets it end in its own way."""
    for number in (signal.SIGINT, signal.SIGTERM):
        asyncio.get_running_loop().add_signal_handler(number, work.cancel)
    try:
        await work
    except asyncio.CancelledError:
        raise KeyboardInterrupt from None


async def drive(modules: list[Module], port: int, named: tuple[str, str], key: str) -> None:
    driver = Driver(modules, ProcessLink(port, named, key, say), say)
    await until_interrupted(asyncio.ensure_future(driver.run()))


async def all_off(modules: list[Module]) -> bool:
    """Switches each coil off; whether each module did."""
    return all(await asyncio.gather(*(ended(Unit(one, say)) for one in modules)))


def key_warnings(modules: Modules, bay: dict[str, Any]) -> list[str]:
    """Switches whose key only the server asks for, and such whose key nobody reports."""
    keys = {upcase(one['id']): upcase(one['remote']) for one in bay['switch'] if 'remote' in one}
    found = [f'{one.id} has a key in the bay file, and no remote here: a pulse begins, and goes '
             'on, even if the key has just been turned to local.'
             for module in modules for one in module.switches
             if one.id in keys and one.remote is None]
    return found + [f'{key}, the key of {name}, is wired to nothing: every operate of {name} is '
                    'refused.' for name, key in keys.items() if key in modules.not_wired]


def warnings(modules: Modules, chosen: argparse.Namespace, bay: dict[str, Any]) -> list[str]:
    """What is to be warned of: keys at which the driver does not look, or which it does not report,
    inputs that block while they are TRUE, and what is told of those of a lost module."""
    unseen = key_warnings(modules, bay)
    if not chosen.logic:
        return unseen
    found = needed_of(chosen.bayctl, chosen.bay, chosen.logic, bay)
    if found is None:
        raise Failed(f'{chosen.bayctl}: it has no command `audit`, so it can\'t say which inputs '
                     'block while they are TRUE')
    faults = {one.name: one.fault for module in modules for one in module.inputs}
    told = unseen + [one.warning() for one in found if one.false]
    for one in found:
        fault = faults.get(upcase(one.name))
        released = () if fault is None else one.true if fault else one.false
        if released:
            told.append(f'{one.name} has fault = {str(fault).lower()}, and so a lost module '
                        f'releases {", ".join(released)}: write fault = {str(not fault).lower()}.')
    return told


def check(modules: Modules, bus: Bus, chosen: argparse.Namespace,
          bay: dict[str, Any]) -> None:
    """Prints the table of terminals, and writes it as a page."""
    for line in sheet(modules, bus)[1:]:
        print(line)
    print(f'\n{summary(modules)}')
    if not chosen.logic:
        print('Inputs that block while they are TRUE are not looked for: name the program by '
              '--logic.')
    for told in warnings(modules, chosen, bay):
        print(f'WARNING: {told}')
    if chosen.html:
        files = [(pathlib.Path(path).name, hashlib.sha256(octets_of(path)).hexdigest())
                 for path in (chosen.bay, chosen.wiring)]
        pathlib.Path(chosen.html).write_text(page(modules, bus, named_by(bay), files),
                                             encoding='utf-8')


def run(parser: Parser, chosen: argparse.Namespace, bus: Bus) -> int:
    """What the command line asks for."""
    if chosen.wiring is None:
        parser.error('--wiring is missing')
    if chosen.html and not chosen.check:
        parser.error('--html is of --check')
    if chosen.logic and not chosen.check:
        parser.error('--logic is of --check')
    if chosen.html:
        check_writable(chosen.html)
    # Coils are switched off whatever else is wrong with the bay file, and with the inputs of keys.
    bay = (bay_at if chosen.off else accepted_bay_at)(chosen.bay)[1]
    for one in bay['switch'] if chosen.off else ():
        one.pop('remote', None)
    modules = wiring_at(chosen.wiring, bay, bus)
    if chosen.check:
        check(modules, bus, chosen, bay)
        return DONE
    if chosen.off:
        return DONE if asyncio.run(all_off(modules)) else UNREACHED
    if chosen.process is None:
        parser.error('--process is missing')
    key = key_of(chosen.key) if chosen.key else ''
    asyncio.run(drive(modules, chosen.process, named_by(bay), key))
    return DONE
