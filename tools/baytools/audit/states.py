"""States of a bay that a report draws in its single line diagram, with what is released in them."""
from collections.abc import Mapping
from dataclasses import dataclass

from baytools.bay.rules import INPUT, SWITCH
from baytools.common.positions import POSITIONS
from baytools.common.texts import upcase
from baytools.diagram.drawing import in_service, usual_positions
from baytools.diagram.network import Network

from .answers import WAYS, Answer
from .hazards import why_text
from .variables import all_things

MOST = 6  # broken rules, and hazards, whose states are drawn
OPEN, CLOSED = POSITIONS.index('open'), POSITIONS.index('closed')


@dataclass
class Drawn:
    """A state with its title: positions by switch, and whether each may be opened and closed,
    None where that depends on what the program keeps, or is not known."""
    title: str
    positions: dict[str, str]
    releases: dict[str, tuple[bool | None, ...]]


def is_released(answer: Answer, name: str, way: int, state: Mapping) -> bool | None:
    """Whether a switch may be opened or closed in a state, in which each thing has its value."""
    release = next((it for it in answer.releases if (it.name, it.way) == (upcase(name), way)), None)
    if release is None or not release.is_known:
        return None
    found = [case for case in release.cases
             if all(case.allows(key, state.get(key, 0)) for key in case.values)]
    if any(not case.kept for case in found):
        return True
    return None if found else False


def state_of(network: Network, positions: Mapping[str, str], file: dict) -> dict:
    """The state with these positions; inputs say what they say of switches of other bays, and each
    other input and measure is 0."""
    state = {thing.key: 0 for thing in all_things(file)}
    for switch in network.switches:
        value = POSITIONS.index(positions[switch.name])
        if switch.is_own:
            state[SWITCH, upcase(switch.name)] = value
        for name, wanted in ((switch.closed, CLOSED), (switch.opened, OPEN)):
            if name:
                state[INPUT, upcase(name)] = int(value == wanted)
    return state


def positions_of(network: Network, state: Mapping) -> dict[str, str]:
    """The positions of all switches in a state, of other bays as far as inputs say them."""
    found = {}
    for switch in network.switches:
        if switch.is_own:
            found[switch.name] = POSITIONS[state[SWITCH, upcase(switch.name)]]
            continue
        said = [word for word, name in (('closed', switch.closed), ('open', switch.opened))
                if name and state[INPUT, upcase(name)]]
        if len(said) == 1:
            found[switch.name] = said[0]
    return found


def drawn_states(audit, network: Network) -> tuple[list[Drawn], int]:
    """All switches open, the bay in service, and states that were shown to break rules, or in which
    a release was shown to be a hazard, the first of these; and how many are left."""
    file = audit.bay.file
    states = [('All switches open', state_of(network, usual_positions(network), file)),
              ('Breakers and disconnectors closed, earthing switches open',
               state_of(network, in_service(network), file))]
    broken = [(f'The rule of line {it.rule.line} is broken: {it.rule.text}', it.shown.state)
              for it in audit.findings if it.shown]
    broken += [(f'{it.switch} {it.operation()} is released while it is a hazard'
                f'{why_text(it.answer)}', it.shown.state) for it in audit.judged if it.shown]
    states += broken[:MOST]
    names = [switch['id'] for switch in file['switch']]
    return [Drawn(title, positions_of(network, state), {
        name: tuple(is_released(audit.answer, name, way, state) for way in range(len(WAYS)))
        for name in names} if audit.answer else {}) for title, state in states], len(broken[MOST:])
