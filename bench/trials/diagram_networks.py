"""Random bays with a single line diagram: the network, the texts of bay file and diagram, and of a
program whose releases are random conditions of positions and inputs."""
import random
from dataclasses import dataclass

from baytools.bay.files import tables_of
from baytools.diagram.diagram_file import file_text
from baytools.diagram.network import (BREAKER, BUSBAR, CABLE, DISCONNECTOR, EARTH, EARTHING,
                                      JUNCTION, LINE, TRANSFORMER, Network, Node, Switch)

LETTERS = {BREAKER: 'QA', DISCONNECTOR: 'QB', EARTHING: 'QC'}
KINDS = (BREAKER, BREAKER, DISCONNECTOR, DISCONNECTOR, DISCONNECTOR, EARTHING)
TERMINALS = (BUSBAR, BUSBAR, LINE, CABLE, TRANSFORMER)
POINTS = ('OPEN', 'OPEN', 'OPEN', 'CLOSED')
HEAD = ('[bay]', 'domain = "B"', 'vendor = "V"', 'model = "M"', 'revision = "1"',
        'scan_max_age_ms = 1000')


@dataclass(frozen=True)
class Texts:
    """A bay: its file, its diagram and its program."""
    bay: str
    diagram: str
    logic: str


def nodes_of(chance: random.Random, inputs: list[str]) -> dict[str, Node]:
    """Some terminals, the most of them sources, some junctions and an earth."""
    found = {}
    for at in range(chance.randint(2, 4)):
        name, kind = f'B{at}', chance.choice(TERMINALS)
        is_source = kind != TRANSFORMER and (chance.random() < 0.8 or at == 0)
        dead = f'{name}_DEAD' if is_source and chance.random() < 0.4 else ''
        inputs += [dead] if dead else []
        found[name] = Node(name, kind, is_source, '', dead)
    found |= {f'N{at}': Node(f'N{at}', JUNCTION) for at in range(chance.randint(1, 3))}
    return found | {'E': Node('E', EARTH)}


def with_no_loose_end(node: Node, switches: list[Switch], chance: random.Random) -> Node:
    """A junction of one switch is mostly a busbar; as it is, a diagram is refused for it."""
    is_loose = node.kind == JUNCTION and len(switches) < 2
    return Node(node.name, BUSBAR) if is_loose and chance.random() < 0.9 else node


def network_of(chance: random.Random, most: int = 8) -> tuple[Network, list[str]]:
    """A network of at most so many switches, some of another bay, and the inputs of the bay."""
    inputs: list[str] = []
    nodes = nodes_of(chance, inputs)
    names, switches = [it for it in nodes if it != 'E'], []
    for at in range(chance.randint(4, most)):
        kind = chance.choice(KINDS)
        ends = (chance.choice(names), 'E') if kind == EARTHING else tuple(chance.sample(names, 2))
        name, is_own = f'{LETTERS[kind]}{at}', at == 0 or chance.random() < 0.75
        told = [f'{name}_{end}' if not is_own and chance.random() < 0.8 else ''
                for end in ('CLOSED', 'OPEN')]
        inputs += filter(None, told)
        switches.append(Switch(name, kind, ends, is_own, *told, isolates=kind == DISCONNECTOR
                               or kind == BREAKER and chance.random() < 0.1))
    used = {name: with_no_loose_end(it, [one for one in switches if name in one.nodes], chance)
            for name, it in nodes.items() if any(name in one.nodes for one in switches)}
    return Network('random', used, switches), inputs


def bay_text(network: Network, inputs: list[str]) -> str:
    """The bay file of a network."""
    lines = list(HEAD)
    for it in network.switches:
        if it.is_own:
            lines += ['[[switch]]', f'id = "{it.name}"', f'kind = "{it.kind}"',
                      'control = "direct"', 'travel_ms = 500']
    for name in inputs:
        lines += ['[[input]]', f'name = "{name}"']
    return '\n'.join(lines) + '\n'


def logic_text(chance: random.Random, network: Network, inputs: list[str]) -> str:
    """A program that gives each release under some conditions that it joins."""
    own = [it.name for it in network.switches if it.is_own]
    points = [f'{name}_{end}' for name in own for end in ('OPEN', 'CLOSED')] + inputs
    outputs = [f'{name}_{end}' for name in own for end in ('ENA_OPN', 'ENA_CLS')]
    lines = ['PROGRAM p', 'VAR_EXTERNAL', *(f'    {it} : BOOL;' for it in points + outputs),
             'END_VAR']
    for output in outputs:
        lines.append('    LD TRUE')
        for _ in range(chance.randint(0, 6)):
            name = chance.choice(own + inputs)
            point = name if name in inputs else f'{name}_{chance.choice(POINTS)}'
            lines.append(f'    {chance.choice(("AND", "AND", "AND", "ANDN", "OR"))} {point}')
        lines.append(f'    ST {output}')
    return '\n'.join([*lines, 'END_PROGRAM']) + '\n'


def random_bay(chance: random.Random, most: int) -> tuple[Network, dict, Texts]:
    """A network, the tables of its bay file, and its texts."""
    network, inputs = network_of(chance, most)
    text = bay_text(network, inputs)
    return network, tables_of(text), Texts(text, file_text(network),
                                           logic_text(chance, network, inputs))
