"""Rules of random diagrams beside what would happen: in each state, and for each way in which the
positions that are not known can be, the network is joined switch by switch, without any path. A
release that would earth a source, or make or break a current, must be forbidden."""
import itertools
import random
import unittest

from baytools.audit.variables import keys_of
from baytools.bay.rules import INPUT, SWITCH, read_rules
from baytools.diagram.network import (BREAKER, BUSBAR, DISCONNECTOR, EARTH, EARTHING, JUNCTION,
                                      BadDiagram, Network, Node, Switch)
from baytools.rules.demands import text_of
from tests.tools.test_diagram import bay

NETWORKS, STATES = 250, 20
IS_OPEN, IS_CLOSED = 1, 2


def network_of(chance: random.Random) -> tuple[Network, dict]:
    """A network with some terminals and junctions, some of its switches of another bay."""
    ends = [f'B{n}' for n in range(chance.randint(2, 4))]
    inner = [f'N{n}' for n in range(chance.randint(1, 3))]
    share = chance.choice((0.3, 0.8))  # of the terminals that are sources
    nodes = {name: Node(name, BUSBAR, chance.random() < share or name == 'B0',
                        '') for name in ends}
    nodes |= {name: Node(name, JUNCTION) for name in inner} | {'E': Node('E', EARTH)}
    nodes = {name: Node(it.name, it.kind, it.is_source, chance.choice('xy') if it.is_source else '')
             for name, it in nodes.items()}
    switches, inputs, counts = [], [], {}
    for _ in range(chance.randint(4, 7)):
        kind = chance.choice((BREAKER, DISCONNECTOR, DISCONNECTOR, DISCONNECTOR, EARTHING))
        pair = (chance.choice(inner), 'E') if kind == EARTHING else tuple(
            chance.sample(ends + inner, 2))
        letter = {BREAKER: 'QA', DISCONNECTOR: 'QB', EARTHING: 'QC'}[kind]
        counts[letter] = counts.get(letter, 0) + 1
        name, is_own = f'{letter}{counts[letter]}', chance.random() < 0.75
        told = [f'{name}_{end}' if not is_own and chance.random() < 0.8 else ''
                for end in ('CLOSED', 'OPEN')]
        inputs += filter(None, told)
        switches.append(Switch(name, kind, pair, is_own, *told, isolates=kind == DISCONNECTOR))
    own = [it.name for it in switches if it.is_own] or ['QB0']
    return Network('random', nodes, switches), bay(*own, inputs=tuple(inputs))


def nodes_joined_to(switches: list[Switch], start: str) -> set[str]:
    """The nodes that some closed switches join to one, without its earths."""
    found, waiting = {start}, [start]
    while waiting:
        at = waiting.pop()
        for it in switches:
            if at in it.nodes and it.kind != EARTHING and it.other(at) not in found:
                found.add(it.other(at))
                waiting.append(it.other(at))
    return found


class State:
    """A state of a network: the positions of its switches as they are known."""

    def __init__(self, network: Network, tables: dict, chance: random.Random) -> None:
        self.network, self.values = network, {}
        for kind, name in sorted(keys_of(tables)):
            self.values[kind, name] = (chance.choice((0, 1, 1, 2, 2, 3)) if kind == SWITCH
                                       else chance.randint(0, 1))
        self.known = {it.name: self.position(it) for it in network.switches}

    def position(self, switch: Switch) -> int:
        if switch.is_own:
            return self.values[SWITCH, switch.name]
        said = [value for name, value in ((switch.opened, IS_OPEN), (switch.closed, IS_CLOSED))
                if name and self.values[INPUT, name]]
        return said[0] if len(said) == 1 else 0

    def possible(self, without: tuple) -> list[list[Switch]]:
        """The switches that are closed, for each way in which those that are not known can be."""
        sure = [it for it in self.network.switches
                if self.known[it.name] == IS_CLOSED and it not in without]
        open_too = [it for it in self.network.switches
                    if self.known[it.name] not in (IS_OPEN, IS_CLOSED) and it not in without]
        return [sure + [it for it, is_closed in zip(open_too, ways) if is_closed]
                for ways in itertools.product((False, True), repeat=len(open_too))]

    # ---- what would happen

    def has_source(self, nodes: set[str]) -> bool:
        return any(self.network.kind(it) == BUSBAR for it in nodes)

    def has_earth(self, closed: list[Switch], nodes: set[str]) -> bool:
        return any(it.kind == EARTHING and self.network.earthed(it) in nodes for it in closed)

    def systems_of(self, nodes: set[str]) -> set[str]:
        return {it.system for it in self.network.sources() if it.name in nodes}

    def has_current(self, closed: list[Switch], switch: Switch, is_fed: bool = False) -> bool:
        """Whether a current flows or would flow through a switch: it alone joins two terminals; of
        one that is fed, a source is on one side."""
        one, other = (nodes_joined_to(closed, name) for name in switch.nodes)
        return other != one and self.has_source(one) and self.has_source(other) and (
            not is_fed or bool(self.systems_of(one | other)))

    def dangers(self, switch: Switch, way: int) -> set[str]:
        """What would happen if a switch were opened (0) or closed (1)."""
        if switch.kind == EARTHING:
            apart = [it for it in self.network.switches if it.kind != EARTHING and not (
                it.isolates and self.known[it.name] == IS_OPEN)]
            live = nodes_joined_to(apart, self.network.earthed(switch))
            return {'earths'} if way and self.systems_of(live) else set()
        found = set()
        for closed in self.possible((switch,)):
            one, other = (nodes_joined_to(closed, name) for name in switch.nodes)
            if way and one != other and any(self.has_earth(closed, mine) and self.systems_of(its)
                                            for mine, its in ((one, other), (other, one))):
                found.add('joins a source to an earth')
            if switch.kind == DISCONNECTOR:
                if self.has_current(closed, switch):
                    found.add('makes or breaks a current')
                systems = self.systems_of(one), self.systems_of(other)
                if way and one != other and all(systems) and len(systems[0] | systems[1]) > 1:
                    found.add('joins unlike systems')
            if self.makes_arc(closed, switch, way):
                found.add('a disconnector on its way makes or breaks a current')
        return found

    def makes_arc(self, closed: list[Switch], switch: Switch, way: int) -> bool:
        """Whether a disconnector that is on its way carries a current only afterwards, or one that
        is fed only afterwards."""
        for it in self.network.switches:
            if it.kind == DISCONNECTOR and it is not switch and (
                    self.known[it.name] not in (IS_OPEN, IS_CLOSED)):
                rest = [one for one in closed if one is not it]
                before, after = (rest, [*rest, switch]) if way else ([*rest, switch], rest)
                if any(self.has_current(after, it, is_fed)
                       and not self.has_current(before, it, is_fed) for is_fed in (False, True)):
                    return True
        return False


class Danger(unittest.TestCase):
    def test_what_is_dangerous_is_forbidden(self):
        chance, found = random.Random(83), {}
        for _ in range(NETWORKS):
            network, tables = network_of(chance)
            try:
                rules = read_rules(text_of(network, 'E01'), keys_of(tables))
            except BadDiagram:
                continue  # an earthing switch that no disconnector parts from a source
            for _ in range(STATES):
                state = State(network, tables, chance)
                for switch in (it for it in network.switches if it.is_own):
                    for way in (0, 1):
                        if state.known[switch.name] == way + 1:
                            continue  # it is there already
                        told = state.dangers(switch, way)
                        for one in told:
                            found[one] = found.get(one, 0) + 1
                        self.assertTrue(not told or any(
                            rule.switch == switch.name and way in rule.ways
                            and rule.condition(state.values) for rule in rules),
                            f'{switch.name} {way}: {told}\n{state.known}\n{network.switches}')
        self.assertEqual(len(found), 5, found)
        self.assertGreater(min(found.values()), 10, found)


if __name__ == '__main__':
    unittest.main()
