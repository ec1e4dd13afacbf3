"""What a single line diagram asks of an interlocking, as rules that begin with `never`.

A path is a simple path of the diagram. A source is a node that can be live from outside. Only an
open disconnector keeps apart; a breaker does where it `isolates`. An earthed node is one from which
a path leads to an earth, over an earthing switch that is not known to be open, and on which no
disconnector is known to be open. Currents flow between terminals: busbars, lines, cables and
transformers; and into an earth. A path beside a disconnector leads from its one node to the other
without it, and through no transformer; it is closed where each of its switches is known to be."""
import itertools
import re
import textwrap
from collections.abc import Iterable, Iterator
from dataclasses import dataclass, field

from baytools.common.texts import upcase
from baytools.diagram.network import (BREAKER, DISCONNECTOR, EARTHING, NOT_DEAD, TERMINALS,
                                      TRANSFORMER, BadDiagram, Network, Part, Switch)

from .paths import Path, paths, paths_between

EARTHS, JOINS, CURRENT, ALONE, MEETS, STAYS, SYSTEMS = HEADS = (
    'An earthing switch closes only while each path from a source to its node has an open '
    'disconnector.',
    'Nothing closes that would join an earthed node to a source.',
    'A disconnector moves only while no current can flow through it: a breaker in its path is '
    'open, or a closed path lies beside it.',
    'A disconnector that is no breaker never makes or breaks alone.',
    'No breaker closes while a disconnector in its path is in no end position.',
    'A path beside a disconnector that is in no end position stays closed.',
    'No disconnector joins two sources of unlike systems.')
OPEN, CLOSE = ('open',), ('close',)
BOTH = (*OPEN, *CLOSE)
WIDTH = 100


@dataclass
class Demand:
    """A rule: a switch is not released in these ways while all the parts hold, unless one of the
    paths beside it is closed. `why` are the reasons, each with its path."""
    head: str
    switch: str
    ways: tuple[str, ...]
    parts: tuple[Part, ...]
    unless: tuple[tuple[Part, ...], ...] = ()
    why: list[str] = field(default_factory=list)

    def condition(self) -> str:
        """What stands behind `when`; nothing where the rule always applies."""
        words = [it.text for it in self.parts]
        if self.unless:
            told = ' or '.join(' and '.join(it.text for it in parts) for parts in self.unless)
            is_one = re.fullmatch('[A-Za-z0-9_]+', told)
            words.append(f'not {told}' if is_one else f'not ({told})')
        return ' and '.join(words)

    def text(self) -> str:
        told = self.condition()
        return f'never {self.switch} {"|".join(self.ways)}' + (f' when {told}' if told else '')

    def covers(self, other: 'Demand') -> bool:
        """Whether whatever breaks the other rule breaks this one."""
        return (upcase(self.switch) == upcase(other.switch) and set(self.ways) >= set(other.ways)
                and all(it.follows(other.parts) for it in self.parts)
                and all(any(it.is_against(other.parts) for it in mine)
                        or any(set(its) <= set(mine) for its in other.unless)
                        for mine in self.unless))


def both(switches: Iterable[Switch]) -> tuple[Part, ...]:
    """What holds unless one of some switches is known to be open."""
    return tuple(dict.fromkeys(part for it in switches for part in it.not_open()))


def isolating(switches: Iterable[Switch]) -> list[Switch]:
    return [it for it in switches if it.isolates]


class Demands:
    """The rules of a diagram."""

    def __init__(self, network: Network) -> None:
        self.network = network
        self.to_earth = [(path, switch) for switch in network.earthings()
                         for source in network.sources()
                         for path in paths_between(network, source.name, network.earthed(switch),
                                                   without=switch)]
        self.currents = list(self.between_terminals())
        self.besides = {it.name: self.beside(it) for it in network.switches
                        if it.kind == DISCONNECTOR}

    def all(self) -> list[Demand]:
        """The rules, without those that another one covers, in the order of the table."""
        found: list[Demand] = []
        for one in itertools.chain(self.earthing(), self.joining(), self.current(),
                                   self.meeting(), self.staying(), self.systems()):
            same = next((it for it in found if it.covers(one) and one.covers(it)), None)
            if same:
                same.why += [it for it in one.why if it not in same.why]
            elif not any(it.covers(one) for it in found):
                found = [it for it in found if not one.covers(it)] + [one]
        return sorted(found, key=lambda it: HEADS.index(it.head))

    # ---- paths

    def between_terminals(self) -> Iterator[Path]:
        """The paths over which a current can flow: from one terminal to the next, or to earth."""
        net = self.network
        terminals = [it.name for it in net.nodes.values() if it.kind in TERMINALS]

        def is_end(name: str) -> bool:
            return net.kind(name) in TERMINALS or net.is_earth(name)

        for start in terminals:
            for path in paths(net, start, is_end, is_end):
                last = path.nodes[-1]
                if path.switches and (net.is_earth(last)
                                      or terminals.index(start) < terminals.index(last)):
                    yield path

    def feeding(self) -> Iterator[Path]:
        """The paths on which a source feeds a terminal that is none; no other source lies on
        them."""
        net = self.network
        for source in net.sources():
            yield from (path for path in paths(
                net, source.name, lambda name: net.kind(name) in TERMINALS
                and not net.nodes[name].is_source, lambda name: net.nodes[name].is_source)
                if path.switches)

    def beside(self, switch: Switch) -> list[Path]:
        """The paths beside a disconnector."""
        net = self.network
        return paths_between(net, *switch.nodes, without=switch,
                             stops_at=lambda name: net.kind(name) == TRANSFORMER)

    def closed_beside(self, switch: Switch) -> list[Path]:
        """Those that can be known to be closed."""
        return [path for path in self.besides[switch.name]
                if all(it.is_closed() for it in path.switches)]

    def unless(self, switch: Switch, without: Switch | None = None) -> tuple[tuple[Part, ...], ...]:
        """That a path beside a disconnector is closed, by each of them."""
        return tuple(tuple(part for it in path.switches for part in it.is_closed())
                     for path in self.closed_beside(switch) if without not in path.switches)

    # ---- rules

    def earthing(self) -> Iterator[Demand]:
        """An earthing switch, and each path from a source to its node. A path without a
        disconnector is interrupted only by a source that is known to be dead."""
        for path, switch in self.to_earth:
            if not switch.is_own:
                continue
            source = self.network.nodes[path.nodes[0]]
            parts = both(isolating(path.switches))
            why = f'{switch.name} would earth the source {source.name}: {path.text()}'
            if not isolating(path.switches):
                if not source.dead:
                    raise BadDiagram(f'{self.network.title}: {switch.name} earths {path.text()}, '
                                     f'and no disconnector parts it from the source {source.name}: '
                                     f'give the node {source.name} a key dead, with the input that '
                                     'is TRUE only while it is dead, or add the disconnector')
                parts = (Part(source.name, NOT_DEAD, f'not {source.dead}'),)
                why = f'no disconnector parts {switch.name} from the source: {path.text()}'
            yield Demand(EARTHS, switch.name, CLOSE, parts, why=[why])

    def joining(self) -> Iterator[Demand]:
        """A breaker or a disconnector on a path from a source to an earth."""
        for path, earthing in self.to_earth:
            whole = path.then(earthing, earthing.other(path.nodes[-1]))
            for switch in path.switches:
                if switch.is_own:
                    parts = earthing.not_open() + both(isolating(path.others(switch)))
                    yield Demand(JOINS, switch.name, CLOSE, tuple(dict.fromkeys(parts)), why=[
                        f'the source {path.nodes[0]} would be earthed: {whole.text()}'])

    def current(self) -> Iterator[Demand]:
        """A disconnector, and each path of a current through it. On a path with breakers one of
        these is open; on others another switch is, or the disconnector would make or break alone.
        A path to earth is interrupted by any."""
        for path in self.currents:
            for switch in path.switches:
                if switch.is_own and switch.kind == DISCONNECTOR:
                    yield self.current_of(path, switch)

    def current_of(self, path: Path, switch: Switch) -> Demand:
        others = path.others(switch)
        breakers = [it for it in others if it.kind == BREAKER]
        if self.network.is_earth(path.nodes[-1]):
            why = f'the current to earth would flow through it: {path.text()}'
            return Demand(CURRENT if breakers else ALONE, switch.name, BOTH, both(others),
                          why=[why])
        if breakers:
            return Demand(CURRENT, switch.name, BOTH, both(breakers), self.unless(switch),
                          [f'a current could flow: {path.text()}'])
        return Demand(ALONE, switch.name, BOTH, both(others), self.unless(switch),
                      [f'no breaker is in the path: {path.text()}'])

    def meeting(self) -> Iterator[Demand]:
        """A breaker that closes, and a disconnector on a path of its current: of one from a
        terminal to the next, or of one that it feeds through terminals that may be dead."""
        for path in self.currents:
            if not self.network.is_earth(path.nodes[-1]):
                yield from self.meets(path, path.switches, path.switches)
        for path in self.feeding():
            last = max(n for n, name in enumerate(path.nodes[:-1])
                       if self.network.kind(name) in TERMINALS)
            yield from self.meets(path, path.switches[:last], path.switches[last:])

    def meets(self, path: Path, closing: tuple[Switch, ...], moving: tuple[Switch, ...]
              ) -> Iterator[Demand]:
        """For each breaker of the bay among those that close, and each disconnector among those
        that may be moving."""
        for switch, breaker in itertools.product(moving, closing):
            if switch.kind == DISCONNECTOR and breaker.is_own and breaker.kind == BREAKER:
                rest = both(it for it in path.others(breaker) if it.kind == BREAKER)
                yield Demand(MEETS, breaker.name, CLOSE, switch.not_at_rest() + rest,
                             self.unless(switch, breaker),
                             [f'{switch.name} would make the current: {path.text()}'])

    def staying(self) -> Iterator[Demand]:
        """A switch that opens, and a disconnector beside which it closes a path; while a current
        can flow through the disconnector."""
        for switch in self.network.switches:
            for path in self.besides.get(switch.name, []):
                for mine in path.switches:
                    if mine.is_own and mine.kind != EARTHING:
                        yield from self.stays(switch, path, mine)

    def stays(self, switch: Switch, beside: Path, mine: Switch) -> Iterator[Demand]:
        """While the rest of that path, and of one of a current, is not known to be open. A current
        that flows through the switch which opens is taken off the disconnector."""
        for path in self.currents:
            if (switch not in path.switches or mine in path.switches
                    or self.network.is_earth(path.nodes[-1])):
                continue
            others = path.others(switch)
            breakers = [it for it in others if it.kind == BREAKER] or others
            rest = [it for it in (*breakers, *beside.switches) if it is not mine]
            yield Demand(STAYS, mine.name, OPEN, switch.not_at_rest() + both(rest),
                         self.unless(switch, mine),
                         [f'{switch.name} would break the current of {beside.text()}'])

    def systems(self) -> Iterator[Demand]:
        """A disconnector on a path between two sources of unlike systems, all else on it closed."""
        net = self.network
        for one, other in itertools.combinations([it for it in net.sources() if it.system], 2):
            if one.system == other.system:
                continue
            for path in paths_between(net, one.name, other.name,
                                      stops_at=lambda name: net.kind(name) == TRANSFORMER):
                for switch in path.switches:
                    if switch.is_own and switch.kind == DISCONNECTOR:
                        yield Demand(SYSTEMS, switch.name, CLOSE, both(path.others(switch)), why=[
                            f'{one.system} would be joined to {other.system}: {path.text()}'])


def demands_of(network: Network) -> list[Demand]:
    """The rules that a diagram asks for."""
    return Demands(network).all()


def inputs_of_other_bays(network: Network) -> list[str]:
    """The inputs of other bays by which a path beside a disconnector is known to be closed."""
    found = Demands(network)
    return list(dict.fromkeys(it.closed for switch in network.own(DISCONNECTOR)
                              for path in found.closed_beside(switch)
                              for it in path.switches if not it.is_own))


def as_comment(text: str, mark: str = '# ') -> list[str]:
    """A comment of a file of rules."""
    return textwrap.wrap(text, WIDTH, initial_indent=mark, subsequent_indent=mark,
                         break_long_words=False, break_on_hyphens=False)


def text_of(network: Network, domain: str) -> str:
    """The rules as a file for tools/audit and `bayctl audit`."""
    lines = as_comment(
        f'What the single line diagram {network.title} asks of bay {domain}; written by '
        'tools/rules. A position that is not known counts as the worse of both, and only '
        'an open disconnector keeps apart.')
    inputs = inputs_of_other_bays(network)
    if inputs:
        lines += as_comment(
            'While a disconnector of this bay moves beside a closed path, the programs '
            f'of other bays must keep it closed: {", ".join(inputs)}.')
    if network.selects_more():
        lines += as_comment(
            'The diagram selects hazards by the keys live_parts, fed_earths, synchro '
            'or coupler: no rule covers these. An audit with --diagram judges them.')
    head = ''
    for one in demands_of(network):
        if one.head != head:
            head = one.head
            lines += ['', *as_comment(head)]
        lines += [*(line for why in one.why for line in as_comment(why, '#   ')), one.text()]
    return '\n'.join(lines) + '\n'
