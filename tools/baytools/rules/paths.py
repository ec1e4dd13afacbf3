"""Simple paths of a diagram: none comes to a node twice, and none goes through an earth."""
from collections.abc import Callable, Iterator
from dataclasses import dataclass

from baytools.diagram.network import BadDiagram, Network, Switch

MOST = 20_000  # paths from one node that are gone through


@dataclass(frozen=True)
class Path:
    """The nodes that a path comes to, and the switches between them."""
    nodes: tuple[str, ...]
    switches: tuple[Switch, ...]

    def text(self) -> str:
        """The path as a line: node - switch - node."""
        words = [self.nodes[0]]
        for switch, node in zip(self.switches, self.nodes[1:]):
            words += [switch.name, node]
        return ' - '.join(words)

    def others(self, switch: Switch) -> list[Switch]:
        """Its switches without this one."""
        return [it for it in self.switches if it is not switch]

    def then(self, switch: Switch, node: str) -> 'Path':
        return Path((*self.nodes, node), (*self.switches, switch))


def never(node: str) -> bool:
    return False


def paths(network: Network, start: str, is_end: Callable[[str], bool],
          stops_at: Callable[[str], bool] = never, without: Switch | None = None
          ) -> Iterator[Path]:
    """The simple paths from a node to each end. They go on behind an end, but not behind an earth
    or where they are to stop. `without` is a switch that none takes."""
    count, waiting = 0, [Path((start,), ())]
    while waiting:
        path = waiting.pop()
        count += 1
        if count > MOST:
            raise BadDiagram(f'{network.title}: there are more than {MOST:,} paths from {start}: '
                             'leave out what lies behind a busbar that is a source')
        last = path.nodes[-1]
        if is_end(last):
            yield path
        if path.switches and (network.is_earth(last) or stops_at(last)):
            continue
        waiting += [path.then(it, it.other(last)) for it in reversed(network.at[last])
                    if it is not without and it.other(last) not in path.nodes]


def paths_between(network: Network, start: str, end: str, stops_at: Callable[[str], bool] = never,
                  without: Switch | None = None) -> list[Path]:
    """The simple paths from one node to another, shortest first. Where both are one node, that is
    the path without a switch."""
    found = paths(network, start, lambda node: node == end,
                  lambda node: node == end or network.is_earth(node) or stops_at(node), without)
    return sorted(found, key=lambda path: len(path.switches))
