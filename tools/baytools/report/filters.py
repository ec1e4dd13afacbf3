"""What is picked of a scenario, a report or a capture: some switches, some clients, a span."""
import argparse
import re
from collections.abc import Sequence
from dataclasses import dataclass

from baytools.common import moments
from baytools.common.ending import Parser, UsageError
from baytools.common.texts import upcase


@dataclass(frozen=True)
class Picked:
    """Switches by their ids in upper case and clients by their numbers, all where there are none;
    moments from the first up to that behind the last."""
    switches: frozenset[str] = frozenset()
    clients: frozenset[int] = frozenset()
    first: int | None = None
    behind: int | None = None

    def has_moment(self, moment: int) -> bool:
        return ((self.first is None or moment >= self.first)
                and (self.behind is None or moment < self.behind))

    def has_client(self, place: object) -> bool:
        """Whether what is of a client, or of none, is picked."""
        return not self.clients or place == '' or int(str(place)) in self.clients

    def has_switch(self, name: str) -> bool:
        return not self.switches or upcase(name) in self.switches

    def lines(self, lines: Sequence[str]) -> list[str]:
        """Of the lines of one thing that happened those that name a switch, behind the first."""
        found = [line for line in lines if self.names_one(line)]
        return found if not found or found[0] is lines[0] or len(lines) == 1 else [lines[0], *found]

    def names_one(self, line: str) -> bool:
        return not self.switches or any(upcase(word) in self.switches for word in
                                        re.findall(r'[A-Za-z0-9]+', line))


def add_to(found: Parser) -> None:
    """The options by which something is picked."""
    found.add_argument('--switch', action='append', default=[], metavar='QA1,..',
                       help='only what names one of these switches')
    found.add_argument('--client', action='append', default=[], metavar='N,..',
                       help='of what clients did only that of the associations with these numbers')
    found.add_argument('--from', dest='first', type=moments.moment_of, metavar='TIME',
                       help='the first moment that is told')
    found.add_argument('--to', dest='behind', type=moments.moment_of, metavar='TIME',
                       help='the first moment that is not told any more')


def picked_by(chosen: argparse.Namespace, known: Sequence[str] = ()) -> Picked:
    """What the options pick; `known` are the switches of the bay, if it is known."""
    switches = [it for text in chosen.switch for it in text.split(',') if it]
    clients = [it for text in chosen.client for it in text.split(',') if it]
    odd = next((it for it in clients if not re.fullmatch('[0-9]{1,9}', it)), None)
    if odd:
        raise UsageError(f'--client {odd}: it is the number of an association, as 2')
    names = {upcase(it) for it in known}
    unknown = next((it for it in switches if known and upcase(it) not in names), None)
    if unknown:
        raise UsageError(f'--switch {unknown}: the bay has no such switch; it has '
                         f'{", ".join(known)}')
    if None not in (chosen.first, chosen.behind) and chosen.first >= chosen.behind:
        raise UsageError('--from is not before --to')
    return Picked(frozenset(map(upcase, switches)), frozenset(map(int, clients)), chosen.first,
                  chosen.behind)
