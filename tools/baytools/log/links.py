"""The links of a span: the associations of bayctl, each joined with the connection of stunnel that
handed it on, by address and port; and what was asked on them."""
from collections import defaultdict
from dataclasses import dataclass, field

from . import server_lines as lines
from .server_lines import Event
from .stunnel_lines import Connection

APART = 5_000  # milliseconds that the clocks of bayctl and stunnel may be apart
NOBODY = 'unknown: its opening is not in the log'


@dataclass
class Link:
    """An association. `opened` is None where the log begins behind its opening."""
    source: str
    association: int
    address: str = ''
    opened: int | None = None
    closed: int | None = None
    connection: Connection | None = None
    done: int = 0
    refused: int = 0

    def who(self) -> str:
        """Whose link it is: the subject of its certificate, or where it has none from where."""
        if self.opened is None:
            return NOBODY
        if self.connection is None:
            return f'no certificate, from {self.address.rpartition(":")[0]}'
        return self.connection.subject or 'a certificate that stunnel does not tell'

    def place(self) -> str:
        """The address from which its client comes, as far as it is known."""
        return self.connection.peer if self.connection else self.address


@dataclass
class Server:
    """A process of bayctl as its lines tell it: the port of its clients, its links that are open,
    who operated a switch last, whether its process is there, and how far the system's clock is from
    its own."""
    port: str = ''
    links: dict[int, Link] = field(default_factory=dict)
    operated: dict[str, Link] = field(default_factory=dict)
    lost: int | None = None
    apart: int = 0


@dataclass
class Story:
    """What the logs tell, in its order: each event with its link, if it has one."""
    events: list[tuple[Event, Link | None]] = field(default_factory=list)
    links: list[Link] = field(default_factory=list)
    connections: list[Connection] = field(default_factory=list)
    losses: list[tuple[int, int | None]] = field(default_factory=list)

    def strangers(self) -> list[Connection]:
        """The connections of stunnel that no association came of."""
        joined = {id(it.connection) for it in self.links if it.connection}
        return [it for it in self.connections if id(it) not in joined]


class Joining:
    """Goes through the events of bayctl, and looks for the connection of each association."""

    def __init__(self, connections: list[Connection]) -> None:
        self.story = Story(connections=connections)
        self.servers: dict[str, Server] = defaultdict(Server)
        self.handed: dict[str, list[Connection]] = defaultdict(list)
        for one in connections:
            if one.local:
                self.handed[one.local].append(one)

    def takes(self, event: Event) -> None:
        server = self.servers[event.source]
        self.story.events.append((event, self.link_of(server, event)))
        match event.kind:
            case lines.BEGUN:
                self.begins(server, event)
            case lines.ENDED | lines.FAULT:
                self.ends(server, event.moment)
            case lines.CONNECTED:
                self.returns(server, event.moment)
            case lines.PARTED:
                server.lost = len(self.story.losses)
                self.story.losses.append((event.moment, None))
            case lines.CLOCK:
                server.apart = int(event.code or 0)

    def link_of(self, server: Server, event: Event) -> Link | None:
        """The link of an event; one that opens or closes it, and what is asked on it, is noted. The
        end of an operate belongs to the link that asked for it."""
        if event.kind == lines.DONE:
            return server.operated.pop(event.switch, None)
        if event.association is None:
            return None
        number = event.association
        if event.kind == lines.OPEN:
            server.links[number] = Link(event.source, number, event.address, event.moment,
                                        connection=self.connection_of(server, event))
            self.story.links.append(server.links[number])
        if number not in server.links:
            server.links[number] = Link(event.source, number)
            self.story.links.append(server.links[number])
        link = server.links[number]
        if event.kind == lines.CLOSED:
            link.closed = event.moment
            del server.links[number]
        elif event.kind == lines.CONTROL:
            link.done += event.is_good()
            link.refused += not event.is_good()
            if event.verb == lines.OPERATE and event.is_good():
                server.operated[event.switch] = link
        return link

    def connection_of(self, server: Server, event: Event) -> Connection | None:
        """The connection that was handed on from an address, at about this time, to this server."""
        near = [it for it in self.handed[event.address]
                if abs(it.handed - event.moment) <= APART + server.apart
                and (not server.port or not it.target or it.target == server.port)]
        if not near:
            return None
        found = min(near, key=lambda it: abs(it.handed - event.moment))
        self.handed[event.address].remove(found)
        return found

    def begins(self, server: Server, event: Event) -> None:
        """A server listens: what was open before on its port is not any more."""
        server.port = event.address
        for other in self.servers.values():
            if other.port == event.address:
                self.ends(other, event.moment)

    def ends(self, server: Server, moment: int) -> None:
        for link in server.links.values():
            link.closed = moment
        server.links.clear()
        server.operated.clear()
        self.returns(server, moment)

    def returns(self, server: Server, moment: int) -> None:
        """The process is there again, or the server gone."""
        if server.lost is not None:
            self.story.losses[server.lost] = self.story.losses[server.lost][0], moment
            server.lost = None
