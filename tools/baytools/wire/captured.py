"""The talk of a captured connection, from its beginning or from the middle, and behind a gap."""
from baytools.bay.names import Names

from .capture import Event
from .conversation import Conversation
from .stream import Stream


def first_stream(event: Event) -> Stream:
    """The stream of one direction, as a connection begins in a capture."""
    return Stream() if event.kind == 'open' else Stream.after_gap()


def conversation_of(event: Event, bay: Names) -> Conversation:
    found = Conversation(bay)
    found.stream = first_stream(event)
    return found


def continue_after_gap(event: Event, conversation: Conversation, servers: dict) -> None:
    """Goes on behind octets that are missing."""
    if event.side == 'client':
        conversation.stream = Stream.after_gap()
    else:
        servers[event.place] = Stream.after_gap()
