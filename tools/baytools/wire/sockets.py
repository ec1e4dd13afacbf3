"""What the tools say of ports of TCP, and whether a server has taken a connection."""
import argparse
import math
import pathlib
import socket
import ssl
import struct

from .tls import failure_text

RESET = struct.pack('ii', 1, 0)  # for SO_LINGER: what waits is dropped, and the connection reset
TABLES = {socket.AF_INET: '/proc/net/tcp', socket.AF_INET6: '/proc/net/tcp6'}


def port_of(text: str) -> int:
    """The number of a port, for an option."""
    return number_within(text, 1, 65_535, 'a port')


def free_port_of(text: str) -> int:
    """The number of a port, or 0 for a free one."""
    return number_within(text, 0, 65_535, 'a port')


def number_within(text: str, least: int, most: int, what: str) -> int:
    is_number = text.isascii() and text.isdigit() and len(text) < 20
    if not is_number or not least <= int(text) <= most:
        raise argparse.ArgumentTypeError(f'{text[:20]} is not {what} from {least} to {most}')
    return int(text)


def seconds_of(text: str) -> float:
    """A time in seconds, from 0 to a day, for an option."""
    return within(text, 86_400, 'seconds')


def patience_of(text: str) -> float:
    """A time in seconds that is not 0, for an option."""
    value = seconds_of(text)
    if value == 0:
        raise argparse.ArgumentTypeError('the time can\'t be 0')
    return value


def millis_of(text: str) -> float:
    """A time in milliseconds, from 0 to a day, for an option."""
    return within(text, 86_400_000, 'milliseconds')


def within(text: str, most: int, what: str) -> float:
    try:
        value = float(text)
    except ValueError:
        value = math.nan
    if not 0 <= value <= most:
        raise argparse.ArgumentTypeError(f'{text[:20]} is not a number of {what} from 0 to '
                                         f'{most:,}')
    return value


def is_taken(connection: socket.socket) -> bool | None:
    """Whether the server at the other end, on this machine, has taken a connection: until then the
    system keeps it, and its end has no file. None where that can't be seen."""
    try:
        own, other = connection.getsockname()[:2], connection.getpeername()[:2]
        table = pathlib.Path(TABLES[connection.family]).read_text(encoding='ascii')
    except (OSError, KeyError):
        return None
    if own[0] != other[0]:
        return None
    wanted = f':{other[1]:04X}', f':{own[1]:04X}'
    for line in table.splitlines()[1:]:
        words = line.split()
        if words[1].endswith(wanted[0]) and words[2].endswith(wanted[1]):
            return words[9] != '0'
    return None


def why_unconnected(error: OSError) -> str:
    """Why there is no connection."""
    if isinstance(error, ConnectionRefusedError):
        return 'no server listens there'
    if isinstance(error, TimeoutError):
        return 'nothing is answered'
    if isinstance(error, ssl.SSLError):
        return failure_text(error)
    return error.strerror or str(error)
