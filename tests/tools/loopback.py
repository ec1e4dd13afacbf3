"""Whether tests can open ports of this machine: where they can't, those that do are skipped."""
import socket
import unittest

from baytools.wire.sockets import is_taken


def has_loopback() -> bool:
    try:
        with socket.create_server(('127.0.0.1', 0)) as server:
            socket.create_connection(server.getsockname(), 1).close()
        return True
    except OSError:
        return False


def sees_waiting() -> bool:
    """Whether this system tells that a server has not taken a connection yet."""
    try:
        with socket.create_server(('127.0.0.1', 0)) as server, \
                socket.create_connection(server.getsockname(), 1) as one:
            return is_taken(one) is False
    except OSError:
        return False


needs_loopback = unittest.skipUnless(has_loopback(), 'no port of this machine can be opened')
needs_waiting = unittest.skipUnless(sees_waiting(), 'this system does not tell who waits')
