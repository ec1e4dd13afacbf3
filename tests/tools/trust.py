"""Certificates for tests, and a server that speaks TLS before another one."""
import atexit
import contextlib
import functools
import pathlib
import shutil
import socket
import ssl
import tempfile
import threading
import unittest
from collections.abc import Callable, Iterator

from baytools.certify.authority import Authority

needs_openssl = unittest.skipUnless(shutil.which('openssl'), 'openssl is not installed')


@functools.cache
def trust() -> pathlib.Path:
    """A folder with an authority, a server, clients, one of which is revoked, and a stranger, who
    has a certificate of another authority."""
    kept = tempfile.TemporaryDirectory()
    atexit.register(kept.cleanup)
    folder = pathlib.Path(kept.name)
    authority, other = Authority(str(folder / 'a')), Authority(str(folder / 'b'))
    for it in (authority, other):
        it.make('authority', 'Station A', 10, 10, 'ec')
        it.issue('server', 'bay', '', ['localhost', '127.0.0.1'], 10, 'ec')
        it.issue('client', 'operator', 'Control', [], 10, 'ec')
    authority.issue('client', 'old', '', [], 10, 'ec')
    authority.revoke('old', 10)
    return folder


def door_context(least=ssl.TLSVersion.TLSv1_2, most=ssl.TLSVersion.TLSv1_3) -> ssl.SSLContext:
    """What a server is made with that asks its clients for certificates."""
    folder = trust() / 'a'
    found = ssl.SSLContext(ssl.PROTOCOL_TLS_SERVER)
    found.minimum_version, found.maximum_version = least, most
    found.load_cert_chain(folder / 'bay.pem', folder / 'bay.key')
    for name in ('authority.pem', 'authority.crl'):
        found.load_verify_locations(folder / name)
    found.verify_mode, found.verify_flags = ssl.CERT_REQUIRED, ssl.VerifyFlags.VERIFY_CRL_CHECK_LEAF
    return found


@contextlib.contextmanager
def door(act: Callable, context: ssl.SSLContext) -> Iterator[int]:
    """A port of TLS on which each connection is handed to a function."""
    server = socket.create_server(('127.0.0.1', 0))

    def serve() -> None:
        with contextlib.suppress(OSError):
            while True:
                plain, _ = server.accept()
                threading.Thread(target=one, args=(plain,), daemon=True).start()

    def one(plain: socket.socket) -> None:
        with contextlib.suppress(OSError), plain:
            with context.wrap_socket(plain, server_side=True) as connection:
                act(connection)

    threading.Thread(target=serve, daemon=True).start()
    try:
        yield server.getsockname()[1]
    finally:
        server.close()
