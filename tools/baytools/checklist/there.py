"""The steps on another machine, from which clients come."""
import contextlib
import socket
import ssl
import warnings
from collections.abc import Callable
from dataclasses import dataclass

from baytools.common.ending import Failed
from baytools.wire import stream, tls
from baytools.wire.client import Client, connection_text

from .steps import OPEN, Step, Verdict, verdict_of

SECONDS = 5
REVOKED = 'revoked'


@dataclass(frozen=True)
class Far:
    """The machine of a bay, as it is reached from here. `old` is what a revoked client has."""
    host: str
    door: int
    ports: tuple[int, int]
    old: tls.Tls | None

    def plain(self) -> Verdict:
        """The ports of bayctl itself are not reached."""
        told = [(port, is_port_answered(self.host, port)) for port in self.ports]
        return verdict_of(not any(found for _, found in told), '\n'.join(
            f'port {port}: {"IT IS REACHED" if found else "it is not reached"}'
            for port, found in told))

    def stranger(self) -> Verdict:
        """Who has no certificate is not served."""
        return self.knocked(ssl.TLSVersion.TLSv1_2, 'without a certificate')

    def too_old(self) -> Verdict:
        """TLS 1.1 is not served."""
        if not ssl.HAS_TLSv1_1:
            raise Failed('this Python has no TLS 1.1')
        return self.knocked(ssl.TLSVersion.TLSv1_1, 'by TLS 1.1')

    def knocked(self, version: ssl.TLSVersion, who: str) -> Verdict:
        """Whether somebody without a certificate is answered by the bay."""
        context = ssl.SSLContext(ssl.PROTOCOL_TLS_CLIENT)
        context.check_hostname, context.verify_mode = False, ssl.CERT_NONE
        context.set_ciphers('ALL:@SECLEVEL=0')
        with warnings.catch_warnings():
            warnings.simplefilter('ignore')
            context.minimum_version = context.maximum_version = version
        plain = socket.create_connection((self.host, self.door), SECONDS)
        try:
            with context.wrap_socket(plain) as one:
                one.sendall(stream.connection_request())
                is_answered = bool(one.recv(100))
        except ssl.SSLError as error:
            return verdict_of(True, f'a client {who} is refused: {error.reason or error}')
        except (ConnectionError, TimeoutError) as error:
            return verdict_of(True, f'a client {who} is refused: {error.strerror or error}')
        return verdict_of(not is_answered, f'a client {who} is '
                          + ('ANSWERED' if is_answered else 'refused: the connection is closed'))

    def revoked(self) -> Verdict:
        """A client with a revoked certificate is refused for that."""
        if self.old is None:
            return Verdict(OPEN, 'make and revoke a certificate for this, and name it by --cert, '
                           '--key and --ca')
        try:
            client = Client(self.host, self.door, on_report=lambda told: None, timeout=SECONDS,
                            tls=self.old)
        except (Failed, OSError) as error:
            told = (connection_text(error, self.host, self.door) if isinstance(error, OSError)
                    else str(error))
            return verdict_of(REVOKED in told, told)
        with contextlib.closing(client.socket):
            return verdict_of(False, f'{self.old.subject_text()} IS SERVED')


def is_port_answered(host: str, port: int) -> bool:
    """Whether somebody listens at a port."""
    try:
        socket.create_connection((host, port), SECONDS).close()
    except OSError:
        return False
    return True


def steps_of(it: Far) -> list[Step]:
    found: list[tuple[str, Callable[[], Verdict]]] = [
        ('the ports of bayctl itself are not reached', it.plain),
        (f'who has no certificate is not served at port {it.door}', it.stranger),
        ('TLS 1.1 is not served', it.too_old),
        ('a revoked certificate is refused', it.revoked)]
    return [Step(*one) for one in found]
