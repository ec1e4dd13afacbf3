"""TLS at a client's side: its own certificate, the authority that the server's must come from, and
the name that must stand in it; what is said where that fails; and whose certificate one is."""
import argparse
import re
import socket
import ssl
from dataclasses import dataclass

from baytools.common.ending import Failed, UsageError
from baytools.common.texts import in_line

from . import ber
from .identity import clip_identity

LEAST = ssl.TLSVersion.TLSv1_2
CIPHERS = 'ECDHE+AESGCM:DHE+AESGCM'  # of TLS 1.2: forward secrecy and authenticated encryption
ALERT = b'\x15\x03'  # how an answer of TLS to octets that are none begins
VERSION, SUBJECT = 0xA0, 4  # the tag of a version; the place of the subject behind it
CERTIFICATE = re.compile('-----BEGIN CERTIFICATE-----.*?-----END CERTIFICATE-----', re.DOTALL)
ATTRIBUTES = {b'\x55\x04\x03': 'CN', b'\x55\x04\x05': 'serialNumber', b'\x55\x04\x06': 'C',
              b'\x55\x04\x07': 'L', b'\x55\x04\x08': 'ST', b'\x55\x04\x0a': 'O',
              b'\x55\x04\x0b': 'OU', b'\x2a\x86\x48\x86\xf7\x0d\x01\x09\x01': 'emailAddress'}
WIDE = {0x1C: 'utf-32-be', 0x1E: 'utf-16-be', 0x14: 'latin-1'}  # by tag, where it is not UTF-8
HOST = re.compile(r'[A-Za-z0-9:](?:[A-Za-z0-9.:-]*[A-Za-z0-9:])?', re.ASCII)
SPECIAL = re.compile(r'[,+"\\<>;]|^[ #]| $')
# What a server says of a client's certificate, by the reason of its alert.
ALERTS = {
    'TLSV13_ALERT_CERTIFICATE_REQUIRED': 'the server asks for a certificate',
    'SSLV3_ALERT_CERTIFICATE_REVOKED': 'the server says that this certificate is revoked',
    'SSLV3_ALERT_CERTIFICATE_EXPIRED': 'the server says that this certificate has expired, or its '
                                       'revocation list',
    'SSLV3_ALERT_BAD_CERTIFICATE': 'the server does not take this certificate',
    'SSLV3_ALERT_CERTIFICATE_UNKNOWN': 'the server does not take this certificate',
    'SSLV3_ALERT_UNSUPPORTED_CERTIFICATE': 'the server says that this certificate is none of a '
                                           'client',
    'TLSV1_ALERT_UNKNOWN_CA': 'the server does not know the authority of this certificate',
    'TLSV1_ALERT_PROTOCOL_VERSION': 'the server has no version of TLS that is asked for',
    'SSLV3_ALERT_HANDSHAKE_FAILURE': 'the server refuses the handshake: it may ask for a '
                                     'certificate, or have no cipher in common',
    'WRONG_VERSION_NUMBER': 'no TLS is spoken there'}


@dataclass(frozen=True)
class Tls:
    """What a client's connections are made with. `subject` is whose its own certificate is, as
    names and values; `name` must stand in the server's, or the host where it is None."""
    context: ssl.SSLContext
    subject: list[tuple[str, str]]
    name: str | None = None

    def over(self, connection: socket.socket, host: str) -> ssl.SSLSocket:
        """TLS over a connection, its handshake done, within the connection's timeout."""
        try:
            return self.context.wrap_socket(connection, server_hostname=self.name or host)
        finally:
            connection.close()  # which does nothing once TLS has taken its descriptor

    def subject_text(self) -> str:
        """Whose the own certificate is."""
        return subject_text(self.subject)

    def identity(self) -> str:
        """The CN of the own certificate, as far as an orIdent takes it; or nothing."""
        return clip_identity(next((value for name, value in self.subject if name == 'CN'), ''))


def add_options(found: argparse.ArgumentParser) -> None:
    """The options of a tool whose connection may be one of TLS."""
    found.add_argument('--tls', action='store_true',
                       help='by TLS 1.2 or later, both ends with a certificate: needs --cert, --ca')
    for option, told in (('--cert', 'the own certificate (PEM), with its key or without'),
                         ('--key', 'its key, where that has a file of its own'),
                         ('--ca', 'the authority that the server\'s certificate must come from'),
                         ('--crl', 'its revocation list, in which the server\'s must not stand')):
        found.add_argument(option, metavar='FILE', help=told)
    found.add_argument('--server-name', metavar='NAME',
                       help='what the server\'s certificate must name, where not the host')


def tls_of(chosen: argparse.Namespace) -> Tls | None:
    """What a command line says of TLS, or None where it says nothing."""
    given = {name: getattr(chosen, name) for name in ('cert', 'key', 'ca', 'crl', 'server_name')
             if getattr(chosen, name) is not None}
    if not chosen.tls:
        for name in given:
            raise UsageError(f'--{name.replace("_", "-")} says nothing without --tls')
        return None
    for name in ('cert', 'ca'):
        if name not in given:
            raise UsageError(f'--tls needs --{name} FILE')
    if not HOST.fullmatch(chosen.server_name or 'x'):
        raise UsageError(f'{in_line(chosen.server_name[:80])} is no name of a server')
    return read(chosen.cert, chosen.key, chosen.ca, chosen.crl, chosen.server_name)


def read(cert: str, key: str | None, authority: str, crl: str | None = None,
         name: str | None = None) -> Tls:
    """What a client's connections are made with, from its files."""
    context = ssl.SSLContext(ssl.PROTOCOL_TLS_CLIENT)  # which checks the certificate and the name
    context.minimum_version = LEAST
    context.set_ciphers(CIPHERS)
    subject = subject_in(cert)
    try:
        context.load_cert_chain(cert, key, lambda: refuse_passphrase(key or cert))
    except ssl.SSLError as error:
        why = 'its key is not that of the certificate' if error.reason == 'KEY_VALUES_MISMATCH' \
            else 'no key can be read'
        raise Failed(f'{key or cert}: {why}') from None
    except OSError as error:
        raise Failed(f'{key or cert}: {error.strerror}') from None
    for path in (authority, crl):
        if path is not None:
            trust(context, path)
    if crl is not None:
        context.verify_flags |= ssl.VerifyFlags.VERIFY_CRL_CHECK_LEAF
    return Tls(context, subject, name)


def refuse_passphrase(path: str) -> str:
    raise Failed(f'{path}: its key has a passphrase, which is not asked for')


def trust(context: ssl.SSLContext, path: str) -> None:
    """Takes an authority's certificate, or its revocation list."""
    try:
        context.load_verify_locations(path)
    except ssl.SSLError:
        raise Failed(f'{path}: no certificate or revocation list can be read (PEM)') from None
    except OSError as error:
        raise Failed(f'{path}: {error.strerror}') from None


def open_connection(host: str, port: int, timeout: float, tls: Tls | None = None) -> socket.socket:
    """A connection to a server, by TLS where that is given. What is written goes out at once: else
    the first request would wait for the acknowledgement of a handshake of TLS 1.3."""
    plain = socket.create_connection((host, port), timeout)
    plain.setsockopt(socket.IPPROTO_TCP, socket.TCP_NODELAY, 1)
    return tls.over(plain, host) if tls else plain


def server_of(connection: socket.socket) -> str:
    """Whose certificate the server of a connection has, or nothing without TLS."""
    der = connection.getpeercert(True) if isinstance(connection, ssl.SSLSocket) else None
    return subject_text(subject_of(der)) if der else ''


def failure_text(error: ssl.SSLError) -> str:
    """Why a connection of TLS failed."""
    if isinstance(error, ssl.SSLCertVerificationError):
        why = error.verify_message.rstrip('.')
        return f'the server\'s certificate is not taken: {why}'
    if isinstance(error, ssl.SSLEOFError):
        return 'the server ended the handshake: is it a port of TLS?'
    reason = error.reason or str(error)
    return ALERTS.get(reason, f'TLS fails: {reason.lower().replace("_", " ")}')


def refusal_in(connection: socket.socket, error: OSError) -> str:
    """Why a server has ended a connection whose handshake was done: its alert may have come."""
    try:
        connection.recv(1)
    except ssl.SSLEOFError:
        pass
    except ssl.SSLError as alert:
        return failure_text(alert)
    except OSError:
        pass
    return (f'the server ended the connection behind the handshake ({error.strerror or error}): '
            'it may not take this certificate, or have nobody to pass it on to; its log tells why')


# ---- whose a certificate is

def subject_in(path: str) -> list[tuple[str, str]]:
    """Whose the first certificate of a file is."""
    with open(path, encoding='latin-1') as file:
        found = CERTIFICATE.search(file.read())
    if not found:
        raise Failed(f'{path}: there is no certificate (PEM)')
    try:
        return subject_of(ssl.PEM_cert_to_DER_cert(found[0]))
    except (ValueError, ber.Unreadable):
        raise Failed(f'{path}: the certificate can\'t be read') from None


def subject_of(der: bytes) -> list[tuple[str, str]]:
    """The names and the values of a certificate's subject (X.509, RFC 5280 4.1), in their order."""
    signed = ber.need(ber.only(der, 0x30), 0x30)
    fields = [content for tag, content in ber.elements(signed) if tag != VERSION]
    if len(fields) <= SUBJECT:
        raise ber.Unreadable('a certificate without a subject')
    return [attribute(content) for _, several in ber.elements(fields[SUBJECT])
            for _, content in ber.elements(several)]


def attribute(octets: bytes) -> tuple[str, str]:
    """One name of a subject with its value."""
    parts = ber.elements(octets)
    if len(parts) != 2:
        raise ber.Unreadable('an attribute that is no pair')
    (_, name), (tag, value) = parts
    text = value.decode(WIDE.get(tag, 'utf-8'), 'backslashreplace')
    return ATTRIBUTES.get(name, f'oid.{name.hex()}'), text


def subject_text(subject: list[tuple[str, str]]) -> str:
    """A subject in one line, as openssl and stunnel have it: O=Station, CN=operator."""
    return ', '.join(f'{name}={quote_value(in_line(value))}' for name, value in subject)


def quote_value(value: str) -> str:
    """A value, in quotes where it would not end at its end."""
    if not SPECIAL.search(value):
        return value
    return '"' + re.sub(r'(["\\])', r'\\\1', value) + '"'
