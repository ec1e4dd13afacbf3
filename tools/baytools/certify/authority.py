"""An authority in a folder: its certificate, its key, its revocation list, what it has issued, and
the certificates of servers and clients. All is made by openssl, in a folder of its own, and put in
its place only when it is whole; nothing that is there is overwritten but the revocation list."""
import contextlib
import os
import pathlib
import re
import subprocess
import tempfile
from collections.abc import Iterator
from dataclasses import dataclass

from baytools.common.ending import FOUND, Failed, UsageError
from baytools.common.texts import in_line

AUTHORITY = 'authority'
CERTIFICATE, KEY, LIST = f'{AUTHORITY}.pem', f'{AUTHORITY}.key', f'{AUTHORITY}.crl'
ISSUED, NUMBER, SETTINGS = 'issued', 'crlnumber', 'openssl.cnf'
OWN, ALL = 0o600, 0o644  # who may read what
KEYS = {'ec': ['-newkey', 'ec', '-pkeyopt', 'ec_paramgen_curve:P-256'],
        'rsa': ['-newkey', 'rsa:3072']}
NAME = re.compile(r'[A-Za-z0-9](?:[A-Za-z0-9._@-]{0,62}[A-Za-z0-9])?', re.ASCII)
WORDS = re.compile(r'[A-Za-z0-9](?:[A-Za-z0-9 ._&-]{0,62}[A-Za-z0-9.])?', re.ASCII)
HOST = re.compile(r'[A-Za-z0-9](?:[A-Za-z0-9.-]{0,251}[A-Za-z0-9])?', re.ASCII)
ADDRESS = re.compile(r'[0-9]{1,3}(?:\.[0-9]{1,3}){3}|[0-9A-Fa-f:]*:[0-9A-Fa-f:.]*', re.ASCII)
TEXTS = f'''# Written by tools/certify.
[ca]
default_ca = station
[station]
database = {ISSUED}
new_certs_dir = .
certificate = {CERTIFICATE}
private_key = {KEY}
crlnumber = {NUMBER}
default_md = sha256
rand_serial = yes
unique_subject = yes
policy = any
email_in_dn = no
[any]
organizationName = optional
organizationalUnitName = optional
commonName = supplied
[req]
distinguished_name = none
prompt = no
[none]
[list]
authorityKeyIdentifier = keyid
[{AUTHORITY}]
basicConstraints = critical, CA:TRUE, pathlen:0
keyUsage = critical, keyCertSign, cRLSign
subjectKeyIdentifier = hash
'''
END = '''[{kind}]
basicConstraints = critical, CA:FALSE
keyUsage = critical, digitalSignature
extendedKeyUsage = {kind}Auth
subjectKeyIdentifier = hash
authorityKeyIdentifier = keyid
'''
STATES = {'V': 'valid', 'R': 'revoked', 'E': 'expired'}


class Refused(Failed):
    """What was asked for is there already, or is not there."""
    status = FOUND


@dataclass(frozen=True)
class Issued:
    """A certificate that the authority has issued. The times are those of openssl."""
    state: str
    until: str
    revoked: str
    serial: str
    subject: str


@contextlib.contextmanager
def owner_only() -> Iterator[None]:
    """What is made here only its owner may read."""
    before = os.umask(0o077)
    try:
        yield
    finally:
        os.umask(before)


def check_form(pattern: re.Pattern[str], text: str, what: str) -> str:
    if not pattern.fullmatch(text):
        raise UsageError(f'{in_line(text[:80])} is no {what}')
    return text


def subject_for(organization: str, unit: str, name: str) -> str:
    """A subject as openssl takes it."""
    parts = [('O', organization), ('OU', unit), ('CN', name)]
    return ''.join(f'/{key}={value}' for key, value in parts if value)


def alternative(host: str) -> str:
    """A name of a server as a certificate has it."""
    if ADDRESS.fullmatch(host):
        return f'IP:{host}'
    return f'DNS:{check_form(HOST, host, "host name or address")}'


class Authority:
    """The authority of a folder."""

    def __init__(self, folder: str) -> None:
        self.folder = pathlib.Path(folder)

    def path(self, name: str) -> pathlib.Path:
        return self.folder / name

    def openssl(self, *words: str) -> str:
        """Runs openssl in the folder; what it prints."""
        try:
            done = subprocess.run(['openssl', *words], cwd=self.folder, capture_output=True,
                                  text=True, errors='backslashreplace', stdin=subprocess.DEVNULL)
        except FileNotFoundError:
            raise Failed('openssl: it is not installed') from None
        if done.returncode:
            told = [line for line in done.stderr.splitlines() if line.strip()]
            fault = next((line for line in told if 'rror' in line), told[0] if told else '')
            raise Failed(f'openssl {words[0]}: {in_line(fault.strip()) or "it failed"}')
        return done.stdout

    def needs(self) -> None:
        """The folder must have an authority."""
        if not self.path(KEY).exists():
            raise Refused(f'{self.folder}: there is no authority: make it first')

    def free(self, *names: str) -> None:
        """Refuses what would overwrite something."""
        for name in names:
            if os.path.lexists(self.path(name)):
                raise Refused(f'{self.path(name)}: it is there already, and nothing is overwritten')

    @contextlib.contextmanager
    def making(self, *names: str) -> Iterator[list[str]]:
        """Files that are made beside their places, and take them when all are whole."""
        self.free(*names)
        with owner_only(), tempfile.TemporaryDirectory(dir=self.folder, prefix='.making') as beside:
            made = [f'{pathlib.Path(beside).name}/{name}' for name in names]
            yield made
            for name, path in zip(names, made):
                self.path(path).chmod(OWN if name.endswith('.key') else ALL)
                os.link(self.path(path), self.path(name))  # which overwrites nothing

    def make(self, name: str, organization: str, days: int, list_days: int, kind: str) -> None:
        """Makes the authority, with an empty revocation list."""
        with owner_only():
            self.folder.mkdir(exist_ok=True)
        self.free(CERTIFICATE, KEY, LIST, ISSUED, NUMBER, SETTINGS)
        subject = subject_for(check_form(WORDS, organization, 'organization'), '',
                              check_form(NAME, name, 'name'))
        with owner_only():
            for file, text in ((SETTINGS, TEXTS), (ISSUED, ''), (NUMBER, '01\n')):
                with open(self.path(file), 'x', encoding='ascii') as out:
                    out.write(text)
        with self.making(KEY, CERTIFICATE) as (key, certificate):
            self.openssl('req', '-x509', '-config', SETTINGS, *KEYS[kind], '-nodes', '-sha256',
                         '-extensions', AUTHORITY, '-days', str(days), '-subj', subject,
                         '-keyout', key, '-out', certificate)
        self.renew(list_days)

    def organization(self) -> str:
        """The organization of the authority."""
        told = self.openssl('x509', '-in', CERTIFICATE, '-noout', '-subject', '-nameopt', 'sep_'
                            'multiline')
        return next((line.strip()[2:] for line in told.splitlines()
                     if line.strip().startswith('O=')), '')

    def issue(self, kind: str, name: str, unit: str, hosts: list[str], days: int,
              key_kind: str) -> None:
        """Makes the key and the certificate of a server or a client."""
        self.needs()
        if check_form(NAME, name, 'name').lower() == AUTHORITY:
            raise UsageError(f'{name} is the name of the authority\'s own files')
        if unit:
            check_form(WORDS, unit, 'unit')
        also = ','.join(map(alternative, hosts))
        subject = subject_for(self.organization(), unit, name)
        if any(it.state == 'valid' and it.subject == subject for it in self.issued()):
            raise Refused(f'{subject}: there is a valid certificate of that subject: revoke it')
        with self.making(f'{name}.key', f'{name}.pem') as (key, certificate):
            beside = pathlib.Path(certificate).parent
            ends = END.format(kind=kind) + (f'subjectAltName = {also}\n' if also else '')
            self.path(str(beside / 'ends')).write_text(ends, encoding='ascii')
            self.openssl('req', '-new', '-config', SETTINGS, *KEYS[key_kind], '-nodes', '-sha256',
                         '-subj', subject, '-keyout', key, '-out', str(beside / 'request'))
            self.openssl('ca', '-config', SETTINGS, '-batch', '-notext', '-days', str(days),
                         '-extfile', str(beside / 'ends'), '-extensions', kind,
                         '-in', str(beside / 'request'), '-out', certificate,
                         '-outdir', str(beside))

    def revoke(self, name: str, list_days: int) -> None:
        """Revokes a certificate, and renews the list."""
        self.needs()
        path = self.path(f'{check_form(NAME, name, "name")}.pem')
        if not path.exists():
            raise Refused(f'{path}: there is no such certificate')
        serial = self.openssl('x509', '-in', path.name, '-noout', '-serial')
        digits = serial.strip().partition('=')[2]
        found = next((it for it in self.issued() if it.serial == digits), None)
        if found is None:
            raise Refused(f'{path}: this authority has not issued it')
        if found.state == 'revoked':
            raise Refused(f'{path}: it is revoked already')
        with owner_only():
            self.openssl('ca', '-config', SETTINGS, '-batch', '-revoke', path.name)
        self.renew(list_days)

    def renew(self, days: int) -> None:
        """Writes the revocation list anew: whole, or not at all."""
        self.needs()
        with owner_only(), tempfile.TemporaryDirectory(dir=self.folder, prefix='.making') as beside:
            made = pathlib.Path(beside) / LIST
            self.openssl('ca', '-config', SETTINGS, '-gencrl', '-crlexts', 'list', '-crldays',
                         str(days), '-out', f'{made.parent.name}/{LIST}')
            made.chmod(ALL)
            made.replace(self.path(LIST))

    def issued(self) -> list[Issued]:
        """What the authority has issued, in that order."""
        self.needs()
        found = []
        for line in self.path(ISSUED).read_text(encoding='utf-8').splitlines():
            state, until, revoked, serial, _, subject = line.split('\t')
            found.append(Issued(STATES.get(state, state), until, revoked, serial, subject))
        return found
