"""What stunnel logs of its connections at its usual level, `debug = notice`: who came, with which
certificate, whether it was let in, and from which port it was handed on."""
import re
from dataclasses import dataclass, field

from .entries import Entry, local

LINE = re.compile(r'(?:(?P<stamp>\d{4}\.\d\d\.\d\d \d\d:\d\d:\d\d) )?LOG(?P<level>[0-7])'
                  r'\[(?P<number>[\w:]+)\]: (?P<text>.*)', re.ASCII)
STARTED = re.compile(r'stunnel \d\S* on ')
ACCEPTED = re.compile(r'Service \[(?P<service>.*)\] accepted connection from (?P<address>\S+:\d+)')
SHOWN = re.compile(r'Certificate accepted at depth=0: (?P<subject>.*)')
REJECTED = re.compile(r'Rejected by .* at depth=(?P<depth>\d+): (?P<subject>.*)')
CHECKED = re.compile(r'(?:CERT: )?Pre-verification error: (?P<why>.*)|CERT: (?P<other>.*)')
TARGET = re.compile(r's_connect: connected (?P<address>\S+:\d+)')
HANDED = re.compile(r'Service \[.*\] connected remote server from (?P<address>\S+:\d+)')
UNREACHED = re.compile(r's_connect: connect (?P<address>\S+:\d+): (?P<why>.*?)(?: \(\d+\))?')
FAILED = re.compile(r'SSL_(?:accept|read|write): .*?(?:error:[0-9A-F]+:)?(?P<why>[^:]*)')
OVER = re.compile(r'Connection (?P<how>closed|reset|reset/closed): .*')
# What stunnel says of itself.
OWN = [(STARTED, 'stunnel starts'), (re.compile(r'Terminated'), 'stunnel ends'),
       (re.compile(r'Configuration successful'),
        'stunnel has read its configuration, and with it the revocation list')]
WORST = '3'  # the least severe of the levels that are errors
# What the words of OpenSSL mean of a client.
MEANINGS = {'peer did not return a certificate': 'it showed no certificate',
            'unsupported protocol': 'its version of TLS is too old',
            'wrong version number': 'it speaks no TLS',
            'http request': 'it speaks no TLS, but HTTP',
            'packet length too long': 'it speaks no TLS',
            'unknown protocol': 'it speaks no TLS',
            'no shared cipher': 'it has no cipher in common',
            'unexpected eof while reading': 'it went away within the handshake',
            'certificate verify failed': 'its certificate was not taken',
            **dict.fromkeys(('tlsv1 alert unknown ca', 'sslv3 alert bad certificate',
                             'sslv3 alert certificate unknown', 'sslv3 alert certificate expired'),
                            'it does not take the certificate of this server')}


@dataclass
class Connection:
    """A client's connection to stunnel. `local` is the address from which it was handed on to
    `target`; a connection that was never handed on was refused, for the reasons that are told."""
    source: str
    service: str
    accepted: int
    peer: str
    subject: str = ''
    target: str = ''
    local: str = ''
    handed: int = 0
    closed: int | None = None
    is_rejected: bool = False
    reasons: list[str] = field(default_factory=list)

    def refusal(self) -> str:
        """Why it was not let in, in words."""
        if not self.reasons:
            return 'it went away within the handshake'
        first = self.reasons[0]
        return MEANINGS.get(first, first)


@dataclass(frozen=True)
class Note:
    """Something that stunnel says of itself."""
    moment: int
    told: str
    is_bad: bool = False


class Door:
    """stunnel's connections, from its lines in their order."""

    def __init__(self) -> None:
        self.connections: list[Connection] = []
        self.notes: list[Note] = []
        self.current: dict[tuple[str, str], Connection] = {}

    def takes(self, entry: Entry) -> bool:
        """Reads a line, and tells whether it is stunnel's."""
        found = LINE.fullmatch(entry.text)
        if not found:
            return False
        moment = entry.moment
        if moment is None and found['stamp']:
            moment = local(found['stamp'], '%Y.%m.%d %H:%M:%S')
        if STARTED.match(found['text']):
            self.current = {key: it for key, it in self.current.items() if key[0] != entry.source}
        if moment is not None:
            self.notes += notes_in_line(moment, found)
            self.reads(entry.source, found['number'], moment, found['text'])
        return True

    def reads(self, source: str, number: str, moment: int, text: str) -> None:
        if found := ACCEPTED.fullmatch(text):
            one = Connection(source, found['service'], moment, found['address'])
            self.connections.append(one)
            self.current[source, number] = one
        elif (source, number) in self.current:
            note_line(self.current[source, number], moment, text)


def notes_in_line(moment: int, found: re.Match[str]) -> list[Note]:
    """What a line says of stunnel itself: that it starts or ends, and errors of its own."""
    told = next((words for pattern, words in OWN if pattern.match(found['text'])), '')
    if told:
        return [Note(moment, told)]
    if found['number'] == 'ui' and found['level'] <= WORST:
        return [Note(moment, f'stunnel: {found["text"]}', True)]
    return []


def note_line(one: Connection, moment: int, text: str) -> None:
    """Notes what a line says of a connection."""
    if found := SHOWN.fullmatch(text):
        one.subject = found['subject']
    elif found := REJECTED.fullmatch(text):
        one.is_rejected = True
        if found['depth'] == '0':
            one.subject = found['subject']
    elif found := TARGET.fullmatch(text):
        one.target = found['address']
    elif found := HANDED.fullmatch(text):
        one.local, one.handed = found['address'], moment
    elif found := UNREACHED.fullmatch(text):
        one.reasons.append(f'{found["address"]} is not reached: {found["why"]}')
    elif found := CHECKED.fullmatch(text):
        one.reasons.append(found['why'] or found['other'])
    elif found := FAILED.fullmatch(text):
        one.reasons.append(found['why'])
    elif OVER.fullmatch(text):
        one.closed = moment
