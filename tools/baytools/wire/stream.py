"""The layers below MMS: TPKT (RFC 1006), COTP of class 0 (X.224), session (X.225), presentation
(ISO 8823-1) and ACSE."""
import re
from collections.abc import Iterator
from dataclasses import dataclass

from . import ber
from .ber import Unreadable, element, number

CR, CC, DT, DR, ER = 0xE0, 0xD0, 0xF0, 0x80, 0x70
TPDU_SIZE = 0xC0
CONNECT, ACCEPT, FINISH, DISCONNECT, ABORT = 0x0D, 0x0E, 0x09, 0x0A, 0x19
ACSE_SYNTAX, MMS_SYNTAX = bytes.fromhex('52010001'), bytes.fromhex('28CA220201')
DATA = re.compile(rb'(?s)\x03\x00..\x02\xf0[\x00\x80]')  # how a TPDU of data begins
BER_SYNTAX, MMS_CONTEXT = bytes.fromhex('5101'), bytes.fromhex('28CA220203')


@dataclass
class Got:
    """What octets came to. `kind` is CR, CC or end (a TPDU), associate, accept, finish, disconnect,
    release, released or abort, mms, or fault (`words` says why); `octets` is a PDU of MMS, `size`
    that of a TPDU which was asked for."""
    kind: str
    octets: bytes = b''
    size: int | None = None
    words: str = ''


@dataclass
class Stream:
    """One direction of a connection, whose octets come in pieces: `kept` has those that are not
    taken yet, from the place `at` on. Where `seeks` is set they begin anywhere, and what comes
    before the first whole message is left out."""
    kept: bytes = b''
    at: int = 0
    group: bytes = b''
    over: bool = False
    connected: bool = False
    seeks: bool = False

    @classmethod
    def after_gap(cls) -> 'Stream':
        """A stream of which some octets are missing at its beginning."""
        return cls(connected=True, seeks=True)

    def feed(self, piece) -> Iterator:
        """What this piece completes, one after the other."""
        self.kept, self.at = self.kept[self.at:] + piece, 0
        while not self.over:
            if self.seeks and not self.seek():
                return
            before = self.at
            try:
                frame = self.next_frame()
                if frame is None:
                    return
                found = self.take(frame)
            except Unreadable as error:
                found = Got('fault', words=str(error))
                if self.seeks:
                    self.at, self.group, found = before + 1, b'', None
            if found:
                self.seeks = False
                self.over = found.kind in ('end', 'fault', 'abort', 'released')
                yield found

    def seek(self) -> bool:
        """Goes on to where a TPDU of data may begin, if there is such a place."""
        found = DATA.search(self.kept, self.at)
        self.at = found.start() if found else max(len(self.kept) - 6, self.at)
        return found is not None

    def next_frame(self) -> bytes | None:
        """The TPDU of the next whole frame, or None."""
        head, left = self.kept[self.at:self.at + 4], len(self.kept) - self.at
        if head[:1] not in (b'', b'\x03'):
            raise Unreadable(f'no TPKT: it begins with {head[0]:02X}')
        if left < 4:
            return None
        size = int.from_bytes(head[2:4])
        if size < 7:
            raise Unreadable(f'no TPKT: its length is {size}')
        if left < size:
            return None
        self.at += size
        return self.kept[self.at - size + 4:self.at]

    def take(self, tpdu) -> 'Got | None':
        """What a TPDU comes to, or None."""
        code = tpdu[1]
        if code in (CR, CC):
            if self.connected:
                raise Unreadable('a second connection request')
            self.connected = True
            return Got('CR' if code == CR else 'CC', size=agreed_size(tpdu))
        if code in (DR, ER):
            return Got('end', words='disconnect' if code == DR else 'error')
        if code != DT or tpdu[0] != 2:
            raise Unreadable(f'no TPDU of class 0: {tpdu[:2].hex(" ").upper()}')
        if not self.connected:
            raise Unreadable('data before a transport connection')
        self.group += tpdu[3:]
        if not tpdu[2] & 0x80:
            return None
        tsdu, self.group = self.group, b''
        return tsdu_meaning(tsdu)


def agreed_size(tpdu) -> int | None:
    """The TPDU size that a connection request or its answer names, in octets, or None."""
    if tpdu[0] != len(tpdu) - 1 or len(tpdu) < 7:
        raise Unreadable('a connection TPDU that does not fill its frame')
    if tpdu[6] & 0xF0:
        raise Unreadable(f'transport class {tpdu[6] >> 4}')
    size = dict(parameters(tpdu[7:])).get(TPDU_SIZE)
    return 2 ** size[0] if size else None


def parameters(octets) -> Iterator:
    """The parameters of a TPDU: a code, a length of one octet, a value."""
    at = 0
    while at < len(octets):
        size = ber.octet(octets, at + 1)
        if at + 2 + size > len(octets):
            raise Unreadable('a parameter that ends early')
        yield octets[at], octets[at + 2:at + 2 + size]
        at += 2 + size


def session_parameters(octets) -> tuple:
    """The code and the parameters of an SPDU that fills some octets."""
    code, content, end = session_item(octets, 0)
    if end != len(octets):
        raise Unreadable('octets behind an SPDU')
    found, at = {}, 0
    while at < len(content):
        name, value, at = session_item(content, at)
        found.setdefault(name, value)
    return code, found


def session_item(octets, at) -> tuple:
    """A code, a length of one or three octets, and a value."""
    code, size, at = ber.octet(octets, at), ber.octet(octets, at + 1), at + 2
    if size == 0xFF:
        ber.octet(octets, at + 1)
        size, at = int.from_bytes(octets[at:at + 2]), at + 2
    if at + size > len(octets):
        raise Unreadable('an SPDU that ends early')
    return code, octets[at:at + size], at + size


def tsdu_meaning(tsdu) -> 'Got':
    """What a TSDU says."""
    if tsdu[:4] == b'\x01\x00\x01\x00':
        return user_data(tsdu[4:])
    code, found = session_parameters(tsdu)
    content = found.get(0xC1)
    if code in (CONNECT, ACCEPT):
        if content is None:
            raise Unreadable('a session connection without user data')
        return association(code, content)
    if code == FINISH:
        return Got('finish')
    if code == DISCONNECT:
        return Got('released')
    if code == ABORT:
        return Got('abort')
    raise Unreadable(f'SPDU {code:02X}')


def association(code, content) -> 'Got':
    """A request for an association or its answer: the initiate in it."""
    fields = ber.need(ber.only(content, 0x31), 0xA2)
    value = presentation_value(ber.need(fields, 0x61))
    tag, acse, _ = ber.read(value)
    if tag != (0x60 if code == CONNECT else 0x61):
        raise Unreadable(f'ACSE value {tag:02X}')
    return Got('associate' if code == CONNECT else 'accept',
               ber.need(ber.need(ber.need(acse, 0xBE), 0x28), 0xA0))


def presentation_value(content) -> bytes:
    """The value in user data of the presentation, whatever its context."""
    return ber.need(ber.need(content, 0x30), 0xA0)


def user_data(octets) -> 'Got':
    """Data of a session: MMS, or a release."""
    value = presentation_value(ber.only(octets, 0x61))
    if value[:1] == b'\x62':
        return Got('release')
    if value[:1] == b'\x63':
        return Got('released')
    return Got('mms', value)


def connection_request(size=13) -> bytes:
    """The octets of a CR that asks for TPDUs of 2^size octets."""
    body = bytes.fromhex('E000000001 00') + bytes([TPDU_SIZE, 1, size])
    body += bytes.fromhex('C2020001 C1020001')
    return tpkt_frame(bytes([len(body)]) + body)


def tpkt_frame(tpdu) -> bytes:
    return b'\x03\x00' + (len(tpdu) + 4).to_bytes(2) + tpdu


def tpkt_frames(tsdu, size=8192) -> bytes:
    """The frames of a TSDU, in TPDUs of at most a size."""
    room = size - 3
    parts = [tsdu[at:at + room] for at in range(0, len(tsdu), room)] or [b'']
    marks = [0x00] * (len(parts) - 1) + [0x80]
    return b''.join(tpkt_frame(bytes([2, DT, mark]) + part) for mark, part in zip(marks, parts))


def data_tsdu(pdu, context=3) -> bytes:
    """The TSDU of a PDU of MMS."""
    value = element(0x30, number(0x02, context), element(0xA0, pdu))
    return b'\x01\x00\x01\x00' + element(0x61, value)


def item(code, *contents) -> bytes:
    """An SPDU or a parameter of one."""
    content = b''.join(contents)
    size = bytes([len(content)]) if len(content) < 0xFF else b'\xFF' + len(content).to_bytes(2)
    return bytes([code]) + size + content


def association_request(initiate) -> bytes:
    """The TSDU that asks for an association, with an initiate of MMS."""
    def context(number_of_it, syntax) -> bytes:
        return element(0x30, number(0x02, number_of_it), element(0x06, syntax),
                       element(0x30, element(0x06, BER_SYNTAX)))

    acse = element(0x60, element(0xA1, element(0x06, MMS_CONTEXT)),
                   element(0xBE, element(0x28, number(0x02, 3), element(0xA0, initiate))))
    selectors = element(0x81, bytes([0, 0, 0, 1])), element(0x82, bytes([0, 0, 0, 1]))
    contexts = element(0xA4, context(1, ACSE_SYNTAX), context(3, MMS_SYNTAX))
    data = element(0x61, element(0x30, number(0x02, 1), element(0xA0, acse)))
    value = element(0x31, element(0xA0, number(0x80, 1)), element(0xA2, *selectors, contexts, data))
    agreed = item(0x05, item(0x13, b'\x00'), item(0x16, b'\x02')), item(0x14, b'\x00\x02')
    return item(CONNECT, *agreed, item(0x33, b'\x00\x01'), item(0x34, b'\x00\x01'),
                item(0xC1, value))


def release_request() -> bytes:
    """The TSDU that ends an association."""
    asked = element(0xA0, element(0x62, number(0x80, 0)))
    return item(FINISH, item(0xC1, element(0x61, element(0x30, number(0x02, 1), asked))))
