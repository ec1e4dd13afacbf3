"""What a client and the server say to each other, in words."""
from dataclasses import dataclass

from baytools.common.positions import way_of

from . import mms, words
from .ber import Unreadable
from .mms import Failure
from .stream import CC, Got, Stream

ASKED = {'SBO': 'select', 'SBOw': 'select', 'Oper': 'operate', 'Cancel': 'cancel'}
CLASSES = {0: '', 2: ', data sets', 8: ', logs', 9: ', domains'}  # of a getNameList
REFUSED_READ = mms.Data(mms.TEXT, '')


@dataclass
class Description:
    """One thing that was said. `kind` is connect, identify, names, attributes, read, write, select,
    operate, cancel, refused (a LastApplError), ended (the end of an operate) or end; `lead` and
    `lines` are the words for it, `switch` and `way` (open, close or nothing) are those of a
    control, `good` is whether it was answered as asked, `cause` an AddCause."""
    kind: str
    lead: str
    lines: list
    invoke: int | None = None
    switch: str = ''
    way: str = ''
    good: bool = True
    cause: int | None = None

    def text_lines(self) -> list:
        """The words, line by line."""
        return [f'{self.lead} {self.lines[0]}', *self.lines[1:]]

    def title(self) -> str:
        """What is controlled, and how."""
        return f'{self.kind} {self.switch} {self.way}'.rstrip()


def got_of(octets) -> Got | None:
    """What one message of the server comes to, whatever came before it."""
    stream = Stream(connected=octets[5:6] != bytes([CC]))
    return next(stream.feed(octets), None)


def report_in(octets) -> mms.Pdu | None:
    """The report in a message of the server, or None where it is another message."""
    got = got_of(octets)
    try:
        pdu = mms.read_pdu(got.octets) if got and got.kind == 'mms' else None
    except Unreadable:
        return None
    return pdu if pdu and pdu.kind == 'report' else None


def replies_to(got) -> int:
    """How many replies a message of a client wants."""
    return 0 if got.kind in ('end', 'abort', 'fault', 'disconnect', 'released') else 1


class Conversation:
    """One association: what its client asked and has not been answered yet, by invoke id, the first
    first. `on_answer` is given each request with its response."""

    def __init__(self, bay) -> None:
        self.bay, self.stream, self.asked = bay, Stream(), {}
        self.on_answer = lambda request, answer: None

    def receive(self, piece) -> list:
        """The messages of the client that a piece of its octets completes."""
        return list(self.stream.feed(piece))

    def describe_message(self, got) -> 'Description':
        """A message of the client, in words."""
        if got.kind == 'CR':
            return Description('connect', 'asks for',
                               [f'a transport connection, {tpdu_size_text(got.size)}'])
        if got.kind == 'associate':
            return Description('connect', 'asks for', ['an association' + proposal(got.octets)])
        if got.kind == 'mms':
            return self.describe_mms(got.octets)
        told = {'finish': ('ends', 'its association (FINISH)'),
                'release': ('asks for', 'the release of its association'),
                'abort': ('aborts', 'its association'),
                'end': ('ends', f'its connection ({got.words})'),
                'fault': ('sends', f'what can\'t be read: {got.words}')}
        lead, line = told.get(got.kind, ('sends', got.kind))
        return Description('end', lead, [line], good=got.kind != 'fault')

    def describe_mms(self, octets) -> 'Description':
        try:
            pdu = mms.read_pdu(octets)
        except Unreadable as error:
            return Description('read', 'sends', [f'a PDU that can\'t be read: {error}'], good=False)
        said = self.describe_request(pdu)
        if pdu.kind == 'request':
            self.asked.setdefault(pdu.invoke, []).append((pdu, said))
        return said

    def describe_request(self, pdu) -> 'Description':
        """A request in words."""
        if pdu.kind == 'conclude':
            return Description('end', 'asks', ['to conclude'])
        if pdu.kind != 'request':
            return Description('read', f'asks{number_in(pdu)}', [pdu.service or pdu.kind],
                               pdu.invoke)
        switch, kind = self.controlled(pdu)
        if switch:
            return Description(kind, f'asks{number_in(pdu)}',
                               [self.control_text(kind, switch, pdu)], pdu.invoke, switch,
                               operation_word(pdu))
        tell = {'names': self.names_lines, 'read': self.read_lines, 'write': self.write_lines,
                'attributes': self.type_lines}.get(pdu.service)
        lines = tell(pdu) if tell else ['who the server is' if pdu.service == 'identify'
                                        else pdu.service]
        return Description(pdu.service, f'asks{number_in(pdu)}', lines, pdu.invoke)

    def controlled(self, pdu) -> tuple:
        """The switch and the kind of a request that selects, operates or cancels, and asks nothing
        else."""
        path = pdu.names[0].split('$') if len(pdu.names) == 1 else []
        if path[1:3] != ['CO', 'Pos'] or len(path) != 4 or path[3] not in ASKED:
            return '', ''
        if (pdu.service, path[3] == 'SBO') not in (('read', True), ('write', False)):
            return '', ''
        return self.bay.switch(pdu.names[0]), ASKED[path[3]]

    def control_text(self, kind, switch, pdu) -> str:
        """A select, an operate or a cancel."""
        if pdu.service == 'read' or not pdu.data:
            return f'{kind} {switch}'
        value = pdu.data[0]
        shape = words.CANCEL if kind == 'cancel' else words.OPER
        if not words.fits(shape, value):
            return f'{kind} {switch} with {words.value_text(self.bay.item(pdu.names[0]), value)}'
        on, origin, count, _, test, *check = (part.value for part in value.value)
        category, ident = (part.value for part in origin)
        by = f'originator {category}'
        if 0 <= category < len(words.ORIGINATORS):
            by = words.ORIGINATORS[category]
        more = [by + (f' {words.octets_text(ident)}' if ident else ''), f'number {count}']
        more += ['a test'] if test else []
        if check and check[0] != '00':
            more.append(f'checks: {words.CHECKS.get(check[0], check[0])}')
        return f'{kind} {switch} {way_of(on)} ({", ".join(more)})'

    def names_lines(self, pdu) -> list:
        what = f'the names of {pdu.names[0]}' if pdu.names else 'the names of the server'
        kind = CLASSES.get(pdu.code[0], f', class {pdu.code[0]}')
        return [what + kind + (f', behind {pdu.after}' if pdu.after is not None else '')]

    def read_lines(self, pdu) -> list:
        return list_lines('read', [self.bay.titled(name) for name in pdu.names])

    def write_lines(self, pdu) -> list:
        values = [f'{self.bay.titled(name)} := {words.value_text(self.bay.item(name), value)}'
                  for name, value in zip(pdu.names, pdu.data)]
        return list_lines('write', values)

    def type_lines(self, pdu) -> list:
        return [f'the type of {self.bay.titled(pdu.names[0])}']

    def answers(self, got) -> 'Description':
        """A message of the server, in words."""
        if got is None:
            return Description('end', 'is sent', ['a part of a message'], good=False)
        if got.kind == 'CC':
            return Description('connect', 'is connected,', [tpdu_size_text(got.size)])
        if got.kind == 'accept':
            return Description('connect', 'is given', ['an association' + proposal(got.octets)])
        if got.kind == 'mms':
            return self.answers_mms(got.octets)
        if got.kind == 'released':
            return Description('end', 'is given', ['its release'])
        return Description('end', 'is sent', [got.words or got.kind], good=False)

    def answers_mms(self, octets) -> 'Description':
        try:
            pdu = mms.read_pdu(octets)
        except Unreadable as error:
            return Description('read', 'is sent', [f'a PDU that can\'t be read: {error}'],
                               good=False)
        if pdu.kind == 'report':
            return self.reported(pdu)
        if pdu.kind == 'concluded':
            return Description('end', 'is answered:', ['concluded'])
        waiting = self.asked.get(pdu.invoke)
        request, asked = waiting.pop(0) if waiting else (None, None)
        kind, *control = pdu.service or 'read', '', ''
        if asked:
            kind, *control = asked.kind, asked.switch, asked.way
        if pdu.kind in ('error', 'reject'):
            return Description(kind, f'is answered{number_in(pdu)}',
                               [words.error_text(pdu.kind, pdu.code)],
                               pdu.invoke, *control, False)
        if request and request.service == pdu.service:
            self.on_answer(request, pdu)
        lines, good = self.response_text(pdu, request, asked)
        return Description(kind, f'is answered{number_in(pdu)}', lines, pdu.invoke, *control, good)

    def response_text(self, pdu, request, asked) -> tuple:
        """A response in words, and whether it is what was wanted."""
        if asked and asked.switch and len(pdu.data) == 1:
            return control_answer(asked, pdu.data[0])
        if pdu.service == 'names':
            return [names_text(pdu)], True
        if pdu.service == 'identify':
            named = zip(('vendor', 'model', 'revision'), pdu.names)
            return [', '.join(f'{word} {words.in_quotes(name)}' for word, name in named)], True
        if pdu.service == 'attributes':
            return [type_text(pdu.shape)], True
        names = [''] * len(pdu.data)
        if request and len(request.names) == len(pdu.data):
            names = request.names
        good = not any(isinstance(value, Failure) for value in pdu.data)
        if pdu.service == 'write':
            told = ['done' if value is None else words.value_text('', value) for value in pdu.data]
        else:
            told = [words.value_text(self.bay.item(name), value)
                    for name, value in zip(names, pdu.data)]
        return list_lines('',
                          [f'{self.bay.titled(name)} = {value}' if name else value
                           for name, value in zip(names, told)]), good

    def reported(self, pdu) -> 'Description':
        """A LastApplError, or the end of an operate."""
        control = next((name for name in pdu.names if name.endswith('$Oper')), None)
        cause = next((cause_in(value) for name, value in zip(pdu.names, pdu.data)
                      if name == 'LastApplError'), None)
        if control and pdu.data and words.fits(words.OPER, pdu.data[-1]):
            switch, asked = self.bay.switch(control), self.bay.item(control) + '$ctlVal'
            way = words.value_text(asked, pdu.data[-1].value[0])
            told = 'done' if cause is None else words.cause_text(cause[1])
            return Description('ended', 'is told:',
                               [f'operate {switch} {way} has ended: {told}'], None, switch, way,
                               cause is None, cause and cause[1])
        if cause is None:
            return Description('refused', 'is told:', [', '.join(pdu.names)])
        verb = ASKED.get(cause[0].rpartition('$')[2], 'control')
        switch = self.bay.switch(cause[0])
        text = f'{verb} {switch} is refused: {words.cause_text(cause[1])}'
        return Description('refused', 'is told:', [text], None, switch, '', False, cause[1])


def operation_word(pdu) -> str:
    """Whether a control is to open or to close its switch, where it says so."""
    if not pdu.data or pdu.data[0].tag != mms.STRUCTURE or not pdu.data[0].value:
        return ''
    on = pdu.data[0].value[0].value
    return way_of(on) if isinstance(on, bool) else ''


def control_answer(asked, value) -> tuple:
    """What became of a select, an operate or a cancel."""
    subject = f'{asked.kind} {asked.switch}'
    if isinstance(value, Failure):
        return [f'{subject}: {words.value_text("", value)}'], False
    if value == REFUSED_READ:
        return [f'{subject}: refused'], False
    return [f'{subject}: done'], True


def cause_in(value) -> tuple | None:
    """The control and the AddCause of a LastApplError."""
    if not words.fits(words.LAST_APPL_ERROR, value):
        return None
    control, _, _, _, cause = value.value
    return control.value, cause.value


def proposal(initiate) -> str:
    """The PDU size in an initiate or its answer."""
    try:
        pdu = mms.read_pdu(initiate)
    except Unreadable as error:
        return f', with an initiate that can\'t be read: {error}'
    if pdu.kind not in ('initiate', 'initiated'):
        return f', with another PDU than an initiate: {pdu.kind}'
    size, = pdu.code
    return f', PDUs of at most {size} octets' if size else ''


def names_text(pdu) -> str:
    if not pdu.names:
        return 'no names'
    span = f'{len(pdu.names)} names, {pdu.names[0]} to {pdu.names[-1]}'
    span = pdu.names[0] if len(pdu.names) == 1 else span
    return span + (', and there are more' if pdu.more else '')


def type_text(shape) -> str:
    if isinstance(shape, str):
        return shape
    return '{' + ', '.join(f'{name} {type_text(part)}' for name, part in shape) + '}'


def tpdu_size_text(size) -> str:
    return f'TPDUs of {size} octets' if size else 'no TPDU size'


def number_in(pdu) -> str:
    return ':' if pdu.invoke is None else f' {pdu.invoke}:'


def list_lines(verb, items) -> list:
    """One thing on the line of its verb, several on lines of their own."""
    if len(items) == 1:
        return [f'{verb} {items[0]}'.lstrip()]
    return [f'{verb} {len(items)} values'.lstrip(), *(f'    {item}' for item in items)]
