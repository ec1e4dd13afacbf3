"""The steps of a factory acceptance test: what is done, and what is expected then."""
from collections.abc import Iterator
from dataclasses import dataclass, field

from baytools.bay.rules import BadRule, lines_of, time_of
from baytools.common.ending import Failed
from baytools.common.positions import POSITIONS
from baytools.common.texts import upcase
from baytools.diagnosis.trace import Known
from baytools.wire.words import ADD_CAUSES

WAYS = {'open': False, 'close': True}
ASKS = ('select', 'operate', 'cancel')
UNKNOWN = 'unknown'  # the position of a switch that has not reported yet
KEYS = {'local': 0, 'remote': 1}  # a key, and what its input is then
AT_LOCAL = 2  # the cause of what is refused while a key is at local: blocked by switching hierarchy
FORMS = {
    'do contact': 'do contact SWITCH open|closed|intermediate|bad',
    'do input': 'do input NAME 0|1', 'do key': 'do key SWITCH local|remote',
    'do measure': 'do measure METER FIELD VALUE|bad',
    'do lost': 'do lost', 'do wait': 'do wait TIME, such as 5s',
    'do select': 'do select SWITCH open|close', 'do operate': 'do operate SWITCH open|close',
    'do cancel': 'do cancel SWITCH open|close',
    'expect released': 'expect released SWITCH open|close',
    'expect blocked': 'expect blocked SWITCH open|close',
    'expect position': 'expect position SWITCH open|closed|intermediate|bad|unknown',
    'expect accepted': 'expect accepted', 'expect refused': 'expect refused [CAUSE]',
    'expect command': 'expect command SWITCH open|close', 'expect no': 'expect no command',
    'expect ended': 'expect ended [CAUSE]'}


class BadSteps(Failed):
    """A line that is no step of this bay."""


@dataclass(frozen=True)
class Step:
    """A line of the test: its number, its words as they stand, whether something is expected, its
    kind (the word behind do or expect), and what it names. `told` is the line of a process, of a
    contact, an input or a measure; `time` a wait in milliseconds; `cause` an AddCause; `tried` the
    switch that is to be refused since its key is at local."""
    line: int
    text: str
    is_expected: bool
    kind: str
    switch: str = ''
    way: str = ''
    position: str = ''
    told: str = ''
    time: int = 0
    cause: int | None = None
    tried: str = ''


@dataclass
class Section:
    """Steps with a title, which may be empty."""
    title: str
    steps: list[Step] = field(default_factory=list)


class Reader:
    """Reads the steps of a bay. `asked` is the switch that was asked last, `is_local` whether that
    was to operate it while its key was at local; `true` are the inputs that are TRUE."""

    def __init__(self, path: str, file: dict) -> None:
        self.path, self.known = path, Known(file, is_process=True)
        self.switches = {upcase(one['id']): one for one in file['switch']}
        self.asked: dict | None = None
        self.is_local, self.true = False, set()
        self.line = 0

    def wrong(self, told: str) -> BadSteps:
        return BadSteps(f'{self.path}: line {self.line}: {told}')

    def sections(self, text: str) -> list[Section]:
        found = [Section('')]
        for self.line, line in lines_of(text):
            lead, _, rest = line.partition(' ')
            if lead == 'section' and rest:
                found.append(Section(rest))
            else:
                found[-1].steps.append(self.step(line))
        found = [it for it in found if it.steps]
        if not found:
            raise BadSteps(f'{self.path}: it has no step')
        return found

    def step(self, line: str) -> Step:
        lead, kind, *rest = [*line.split(' '), '', ''][:len(line.split(' ')) + 1]
        form = FORMS.get(f'{lead} {kind}')
        if form is None:
            raise self.wrong(f'{line[:40]} is no step: it begins with `section`, or with one of '
                             + ', '.join(f'`{it}`' for it in FORMS))
        rest = [word for word in rest if word]
        parts = self.parts_of(lead, kind, rest)
        if parts is None:
            raise self.wrong(f'the form is {form}')
        return Step(self.line, line, lead == 'expect', kind, **parts)

    def parts_of(self, lead: str, kind: str, rest: list[str]) -> dict | None:
        """What the words of a step name, or None where its form is another."""
        match lead, kind, rest:
            case 'do', 'contact', [name, position] if position in POSITIONS:
                return {'told': self.process_line('contact', name, POSITIONS.index(position))}
            case 'do', 'input', [name, value]:
                return {'told': self.input(name, value)}
            case 'do', 'key', [name, where] if where in KEYS:
                return {'told': self.input(self.key(name), KEYS[where])}
            case 'do', 'measure', [name, of, value]:
                return {'told': self.process_line(kind, name, of, value)}
            case 'do', 'lost', []:
                self.true.clear()
                return {}
            case 'expect', 'no', ['command']:
                return {}
            case 'expect', 'accepted', []:
                self.control()
                return {}
            case 'do', 'wait', [time]:
                return {'time': self.time(time)}
            case 'do', _, [name, way] if kind in ASKS and way in WAYS:
                return self.client_request(kind, name, way)
            case 'expect', 'released' | 'blocked' | 'command', [name, way] if way in WAYS:
                return {'switch': self.switches[self.switch(name)]['id'], 'way': way}
            case 'expect', 'position', [name, position] if position in (*POSITIONS, UNKNOWN):
                return {'switch': self.switches[self.switch(name)]['id'], 'position': position}
            case 'expect', 'refused' | 'ended', [*words] if len(words) < 2:
                cause = self.cause(kind, words)
                return {'cause': cause, 'tried': self.tried(kind, cause)}
        return None

    def client_request(self, kind: str, name: str, way: str) -> dict:
        """A client asks something of a switch."""
        self.asked = self.switches[self.switch(name)]
        self.is_local = kind == 'operate' and 'remote' in self.asked and (
            upcase(self.asked['remote']) not in self.true)
        return {'switch': self.asked['id'], 'way': way}

    def tried(self, kind: str, cause: int | None) -> str:
        """The switch of which an expectation shows that its key at local refuses an operate."""
        wanted = AT_LOCAL if self.control() == 'sbo-enhanced' else None
        return self.asked['id'] if self.is_local and kind == 'refused' and cause == wanted else ''

    def key(self, name: str) -> str:
        """The input of the key of a switch."""
        switch = self.switches[self.switch(name)]
        if 'remote' not in switch:
            raise self.wrong(f'{switch["id"]} has no key: the bay file has no remote there')
        return switch['remote']

    def input(self, name: str, value: str | int) -> str:
        """The line of a process that tells an input."""
        line = self.process_line('input', name, value)
        (self.true.add if str(value) == '1' else self.true.discard)(upcase(name))
        return line

    def switch(self, name: str) -> str:
        if upcase(name) not in self.switches:
            raise self.wrong(f'{name} is not a switch of the bay')
        return upcase(name)

    def process_line(self, verb: str, *words) -> str:
        """The line of a process, without its time."""
        line = ' '.join(map(str, (verb, upcase(words[0]), *words[1:])))
        trouble = self.known.trouble(f'0 {line}'.encode('utf-8', 'backslashreplace'))
        if trouble:
            raise self.wrong(trouble[1])
        return line

    def time(self, word: str) -> int:
        try:
            return time_of(word.upper())
        except BadRule as error:
            raise self.wrong(str(error)) from None

    def control(self) -> str:
        """The control of the switch that was asked last."""
        if self.asked is None:
            raise self.wrong('nothing was asked before')
        return self.asked['control']

    def cause(self, kind: str, words: list[str]) -> int | None:
        """An AddCause, which only a switch with enhanced security is told."""
        control = self.control()
        if words and not (words[0].isascii() and words[0].isdigit()
                          and int(words[0]) in ADD_CAUSES):
            raise self.wrong(f'{words[0]} is no cause of a control')
        if control != 'sbo-enhanced' and (words or kind == 'ended'):
            raise self.wrong(f'{self.asked["id"]} is {control}: the server sends no cause and no '
                             'end of it')
        return int(words[0]) if words else None


def read_steps(path: str, text: str, file: dict) -> list[Section]:
    """The sections of a test."""
    return Reader(path, file).sections(text)


def switches_with_key(file: dict) -> list[str]:
    """The switches that have a key."""
    return [one['id'] for one in file['switch'] if 'remote' in one]


def steps_of(sections: list[Section]) -> Iterator[Step]:
    return (step for section in sections for step in section.steps)
