"""A scenario and what bayctl printed for it, step by step."""
import re
import sys
from collections.abc import Iterator
from dataclasses import dataclass, field

from baytools.bay.files import octets_of, tables_of
from baytools.bay.names import Names
from baytools.common.ending import FOUND, UNREACHED, Failed
from baytools.common.texts import upcase
from baytools.diagnosis.trace import Known, number_of
from baytools.wire.conversation import Conversation, replies_to, report_in

from .bayctl import run

LATEST = 4_294_967_295_999
REASONS = {110: 'earlier than the last event', 111: 'no such association, or it is not open',
           112: 'the association is open already', 113: 'no such switch, input or meter',
           114: 'the time is too large'}
CODES = {0: 'ended', 10: 'no TPKT', 11: 'no TPDU that may come now', 12: 'another transport class',
         13: 'a TSDU that is too long',
         20: 'no SPDU', 21: 'no value of the presentation', 22: 'a context that is not served',
         23: 'no value of ACSE', 24: 'it can\'t come now',
         25: 'too small a PDU size', 120: 'a line that can\'t be read',
         130: 'it did not read, and its queue is full',
         131: 'its connection failed, or it sent nothing for too long',
         132: 'another bay, another key, or no line bay first', 133: 'a time that is too far away',
         134: 'no line in time'}

LACKING = 'the scenario: a part is missing; two lines %% stand between its parts'
ENDED = {'fault memory': 'memory ran out', 'fault 121': 'standard input can\'t be read (121)',
         'fault 122': 'a write failed (122)',
         'fault 120 line 0': 'a part of the scenario is missing (120)'}
PRINTED = {'scan': r'scan steps=[0-9]+( \w+=[01][01])*', 'command': r'command \w+ (on|off)',
           'send': r'send [1-8] ([0-9a-f]{2})+', 'closed': r'closed [1-8] ([0-9]{1,9}|memory)'}
ENDINGS = ('end', 'abort', 'fault', 'finish', 'release')


@dataclass
class Step:
    """A line of the trace with what was printed for it: the number of its refusal, what was sent
    (association, octets), a command, the line of a scan, and an association that was closed with
    its code. `heard` is what the octets of a recv complete."""
    number: int
    line: str
    moment: int
    words: list
    refused: int | None = None
    heard: list = field(default_factory=list)
    sent: list = field(default_factory=list)
    command: tuple = ()
    scan: str = ''
    closed: tuple = ()


class Replay:
    """All of a scenario: its bay, its report, its steps, and how it ended where that was early."""

    def __init__(self, octets, printed) -> None:
        bay, _, trace = parts_of(octets)
        self.file = tables_of(bay)
        self.bay = Names(bay)
        self.report, *lines = printed.splitlines()
        self.lines = [line.split(' ') for line in reversed(lines)]
        self.trace, self.last, self.ending = trace, 0, ''
        self.conversations, self.forms = {}, Known(self.file, is_replay=True)
        self.known = {'contact': {upcase(s['id']) for s in self.file['switch']},
                      'input': {upcase(i['name']) for i in self.file.get('input', [])},
                      'measure': {upcase(m['id']) for m in self.file.get('meter', [])}}

    def ending_text(self) -> str:
        """How the replay ended where that was early: what happened, and where."""
        if not self.ending:
            return ''
        at = re.fullmatch(r'fault 120 line (\d+)', self.ending)
        if at and 0 < int(at[1]) <= len(self.trace):
            line = self.trace[int(at[1]) - 1]
            shown = line if len(line) < 60 else line[:57] + '...'
            return (f'the replay ends at line {at[1]} of the trace, which can\'t be read (120): '
                    f'{shown}')
        return f'the replay ends early: {ENDED.get(self.ending, self.ending)}'

    def steps(self) -> Iterator:
        """Each line of the trace in turn, up to that at which the replay ended."""
        for number, line in enumerate(self.trace, 1):
            if self.ended_at(number):
                return
            if line:
                yield self.readable_step(number, line)

    def ended_at(self, number) -> bool:
        """Whether the replay ended at this line of the trace or before it."""
        if not self.lines or self.lines[-1][0] != 'fault':
            return False
        line = self.lines[-1]
        self.ending = ' '.join(line)
        return line[1] != '120' or number >= int(line[3])

    def readable_step(self, number, line) -> Step:
        try:
            return self.step(number, line)
        except (ValueError, LookupError):
            raise Failed(f'line {number} of the trace: it can\'t be read, or the report is not '
                         'that of this scenario') from None

    def step(self, number, line) -> Step:
        first, *words = line.split(' ')
        step = Step(number, line, number_of(first), words)
        if self.forms.form(words[0], words[1:]):
            raise ValueError(line)
        code = self.refusal(step)
        if code is not None:
            if not self.lines or self.lines.pop()[1:] != ['refused', str(code)]:
                raise Failed(f'line {number} of the trace: {code} is due, and bayctl answers '
                             'something else')
            step.refused = code
            return step
        self.last = step.moment
        self.take(step)
        return step

    def refusal(self, step) -> int | None:
        """The number with which the device refuses an event, or None."""
        verb, *rest = step.words
        if step.moment > LATEST:
            return 114
        if step.moment < self.last:
            return 110
        if verb in ('open', 'recv', 'close'):
            place = int(rest[0])
            if not 1 <= place <= 8 or (verb != 'open' and place not in self.conversations):
                return 111
            return 112 if verb == 'open' and place in self.conversations else None
        return 113 if verb in self.known and upcase(rest[0]) not in self.known[verb] else None

    def take(self, step) -> None:
        """What was printed for an accepted event."""
        verb, *rest = step.words
        place = int(rest[0]) if verb in ('open', 'recv', 'close') else None
        self.take_ending(step, verb)
        if verb == 'open':
            self.conversations[place] = Conversation(self.bay)
        elif verb == 'close':
            del self.conversations[place]
        elif verb == 'recv':
            step.heard = self.conversations[place].receive(bytes.fromhex(rest[1]))
            self.take_replies(step, place)
        elif verb == 'scan' and self.is_next(step, 'scan'):
            step.scan = ' '.join(self.line('scan'))

    def is_next(self, step, *words) -> bool:
        """Whether the next line was printed at this moment, and goes on so."""
        return bool(self.lines) and self.lines[-1][:len(words) + 1] == [str(step.moment), *words]

    def line(self, kind: str) -> list[str]:
        """The next line that was printed, which is of this kind."""
        words = self.lines.pop()
        if not re.fullmatch(PRINTED[kind], ' '.join(words[1:]), re.ASCII):
            raise ValueError(words)
        return words

    def take_ending(self, step, verb) -> None:
        """The report of an operate that ends with this event: by a contact, or since its time is
        over."""
        report = report_in(bytes.fromhex(self.lines[-1][3])) if self.is_next(step, 'send') else None
        if report and report.names[-1].endswith('$Oper') and (verb == 'contact'
                                                              or len(report.names) == 2):
            self.take_sent(step)

    def take_sent(self, step) -> None:
        line = self.line('send')
        step.sent.append((int(line[2]), bytes.fromhex(line[3])))

    def take_replies(self, step, place) -> None:
        """What the messages of a client were answered, and what they did."""
        replies = sum(map(replies_to, step.heard))
        while replies and self.is_next(step, 'send', str(place)):
            replies -= report_in(bytes.fromhex(self.lines[-1][3])) is None
            self.take_sent(step)
        if self.is_next(step, 'command'):
            step.command = tuple(self.line('command')[2:])
            if upcase(step.command[0]) not in self.known['contact']:
                raise LookupError(step.command[0])
        ends = replies or any(got.kind in ENDINGS for got in step.heard)
        if ends and self.is_next(step, 'closed', str(place)):
            step.closed = (place, self.line('closed')[3])
            del self.conversations[place]


def parts_of(octets) -> tuple:
    """The bay file, the program and the lines of the trace of a scenario."""
    text = octets.decode('utf-8', 'backslashreplace')
    parts = re.split(r'(?m)^%%\r?(?:\n|\Z)', text, maxsplit=2)
    if len(parts) < 3:
        raise Failed(LACKING)
    lines = [line.removesuffix('\r') for line in parts[2].split('\n')]
    return parts[0].removeprefix('\ufeff'), parts[1], lines


class NotLoaded(Failed):
    """bayctl printed no line of a load: it refuses the load, or something else went wrong."""

    def __init__(self, printed: str, status: int = 0) -> None:
        said, _, _ = printed.strip('\n').partition('\n')
        is_refusal = said.startswith('load refused ')
        said = f'{LACKING} (120); tools/join makes one' if said == 'fault 120 line 0' else said
        if not said:
            said = f'bayctl printed nothing, and ended with status {status}'
        elif not said.startswith(('load refused ', 'fault ', LACKING)):
            said = f'the report begins with no line of a load: {said[:60]}'
        super().__init__(said + (' (tools/diagnose tells why)' if is_refusal else ''))
        self.status = FOUND if is_refusal else UNREACHED


def report_of_replay(octets: bytes | None, bayctl, report=None) -> tuple[str, int]:
    """What bayctl prints for a scenario: the report in a file, or a run of the program."""
    if report:
        if str(report) == '-' and sys.stdin is None:
            raise Failed('standard input: it is closed')
        found = sys.stdin.buffer.read() if str(report) == '-' else octets_of(report)
        return found.decode('utf-8', 'backslashreplace'), 0
    parts_of(octets)  # what is no scenario need not be asked for, which may take minutes
    found = run(bayctl, 'replay', given=octets)
    if sys.stderr:
        sys.stderr.write(found.stderr.decode('utf-8', 'backslashreplace'))
    return found.stdout.decode('utf-8', 'backslashreplace'), found.returncode
