"""A bay that is a replay: the steps are written as a trace, which bayctl replays."""
from collections.abc import Callable
from dataclasses import dataclass, field

from baytools.bay.names import Names
from baytools.common.ending import Failed
from baytools.common.positions import WAYS as WAYS_TOLD
from baytools.report.joined import scenario_of
from baytools.report.replay import NotLoaded, Replay, report_of_replay
from baytools.wire import mms, stream
from baytools.wire.conversation import Conversation, Description, got_of
from baytools.wire.mms import Failure

from .bench import Bench, Outcome, position_text

BEGIN, APART, SCANS = 1000, 10, 100  # the first moment; ms between two steps; ms between two scans
MOST = 1000  # scans of a wait
IDENTITY = b'acceptance'
ITEMS = {'select': 'SBOw', 'operate': 'Oper', 'cancel': 'Cancel'}


@dataclass
class Heard:
    """What a line of the trace came to: what was said, values that were read, and a command."""
    said: list[Description] = field(default_factory=list)
    values: list = field(default_factory=list)
    command: tuple[str, str] | None = None


class Trace(Bench):
    """Steps as lines of a trace. A scan stands behind each line of the process and before each of
    the client, as a server scans in every turn."""

    def __init__(self, bay: str, file: dict, logic: str, bayctl) -> None:
        self.bay, self.file, self.logic, self.bayctl = bay, file, logic, bayctl
        self.names, self.now, self.invoke, self.controls = Names(bay), BEGIN, 0, 0
        self.controlled = {one['id']: one['control'] for one in file['switch']}
        self.lines: list[str] = []
        self.asked: list[int] = []  # the lines of what was asked last
        self.heard: dict[int, Heard] = {}
        self.line('scan')
        self.line('open 1')
        self.recv(stream.connection_request())
        self.recv(stream.tpkt_frames(stream.association_request(mms.initiate_request())))

    def line(self, rest: str) -> int:
        """Adds a line, and gives its number."""
        self.lines.append(f'{self.now} {rest}')
        return len(self.lines)

    def recv(self, octets: bytes) -> int:
        self.line('scan')
        return self.line(f'recv 1 {octets.hex()}')

    def request(self, of: Callable, *more) -> int:
        self.invoke += 1
        return self.recv(stream.tpkt_frames(stream.data_tsdu(of(self.invoke, *more))))

    def send_line(self, line: str) -> None:
        self.now += APART
        self.line(line)
        self.line('scan')

    def lose(self) -> None:
        self.send_line('lost')

    def wait(self, time: int) -> None:
        count = min(max(time // SCANS, 1), MOST)
        begin = self.now
        for at in range(1, count + 1):
            self.now = begin + time * at // count
            self.line('scan')

    def ask(self, verb: str, switch: str, on: bool) -> None:
        self.now += APART
        node, control = self.names.node(switch), self.controlled[switch]
        self.controls = (self.controls + 1) % 256
        self.asked = []
        if verb == 'operate' and control in ('sbo', 'sbo-enhanced'):
            self.asked.append(self.control('select', node, control, on))
        self.asked.append(self.control(verb, node, control, on))

    def control(self, verb: str, node: str, control: str, on: bool) -> int:
        """The line of one request of a control."""
        if verb == 'select' and control != 'sbo-enhanced':
            return self.request(mms.read_request, [f'{self.names.domain}/{node}$CO$Pos$SBO'])
        check = None if verb == 'cancel' else '00'
        value = mms.control(on, 2, IDENTITY, self.controls, self.now, False, check)
        item = f'{self.names.domain}/{node}$CO$Pos${ITEMS[verb]}'
        return self.request(mms.write_request, [item], [value])

    def read(self, *items: str) -> Callable[[], list]:
        """The values of items."""
        number = self.request(mms.read_request, [f'{self.names.domain}/{it}' for it in items])

        def later() -> list:
            found = self.heard[number].values
            if len(found) != len(items) or any(isinstance(it, Failure) for it in found):
                raise Failed(f'bayctl does not tell {items[0]}')
            return [it.value for it in found]
        return later

    def released(self, switch: str, on: bool, wanted: bool) -> Callable[[], bool]:
        node = self.names.node(switch).replace('CSWI', 'CILO')
        values = self.read(f'{node}$ST${"EnaCls" if on else "EnaOpn"}$stVal')
        return lambda: values()[0]

    def position(self, switch: str, wanted: str) -> Callable[[], str]:
        node = self.names.node(switch)
        values = self.read(f'{node}$ST$Pos$stVal', f'{node}$ST$Pos$q')
        return lambda: position_text(*values())

    def commands(self, wanted: list) -> Callable[[], list[tuple[str, str]]]:
        begin, end = self.asked[0] if self.asked else 1, len(self.lines)
        return lambda: [it.command for number, it in self.heard.items()
                        if begin <= number <= end and it.command]

    def answer(self) -> Callable[[], Outcome]:
        asked = self.asked
        return lambda: outcome_of([self.heard[number] for number in asked])

    def end(self) -> Callable[[], Outcome | None]:
        begin, end = self.asked[-1], len(self.lines)

        def later() -> Outcome | None:
            for number, it in self.heard.items():
                for said in it.said:
                    if begin < number <= end and said.kind == 'ended':
                        return Outcome(said.good, said.cause)
            return None
        return later

    def scenario(self) -> bytes:
        trace = '\n'.join(self.lines) + '\n'
        return scenario_of(self.bay.encode(), self.logic.encode(), trace.encode())

    def finish(self) -> None:
        """Replays the trace, and hears what is said."""
        octets = self.scenario()
        printed, status = report_of_replay(octets, self.bayctl)
        if not printed.startswith('instructions='):
            raise NotLoaded(printed, status)
        replay, talk = Replay(octets, printed), Conversation(self.names)
        for step in replay.steps():
            heard = self.heard[step.number] = Heard()
            talk.on_answer = lambda request, pdu, heard=heard: heard.values.extend(pdu.data)
            for got in step.heard:
                talk.describe_message(got)
            heard.said = [talk.answers(got_of(octets)) for _, octets in step.sent]
            if step.command:
                name, way = step.command
                heard.command = self.id_of(name), WAYS_TOLD[way]
        if replay.ending:
            raise Failed(replay.ending_text())

    def id_of(self, name: str) -> str:
        """The id of a switch as the bay file has it."""
        return next((it for it in self.controlled if it.upper() == name.upper()), name)


def outcome_of(heard: list[Heard]) -> Outcome:
    """What became of a control: of the first of its requests that is refused, or of the last."""
    cause = None
    for it in heard:
        for said in it.said:
            if said.kind == 'refused':
                cause = said.cause
            elif said.kind in ITEMS and not said.good:
                return Outcome(False, cause)
        if not it.said:
            return Outcome(False)
    return Outcome(True)
