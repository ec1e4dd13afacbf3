"""A switch as a client controls it: select, operate, cancel, and the end of an operate."""
import time
from collections.abc import Callable
from dataclasses import dataclass

from . import mms, words
from .client import Client, Refused
from .mms import Failure

STATUS_ONLY, SELECTED, ENHANCED = 0, 2, 4  # control models: never operated, and selected first
WAYS = {'close': True, 'open': False}
ENDS = {True: '10', False: '01'}  # the positions to which an operate leads
INTERMEDIATE, BAD, GOOD = '00', '11', '00'  # positions, and a quality
NO_CHECK, SYNCHROCHECK = '00', '10'  # of Check
EVERY = 0.1  # seconds between two looks at a position


@dataclass
class Outcome:
    """What became of a request. `words` is empty where a report told it already."""
    is_good: bool
    words: str = ''


class Control:
    """The control of a switch, which is named by its logical node, or by its id where the client
    knows the bay file. A select and the operate or the cancel behind it have one ctlNum, and each
    control of an association the next."""

    def __init__(self, client: Client, switch: str, originator: str = '', test: bool = False,
                 check: str = NO_CHECK) -> None:
        self.client, self.originator = client, originator.encode()
        self.test, self.check = test, check
        self.number: int | None = None
        self.node = client.bay.node(switch)
        if self.node is None:
            raise Refused(f'{switch} is not a switch: give its control as CSWI1, or its id with '
                          '--bay FILE')
        self.name = client.bay.ids.get(self.node, self.node)
        self.is_described = client.bay.profile == 2 and self.node in client.bay.ids
        item, plate = f'{self.node}$CF$Pos$ctlModel', f'{self.node}$DC$NamPlt$d'
        (_, model), *told = client.read([item, plate] if self.is_described else [item])
        if isinstance(model, Failure):
            raise Refused(f'{self.name}: {words.value_text("", model)}')
        self.model = client.typed(item, model, mms.INTEGER)
        for _, found in told:
            self.compare_name(found)

    def compare_name(self, found: mms.Data | Failure) -> None:
        """Refuses where the server says that this control is of another switch than the one that
        was named. A server of profile 1 says nothing of it."""
        told = None if isinstance(found, Failure) else found.value
        if told not in (None, self.name):
            raise Refused(f'{self.name}: the server says that {self.node} is {told}, so nothing is '
                          'operated')

    def item(self, word: str) -> str:
        return f'{self.node}$CO$Pos${word}'

    def control_value(self, on: bool, check: str | None) -> mms.Data:
        moment = int(time.time() * 1000)
        if self.number is None:
            self.number = self.client.next_control()
        return mms.control(on, 2, self.originator, self.number, moment, self.test, check)

    def is_selected_first(self) -> bool:
        return self.model in (SELECTED, ENHANCED)

    def has_termination(self) -> bool:
        return self.model == ENHANCED

    def outcome(self, verb: str, is_good: bool, answer=None, done: str = 'done') -> Outcome:
        """An answer in words. An enhanced control has told its cause before it."""
        if is_good:
            return Outcome(True, f'{verb} {self.name}: {done}')
        if self.client.cause is not None:
            return Outcome(False)
        told = words.value_text('', answer) if isinstance(answer, Failure) else 'refused'
        return Outcome(False, f'{verb} {self.name}: {told}')

    def select(self, on: bool = True) -> Outcome:
        if self.model == ENHANCED:
            answer = self.client.write(self.item('SBOw'), self.control_value(on, self.check))
            return self.outcome('select', not isinstance(answer, Failure), answer)
        if self.model != SELECTED:
            model = words.CONTROL_MODELS.get(self.model, self.model)
            return Outcome(False, f'{self.name} is not selected: {model}')
        (_, answer), = self.client.read([self.item('SBO')])
        is_good = not isinstance(answer, Failure) and bool(
            self.client.typed(self.item('SBO'), answer, mms.TEXT))
        return self.outcome('select', is_good, answer)

    def operate(self, on: bool) -> Outcome:
        """The answer to an operate: accepted is no end of it."""
        answer = self.write_last('Oper', self.control_value(on, self.check))
        return self.outcome('operate', answer is None, answer, 'accepted')

    def cancel(self, on: bool = True) -> Outcome:
        answer = self.write_last('Cancel', self.control_value(on, check=None))
        return self.outcome('cancel', answer is None, answer)

    def write_last(self, word: str, value: mms.Data) -> Failure | None:
        """The answer to what ends a control, behind which another begins."""
        self.number = None
        return self.client.write(self.item(word), value)

    def is_selected(self) -> bool:
        """Whether the server says that the switch is selected."""
        return self.client.value(f'{self.node}$ST$Pos$stSeld', mms.BOOLEAN)

    def position_bits(self) -> str:
        return self.client.value(f'{self.node}$ST$Pos$stVal', mms.BITS)

    def position(self) -> str:
        """Where the switch is, in words."""
        return words.POSITIONS[self.position_bits()]

    def comes_to(self, on: bool, seconds: float, wait: Callable = time.sleep) -> bool:
        """Whether the switch comes to the position of an operate within so many seconds."""
        end = time.monotonic() + seconds
        while self.position_bits() != ENDS[on]:
            if time.monotonic() >= end:
                return False
            wait(EVERY)
        return True

    def state(self, on: bool) -> str:
        """What can be known of a refused open or close: that the process is lost, or where the
        switch is, what its interlocking allows, its key where no cause tells of it, and which other
        switch moves. Nothing where the server doesn't tell."""
        cilo = 'CILO' + self.node.removeprefix('CSWI')
        wanted = {f'{self.node}$ST$Pos$stVal': mms.BITS, f'{cilo}$ST$EnaOpn$stVal': mms.BOOLEAN,
                  f'{cilo}$ST$EnaCls$stVal': mms.BOOLEAN}
        found = self.client.read(list(wanted))
        if any(isinstance(value, Failure) for _, value in found):
            return ''
        position, opened, closed = (self.client.typed(item, value, wanted[item])
                                    for item, value in found)
        others = self.others()
        if position == BAD and others and all(bits == BAD for bits, _ in others.values()):
            return words.PROCESS_LOST
        ways = [f'may {"" if free else "not "}be {way}'
                for way, free in (('opened', opened), ('closed', closed))]
        there = ' already' if position == ENDS[on] else ''
        told = f'{self.name} is {words.POSITIONS[position]}{there}, {" and ".join(ways)}'
        if (key := self.client.bay.key(self.name)) and not self.has_termination():
            told += f'; its key {key} {self.key_text()}'
        moving = [name for name, found in others.items() if found == (INTERMEDIATE, GOOD)]
        return told + (f'; still moving: {", ".join(moving)}' if moving else '')

    def key_text(self) -> str:
        """Whether the key of the switch is at remote, which only a server of profile 2 says."""
        own = next((node for node, name in self.client.bay.ids.items()
                    if name == self.name and node.startswith(('XCBR', 'XSWI'))), None)
        if self.is_described and own:
            (_, local), = self.client.read([f'{own}$ST$Loc$stVal'])
            if isinstance(local, mms.Data):
                return f'is at {"local" if local.value else "remote"}'
        return 'must be at remote, which is not seen here'

    def others(self) -> dict[str, tuple[str, str]]:
        """The positions of the other switches with their validities: before its first report a
        switch is intermediate and its quality invalid."""
        nodes = [name for name in self.client.names() if '$' not in name
                 and name.startswith('CSWI') and name != self.node]
        items = [f'{node}$ST$Pos${part}' for node in nodes for part in ('stVal', 'q')]
        found = [str(getattr(value, 'value', '')) for _, value in self.client.read(items)]
        return {self.client.bay.switch(node): (found[2 * at], found[2 * at + 1][:2])
                for at, node in enumerate(nodes)}
