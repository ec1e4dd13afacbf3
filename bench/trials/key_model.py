"""A bay by its own account: what it answers to clients, commands and reports, event by event, with
keys and synchrochecks. It is written from docs/PROTOCOL.md, 'Checks and causes', and from nothing
of the tools; bench/trials/keys compares bayctl with it.

A fault of FAULTS can be planted in it, so that a trial shows that it would notice such a bayctl."""
from dataclasses import dataclass, field

NOT_SUPPORTED, HIERARCHY, SELECT_FAILED, REACHED, MODE = 1, 2, 3, 5, 8
PROCESS, INTERLOCKING, SYNCHROCHECK, EXECUTING, ONE_OF_N, UNSELECTED = 9, 10, 11, 12, 14, 18
TIME_OVER = 16
OPEN, CLOSED, BAD = 1, 2, 3  # positions; 0 is intermediate, also before the first report
UNREPORTED = (0, False)  # a position and whether it is valid
FAULTS = {
    'an operate passes at local': 'the key is not asked',
    'a loss leaves the key at remote': 'what was reported before a loss still counts',
    'a key is at remote before it is reported': 'a start means remote',
    'a shared key holds for its first switch alone': 'the others have none',
    'the key ends an execution': 'an operation is given up as its key is turned',
    'a select asks for the key': 'it is refused at local',
    'a refusal at local leaves the selection': 'the operate may be tried again',
    'the key is asked before the process': '2 where 9 is due',
    'the key is asked after the interlocking': '10 where 2 is due',
    'the key is that of the last scan': 'a key turned since is not seen',
    'the key is that of the select': 'a key turned between select and operate is not seen',
    'a synchrocheck is ignored': 'as without synchrocheck = "refuse"',
    'a synchrocheck is refused of an open': 'Check is asked whatever is operated',
    'a synchrocheck is refused before the interlocking': '11 where 10 is due',
    'the other bit of Check is taken': 'that of the interlocking'}


@dataclass(frozen=True)
class Switch:
    """A switch of the bay file, and the inputs by which its program releases it; '' is always."""
    id: str
    kind: str
    control: str
    selected_for: int
    travels_for: int
    key: str  # an input, or nothing
    is_checked: bool  # synchrocheck = "refuse"
    frees: tuple[str, str]  # to open, to close


@dataclass(frozen=True)
class Ask:
    """What a client asks: select, operate or cancel."""
    association: int
    verb: str
    switch: int
    on: bool
    who: str
    is_test: bool
    check: str


@dataclass
class Seen:
    """What an event is to show: the answer to a request ('' of none, done, refused), its cause
    where one is told, a command, the ends of operates that are told, and what a scan releases."""
    answer: str = ''
    cause: int | None = None
    command: tuple[str, bool] | None = None
    ends: list[tuple[int, str, bool, int | None]] = field(default_factory=list)
    releases: tuple[tuple[bool, bool], ...] | None = None


@dataclass
class Selection:
    association: int
    switch: int
    since: int
    on: bool | None
    who: str | None
    was_remote: bool = True


@dataclass
class Execution:
    switch: int
    on: bool
    since: int
    client: tuple[int, int]  # the association and which of its number it is


class Bay:
    """The state of the bay. `planted` is a fault of FAULTS, or nothing."""

    def __init__(self, switches: list[Switch], inputs: list[str], longest: int, planted: str = '',
                 ) -> None:
        assert not planted or planted in FAULTS
        self.switches, self.longest, self.planted = switches, longest, planted
        self.positions = [UNREPORTED] * len(switches)
        self.inputs = dict.fromkeys(inputs, False)
        self.reported: dict[str, bool] = {}  # of inputs, since the last loss
        self.is_lost, self.scanned, self.is_changed = False, None, True
        self.releases = [(False, False)] * len(switches)
        self.scanned_inputs: dict[str, bool] = {}
        self.selection: Selection | None = None
        self.execution: Execution | None = None
        self.births: dict[int, int] = {}  # how often a number of an association began
        self.open: set[int] = set()

    def has(self, planted: str) -> bool:
        return self.planted == planted

    # What happens.

    def event(self, now: int, kind: str, *more) -> Seen:
        """One event at a moment: what it shows."""
        seen = Seen()
        self.expire(now, seen)
        getattr(self, f'do_{kind}')(now, seen, *more)
        return seen

    def expire(self, now: int, seen: Seen) -> None:
        """What ran out by now ends before anything else."""
        it = self.selection
        if it and now >= it.since + self.switches[it.switch].selected_for:
            self.selection = None
        run = self.execution
        if run and now >= run.since + self.switches[run.switch].travels_for:
            self.end(seen, TIME_OVER)

    def end(self, seen: Seen, cause: int | None) -> None:
        """The execution ends; who asked for it is told if his switch is enhanced."""
        run, self.execution = self.execution, None
        number, birth = run.client
        one = self.switches[run.switch]
        is_there = number in self.open and self.births[number] == birth
        if one.control == 'sbo-enhanced' and is_there:
            seen.ends.append((number, one.id, run.on, cause))

    def do_contact(self, now: int, seen: Seen, switch: int, position: int) -> None:
        self.receive()
        self.put(switch, position)
        run = self.execution
        if run and run.switch == switch and position == (CLOSED if run.on else OPEN):
            self.end(seen, None)

    def put(self, switch: int, position: int) -> None:
        found = position, position != BAD
        self.is_changed |= self.positions[switch] != found
        self.positions[switch] = found

    def do_input(self, now: int, seen: Seen, name: str, value: bool) -> None:
        self.receive()
        self.is_changed |= self.inputs[name] != value
        self.inputs[name] = self.reported[name] = value
        run = self.execution
        if self.has('the key ends an execution') and run and not value and (
                self.switches[run.switch].key == name):
            self.execution = None

    def receive(self) -> None:
        self.is_lost = False

    def do_lost(self, now: int, seen: Seen) -> None:
        for at in range(len(self.switches)):
            self.put(at, BAD)
        self.is_changed |= any(self.inputs.values())
        self.inputs = dict.fromkeys(self.inputs, False)
        self.is_lost = True
        if not self.has('a loss leaves the key at remote'):
            self.reported = {}

    def do_scan(self, now: int, seen: Seen) -> None:
        self.releases = [tuple(not name or self.inputs[name] for name in one.frees)
                         for one in self.switches]
        self.scanned, self.is_changed = now, False
        self.scanned_inputs = dict(self.reported)
        seen.releases = tuple(self.releases)

    def do_open(self, now: int, seen: Seen, association: int) -> None:
        self.open.add(association)
        self.births[association] = self.births.get(association, 0) + 1

    def do_greet(self, now: int, seen: Seen, association: int) -> None:
        pass

    def do_close(self, now: int, seen: Seen, association: int) -> None:
        self.open.discard(association)
        if self.selection and self.selection.association == association:
            self.selection = None

    def do_ask(self, now: int, seen: Seen, ask: Ask) -> None:
        cause = getattr(self, ask.verb)(now, ask, seen)
        seen.answer = 'refused' if cause else 'done'
        if self.switches[ask.switch].control == 'sbo-enhanced':
            seen.cause = cause

    # What is asked.

    def is_selected_by(self, ask: Ask) -> bool:
        it = self.selection
        return it is not None and (it.association, it.switch) == (ask.association, ask.switch)

    def select(self, now: int, ask: Ask, seen: Seen) -> int | None:
        it, run, one = self.selection, self.execution, self.switches[ask.switch]
        is_enhanced = one.control == 'sbo-enhanced'
        if one.control not in ('sbo', 'sbo-enhanced'):
            return NOT_SUPPORTED
        if run and run.switch == ask.switch:
            return EXECUTING
        if it and it.switch == ask.switch and it.association != ask.association:
            return SELECT_FAILED
        if it and it.switch != ask.switch:
            return ONE_OF_N
        if is_enhanced and ask.is_test:
            return MODE
        if self.has('a select asks for the key') and not self.is_remote(one):
            return HIERARCHY
        self.selection = Selection(ask.association, ask.switch, now,
                                   ask.on if is_enhanced else None,
                                   ask.who if is_enhanced else None, self.is_remote(one))
        return None

    def operate(self, now: int, ask: Ask, seen: Seen) -> int | None:
        was_remote = self.selection is None or self.selection.was_remote
        cause = self.operate_cause(now, ask, was_remote)
        is_left = self.has('a refusal at local leaves the selection') and cause == HIERARCHY
        if self.is_selected_by(ask) and not is_left:
            self.selection = None
        if cause is None:
            self.execution = Execution(ask.switch, ask.on, now,
                                       (ask.association, self.births[ask.association]))
            seen.command = self.switches[ask.switch].id, ask.on
        return cause

    def operate_cause(self, now: int, ask: Ask, was_remote: bool) -> int | None:
        """The first check that refuses an operate."""
        one, run, it = self.switches[ask.switch], self.execution, self.selection
        if one.control == 'status':
            return NOT_SUPPORTED
        if one.control != 'direct':
            if not self.is_selected_by(ask):
                return UNSELECTED
            if one.control == 'sbo-enhanced' and (it.on, it.who) != (ask.on, ask.who):
                return UNSELECTED
        if ask.is_test:
            return MODE
        if run and run.switch == ask.switch:
            return EXECUTING
        if run:
            return ONE_OF_N
        if self.positions[ask.switch][0] == (CLOSED if ask.on else OPEN):
            return REACHED
        return self.blocking_cause(now, ask, one, was_remote)

    def blocking_cause(self, now: int, ask: Ask, one: Switch, was_remote: bool) -> int | None:
        """The checks of the process, of the key, of the interlocking, and of the synchrocheck."""
        is_remote = self.is_remote(one)
        if self.has('the key is that of the select') and one.control != 'direct':
            is_remote = was_remote
        is_fresh = self.scanned is not None and not self.is_changed and (
            now - self.scanned <= self.longest)
        is_released = is_fresh and self.releases[ask.switch][ask.on]
        bit = ask.check[1 if self.has('the other bit of Check is taken') else 0] == '1'
        is_unchecked = one.is_checked and bit and (
            ask.on or self.has('a synchrocheck is refused of an open')) and not self.has(
                'a synchrocheck is ignored')
        checks = [(self.is_lost, PROCESS), (not is_remote, HIERARCHY),
                  (not is_released, INTERLOCKING), (is_unchecked, SYNCHROCHECK)]
        for planted, first, second in (
                ('the key is asked before the process', 0, 1),
                ('the key is asked after the interlocking', 1, 2),
                ('a synchrocheck is refused before the interlocking', 2, 3)):
            if self.has(planted):
                checks[first], checks[second] = checks[second], checks[first]
        return next((cause for refuses, cause in checks if refuses), None)

    def cancel(self, now: int, ask: Ask, seen: Seen) -> int | None:
        run = self.execution
        if self.switches[ask.switch].control not in ('sbo', 'sbo-enhanced'):
            return NOT_SUPPORTED
        if run and run.switch == ask.switch:
            return EXECUTING
        if not self.is_selected_by(ask):
            return UNSELECTED
        self.selection = None
        return None

    def is_remote(self, one: Switch) -> bool:
        """Whether the key of a switch, if it has one, was last reported at remote since the last
        loss."""
        if not one.key or self.has('an operate passes at local'):
            return True
        if self.has('a shared key holds for its first switch alone') and one is not next(
                it for it in self.switches if it.key == one.key):
            return True
        if self.has('the key is that of the last scan'):
            return self.scanned_inputs.get(one.key, False)
        return self.reported.get(one.key, self.has('a key is at remote before it is reported'))
