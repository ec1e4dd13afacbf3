"""What became of a scenario or of a captured session over time: positions, releases, inputs,
measures, clients, commands and refusals."""
from baytools.bay.names import unit_text
from baytools.common import moments
from baytools.common.positions import POSITIONS, WAYS
from baytools.common.texts import upcase
from baytools.diagnosis.trace import BAD
from baytools.wire.captured import continue_after_gap, conversation_of, first_stream
from baytools.wire.conversation import Conversation, got_of
from baytools.wire.words import cause_text

from .clients import Client, Mark, Track
from .filters import Picked
from .replay import CODES, REASONS

PROCESS_UNIT = 'process unit'  # of a measured value for which the bay file names none


class History:
    """What became of a scenario, or of a captured session: see `of_replay` and `of_capture`.
    `doubts` tell when a measure is bad, `losses` are the moments at which the process was lost, and
    `falling` counts the lines that were refused because times go back. Of clients and moments only
    what is picked is kept; what went before the first of these moments is the state at it."""

    def __init__(self, bay, report='', picked=Picked()) -> None:
        self.picked, self.is_begun = picked, picked.first is None
        self.bay, self.report, self.ending, self.falling = bay, report, '', 0
        self.switches = {upcase(s['id']): Track(s['id'], s['kind']) for s in bay['switch']}
        self.inputs = {upcase(i['name']): Track(i['name'], 'input') for i in bay.get('input', [])}
        self.meters = {upcase(m['id']): m['id'] for m in bay.get('meter', [])}
        self.scales = {m['id']: m.get('scale') for m in bay.get('meter', [])}
        self.opens = {key: Track('may be opened') for key in self.switches}
        self.closes = {key: Track('may be closed') for key in self.switches}
        self.commands = {key: [] for key in self.switches}
        self.measures, self.doubts, self.losses = {}, {}, []
        self.scans, self.moments = [], []
        self.clients, self.conversations, self.causes, self.places = {}, {}, {}, {}
        self.refusals, self.events = [], []

    @classmethod
    def of_replay(cls, replay, picked=Picked()) -> 'History':
        """What became of a scenario."""
        history = cls(replay.file, replay.report, picked)
        for step in replay.steps():
            if history.begins(step.moment):
                history.step(step, replay.bay)
        history.ending = replay.ending_text()
        return history.of_picked()

    def begins(self, moment) -> bool:
        """Whether a moment is taken: those before the span make the state at its begin."""
        if not self.is_begun and moment >= self.picked.first:
            self.is_begun = True
            self.forget(self.picked.first)
        return self.picked.behind is None or moment < self.picked.behind

    def forget(self, moment) -> None:
        """Keeps of what went before a moment what holds at it."""
        for it in (*self.switches.values(), *self.inputs.values(), *self.opens.values(),
                   *self.closes.values(), *self.measures.values(), *self.doubts.values(),
                   *(client.open for client in self.clients.values())):
            it.changes = [(moment, value) for _, value in it.changes[-1:]]
        for client in self.clients.values():
            client.others, client.marks, client.repeats, client.last = {}, [], [], {}
        for commands in self.commands.values():
            commands.clear()
        self.losses, self.scans, self.moments = [], [], [moment]
        self.refusals, self.events, self.falling = [], [], 0

    def of_picked(self) -> 'History':
        """The lanes of the switches that are picked alone."""
        if not self.is_begun:
            self.forget(self.picked.first)
        for name in ('switches', 'opens', 'closes', 'commands'):
            lanes = getattr(self, name)
            setattr(self, name, {key: it for key, it in lanes.items()
                                 if self.picked.has_switch(key)})
        return self

    @classmethod
    def of_capture(cls, file, bay, events, picked=Picked()) -> 'History':
        """What was said in a captured session. Of the process nothing is known. A client is an
        association, with the number that a server gives it: the lowest that is free."""
        history, servers = cls(file, picked=picked), {}
        history.switches, history.inputs = {}, {}
        for event in events:
            if history.begins(event.moment):
                history.captured(event, bay, servers)
        history = history.of_picked()
        history.clients = {place: it for place, it in history.clients.items()
                           if picked.has_client(place)}
        return history

    def warnings(self) -> list[str]:
        """What is to be said of the moments of the trace."""
        return moments.warnings(self.moments, self.falling)

    def captured(self, event, bay, servers) -> None:
        """What happened on a connection of a capture."""
        self.moments.append(event.moment)
        client = self.client_of(event)
        if event.kind in ('open', 'middle'):
            self.conversations[event.place] = conversation_of(event, bay)
            servers[event.place] = first_stream(event)
        if event.kind in ('open', 'middle', 'close'):
            client.connect(event.moment, event.kind != 'close', event.who)
            return
        conversation = self.conversations[event.place]
        if event.kind == 'client':
            for got in conversation.receive(event.octets):
                client.add_request(event.moment, conversation.describe_message(got))
        elif event.kind == 'server':
            for got in servers[event.place].feed(event.octets):
                said = conversation.answers(got)
                client.add_report(event.moment, said)
                self.control(event.moment, client.place, said, (event.place, ''))
        else:
            client.tick(event.moment, ['octets are missing in the capture'])
            continue_after_gap(event, conversation, servers)

    def client_of(self, event) -> Client:
        """The client of a connection of a capture. Its number is free once it has closed."""
        place = self.places.get(event.place)
        if place is None:
            taken = set(self.places.values())
            place = next(n for n in range(1, len(taken) + 2) if n not in taken)
            self.places[event.place] = place
        if event.kind == 'close':
            del self.places[event.place]
        return self.clients.setdefault(place, Client(place))

    def refuse(self, moment, words) -> int:
        """Notes a refusal, and gives its place in the list."""
        self.refusals.append((moment, words))
        return len(self.refusals) - 1

    def step(self, step, bay) -> None:
        """A line of the trace, and what was printed for it."""
        verb, *rest = step.words
        if verb in ('open', 'recv', 'close') and not self.picked.has_client(rest[0]):
            return self.printed(step)
        if step.refused is not None:
            self.falling += step.refused == 110
            line = step.line if len(step.line) < 60 else step.line[:57] + '...'
            told = f'{line}: refused with {step.refused}, {REASONS[step.refused]}'
            self.events.append(self.refuse(step.moment, told))
            return
        self.moments.append(step.moment)
        if verb in ('contact', 'input', 'measure'):
            self.event(step.moment, step.words)
        elif verb == 'lost':
            self.lose(step.moment)
        elif verb != 'scan':
            self.add_client_step(step, int(rest[0]), bay)
        self.printed(step)

    def event(self, moment, words) -> None:
        """A contact, an input or a measure."""
        key = upcase(words[1])
        if words[0] == 'contact':
            self.switches[key].set(moment, POSITIONS[int(words[2])])
        elif words[0] == 'input':
            self.inputs[key].set(moment, int(words[2]))
        else:
            self.measure(moment, f'{self.meters[key]}_{words[2]}', words[3])

    def measure(self, moment, label, value) -> None:
        """A measured value, or that it is bad: then it stays what it was. Before the first one it
        is invalid anyway."""
        if value != BAD:
            meter, _, field = label.rpartition('_')
            unit = unit_text(field, self.scales.get(meter)) or PROCESS_UNIT
            self.measures.setdefault(label, Track(label, unit)).set(moment, int(value))
        if label in self.measures:
            self.doubts.setdefault(label, Track(label)).set(moment, value == BAD)

    def lose(self, moment) -> None:
        """The process is lost: every position and every measure is bad, every input 0."""
        self.losses.append(moment)
        for switch in self.switches.values():
            switch.set(moment, 'bad')
        for it in self.inputs.values():
            it.set(moment, 0)
        for label in self.measures:
            self.measure(moment, label, BAD)

    def add_client_step(self, step, place, bay) -> None:
        """What a client sent, or that it came or went."""
        client = self.clients.setdefault(place, Client(place))
        if step.words[0] == 'recv':
            for got in step.heard:
                client.add_request(step.moment, self.conversations[place].describe_message(got))
            return
        client.connect(step.moment, step.words[0] == 'open')
        self.conversations[place] = Conversation(bay)

    def printed(self, step) -> None:
        """What was printed for an event: answers, a command, a scan, an association that was
        closed."""
        for place, octets in step.sent:
            if not self.picked.has_client(place):
                continue
            said = self.conversations[place].answers(got_of(octets))
            self.clients[place].add_report(step.moment, said)
            self.control(step.moment, place, said, place)
        if step.command:
            name, way = step.command
            self.commands[upcase(name)].append((step.moment, WAYS[way]))
        if step.scan:
            self.scan(step.moment, step.scan)
        if step.closed and self.picked.has_client(step.closed[0]):
            place, code = step.closed
            self.clients[place].connect(step.moment, False)
            if code != '0':
                told = 'no memory'
                if code.isdigit():
                    told = f'{CODES.get(int(code), "fault")} ({code})'
                number = self.refuse(step.moment, f'client {place} is closed: {told}')
                self.clients[place].marks.append(Mark(step.moment, 'closed', number))

    def control(self, moment, place, said, talk) -> None:
        """A mark for a control of a client that was answered or has ended; the cause of a refusal
        was told before it in the same talk, in whatever pieces it came."""
        if said.kind == 'refused':
            self.causes[talk] = said.cause
        elif said.kind == 'ended':
            self.mark(moment, place, f'{said.switch} {said.way} has ended', said.good, said.cause)
        elif said.switch:
            told = said.lines[0].partition(': ')[2]
            self.mark(moment, place, said.title(), said.good, self.causes.pop(talk, None), told)

    def mark(self, moment, place, label, good, cause, words='') -> None:
        told = cause_text(cause) if cause is not None else words
        who = self.clients[place].name()
        number = None if good else self.refuse(moment, f'client {who}: {label}: {told}')
        self.clients[place].marks.append(Mark(moment, label, number))

    def scan(self, moment, line) -> None:
        """A scan, by the line that was printed for it."""
        self.scans.append(moment)
        for part in line.split(' ')[2:]:
            name, _, digits = part.partition('=')
            if upcase(name) in self.switches:
                self.opens[upcase(name)].set(moment, digits[:1] == '1')
                self.closes[upcase(name)].set(moment, digits[1:2] == '1')
