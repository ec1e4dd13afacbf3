"""One association with a server, by which the state of a bay is read again and again, and handed to
all who look at it."""
import collections
import json
import threading
import time

from baytools.bay.names import INPUTS, Names, unit_text
from baytools.common import moments
from baytools.common.ending import Failed
from baytools.common.texts import upcase
from baytools.diagnosis.language import FIELDS
from baytools.wire import mms, words
from baytools.wire.client import Client, Lost
from baytools.wire.mms import Failure
from baytools.wire.same_bay import compare_with_server
from baytools.wire.sockets import why_unconnected
from baytools.wire.tls import server_of

from .broadcast import Publisher
from .lost_process import REFUSED, is_process_lost, process_text
from .reasons import Seen, why_not

READ = ('CSWI', 'MMXU')  # the nodes of which nothing may be missing
OTHER = 'the server has another bay than the bay file'
EVERY, AGAIN, KEPT = 0.25, 1.0, 200  # seconds between two reads, and two attempts; events kept
LOST = (Failed, OSError, ValueError, LookupError, TypeError, AttributeError)
PARTING = 1  # seconds for the end of the association
OLD = 2000  # ms since the last read of a server that counts as answering
UNREPORTED = '00', 'invalid'  # a position and its quality before the first report
# The values that are read, with the types of their parts.
POSITION = {'stVal': mms.BITS, 'q': mms.BITS, 't': mms.TIME}
POSITIONS = POSITION | {'stSeld': mms.BOOLEAN}, POSITION
BEHAVIOUR = {'stVal': mms.INTEGER, 'q': mms.BITS, 't': mms.TIME}
INPUT = {'stVal': mms.BOOLEAN, 'q': mms.BITS, 't': mms.TIME}


def meter_shape(magnitude: dict) -> dict:
    """The measured values of a meter, by the parts of each."""
    stamp = {'q': mms.BITS, 't': mms.TIME}
    return {**dict.fromkeys(('TotW', 'TotVAr', 'Hz'), {'mag': magnitude} | stamp),
            'A': dict.fromkeys(('phsA', 'phsB', 'phsC'), {'cVal': {'mag': magnitude}} | stamp)}


# In profile 2 a meter with a scale has each value as a float, too.
METERS = [meter_shape({'i': mms.INTEGER} | more) for more in ({}, {'f': mms.FLOAT})]


def now() -> int:
    return time.time_ns() // 1_000_000


class Watcher(Publisher):
    """Reads a bay. `lock` is held by whoever uses the association; `conditions` are those of the
    audit by switch and way, once they are known. Where the server has another bay than the file,
    `state['barred']` says that nothing is operated, unless it is to be operated anyway. Where the
    connection is lost, `state['read']` says when all was last read. `state['process']` has what is
    told of the process where it reports nothing, and `state['lost']` whether it is lost: then
    nothing counts as released, since the server refuses every operate."""
    every = EVERY

    def __init__(self, file, text, host, port, anyway=False, tls=None) -> None:
        super().__init__()
        self.file, self.text, self.host, self.port = file, text, host, port
        self.inputs = Names(text).inputs
        self.anyway, self.differs, self.tls = anyway, [], tls
        self.conditions, self.lock, self.client = None, threading.RLock(), None
        self.last_read: int | None = None
        self.events = collections.deque(maxlen=KEPT)
        self.on_said, self.on_read = [], []
        self.state = {'bay': file['bay']['domain'], 'connected': False, 'told': 'connecting',
                      'switches': [], 'measures': [], 'inputs': [], 'control': None, 'barred': '',
                      'read': '', 'process': '', 'lost': False}

    # ---- those who look

    def state_json(self) -> str:
        """The state and the events, as JSON."""
        with self.lock:
            events = sorted(self.events, key=lambda it: it['moment'])
            return json.dumps({**self.state, 'events': events})

    def silent_since(self) -> str:
        """Since when a server has not answered that is still connected, or nothing. It waits for
        nobody who uses the association."""
        last = self.last_read
        return stamp(last) if self.client and last and now() - last > OLD else ''

    def event(self, told: str, kind: str = 'quiet', moment: int | None = None) -> None:
        """Notes what happened: kind is position, control, refused or quiet."""
        moment = moment if moment and moments.is_clock(moment) else now()
        self.events.append({'moment': moment, 'time': stamp(moment), 'told': told, 'kind': kind})

    # ---- the association

    def run(self) -> None:
        """Reads until it is over, and connects again where the connection is lost."""
        while not self.is_over.is_set():
            try:
                if self.client is None:
                    self.connect()
                if self.read_once():
                    self.publish()
                self.is_over.wait(self.every)
            except LOST as error:
                self.lose(error)
                self.is_over.wait(AGAIN)
        with self.lock:
            if self.client:
                self.client.close()

    def connect(self) -> None:
        client = Client(self.host, self.port, Names(self.text), on_report=lambda told: None,
                        tls=self.tls)
        client.on_said = self.on_report
        held = compare_with_server(client, self.file)
        if any(node.startswith(READ) for node in held.absent):
            client.close()
            raise Lost('; '.join(held.lines()))
        with self.lock:
            self.client = client
            self.note_connection(held.lines())
            self.publish()

    def note_connection(self, found) -> None:
        """Notes a new connection, and how its server differs from the bay file."""
        whose = server_of(self.client.socket) if self.client else ''
        told = f'connected to port {self.port}' + (f' of {whose}' if whose else '') + (
            f': {OTHER}' if found else '')
        barred = f'{OTHER}, so nothing is operated' if found and not self.anyway else ''
        self.state.update(connected=True, told=told, barred=barred)
        self.event(told, 'refused' if found else 'quiet')
        for line in found if found != self.differs else ():
            self.event(line, 'refused')
        self.differs = found

    def lose(self, error) -> None:
        told = why_unconnected(error) if isinstance(error, OSError) else str(error)
        with self.lock:
            if self.client:
                self.client.socket.close()
            if self.client or self.state['told'] != told:
                self.event(f'not connected: {told}', 'refused')
            self.client = None
            self.state.update(connected=False, told=told, control=None)
            if self.last_read is not None:
                self.state['read'] = stamp(self.last_read)
            for act in self.on_said:
                act(None)
        self.publish()

    def on_report(self, said) -> None:
        """A report of the server."""
        for act in self.on_said:
            act(said)

    def read_once(self) -> bool:
        """Reads all, and tells whether something has changed."""
        with self.lock:
            before = json.dumps(self.state), len(self.events), self.events and self.events[-1]
            switches, meters = self.file['switch'], self.file.get('meter', [])
            names = [name for at in range(1, len(switches) + 1)
                     for name in (f'CSWI{at}$ST$Pos', f'CILO{at}$ST$EnaOpn$stVal',
                                  f'CILO{at}$ST$EnaCls$stVal')]
            names += [f'MMXU{at}$MX' for at in range(1, len(meters) + 1)]
            names += [f'{INPUTS}$ST'] if self.inputs else []
            values = [value for _, value in self.client.read(names)]
            if any(isinstance(value, Failure) for value in values):
                raise Lost('the server has other names than the bay file')
            measures = [it for meter, value in zip(meters, values[3 * len(switches):])
                        for it in measures_of(meter, value)]
            inputs = inputs_of(self.inputs, values[-1]) if self.inputs else []
            found = [switch_of(switch, *values[3 * at:3 * at + 3])
                     for at, switch in enumerate(switches)]
            self.explain(found, measures, inputs)
            self.compare(found)
            self.compare_inputs(inputs)
            self.state.update(switches=found, measures=measures, inputs=inputs,
                              process=process_text(found, measures),
                              lost=is_process_lost(found, measures))
            self.last_read = now()
            for act in self.on_read:
                act(found)
            last = self.events and self.events[-1]
            return before != (json.dumps(self.state), len(self.events), last)

    def explain(self, found, measures, inputs=()) -> None:
        """Says why something may not be done."""
        seen = Seen({upcase(it['id']): it['position'] for it in found},
                    {upcase(it['name']): it['value'] for it in measures},
                    {upcase(it['name']): it['value'] for it in inputs},
                    {upcase(it['name']): it['unit'] for it in measures})
        is_lost = is_process_lost(found, measures)
        for it in found:
            for way, name in enumerate(('open', 'close')):
                if is_lost:
                    it[name].update(free=False, why=REFUSED)
                elif it[name]['free']:
                    it[name]['why'] = ''
                elif self.differs:
                    it[name]['why'] = 'why is not known: another bay is served'
                elif self.conditions is None:
                    it[name]['why'] = 'the interlocking does not release it'
                else:
                    it[name]['why'] = why_not(self.conditions.get((it['id'], way)), seen)

    def compare(self, found) -> None:
        """Notes what has changed since the last read."""
        for old, new in zip(self.state['switches'] or [{}] * len(found), found):
            if (old.get('position'), old.get('quality')) != (new['position'], new['quality']):
                self.event(f'{new["id"]} is {place_text(new)}', 'position', new['moment'])
            if old and old['selected'] != new['selected']:
                self.event(f'{new["id"]} is {"" if new["selected"] else "no longer "}selected')
            for told in may_text(old, new) if old else ():
                self.event(f'{new["id"]} {told}')

    def compare_inputs(self, found) -> None:
        """Notes which inputs have changed since the last read."""
        for old, new in zip(self.state['inputs'] or [{}] * len(found), found):
            if (old.get('value'), old.get('quality')) != (new['value'], new['quality']):
                told = f'is {truth_text(new)}' if new['quality'] == 'good' else 'is not known'
                self.event(f'input {new["name"]} {told}', 'position', new['moment'])

    def stop(self) -> None:
        """Ends the reading; a server that doesn't let go is left."""
        super().stop()
        client = self.client
        if client:
            client.end = min(client.end, time.monotonic() + PARTING)


def stamp(moment: int) -> str:
    """The date and the time of day here."""
    return f'{moments.date_of(moment):%Y-%m-%d} {moments.clock_text(moment)}'


def place_text(switch: dict) -> str:
    """Where a switch is, with a quality that is not good."""
    if not switch['known']:
        return 'not known: not reported yet'
    quality = '' if switch['quality'] == 'good' else f' ({switch["quality"]})'
    return switch['position'] + quality


def may_text(old: dict, new: dict) -> list[str]:
    """What of a switch's releases was gained, and what was lost."""
    ways = [(done, old[way]['free'], new[way]['free'])
            for way, done in (('open', 'opened'), ('close', 'closed'))]
    gained = [done for done, before, now_free in ways if now_free and not before]
    lost = [done for done, before, now_free in ways if before and not now_free]
    return [f'may now be {" and ".join(gained)}'] * bool(gained) + [
        f'may no longer be {" or ".join(lost)}'] * bool(lost)


def switch_of(switch, position, opened, closed) -> dict:
    """A switch as it was read."""
    wanted = any(words.fits(shape, position) for shape in POSITIONS) and all(
        words.fits(mms.BOOLEAN, it) for it in (opened, closed))
    if not wanted:
        raise Lost(f'the server gives {switch["id"]} values of another type')
    value, quality, moment, *selected = (part.value for part in position.value)
    validity = words.VALIDITIES[quality[:2]]
    return {'id': switch['id'], 'kind': switch['kind'], 'control': switch['control'],
            'key': switch.get('remote', ''),
            'position': words.POSITIONS[value], 'quality': validity,
            'known': (value, validity) != UNREPORTED,
            'moment': moment if isinstance(moment, int) else 0,
            'time': time_text(moment) if isinstance(moment, int) and moment else '',
            'selected': bool(selected and selected[0]),
            'open': {'free': opened.value}, 'close': {'free': closed.value}}


def time_text(moment: int) -> str:
    return stamp(moment) if moments.is_clock(moment) else moments.moment_text(moment)


def measures_of(meter, value) -> list:
    """The measured values of a meter, each as its integer."""
    if not any(words.fits(shape, value) for shape in METERS):
        raise Lost(f'the server gives {meter["id"]} values of another type')
    *plain, phases = value.value
    found = [(part.value[0].value[0].value, part.value[1].value) for part in plain]
    found += [(part.value[0].value[0].value[0].value, part.value[1].value)
              for part in phases.value]
    return [{'name': f'{meter["id"]}_{field}', 'value': number,
             'unit': unit_text(field, meter.get('scale')),
             'quality': words.VALIDITIES[quality[:2]]}
            for field, (number, quality) in zip(FIELDS, found)]


def inputs_of(names, value) -> list:
    """The inputs, as they were read."""
    shape = {'Beh': BEHAVIOUR} | {f'Ind{at}': INPUT for at in range(1, len(names) + 1)}
    if not words.fits(shape, value):
        raise Lost(f'the server gives the inputs values of another type than {INPUTS} has')
    return [input_of(name, *(part.value for part in it.value))
            for name, it in zip(names, value.value[1:])]


def input_of(name, value, quality, moment) -> dict:
    is_moment = isinstance(moment, int)
    return {'name': name, 'value': value, 'quality': words.VALIDITIES[quality[:2]],
            'moment': moment if is_moment else 0,
            'time': time_text(moment) if is_moment and moment else ''}


def truth_text(it) -> str:
    return 'TRUE' if it['value'] else 'FALSE'
