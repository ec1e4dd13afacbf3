"""Random operates and faults between a server, tools/modbus and its modules, and what must never be
then: for bench/trials/modbus."""
import random
import re
import signal
import threading
import time
from dataclasses import dataclass

from modbus_rig import LIMIT, Rig, now

KINDS = ('stop module', 'kill module', 'exception', 'delay', 'late', 'stall', 'kill driver',
         'stop driver', 'end driver', 'kill server', 'stop server', 'master', 'hand', 'key',
         'release')
LENGTHS = (0.1, 0.3, 0.7, 1.5, 3)
WAYS = {'open': 'off', 'close': 'on'}
RELEASE = re.compile(r'< (\w+)=([01])([01])')
BREAKER = 'QA1'
UNMOVED = ('hand', 'key', 'release')  # faults in which module and driver act at once
COIL = re.compile(r'(io\d) coil \d \((\w+) (open|close)\) (on|off)( after (\d+) ms)?(.*)')
SLACK, STALE = 150, 900  # ms: from a command's age to its coil; of an end that is no longer so
UNSEEN = 100  # ms: for so long a driver can't have seen the coil of another master
AROUND = 5_000, 300  # ms before and behind what is wrong that is shown
OUTCOMES = {
    'done': r'done: ', 'time limit over (16)': r'\(16\)', 'interlocking (10)': r'\(10\)',
    'process lost (9)': r'\(9\)', 'at local (2)': r'\(2\)', 'position reached (5)': r'\(5\)'}


@dataclass(frozen=True)
class Fault:
    """A fault with its module, its moments and its length in seconds."""
    kind: str
    module: str
    begun: int
    ended: int


class Soak:
    """A soak of so many seconds on a rig."""

    def __init__(self, rig: Rig, seconds: float, seed: int) -> None:
        self.rig, self.seconds, self.random = rig, seconds, random.Random(seed)
        self.faults: list[Fault] = []
        self.said: list[str] = []
        self.keys = 0

    def fault(self) -> None:
        """One fault, and its end."""
        rig, kind = self.rig, self.random.choice(KINDS)
        module, length = self.random.choice(('io1', 'io2')), self.random.choice(LENGTHS)
        begun = now()
        who = {'module': module, 'driver': 'driver', 'server': 'bayctl'}.get(kind.split(' ')[-1])
        if kind.startswith('stop'):
            rig.send_signal(who, signal.SIGSTOP)
            time.sleep(length)
            rig.send_signal(who, signal.SIGCONT)
        elif kind.startswith(('kill', 'end')):
            rig.kill(who, signal.SIGKILL if kind.startswith('kill') else signal.SIGTERM)
            time.sleep(length)
            rig.start(who)
            if who == 'io1':
                rig.type_line('io1', 'SPRING 1')
        else:
            self.command_fault(kind, module, length)
        self.faults.append(Fault(kind, module, begun, now()))

    def command_fault(self, kind: str, module: str, length: float) -> None:
        """A fault of a module that is told so."""
        pick, types = self.random.choice, self.rig.type_line
        before, after = {
            'exception': (f'exception {pick((1, 4, 6, 11))}', 'exception 0'),
            'delay': (f'delay {pick((0.1, 0.3, 2))}', 'delay 0'),
            'late': (f'late {length}', ''), 'stall': ('stall 1', 'stall 0'),
            'master': (f'put {pick((0, 1))} 1', ''), 'hand': ('QC1 close', 'QC1 open'),
            'release': ('M1 AA 7', 'M1 AA 0'),
            'key': ('QA1 local' if module == 'io1' else 'QB1 local',
                    'QA1 remote' if module == 'io1' else 'QB1 remote')}[kind]
        module = 'io2' if kind in ('hand', 'release') else module
        types(module, before)
        if after:
            time.sleep(length)
            types(module, after)

    def operate(self) -> None:
        switch, way = self.random.choice(('QA1', 'QA1', 'QB1')), self.random.choice(list(WAYS))
        run = self.rig.client('operate', switch, way)
        keeping = threading.Thread(target=lambda: self.said.append(run.communicate()[0]))
        keeping.start()
        time.sleep(self.random.uniform(0, 0.8))
        if self.random.random() < 0.6:
            self.fault()
        keeping.join(30)
        if keeping.is_alive():
            run.kill()
            keeping.join()
        time.sleep(self.random.uniform(0, 0.5))

    def run(self) -> None:
        end = time.monotonic() + self.seconds
        while time.monotonic() < end:
            self.operate()
        time.sleep(4)
        self.rig.kill('driver', signal.SIGTERM)
        for module in ('io1', 'io2'):
            self.rig.type_line(module, 'state')
        time.sleep(0.2)
        self.rig.end()


@dataclass(frozen=True)
class Edge:
    """A coil that was switched, by what."""
    moment: int
    module: str
    switch: str
    way: str
    is_on: bool
    lasted: int
    by: str


def edges(rig: Rig) -> list[Edge]:
    """All coils of switches that were switched."""
    found = [(moment, COIL.match(text)) for name in ('io1', 'io2')
             for moment, text in rig.lines(name)]
    return sorted((Edge(moment, it[1], it[2], it[3], it[4] == 'on', int(it[6] or 0), it[7].strip())
                   for moment, it in found if it), key=lambda one: one.moment)


def commands(rig: Rig) -> list[tuple[int, str, str]]:
    """The commands that the server printed."""
    words = [(moment, text.split(' ')) for moment, text in rig.lines('bayctl')]
    return [(moment, it[1], it[2]) for moment, it in words if it[0] == 'command']


def match_pulses(soak: Soak) -> tuple[list[str], list[str], list[str], int]:
    """Pulses without a command, second pulses for one, late pulses, and how many commands had
    none."""
    rig, without, twice, late = soak.rig, [], [], []
    lates = [it for it in soak.faults if it.kind == 'late']
    left, used = commands(rig), []
    for one in edges(rig):
        if not one.is_on or 'another master' in one.by:
            continue
        wanted = [it for it in left if it[1:] == (one.switch, WAYS[one.way])
                  and it[0] <= one.moment + 2]
        if not wanted:
            again = [it for it in used if it[1:] == (one.switch, WAYS[one.way])
                     and 0 <= one.moment - it[0] < 60_000]
            (twice if again else without).append(f'{one.switch} {one.way} at {one.moment}')
            continue
        left.remove(wanted[-1])
        used.append(wanted[-1])
        behind = one.moment - wanted[-1][0]
        if behind > LIMIT + SLACK:
            acted_late = causes(soak.faults, lates, one, wanted[-1][0])
            late.append(f'{one.switch} {one.way} {behind} ms behind its command'
                        + (f' (the module acted late: {", ".join(sorted(set(acted_late)))})'
                           if acted_late else ''))
    return without, twice, late, len(left)


def causes(faults: list[Fault], lates: list[Fault], one: Edge, asked: int) -> list[str]:
    """Why the module itself acted late, if it did. One that is told to do so does with the next
    write, whenever that is."""
    found = [it.kind for it in faults if it.kind in ('delay', 'stop module')
             and it.module == one.module and it.begun <= one.moment and it.ended >= asked]
    for it in lates:
        if it.module == one.module and it.begun <= asked + LIMIT:
            lates.remove(it)
            return ['late', *found]
    return found


def release_changes(rig: Rig) -> list[tuple[int, str, str, bool]]:
    """When the driver was told that a way of a switch is released, or no longer. What it was told
    is void where its connection has ended."""
    found, known = [], set()
    for moment, text in rig.lines('driver'):
        if released := RELEASE.fullmatch(text):
            for way, is_free in zip(WAYS, released.groups()[1:]):
                found.append((moment, released[1], way, is_free == '0'))
                known.add((released[1], way))
        elif 'the server has taken the process' in text or text.startswith('process port'):
            found += [(moment, switch, way, False) for switch, way in known]
    return found


def unreleased_pulses(soak: Soak) -> list[str]:
    """Pulses that began UNSEEN after the driver was told that their release had gone, and those of
    a disconnector that went on so long after it. Where the module acted late, or a driver or module
    had a fault of its own meanwhile, that is no wrong of the driver."""
    changes, found, begun = release_changes(soak.rig), [], {}
    lates = [it for it in soak.faults if it.kind == 'late']
    for one in edges(soak.rig):
        key = one.module, one.switch, one.way
        told = [(moment, is_gone) for moment, switch, way, is_gone in changes
                if (switch, way) == key[1:] and moment <= one.moment]
        if one.is_on:
            begun[key] = one.moment
        since = told[-1][0] if told and told[-1][1] else one.moment
        if 'another master' in one.by or one.moment - since <= UNSEEN or not (
                one.is_on or one.switch != BREAKER and since >= begun.get(key, since + 1)):
            continue
        others = [it for it in soak.faults if it.kind not in UNMOVED
                  and it.begun <= one.moment and it.ended >= since]
        if not others and not causes(soak.faults, lates, one, since):
            found.append(f'{one.switch} {one.way} {"began" if one.is_on else "went on till"} '
                         f'{one.moment - since} ms after its release had gone, at {one.moment}')
    return found


def truth(rig: Rig) -> list[tuple[int, str, str]]:
    """Where the switches were, by what the plants say."""
    found = []
    for name, switches in (('io1', ('QA1',)), ('io2', ('QB1', 'QC1'))):
        for moment, text in rig.lines(name):
            if text == 'begins':
                found += [(moment, switch, 'open') for switch in switches]
            elif moved := re.fullmatch(r'(Q\w+) (?:is (\w+)|moves.*)', text):
                found.append((moment, moved[1], moved[2] or 'intermediate'))
    return sorted(found)


def stale_ends(soak: Soak) -> dict[str, int]:
    """Ends that a client was told though the switch had left them STALE before it asked. (What it
    asks of a server that is stopped is answered late, and of when it asked.) What io1 is, which has
    no counter, while it stalls nobody can know."""
    stalls = [it for it in soak.faults if (it.kind, it.module) == ('stall', 'io1')]
    there: dict[str, str] = {}
    left: dict[tuple[str, str], int] = {}
    found: dict[tuple[str, str, int], int] = {}
    changes = truth(soak.rig)
    events = [(*it, True) for it in changes] + [(*it, False) for it in soak.rig.seen]
    for moment, switch, position, is_true in sorted(events, key=lambda it: it[0]):
        if is_true:
            if there.get(switch) not in (None, position):
                left[switch, there[switch]] = moment
            there[switch] = position
        elif position in ('open', 'closed') and there.get(switch) != position:
            since = left.get((switch, position), changes[0][0])
            if moment - since > STALE and not (switch == 'QA1' and any(
                    it.begun <= moment <= it.ended + STALE for it in stalls)):
                found[switch, position, since] = moment
    return {f'{switch} {position}, asked {asked - since} ms after it was left': asked
            for (switch, position, since), asked in found.items()}


def both_on(rig: Rig, module: str) -> tuple[list[int], int]:
    """The moments at which both coils of a switch were on, and how often it was by another master:
    into a pulse, or so shortly before one that a driver can't have seen it."""
    on: dict[tuple[str, str], tuple[int, bool]] = {}
    moments, excused = [], 0
    for moment, text in rig.lines(module):
        if text == 'begins':
            on = {}
        elif coil := COIL.match(text):
            if coil[4] == 'on':
                on[coil[2], coil[3]] = moment, 'another master' in coil[7]
            else:
                on.pop((coil[2], coil[3]), None)
        elif text.startswith('both coils of '):
            first, last = sorted(on[text.split(' ')[3], way] for way in WAYS)
            if last[1] or first[1] and last[0] - first[0] <= UNSEEN:
                excused += 1
            else:
                moments.append(moment)
    return moments, excused


def around(soak: Soak, moment: int) -> list[str]:
    """What all said around a moment, and what faults were."""
    before, behind = AROUND
    said = sorted((at, f'{name}: {text}') for name in ('io1', 'io2', 'bayctl', 'driver')
                  for at, text in soak.rig.lines(name))
    faults = [str(it) for it in soak.faults
              if it.begun - before <= moment <= it.ended + before]
    return [f'around {moment}:', *faults,
            *(f'{at} {text}' for at, text in said if moment - before <= at <= moment + behind)]


def summary_of(soak: Soak) -> tuple[list[str], bool]:
    """What a soak comes to, and whether nothing was that must never be."""
    rig = soak.rig
    both, excused = [], 0
    for name in ('io1', 'io2'):
        moments, count = both_on(rig, name)
        both, excused = both + moments, excused + count
    foreign = sum('another master' in one.by for one in edges(rig))
    without, twice, late, unused = match_pulses(soak)
    on = [text for name in ('io1', 'io2') for _, text in rig.lines(name)
          if 'coils that are on' in text and not text.endswith('none')]
    unfree = unreleased_pulses(soak)
    unexplained = [one for one in late if 'acted late' not in one]
    old = stale_ends(soak)
    kinds = {kind: sum(it.kind == kind for it in soak.faults) for kind in KINDS}
    said = '\n'.join(soak.said)
    lines = [
        f'{len(soak.said)} operates, {len(commands(rig))} commands, '
        f'{sum(one.is_on for one in edges(rig)) - foreign} pulses, {len(soak.faults)} faults: '
        + ', '.join(f'{count} {kind}' for kind, count in kinds.items() if count),
        'outcomes: ' + ', '.join(f'{len(re.findall(pattern, said))} {name}'
                                 for name, pattern in OUTCOMES.items()),
        f'both coils: {len(both)} (by another master: {excused}); pulses without a command: '
        f'{len(without)} {without or ""}; second pulses for a command: {len(twice)} '
        f'{twice or ""}; commands without a pulse: {unused}',
        f'late pulses: {len(late)}, {len(unexplained)} of them where the module did not act late '
        f'{late or ""}',
        f'pulses that their release did not stop: {len(unfree)} {unfree or ""}; ended by it: '
        f'{sum("so its pulse ends" in text for _, text in rig.lines("driver"))}, not begun for it: '
        f'{sum(text.endswith("its release has gone") for _, text in rig.lines("driver"))}',
        f'coils of another master: {foreign}; coils that are on at the end: {len(on)}; ends '
        f'that a client was told over {STALE} ms after they were left: {len(old)} '
        f'{list(old) or ""}']
    for moment in [*both, *old.values()]:
        lines += around(soak, moment)
    is_good = not (both or without or twice or unexplained or unfree or on or old)
    return lines, is_good
