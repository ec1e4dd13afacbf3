"""What a panel operates: a switch is selected, the command is confirmed, and its end is told."""
import collections
import threading
import time
from collections.abc import Callable

from baytools.common.ending import Failed
from baytools.wire import words
from baytools.wire.client import Refused
from baytools.wire.control import STATUS_ONLY, Control

WAYS = {'open': False, 'close': True}
ENDS = {'open': 'open', 'close': 'closed'}
MARGIN = 1.0  # seconds beyond a switch's travel_ms, until its position is missed
CONFIRMING = 30.0  # seconds in which a control that needs no select is to be confirmed


def answer(is_good, told) -> dict:
    return {'good': is_good, 'told': told}


def in_time() -> str:
    """Why what is asked is not to be done any more: nothing."""
    return ''


class Operator:
    """One control at a time, over the association of a watcher. `state['control']` of the watcher
    says how far it is: the switch, the way, the stage, selected or moving, and the page that asked
    for it. Every page may give it up, and it is given up where that page goes. A page that isn't
    there, since its events have ended, selects and operates nothing."""

    def __init__(self, watcher) -> None:
        self.watcher, self.control, self.end, self.refusal = watcher, None, 0, ''
        self.pages: collections.Counter[str] = collections.Counter()
        self.pages_lock = threading.Lock()
        watcher.on_said.append(self.on_report)
        watcher.on_read.append(self.read)

    def act(self, verb: str, switch: str, way: str, page: str = '',
            late: Callable[[], str] = in_time) -> dict:
        """Select, operate or cancel: what became of it. `late` tells why it is not to be done any
        more, and is asked behind all that may wait."""
        acts = {'select': self.select, 'operate': self.operate, 'cancel': self.cancel}
        known = {it['id'] for it in self.watcher.file['switch']}
        if verb not in acts or switch not in known or way not in WAYS:
            return answer(False, 'there is no such control')
        with self.watcher.lock:
            if self.watcher.client is None:
                return answer(False, 'there is no connection to the server')
            if self.watcher.state['barred']:
                return answer(False, self.watcher.state['barred'])
            self.refusal = ''
            try:
                found = acts[verb](switch, way, page, late)
            except Refused as error:
                self.set(None)
                found = answer(False, str(error))
            except (Failed, OSError) as error:
                self.watcher.lose(error)
                return answer(False, f'the connection is lost: {error}')
            self.watcher.event(found['told'], 'control' if found['good'] else 'refused')
        self.watcher.publish()
        return found

    def set(self, control, stage='', way='', page='') -> None:
        self.control = control
        self.watcher.state['control'] = control and {'switch': control.name, 'way': way,
                                                     'stage': stage, 'page': page}

    def page_comes(self, page: str) -> None:
        """The events of a page begin."""
        with self.pages_lock:
            self.pages[page] += 1

    def page_gone(self, page: str) -> None:
        """The events of a page have ended: what it has selected is given up."""
        with self.pages_lock:
            self.pages[page] -= 1
            self.pages = +self.pages
        self.give_up(page)

    def give_up(self, page: str) -> None:
        """Gives up what a page has selected."""
        with self.watcher.lock:
            state = self.watcher.state['control']
            if state and state['stage'] == 'selected' and state['page'] == page:
                self.act('cancel', state['switch'], state['way'])

    def finish(self, is_good, told) -> None:
        """A control has ended."""
        self.set(None)
        last = self.watcher.state.get('last') or {'number': 0}
        self.watcher.state['last'] = {**answer(is_good, told), 'number': last['number'] + 1}
        self.watcher.event(told, 'control' if is_good else 'refused')

    def outcome(self, outcome) -> dict:
        """The words of an outcome; of a refusal with a cause those of its report."""
        return answer(outcome.is_good, outcome.words or self.refusal or 'refused')

    def missed(self, page: str, late: Callable[[], str]) -> str:
        """Why what a page asks is not to be done at this moment, or nothing."""
        return late() or ('' if self.pages[page] else 'its page is gone')

    def select(self, switch, way, page, late) -> dict:
        state = self.watcher.state['control']
        if state:
            return answer(False, f'{state["switch"]} is {state["stage"]} by this panel')
        tls = self.watcher.tls
        control = Control(self.watcher.client, switch, tls.identity() if tls else 'panel')
        if control.model == STATUS_ONLY:
            return answer(False, f'{switch} is not controlled: {words.CONTROL_MODELS[0]}')
        why = self.missed(page, late)
        if why:
            return answer(False, f'select {switch} {way} is not done: {why}')
        self.end = time.monotonic() + CONFIRMING
        found = answer(True, f'{switch} needs no select')
        if control.is_selected_first():
            found = self.outcome(control.select(WAYS[way]))
        if found['good']:
            self.set(control, 'selected', way, page)
            why = self.missed(page, late)
        return self.ended_early('select', switch, way, why) if why else found

    def operate(self, switch, way, page, late) -> dict:
        state = self.watcher.state['control']
        if state != {'switch': switch, 'way': way, 'stage': 'selected', 'page': page}:
            return answer(False, f'{switch} is not selected by this page')
        control = self.control
        control.position_bits()  # a server that makes others wait does so here, before the judgment
        why = self.missed(page, late)
        if why:
            return self.ended_early('operate', switch, way, why)
        found = self.outcome(control.operate(WAYS[way]))
        if not found['good']:
            self.set(None)
            there = control.state(WAYS[way])
            return answer(False, f'{found["told"]}. {there}' if there else found['told'])
        entry = next(it for it in self.watcher.file['switch'] if it['id'] == switch)
        self.end = time.monotonic() + entry.get('travel_ms', 0) / 1000 + MARGIN
        self.set(control, 'moving', way, page)
        return answer(True, f'operate {switch} {way}: the command is given')

    def ended_early(self, verb: str, switch: str, way: str, why: str) -> dict:
        """What is not to be done any more: its selection is given up."""
        self.cancel(switch, way)
        return answer(False, f'{verb} {switch} {way} is not done: {why}')

    def cancel(self, switch, way, page='', late=in_time) -> dict:
        """Gives up what any page has selected. It is never too late for that."""
        state = self.watcher.state['control']
        if not state or state['switch'] != switch or state['stage'] != 'selected':
            return answer(False, f'{switch} is not selected by this panel')
        control, way = self.control, state['way']
        self.set(None)
        if not control.is_selected_first():
            return answer(True, f'operate {switch} {way}: given up')
        return self.outcome(control.cancel(WAYS[way]))

    def on_report(self, said) -> None:
        """A report of the server, or None where the connection is lost."""
        if said is None:
            self.control = None
        elif said.kind == 'refused':
            self.refusal = '; '.join(said.lines)
        elif said.kind == 'ended' and self.control and said.switch == self.control.name:
            self.finish(said.good, '; '.join(said.lines))

    def read(self, found) -> None:
        """Looks whether a control has ended that the server tells no end of, and whether a
        selection ran out."""
        state = self.watcher.state['control']
        if not state:
            return
        switch = next(it for it in found if it['id'] == state['switch'])
        told, is_late = f'operate {state["switch"]} {state["way"]}', time.monotonic() > self.end
        if state['stage'] == 'selected':
            if self.control.is_selected_first() and not switch['selected']:
                self.finish(False, f'{told}: the selection has run out')
            elif is_late and not self.control.is_selected_first():
                self.finish(False, f'{told}: it was not confirmed within {CONFIRMING:g} s')
        elif switch['position'] == ENDS[state['way']] and (
                is_late or not self.control.has_termination()):
            self.finish(True, f'{told} has ended: done')
        elif is_late:
            self.finish(False, f'{told}: it is {switch["position"]}, and its time is over')
