"""What the servers of several bays tell, gathered for one page."""
import json
import operator
import threading
import time
from dataclasses import dataclass
from typing import Any

from baytools.panel.broadcast import Publisher
from baytools.panel.lost_process import process_text
from baytools.panel.watch import PARTING, Watcher, now

from .bays import Listed
from .journal import Follower

HOST = '127.0.0.1'
EVERY = 0.5  # seconds between two reads of a bay
BEAT, APART = 1.0, 0.05  # seconds between two states at most, and at least
MOVES = 4  # movements that are shown of a bay
NOTHING = {'connected': False, 'barred': False, 'switches': [], 'process': '', 'moves': []}


class BayWatcher(Watcher):
    """Reads one bay. `shown` is what the page shows of it, `read_at` the moment at which its server
    last answered, in milliseconds since 1970, or 0."""
    every = EVERY

    def __init__(self, bay: Listed, changed: threading.Event) -> None:
        super().__init__(bay.file, bay.text, HOST, bay.port)
        self.changed, self.read_at, self.is_read = changed, 0, False
        self.shown = self.row()

    def note_connection(self, found: list[str]) -> None:
        super().note_connection(found)
        self.read_at, self.is_read = now(), False

    def read_once(self) -> bool:
        is_new, is_first = super().read_once(), not self.is_read
        self.read_at, self.is_read = now(), True
        return is_new or is_first

    def publish(self) -> None:
        """Hands on what is shown; no other bay waits for it."""
        with self.lock:
            self.shown = self.row()
        self.changed.set()

    def row(self) -> dict[str, Any]:
        """What the page shows. Of a server that doesn't answer no position is shown."""
        is_there = self.state['connected']
        switches = self.state['switches'] if is_there and self.is_read else []
        moves = sorted((it for it in self.events if it['kind'] == 'position'),
                       key=operator.itemgetter('moment'))
        return {'connected': is_there, 'told': self.state['told'], 'barred': bool(self.differs),
                'switches': switches,
                'process': process_text(switches, self.state['measures'] if switches else []),
                'moves': [{'time': it['time'], 'told': it['told']} for it in moves[-MOVES:]]}


@dataclass
class Shown:
    """A bay with those who follow it, as far as there are any."""
    bay: Listed
    watcher: BayWatcher | None
    follower: Follower | None

    def state(self) -> dict[str, Any]:
        """What the page shows of it."""
        found = {'name': self.bay.name, 'port': self.bay.port, 'device': '', 'read': 0,
                 'journal': self.follower.state() if self.follower else None}
        if not self.watcher:
            return found | NOTHING | {'told': self.bay.trouble}
        plate = self.bay.file['bay']
        device = ' '.join(str(plate.get(key, '')) for key in ('vendor', 'model', 'revision'))
        return found | {'device': device, 'read': self.watcher.read_at} | self.watcher.shown

    def following(self) -> list[BayWatcher | Follower]:
        return [one for one in (self.watcher, self.follower) if one]


class Station(Publisher):
    """All bays of the page. Each has a thread of its own that reads it, so none waits for one that
    does not answer. `journal` is the program that reads the journal, or empty."""

    def __init__(self, bays: list[Listed], journal: str = '') -> None:
        super().__init__()
        self.changed = threading.Event()
        self.bays = [Shown(bay, None if bay.trouble else BayWatcher(bay, self.changed),
                           Follower(journal, bay.name, self.changed) if journal else None)
                     for bay in bays]

    def state_json(self) -> str:
        return json.dumps({'now': now(), 'bays': [bay.state() for bay in self.bays]})

    def following(self) -> list[BayWatcher | Follower]:
        return [one for bay in self.bays for one in bay.following()]

    def run(self) -> None:
        """Reads all bays, and tells at least each second what there is."""
        threads = [threading.Thread(target=one.run, daemon=True) for one in self.following()]
        for one in threads:
            one.start()
        while not self.is_over.is_set():
            self.changed.wait(BEAT)
            self.changed.clear()
            self.publish()
            self.is_over.wait(APART)
        end = time.monotonic() + PARTING
        for one in threads:
            one.join(max(end - time.monotonic(), 0))

    def stop(self) -> None:
        super().stop()
        for one in self.following():
            one.stop()
        self.changed.set()
