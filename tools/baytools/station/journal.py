"""What the journal of a bay's service tells, and no client can read: commands and refused operates,
the process, and the links of clients."""
import collections
import subprocess
import threading
from typing import Any

from baytools.log import server_lines as lines
from baytools.log.entries import Entry
from baytools.log.server_lines import Event, event_of
from baytools.panel.watch import time_text

UNIT, LINES = 'bayctl@{}.service', 20_000  # a bay's service; lines that are read of its past
AGAIN, KEPT = 5.0, 4  # seconds until the journal is asked again; commands that are shown


class Journal:
    """What the lines of a server come to: with `--log` all of it, else commands and the process."""

    def __init__(self) -> None:
        self.commands: collections.deque[dict[str, Any]] = collections.deque(maxlen=KEPT)
        self.links: dict[int, str] = {}
        self.process, self.is_logged, self.moment = '', False, 0

    def add_line(self, line: str) -> None:
        """The next line that a server printed or logged."""
        event = event_of(Entry(line.rstrip('\r\n')), self.moment)
        if event is None:
            return
        self.moment = event.moment
        match event.kind:
            case lines.LOADED | lines.BEGUN:
                self.links, self.process = {}, ''
                self.is_logged |= event.kind == lines.BEGUN
            case lines.COMMAND:
                self.notes(event, 'commanded', True)
            case lines.CONTROL if event.verb == lines.OPERATE and not event.is_good():
                self.notes(event, f'refused, {event.words} ({event.code})', False)
            case lines.DONE if event.words != lines.REACHED:
                self.notes(event, event.words, False)
            case lines.CONNECTED:
                self.process = f'process connected since {time_text(event.moment)}'
            case lines.PARTED:
                why = f': {event.words}' if event.words else ''
                told = time_text(event.moment)
                self.process = f'process gone since {told} ({event.code}{why})'
            case lines.OPEN if event.association is not None:
                self.links[event.association] = event.address
            case lines.CLOSED if event.association is not None:
                self.links.pop(event.association, None)

    def notes(self, event: Event, told: str, is_good: bool) -> None:
        way = f' {event.way}' if event.way else ''
        self.commands.append({'time': time_text(event.moment), 'good': is_good,
                              'told': f'{event.switch}{way}: {told}'})

    def state(self) -> dict[str, Any]:
        return {'commands': list(self.commands), 'process': self.process,
                'links': sorted(self.links.items()) if self.is_logged else None}


class Follower:
    """Follows the journal of a bay's service by `journalctl`, from before this start of the machine
    on: with --follow it reads those lines too only with --merge."""

    def __init__(self, program: str, name: str, changed: threading.Event) -> None:
        self.words = [program, f'--unit={UNIT.format(name)}', '--output=cat', '--no-pager',
                      '--merge', f'--lines={LINES}', '--follow']
        self.changed, self.is_over = changed, threading.Event()
        self.lock, self.journal, self.trouble = threading.Lock(), Journal(), ''
        self.reading: subprocess.Popen[str] | None = None

    def run(self) -> None:
        """Reads the journal until it is over, and again where that ends."""
        while not self.is_over.is_set():
            try:
                self.fails(self.follow() or 'it ended')
            except OSError as error:
                self.fails(error.strerror or str(error))
            self.is_over.wait(AGAIN)

    def follow(self) -> str:
        """Reads from the past lines on, until the program ends; what it complained of."""
        with subprocess.Popen(self.words, stdin=subprocess.DEVNULL, stdout=subprocess.PIPE,
                              stderr=subprocess.PIPE, text=True, errors='replace') as reading:
            self.reading = reading
            with self.lock:
                self.journal = Journal()
            if self.is_over.is_set():
                reading.terminate()
            for line in reading.stdout or ():
                with self.lock:
                    self.trouble = ''
                    self.journal.add_line(line)
                self.changed.set()
            complaints = reading.stderr.read().splitlines() if reading.stderr else []
            return complaints[-1] if complaints else ''

    def fails(self, why: str) -> None:
        with self.lock:
            self.trouble = f'the journal can\'t be read: {self.words[0]}: {why}'
        self.changed.set()

    def state(self) -> dict[str, Any]:
        """What the page shows."""
        with self.lock:
            return self.journal.state() | {'trouble': self.trouble}

    def stop(self) -> None:
        self.is_over.set()
        if self.reading:
            self.reading.terminate()
