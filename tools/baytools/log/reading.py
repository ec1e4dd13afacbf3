"""Reads logs: files or standard input, each line by whom it is of, in the order of their times."""
import hashlib
import io
import pathlib
import sys
from collections.abc import Iterator
from dataclasses import dataclass, field, replace
from typing import Any, BinaryIO

from baytools.common.ending import Failed
from baytools.common.page_head import Source

from .entries import Entry, entries_of
from .links import Joining, Story
from .server_lines import DIAGRAM, LOADED, RULES, Event, event_of, without_duplicates
from .stunnel_lines import Door


@dataclass
class Read:
    """What was read: the events of bayctl, the connections of stunnel, the lines of programs that
    are shown as they are, how many lines are of others, and the files with their sums."""
    events: list[Event] = field(default_factory=list)
    door: Door = field(default_factory=Door)
    also: list[Entry] = field(default_factory=list)
    others: int = 0
    files: list[Source] = field(default_factory=list)

    def story(self) -> Story:
        """What all of it tells."""
        joining = Joining(self.door.connections)
        for event in sorted(without_duplicates(self.events), key=lambda it: it.moment):
            joining.takes(event)
        return joining.story


class Summing(io.RawIOBase):
    """A file whose octets are counted and summed while they are read."""

    def __init__(self, file: BinaryIO) -> None:
        self.file, self.size, self.sum = file, 0, hashlib.sha256()

    def readable(self) -> bool:
        return True

    def readinto(self, room: Any) -> int:
        octets = self.file.read(len(room))
        room[:len(octets)] = octets
        self.size += len(octets)
        self.sum.update(octets)
        return len(octets)

    def lines(self) -> Iterator[str]:
        """Its lines as text."""
        yield from io.TextIOWrapper(io.BufferedReader(self), 'utf-8', 'backslashreplace')

    def source(self, path: str) -> Source:
        """What was read of it so far."""
        name = 'standard input' if path == '-' else pathlib.Path(path).name
        return Source('Log', name, self.size, self.sum.hexdigest())


def read(paths: list[str], also: list[str]) -> Read:
    """Reads all files, or standard input for -."""
    found = Read()
    for path in paths:
        file = sys.stdin.buffer if path == '-' else open(path, 'rb')
        summing = Summing(file)
        try:
            take(found, entries_of(summing.lines()), set(also))
        finally:
            if path != '-':
                file.close()
        found.files.append(summing.source(path))
    if not found.events and not found.door.connections and not found.also:
        raise Failed(f'{" ".join(paths)}: no line of bayctl or stunnel')
    return found


def take(found: Read, entries: Iterator[Entry], also: set[str]) -> None:
    """Takes the lines of one file. A line without a moment has that of the line before; what is
    printed of a load, and of rules and a diagram that hold, that of the line behind."""
    before: int = 0
    waiting: list[Event] = []
    for entry in entries:
        if found.door.takes(entry):
            continue
        event = event_of(entry, before)
        if event is None:
            take_other(found, entry, also)
        elif event.kind in (LOADED, RULES, DIAGRAM) and entry.moment is None:
            waiting.append(event)
        else:
            before = event.moment
            found.events += [replace(it, moment=before) for it in waiting] + [event]
            waiting = []
    found.events += waiting


def take_other(found: Read, entry: Entry, also: set[str]) -> None:
    if entry.program() in also and entry.moment is not None:
        found.also.append(entry)
    else:
        found.others += 1
