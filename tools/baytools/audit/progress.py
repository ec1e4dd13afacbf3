"""Shows how far bayctl is with an audit, on a terminal alone. bayctl prints each answer when it has
it: those of the rules, then the releases, and then what it finds of a diagram."""
import contextlib
import sys
import threading
import time
from collections.abc import Callable, Iterator

from baytools.common.texts import quantity

FIRST, EVERY = 1.0, 0.5  # seconds until something is shown, and between two times


class Progress:
    """How many rules and releases bayctl has answered, and how many releases it has judged by a
    diagram, of how many."""

    def __init__(self, rules: int, releases: int, judged: int = 0) -> None:
        self.all = {'rule': rules, 'release': releases, 'diagram': judged}
        self.done = dict.fromkeys(self.all, 0)

    def take(self, line: bytes) -> None:
        """Counts a line that bayctl printed."""
        word = line.split(b' ', 1)[0].decode('ascii', 'replace')
        if word in self.done:
            self.done[word] += 1

    def text(self) -> str:
        """How far it is, in words."""
        left = [what for what in self.all if self.done[what] < self.all[what]]
        what = left[0] if left else 'diagram' if self.all['diagram'] else 'release'
        if what == 'diagram':
            return f'{self.done[what]} of {quantity(self.all[what], "release")} in the diagram'
        return f'{self.done[what]} of {quantity(self.all[what], what)}'


@contextlib.contextmanager
def show_progress(what: str, progress: Progress) -> Iterator[Callable[[bytes], None]]:
    """Shows how far what is done within it is, and for how long it has been at it, where someone
    sees it and it takes longer than a second; takes it away behind. Hands out what takes the lines
    of bayctl."""
    if not sys.stderr.isatty():
        yield progress.take
        return
    is_over, since = threading.Event(), time.monotonic()

    def show() -> None:
        wait = FIRST
        while not is_over.wait(wait):
            wait = EVERY
            put(f'\r{what}: {progress.text()}, {time.monotonic() - since:.0f} s\x1b[K')
        if wait == EVERY:
            put('\r\x1b[K')

    thread = threading.Thread(target=show, daemon=True)
    thread.start()
    try:
        yield progress.take
    finally:
        is_over.set()
        thread.join()


def put(text: str) -> None:
    """Writes to standard error as it is, where that can be written."""
    with contextlib.suppress(OSError, ValueError):
        sys.__stderr__.write(text)
        sys.__stderr__.flush()
