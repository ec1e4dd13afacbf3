"""Lines that are typed at a tool which does other things meanwhile."""
import os
import sys


class Keyboard:
    """Lines that are typed, or come through a pipe several at once."""

    def __init__(self) -> None:
        self.rest = b''

    def lines(self) -> list[str] | None:
        """The lines that have come whole, or None at the end."""
        piece = os.read(sys.stdin.fileno(), 4096)
        if not piece:
            return None
        *whole, self.rest = (self.rest + piece).split(b'\n')
        return [line.decode('utf-8', 'replace') for line in whole]
