"""What tools/audit shows while bayctl proves."""
import io
import sys
import time
import unittest
from unittest import mock

from baytools.audit import progress
from tests.tool import Tools


class Terminal(io.StringIO):
    def isatty(self) -> bool:
        return True


class Waiting(Tools):
    def show(self, stream: io.StringIO, seconds: float, *lines: bytes) -> str:
        with mock.patch.multiple(progress, FIRST=0.05, EVERY=0.02), \
                mock.patch.multiple(sys, stderr=stream, __stderr__=stream):
            with progress.show_progress('bayctl audit', progress.Progress(3, 2)) as each:
                for line in lines:
                    each(line)
                time.sleep(seconds)
        return stream.getvalue()

    def test_on_a_terminal(self):
        found = self.show(Terminal(), 0.5)
        self.assertTrue(found.startswith('\rbayctl audit: 0 of 3 rules, 0 s\x1b[K'), found)
        self.assertGreater(found.count('\r'), 2)
        self.assertTrue(found.endswith('\r\x1b[K'))

    def test_how_far_it_is(self):
        rules = [b'instructions=1 depth=1 budget=1\n', *[b'rule 1 QA1 open holds cases=1\n'] * 2]
        self.assertIn('\rbayctl audit: 2 of 3 rules, ', self.show(Terminal(), 0.2, *rules))
        more = [*rules, b'rule 2 QA1 open many\n', b'release QA1 open cases=1\n', b'released\n']
        self.assertIn('\rbayctl audit: 1 of 2 releases, ', self.show(Terminal(), 0.2, *more))

    def test_what_is_soon_over_shows_nothing(self):
        self.assertEqual(self.show(Terminal(), 0), '')

    def test_nowhere_else(self):
        self.assertEqual(self.show(io.StringIO(), 0.3), '')

    def test_what_fails_within_it_is_handed_on(self):
        with self.assertRaises(ZeroDivisionError):
            with mock.patch.object(sys, 'stderr', Terminal()), \
                    progress.show_progress('x', progress.Progress(1, 2)):
                1 / 0


if __name__ == '__main__':
    unittest.main()
