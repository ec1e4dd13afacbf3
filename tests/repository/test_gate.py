"""The gate's closing line and status, with other programs in the place of those that it runs."""
import os
import pathlib
import shutil
import subprocess
import tempfile
import unittest

from baytools.common.paths import TOP

GATE = TOP / '.ci' / 'run'
PARTS = ('examples/check', 'bench/trials/faults', 'bench/speed/allocations')


class Gate(unittest.TestCase):
    def run_with(self, printed: dict[str, tuple[int, str]],
                 body: str = 'pass') -> tuple[int, list[str]]:
        """The status and the lines of a gate each of whose programs ends with a status and prints
        some lines, and whose only test of the tools has this body."""
        with tempfile.TemporaryDirectory() as folder:
            top = pathlib.Path(folder)
            silent = {'dev/figures': (0, ''), 'dev/memory_check': (0, '')}
            for name, (status, lines) in {**silent, **printed}.items():
                path = top / name
                path.parent.mkdir(parents=True, exist_ok=True)
                path.write_text(f'#!/bin/sh\nprintf "{lines}"\nexit {status}\n')
                path.chmod(0o755)
            shutil.copy(GATE, top / 'run')
            (top / 'tests').mkdir()
            (top / 'tests' / '__init__.py').touch()
            (top / 'tests' / 'test_one.py').write_text(
                f'import unittest\nclass One(unittest.TestCase):\n    def test(self): {body}\n')
            done = subprocess.run([top / 'run'], cwd=top, capture_output=True, text=True,
                                  env={**os.environ, 'PATH': f'{top}:{os.environ["PATH"]}'})
            return done.returncode, done.stdout.splitlines()

    def test_all_pass(self) -> None:
        parts = {part: (0, r'one: 2 checks, 0 failed\n') for part in PARTS}
        status, lines = self.run_with({'rt': (0, r'ok\n40 passed, 0 failed\n'), **parts})
        self.assertEqual((status, lines[-1]), (0, '46 passed, 0 failed'))

    def test_a_proof_fails(self) -> None:
        status, lines = self.run_with({'rt': (1, r'FAILED: x\n39 passed, 1 failed\n')})
        self.assertEqual((status, lines[-1]), (1, '39 passed, 1 failed'))

    def test_want_of_memory_is_made(self) -> None:
        status, lines = self.run_with({'dev/memory_check': (1, r'x:1: makes\n')})
        self.assertEqual((status, lines[-1]), (1, '0 passed, 1 failed'))

    def test_a_check_fails(self) -> None:
        parts = {part: (0, r'one: 2 checks, 0 failed\n') for part in PARTS}
        parts['examples/check'] = 1, r'examples: 3 checks, 0 failed\ntools: 5 checks, 2 failed\n'
        status, lines = self.run_with({'rt': (0, r'40 passed, 0 failed\n'), **parts})
        self.assertEqual((status, lines[-1]), (1, '46 passed, 2 failed'))

    def test_what_was_not_tried_is_counted(self) -> None:
        parts = {part: (0, r'one: 2 checks, 0 failed\n') for part in PARTS}
        parts['examples/check'] = 0, r'tools: 5 checks, 0 failed, 3 not tried\n'
        status, lines = self.run_with({'rt': (0, r'40 passed, 0 failed\n'), **parts})
        self.assertEqual((status, lines[-1]), (0, '49 passed, 0 failed, 3 not tried'))

    def test_a_test_that_is_skipped_is_counted(self) -> None:
        parts = {part: (0, r'one: 2 checks, 0 failed, 1 not tried\n') for part in PARTS}
        status, lines = self.run_with({'rt': (0, r'40 passed, 0 failed\n'), **parts},
                                      'self.skipTest("it needs a package")')
        self.assertEqual((status, lines[-1]), (0, '46 passed, 0 failed, 4 not tried'))

    def test_a_test_of_the_tools_fails(self) -> None:
        status, lines = self.run_with({'rt': (0, r'40 passed, 0 failed\n')}, 'self.fail()')
        self.assertEqual((status, lines[-1]), (1, '0 passed, 1 failed'))

    def test_what_tells_no_counts(self) -> None:
        status, lines = self.run_with({'rt': (2, '')})
        self.assertEqual((status, lines[-1]), (2, '0 passed, 1 failed'))


if __name__ == '__main__':
    unittest.main()
