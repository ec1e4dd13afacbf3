"""The commands with which the README of each example begins: those that need Python alone print
what the page shows."""
import pathlib
import re
import shlex
import unittest

from baytools.common.paths import TOP
from tests.tool import Tools

EXAMPLES = TOP / 'examples'
LEFT_OUT = '...'
ALONE = ('tools/explain', 'tools/rules', 'tools/modbus')  # what needs no bayctl, as it is called


def read_commands(page: pathlib.Path) -> list[tuple[str, str]]:
    """The commands of a page's first block, each with what is shown of its output."""
    block = page.read_text(encoding='utf-8').split('\n\n')[1]
    text = re.sub(r'(?m)^    ', '', block).replace('\\\n', ' ')
    parts = (part.partition('\n') for part in re.split(r'(?m)^\$ ', text)[1:])
    return [(command, output) for command, _, output in parts]


def pieces(output: str) -> list[str]:
    """What must be printed one after the other: the pieces between what is left out, with single
    blanks, since a page wraps long lines."""
    return [' '.join(it.split()) for it in re.split(r'(?m)^\.\.\.$', output) if it.strip()]


class Begins(Tools):
    def test_what_is_shown_is_printed(self):
        count = 0
        for page in sorted(EXAMPLES.glob('*/README.md')):
            for command, output in read_commands(page):
                tool, *words = shlex.split(command)
                if tool not in ALONE:
                    continue
                words = [EXAMPLES.parent / it if it.startswith('examples/') else it
                         for it in words]
                found = self.call_tool(tool.partition('/')[2], *words)
                self.assertEqual(found.status, 0, command)
                printed, at = ' '.join((found.out + found.error).split()), 0
                for piece in pieces(output):
                    at = printed.find(piece, at)
                    self.assertGreaterEqual(at, 0, f'{page}: not printed: {piece}')
                count += 1
        self.assertGreaterEqual(count, 8)


if __name__ == '__main__':
    unittest.main()
