"""The committed pictures are those that the tools draw today."""
import pathlib
import unittest

from baytools.common.paths import TOP
from tests.tool import Tools


class Pictures(Tools):
    def draw(self, picture: pathlib.Path) -> str:
        """What the tools draw of an example."""
        folder, out = picture.parent, self.folder / 'drawn.svg'
        if picture.name == 'timeline.svg':
            found = self.call_tool('timeline', folder, '--printed', folder / 'expected', '--out',
                                   out)
        else:
            self.assertEqual(picture.name, 'diagram.svg', f'{picture}: which tool draws it?')
            found = self.call_tool('rules', folder / 'bay.toml', folder / 'diagram.toml', '--draw',
                                   out)
        self.assertEqual(found.status, 0, picture)
        return out.read_text(encoding='utf-8')

    def test_each_is_drawn_anew(self):
        pictures = sorted(TOP.glob('examples/**/*.svg'))
        self.assertGreaterEqual(len(pictures), 9)
        for picture in pictures:
            self.assertTrue(self.draw(picture) == picture.read_text(encoding='utf-8'),
                            f'{picture.relative_to(TOP)} is drawn otherwise today: draw it anew')


if __name__ == '__main__':
    unittest.main()
