"""The wrong bodies of what is only tested: each can be applied, what is to refuse it is there, and
the page of promises names it; and how a refusal is known."""
import pathlib
import unittest
from unittest import mock

from baytools.common.paths import TOP
from devtools import tested
from devtools.crate_copy import texts_after_edit
from devtools.paths import CRATES
from tests.tool import Tools

PROVED = ' '.join((TOP / 'docs' / 'PROVED.md').read_text(encoding='utf-8').split())


class Listed(unittest.TestCase):
    def test_each_can_be_applied(self) -> None:
        for body in tested.bodies():
            with self.subTest(body.key):
                crate = CRATES / body.crate
                for name, text in texts_after_edit(crate, body.text).items():
                    self.assertNotEqual(text, (crate / name).read_text(encoding='utf-8'))

    def test_what_refuses_each_is_there(self) -> None:
        for body in tested.bodies():
            with self.subTest(body.key):
                if body.kind == 'check':
                    self.assertTrue(callable(tested.part_of(body.part)))
                    self.assertIn(body.name, tested.names_in(body.part.partition('.')[0]))
                elif body.kind == 'trial':
                    self.assertIn(body.name, tested.names_in(body.part))
                else:
                    self.assertTrue((CRATES / body.part / 'stdin').exists())

    def test_the_page_names_what_refuses_each(self) -> None:
        for body in tested.bodies():
            with self.subTest(body.key):
                self.assertIn(body.name or body.part, PROVED)


class Refused(Tools):
    """What counts as refused."""

    def body(self, by: str) -> tested.Body:
        path = self.folder / 'low' / tested.FOLDER / 'a.edit'
        path.parent.mkdir(parents=True, exist_ok=True)
        path.write_text(f'by: {by}\nfile: src/lib.rt\nold: a\nnew: b\n')
        return tested.body_at(path)

    def test_a_line_by(self) -> None:
        body = self.body('check serving.eight: a name, and more')
        self.assertEqual((body.key, body.kind, body.part, body.name),
                         ('low/a', 'check', 'serving.eight', 'a name, and more'))
        self.assertEqual(body.by, 'check serving.eight: a name, and more')
        with self.assertRaises(ValueError):
            self.body('nobody')

    def test_a_check(self) -> None:
        body, program = self.body('check serving.eight: no client is served'), self.folder / 'low-a'
        program.touch()

        def part(checks) -> None:
            checks.holds('no client is served', False, 'why')

        def other(checks) -> None:
            checks.holds('another name', False, 'no client is served')

        for made, is_refused in ((part, True), (other, False), (lambda checks: None, False)):
            room = pathlib.Path(self.folder / made.__name__.strip('<>'))
            room.mkdir()
            with mock.patch.object(tested, 'part_of', lambda name, it=made: it):
                why = tested.why_not_refused(body, room, self.folder)
            self.assertEqual(why is None, is_refused, why)

    def test_one_that_is_not_proved_any_more(self) -> None:
        body = self.body('check serving.eight: no client is served')
        rt = self.file('rt', '#!/bin/sh\necho logic=not-proved\nexit 1\n')
        rt.chmod(0o755)
        (self.folder / 'room' / 'crates' / 'bayctl').mkdir(parents=True)
        with mock.patch.object(tested, 'put_in'), \
                mock.patch.dict('os.environ', PATH=f'{self.folder}:/usr/bin:/bin'):
            self.assertEqual(tested.why_not_refused(body, self.folder / 'room'),
                             'it is not proved, so it belongs into wrong-bodies: logic=not-proved')

    def test_cases(self) -> None:
        for answer, is_refused in (('not so: run 0\n13 differ', True), ('0 differ', False),
                                   ('error: it does not compile', False)):
            with mock.patch.object(tested, 'output_of_cases', lambda *words, it=answer: it):
                why = tested.why_not_refused(self.body('cases bayctl_cases'), self.folder)
            self.assertEqual(why is None, is_refused, answer)


if __name__ == '__main__':
    unittest.main()
