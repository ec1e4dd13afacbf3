"""Wrong bodies of different functions are tried in one check."""
import unittest

from devtools import together
from tests.tool import Tools

CODE = '''// Returns one.
pub fn one() -> u8
    ensures { result ≡ 1 }
{
    1
}

impl Pair {
    /// Returns the first.
    pub fn first(&self) -> u8
        ensures { result ≡ self.now.first }
    {
        self.first
    }

    // Promises nothing.
    fn second(&self) -> u8 {
        self.second
    }
}

impl Drop for Pair {
    fn drop(&mut self)
        ensures { true ≡ true }
    {
        *self = none();
    }
}
'''
EDIT = 'file: src/pair.rt\nold: {}\nnew: {}\n'
REFUSED = ('note: src/pair.rt:13:9: it is not proved (`returns`)\n'
           'fn low::pair::Pair::first: no proof: expected answers\n'
           'fn low::pair::one: {}\nonly=2 proved={}\n')


class Together(Tools):
    def setUp(self) -> None:
        super().setUp()
        (self.folder / 'src').mkdir()
        (self.folder / 'src' / 'pair.rt').write_text(CODE)

    def tried(self, name: str, old: str, new: str = 'x') -> together.Tried:
        """An edit with this name."""
        text = EDIT.format(old, new)
        return together.Tried(name, text, together.changed_by(self.folder, text))

    def test_the_functions_of_a_file(self) -> None:
        self.assertEqual([(it.name, it.first) for it in together.functions_of('src/pair.rt', CODE)],
                         [('pair::one', 2), ('Pair::first', 10), ('Pair::second', 17),
                          ('', 23)])

    def test_what_an_edit_changes(self) -> None:
        for old, names in (('    1', ['pair::one']), ('        self.first', ['Pair::first']),
                           ('*self = none();', []), ('ensures { result ≡ 1 }', []),
                           ('self.second', []), ('not there', [])):
            with self.subTest(old):
                self.assertEqual([it.name for it in self.tried('low/a', old).functions], names)

    def test_groups(self) -> None:
        edits = [self.tried('low/a', '    1'), self.tried('low/b', '        self.first'),
                 self.tried('low/c', '    1'), self.tried('low/d', 'self.second')]
        self.assertEqual([[it.name for it in group] for group in together.groups(edits)],
                         [['low/a', 'low/b'], ['low/c'], ['low/d']])

    def answers(self, *printed: str) -> dict[str, str | None]:
        """What is said of two edits, if the checks print this."""
        left = iter(printed)
        edits = [self.tried('low/a', '    1', '    2'),
                 self.tried('low/b', '        self.first', '        0')]
        found = together.try_group(self.folder, edits, lambda names: next(left))
        self.assertEqual((self.folder / 'src' / 'pair.rt').read_text(), CODE)
        self.assertEqual(list(left), [])
        return found

    def test_one_is_refused_and_one_is_proved(self) -> None:
        self.assertEqual(self.answers(REFUSED.format('proved', 1)), {
            'low/a': None, 'low/b': 'src/pair.rt:13:9: it is not proved (`returns`)'})

    def test_one_that_calls_a_refused_one_is_tried_alone(self) -> None:
        for before in ('no proof: it calls', 'not proved; it calls'):
            calls = f'{before} `low::pair::Pair::first`, which is not proved'
            with self.subTest(before):
                alone = 'fn low::pair::one: proved\nonly=1 proved=1\n'
                self.assertIsNone(self.answers(REFUSED.format(calls, 0), alone)['low/a'])

    def test_edits_that_do_not_compile_together_are_tried_alone(self) -> None:
        error = 'src/pair.rt:5:5: error: no such thing\n'
        self.assertEqual(
            self.answers(error, error, REFUSED.format('proved', 1)),
            {'low/a': together.BAD + error.strip(),
             'low/b': 'src/pair.rt:13:9: it is not proved (`returns`)'})

    def test_advice_is_no_goal(self) -> None:
        whole = together.Tried('low/a', EDIT.format('second', 'x'), ())
        printed = ('proofs/A.antt:3:1: note: large solution\nsrc/pair.rt:4:1: warning: unused\n'
                   './proofs/B.antt:5:6: error: two types differ\n')
        self.assertEqual(together.answer_to(whole, printed),
                         'proofs/B.antt:5:6: error: two types differ')

    def test_what_is_printed(self) -> None:
        self.assertEqual([together.line_of('low/a', it) for it in ('x', None, 'BAD EDIT: x')], [
            'must-fail low/a.edit: refused, as it must be: x',
            'must-fail low/a.edit: NOT REFUSED: the crate is still proved',
            'must-fail low/a.edit: BAD EDIT: x'])


if __name__ == '__main__':
    unittest.main()
