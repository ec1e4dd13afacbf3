"""The changes of definitions that `dev/wrong_definitions` tries, and how it reads and keeps what
the prover says of them."""
import itertools
import os
import threading
import unittest
from unittest import mock

from devtools.crate_copy import KEPT, LIBRARY, copy_of
from devtools.paths import CRATES, DATA
from devtools.trace.calls import calls_of
from devtools.trace.definitions import Definition, definitions_in
from devtools.trace.inner import all_below
from devtools.wrong_definitions.anchors import read_table, keep, merge_tables, row
from devtools.wrong_definitions.changes import (PRELUDE, Change, Changer, changes_of, lines_of,
                                                text_of)
from devtools.wrong_definitions.headline import (citing, definitions_changed,
                                                 definitions_of_headline)
from devtools.wrong_definitions.laws import Room, answer_of, laws_on
from devtools.wrong_definitions.trying import (BROKEN, PROVES, UNKNOWN, UNREAD, Answer, answer_in,
                                               answers_of, title_of)
from devtools.wrong_definitions.written import types_of, without_fact
from tests.tool import Tools

DECISIONS = CRATES / 'bay_control' / 'specs' / 'Decisions.antt'
HEAD = 'use Rattle.std.specs.Prelude.{ℕ, Bool}\n\n-- 5 and "true"\n'


def change(text: str, kind: str, name: str = 'f') -> list[str]:
    """What the changes of a kind make of the first definition of this name, line by line."""
    number = HEAD.count('\n') + 1
    definition = Definition('bay_control', DECISIONS, name, number, '', text)
    whole = HEAD + text + '\n'
    return [it.changed_lines(whole)[1] for it in Changer(definition, whole).changes()
            if it.kind == kind]


def only(name: str) -> Definition:
    """A definition of bay_control's decisions."""
    return definitions_in(DECISIONS)[name]


class Kinds(unittest.TestCase):
    """Each kind of change, on a small text."""

    def test_a_number_is_one_more(self):
        text = 'abbrev pub f : ℕ → Type 0\nf n = g n.0 5 (Unit {0})'
        self.assertEqual(change(text, 'number'), ['f n = g n.0 6 (Unit {0})'])

    def test_a_sign_is_its_counterpart(self):
        text = 'abbrev pub f : ℕ → Bool\nf n = nat_lt n m && true'
        self.assertEqual(change(text, 'sign'), ['f n = nat_le n m && true',
                                                'f n = nat_lt n m || true',
                                                'f n = nat_lt n m && false'])
        self.assertEqual(change('abbrev pub f : ℕ → Type 0\nf n = n ≤ n - 1', 'sign'),
                         ['f n = n < n - 1', 'f n = n ≤ n + 1'])

    def test_a_test_is_negated(self):
        text = 'abbrev pub f : Bool → ℕ\nf b = if g (if b then 1 else 2) then 3 else 4'
        self.assertEqual(change(text, 'test'), [
            'f b = if not (g (if b then 1 else 2)) then 3 else 4',
            'f b = if g (if not (b) then 1 else 2) then 3 else 4'])
        self.assertEqual(change('abbrev pub f : Bool → Bool\nf b = not b', 'test'), ['f b = b'])
        text = 'abbrev pub f : ℕ → Bool\nf n = if n == 1 then g n && n.a == 2 else n == (3 + n)'
        self.assertEqual(change(text, 'equality'), [
            'f n = if n == 1 then g n && not (n.a == 2) else n == (3 + n)',
            'f n = if n == 1 then g n && n.a == 2 else not (n == (3 + n))'])

    def test_an_arm_says_what_the_next_one_says(self):
        text = ('abbrev pub f : Option ℕ → ℕ → ℕ\nf None n = n\nf (Some m) n =\n    g m\n'
                'f x n = n\n    f more')
        self.assertEqual(change(text, 'arm'), [])
        self.assertEqual(change('f : Bool → ℕ\nf true = 1\nf false =\n    2', 'arm'),
                         ['f true = 2 f false = 1'])

    def test_arguments_of_one_type_are_swapped(self):
        text = 'abbrev pub f : ℕ → ℕ → State → State\nf a k s = is_selected_by a (k + 1) None'
        self.assertEqual(change(text, 'arguments'), ['f a k s = is_selected_by (k + 1) a None'])

    def test_an_operand_is_left_out(self):
        text = 'abbrev pub f : Bool → Bool\nf b = if a && (b && c) && d ≡ e then 1 else 2'
        self.assertEqual(change(text, 'conjunct'), [
            'f b = if (b && c) && d ≡ e then 1 else 2', 'f b = if a && d ≡ e then 1 else 2',
            'f b = if a && (c) && d ≡ e then 1 else 2', 'f b = if a && (b) && d ≡ e then 1 else 2',
            'f b = if a && (b && c) ≡ e then 1 else 2'])
        self.assertEqual(change('f : Type 0\nf = (n : ℕ) → P n × All (λ m. m ≡ n) l', 'conjunct'),
                         ['f = (n : ℕ) → All (λ m. m ≡ n) l', 'f = (n : ℕ) → P n'])

    def test_a_fact_of_a_record_is_left_out(self):
        text = ('pub record F (n : ℕ) : Type 0 where\n  pub next : ℕ\n  pub after : next ≡ n\n'
                '  pub is : All (λ m.\n      m ≡ n) l')
        self.assertEqual(change(text, 'fact', 'F'), ['', ''])
        definition = Definition('bay_control', DECISIONS, 'F', 4, '', text)
        whole = HEAD + text + '\n'
        found = [it.applied(whole) for it in Changer(definition, whole).changes()]
        self.assertIn(whole.replace('  pub after : next ≡ n\n', ''), found)
        self.assertIn(whole.partition('  pub is')[0] + '\n', found)

    def test_what_gives_a_fact_goes_with_it(self):
        names = frozenset({'a', 'b'})
        text = ('one = record { a = f (record { c = 1; b = 2 }); b = 2 }\n'
                'two = record {\n  b = (let x = 1; x); -- b\n  a = record { b = 3; a = 4; };\n}\n')
        self.assertEqual(without_fact(text, 'b', names), 'one = record { a = f (record { c = 1; '
                         'b = 2 }); }\ntwo = record {\n  a = record { a = 4; };\n}\n')
        self.assertEqual(without_fact(text, 'c', frozenset({'c'})), text)

    def test_data_and_types_are_left(self):
        self.assertEqual(change('pub data f : Type 0 where\n  A : (a b : ℕ) → f', 'number'), [])
        self.assertEqual(types_of(only('shared_select_rows')),
                         ['Bool', 'ℕ', 'ℕ', 'State', 'List Row'])


class Texts(unittest.TestCase):
    """What a change makes of a whole file."""

    def test_comments_and_texts_in_quotes_stay(self):
        text = 'f : ℕ\n-- 1 || true\nf = codes "7 && 8" 3 -- 9'
        definition = Definition('bay_control', DECISIONS, 'f', 4, '', text)
        found = Changer(definition, HEAD + text).changes()
        self.assertEqual([it.applied(HEAD + text) for it in found],
                         [(HEAD + text).replace('3', '4')])

    def test_what_a_sign_needs_is_imported(self):
        definition = Definition('bay_control', DECISIONS, 'f', 4, '', 'f = a ≤ b')
        text = HEAD + 'f = a ≤ b'
        found = [it.applied(text) for it in Changer(definition, text).changes()]
        self.assertEqual(found, [HEAD.replace('Bool}', 'Bool, ◌<◌}') + 'f = a < b'])
        self.assertEqual(Change(definition, '', 12, 13, '<', '◌<◌').applied('use X.{Y}\na ≤ b'),
                         'use Rattle.std.specs.Prelude.{◌<◌}\nuse X.{Y}\na < b')

    def test_what_moves_stays_as_it_is_written(self):
        text = 'f : Bool → ℕ\nf true = codes "1 2"\n-- of the other\nf false = 2 -- so'
        self.assertIn('f true = 2 -- of the other f false = codes "1 2" -- so',
                      change(text, 'arm'))

    def test_each_change_of_the_headline_is_at_one_place(self):
        found = [change for it in definitions_of_headline() for change in changes_of(it)]
        self.assertGreater(len(found), 2000)
        self.assertEqual(len({it.id for it in found}), len(found))
        for it in found:
            text, definition = text_of(it.definition.path), it.definition
            before, after = (PRELUDE.sub('', of).split('\n') for of in (text, it.applied(text)))
            first = len(os.path.commonprefix([before, after]))
            last = len(before) - len(os.path.commonprefix([before[::-1], after[::-1]]))
            self.assertLess(definition.line - 2, first, it.id)
            self.assertLess(last, definition.line + definition.text.count('\n') + 1, it.id)
            self.assertNotEqual(before, after, it.id)
            comments = [[line for line in of if '--' in line] for of in (before, after)]
            self.assertEqual(*comments, it.id)


class Reached(unittest.TestCase):
    def test_what_the_headline_rests_on(self):
        names = {f'{it.crate}.{it.name}' for it in definitions_of_headline()}
        self.assertLessEqual({'bay_control.rows_of_operate', 'bay_control.IsBacked',
                              'bay_device.HasScan', 'bay_device.is_fresh', 'il_image.act'}, names)
        self.assertLessEqual({it.crate for it in definitions_of_headline()},
                             {it.name for it in CRATES.iterdir()})

    def test_what_cites_it(self):
        self.assertEqual(list(itertools.islice(citing(only('selection_at')), 2)),
                         ['bay_mms_services', 'bay_device'])
        matched = definitions_in(DECISIONS.with_name('Backing.antt'))['IsMatched']
        self.assertEqual(list(itertools.islice(citing(matched), 2)),
                         ['bay_device', 'bay_device_example_laws'])


class Answers(unittest.TestCase):
    """What `rt check` printed, read as an answer."""

    def answer(self, *lines: str, status: int = 1, crate: str = 'bay_control') -> Answer | None:
        """The answer of a check of a crate for a change of bay_control."""
        return answer_in(crate, status, '\n'.join(lines) + '\n', ('bay_control',))

    def test_a_clause_of_the_code(self):
        call = next(it for it in calls_of('bay_control') if it.title == 'Controls::operate')
        file = call.path.relative_to(CRATES / 'bay_control')
        for label, goal in ((call.clauses[0].label, 'a goal'), ('after', '`returns-clause-after`')):
            found = self.answer('proofs/One.antt:3:1: error: `one`: has no field `x`',
                                f'{file}:{call.clauses[0].line}:5: error: {goal}')
            self.assertEqual(found, Answer(BROKEN, ('bay_control',), 'bay_control',
                                           f'Controls::operate/{label}', goal))

    def test_a_lemma(self):
        found = self.answer('src/laws.rt:3:1: warning: unused',
                            'note: ./proofs/One.antt:3:1: no proof',
                            'fn bay_control::laws::runs_consist_of_calls: not proved')
        self.assertEqual(found.text, 'broken by bay_control, runs_consist_of_calls by '
                         'proofs/One.antt: no proof')
        self.assertEqual([title_of(it) for it in ('a::B::c', 'a::c', 'c')], ['B::c', 'c', 'c'])

    def test_only_names_that_went(self):
        found = self.answer('proofs/One.antt:3:1: error: `one`: has no field `x`')
        self.assertEqual(found.goal, '`one`: has no field `x` (a proof names what went)')

    def test_a_library_that_is_built_first(self):
        for name, verdict in (('bay_mms_services', BROKEN), ('bay_tree', UNKNOWN)):
            found = self.answer('proofs/One.antt:3:1: error: a goal', f'rt: the library {name} did '
                                'not build, so nothing above it was checked', crate='bay_device')
            self.assertEqual((found.crate, found.verdict), (name, verdict))

    def test_what_is_not_read(self):
        for said in ('specs/Decisions.antt:3:1: error: `f`: the type differs',
                     'src/laws.rt:3:1: error: `x`: has no field `y`'):
            found = self.answer(said, 'proofs/One.antt:3:1: error: a goal')
            self.assertEqual(found.verdict, UNREAD)

    def test_no_goal(self):
        self.assertEqual(self.answer('rattle: no verdict: steps', status=3),
                         Answer(UNKNOWN, ('bay_control',), 'bay_control', '',
                                'rattle: no verdict: steps'))
        self.assertIsNone(self.answer('logic=proved', status=0))
        self.assertEqual(Answer(PROVES, ('a', 'b')).text, 'still proves in a, b')

    def test_several_at_a_time(self):
        changes = changes_of(only('is_selected_by'))[:4]
        told = dict(zip(changes, (UNREAD, PROVES, BROKEN, BROKEN)))
        both = threading.Barrier(2, timeout=60)

        def answer_to(it: Change) -> Answer:
            both.wait()
            return Answer(told[it], ())
        found = {it: answer.verdict for it, answer in answers_of(changes, answer_to, 2, None)}
        self.assertEqual(found, told)
        for jobs, most, count in ((1, 0, 0), (1, 1, 2), (1, 2, 3), (3, 3, 4), (1, None, 4)):
            with self.subTest(jobs=jobs, most=most):
                tried = answers_of(changes, lambda it: Answer(told[it], ()), jobs, most)
                self.assertEqual(len(list(tried)), count)


class Laws(Tools):
    """The laws that rest on a definition, how they are checked, and what is read of it."""

    def test_the_nearest_law_comes_first(self):
        backed = definitions_in(DECISIONS.with_name('Backing.antt'))['IsBacked']
        (crate, laws), *further = laws_on(backed, 3)
        self.assertEqual((crate, laws[0].title), (
            'bay_device_example_laws', 'a_select_with_value_backs_what_it_requested'))
        self.assertEqual(further[0][0], 'bay_control')
        self.assertEqual({len(it) for _, it in laws_on(backed, 1)}, {1})

    def test_crates_up_to_the_law_are_sources(self):
        self.assertEqual(all_below('bay_stdio'), ('bay_io', 'bay_lines'))
        with mock.patch('devtools.wrong_definitions.laws.copy_of'), \
                mock.patch('devtools.wrong_definitions.laws.kit', return_value='/kit'):
            room = Room(self.folder)
            for it in all_below('bay_device_example_laws'):
                room.library(it).mkdir(parents=True)
            words = room.words('bay_control', 'bay_device_example_laws')
        taken = {kind: [it.partition('=')[0].partition(':')[0]
                        for flag, it in itertools.pairwise(words) if flag == kind]
                 for kind in ('--lib', '--extern')}
        self.assertEqual(taken['--lib'], ['bay_control', 'bay_process', 'bay_mms_services',
                                          'bay_device'])
        self.assertLessEqual({'std', 'toml', 'bay_tree', 'bay_ber'}, set(taken['--extern']))
        self.assertFalse(set(taken['--lib']) & set(taken['--extern']))

    def test_what_is_read(self):
        goal = './proofs/One.antt:3:1: error: `one`: two types differ\n'
        clause = ('./proofs/laws/a_law/Answers.antt:4:5: error: 1 declaration that depends on '
                  '`one`, which was not admitted, was not checked: returns-clause-over\n')
        for printed, at in ((goal + clause, 'a_law/over'), (goal, 'proofs/One.antt')):
            laws = 'bay_device_example_laws'
            self.assertEqual(answer_of(laws, 1, printed, (laws,)),
                             Answer(BROKEN, (laws,), laws, at, '`one`: two types differ'))
        spoilt = answer_of('a', 1, '/x/crates/low/specs/Y.antt:3:1: error: no field\n' + goal, ())
        self.assertEqual((spoilt.verdict, spoilt.crate, spoilt.at), (UNREAD, 'low', 'specs/Y.antt'))
        self.assertEqual(answer_of('a', -1, 'it took long', ()).verdict, UNKNOWN)
        self.assertIsNone(answer_of('a', 0, goal, ()))


class Tables(Tools):
    """The table of answers."""

    def test_rows_are_added_and_replaced(self):
        old = {it: row('1', '2', Answer(PROVES, ('x',))) for it in ('b', 'gone', 'a')}
        new = {'a': row('1', '2', Answer(BROKEN, ('x', 'y'), 'y', 'g/c', 'goal'))}
        table = merge_tables(old, new, {'a': ('1', '2'), 'b': ('1', '2'), 'gone': ('1', '3')})
        self.assertEqual([(name, it['verdict']) for name, it in table.items()],
                         [('a', BROKEN), ('b', PROVES)])
        path = self.folder / 'table.json'
        self.assertEqual((read_table(None), read_table(path)), ({}, {}))
        keep(path, table)
        self.assertEqual(read_table(path)['a']['through'], ['x', 'y'])

    def test_a_copy_has_what_was_kept(self):
        self.file('crates.txt', 'low:\n')
        self.file('HANDLES', 'Handles allowed: none.\n')
        for name in ('src/lib.rt', 'out/rlib/stamp', 'out/incremental/a.oantt', 'out/program',
                     'must-fail/a.edit'):
            path = self.folder / 'crates' / 'low' / name
            path.parent.mkdir(parents=True, exist_ok=True)
            path.write_text(name)
        room = self.folder / 'room'
        room.mkdir()
        copy_of(self.folder / 'crates', room, {LIBRARY, KEPT})
        top = room / 'crates' / 'low'
        self.assertEqual({str(it.relative_to(top)) for it in top.rglob('*') if it.is_file()},
                         {'src/lib.rt', 'out/rlib/stamp', 'out/incremental/a.oantt'})


class Tool(Tools):
    def test_a_list(self):
        words = ('--list', '--crate', 'bay_control', '--most', 3)
        found = self.call_tool('wrong_definitions', *words, '--seed', 1)
        self.assertEqual((found.status, found.out.count('\n')), (0, 9))
        self.assertEqual(self.call_tool('wrong_definitions', *words, '--seed', 1), found)
        self.assertNotEqual(self.call_tool('wrong_definitions', *words), found)
        found = self.call_tool('wrong_definitions', '--list', '--only', 'HasScan.sign-')
        self.assertIn('+ pub recent : now < scan.now + age', found.out)

    def test_a_crate_that_is_not_reached(self):
        found = self.call_tool('wrong_definitions', '--crate', 'bay_net')
        self.assertEqual((found.status, found.error.count('\n')), (2, 1))

    def test_a_file_that_is_no_table(self):
        found = self.call_tool('wrong_definitions', '--out', self.file('odd', 'x'), '--most', 0)
        self.assertEqual((found.status, found.error),
                         (3, f'wrong_definitions: {self.folder}/odd: it is no table of answers\n'))

    def test_the_table_is_of_changes_that_are_there(self):
        for table in ('anchors.json', 'laws.json'):
            rows = read_table(DATA / table)
            there = lines_of(change for it in definitions_changed(rows)
                             for change in changes_of(it))
            self.assertEqual([name for name, it in rows.items()
                              if there.get(name) != (it['before'], it['after'])], [])

    def test_another_row(self):
        found = self.call_tool('wrong_definitions', '--list', '--row', 'P-065', '--crate',
                               'bay_audit_rules', '--only', 'after_item.sign')
        self.assertIn('join_top (λ a b. a || b)', found.out)
        found = self.call_tool('wrong_definitions', '--row', 'P-999')
        self.assertEqual((found.status, found.error.count('\n')), (2, 1))


if __name__ == '__main__':
    unittest.main()
