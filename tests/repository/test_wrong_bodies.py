"""The copy on which wrong bodies are tried; each edit can be applied; how many the gate has."""
import contextlib
import dataclasses
import io
import json
import os
import pathlib
import shutil
import unittest
from collections.abc import Callable
from unittest import mock

from baytools.common.paths import TOP
from devtools.commands import load_command
from devtools.crate_copy import texts_after_edit, edited_copy
from devtools.trace import refusals
from devtools.trace.calls import calls_of
from devtools.trace.edits import edits_of, is_refused_at
from devtools.trace.promises import borne_by, promises
from devtools.trace.refusals import (TRIED, Refusal, answers_in, marked_goal, read_table,
                                     whole_answer)
from devtools.trace.trace_page import breaks
from tests.tool import Tools

CRATES = TOP / 'crates'


class Copy(Tools):
    """A crate with a library that was built, an edit of the gate and a wrong body."""

    def setUp(self) -> None:
        super().setUp()
        self.file('crates.txt', 'low:\n')
        self.file('HANDLES', 'Handles allowed: none.\n')
        self.crates, self.room = self.folder / 'crates', self.folder / 'room'
        for name in ('src/lib.rt', 'out/rlib/stamp', 'out/incremental/kept', 'must-fail/a.edit',
                     'wrong-bodies/b.edit'):
            path = self.crates / 'low' / name
            path.parent.mkdir(parents=True, exist_ok=True)
            path.write_text(name)
        self.room.mkdir()

    def copied_files(self, crate: str, with_gate: bool,
                     is_wanted: Callable[[str], bool] = lambda name: True) -> set[str]:
        """What stands in the copy for a crate, of the crate `low`."""
        tool = load_command('wrong_bodies')
        (self.crates / crate).mkdir(exist_ok=True)
        edits = tool.wanted_edits(self.crates, crate, with_gate, is_wanted)
        with tool.copy_of(self.crates, crate, edits, {'rlib'}) as room:
            top = room / 'crates' / 'low'
            return {str(it.relative_to(top)) for it in top.rglob('*') if it.is_file()}

    def test_a_wrong_body_stands_where_the_gates_edits_did(self) -> None:
        self.assertEqual(self.copied_files('low', False),
                         {'src/lib.rt', 'out/rlib/stamp', 'must-fail/b.edit'})

    def test_with_those_of_the_gate(self) -> None:
        self.assertEqual(self.copied_files('low', True),
                         {'src/lib.rt', 'out/rlib/stamp', 'must-fail/a.edit', 'must-fail/b.edit'})

    def test_those_of_another_crate_are_left_out(self) -> None:
        self.assertEqual(self.copied_files('high', True), {'src/lib.rt', 'out/rlib/stamp'})

    def test_those_that_are_wanted(self) -> None:
        self.assertEqual(self.copied_files('low', True, lambda name: name == 'low/a'),
                         {'src/lib.rt', 'out/rlib/stamp', 'must-fail/a.edit'})

    def test_a_twin_stands_where_the_gates_edits_did(self) -> None:
        tool = load_command('wrong_bodies')
        self.assertEqual(tool.crates_with_twins(self.crates), [])
        (self.crates / 'low' / 'wrong-bodies' / 'b.twin').write_text('harmless')
        self.assertEqual(tool.crates_with_twins(self.crates), ['low'])
        tool.copy_with_twins(self.crates, self.room, ['low'], {'rlib'})
        top = self.room / 'crates' / 'low'
        self.assertEqual({str(it.relative_to(top)) for it in top.rglob('*') if it.is_file()},
                         {'src/lib.rt', 'out/rlib/stamp', 'must-fail/b.edit'})
        self.assertEqual((top / 'must-fail' / 'b.edit').read_text(), 'harmless')

    def test_an_edit_is_taken_back(self) -> None:
        crate = self.crates / 'low'
        with edited_copy(crate, 'file: src/lib.rt\nold: lib\nnew: other\n'):
            self.assertEqual((crate / 'src' / 'lib.rt').read_text(), 'src/other.rt')
        self.assertEqual((crate / 'src' / 'lib.rt').read_text(), 'src/lib.rt')

    def test_the_sources_stay_as_they_are(self) -> None:
        with load_command('wrong_bodies').copy_of(self.crates, 'low', [], {'rlib'}) as room:
            (room / 'crates' / 'low' / 'src' / 'lib.rt').write_text('changed')
        self.assertEqual((self.crates / 'low' / 'src' / 'lib.rt').read_text(), 'src/lib.rt')


class Tried(Tools):
    def test_it_is_no_merge_gate(self) -> None:
        command = pathlib.Path(self.file('rt', '#!/bin/sh\necho "$CI" "$@"\n'))
        command.chmod(0o755)
        with mock.patch.dict(os.environ, CI='true', PATH=f'{self.folder}:{os.environ["PATH"]}'), \
                contextlib.redirect_stdout(io.StringIO()):
            self.assertEqual(load_command('wrong_bodies').run_rt('ci', ['low'], self.folder),
                             (0, ' ci low\n'))


class Kept(Tools):
    """The answers of a crate are kept before the next crate is tried."""

    def setUp(self) -> None:
        super().setUp()
        self.table = self.folder / 'refusals.json'
        for patched in (mock.patch.object(refusals, 'TABLE', self.table),
                        mock.patch.dict(os.environ, PATH=f'{self.folder}:{os.environ["PATH"]}')):
            patched.start()
            self.addCleanup(patched.stop)
        read_table.cache_clear()
        self.addCleanup(read_table.cache_clear)

    def try_crates(self, script: str, *crates: str, jobs: int = 1) -> tuple[int, str]:
        """The exit status and the last line, with this script in the place of `rt`."""
        pathlib.Path(self.file('rt', f'#!/bin/sh\n{script}\n')).chmod(0o755)
        printed = io.StringIO()
        with contextlib.redirect_stdout(printed):
            wrong_bodies = load_command('wrong_bodies')
            status = wrong_bodies.try_edits(
                'must-fail', list(crates), lambda crate: contextlib.nullcontext(self.folder), False,
                jobs)
        return status, printed.getvalue().splitlines()[-1]

    def test_crate_after_crate(self) -> None:
        first, second = (edits_of(it)[0] for it in ('bay_control', 'bay_device'))
        answer = ('echo "must-fail $2/{}.edit: refused, as it must be: '
                  'proofs/x/Answers.antt:1:1: {}"')
        script = (f'case $2 in\nbay_control) {answer.format(first.path.stem, "one")};;\n'
                  f'*) cp refusals.json before; {answer.format(second.path.stem, "two")};;\nesac')
        self.assertEqual(self.try_crates(script, 'bay_control', 'bay_device'),
                         (0, '2 passed, 0 failed'))
        self.assertEqual(set(json.loads((self.folder / 'before').read_text())), {first.key})
        self.assertEqual({name: it.goal for name, it in read_table().items()},
                         {first.key: 'one', second.key: 'two'})

    def test_two_crates_at_a_time(self) -> None:
        """Each waits until the other has begun."""
        script = ('touch $2; other=bay_control; [ $2 = bay_control ] && other=bay_device\n'
                  'for n in 1 2 3 4 5 6 7 8 9; do [ -e $other ] && exit 0; sleep 1; done; exit 1')
        self.assertEqual(self.try_crates(script, 'bay_control', 'bay_device', jobs=2),
                         (0, '0 passed, 0 failed'))

    def test_a_status_of_any_crate_counts(self) -> None:
        self.assertEqual(self.try_crates('[ $2 = bay_device ]', 'bay_control', 'bay_device'),
                         (1, '0 passed, 0 failed'))

    def test_which_are_still_needed(self) -> None:
        call = next(it for it in calls_of('bay_device') if it.title == 'Device::step')
        told = Refusal(call.title, 'steps', 'a goal', 'c0ffee', '2026-11-29')
        one, two, three, four, five = (it.key for it in edits_of('bay_device')[:5])
        refusals.write_table({
            one: told, two: dataclasses.replace(told, call='gone'),
            three: dataclasses.replace(told, clause='gone'),
            four: dataclasses.replace(told, goal='a goal ..')})
        self.assertEqual([it for it in (one, two, three, four, five)
                          if refusals.is_needed(it, False)], [two, three, five])
        self.assertTrue(refusals.is_needed(four, True))

    def test_the_whole_of_an_answer(self) -> None:
        edit = edits_of('bay_device')[0]
        refusals.write_table({edit.key: Refusal('', '', 'a goal ..', 'c0ffee', '2026-11-29')})
        refusals.complete(edit.key, lambda name: 'src/x.rt:1:1: a goal that goes on\n')
        self.assertEqual(read_table()[edit.key].goal, 'a goal that goes on')


class Twins(Tools):
    """A twin passes if the kit says that it is not refused."""

    def try_one(self, *answers: str) -> tuple[int, str]:
        """The exit status and the last line for one twin and these answers of the kit."""
        folder = self.folder / 'crates' / 'low' / 'must-fail'
        folder.mkdir(parents=True, exist_ok=True)
        (folder / 'a.edit').write_text('file: src/lib.rt\n')
        rt = pathlib.Path(self.file('rt', '#!/bin/sh\n' + ''.join(f"echo '{it}'\n"
                                                                  for it in answers)))
        rt.chmod(0o755)
        printed = io.StringIO()
        with mock.patch.dict(os.environ, PATH=f'{self.folder}:{os.environ["PATH"]}'), \
                contextlib.redirect_stdout(printed):
            status = load_command('wrong_bodies').try_twins('must-fail', ['low'], self.folder)
        return status, printed.getvalue().splitlines()[-1]

    def test_one_that_is_proved(self) -> None:
        answer = 'must-fail low/a.edit: NOT REFUSED: the crate is still proved'
        self.assertEqual(self.try_one(answer), (0, '1 passed, 0 failed'))

    def test_one_that_is_refused(self) -> None:
        answer = 'must-fail low/a.edit: refused, as it must be: src/lib.rt:1:1'
        self.assertEqual(self.try_one(answer), (1, '0 passed, 1 failed'))

    def test_one_that_was_not_tried(self) -> None:
        self.assertEqual(self.try_one('must-fail low/a.edit: BAD EDIT: it is no edit'),
                         (1, '0 passed, 1 failed'))
        self.assertEqual(self.try_one('rt: the library low did not build'),
                         (1, '0 passed, 1 failed'))

    def test_tried_together(self) -> None:
        folder = self.folder / 'crates' / 'low'
        folder.mkdir(parents=True)
        (folder / 'lib.rt').write_text('one\n')
        twin = pathlib.Path(self.file('a.twin', 'file: lib.rt\nold: one\nnew: two\n'))
        room = mock.Mock(top=self.folder, words=lambda *_: ['rattle', '--incremental', 'kept'])
        tool, printed = load_command('wrong_bodies'), io.StringIO()
        answers = (('logic=proved functions=1', True),
                   ('fn low::one: no proof\nonly=1 proved=0', False))
        for number, (said, proved) in enumerate(answers):
            room.top = self.folder / str(number)
            shutil.copytree(folder, room.top / 'crates' / 'low')
            for are_twins in (False, True):
                with mock.patch.object(tool, 'Room', return_value=room), \
                        mock.patch.object(tool.together, 'run', return_value=said), \
                        contextlib.redirect_stdout(printed):
                    status = tool.try_together({'low': [twin]}, 1, are_twins)
                self.assertEqual(status, int(proved != are_twins))
                shutil.rmtree(room.top / 'kept-low')

    def test_each_has_its_edit_of_the_same_text(self) -> None:
        def lines_but_new(path: pathlib.Path) -> list[str]:
            lines = path.read_text(encoding='utf-8').splitlines()
            return [it for it in lines if not it.startswith('new:')]
        for twin in CRATES.glob('*/*/*.twin'):
            with self.subTest(twin.relative_to(CRATES)):
                edit, = twin.parent.parent.glob(f'*/{twin.stem}.edit')
                self.assertEqual(twin.parent.name, 'wrong-bodies')
                self.assertEqual(lines_but_new(twin), lines_but_new(edit))
                self.assertNotEqual(twin.read_text(), edit.read_text())
                self.assertNotIn('file: specs', twin.read_text())


class Answers(unittest.TestCase):
    """What the prover says of an edit is kept with the call and the clause at which it stands."""

    def test_a_log(self) -> None:
        step = next(it for it in calls_of('bay_device') if it.title == 'Device::step')
        clause = next(it for it in step.clauses if it.label == 'steps')
        name = step.path.relative_to(CRATES / 'bay_device')
        log = (f'must-fail bay_device/one.edit: refused, as it must be: {name}:{clause.line}:5: '
               'error: a goal\nmust-fail bay_device/two.edit: refused, as it must be: '
               'note: proofs/x/Answers.antt:3:1: none\n'
               'must-fail bay_device/three.edit: NOT REFUSED\n')
        self.assertEqual([bool(it) for it in TRIED.findall(log)], [True, True, False])
        found = {name: (it.call, it.clause, it.goal) for name, it in answers_in(log).items()}
        self.assertEqual(found, {'bay_device/one': ('Device::step', 'steps', 'error: a goal'),
                                 'bay_device/two': ('', '', 'none')})

    def test_what_the_kit_says_against_an_answer(self) -> None:
        log = ('must-fail bay_device/one.edit: refused, as it must be (only because a proof file '
               'names what the edit took away, so this says little of the contract: change a value '
               'and keep the names): proofs/x/Answers.antt:3:1: error: `a (b)` has no field\n'
               'must-fail bay_device/two.edit: refused, as it must be (only by a limit of the '
               'prover, which gave no verdict, so this says less of the contract: choose a change '
               'that it refuses sooner): antt ran out of stack\n'
               'must-fail bay_device/three.edit: refused, as it must be\n')
        self.assertEqual([bool(it) for it in TRIED.findall(log)], [True] * 3)
        found = {name: (it.caveat, it.goal) for name, it in answers_in(log).items()}
        self.assertEqual(found, {
            'bay_device/one': ('only because a proof file names what the edit took away, so this '
                               'says little of the contract', 'error: `a (b)` has no field'),
            'bay_device/two': ('only by a limit of the prover, which gave no verdict, so this says '
                               'less of the contract', 'antt ran out of stack'),
            'bay_device/three': ('', '')})

    def test_what_the_kit_cuts(self) -> None:
        head = 'note: src/none.rt:3:1: it is not proved that what the function ensures holds'
        more = '; the facts known there allow values at which this goal is false: x = 1'
        line = head + ' ' * (140 - len(head)) + more
        cut = answers_in('must-fail bay_device/one.edit: refused, as it must be: '
                         f'{line[:160]}\n')['bay_device/one']
        self.assertTrue(cut.goal.endswith('values at which this goal is false ..'), cut.goal)
        other = marked_goal('error: the two types differ only where one ha')
        self.assertEqual(other, 'error: the two types differ only where one ha ..')
        told = dataclasses.replace(cut, goal='it is not proved that what the function ensures ..')
        self.assertTrue(whole_answer(told, f'so far\n{line}\n').goal.endswith('false: x = 1'))
        self.assertEqual(whole_answer(told, 'another line\n'), told)

    def test_a_caveat_is_shown_and_counts_for_no_clause(self) -> None:
        edit = edits_of('bay_device')[0]
        told = Refusal('Device::step', 'steps', 'error: a goal', 'c0ffee', '2026-11-29', 'only so')
        with mock.patch.object(refusals, 'read_table', lambda: {edit.key: told}):
            self.assertEqual(breaks(edit), 'refused, only so (c0ffee): error: a goal')
            self.assertFalse(any(is_refused_at(edit, borne_by(it)) for it in promises()))

    def test_the_table_is_of_edits_and_functions_that_are_there(self) -> None:
        """If this fails, `dev/wrong_bodies --missing CRATE` tries such an edit once more, and with
        `--log FILE`, FILE an empty file, that command drops its answer."""
        lost = [name for name, told in read_table().items() if refusals.is_lost(name, told)]
        self.assertEqual(lost, [])

    def test_what_is_lost(self) -> None:
        edit = edits_of('bay_device')[0]
        told = Refusal('Device::step', 'gone', 'a goal', 'c0ffee', '2026-11-29')
        self.assertFalse(refusals.is_lost(edit.key, told))
        self.assertFalse(refusals.is_lost(edit.key, dataclasses.replace(told, call='')))
        self.assertTrue(refusals.is_lost(edit.key, dataclasses.replace(told, call='gone')))
        self.assertTrue(refusals.is_lost('bay_device/gone', told))


class Edits(unittest.TestCase):
    def test_each_can_be_applied(self) -> None:
        """The gate tries only a part of them, so this tells of code that moved."""
        for folder in ('must-fail', 'wrong-bodies'):
            for path in CRATES.glob(f'*/{folder}/*'):
                with self.subTest(path.relative_to(CRATES)):
                    crate = path.parent.parent
                    texts = texts_after_edit(crate, path.read_text(encoding='utf-8'))
                    self.assertTrue(texts)
                    for name, text in texts.items():
                        self.assertNotEqual(text, (crate / name).read_text(encoding='utf-8'))

    def test_the_gate_has_few_in_few_crates(self) -> None:
        found = list(CRATES.glob('*/must-fail/*.edit'))
        self.assertLessEqual(len(found), 40)
        self.assertLessEqual(len({it.parent for it in found}), 14)

    def test_each_stands_in_one_folder(self) -> None:
        for path in CRATES.glob('*/must-fail/*.edit'):
            self.assertFalse((path.parent.parent / 'wrong-bodies' / path.name).exists(), path)


if __name__ == '__main__':
    unittest.main()
