"""From a promise to its proof: each row of README, PROVED and SECURITY names calls that are there,
with clauses whose definitions are found; has a law, an edit and a case, or a reason for none; and
keeps its id."""
import dataclasses
import hashlib
import html
import json
import pathlib
import re
import tempfile
import unittest
from unittest import mock

from baytools.common.paths import TOP
from devtools.trace import base, changed, inner, lacking, refusals, shown, standards
from devtools.trace.calls import Source, all_calls, crates, quiet
from devtools.trace.definitions import Reader, scope_of_call, unfound
from devtools.trace.edits import broken, edits_of, laws_about, refused_of
from devtools.trace.lacking import key_of
from devtools.trace.markdown import block, inline
from devtools.trace.promises import PAGES, Promise, Resolver, borne_by, promises, register
from devtools.trace.refusals import Refusal
from devtools.trace.trace_page import FIRST, Sheet, StandardSheet, breaks
from tests.tool import Tools

CODE = '''ghost use Rattle.bay_tree.specs.Rows.{place_of};

/// Says "{".
pub fn find(name: &[u8; 4]) -> usize
    requires short { length name.now ≤ 4 }
    ensures { result ≡ place_of name.now }
{
    other(name) // a brace: {
}

impl<'a> Model for Tree<'a> {
    ghost Value = { List Row };
}

impl<'a> Tree<'a> {
    fn other(&self)
        ensures { P } {}
}
'''
SPECS = '''-- Definitions.
use Rattle.std.specs.Prelude.{ℕ}

-- the first
abbrev pub first : ℕ → ℕ
first zero = one
-- of a greater one
first (suc n) = n

module _ {L : Type 0}
    (step : L) where
  -- some fact
  pub record Fact (n : ℕ) : Type 0 where
    pub is : n ≡ first n

one : ℕ
one = 1
'''


HEADED = '''-- Lengths and more (X.690 8.1).

-- before any heading
one : ℕ

-- ---- X.690 8.1.3: lengths, as ISO 9506-2 has Data

-- the number
two : ℕ

-- a view (own)
three : ℕ

-- ---- own: views

-- what is seen
four : ℕ

-- (X.690 8.1.2.2, 8.4)
five : ℕ

-- ---- words

-- under a heading that says neither, as a part of X.690
six : ℕ
'''


def place_text(it: Promise) -> str:
    return f'{it.page.name}:{it.line}'


class Reading(unittest.TestCase):
    def test_a_file_of_code(self):
        path = TOP / 'crates' / 'bay_tree' / 'src' / 'one.rt'
        source = Source('bay_tree', path, CODE)
        found = [(it.title, it.line, it.last, it.told, len(it.clauses), it.is_law)
                 for it in source.calls()]
        self.assertEqual(found, [('find', 4, 9, 'Says "{".', 2, False),
                                 ('Tree::other', 16, 17, '', 1, True)])
        clause = source.calls()[0].clauses[0]
        self.assertEqual((clause.kind, clause.label, clause.text, clause.line),
                         ('requires', 'short', 'length name.now ≤ 4', 5))
        self.assertEqual(len(quiet(CODE)), len(CODE))

    def test_each_clause_of_the_sources_is_read(self):
        words = sum(len(re.findall(r'\b(?:requires|ensures)\b', quiet(path.read_text())))
                    for crate in crates()
                    for path in (TOP / 'crates' / crate / 'src').rglob('*.rt'))
        self.assertEqual(sum(len(it.clauses) for it in all_calls()), words)

    def test_a_file_of_definitions(self):
        with tempfile.TemporaryDirectory() as folder:
            path = pathlib.Path(folder) / 'One.antt'
            path.write_text(SPECS, encoding='utf-8')
            found = [(it.name, it.line, it.told, it.text.count('\n'))
                     for it in Reader('bay_tree', path).read()]
        self.assertEqual(found, [
            ('first', 5, 'the first', 3),
            ('Fact', 13, 'some fact (For each {L : Type 0} (step : L).)', 1), ('one', 16, '', 1)])

    def test_a_heading_holds_for_what_stands_below_it(self):
        with tempfile.TemporaryDirectory() as folder:
            path = pathlib.Path(folder) / 'One.antt'
            path.write_text(HEADED, encoding='utf-8')
            found = [standards.clauses_of_definition(it) for it in Reader('bay_tree', path).read()]
        self.assertEqual(found, [
            [], [('X.690', '8.1.3')], [(standards.OWN, 'bay_tree')],
            [(standards.OWN, 'bay_tree: views')], [('X.690', '8.1.2.2'), ('X.690', '8.4')], []])

    def test_a_last_column(self):
        def resolve(by):
            borne = Resolver(Promise(PAGES[1], '', 1, '', by, ('bay_device',))).resolved()
            return {it.title: labels for it, labels in borne.calls.items()}, borne.unknown
        self.assertEqual(resolve('`step` and `run`: `commanded`; at most one: `single`, with '
                                 '`load`: `idle`'),
                         ({'Device::step': {'commanded', 'single'},
                           'Device::run': {'commanded', 'single'}, 'load': {'idle'}}, []))
        self.assertEqual(resolve('`no_such_call`, `load`: `no_such_label`'),
                         ({'load': set()}, ['no_such_call', 'no_such_label']))

    def test_markdown(self):
        self.assertEqual(inline('**a** `b < c` [d `e`](f)'),
                         '<b>a</b> <code>b &lt; c</code> d <code>e</code>')
        self.assertEqual(
            block('| A | B |\n|---|---|\n| 1 | 2 |'),
            '<table><tr><th>A</th><th>B</th></tr><tr><td>1</td><td>2</td></tr></table>')


class Promises(unittest.TestCase):
    def test_each_row_names_calls_that_are_there(self):
        self.assertGreater(len(promises()), 100)
        for it in promises():
            borne = borne_by(it)
            self.assertEqual(borne.unknown, [], place_text(it))
            self.assertEqual(bool(borne.calls), it.by != 'the proof of each function',
                             place_text(it))
            for call in borne.calls:
                self.assertTrue(borne.clauses(call), f'{place_text(it)}: {call.title}')

    def test_each_row_has_an_id_of_its_own(self):
        """An id is never used twice: the register keeps each, with the call that bears it."""
        with_id = [it for it in promises() if it.page.name != 'README.md']
        for it in with_id:
            self.assertRegex(it.id, r'^P-\d{3}$', place_text(it))
            self.assertEqual(register().get(it.id), key_of(borne_by(it)) or 'every function',
                             f'{place_text(it)}: {it.id}')
        ids = [it.id for it in with_id]
        self.assertEqual(len(ids), len(set(ids)))
        gone = {it for it, told in register().items() if told.startswith('gone')}
        self.assertEqual(set(register()) - set(ids), gone)

    def test_no_id_has_left_the_register(self):
        numbers = [int(it.removeprefix('P-')) for it in register()]
        self.assertEqual(numbers, list(range(1, len(numbers) + 1)))

    def test_each_public_clause_belongs_to_a_promise_or_is_judged(self):
        self.assertGreater(len(inner.orphans()), 100)
        lost = {call for call, _ in inner.orphans() if call not in inner.inner_calls()}
        for call in lost:
            self.assertTrue(inner.reason_of_none(call), f'{call.crate} {call.title}')
        self.assertEqual(set(inner.JUDGED), {f'{it.crate} {it.title}' for it in lost})
        self.assertEqual([it.title for it in lost if it.is_law], [])

    def test_what_a_buyer_asks_for_is_there(self):
        self.assertEqual(len(FIRST), 10)
        self.assertEqual(set(FIRST.values()) - {it.id for it in promises()}, set())

    def test_each_definition_that_a_clause_cites_is_found(self):
        calls = {call for it in promises() for call in (*borne_by(it).calls,
                                                        *laws_about(borne_by(it)))}
        for call in calls:
            for clause in call.clauses:
                self.assertEqual(unfound(scope_of_call(call), clause.text), [], call.title)

    def check_reasons(self, reasons, without):
        """Each row that has nothing has a reason, and each reason is of such a row."""
        for it in without:
            self.assertTrue(lacking.reason(reasons, it),
                            f'{place_text(it)}: {lacking.key_of(borne_by(it))}')
        needed = {lacking.key_in(reasons, borne_by(it)) for it in without}
        self.assertEqual(set(reasons) - needed, set())

    def test_each_row_has_a_law_or_a_reason(self):
        self.check_reasons(lacking.NO_LAW,
                           [it for it in promises() if not laws_about(borne_by(it))])

    def test_each_row_has_an_edit_or_a_reason(self):
        self.check_reasons(lacking.NO_EDIT,
                           [it for it in promises() if it.id and not refused_of(it)])

    def test_a_changed_definition_stands_in_the_place_of_an_edit(self):
        """The row has no edit, and one of its laws refuses a change of a definition."""
        for it in promises():
            if it.id and lacking.no_edit(it) == lacking.CHANGED:
                self.assertTrue(changed.refused_by(borne_by(it).laws), place_text(it))

    def test_each_edit_breaks_promises_that_there_are(self):
        edits = {it.key for crate in crates() for it in edits_of(crate)}
        self.assertEqual(set(broken()), edits)
        known = {it.id for it in promises()} - {''}
        for name, ids in broken().items():
            self.assertTrue(ids and set(ids) <= known and len(set(ids)) == len(ids), name)

    def test_an_edit_is_below_what_bears_its_promises(self):
        below = {it.id: {crate for call in borne_by(it).calls
                         for crate in (call.crate, *inner.all_below(call.crate))}
                 for it in promises() if it.id}
        for name, ids in broken().items():
            for it in ids:
                self.assertIn(name.partition('/')[0], below[it] or {name.partition('/')[0]},
                              f'{name} {it}')

    def test_each_row_has_a_case_or_a_reason(self):
        for it in promises():
            self.assertNotEqual(bool(shown.cases_of(it)), bool(shown.no_cases(it)), place_text(it))

    def test_each_case_shows_a_promise_that_there_is(self):
        known = {it.id for it in promises()}
        self.assertEqual((set(shown.all_places()) | set(shown.NONE)) - known, set())

    def test_each_place_of_cases_says_what_it_is(self):
        for place in (it for found in shown.all_places().values() for it in found):
            self.assertNotEqual(place.name.partition(': ')[2], '', f'{place.path}:{place.line}')

    def test_each_edit_of_the_gate_changes_a_function(self):
        for it in (it for crate in crates() for it in edits_of(crate) if it.is_in_gate):
            self.assertTrue(it.calls, it.path)


class Changed(Tools):
    """What was changed of definitions, from the two tables."""

    def setUp(self) -> None:
        super().setUp()
        def answer(verdict, at=''):
            return {'verdict': verdict, 'crate': 'low', 'at': at, 'before': 'a', 'after': 'b'}
        def table(name, rows):
            return pathlib.Path(self.file(name, json.dumps(rows)))
        laws = table('laws', {'low.X.f.sign-1': answer('broken', 'a_law/over'),
                              'low.X.f.sign-2': answer('proves'), 'low.X.f.sign-3':
                              answer('proves'), 'low.X.g.fact-1': answer('not read')})
        citing = table('citing', {'low.X.f.sign-1': answer('proves'),
                                  'low.X.f.sign-2': answer('broken', 'call/ok')})
        for name, path in (('LAWS', laws), ('CITING', citing)):
            patched = mock.patch.object(changed, name, path)
            patched.start()
            self.addCleanup(patched.stop)
        changed.outcomes.cache_clear()
        self.addCleanup(changed.outcomes.cache_clear)

    def test_at_a_definition(self):
        self.assertEqual(changed.tried_text('low.X.f'), '<p class="quiet">Changed in 3 ways: 1 '
                         'breaks a law, 1 breaks the code or a lemma, 1 breaks nothing that was '
                         'looked at (a_law).</p>')
        self.assertEqual(changed.tried_text('low.X.g'), '')

    def test_what_a_law_refuses(self):
        law = next(it for it in all_calls() if it.is_law and it.crate == 'bay_load')
        named = dataclasses.replace(law, crate='low', name='a_law', owner='')
        self.assertEqual([name for name, _ in changed.refused_by([named, law])],
                         ['low.X.f.sign-1'])
        self.assertIn('broken by a_law', changed.refused_text([named])[0])

    def test_what_breaks_no_law(self):
        found = changed.held_by_no_law({'low': (3, 4), 'top': (0, 1_000)})
        self.assertIn('3 changes', found)
        self.assertIn('low, call/ok', found)
        self.assertNotIn('sign-1', found)
        self.assertIn('can make 1,004 changes', found)
        self.assertIn('3 of these were tried: low 3 of 4, top 0 of 1,000.', found)
        self.assertNotIn('can make', changed.held_by_no_law({}))

    def test_what_a_case_shows(self):
        with mock.patch.object(changed, 'cases', lambda: {'low.X.f.sign-3': ('low_cases', 'one')}):
            self.assertIn('a case of low_cases differs: one', changed.held_by_no_law({}))
        with mock.patch.object(changed, 'cases', lambda: {'low.X.f.sign-3': ('because', 'one')}):
            self.assertIn('nothing, because one', changed.held_by_no_law({}))

    def test_each_case_is_there(self):
        tables = [json.loads((changed.DATA / it).read_text(encoding='utf-8'))
                  for it in ('anchors.json', 'laws.json')]
        for name, (program, line) in changed.cases().items():
            self.assertIn('proves', [it[name]['verdict'] for it in tables if name in it], name)
            if program != changed.NO_CASE:
                path = TOP / 'crates' / program / 'stdin'
                given = path.read_text(encoding='utf-8').splitlines()
                self.assertTrue(any(it.startswith(line) for it in given), line)


class ChangesThatBreakNothing(unittest.TestCase):
    # The crates of which each change was tried, and each that breaks nothing is told.
    TOLD = 'il_check', 'il_compile', 'il_image', 'il_scan', 'il_text', 'il_verify'

    def test_each_has_a_case_or_a_reason(self):
        """By a case that differs, or by the reason why none can."""
        self.assertEqual([name for of in changed.outcomes().values()
                          for name, (kind, _) in of.items() if kind == changed.NOTHING
                          and name.split('.')[0] in self.TOLD and name not in changed.cases()], [])


class Standards(unittest.TestCase):
    def test_each_definition_names_its_clause_or_is_own(self):
        for it in (it for crate in standards.STATED for it in standards.definitions_of(crate)):
            place = f'{it.path.relative_to(TOP)}:{it.line}'
            self.assertTrue(standards.clauses_of_definition(it), f'{place}: {it.name}'
                            ' names no clause, and does not say that it is own')

    def test_each_definition_is_counted_once(self):
        for crate in standards.STATED:
            number, with_clause, own = standards.counts(crate)
            self.assertGreater(number, 0, crate)
            self.assertEqual(number, with_clause + own, crate)

    def test_what_a_comment_cites(self):
        for text, clauses in (
                ('bit 6 (X.690 8.1.2.5, 8.4; ISO 9506-2, Data)',
                 [('X.690', '8.1.2.5'), ('X.690', '8.4'), ('ISO 9506-2', 'Data')]),
                ('IEC 61131-3:2003, 2.2, annex B.1.2 and tables 24, 26 and 28',
                 [('IEC 61131-3', it) for it in ('2.2', 'B.1.2', 'table 24', 'table 26',
                                                 'table 28')]),
                ('ISO 8823-1 Context-list, CP-type', [('ISO 8823-1', 'Context-list'),
                                                      ('ISO 8823-1', 'CP-type')]),
                ('(IEC 61850-7-3, ctlModel)', [('IEC 61850-7-3', 'ctlModel')]),
                ('of our own', [])):
            self.assertEqual(standards.clauses_in(text), clauses, text)


class Base(Tools):
    """What the head of the page says of the kit, of the gate, and of what the page lacks."""

    def make_kit(self) -> pathlib.Path:
        """A kit with sums of its own, whose `toml` is over `core`."""
        kit = self.folder / 'kit'
        for name, text in (('WHAT', 'archive a1\ncommit b2\n'), ('bin/rattle', 'prover'),
                           ('logic_built/format', 'rattle logic-built v1\nlogic c3\n'),
                           ('rlibs/toml.rlib/format', f'over core d4\nsum {"5" * 64}\n')):
            path = kit / name
            path.parent.mkdir(parents=True, exist_ok=True)
            path.write_text(text)
        return kit

    def test_a_kit(self):
        found = dict(base.rows_of_kit(self.make_kit()))
        self.assertIn('(archive a1, commit b2)', found['Kit'])
        self.assertEqual(found['Prover'], f'SHA-256 {hashlib.sha256(b"prover").hexdigest()}')
        self.assertEqual(found['Logic'], 'c3; taken as built')
        libraries = found['Libraries of the kit'].partition(';')[0].split(', ')
        self.assertIn(f'toml {"5" * 16}', libraries)
        self.assertIn('core unknown', libraries)

    def test_no_kit(self):
        self.assertEqual(base.rows_of_kit(None), [('Kit', base.NO_KIT)])

    def test_a_run_of_the_gate(self):
        self.assertEqual(base.gate_text(None), base.NO_GATE)
        log = 'rt: low proved\nrt: high is kept: x\n1 passed, 0 failed\n7 passed, {} failed{}\n'
        for failed, more, told in (
                (0, '', 'passed: 7 passed, 0 failed; 1 crate proved in this run, 1 taken from '),
                (0, ', 2 not tried', 'passed: 7 passed, 0 failed, 2 not tried; 1 crate proved'),
                (1, '', 'NOT PASSED: 7 passed, 1 failed; ')):
            path = self.file('gate.log', log.format(failed, more))
            self.assertTrue(base.gate_text(pathlib.Path(path)).startswith(told))

    def test_what_the_page_lacks(self):
        edit = edits_of('bay_device')[0]
        told = Refusal('gone', '', 'a goal ..', 'c0ffee', '2026-11-29', 'only so')
        with mock.patch.object(refusals, 'read_table', lambda: {edit.key: told}):
            found = base.left_out()
        count = sum(len(edits_of(it)) for it in crates())
        self.assertIn(f'of {count} wrong bodies {count - 1} have no answer of the prover here, 1 '
                      'one of code that has changed, 1 one that the kit cut, and 1 one against',
                      found)
        with mock.patch.object(refusals, 'read_table', lambda: {edit.key: told}):
            self.assertIn('only so', breaks(edit))

    def test_an_answer_of_code_that_has_changed(self):
        edit = edits_of('bay_device')[0]
        told = Refusal('gone', 'ok', 'a goal', 'c0ffee', '2026-11-29')
        with mock.patch.object(refusals, 'read_table', lambda: {edit.key: told}):
            self.assertEqual(breaks(edit), 'broke gone: ok, which is gone: the code has changed '
                             'since (c0ffee): a goal')

    def test_the_libraries_of_the_kit_are_on_the_page_of_what_is_trusted(self):
        page = (TOP / 'docs' / 'TRUSTED.md').read_text(encoding='utf-8')
        row = re.search(r"^\| \*\*The kit's libraries\*\* \((.*?)\)", page, re.M)
        self.assertEqual(set(re.findall(r'\w+', row[1])) - {'and'},
                         {*base.named_libraries(), 'std'})


class Written(Tools):
    def test_the_page(self):
        out = self.folder / 'a page.html'
        self.assertEqual(self.call_tool('trace', '--out', out).status, 0)
        page = out.read_text(encoding='utf-8')
        anchors = re.findall(r' id="([^"]+)"', page)
        self.assertEqual(len(anchors), len(set(anchors)))
        links = {html.unescape(it) for it in re.findall(r'href="([^"]+)"', page)}
        for link in links:
            path, _, place = link.partition('#')
            there = place in anchors if not path else (self.folder / path).is_file()
            self.assertTrue(there, link)

    def test_each_word_of_a_clause_and_a_definition_leads_to_its_definition_on_the_page(self):
        for text in re.findall(r'<pre>(.*?)</pre>', Sheet('.').page(), re.S):
            self.assertEqual(re.findall(r'href="([^#"][^"]*)"', text), [])

    def test_the_page_by_standard(self):
        page = StandardSheet('.').page()
        anchors = re.findall(r' id="([^"]+)"', page)
        self.assertEqual(len(anchors), len(set(anchors)))
        links = re.findall(r'href="#([^"]+)"', page)
        self.assertEqual({html.unescape(it) for it in links} - set(anchors), set())
        for clause in ('8.1.3.6', 'InitiateRequestPDU', 'table 10'):
            self.assertIn(f'<tr><td>{clause}</td>', page)

    def test_links_elsewhere(self):
        page = Sheet('https://host/at').page()
        self.assertIn('href="https://host/at/README.md#L', page)
        for name in ('TRUSTED', 'HAZARDS'):
            self.assertIn(f'href="https://host/at/docs/{name}.md"', page)
            self.assertTrue((TOP / 'docs' / f'{name}.md').exists())

    def test_a_folder_that_is_not_there(self):
        found = self.call_tool('trace', '--out', self.folder / 'none' / 'page.html')
        self.assertEqual((found.status, found.out), (3, ''))


if __name__ == '__main__':
    unittest.main()
