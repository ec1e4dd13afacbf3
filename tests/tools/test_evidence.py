"""The head of pages that are kept as evidence: it is the same on each, and says when, where, of
which files and by which version. No page replaces what is no page."""
import hashlib
import pathlib
import subprocess
import tomllib
import unittest
from unittest import mock

from baytools.bay.files import check_replaceable
from baytools.common import page_head
from baytools.common.ending import Failed
from baytools.common.paths import TOP
from devtools.commands import command
from devtools.trace import trace_page
from tests.tool import Tools

LINE = TOP / 'examples' / '07_diagrams' / 'line'
LOG = ('2026-11-28T23:59:59.500Z clients on 127.0.0.1:102\n'
       '2026-11-28T23:59:59.900Z position QA1 closed\n')
SUM = r'[0-9a-f]{64}'


class Heads(Tools):
    def head_of(self, page: pathlib.Path, tool: str, *sources: pathlib.Path) -> str:
        """The head of a page, which has what each of them has."""
        text = page.read_text()
        self.assertEqual(text.count('<table class="evidence">'), 2, tool)
        made_by = command(tool).relative_to(TOP)
        for told in ('>Machine<', page_head.as_html(page_head.machine()), f'>{made_by} of ',
                     'commit ', '>Made at<', '>Time<', 'SHA-256'):
            self.assertIn(told, text, tool)
        for path in sources:
            octets = path.read_bytes()
            self.assertIn(f'<code>{path.name}</code></td><td class="number">{len(octets):,}</td>'
                          f'<td><code>{hashlib.sha256(octets).hexdigest()}</code>', text)
        return text

    def test_a_log(self):
        log, out = self.file('server.log', LOG), self.folder / 'day.html'
        self.assertEqual(self.call_tool('log', log, '--html', out).error, '')
        text = self.head_of(out, 'log', log)
        for told in ('its first line is of 2026-11-28 23:59:59.500Z, its last of 2026-11-28 '
                     '23:59:59.900Z', '<td class="name">2026-11-28 23:59:59.900Z</td>',
                     'not named: a log does not say'):
            self.assertIn(told, text)
        bay = LINE / 'bay.toml'
        self.call_tool('log', '-', '--html', out, '--bay', bay, given=LOG)
        text = self.head_of(out, 'log', bay)
        self.assertIn(f'<code>standard input</code></td><td class="number">{len(LOG)}</td><td>'
                      f'<code>{hashlib.sha256(LOG.encode()).hexdigest()}</code>', text)
        domain = tomllib.loads(bay.read_text())['bay']['domain']
        self.assertIn(f'<td>Bay</td><td>{domain}</td>', text)
        self.assertIn('<td>Logged by</td><td>not told</td>', text)
        stamp = '2026-11-29T00:00:00.100000+0000 box bayctl@E05[7]: '
        self.call_tool('log', '-', '--html', out, given=stamp + LOG.split('\n')[1] + '\n')
        self.assertIn('<td>Logged by</td><td>bayctl@E05</td>', out.read_text())
        self.assertEqual(self.call_tool('log', log, '--bay', bay).status, 2)

    def test_rules_of_a_diagram(self):
        out = self.folder / 'rules.html'
        files = LINE / 'bay.toml', LINE / 'diagram.toml'
        found = self.call_tool('rules', *files, '--html', out)
        self.assertEqual((found.error, found.out), ('', (LINE / 'rules_of_diagram').read_text()))
        text = self.head_of(out, 'rules', *files)
        for told in ('never QA1 close when QB1 not open|closed', 'BB1 - QB1 - N1 - QA1',
                     'Signatures', 'TA1_CLOSED', 'class="diagram', 'No program was asked'):
            self.assertIn(told, text)

    def test_the_page_of_promises(self):
        """Its head alone, since the whole page takes long."""
        page = self.file('page.html', trace_page.head([('It has', '2 promises')], None))
        text = self.head_of(page, 'trace', *trace_page.PAGES)
        self.assertRegex(text, r'<code>sha256sum of [0-9,]{5,} files</code></td>'
                         rf'<td class="number">[0-9,]+</td><td><code>{SUM}</code>')


class Commits(Tools):
    def commit_text(self) -> str:
        page_head.commit.cache_clear()
        with mock.patch.object(page_head, 'TOP', self.folder.resolve()):
            return page_head.commit()

    def git(self, *words: str) -> None:
        subprocess.run(('git', '-c', 'user.name=A', '-c', 'user.email=a@b', *words),
                       cwd=self.folder, check=True, capture_output=True)

    def tearDown(self) -> None:
        page_head.commit.cache_clear()
        super().tearDown()

    def test_a_changed_tree_is_marked(self):
        self.assertIn('no commit', self.commit_text())
        self.git('init')
        self.assertIn('no commit', self.commit_text())
        file = self.file('a', 'one')
        self.git('add', 'a')
        self.git('commit', '-m', 'x')
        clean = self.commit_text()
        self.assertRegex(clean, r'\A[0-9a-f]{7,} of \d{4}-\d\d-\d\d\Z')
        file.write_text('two')
        self.assertEqual(self.commit_text(), f'{clean}, CHANGED in 1 path of this folder')
        self.git('commit', '-am', 'y')
        self.assertNotIn('CHANGED', self.commit_text())
        self.file('new', '')
        self.assertIn('CHANGED', self.commit_text())

    def test_a_folder_within_another_clone_has_no_commit(self):
        self.git('init')
        self.file('a', 'one')
        self.git('add', 'a')
        self.git('commit', '-m', 'x')
        inner = self.folder / 'inner'
        inner.mkdir()
        page_head.commit.cache_clear()
        with mock.patch.object(page_head, 'TOP', inner.resolve()):
            self.assertIn('no commit', page_head.commit())


class Replaced(Tools):
    def test_what_is_no_page_stays(self):
        for text in ('2026 command QA1 on\n', '%%\n', '# <!doctype html>'):
            path = self.file('kept', text)
            with self.assertRaisesRegex(Failed, 'kept: it is no page, so no page replaces it'):
                check_replaceable(path)
        for text in ('', '<!DOCTYPE html>\n<html>', '\ufeff<!doctype HTML>', ' <html lang="en">'):
            check_replaceable(self.file('page', text))
        check_replaceable(self.folder / 'new.html')
        check_replaceable('/dev/null')

    def test_each_tool_that_writes_a_page(self):
        kept, bay = self.file('expected', '5 scan steps=3\n'), LINE / 'bay.toml'
        logic, rules = LINE / 'logic.il', LINE / 'rules'
        steps, log = self.file('steps', 'expect accepted\n'), self.file('log', LOG)
        for words in (('audit', bay, logic, rules), ('rules', bay, LINE / 'diagram.toml'),
                      ('acceptance', steps, '--bay', bay, '--logic', logic), ('log', log)):
            found = self.call_tool(*words, '--html', kept)
            self.assertIn('it is no page', found.error, words)
            self.assertEqual((found.status, found.out), (3, ''), words)
        found = self.call_tool('trace', '--out', kept)
        self.assertEqual((found.status, found.error.count('it is no page')), (3, 1))
        self.assertEqual(kept.read_text(), '5 scan steps=3\n')

    def test_old_words_are_taken_with_a_warning(self):
        kept = self.file('expected', '5 scan steps=3\n')
        bay, logic, rules = LINE / 'bay.toml', LINE / 'logic.il', LINE / 'rules'
        found = self.call_tool('audit', bay, logic, rules, '--report', kept)
        self.assertEqual(found.error.split('\n')[0], 'audit: --report is called --html now; the '
                         'old word is still taken')
        self.assertIn('it is no page', found.error)
        found = self.call_tool('explain', f'--report={kept}')
        self.assertEqual((found.status, found.error), (0, 'explain: --report is called --printed '
                                                       'now; the old word is still taken\n'))
        same = self.call_tool('explain', '--printed', kept)
        self.assertEqual((same.out, same.error, same.status), (found.out, '', 0))
        found = self.call_tool('acceptance', kept, '--bay', bay, '--logic', logic, '--key', 'k')
        self.assertEqual(found.error, 'acceptance: --key is called --process-key now; the old word '
                         'is still taken\nacceptance: --process-key belongs to a served bay (see '
                         '--help)\n')


if __name__ == '__main__':
    unittest.main()
