"""A release: the package and its places, counts of logs, sums; and what the promises rest on."""
import pathlib
import re
import shutil
import subprocess
import sys
import unittest
from unittest import mock

from baytools.common.ending import Failed
from baytools.common.paths import TOP
from devtools.paths import CRATES, DATA
from devtools.release import evidence
from devtools.release.package import COMMANDS, laid_out, files_below, packaged_unit, package
from devtools.trace.definitions import Definition
from devtools.trusted.checked import axioms_in, counts_in, libraries_in, verdict_in
from devtools.trusted.sizes import definitions, kind_of
from devtools.trusted.tables import BEGIN, END, with_figures
from tests.tool import Tools

REPORT = '''statements bay_base: modules loaded=1 checked=2
statements libc: modules loaded=0 checked=0
axioms libc: 2 reached of the 3 declared
  libc::close reached
  libc::open
  libc::read reached
logic=proved functions=1 sum=00
'''


class Package(Tools):
    def test_the_places(self):
        text = packaged_unit('ExecStart=/usr/local/bin/bayctl x /usr/local/lib/bayctl/tools/log\n')
        self.assertEqual(text, 'ExecStart=/usr/bin/bayctl x /usr/share/bayctl/tools/log\n')

    def test_what_is_installed(self):
        program = self.file('bayctl', 'PROGRAM')
        laid_out(self.folder / 'root', pathlib.Path(program))
        for name in ('usr/bin/bayctl', 'usr/share/bash-completion/completions/bayctl',
                     'usr/share/bayctl/tools/client', 'etc/bayctl',
                     'usr/lib/systemd/system/bayctl@.service', 'usr/lib/tmpfiles.d/bayctl.conf',
                     'usr/share/doc/bayctl/docs/SERVING.md', 'usr/share/doc/bayctl/copyright'):
            self.assertTrue((self.folder / 'root' / name).exists(), name)
        share = self.folder / 'root/usr/share/bayctl'
        self.assertEqual({it.name for it in share.iterdir()}, {'tools', 'docs', 'CHANGELOG.md'})
        self.assertEqual({it.name for it in (share / 'tools').iterdir()}, {*COMMANDS, 'baytools'})
        for path in (self.folder / 'root/usr/lib/systemd/system').iterdir():
            self.assertNotIn('/usr/local', path.read_text(encoding='utf-8'), path.name)

    def unpack(self):
        """The package in a folder of its own."""
        root = self.folder / 'unpacked'
        program = self.file('bayctl', '#!/bin/sh\necho load refused 51\nexit 1\n')
        laid_out(root, pathlib.Path(program))
        return root / 'usr' / 'bin'

    def test_each_command_runs_from_where_it_is_unpacked(self):
        """With nothing else of the repository; dev/check has them do what they are for."""
        commands = self.unpack()
        self.assertEqual(sorted(it.name for it in commands.iterdir()),
                         sorted(['bayctl', *(f'bayctl-{name}' for name in COMMANDS)]))
        for name in COMMANDS:
            done = subprocess.run([sys.executable, commands / f'bayctl-{name}', '--help'],
                                  cwd=self.folder, capture_output=True, text=True, timeout=60)
            self.assertEqual((done.returncode, done.stderr), (0, ''), name)
            self.assertIn(f'Usage: bayctl-{name} ', done.stdout)

    def test_an_installed_command_finds_bayctl_on_the_path_and_its_faults(self):
        commands = self.unpack()
        bay = self.file('bay.toml', '[bay]\n')
        for path, told in ((commands, 'is refused with 51'), ('', 'put bayctl on the path')):
            done = subprocess.run([sys.executable, commands / 'bayctl-diagnose', '--bay', bay],
                                  cwd=self.folder, capture_output=True, text=True, timeout=60,
                                  env={'PATH': str(path)})
            self.assertIn(told, done.stdout + done.stderr)
            self.assertNotIn('Traceback', done.stderr)

    def test_the_commands_are_those_of_the_page(self):
        part = (TOP / 'README.md').read_text(encoding='utf-8').partition('## Tools')[2]
        named = re.findall(r'`tools/(\w+)`', part.partition('| Exit status')[0])
        self.assertEqual(sorted(named), list(COMMANDS))
        page = (TOP / 'examples/12_station/README.md').read_text(encoding='utf-8')
        listed_there = page.partition('    for name in ')[2].partition('\n    do ')[0]
        self.assertEqual(listed_there.replace('\\', ' ').split(), list(COMMANDS))

    def test_what_checks_the_examples_is_left_out(self):
        found = files_below('examples')
        self.assertTrue([it for it in found if it.endswith('/bay.toml')])
        checks = '/check', '/run', '/try', '/serve'
        self.assertEqual([it for it in found if it.endswith(checks)], [])

    @unittest.skipUnless(shutil.which('dpkg-deb'), 'dpkg-deb is not there')
    def test_the_package(self):
        program = pathlib.Path(self.file('bayctl', 'PROGRAM'))
        made = package(self.folder, program, '9.9.9', 'Nobody <nobody@localhost>')
        told = subprocess.run(('dpkg-deb', '--field', made, 'Version', 'Architecture'),
                              capture_output=True, text=True, check=True).stdout
        self.assertEqual(told, 'Version: 9.9.9\nArchitecture: amd64\n')
        names = subprocess.run(('dpkg-deb', '--contents', made), capture_output=True, text=True,
                               check=True).stdout
        self.assertIn('root/root', names.split('\n')[0])
        self.assertIn('./usr/bin/bayctl', names)


class Completions(Tools):
    FILE = TOP / 'packaging' / 'completions' / 'bayctl'

    def complete(self, *words: str) -> set[str]:
        """What bash offers behind these words."""
        typed = ' '.join(map(repr, words))
        done = subprocess.run(['bash', '-c', f'. {self.FILE}; COMP_WORDS=({typed}); COMP_CWORD='
                               f'{len(words) - 1}; _bayctl; echo "${{COMPREPLY[@]}}"'],
                              capture_output=True, text=True, timeout=60)
        self.assertEqual(done.stderr, '')
        return set(done.stdout.split())

    def test_the_options_are_those_of_the_help(self):
        parts = re.split(r'(?m)^\$ bayctl ', (DATA / 'help.txt').read_text(encoding='utf-8'))[2:]
        self.assertEqual(len(parts), 5)
        names = [part.split()[0] for part in parts]
        self.assertEqual(self.complete('bayctl', ''), {*names, 'help', '--help', '--version'})
        for name, part in zip(names, parts):
            told = re.findall(r'(?m)^ +(?:-\w, +)?(--[\w-]+)', part.partition('Options:')[2])
            self.assertEqual(self.complete('bayctl', name, '--'), set(told), name)

    def test_a_file_is_left_to_bash(self):
        self.assertEqual(self.complete('bayctl', 'serve', '--bay', 'x'), set())
        self.assertEqual(self.complete('bayctl', 'serve', '--rec'), {'--record', '--record-most'})


class Evidence(Tools):
    def test_a_count(self):
        log = '1 passed, 0 failed\nci: 3 passed, 1 failed\n12 passed, 0 failed\n'
        self.assertEqual(evidence.last_count(log), (12, 0, 0, 0, 0))
        self.assertEqual(evidence.last_count('no count\n'), (0, 0, 0, 0, 0))
        self.assertEqual(evidence.last_count('9 passed, 0 failed, 4 not tried\n'), (9, 0, 4, 0, 0))

    def test_a_row_says_what_was_proved_anew(self):
        log = ('rt: low is kept: an earlier run on this machine proved the same files\n'
               'rt: mid proved\nrt: top: trying its must-fail edits (2)\nrt: top proved\n'
               'rt: mid is kept: an earlier run on this machine proved the same files\n'
               '9 passed, 0 failed\n')
        self.assertEqual(evidence.last_count(log), (9, 0, 0, 2, 1))
        gate = evidence.Run(0, 3.4, *evidence.last_count(log))
        with mock.patch.object(evidence, 'output_of', return_value='x'):
            row = evidence.summary('1.2.3', gate, None)
        self.assertTrue(row.endswith('| 9 passed, 0 failed, 3 minutes, 2 crates proved and 1 taken '
                                     'from earlier runs | not run |'), row)

    def test_a_run(self):
        found = evidence.run(['sh', '-c', 'echo "7 passed, 0 failed"'], self.folder,
                             self.folder / 'log')
        self.assertTrue(found.is_good)
        self.assertEqual((found.status, found.passed, found.failed), (0, 7, 0))

    def test_what_measured_a_commit_leaves_it_clean(self):
        def git(*words):
            subprocess.run(('git', '-c', 'user.name=n', '-c', 'user.email=e', *words), check=True,
                           cwd=self.folder, stdout=subprocess.DEVNULL)
        for name in (*evidence.MEASURED, 'README.md'):
            (self.folder / name).parent.mkdir(parents=True, exist_ok=True)
            (self.folder / name).write_text('as it was')
        git('init', '--quiet')
        git('add', '.')
        git('commit', '--quiet', '-m', 'first')
        for name in evidence.MEASURED:
            (self.folder / name).write_text('measured')
        self.assertTrue(evidence.is_clean(self.folder))
        (self.folder / 'README.md').write_text('changed')
        self.assertFalse(evidence.is_clean(self.folder))

    def test_no_evidence(self):
        for words in ('exit 0', 'echo "7 passed, 1 failed"', 'echo "7 passed, 0 failed"; exit 1'):
            found = evidence.run(['sh', '-c', words], self.folder, self.folder / 'log')
            self.assertFalse(found.is_good, words)

    def test_a_log_of_an_earlier_run(self):
        log = pathlib.Path(self.file('log', '7 passed, 0 failed\n'))
        self.assertEqual(evidence.read_log(log, 3.4), evidence.Run(0, 3.4, 7, 0))
        figures = pathlib.Path(self.file('figures.json', '{"runs": [{"commit": "a", "minutes": 1}, '
                                         '{"commit": "b", "minutes": 2}]}'))
        with mock.patch.object(evidence, 'FIGURES', figures):
            for commit, minutes in (('a', 1), ('b', 2), ('c', 0)):
                with mock.patch.object(evidence, 'output_of', return_value=commit):
                    self.assertEqual(evidence.measured_minutes(), minutes)

    def test_sums(self):
        self.file('a', 'x')
        self.file('SHA256SUMS', 'old')
        self.assertEqual(evidence.sums(self.folder),
                         '2d711642b726b04401627ca9fbac32f5c8530fb1903cc4db02258717921a4881  a\n')

    def test_no_program_and_no_folder(self):
        found = self.call_tool('release', '--out', self.folder, '--maintainer', 'M')
        self.assertIn(found.status, (1, 3))
        self.assertEqual(found.out, '')


class Trusted(unittest.TestCase):
    def test_a_report(self):
        self.assertEqual(libraries_in(REPORT, ['bay_base']), ['libc'])
        self.assertEqual([(it.library, it.declared, it.reached) for it in axioms_in(REPORT)],
                         [('libc', 3, ('libc::close', 'libc::read'))])
        self.assertEqual(counts_in(REPORT), (2, 3))
        self.assertEqual(counts_in('axioms os: os::a, os::b (2 of the 22 declared)\n'), (2, 22))
        self.assertTrue(verdict_in(REPORT).startswith('logic=proved'))
        self.assertEqual(verdict_in('logic=not-proved\n'), '')
        with self.assertRaises(ValueError):
            axioms_in(REPORT.replace('libc::read reached', 'libc::read'))

    def test_kinds(self):
        def kind(text):
            return kind_of(Definition('c', CRATES, text.split(' : ')[0].split()[-1], 1, '', text))
        self.assertEqual(kind('abbrev pub two : ℕ → ℕ\ntwo n = n + n'), 'functions')
        self.assertEqual(kind('abbrev pub IsTwo : ℕ → Type 0\nIsTwo n = n ≡ 2'), 'propositions')
        self.assertEqual(kind('pub record Pair : Type 0 where\n  pub a : ℕ'), 'types')
        self.assertEqual(kind('pub record Is (n : ℕ) : Type 0 where\n  pub a : n ≡ 2'),
                         'propositions')

    def test_all_definitions_have_a_kind(self):
        found = definitions()
        self.assertGreater(found['functions'].count, found['propositions'].count)
        self.assertGreater(found['propositions'].count, found['types'].count)

    def test_the_marks(self):
        self.assertEqual(with_figures(f'a {BEGIN} old {END} b', 'new'),
                         f'a {BEGIN}\n\nnew\n\n{END} b')
        with self.assertRaises(Failed):
            with_figures('a b', 'new')


if __name__ == '__main__':
    unittest.main()
