"""How the tools are built: names, types and lines; and that the scripts of bench/ begin."""
import ast
import collections
import os
import pathlib
import shutil
import subprocess
import sys
import unittest

from baytools.common.paths import TOOLS, TOP
from devtools.paths import DEV, MODULES

BENCH = TOP / 'bench'
PACKAGES = TOOLS / 'baytools', DEV / 'devtools'
WIDTH = 100
SHEBANG = b'#!/usr/bin/env python3'
# What stands at the top; a program of cases that is run there leaves others.
AT_TOP = {'.gitignore', 'CHANGELOG.md', 'CONTRIBUTING.md', 'HANDLES', 'README.md', 'crates.txt'}
# What mypy --strict finds nothing in. A package whose last fault is mended is added here.
STRICT = (
    *(f'tools/baytools/{it}' for it in (
        'certify', 'checklist', 'common', 'fieldbus', 'log', 'rules', 'station')),
    *(f'dev/devtools/{it}' for it in (
        'figures', 'formats', 'release', 'sources', 'trusted', 'wrong_definitions', 'commands.py',
        'crate_copy.py', 'made_captures.py', 'paths.py')))


def modules() -> list[pathlib.Path]:
    """The modules of both packages, and the tests."""
    return [path for folder in (*PACKAGES, TOP / 'tests') for path in sorted(folder.rglob('*.py'))
            if path.name != '__init__.py']


def commands(folder: pathlib.Path) -> list[pathlib.Path]:
    return [path for path in sorted(folder.iterdir()) if path.is_file() and not path.suffix
            and path.read_bytes().startswith(SHEBANG)]


def tools() -> list[pathlib.Path]:
    """The commands of users and of developers."""
    return [*commands(TOOLS), *commands(DEV)]


def scripts() -> list[pathlib.Path]:
    """The scripts of bench/ and of the examples."""
    return [it for folder in (BENCH, TOP / 'examples') for it in sorted(folder.rglob('*'))
            if it.is_file() and (it.suffix == '.py' or it.read_bytes().startswith(SHEBANG))]


def imported_packages(path: pathlib.Path) -> set[str]:
    """The packages that a file imports, by their first names."""
    found = set()
    for node in ast.walk(ast.parse(path.read_text(encoding='utf-8'))):
        if isinstance(node, ast.Import):
            found |= {it.name.partition('.')[0] for it in node.names}
        elif isinstance(node, ast.ImportFrom) and not node.level:
            found.add((node.module or '').partition('.')[0])
    return found


class Layout(unittest.TestCase):
    def test_no_run_left_files_at_the_top(self):
        self.assertEqual({it.name for it in TOP.iterdir() if it.is_file()} - {'.git'}, AT_TOP)

    def test_tools_has_the_commands_of_users_alone(self):
        for folder, package in zip((TOOLS, DEV), PACKAGES):
            names = {it.name for it in folder.iterdir()} - {'__pycache__'}
            self.assertEqual(names, {it.name for it in commands(folder)} | {package.name})
        twice = {it.name for it in commands(TOOLS)} & {it.name for it in commands(DEV)}
        self.assertEqual(twice, set())

    def test_each_imports_what_it_may(self):
        """What users have imports nothing of the developers', and no tool imports a test."""
        users = [it for it in modules() if it.is_relative_to(TOOLS)] + commands(TOOLS)
        developers = [it for it in modules() if it.is_relative_to(DEV)] + commands(DEV)
        self.assertGreater(min(len(users), len(developers)), 40)
        for paths, others in ((users, {'devtools', 'tests'}), (developers, {'tests'})):
            for path in paths:
                self.assertEqual(imported_packages(path) & others, set(), path)

    def test_one_module_of_each_package_says_where_things_are(self):
        found = [str(it.relative_to(TOP)) for it in modules()
                 if not it.is_relative_to(TOP / 'tests')
                 and 'Path(__file__)' in it.read_text(encoding='utf-8')]
        self.assertEqual(found, ['tools/baytools/common/paths.py', 'dev/devtools/paths.py'])


class Imports(unittest.TestCase):
    @unittest.skipUnless(shutil.which('pyflakes3'), 'pyflakes is not installed')
    def test_pyflakes_finds_nothing(self):
        done = subprocess.run(['pyflakes3', *modules(), *tools(), *scripts()], capture_output=True,
                              text=True, timeout=300)
        self.assertEqual((done.stdout, done.stderr), ('', ''))

    def test_each_tool_ends_in_the_common_way(self):
        for path in tools():
            self.assertTrue(path.read_text(encoding='utf-8').endswith('    ends(main)\n'),
                            f'{path.name}: end it by baytools.common.ending')


class Types(unittest.TestCase):
    @unittest.skipUnless(shutil.which('mypy'), 'mypy is not installed')
    def test_mypy_finds_nothing(self):
        """In the packages that are strict."""
        words = ['mypy', '--strict', '--follow-imports=silent', '--cache-dir=/dev/null', *STRICT]
        done = subprocess.run(words, cwd=TOP, capture_output=True, text=True, timeout=600,
                              env={**os.environ, 'MYPYPATH': MODULES})
        self.assertEqual((done.returncode, done.stderr), (0, ''), done.stdout)


class Names(unittest.TestCase):
    def test_no_package_has_the_name_of_another(self):
        names = [path.name for folder in PACKAGES for path in folder.iterdir() if path.is_dir()]
        twice = [name for name, count in collections.Counter(names).items() if count > 1]
        self.assertLessEqual(set(twice), {'__pycache__', 'data'})

    def test_each_package_says_what_it_is(self):
        for folder in {path.parent for path in modules() if not path.is_relative_to(TOP / 'tests')}:
            self.assertTrue((folder / '__init__.py').read_text().startswith('"""'), folder)

    def test_each_function_says_what_it_returns(self):
        for path in [*modules(), *tools()]:
            if not path.is_relative_to(TOP / 'tests'):
                for node in ast.walk(ast.parse(path.read_text(encoding='utf-8'))):
                    is_named = isinstance(node, (ast.FunctionDef, ast.AsyncFunctionDef))
                    self.assertFalse(is_named and node.returns is None,
                                     f'{path.name}: {getattr(node, "name", "")}')

    def test_lines(self):
        for path in [*modules(), *tools()]:
            for number, line in enumerate(path.read_text(encoding='utf-8').split('\n'), 1):
                self.assertLessEqual(len(line), WIDTH, f'{path.name}: line {number}')


class Benches(unittest.TestCase):
    def test_each_script_begins(self):
        """What a script imports is there: its help is printed."""
        scripts = [path for path in BENCH.glob('*/*') if path.is_file() and not path.suffix
                   and path.read_bytes().startswith(SHEBANG)]
        self.assertGreater(len(scripts), 10)
        for path in scripts:
            done = subprocess.run([sys.executable, '-B', path, '--help'], capture_output=True)
            self.assertEqual((done.returncode, done.stderr), (0, b''), path.name)


if __name__ == '__main__':
    unittest.main()
