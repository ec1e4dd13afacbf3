"""Crates and files are listed in documents as they are: crates.txt is the one list of crates, and
each file that CONTRIBUTING names for a change is there."""
import re
import unittest

from baytools.common.paths import TOP
from devtools.paths import CRATES
from devtools.trace.calls import crates
from devtools.trace.promises import promises
from devtools.trace.trace_page import Sheet, head_of

# What runs cases and tests, or is handed to these, promises nothing; the program hands all on.
WITHOUT_PROMISE = {'bayctl_tests', 'bay_diagram_tests', 'bayctl', 'bayctl_cases', 'cases',
                   'layer_cases'}
# What is only tested.
TESTED = {'bay_net'}
ROW = re.compile(r'^\| ((?:\w+(?:, )?)+) \|', re.M)
FILE = re.compile(r'^(?:src|specs|proofs)/[\w/]+\.(?:rt|antt)$|^stdin$|^\w+\.(?:rt|antt|py)$')


def text_of(page: str) -> str:
    return (TOP / page).read_text(encoding='utf-8')


def section_of(page: str, heading: str) -> str:
    return text_of(page).partition(f'\n## {heading}\n')[2].partition('\n## ')[0]


def crates_in(text: str) -> list[str]:
    """The crates that the first cells of tables list, as often as they do."""
    known = set(crates())
    return [name for cell in ROW.findall(text) for name in cell.split(', ') if name in known]


class Crates(unittest.TestCase):
    def test_each_folder_is_listed(self):
        folders = {it.name for it in CRATES.iterdir() if (it / 'src').is_dir()}
        self.assertEqual(set(crates()), folders)

    def test_architecture_has_each_crate_once(self):
        found = crates_in(section_of('docs/ARCHITECTURE.md', 'The crates'))
        self.assertEqual(sorted(found), sorted(crates()))

    def test_readme_names_what_is_only_tested(self):
        self.assertTrue(all(it in section_of('README.md', 'What is proved') for it in TESTED))

    def test_proved_has_a_promise_of_each_crate(self):
        found = {crate for it in promises() if it.page.name == 'PROVED.md' for crate in it.crates}
        self.assertEqual(set(crates()) - WITHOUT_PROMISE - TESTED - found, set())

    def test_each_crate_with_definitions_says_what_they_are(self):
        """`dev/trace` shows the head of its `specs/Lib.antt`, which names the first file."""
        page = Sheet('.').page()
        for it in crates():
            if (CRATES / it / 'specs' / 'Lib.antt').exists():
                files = {path.stem for path in (CRATES / it / 'specs').glob('*.antt')}
                named = files & set(re.findall(r'`(\w+)`', head_of(it)))
                self.assertTrue(named or files == {'Lib'}, it)
                self.assertIn(f'id="crate-{it}"', page)

    def test_the_table_of_the_gate_has_each_crate(self):
        """`dev/gate_table` writes it anew."""
        self.assertEqual(crates_in(text_of('bench/GATE.md')), crates())


class Changes(unittest.TestCase):
    def test_each_file_of_a_list_is_there(self):
        """A file is of the crate that its step named last, or below the folder named with it."""
        found = [it for text in lists() for it in files_in(text)]
        self.assertGreater(len(found), 150)
        for it in found:
            self.assertTrue(is_there(it), it)

    def test_the_table_counts_the_files_of_each_list(self):
        told = re.findall(r'^\| (An? [^|]+?) \|([\d |]+)\|$', text_of('CONTRIBUTING.md'), re.M)
        self.assertEqual(
            {title: [int(it) for it in cells.split('|')] for title, cells in told},
            {text.partition('\n')[0]: counts(files_in(text)) for text in lists()[:-2]})


def lists() -> list[str]:
    """The lists of what is changed where something is added, each behind its title."""
    return section_of('CONTRIBUTING.md', 'How a thing is added').split('\n### ')[1:]


def files_in(text: str) -> set[str]:
    """The files that a list names, from the top of the repository."""
    crate, folder, found = '', '', set()
    for quoted, plain in re.findall(r'`([^`\n]+)`|\b(\w+)\b', text):
        if plain in crates() and plain != 'cases':
            crate, folder = plain, ''
        elif (TOP / 'docs' / f'{plain}.md').exists():
            found.add(f'docs/{plain}.md')
        elif quoted.startswith(('tools/', 'dev/', 'packaging/', 'tests/')):
            path = quoted.split(' ')[0]
            found.add(path)
            crate, folder = '', path.rpartition('/')[0] if '.' in path else path
        elif FILE.match(quoted) and (crate or folder):
            found.add(f'{folder}/{quoted}' if folder else path_of(crate, quoted))
        elif quoted == 'stdin':
            found.add(f'crates/{crate}/stdin')
    return found


def path_of(crate: str, name: str) -> str:
    """A file of a crate, of which a list may give the last name alone."""
    places = ('src', 'specs')
    folder = next((f'{it}/' for it in places if (CRATES / crate / it / name).exists()), '')
    return f'crates/{crate}/{folder}{name}'


def is_there(path: str) -> bool:
    return (TOP / path).exists()


def counts(paths: set[str]) -> list[int]:
    """How many are definitions, code, proofs, cases, files of tools and pages, and all of them."""
    kinds = (('/specs/',), ('/src/',), ('/proofs/',), ('/stdin',),
             ('tools/', 'dev/', 'packaging/', 'tests/repository/'), ('docs/',))
    found = [sum(any(part in it for part in kind) for it in paths) for kind in kinds]
    return [*found, len(paths)]


if __name__ == '__main__':
    unittest.main()
