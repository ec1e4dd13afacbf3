"""The documents: what they link to and name is there."""
import re
import unittest

from baytools.common.paths import TOP
from baytools.diagnosis.faults import faults
from baytools.wire.words import ADD_CAUSES

PAGES = [*sorted(TOP.glob('*.md')), *sorted(TOP.glob('docs/*.md')),
         *sorted(TOP.glob('examples/**/README.md')), *sorted(TOP.glob('bench/*.md'))]
LINK = re.compile(r'\]\(([^)\s]+)\)')
FOLDERS = 'docs|tools|tests|packaging|bench|examples|crates|(?<!/)dev'
NAMED = re.compile(rf'`?\b((?:{FOLDERS})/[\w./-]*\w)')
DEFINED = re.compile(r'\[`(\w+)`\]\(([^)#\s]*crates/[^)\s]+)\)')
MADE = re.compile(r'/out\b|/NAME\b')  # what a build or the reader makes


def anchors(page):
    """What a link into a page may name: its headings as a reader of Markdown spells them."""
    headings = re.findall(r'^#+ (.*)$', page.read_text(encoding='utf-8'), re.MULTILINE)
    return {re.sub(r'[^\w -]', '', heading.lower()).replace(' ', '-') for heading in headings}


def is_there(page, link):
    path, _, anchor = link.partition('#')
    goal = (page.parent / path).resolve() if path else page
    return goal.exists() and (not anchor or anchor in anchors(goal))


class Documents(unittest.TestCase):
    def test_links(self):
        for page in PAGES:
            text = ' '.join(page.read_text(encoding='utf-8').split())
            for link in LINK.findall(text):
                if '://' not in link:
                    self.assertTrue(is_there(page, link), f'{page.name}: {link}')

    def test_named_files(self):
        """CHANGELOG names what was there at its version."""
        for page in PAGES:
            text = page.read_text(encoding='utf-8') if page.name != 'CHANGELOG.md' else ''
            for name in NAMED.findall(text):
                if not MADE.search(name):
                    self.assertTrue((TOP / name).exists(), f'{page.name}: {name}')

    def test_names_that_lead_to_a_source_stand_there(self):
        found = [(page, name, link) for page in PAGES
                 for name, link in DEFINED.findall(page.read_text(encoding='utf-8'))]
        self.assertGreater(len(found), 9)
        for page, name, link in found:
            source = (page.parent / link).read_text(encoding='utf-8')
            self.assertRegex(source, rf'\b{name}\b', f'{page.name}: {link}')

    def test_the_formats_that_are_shown_are_the_definitions(self):
        """PROTOCOL shows them as they stand."""
        page = (TOP / 'docs' / 'PROTOCOL.md').read_text(encoding='utf-8')
        shown = page.partition('### Two formats beside')[2].partition('\n### ')[0]
        definitions = ' '.join(' '.join(path.read_text(encoding='utf-8').split())
                               for path in TOP.glob('crates/bay_*/specs/*.antt'))
        blocks = [it for it in shown.split('\n\n') if it.startswith('    ') and '::=' not in it]
        texts = [' '.join(it.split()) for block in blocks
                 for it in re.split(r'\n    (?=\w+ =)', block)]
        self.assertEqual(len(texts), 8)
        for text in texts:
            self.assertIn(text, definitions)

    def test_the_walks_name_code(self):
        """What ARCHITECTURE follows from a contact and from an operate are calls, modules and
        fields, and no definitions."""
        text = (TOP / 'docs' / 'ARCHITECTURE.md').read_text(encoding='utf-8')
        walks = text.partition('\n## From a contact')[2].partition('\n## Glossary')[0]
        names = set(re.findall('`([a-z_]+)`', walks))
        self.assertGreater(len(names), 9)
        files = list(TOP.glob('crates/*/src/*.rt'))
        code = ''.join(path.read_text(encoding='utf-8') for path in files)
        there = set(re.findall(r'\b(?:fn |pub (?=\w+:))(\w+)', code))
        there |= {path.stem for path in files}
        self.assertEqual(names - there, set())

    def test_reserved_words(self):
        """LANGUAGE lists those that the program has, and PROVED counts them."""
        code = (TOP / 'crates' / 'bay_base' / 'src' / 'words.rt').read_text(encoding='utf-8')
        words = set(re.findall(r'^ +\("(\w+)", ReservedWord', code, re.MULTILINE))
        pages = [(TOP / 'docs' / f'{name}.md').read_text('utf-8')
                 for name in ('PROVED', 'LANGUAGE')]
        self.assertIn(f'the {len(words)} words that are reserved', pages[0])
        listed = pages[1].partition("Reserved words can't be names: the\noperators below, ")[2]
        listed = set(re.findall(r'\w+', listed.partition('. Q, ET')[0]))
        below = pages[1].partition('### Operators')[2].partition('### Parentheses')[0]
        self.assertEqual(listed | set(re.findall(r'\b[A-Z_]+\b', below)) & words, words)
        free = re.search(r'are not reserved above, such as ([A-Z, ]+) and (\w+), may be', pages[1])
        self.assertEqual({*free[1].split(', '), free[2]} & words, set())
        self.assertGreater(len(listed), 9)

    def test_the_operator_finds_each_cause(self):
        """Each AddCause that PROTOCOL says is reported has its row, with its words."""
        protocol, operator = [(TOP / 'docs' / f'{name}.md').read_text(encoding='utf-8')
                              for name in ('PROTOCOL', 'OPERATOR')]
        rows = protocol.partition('| AddCause | |\n')[2].partition('\n\n')[0].splitlines()[1:]
        causes = {int(number) for row in rows
                  for number in re.findall(r'\b(\d+) [a-z\d]', row.split('|')[1])}
        self.assertGreater(len(causes), 9)
        table = operator.partition('## When an operate is refused')[2].partition('\n## ')[0]
        told = re.findall(r'^\| ([a-z\d ]+) \((\d+)\)', table, re.MULTILINE)
        self.assertEqual({int(number) for _, number in told}, causes)
        for words, number in told:
            self.assertEqual(words, ADD_CAUSES[int(number)])

    def test_the_examples_are_in_their_table(self):
        """Each folder is there, in its order, and begins with two commands."""
        examples = TOP / 'examples'
        folders = sorted(it.name for it in examples.iterdir() if it.is_dir())
        index = (examples / 'README.md').read_text(encoding='utf-8')
        self.assertEqual(re.findall(r'(?m)^\| \[(\w+)\]\(\1/README\.md\)', index), folders)
        self.assertEqual([it[:3] for it in folders],
                         [f'{at:02}_' for at in range(1, len(folders) + 1)])
        for name in folders:
            page = (examples / name / 'README.md').read_text(encoding='utf-8')
            start = page.split('\n\n')[1]
            self.assertEqual(len(re.findall(r'(?m)^    \$ ', start)), 2, name)

    def test_tables(self):
        for page in PAGES:
            for block in page.read_text(encoding='utf-8').split('\n\n'):
                rows = block.strip('\n').split('\n')
                if rows[0].startswith('|'):
                    self.assertTrue(len(rows) > 2 and rows[1].startswith('|--'),
                                    f'{page.name}: {rows[0]}')

    def test_headline(self):
        quoted = [re.findall(r'^> (.*)$', page.read_text(encoding='utf-8'), re.MULTILINE)
                  for page in (TOP / 'README.md', TOP / 'docs' / 'PROVED.md')]
        self.assertEqual(*[' '.join(lines) for lines in quoted])

    def test_version(self):
        """The newest version of CHANGELOG is what the program and its cases say."""
        def find_first(path, pattern):
            return re.search(pattern, (TOP / path).read_text(encoding='utf-8'), re.MULTILINE)[1]
        said = {find_first('CHANGELOG.md', r'^## (\d\S*)'),
                find_first('crates/bay_cli/src/command.rt', r'const VERSION: &str = "([^"]*)"'),
                find_first('crates/bayctl_cases/stdin', r'^bayctl (\d\S*)$')}
        self.assertEqual(len(said), 1, said)

    def test_faults(self):
        for fault in faults().values():
            self.assertTrue(fault.cause and fault.mend, fault.code)


if __name__ == '__main__':
    unittest.main()
