"""How the files of crates are laid out, where `rt fmt` says nothing: comments, the names of lemmas
and the lengths of files."""
import re
import unittest

from baytools.common.paths import TOP
from devtools.paths import CRATES


LONGEST = 620
ITEM = re.compile(r'\s*(pub(?:\(\w+\))? )?(?:const fn|unsafe fn|fn|struct|enum|const|static|type) '
                  r'(?!_)\w+')
ATTRIBUTE = re.compile(r'\s*#!?\[')
TRAIT = re.compile(r'pub trait ')
LEMMA = re.compile(r'(?:abbrev )?pub ([A-Za-z]+) :')
IMPORT = re.compile(r'use Rattle\.(\w+)\.proofs\.([\w.]+)\.\{([^}]*)\}')


def sources(*suffixes: str) -> list:
    return [path for part in ('src', 'specs', 'proofs') for path in CRATES.glob(f'*/{part}/**/*')
            if path.suffix in suffixes]


def lines_of(path) -> list[str]:
    return path.read_text(encoding='utf-8').split('\n')


def comment_before(lines: list[str], at: int) -> str:
    """What stands before an item and its attributes."""
    at -= 1
    while at >= 0 and ATTRIBUTE.match(lines[at]):
        at -= 1
    return lines[at].strip() if at >= 0 else ''


def private_with_docs(path) -> list[str]:
    """Items of a file that only their module sees, but for those of public traits."""
    found, lines, is_trait = [], lines_of(path), False
    for at, line in enumerate(lines):
        is_trait = bool(TRAIT.match(line)) or is_trait and line != '}'
        item = ITEM.match(line)
        if item and not item[1] and not is_trait and comment_before(lines, at).startswith('///'):
            found.append(f'{path.relative_to(TOP)}:{at + 1}')
    return found


class Layout(unittest.TestCase):
    def test_private_items_have_plain_comments(self):
        self.assertEqual([it for path in sources('.rt') for it in private_with_docs(path)], [])

    def test_lemmas_named_by_one_word_say_what_they_prove(self):
        """Where they are used outside their file."""
        used = {(crate, module.replace('.', '/'), name.strip())
                for path in sources('.antt', '.rt')
                for crate, module, names in IMPORT.findall(path.read_text(encoding='utf-8'))
                for name in names.split(',')}
        self.assertGreater(len(used), 1000)
        for path in sources('.antt'):
            crate, part, *rest = path.relative_to(CRATES).with_suffix('').parts
            lines = lines_of(path) if part == 'proofs' else []
            for at, line in enumerate(lines):
                lemma = LEMMA.match(line)
                if lemma and (crate, '/'.join(rest), lemma[1]) in used:
                    self.assertTrue(lines[at - 1].startswith('--'),
                                    f'{path.relative_to(TOP)}:{at + 1}')

    def test_no_file_is_long(self):
        long = [str(path.relative_to(TOP)) for path in sources('.rt', '.antt')
                if len(lines_of(path)) - 1 > LONGEST]
        self.assertEqual(long, [])


if __name__ == '__main__':
    unittest.main()
