"""The words of comments in crates: no comment has one that CONTRIBUTING ('Words') says to avoid.

A comment is what stands in crates/*/src/*.rt after `//`, and in crates/*/specs/*.antt after `--`,
without code in backticks."""
import pathlib
import re
import unittest
from dataclasses import dataclass

from baytools.common.paths import TOP


@dataclass(frozen=True)
class Word:
    """A word to avoid: its name in CONTRIBUTING's table, how it is found, what to write for it, and
    why."""
    name: str
    pattern: str
    write: str
    why: str


WORDS = [
    Word('tell', r'\b(?:tell|tells|told|telling)\b', 'report, notify',
         'people tell; code reports'),
    Word('foretell', r'\b(?:foretells?|foretold|forecasts?)\b', 'predict',
         'the standard word for a result that is known before a run'),
    Word('stands for', r'\bst(?:and|ands|ood|anding) for\b', 'encode, denote, represent',
         'says which of the three it is'),
    Word('stand', r'\bst(?:and|ands|ood|anding)\b(?! for\b)', 'be, occur, state',
         'nothing in a program stands'),
    Word('behind', r'\bbehind\b', 'after, following; the rest',
         '`behind` is said of things in a room, not of an order'),
    Word('front', r'(?<!in )\bfronts?\b', 'prefix, the first N', 'the word of lists'),
    Word('in front', r'\bin front\b', 'before', 'one word for one thing'),
    Word('come to', r'\bc(?:ome|omes|ame|oming) to\b', 'end with, yield, issue',
         'does not say whether it is a result or an effect'),
    Word('so many', r'\bso many\b', 'n, at most n, this number of', 'name the number'),
    Word('said', r'\b(?:is|are|was|were) said\b|\bsaid of\b', 'line, text, output',
         'name what is printed'),
    Word('hear', r'\bhears?\b', 'receive, handle', 'a program receives'),
    Word('hang on', r'\bhang(?:s|ing)? on\b|\bhung on\b', 'depend on', 'the plain word'),
    Word('owe', r'\bowe[sd]?\b|\bdut(?:y|ies)\b', 'must; settings', 'the plain word'),
    Word('outlook', r'\boutlooks?\b', 'truth set', 'the field\'s word'),
    Word('news', r'\bnews\b|\bpartings?\b', 'event of the connection; close reason',
         'the field\'s word'),
    Word('talk', r'\btalk(?:s|ed|ing)?\b', 'connection state; serve', 'the field\'s word'),
    Word('want of memory', r'\bwants? of memory\b|\bmemory is refused\b|'
         r'\b(?:take|takes|took|need|needs) no (?:more )?memory\b',
         'out of memory; does not allocate', 'says that an allocation fails, or that none is made'),
    Word('is over', r'\b(?:is|are|was|were) over\b(?! the\b| an?\b| \d)|'
         r'\bha(?:s|ve) run out\b',
         'has expired, is complete', 'says whether a time ended or a task'),
    Word('place', r'(?<!\bin )(?<!\bin the )(?<!\btake )(?<!\btakes )(?<!\btakes its )'
         r'(?<!\btake its )\bplaces?\b',
         'index; offset in code; position of a switch alone', 'says what is counted'),
    Word('ask', r'\b(?:ask|asks|asked|asking)\b', 'request, requested', 'the word of MMS'),
    Word('kept', r'\bkept\b', 'buffered, stored, retained; unchanged',
         'says where, or that nothing changes'),
    Word('gives', r'(?:^|(?<=\. ))(?:Gives|Says)\b', 'return',
         'the word for the result of a call'),
    Word('meant', r'\b(?:is|are|was|were) meant\b', 'be covered by, apply to',
         'says of which rule'),
    Word('bears', r'\bbear(?:s|ing)?\b|\bbore\b', 'prove, establish, be a witness of',
         'the word of proofs'),
    Word('takes octets', r'\bt(?:ake|akes|aken|ook|aking) (?:the |these |more |no )?octets\b',
         'consume, read', 'the word of parsers'),
    Word('connection is taken', r'\b(?:connection|client)s? (?:is|are|was|were) taken\b',
         'accept', 'the word of sockets')]
FOUND = [(word, re.compile(word.pattern, re.IGNORECASE)) for word in WORDS]
# Texts and characters of the code, in which the mark of a comment is none.
TEXT = re.compile(r'"(?:\\.|[^"\\])*"|\'(?:\\.|[^\'\\])\'')


def comments(text: str, mark: str) -> list[str]:
    """The comments of a source, each with its lines joined, so that a phrase may be broken."""
    found: list[str] = []
    is_open = False
    for line in text.split('\n'):
        code = TEXT.sub(lambda it: ' ' * len(it[0]), line) if mark == '//' else line
        at = code.find(mark)
        if at >= 0:
            said = line[at:].lstrip('/-! ').rstrip()
            if is_open and not code[:at].strip():
                found[-1] += f' {said}'
            else:
                found.append(said)
        is_open = at >= 0 and not code[:at].strip()
    return [re.sub(r'`[^`]*`', '``', it) for it in found]


def sources() -> list[tuple[pathlib.Path, str]]:
    return [*((path, '//') for path in sorted(TOP.glob('crates/*/src/**/*.rt'))),
            *((path, '--') for path in sorted(TOP.glob('crates/*/specs/**/*.antt')))]


def find_words() -> list[str]:
    """Each use of a word to avoid: the file, the word, what to write and why, and the comment."""
    found = []
    for path, mark in sources():
        for comment in comments(path.read_text(encoding='utf-8'), mark):
            found += [f'{path.relative_to(TOP)}: "{word.name}": write {word.write} ({word.why}): '
                      f'{comment[:120]}' for word, pattern in FOUND if pattern.search(comment)]
    return found


class Words(unittest.TestCase):
    def test_no_comment_has_a_word_to_avoid(self):
        self.assertGreater(len(sources()), 700)
        self.assertEqual(find_words(), [])

    def test_the_table_of_contributing_has_each_word(self):
        page = (TOP / 'CONTRIBUTING.md').read_text(encoding='utf-8')
        table = page.partition('\n## Words\n')[2].partition('\n## ')[0]
        avoided = [row.split('|')[2] for row in table.splitlines() if row.count('|') > 3]
        for word in WORDS:
            self.assertTrue(any(word.name in it for it in avoided), word.name)

    def test_comments_are_found(self):
        rust = 'let a = "// told";  // it stands\n/// A\n/// b.\nfn f() {}\n// `told` c\n'
        self.assertEqual(comments(rust, '//'), ['it stands', 'A b.', '`` c'])
        self.assertEqual(comments('-- one\n--   two\nx = 1\n-- three', '--'),
                         ['one two', 'three'])

    def test_words_are_found(self):
        for told, names in (('What a turn tells.', {'tell'}), ('a prefix of the octets', set()),
                            ('a front of the octets behind it', {'front', 'behind'}),
                            ('fails for want of memory', {'want of memory'}),
                            ('over the limit', set()), ('its time is over.', {'is over'}),
                            ('in place of the first', set()), ('at a place', {'place'}),
                            ('Gives the range.', {'gives'}), ('what it gives', set())):
            found = {word.name for word, pattern in FOUND if pattern.search(told)}
            self.assertEqual(found, names, told)


if __name__ == '__main__':
    unittest.main()
