"""docs/LIMITS.md: each number is the one of its definition and of the code's constant."""
import re
import unittest

from baytools.common.paths import TOP
from tests.repository.test_model import lines, node_lines

ROW = re.compile(r'^\| ([^|]+) \| ([\d,]+)[^|]* \| ([^|]+) \|([\w ]*)\|([^|]*)\|([^|]*)\|$',
                 re.MULTILINE)
NUMBER = re.compile(r'\b(?:0x[0-9A-Fa-f_]+|\d[\d_]*)\b')
CONSTANT = re.compile(r'[A-Z_]+')
FAULT = re.compile(r'^\w*code_of .*= (?:Some )?(\d+)$', re.MULTILINE)


def place_of(crate, folder, ending, cell):
    """The file that a cell names, below crates/, with what the cell says is there.

    A file of another crate than the row's has its name before it, as in `il_image/Machine`.
    """
    file, _, said = cell.strip(' `').partition(': ')
    other, _, file = file.rpartition('/')
    return f'{other or crate.strip()}/{folder}/{file}.{ending}: {said}' if file else ''


def rows():
    """The rows of the page: what is limited, its number, and where definition and code have it."""
    page = (TOP / 'docs' / 'LIMITS.md').read_text(encoding='utf-8')
    return [(what, int(number.replace(',', '')), place_of(crate, 'specs', 'antt', definition),
             place_of(crate, 'src', 'rt', code))
            for what, number, _, crate, definition, code in ROW.findall(page)]


def faults_of(crate):
    """The numbers of the faults that a crate defines."""
    files = (TOP / 'crates' / crate / 'specs').glob('*.antt') if crate else ()
    return {number for path in files for number in FAULT.findall(path.read_text('utf-8'))}


def most_rows(profile):
    """How many rows a bay has with as many breakers, or as many other switches, as it may have, all
    with enhanced select, and as many meters and inputs."""
    nodes = {name: 1 + len(lines) for name, lines in node_lines(profile).items()}
    control = nodes['CSWIn'] + sum(map(len, map(lines, ('select_with_value', 'operate', 'cancel'))))
    own = nodes['LLN0'] + nodes['LPHD1'] + 8 * nodes['MMXUn']
    if profile == 2:
        own += nodes['GGIO1'] + 63 * (len(lines('input')) + len(lines('input_description')))
    return [own + 32 * (nodes[name] + control + nodes['CILOn']) for name in ('XCBRn', 'XSWIn')]


def numbers(text):
    """The numbers in a text, but for those that begin with 0."""
    return {int(number.replace('_', ''), 0) for number in NUMBER.findall(text)
            if not re.fullmatch(r'0\d+', number)}


def source(place):
    """The text of the file that a cell names, and what the cell says is there."""
    path, _, said = place.partition(': ')
    return (TOP / 'crates' / path).read_text(encoding='utf-8'), said


def numbers_at(place):
    """The numbers of the lines that a cell names: a constant's value, a text, or the whole file."""
    text, said = source(place)
    if CONSTANT.fullmatch(said):
        return numbers(re.search(rf'const {said}: \w+ = ([^;]+);', text)[1])
    if said:
        return numbers(said) if said in text else set()
    return numbers(text)


class Limits(unittest.TestCase):
    def test_rows(self):
        self.assertGreater(len(rows()), 30)
        for what, number, definition, code in rows():
            for place in (definition, code):
                if place:
                    self.assertIn(number, numbers_at(place), f'{what}: {place}')

    def test_what_is_answered_past_them(self):
        """A number there is one of the faults that the crate defines, where it defines any."""
        page = (TOP / 'docs' / 'LIMITS.md').read_text(encoding='utf-8')
        held = 0
        for what, _, past, crate, _, _ in ROW.findall(page):
            number, defined = re.fullmatch(r'(?:closed )?(\d+)', past), faults_of(crate.strip())
            if number and defined:
                self.assertIn(number[1], defined, what)
                held += 1
        self.assertGreater(held, 20)

    def test_rows_without_a_definition(self):
        page = (TOP / 'docs' / 'LIMITS.md').read_text(encoding='utf-8')
        words = {count: word for count, word in enumerate('four five six seven eight'.split(), 4)}
        count = sum(not definition for _, _, definition, _ in rows())
        self.assertIn(f'{words[count].capitalize()} rows have no definition',
                      ' '.join(page.split()))

    def test_a_bay_at_all_its_limits(self):
        """Its file has as many bytes as DECISIONS says, and its rows are those of RESULTS."""
        names = ''.join(f'[[input]]\nname = "I{at:015}"\n' for at in range(64)) + ''.join(
            f'[[meter]]\nid = "M{at:015}"\nscale = -6\n' for at in range(8)) + ''.join(
            f'[[switch]]\nid = "S{at:015}"\nkind = "breaker"\ncontrol = "sbo-enhanced"\n'
            f'sbo_timeout_ms = 600000\ntravel_ms = 600000\nremote = "I{at:015}"\n'
            'synchrocheck = "refuse"\n' for at in range(32))
        texts = ''.join(f'{key} = "{"x" * 64}"\n' for key in ('vendor', 'model', 'revision'))
        file = (f'[bay]\ndomain = "{"D" * 32}"\n{texts}scan_max_age_ms = 600000\nprofile = 2\n'
                + names)
        page = (TOP / 'docs' / 'DECISIONS.md').read_text(encoding='utf-8')
        self.assertIn(f'a bay at all its limits has {len(file):,} bytes', ' '.join(page.split()))
        breakers, others = most_rows(1)
        page = ' '.join((TOP / 'bench' / 'RESULTS.md').read_text(encoding='utf-8').split())
        for told, count in (('{:,} rows of profile 1;', breakers),
                            ('a bay has {:,} at most', others),
                            ('and {:,} rows of profile 2', max(most_rows(2)))):
            self.assertIn(told.format(count), page)

    def test_constants(self):
        """Each limit of the code that is called one by its name has a row."""
        listed = {code for _, _, _, code in rows()}
        for path in sorted(TOP.glob('crates/*/src/*.rt')):
            for name in re.findall(r'const (\w*(?:MAX|LIMIT)\w*): usize', path.read_text('utf-8')):
                place = f'{path.relative_to(TOP / "crates")}: {name}'
                self.assertTrue(place in listed or name == 'MAX_NAME', place)


if __name__ == '__main__':
    unittest.main()
