"""The floats of PROTOCOL and of the cases are the nearest to their integers, by a computation with
integers alone."""
import re
import struct
import unittest

from baytools.common.paths import TOP

PAGE = TOP / 'docs' / 'PROTOCOL.md'
CASES = TOP / 'crates' / 'layer_cases' / 'stdin'
ANSWERS = (TOP / 'crates' / 'bayctl_cases' / 'stdin',
           TOP / 'examples' / '13_interworking' / 'sessions')
ROW = re.compile(r'^\| (-?[\d,]+) \| (-?[\d,]+)\.0 \| `87 05 08 ([0-9A-F ]{11})` \|$', re.MULTILINE)
CASE = re.compile(r'^value ([PM])(\d+) -> Float\(\[8, ([\d, ]+)\]\) \|870508(\w{8})$', re.MULTILINE)
PAIR = re.compile(r'85(01\w{2}|02\w{4}|03\w{6}|04\w{8})870508(\w{8})')
DIGITS = 24  # of a float of 32 bits, in binary
MOST = 1 << 31


def nearest(number: int) -> tuple[int, str]:
    """The whole number of at most 24 binary digits, zeros after them aside, that is nearest to a
    number, and of two the one with an even last digit; and its octets as a float."""
    size = abs(number)
    unit = 1 << max(0, size.bit_length() - DIGITS)
    count, rest = divmod(size, unit)
    if 2 * rest > unit or 2 * rest == unit and count % 2:
        count += 1
    found = count * unit
    exponent = found.bit_length() - 1
    octets = (exponent + 127 << 23) + (found << 23 >> exponent) - (1 << 23) if found else 0
    return (-found, f'{octets | 1 << 31:08x}') if number < 0 else (found, f'{octets:08x}')


class Floats(unittest.TestCase):
    def test_the_computation(self):
        """Python's own conversion agrees with it, also at the places where it rounds."""
        edges = [1 << bits for bits in range(32)]
        numbers = [edge + more for edge in edges for more in (-129, -65, -64, -63, -3, -1, 0, 1, 3,
                                                              64, 65, 127, 128, 129, 192)]
        for number in [*numbers, *(-it for it in numbers), *range(1 << 24, (1 << 24) + 500)]:
            found, octets = nearest(number)
            packed = struct.pack('>f', number)
            self.assertEqual((float(found), octets), (*struct.unpack('>f', packed), packed.hex()))

    def test_the_page(self):
        rows = ROW.findall(PAGE.read_text(encoding='utf-8'))
        self.assertGreater(len(rows), 5)
        for integer, number, octets in rows:
            found = int(number.replace(',', '')), octets.replace(' ', '').lower()
            self.assertEqual(found, nearest(int(integer.replace(',', ''))))

    def test_what_the_page_says_of_them(self):
        """Up to 2^24 they are the integer itself, and beyond differ by at most 64."""
        self.assertEqual(nearest((1 << 24) + 1)[0], 1 << 24)
        self.assertTrue(all(nearest(it)[0] == it for it in range(1 << 24, (1 << 24) - 999, -1)))
        self.assertEqual(max(abs(nearest(it)[0] - it) for it in range(MOST - 999, MOST)), 64)
        page = ' '.join(PAGE.read_text(encoding='utf-8').split())
        self.assertIn(f'From -{1 << 24:,} to {1 << 24:,} (2^24) each integer is a float', page)
        self.assertIn('they differ by at most 64', page)

    def test_cases_of_the_layers(self):
        cases = CASE.findall(CASES.read_text(encoding='utf-8'))
        self.assertGreater(len(cases), 15)
        for sign, size, listed, octets in cases:
            self.assertEqual(octets, nearest(int(size) * (-1 if sign == 'M' else 1))[1])
            self.assertEqual(bytes(map(int, listed.split(','))).hex(), octets)

    def test_answers(self):
        """Each f is the nearest to the i before it."""
        pairs = {pair for file in ANSWERS for pair in PAIR.findall(file.read_text('utf-8'))}
        numbers = {int.from_bytes(bytes.fromhex(it[2:]), signed=True): octets
                   for it, octets in pairs}
        self.assertGreaterEqual(set(numbers), {0, 1, -1, 123456789, 16777217, -16777219, MOST - 1,
                                               -MOST})
        self.assertEqual(len(numbers), len(pairs))
        for number, octets in numbers.items():
            self.assertEqual(octets, nearest(number)[1], number)


if __name__ == '__main__':
    unittest.main()
