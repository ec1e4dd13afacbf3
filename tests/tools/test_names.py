"""The names of a bay, as clients see them and as its file has them."""
import unittest

from baytools.bay.names import Names
from baytools.common import positions
from baytools.wire import mms, words
from baytools.wire.mms import Data

FILE = '''[bay]
domain = "D"
[[switch]]
id = "QA1"
kind = "breaker"
[[switch]]
id = "QB1"
kind = "disconnector"
[[meter]]
id = "M1"
'''


class Titles(unittest.TestCase):
    NAMES = Names(FILE)

    def test_switches(self):
        for name, told in (('D/CSWI2$ST$Pos', 'CSWI2$ST$Pos (QB1)'), ('XSWI1', 'XSWI1 (QB1)'),
                           ('LLN0$ST', 'LLN0$ST'), ('E/CSWI1', 'E/CSWI1')):
            self.assertEqual(self.NAMES.titled(name), told)

    def test_measured_values_have_their_points_and_no_unit(self):
        for name, told in (
                ('MMXU1$MX$TotW$mag$i', 'M1_TOTW, in the unit of the process'),
                ('MMXU1$MX$A$phsB$cVal$mag$i', 'M1_AB, in the unit of the process'),
                ('MMXU1$MX$Hz', 'M1_HZ, in the unit of the process'),
                ('MMXU1$MX$Hz$q', 'M1_HZ'), ('MMXU1$MX', 'M1'), ('MMXU1$MX$A', 'M1')):
            self.assertEqual(self.NAMES.titled(name), f'{name} ({told})')
        self.assertEqual(Names().titled('MMXU1$MX$Hz'), 'MMXU1$MX$Hz')


class Floats(unittest.TestCase):
    def test_octets(self):
        """Floats are those of IEEE 754: the nearest to a number, and of two the even one."""
        for value, found, digits in (
                (0.0, 0.0, '00000000'), (1.0, 1.0, '3f800000'), (-1.0, -1.0, 'bf800000'),
                (16777217.0, 16777216.0, '4b800000'), (-16777219.0, -16777220.0, 'cb800002'),
                (123456789.0, 123456792.0, '4ceb79a3'), (2147483647.0, 2147483648.0, '4f000000'),
                (-0.15625, -0.15625, 'be200000')):
            octets = mms.octets_of(Data(mms.FLOAT, value))
            self.assertEqual(octets.hex(), f'870508{digits}')
            self.assertEqual(mms.data_of(mms.FLOAT, octets[2:]), Data(mms.FLOAT, found))

    def test_other_widths(self):
        """What is no float of 32 bits is its octets."""
        for digits in ('0b3ff0000000000000', '0800000000', '0b00000000', '080000', ''):
            octets = bytes.fromhex(digits)
            value = mms.data_of(mms.FLOAT, octets)
            self.assertEqual(value.value, 0.0 if digits == '0800000000' else octets)
            self.assertEqual(mms.octets_of(value)[2:], octets)

    def test_a_type(self):
        content = bytes.fromhex('020120020108')
        self.assertEqual(mms.type_of(mms.FLOAT_TYPE, content), 'floating-point 32 8')

    def test_words(self):
        for value, told in ((0.0, '0.0'), (-1.0, '-1.0'), (2147483648.0, '2147483648.0'),
                            (words.single(0.1), '0.1'), (words.single(1 / 3), '0.33333334'),
                            (1e20, '1e+20'), (float('inf'), 'inf'), (float('nan'), 'nan')):
            self.assertEqual(words.value_text('X', Data(mms.FLOAT, value)), told)
        self.assertEqual(words.value_text('X', Data(mms.FLOAT, b'\x0b\0')), '0B 00')


class Words(unittest.TestCase):
    def test_what_an_operate_does(self):
        for on, told in ((True, 'close'), (False, 'open')):
            value = Data(mms.BOOLEAN, on)
            self.assertEqual(words.value_text('CSWI1$CO$Pos$Oper$ctlVal', value), told)
            self.assertEqual(positions.way_of(on), told)
        self.assertEqual([words.value_text('CSWI1$ST$Pos$stVal', Data(mms.BITS, bits))
                          for bits in ('00', '01', '10', '11')], list(positions.POSITIONS))


if __name__ == '__main__':
    unittest.main()
