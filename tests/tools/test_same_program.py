"""Whether the program of `panel --logic` is one of the bay file's bay, as far as its text says."""
import unittest

from baytools.audit.same_program import OtherProgram, check_program
from baytools.common.paths import TOP

EXAMPLES = TOP / 'examples'


def files(name: str) -> tuple[str, bytes]:
    folder = EXAMPLES / name
    return (folder / 'logic.il').read_text(), (folder / 'bay.toml').read_bytes()


class Programs(unittest.TestCase):
    def refusal(self, text: str, bay: bytes) -> str:
        with self.assertRaises(OtherProgram) as caught:
            check_program('other.il', text, bay)
        self.assertEqual(caught.exception.status, 1)
        return str(caught.exception)

    def test_each_example_fits_its_own_bay(self):
        names = ('09_served', '06_feeder', '05_double_busbar', '07_diagrams/line',
                 '07_diagrams/single')
        for name in names:
            check_program('logic.il', *files(name))

    def test_a_program_of_another_bay(self):
        text, _ = files('07_diagrams/line')
        _, bay = files('09_served')
        told = self.refusal(text, bay)
        self.assertRegex(told, r'^--logic other.il: it is no program of this bay file: line \d+: '
                         r'the bay has no point \w+.*, and \d+ more; give the program')

    def test_a_point_of_another_type(self):
        text, bay = files('09_served')
        told = self.refusal(text.replace('QA1_OPEN', 'QA1_POS', 1), bay)
        self.assertIn('the point QA1_POS is a', told)

    def test_what_bayctl_refuses_is_left_to_it(self):
        _, bay = files('09_served')
        check_program('x.il', 'no program', bay)
        text, _ = files('09_served')
        check_program('x.il', text.replace('    LD ', '    LD misspelt_', 1), bay)


if __name__ == '__main__':
    unittest.main()
