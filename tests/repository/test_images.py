"""The counts that bayctl_tests has for changed images are those of the rules of docs/IMAGE.md."""
import collections
import functools
import re
import unittest

from baytools.common.paths import TOP
from tests.repository.image_rules import fault_number

SOURCE = (TOP / 'crates' / 'bayctl_tests' / 'src' / 'device.rt').read_text(encoding='utf-8')
IMAGE = re.search(r'const IMAGE: .*?\[\s*"(\w+)",\s*"(\w+)",\s*\];', SOURCE, re.S).groups()
# The codes with their counts, of each part of the image, by version.
COUNTED = {f'0{version}': re.findall(r'"([\d= ]+)"', texts) for version, texts in
           re.findall(r'const VERSION_([12]): \[&str; 5\] = \[(.*?)\];', SOURCE, re.S)}
PART = int(re.search(r'const PART: usize = (\d+);', SOURCE)[1])
# The points of the bay of these tests whose names can occur: two positions and two releases of each
# of its two switches.
POINTS = {f'{switch}_{name}': ('BOOL', name.startswith('ENA_')) for switch in ('QA1', 'QB1')
          for name in ('OPEN', 'CLOSED', 'ENA_OPN', 'ENA_CLS')}


def image(version: str) -> bytes:
    """The image of the tests in a version."""
    return bytes.fromhex(IMAGE[0] + version + IMAGE[1])


def counts(octets: bytes, part: range) -> str:
    """The numbers of the faults of the images in which one octet of a part has another value, 0 for
    those that are loaded, with how often each occurs."""
    found = collections.Counter(
        fault_number(octets[:at] + bytes([value]) + octets[at + 1:], POINTS)
        for at in part for value in range(256) if value != octets[at])
    return ''.join(f'{number}={found[number]} ' for number in sorted(found))


class Images(unittest.TestCase):
    refused = staticmethod(functools.partial(fault_number, bay=POINTS))

    def test_the_image_is_loaded_in_either_version(self) -> None:
        self.assertEqual(set(COUNTED), {'01', '02'})
        self.assertEqual([self.refused(image(it)) for it in COUNTED], [0, 0])

    def test_changed_images(self) -> None:
        for version, counted in COUNTED.items():
            octets = image(version)
            self.assertEqual(len(octets), PART * len(counted))
            for at, text in enumerate(counted):
                with self.subTest(version, part=at):
                    part = range(PART * at, PART * at + PART)
                    self.assertEqual(counts(octets, part), text)

    def test_each_kind_of_fault(self) -> None:
        head = bytes.fromhex('494c424302' '0000' '0000' '0000')
        for code, number in (
                ('020001', 0), ('0101', 97), ('0200', 99), ('', 99), ('0601', 90), ('07000001', 94),
                ('20000001', 95), ('1b000101', 96), ('1b000001', 0),
                ('0200' * 33 + '01', 91), ('030001' '0200' '0f0201', 92),
                ('030001' '030000' '120201', 93), ('030001' '030001' '120201', 0),
                ('0200' '1c0001' '06' '01', 98), ('25', 82), ('0202', 82), ('0580000000', 82)):
            with self.subTest(code):
                octets = bytes.fromhex(code)
                length = len(octets).to_bytes(2, 'big')
                self.assertEqual(self.refused(head + length + octets), number)
        self.assertEqual(self.refused(head + bytes.fromhex('000301')), 83)
        self.assertEqual(self.refused(b'ILBX'), 80)
        self.assertEqual(self.refused(b'ILBC\x03'), 81)
        point = bytes.fromhex('0001' '0100' '08') + b'QA9_OPEN'
        self.assertEqual(self.refused(head[:5] + point + head[7:] + bytes.fromhex('0003020001')),
                         100)


if __name__ == '__main__':
    unittest.main()
