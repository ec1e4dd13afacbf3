"""Faults planted in the programs of examples, without bayctl."""
import types
import unittest
from unittest import mock

from baytools.audit.answers import BROKEN, HOLDS, OPEN, Answer, Proof
from baytools.audit.variables import WAYS, keys_of
from baytools.bay.files import bay_at
from baytools.bay.rules import SWITCH, read_rules
from devtools.check import planted
from devtools.check.planted import EXAMPLES, Fault, broken_rules, parts_of, read_faults

KNOWN = {(SWITCH, 'QA1')}
RULES = read_rules('never QA1 open|close\nalways QA1 close|open\nnever QA1 close\n', KNOWN)


def proofs(*verdicts: str) -> list[Proof]:
    return [Proof(*part, verdict) for part, verdict in zip(parts_of(RULES), verdicts)]


class Planted(unittest.TestCase):

    def test_each_rule_is_broken_by_a_fault_in_each_direction(self):
        for path in EXAMPLES.glob('*/faults'):
            _, file = bay_at(path.with_name('bay.toml'))
            rules = read_rules(path.with_name('rules').read_text(), keys_of(file))
            found = [fault.rules() for fault in read_faults(path.read_text())]
            parts = {(line, WAYS[way]) for line, _, way in parts_of(rules)}
            self.assertEqual(parts - set().union(*found), set())
            self.assertTrue(all(found), 'a fault that breaks nothing')

    def test_each_fault_changes_one_line(self):
        for path in EXAMPLES.glob('*/faults'):
            logic = path.with_name('logic.il').read_text()
            for fault in read_faults(path.read_text()):
                changed = fault.planted(logic).split('\n')
                pairs = enumerate(zip(logic.split('\n'), changed, strict=True), 1)
                self.assertEqual([at for at, (one, other) in pairs if one != other], [fault.line])
                self.assertEqual(changed[fault.line - 1].strip(), fault.new)

    def test_a_fault_of_another_line_is_not_planted(self):
        with self.assertRaisesRegex(ValueError, "line 2 is 'ST a', not 'LD a'"):
            Fault(2, 'LD a', '', '').planted('LD a\nST a\n')

    def test_a_file_of_faults(self):
        fault, empty = read_faults('# none\n\n8 | ST a |  | BROKEN 12 open\n'
                                   '7 | LD a | LDN a | BROKEN 1 open|close; OPEN 3 close\n')[::-1]
        self.assertEqual((fault.line, fault.old, fault.new), (7, 'LD a', 'LDN a'))
        self.assertEqual(fault.rules(), {(1, 'open'), (1, 'close'), (3, 'close')})
        self.assertEqual((empty.new, empty.rules()), ('', {(12, 'open')}))

    def test_what_is_told_of_answers(self):
        self.assertEqual(broken_rules(proofs(*[HOLDS] * 5), RULES), '')
        self.assertEqual(broken_rules(proofs(BROKEN, BROKEN, OPEN, BROKEN, OPEN), RULES),
                         'BROKEN 1 open|close, 2 open; OPEN 2 close, 3 close')
        with self.assertRaises(ValueError):
            broken_rules(proofs(HOLDS), RULES)
        with self.assertRaises(ValueError):
            broken_rules(proofs(*[HOLDS] * 5)[::-1], RULES)

    def test_an_answer_that_differs_is_told(self):
        checks = types.SimpleNamespace(bayctl='none', file=lambda name, text: name,
                                       holds=lambda name, is_so, told: seen.append((is_so, told)))
        seen, answer = [], Answer('', [])
        with mock.patch('devtools.check.planted.questions.run_audit', lambda *_: answer), \
                mock.patch('devtools.check.planted.broken_rules', lambda *_: 'BROKEN 5 open'):
            planted.faults_are_found(checks)
        wanted = {fault.told for path in EXAMPLES.glob('*/faults')
                  for fault in read_faults(path.read_text())}
        self.assertEqual({told for is_so, told in seen if not is_so},
                         {f'BROKEN 5 open, not {it}' for it in wanted - {'BROKEN 5 open'}})
        self.assertEqual(sum(is_so for is_so, _ in seen), 1)


if __name__ == '__main__':
    unittest.main()
