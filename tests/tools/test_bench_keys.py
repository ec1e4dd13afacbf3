"""The model beside which bench/trials/keys holds bayctl: small runs, worked out by hand."""
import sys
import unittest

from baytools.common.paths import TOP

sys.path.append(str(TOP / 'bench' / 'trials'))
from key_model import FAULTS, Ask, Bay, Switch

QA1 = Switch('QA1', 'breaker', 'sbo-enhanced', 1000, 500, 'K', True, ('', 'F'))
QB1 = Switch('QB1', 'disconnector', 'direct', 0, 500, 'K', False, ('', ''))
QB2 = Switch('QB2', 'disconnector', 'sbo', 1000, 500, '', False, ('', ''))


class Keys(unittest.TestCase):
    """A bay with one key for two switches, in which all is open and released."""

    def setUp(self) -> None:
        self.bay, self.now = Bay([QA1, QB1, QB2], ['K', 'F'], 100), 0
        self.apply('open', 1)
        for at in range(3):
            self.apply('contact', at, 1)
        self.apply('input', 'F', True)
        self.apply('scan')

    def apply(self, kind, *more):
        self.now += 1
        return self.bay.event(self.now, kind, *more)

    def ask(self, verb, switch, on=True, who='a', check='00'):
        """The answer to a client, its cause, and the command."""
        seen = self.apply('ask', Ask(1, verb, switch, on, who, False, check))
        return seen.answer, seen.cause, seen.command

    def turns(self, is_remote):
        self.apply('input', 'K', is_remote)
        self.apply('scan')

    def test_at_remote(self):
        self.turns(True)
        self.assertEqual(self.ask('select', 0), ('done', None, None))
        self.assertEqual(self.ask('operate', 0), ('done', None, ('QA1', True)))
        self.assertEqual(self.apply('contact', 0, 2).ends, [(1, 'QA1', True, None)])

    def test_at_local(self):
        self.assertEqual(self.ask('select', 0), ('done', None, None))
        self.assertEqual(self.ask('operate', 0), ('refused', 2, None))
        self.assertEqual(self.ask('operate', 0), ('refused', 18, None))  # the selection has ended
        self.assertEqual(self.ask('operate', 1), ('refused', None, None))
        self.assertEqual(self.ask('select', 2), ('done', None, None))
        self.assertEqual(self.ask('operate', 2), ('done', None, ('QB2', True)))

    def test_in_the_order_of_the_checks(self):
        self.apply('input', 'F', False)
        self.apply('scan')
        for lost, is_remote, cause in ((True, False, 9), (False, False, 2), (False, True, 10)):
            if lost:
                self.apply('lost')
            else:
                self.turns(is_remote)
            self.ask('select', 0)
            self.assertEqual(self.ask('operate', 0, check='10'), ('refused', cause, None))
        self.apply('input', 'F', True)
        self.apply('scan')
        self.ask('select', 0)
        self.assertEqual(self.ask('operate', 0, check='10'), ('refused', 11, None))
        self.ask('select', 0)
        self.assertEqual(self.ask('operate', 0, check='01'), ('done', None, ('QA1', True)))

    def test_after_a_loss(self):
        self.turns(True)
        self.apply('lost')
        self.apply('contact', 1, 1)
        self.apply('scan')
        self.assertEqual(self.ask('operate', 1)[0], 'refused')
        self.turns(True)
        self.assertEqual(self.ask('operate', 1)[0], 'done')

    def test_a_key_that_is_turned(self):
        self.turns(True)
        self.ask('select', 0)
        self.turns(False)
        self.assertEqual(self.ask('operate', 0), ('refused', 2, None))
        self.turns(True)
        self.ask('select', 0)
        self.ask('operate', 0)
        self.turns(False)
        self.assertEqual(self.apply('contact', 0, 2).ends, [(1, 'QA1', True, None)])

    def test_a_synchrocheck_of_an_open(self):
        self.apply('contact', 0, 2)
        self.turns(True)
        self.ask('select', 0, on=False)
        self.assertEqual(self.ask('operate', 0, on=False, check='10'),
                         ('done', None, ('QA1', False)))
        self.apply('contact', 0, 1)
        self.apply('scan')
        self.assertEqual(self.ask('operate', 1, check='10')[0], 'done')

    def test_a_fault_that_is_planted(self):
        self.assertIn('an operate passes at local', FAULTS)
        self.bay.planted = 'an operate passes at local'
        self.assertEqual(self.ask('operate', 1), ('done', None, ('QB1', True)))


if __name__ == '__main__':
    unittest.main()
