"""The formats as ASN.1: terms, types, components, and that each form of the definitions is told."""
import unittest

from devtools.formats.asn1 import MODULES, Module, form_of, module
from devtools.formats.terms import Term, read
from devtools.paths import CRATES
from devtools.trace.definitions import Definition
from tests.tool import Tools

DEFINED = (
    'unfoldable pub scope : Form Part Place\nscope =\n'
    '    choice (context 0) (map_form (λ x. whole_vmd) empty)\n'
    '    (tagged (context 1) (map_form in_domain octets))',
    'unfoldable pub row : Form (List Part) X\n'
    'row =\n'
    '    value_then (tagged int_tag (try_map_form id_of integer)) (maybe (context 2) octets done)',
    'unfoldable pub pair : {A : Type 0} → Form Part A → Form (List Part) A\n'
    'pair f = by_first (context 0) (value_then f (value_then scope done))\n'
    '    (value_then scope (value_then f done))',
    'unfoldable pub message : Form (List ℕ) X\n'
    'message = one (tagged (constructed 8) (fields_with_tags (int_tag ∷ context 2 ∷ []) row))',
    'unfoldable pub both : Form Part X\nboth = tagged set_tag (fields (pair scope))',
    'unfoldable pub all : Form Part X\nall = tagged sequence (each scope)',
    'unfoldable pub tree : ℕ → Form Part X\ntree zero = none\n'
    'tree (suc n) = choice (constructed 2) (each (tree n)) (tagged (context 3) truth)',
    'abbrev pub count : ℕ → ℕ\ncount n = n')
WANTED = {
    'scope': 'Scope ::= CHOICE {\n  field-0 [0] IMPLICIT NULL,\n'
             '  field-1 [1] IMPLICIT OCTET STRING }',
    'message': 'Message ::= [8] IMPLICIT SEQUENCE {\n'
               '  integer INTEGER (CONSTRAINED BY {-- id_of --}),\n'
               '  field-2 [2] IMPLICIT OCTET STRING OPTIONAL,\n  ... }',
    'both': 'Both ::= SET {\n  scope Scope,\n  scope-2 Scope\n  -- in either order }',
    'all': 'All ::= SEQUENCE OF Scope',
    'tree': 'Tree ::= CHOICE {\n  tree [2] IMPLICIT SEQUENCE OF Tree,\n'
            '  field-3 [3] IMPLICIT BOOLEAN }'}


def forms() -> dict:
    found = {}
    for text in DEFINED:
        name = text.partition(' : ')[0].split()[-1]
        form = form_of(Definition('bay_mms', CRATES, name, 1, 'what it is', text))
        if form:
            found[name] = form
    return found


class Terms(unittest.TestCase):
    def test_applications_lists_and_functions(self):
        self.assertEqual(read('f (g x) (λ y. (y)) z'), Term('f', (
            Term('g', (Term('x'),)), Term('(λ y. (y))'), Term('z'))))
        self.assertEqual(read('f (a 1 ∷ b ∷ [])'), Term('f', (
            Term('list', (Term('a', (Term('1'),)), Term('b'), Term('[]'))[:2]),)))


class Types(unittest.TestCase):
    def test_each_form(self):
        found = forms()
        self.assertEqual(list(found), ['scope', 'row', 'pair', 'message', 'both', 'all', 'tree'])
        texts = Module(found).text()
        self.assertEqual(len(texts), len(WANTED))
        for name, wanted in WANTED.items():
            self.assertIn(f'-- what it is\n{wanted}', texts, name)

    def test_the_forms_of_the_protocol(self):
        """Those that ISO names are there, and none is left unread."""
        listing = module(*MODULES['mms'])
        self.assertIn('ServiceRequest ::= CHOICE {', listing)
        self.assertNotIn('by a relation of its own', listing)
        text = module(*MODULES['association'])
        self.assertNotIn('by a relation of its own', text)
        self.assertIn('Associate ::= [APPLICATION 0] IMPLICIT SEQUENCE {', text)


class Printed(Tools):
    def test_all_modules(self):
        found = self.call_tool('asn1')
        self.assertEqual((found.status, found.out.count('DEFINITIONS ::= BEGIN')), (0, 3))


if __name__ == '__main__':
    unittest.main()
