"""What is handed out is called: by the product, or by its users under the names below."""
import re
import unittest

from devtools.paths import CRATES
from tests.repository.test_crates import crates

# What runs cases and tests.
TESTING = {'bayctl_tests', 'bay_diagram_tests', 'bayctl_cases', 'layer_cases', 'cases'}
# Public calls for whoever uses the layer by itself; the product makes others of the same bodies.
FOR_USERS = {
    'audit',  # a whole audit; the command prints each answer when it has it
    'bits',  # a bit string, written; the product's are constants
    'failures', 'reads',  # how many calls failed, and how many were made
    'fits',  # whether a scan can take these inputs
    'is_hazard',  # whether an operation is a hazard; no command uses it yet
    'is_tree',  # whether rows are a tree
    'job_of',  # the job that words ask for
    'judge',  # a release by the hazards in a diagram; no command uses it yet
    'names_after',  # a page of a tree's names
    'read_diagram',  # a diagram file; no command uses it yet
    'replay_run',  # a replay between any reader and any writer
    'scan',  # a scan with a list of inputs and of outputs
    'scan_ranges',  # what a scan may leave, without limits on timers
    'serve_turn',  # a turn with a line of text
    'tree',  # the tree of a device's values
}
OUTSIDE = re.compile(r'//.*|^\s*ghost .*$', re.M)
CLAUSE = re.compile(r'^\s*(?:ensures|requires)\b[^{]*\{', re.M)
HANDED_OUT = re.compile(r'^\s*pub(?:\(crate\))? (?:const )?fn (\w+)(?![^{;]*\{\}$)', re.M)
CALLED = re.compile(r'(?<!fn )\b(\w+)\s*(?:::<[^>]*>)?\(')
AS_A_VALUE = re.compile(r'\b(?:map|map_err|and_then|unwrap_or_else)\((?:\w+::)*(\w+)\)')


def without_clauses(text: str) -> str:
    """The code alone."""
    text = OUTSIDE.sub('', text)
    while found := CLAUSE.search(text):
        depth, at = 1, found.end()
        while depth:
            depth += {'{': 1, '}': -1}.get(text[at], 0)
            at += 1
        text = text[:found.start()] + text[at:]
    return text


class Calls(unittest.TestCase):
    def test_what_is_handed_out_is_called(self):
        handed_out, called = {}, set(FOR_USERS)
        for crate in set(crates()) - TESTING:
            for path in (CRATES / crate / 'src').rglob('*.rt'):
                text = without_clauses(path.read_text(encoding='utf-8'))
                called |= set(CALLED.findall(text)) | set(AS_A_VALUE.findall(text))
                if path.name != 'laws.rt':
                    for name in HANDED_OUT.findall(text):
                        handed_out.setdefault(name, path)
        self.assertGreater(len(handed_out), 500)
        self.assertEqual({name: str(path) for name, path in handed_out.items()
                          if name not in called}, {})
