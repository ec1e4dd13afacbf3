"""The hazards beside which bench/trials/diagrams holds bayctl: small states, worked out by hand,
and the states of a bay at once."""
import dataclasses
import random
import sys
import unittest
from importlib.machinery import SourceFileLoader
from importlib.util import module_from_spec, spec_from_loader

from baytools.audit.answers import BROKEN, Case, Judged
from baytools.bay.files import bay_at
from baytools.bay.rules import SWITCH
from baytools.common.paths import TOP
from baytools.diagnosis import diagram_file
from baytools.diagram.diagram_file import diagram_at
from baytools.diagram.network import Network
from devtools.truths import releases

sys.path.append(str(TOP / 'bench' / 'trials'))
from diagram_hazards import CLOSE, IS_CLOSED, IS_OPEN, OPEN, UNKNOWN, Diagram, known_by
from diagram_networks import random_bay
from diagram_states import Bay, logic_at, mutants
from diagram_truth import Truth

FOLDER = TOP / 'examples' / '07_diagrams'
LETTERS = {'-': IS_OPEN, '+': IS_CLOSED, '?': UNKNOWN}
BOTH_WAYS = 'QB1+ QB2? CB1+ CA1+ CB2+'
# States for the hazards that count only if a key asks for them, which the simulation does not know.
ASKED = [
    ('double', 'QB1+ QB9+', 'QA1 close', 'Y'),  # BB1 and LINE
    ('double', 'QB1+', 'QA1 close', ''),  # QB9 parts LINE
    ('double', 'QB1+ QB9?', 'QA1 close', 'AY'),
    ('single', 'QB1+ QB9+ QC9+', 'QA1 close', 'J'),  # an earthed line is not live
    ('double', 'QB1+ QB2+ CB1+ CB2+ QA1+ QB9+', 'QA1 open', ''),  # no coupler
    ('double', 'QB1+ QB9+ QA1+ QC2+', 'QC2 open', 'L'),
    ('double', 'QB1+ QA1+ QC2+', 'QC2 open', 'L'),
    ('double', 'QB1+ QC2+', 'QC2 open', ''),  # an open breaker lets no current through
    ('double', 'QB9? QC2+', 'QC2 open', 'L'),
    ('single', 'QC9+', 'QC9 open', '')]  # no gap could part QC9 from its own line
# A bay, its switches with their positions (others are open), an operation, and its hazards.
STATES = [
    ('single', 'QB1+', 'QC1 close', 'E'),  # a closed disconnector to the busbar; QA1 is no gap
    ('single', '', 'QC1 close', ''),
    ('single', 'QB1?', 'QC1 close', 'E'),
    ('single', 'QB1+', 'QC1 open', ''),
    ('single', 'QC1+', 'QB1 close', 'JC'),  # it would earth the busbar, under current
    ('single', 'QC1+ QB9+', 'QA1 close', 'J'),  # it would earth the cable
    ('single', 'QC1+', 'QA1 close', ''),
    ('single', 'QC9+ QB1+ QB9+', 'QA1 close', 'J'),
    ('single', 'QB1+ QA1+ QB9+', 'QB9 open', 'C'),
    ('single', 'QB1+ QA1- QB9+', 'QB9 open', ''),
    ('single', 'QB1? QB9+', 'QA1 close', 'A'),
    ('single', 'QB1+ QA1+ QB9?', 'QA1 open', ''),  # in series: it takes the current off QB9
    ('double', 'QB1+ CB1+ CA1+ CB2+', 'QB2 close', ''),  # a transfer: the coupler lies beside QB2
    ('double', 'QB1+ CB1+ CA1- CB2+', 'QB2 close', 'C'),
    ('double', BOTH_WAYS, 'QB1 open', 'C'),
    ('double', 'QB1+ QB2? CB1+ CA1+ CB2+ QA1+ QB9+', 'QB1 open', 'CB'),  # QB2 has it then
    ('line', 'QB1+ QA1+ QB9?', 'QA1 open', ''),
    ('transformer', 'QB1+', 'QC1 close', 'E')]


def bench() -> object:
    """The script, as a module."""
    loader = SourceFileLoader('bench_diagrams', str(TOP / 'bench' / 'trials' / 'diagrams'))
    module = module_from_spec(spec_from_loader('bench_diagrams', loader))
    loader.exec_module(module)
    return module


def network_at(name: str) -> Network:
    return diagram_at(FOLDER / name / 'diagram.toml', bay_at(FOLDER / name / 'bay.toml')[1])


class Hazards(unittest.TestCase):
    def know(self, diagram: Diagram, told: str):
        given = {word[:-1]: LETTERS[word[-1]] for word in told.split()}
        names = [it.name for it in diagram.branches]
        self.assertLessEqual(set(given), set(names))
        return known_by(tuple(given.get(name, IS_OPEN) for name in names), diagram.sources)

    def test_states(self):
        for name, told, operation, hazards in STATES:
            with self.subTest(f'{name}: {told}: {operation}'):
                diagram = Diagram(network_at(name))
                switch, way = operation.split(' ')
                at = [it.name for it in diagram.branches].index(switch)
                known = self.know(diagram, told)
                found = diagram.hazards(at, (OPEN, CLOSE)[way == 'close'], known)
                self.assertEqual(found, hazards)
                is_so = Truth(diagram).is_hazard(known, at, way == 'close')
                # Walks take an unknown switch for open in one atom, and for closed in another.
                self.assertEqual(is_so, bool(hazards) and told != BOTH_WAYS)

    def test_states_with_keys(self):
        for name, told, operation, hazards in ASKED:
            with self.subTest(f'{name}: {told}: {operation}'):
                network = dataclasses.replace(network_at(name), live_parts=True, fed_earths=True)
                diagram = Diagram(network)
                switch, way = operation.split(' ')
                at = [it.name for it in diagram.branches].index(switch)
                known = self.know(diagram, told)
                self.assertEqual(diagram.hazards(at, (OPEN, CLOSE)[way == 'close'], known), hazards)
                agreed = dataclasses.replace(known, agreed=1 << at)
                self.assertNotIn('Y', diagram.hazards(at, (OPEN, CLOSE)[way == 'close'], agreed))
                dead = dataclasses.replace(known, alive=0)
                self.assertFalse({'Y', 'L'} & set(diagram.hazards(at, OPEN, dead)
                                                  + diagram.hazards(at, CLOSE, dead)))

    def test_a_coupler(self):
        network = network_at('double')
        network.switches = [dataclasses.replace(it, is_coupler=it.name == 'CA1')
                            for it in network.switches]
        diagram = Diagram(network)
        at = [it.name for it in diagram.branches].index('CA1')
        closed = 'CB1+ CB2+ CA1+ QB1+ '
        for told, hazards in (('QB2+', 'T'), ('QB2-', ''), ('QB2?', 'BT')):
            self.assertEqual(diagram.hazards(at, OPEN, self.know(diagram, closed + told)), hazards)

    def test_walks_never_miss_what_the_simulation_finds(self):
        chance, script = random.Random(3), bench()
        counts = script.Counts()
        for _ in range(25):
            network, file, _ = random_bay(chance, 7)
            keys = script.keys_of(file)
            values = {(kind, name): chance.choice((0, 1, 2)) if kind == SWITCH else
                      chance.randint(0, 1) for kind, name in sorted(keys)}
            script.compare(Diagram(network), [], values, counts)
        self.assertEqual(counts.wrong, 0)
        self.assertTrue(counts.found[1, 0, 1] and counts.found[0, 0, 0])


class AllStates(unittest.TestCase):
    BAY = Bay.at(FOLDER / 'single')

    def test_states_are_in_the_order_of_their_bits(self):
        case = Case({(SWITCH, 'QB1'): ((2, 2),), (SWITCH, 'QA1'): ((1, 1),)})
        where = self.BAY.within(case)
        self.assertEqual(where.bit_count(), self.BAY.states.count // 16)
        at = where.bit_length() - 1
        names = [it.name for it in self.BAY.network.switches]
        known = self.BAY.known[self.BAY.at_state[at]]
        self.assertTrue(known.sure >> names.index('QB1') & 1)
        self.assertFalse(known.may >> names.index('QA1') & 1)

    def test_the_program_releases_no_hazard_and_a_mutant_does(self):
        hazards, logic = self.BAY.hazards(), logic_at(FOLDER / 'single')
        broken = {told: {key for key, bits in releases(self.BAY.states, text).items()
                         if bits & hazards[key]}
                  for told, text in [('itself', logic), *mutants(logic)]}
        self.assertEqual(broken['itself'], set())
        self.assertGreater(len(broken), 20)
        self.assertGreater(sum(map(bool, broken.values())), 10)

    def test_walks_that_are_printed(self):
        script = bench()
        for why, is_so in (('earths BB1: BB1 - QB1 - N1 - QC1', True),
                           ('earths BB1: BB1 - QB1 - N2 - QC1', False),
                           ('earths BB1: BB1 - QB9 - N1', False), ('earths BB1', False)):
            why = why.replace('BB1', self.BAY.network.switches[0].nodes[0])
            judged = Judged('QC1', 1, BROKEN, case=Case({(SWITCH, 'QB1'): ((2, 2),)}), why=why)
            self.assertEqual(script.is_walk(self.BAY, judged), is_so, why)
        judged = Judged('QC1', 1, BROKEN, case=Case({(SWITCH, 'QB1'): ((1, 1),)}), why=(
            f'earths: {self.BAY.network.switches[0].nodes[0]} - QB1 - N1'))
        self.assertFalse(script.is_walk(self.BAY, judged))


class RandomBays(unittest.TestCase):
    def test_their_texts(self):
        """The most are read, and the others are refused for what a random network may lack."""
        chance, read = random.Random(1), 0
        for _ in range(40):
            _, file, texts = random_bay(chance, 5)
            faults = diagram_file.refusals(texts.diagram.encode(), file)
            read += not faults
            self.assertLessEqual({it.code for it in faults}, {155})
        self.assertGreater(read, 20)


if __name__ == '__main__':
    unittest.main()
