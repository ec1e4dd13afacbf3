"""Faults planted in the program of an example: each is one changed line, and what `bayctl audit`
then says must be just what stands behind it. The file `faults` beside the program has a line for
each, and comments that begin with `#`:

    LINE | WHAT STANDS THERE | WHAT IS PLANTED | BROKEN 21 open|close, 26 close; OPEN 40 open

Rules are named by their lines, with the directions in which they no longer hold."""
import re
from dataclasses import dataclass

from baytools.audit import answers, questions
from baytools.audit.variables import WAYS, keys_of
from baytools.bay.files import bay_at, text_of
from baytools.bay.rules import read_rules
from baytools.common.paths import TOP

EXAMPLES = TOP / 'examples'
KINDS = (answers.BROKEN, answers.OPEN, answers.MANY)


@dataclass(frozen=True)
class Fault:
    """What stands in a line of a program, counted from 1, what is planted there, and which rules
    that breaks."""
    line: int
    old: str
    new: str
    told: str

    def planted(self, logic: str) -> str:
        """The program with the fault."""
        lines = logic.split('\n')
        found = lines[self.line - 1]
        if found.strip() != self.old:
            raise ValueError(f'line {self.line} is {found.strip()!r}, not {self.old!r}')
        lines[self.line - 1] = found.replace(self.old, self.new)
        return '\n'.join(lines)

    def rules(self) -> set[tuple[int, str]]:
        """The lines of the rules that no longer hold, each with a direction."""
        named = re.findall(r'(\d+) ((?:open|close)(?:\|(?:open|close))*)', self.told)
        return {(int(line), way) for line, ways in named for way in ways.split('|')}


def read_faults(text: str) -> list[Fault]:
    """The faults of a file."""
    rows = [line.split(' | ') for line in text.splitlines() if line and line[0] != '#']
    return [Fault(int(line), old.strip(), new.strip(), told) for line, old, new, told in rows]


def parts_of(rules: list) -> list[tuple[int, str, int]]:
    """The line, the switch and the operation of each answer, in their order."""
    return [(rule.line, rule.switch, way) for rule in rules for way in rule.ways]


def broken_rules(proofs: list, rules: list) -> str:
    """Which rules don't hold, in the words of a file of faults."""
    if [(it.line, it.name, it.way) for it in proofs] != parts_of(rules):
        raise ValueError('the answers are those of other rules')
    found = {}
    for it in proofs:
        found.setdefault(it.verdict, {}).setdefault(it.line, []).append(WAYS[it.way])
    kinds = [(kind.upper(), found[kind]) for kind in KINDS if kind in found]
    return '; '.join(f'{kind} ' + ', '.join(f'{line} {"|".join(ways)}' for line, ways in it.items())
                     for kind, it in kinds)


# Shows P-066, P-069.
def faults_are_found(checks) -> None:
    """Each fault breaks the rules that its line says, and no other."""
    for path in sorted(EXAMPLES.glob('*/faults')):
        bay, rules = path.with_name('bay.toml'), path.with_name('rules')
        logic, keys = text_of(path.with_name('logic.il')), keys_of(bay_at(bay)[1])
        read = read_rules(text_of(rules), keys)
        for fault in read_faults(text_of(path)):
            changed = checks.file('logic.il', fault.planted(logic))
            answer = questions.run_audit(checks.bayctl, bay, changed, rules, keys)
            told = broken_rules(answer.rules, read)
            checks.holds(f'{path.parent.name}: {fault.new or "nothing"!r} in line {fault.line}',
                         told == fault.told, f'{told}, not {fault.told}')


PARTS = (faults_are_found,)
