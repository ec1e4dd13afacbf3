"""What `bayctl audit` answers, read from what it prints:

    instructions=20 depth=2 budget=20
    rule 4 QB1 close holds cases=3
    rule 5 QB1 open broken QA1=0|2|3 ES=1
    rule 6 QB1 close open QA1=1 M1_AA=6..2147483647 by t1 LOCK
    rule 8 QC1 close many
    rule 9 QC1 close holds cases=12 by t1
    release QB1 open cases=3
    released QA1=1 QC1=1
    depends QA1=2 on t1
    blocked QA1=0|3
    release QB1 close many
    lost QB1 open blocked
    lost QB1 close depends on t1
    start QB1 open blocked
    start QB1 close depends on QA1_OPEN QC1_OPEN
    diagram QC1 close holds cases=2
    diagram QC1 open broken QB1=0|2|3: earths BB1, which is not isolated: N1 - QB1 - BB1

A rule has an answer for each switch and operation that its line is about. One with a time that
holds names the timer that bears it, where one does. In a case a switch has its positions as
numbers, an input 0 or 1, a measure a number or a range; what it does not name is free.
The cases of a release are those in which it is given in every state that the program can reach,
those in which it depends on what stands behind `on`, and those in which it is not given. That are
variables, timers, and measures with which the program calculates in a way that is not followed; no
name stands there if it calculates so with the values of the case. So it is with `by` of a rule that
is open. The lines `lost` say the same of one case, that the process is lost: each position is bad
and each input 0, and a measure has any value. A bayctl older than 1.2.0 prints none. The lines
`start` say the same of the first scan after a load, from the first values, whatever the process
reports by then: behind `on` stands what it may depend on, also points of the process. A bayctl
older than 1.9.0 prints none.
A line `diagram` says of an operation whether the program releases it while it is a hazard in a
single line diagram. A line that is broken or open names a case of such a hazard, and the hazard in
words; a bayctl older than 1.12.0 prints none."""
import re
from dataclasses import dataclass, field

from baytools.bay.rules import INPUT, MEASURE, SWITCH
from baytools.common.texts import upcase

LEAST, MOST = -2 ** 31, 2 ** 31 - 1
WAYS = ('open', 'close')
VALUES = re.compile(r'(-?[0-9]{1,10})(?:\.\.(-?[0-9]{1,10}))?', re.ASCII)
BROKEN, MANY, OPEN, HOLDS = 'broken', 'many', 'open', 'holds'
RELEASED, DEPENDS, BLOCKED = 'released', 'depends', 'blocked'
COMPUTED = 'what the program calculates'  # what a case depends on where no name is told
WORST = [BROKEN, MANY, OPEN, HOLDS]  # of the answers of one line, the worst first
JUDGED = re.compile(r'diagram (?P<name>\S+) (?P<way>\S+) (?:holds (?P<cases>\S+)|many|'
                    r'(?P<verdict>broken|open)(?P<case>(?: [^ :]+)*)(?:: (?P<why>.+))?)')


class Bad(Exception):
    """A line that is none of an answer."""


@dataclass(frozen=True)
class Case:
    """The values of some things, each as ranges (least, most); all others are free. `kept` are the
    variables, timers and measures on which the answer depends, or COMPUTED."""
    values: dict
    kept: tuple = ()

    def allows(self, key, value: int) -> bool:
        ranges = self.values.get(key)
        return ranges is None or any(least <= value <= most for least, most in ranges)


@dataclass(frozen=True)
class Proof:
    """The answer on a rule for one operation of its switch; `timer` is the one that bears a rule
    with a time."""
    line: int
    name: str
    way: int
    verdict: str
    cases: int = 0
    case: Case = Case({})
    timer: str = ''


@dataclass
class Release:
    """The cases in which a switch may be opened or closed, or in which that depends on what is
    kept, and those in which it may not be; none are known where these are too many."""
    name: str
    way: int
    cases: list[Case] = field(default_factory=list)
    blocked: list[Case] = field(default_factory=list)
    is_known: bool = True

    def take(self, line: str, words: list[str], keys: set) -> None:
        """Takes the line of a case."""
        state = words[0] if words else ''
        if state not in (RELEASED, DEPENDS, BLOCKED):
            raise Bad(line)
        case = case_of(line, words[1:], keys, 'on' if state == DEPENDS else '')
        (self.blocked if state == BLOCKED else self.cases).append(case)


@dataclass(frozen=True)
class Lost:
    """Whether a switch may be opened or closed while the process is lost, or by the first scan
    after a load: RELEASED, BLOCKED, or DEPENDS with that on which it depends."""
    name: str
    way: int
    state: str
    kept: tuple = ()


@dataclass(frozen=True)
class Judged:
    """The answer on a release and the hazards of a diagram. One that is BROKEN or OPEN has a case
    in which the operation is a hazard, and the hazard in words, if bayctl prints them."""
    name: str
    way: int
    verdict: str
    cases: int = 0
    case: Case = Case({})
    why: str = ''


@dataclass
class Answer:
    """All that bayctl says: of each rule, of each release, of each while the process is lost and
    by the first scan after a load, and of each and the hazards of a diagram."""
    report: str
    rules: list[Proof] = field(default_factory=list)
    releases: list[Release] = field(default_factory=list)
    lost: list[Lost] = field(default_factory=list)
    start: list[Lost] = field(default_factory=list)
    judged: list[Judged] = field(default_factory=list)

    def of_line(self, line: int) -> Proof | None:
        """The answer on a line of rules: the worst, where it has several."""
        found = [it for it in self.rules if it.line == line]
        return min(found, key=lambda it: WORST.index(it.verdict), default=None)


def read(printed: str, keys: set) -> Answer:
    """The answer in what was printed. `keys` are the things of the bay, as rules know them."""
    lines = printed.split('\n')
    if lines and not lines[-1]:
        lines.pop()
    if not lines or not lines[0].startswith('instructions='):
        raise Bad(lines[0] if lines else 'nothing')
    found, at = Answer(lines[0]), 1
    while at < len(lines):
        words = lines[at].split(' ')
        if words[0] == 'rule':
            found.rules.append(proof_of(lines[at], words[1:], keys))
            at += 1
        elif words[0] == 'release':
            release, count = release_of(lines[at], words[1:], keys)
            cases = lines[at + 1:at + 1 + count]
            if len(cases) < count:
                raise Bad(f'{lines[at]}, and {len(cases)} cases')
            for line in cases:
                release.take(line, line.split(), keys)
            found.releases.append(release)
            at += 1 + count
        elif words[0] == 'lost':
            found.lost.append(lost_of(lines[at], words[1:], keys))
            at += 1
        elif words[0] == 'start':
            found.start.append(lost_of(lines[at], words[1:], keys))
            at += 1
        elif words[0] == 'diagram':
            found.judged.append(judged_of(lines[at], keys))
            at += 1
        else:
            raise Bad(lines[at])
    return found


def proof_of(line: str, words: list[str], keys: set) -> Proof:
    """The answer on a rule."""
    if len(words) < 4 or not words[0].isdecimal() or words[3] not in WORST:
        raise Bad(line)
    verdict, rest = words[3], words[4:]
    asked = int(words[0]), *way_of(line, words[1:3], keys)
    if verdict == HOLDS and len(rest) == 1:
        return Proof(*asked, verdict, count_of(line, rest[0]))
    if verdict == HOLDS and len(rest) == 3 and rest[1] == 'by':
        return Proof(*asked, verdict, count_of(line, rest[0]), timer=rest[2])
    if verdict in (BROKEN, OPEN):
        return Proof(*asked, verdict,
                     case=case_of(line, rest, keys, 'by' if verdict == OPEN else ''))
    if rest or verdict == HOLDS:
        raise Bad(line)
    return Proof(*asked, verdict)


def judged_of(line: str, keys: set) -> Judged:
    """The answer on a release and the hazards of a diagram."""
    found = JUDGED.fullmatch(line)
    if not found:
        raise Bad(line)
    asked = way_of(line, [found['name'], found['way']], keys)
    if found['cases']:
        return Judged(*asked, HOLDS, count_of(line, found['cases']))
    if found['verdict']:
        case = case_of(line, found['case'].split(), keys)
        return Judged(*asked, found['verdict'], case=case, why=found['why'] or '')
    return Judged(*asked, MANY)


def way_of(line: str, words: list[str], keys: set) -> tuple[str, int]:
    """A switch of the bay, and the number of its operation."""
    if len(words) != 2 or words[1] not in WAYS or (SWITCH, upcase(words[0])) not in keys:
        raise Bad(line)
    return upcase(words[0]), WAYS.index(words[1])


def release_of(line: str, words: list[str], keys: set) -> tuple[Release, int]:
    if len(words) != 3:
        raise Bad(line)
    release = Release(*way_of(line, words[:2], keys))
    if words[2] == MANY:
        release.is_known = False
        return release, 0
    return release, count_of(line, words[2])


def lost_of(line: str, words: list[str], keys: set) -> Lost:
    """What is said of a release while the process is lost, or by the first scan."""
    if len(words) < 3:
        raise Bad(line)
    (name, way), (state, *rest) = way_of(line, words[:2], keys), words[2:]
    if state == DEPENDS:
        return Lost(name, way, state, dependencies_of(line, rest, 'on'))
    if state not in (RELEASED, BLOCKED) or rest:
        raise Bad(line)
    return Lost(name, way, state)


def count_of(line: str, word: str) -> int:
    found = re.fullmatch('cases=([0-9]{1,9})', word, re.ASCII)
    if not found:
        raise Bad(line)
    return int(found[1])


def dependencies_of(line: str, words: list[str], sign: str) -> tuple[str, ...]:
    """What an answer depends on: what stands behind a sign, if it stands there."""
    if not words:
        return (COMPUTED,)
    if words[0] != sign or len(words) == 1:
        raise Bad(line)
    return tuple(words[1:])


def case_of(line: str, words: list[str], keys: set, sign: str = '') -> Case:
    """A case: names with their values, and behind a sign what it depends on, if it does."""
    at = words.index(sign) if sign in words else len(words)
    values = {}
    for word in words[:at]:
        name, equals, text = word.partition('=')
        key = next((key for key in ((kind, upcase(name)) for kind in (SWITCH, INPUT, MEASURE))
                    if key in keys and key not in values), None)
        if not equals or key is None:
            raise Bad(line)
        values[key] = tuple(range_of(line, part) for part in text.split('|'))
    return Case(values, dependencies_of(line, words[at:], sign) if sign else ())


def range_of(line: str, text: str) -> tuple[int, int]:
    found = VALUES.fullmatch(text)
    least, most = (int(found[1]), int(found[2] or found[1])) if found else (1, 0)
    if not LEAST <= least <= most <= MOST:
        raise Bad(line)
    return least, most
