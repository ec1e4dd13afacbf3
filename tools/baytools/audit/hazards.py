"""What bayctl answers of the releases and the hazards in a single line diagram: the words for each
answer, the replay of a case in which a release is a hazard, and the table of a page."""
from collections.abc import Sequence
from dataclasses import dataclass, replace

from baytools.common.ending import Failed
from baytools.common.html_page import as_html, table
from baytools.common.texts import quantity, upcase

from . import answers
from .answers import WAYS, Judged
from .proofs import Shown, case_text, complete_state
from .replays import scans_of
from .variables import Bay, Thing, all_things

VERDICTS = {answers.HOLDS: 'PROVED', answers.BROKEN: 'BROKEN', answers.OPEN: 'OPEN',
            answers.MANY: 'OPEN'}
NOT_SAID = ('For each operation: whether the program releases it while it is a hazard in the '
            'diagram, by what the process reports. A position that is not known counts as the '
            'worse of open and closed. It is not said that the diagram is that of the plant, that '
            'contacts report the truth, or what switches of other bays do afterwards; the windings '
            'of a transformer are one node, so in a loop of switches round one transformer a '
            'hazard can be missing.')
DOUBTED = ('the replay does not release it there, against what bayctl proves: rely on neither, and '
           'report it')


@dataclass(frozen=True)
class Judgement:
    """What was found of an operation: bayctl's answer, the switch as the bay file writes it, the
    case in words, and the replay of a case that is broken."""
    answer: Judged
    switch: str
    where: str
    shown: Shown | None = None

    def operation(self) -> str:
        return WAYS[self.answer.way]

    def verdict(self) -> str:
        """PROVED, BROKEN or OPEN."""
        return VERDICTS[self.answer.verdict]

    def scenario(self) -> str:
        """The name of the file with the replay."""
        return f'broken_{self.switch}_{self.operation()}.scenario'


def released_at(bay: Bay, judged: Judged, bayctl, things: list[Thing]) -> Shown:
    """A state of a case that is broken, with its scenario, and whether a replay releases the switch
    there."""
    state = complete_state(judged.case, things)
    lines = [*(thing.line(0, state[thing.key]) for thing in things), '0 scan']
    scans = list(scans_of(bayctl, bay.scenario(lines)))
    if not scans:
        raise Failed('bayctl: it printed too few scans')
    return Shown(state, lines, scans[0][upcase(judged.name)][judged.way])


def judgements(file: dict, judged: Sequence[Judged]) -> list[Judgement]:
    """What was found of each operation, in bayctl's order, for the tables of a bay file."""
    things = list(all_things(file))
    names = {upcase(it['id']): it['id'] for it in file['switch']}
    return [Judgement(it, names[it.name], case_text(it.case, things)) for it in judged]


def with_replays(bay: Bay, judged: Sequence[Judged], bayctl) -> list[Judgement]:
    """The same, with a replay of each case that is broken."""
    things = list(all_things(bay.file))
    return [replace(it, shown=released_at(bay, it.answer, bayctl, things))
            if it.answer.verdict == answers.BROKEN else it
            for it in judgements(bay.file, judged)]


def rows_of(found: Sequence[Judgement], diagram: str) -> str:
    """The table of a page, after what it says and does not say."""
    rows = []
    for it in found:
        kind = 'good' if it.verdict() == 'PROVED' else 'bad'
        lines = '<br>'.join(as_html(line) for line in lines_of(it, diagram)[1:])
        cases = f'{it.answer.cases:,}' if it.verdict() == 'PROVED' else ''
        rows.append((f'<b>{as_html(it.switch)}</b> {it.operation()}', lines, cases,
                     f'<span class="mark {kind}">{it.verdict()}</span>'))
    return (f'<h2>Hazards in the single line diagram</h2><p class="quiet">{NOT_SAID}</p>'
            + table(['!Operation', 'What was found', '#Cases proved', 'Verdict'], rows))


def lines_of(found: Judgement, diagram: str) -> list[str]:
    """What is printed of an operation: a line with its verdict, and others that explain it."""
    answer, verdict = found.answer, found.verdict()
    if verdict == 'BROKEN':
        first = f'BROKEN: {found.switch} {found.operation()} is released while it is a hazard in ' \
            f'{diagram}'
        return [first, f'proved: with {found.where}{why_text(answer)}',
                *([] if found.shown is None or found.shown.is_so else [DOUBTED])]
    first = f'{verdict}: no command to {found.operation()} {found.switch} while that is a hazard ' \
        f'in {diagram}'
    if answer.verdict == answers.MANY:
        return [first, 'there are too many cases to prove it']
    if answer.verdict == answers.OPEN:
        return [first, 'holds, unless the program, by what it keeps or calculates, releases it '
                       f'with {found.where}{why_text(answer)}']
    return [first]


def why_text(answer: Judged) -> str:
    """The hazard in words, if bayctl prints them."""
    return f': {answer.why}' if answer.why else ''


def counts_text(found: Sequence[Judgement], diagram: str) -> str:
    """How many releases are no hazard, how many are, and of how many that is open."""
    verdicts = [it.verdict() for it in found]
    if set(verdicts) <= {'PROVED'}:
        return (f'none of {quantity(len(found), "operation")} is released while it is a hazard in '
                f'{diagram}')
    parts = [f'{verdicts.count(kind)} {word}' for kind, word in (
        ('BROKEN', f'released while a hazard in {diagram}'), ('OPEN', 'open'))
        if kind in verdicts]
    return f'of {quantity(len(found), "operation")} {", ".join(parts)}'
