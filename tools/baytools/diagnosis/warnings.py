"""What is wanted of a program that is accepted, and looks like a mistake."""
from collections.abc import Iterator
from dataclasses import dataclass

from baytools.common.texts import upcase

from . import lines
from .depends import Flow
from .language import JUMPS, STORES, TIMERS
from .place import Place
from .releases import release_warnings
from .tokens import nested_comments

POSITIONS = ('_POS', '_OPEN', '_CLOSED')
ENDINGS = {'_ENA_OPN': 'opened', '_ENA_CLS': 'closed'}


def comment_warnings(text: str) -> Iterator[Place]:
    """Comments that seem to begin within another."""
    for at in nested_comments(text):
        start = at - (text.rfind('\n', 0, at) + 1)
        yield Place('this (* is inside a comment: comments don\'t nest, so the first *) ends it',
                    line=text.count('\n', 0, at) + 1, start=start, end=start + 2)


class Uses:
    """The names that a program reads and writes, in upper case."""

    def __init__(self, items: list) -> None:
        self.read, self.written, self.called = set(), set(), set()
        for item in items:
            if item.verb == 'CAL':
                self.called.add(item.operand[0].upper)
            elif item.verb in STORES:
                self.written.add(item.operand[0].upper)
            elif item.operand and item.verb not in JUMPS:
                self.read.add(item.operand[0].upper)
            self.read |= {operand[0].upper for _, operand in item.arguments}


@dataclass
class Proved:
    """What bayctl proves of releases: those that are never given, by the switch's id in upper case
    and opened or closed; the points on which one depends, by themselves or through the variables
    and timers in `kept`. All names are in upper case."""
    never: set[tuple[str, str]]
    points: set[str]
    kept: set[str]


def warnings(text: str, points: dict | None, file: dict, proved: Proved | None = None
             ) -> list[Place]:
    """What looks like a mistake: of comments, and of a program that reads well of its names too.
    `points` are those of the bay file, `proved` what bayctl says of releases."""
    found = list(comment_warnings(text))
    try:
        program = lines.read(text)
    except lines.Misplaced:
        return found
    uses = Uses(program.items)
    for it in program.declarations:
        told = declared_text(it, uses, points or {})
        if told:
            found.append(Place(told, line=it.line, start=it.name.start, end=it.name.end))
    found += never_read(program, uses, file)
    found += release_warnings(program, file)
    flow = Flow(program)
    found += of_no_use(program, uses, flow, proved)
    return found + list(never_released(program, uses, file['switch'], flow, proved))


def declared_text(it, uses: Uses, points: dict) -> str:
    """What is odd of a declaration, or nothing."""
    name, text = it.name.upper, it.name.text
    if it.scope != 'VAR_EXTERNAL' and name in points:
        return f'{text} hides the point {name} of the bay: what you store in it reaches no switch'
    is_used = name in uses.read | uses.written | uses.called
    if it.scope == 'VAR_EXTERNAL':
        return '' if is_used else f'the point {text} is never used'
    if it.kind in TIMERS and name not in uses.called:
        return f'the timer {text} is never called'
    return '' if name in uses.read else f'{text} is never read'


def never_read(program, uses: Uses, file: dict) -> Iterator[Place]:
    """Switches and inputs on which nothing depends, since no line reads them. The key of a switch
    needs no line: the server itself asks for it."""
    keys = {upcase(switch.get('remote', '')) for switch in file['switch']}
    external = {it.name.upper for it in program.declarations if it.scope == 'VAR_EXTERNAL'}
    for switch in file['switch']:
        names = {upcase(switch['id'] + ending) for ending in POSITIONS}
        if not names & external & uses.read:
            yield Place(f'no line reads the position of {switch["id"]}')
    for one in file.get('input', []):
        if upcase(one['name']) not in keys | external & uses.read:
            yield Place(f'no line reads the input {one["name"]}')


def of_no_use(program, uses: Uses, flow: Flow, proved: Proved | None) -> Iterator[Place]:
    """Points that the program reads, and on which no release depends."""
    external = {it.name.upper: it for it in program.declarations if it.scope == 'VAR_EXTERNAL'}
    outputs = {name for name in external if name.endswith(tuple(ENDINGS))}
    used = shown = flow.dependencies(outputs)
    if proved and proved.kept <= {it.name.upper for it in program.declarations}:
        used = proved.points | flow.dependencies(proved.kept)
    for name, it in external.items():
        if name in uses.read and name not in outputs | used:
            how = ' (proved)' if used is not shown else ''
            yield Place(f'no release depends on {it.name.text}{how}', line=it.line,
                        start=it.name.start, end=it.name.end)


def never_released(program, uses: Uses, switches: list, flow: Flow, proved: Proved | None
                   ) -> Iterator[Place]:
    """Switches that clients operate, and that the program never releases."""
    external = {it.name.upper for it in program.declarations if it.scope == 'VAR_EXTERNAL'}
    for switch in switches:
        for ending, way in ENDINGS.items():
            point = switch['id'] + ending
            name, why = upcase(point), ''
            if not (name in external and name in uses.written):
                why = f'no line writes {point}'
            elif flow.is_never_true(name):
                why = f'only FALSE is stored in {point}'
            elif proved and (upcase(switch['id']), way) in proved.never:
                why = f'{point} is never TRUE (proved)'
            if why and switch.get('control') != 'status':
                yield Place(f'{switch["id"]} can never be {way}: {why}')
