"""What the prover said of wrong bodies, as `dev/wrong_bodies` keeps it: the first open goal of
each, the call and the clause at which it stands, and what the kit itself says against it."""
import dataclasses
import datetime
import functools
import json
import os
import re
from collections.abc import Callable

from devtools.figures.stamps import output_of
from devtools.paths import CRATES, DATA

from .calls import Call, Clause, calls_of

TABLE = DATA / 'refusals.json'
# A refusal: the edit; in parentheses what the kit says against it, and what it advises; and the
# first line of the prover that is of a goal.
ANSWER = re.compile(r'^(?:\S+ )?must-fail (\w+)/([\w.-]+)\.edit: refused, as it must be'
                    r'(?: \((only .*?)(?:: [^()]*)?\))?(?:: (.*))?$', re.M)
PLACED = re.compile(r'(?:note: )?(?:\./)?(\S+?):(\d+):\d+: (.*)')
SHOWN = 160  # characters of the prover's line, with its place, of which the kit shows no more
CUT = ' ..'  # after a goal that the kit cut
# What the prover says of a goal that it does not prove. Where the kit cuts within one of these, it
# is completed.
SENTENCES = ('; the facts known there allow values at which this goal is false',
             '; `search` gave up at one of its limits')
LEAST = 4  # characters of a sentence by which it is known
# Each edit that was tried, with a word of its refusal, or without.
TRIED = re.compile(r'^(?:\S+ )?must-fail \w+/[\w.-]+\.edit: (refused, as it must be)?', re.M)
OF_CALLS = ('Answers', 'Invariants', 'Proof')
# The prover names a goal by the way to it and the clause: `returns-in_err-answer-clause-after`.
NAMED = re.compile(r'`[\w-]+-clause-(\w+)`')


@dataclasses.dataclass(frozen=True)
class Refusal:
    """Where the first open goal of a wrong body stands: a call and the label of its clause, as far
    as it stands at one; what the prover printed; and the kit's caveat, if it has one: why the
    refusal says little of the contract."""
    call: str
    clause: str
    goal: str
    commit: str
    date: str
    caveat: str = ''


def place_of(crate: str, file: str, line: int) -> tuple[Call | None, Clause | None]:
    """The call, and of its clauses the one, at a line of a file of code; the call whose proof a
    file of answers is of."""
    path = CRATES / crate / file
    if path.stem in OF_CALLS:
        return next((it for it in calls_of(crate) if it.name == path.parent.name), None), None
    call = next((it for it in calls_of(crate) if it.path == path and it.line <= line <= it.last),
                None)
    clauses = [it for it in call.clauses if it.line <= line] if call else []
    last = clauses[-1] if clauses else None
    is_at = last and line <= last.line + last.text.count('\n')
    return call, last if is_at else None


def answers_in(log: str) -> dict[str, Refusal]:
    """What a log of `rt must-fail`, or of the gate, says of each edit."""
    commit, date = output_of('git', 'rev-parse', '--short', 'HEAD'), str(
        datetime.datetime.now(datetime.UTC).date())
    found = {}
    for crate, edit, caveat, line in ANSWER.findall(log):
        placed = PLACED.fullmatch(line)
        goal = placed[3] if placed else line
        call, clause = place_of(crate, placed[1], int(placed[2])) if placed else (None, None)
        named = NAMED.search(goal)
        label = named[1] if call and named and named[1] in call.labels else ''
        found[f'{crate}/{edit}'] = Refusal(
            call.title if call else '', label or (clause and (clause.label or clause.kind)) or '',
            marked_goal(goal) if len(line) == SHOWN else goal.strip(), commit, date, caveat)
    return found


def marked_goal(goal: str) -> str:
    """A goal that the kit cut, with the rest of the sentence in which it did, and a mark."""
    for sentence in SENTENCES:
        for size in range(len(sentence), LEAST - 1, -1):
            if goal.endswith(sentence[:size]):
                return goal + sentence[size:] + CUT
    return goal.strip() + CUT


def whole_answer(told: Refusal, printed: str) -> Refusal:
    """An answer with the whole of its goal, as a check of the edit printed it."""
    head = told.goal.removesuffix(CUT)
    for line in printed.splitlines():
        placed = PLACED.fullmatch(line)
        if placed and placed[3].startswith(head):
            return dataclasses.replace(told, goal=placed[3].strip())
    return told


@functools.cache
def read_table() -> dict[str, Refusal]:
    """The table."""
    if not TABLE.exists():
        return {}
    told = json.loads(TABLE.read_text(encoding='utf-8'))
    return {name: Refusal(**it) for name, it in told.items()}


def short_answer(told: Refusal) -> dict[str, str]:
    """An answer as the table has it: without a caveat, if it has none."""
    return {name: it for name, it in dataclasses.asdict(told).items() if it or name != 'caveat'}


def is_lost(name: str, told: Refusal) -> bool:
    """Whether an answer names a function that is gone, or its edit is gone."""
    crate, _, edit = name.partition('/')
    is_there = any(CRATES.glob(f'{crate}/*/{edit}.edit'))
    return not is_there or bool(told.call) and all(it.title != told.call for it in calls_of(crate))


def write_table(table: dict[str, Refusal]) -> None:
    """Writes the answers of edits that are there, of functions that are there. The new table takes
    the place of the old one at once, so a run that is ended leaves one or the other."""
    rows = {name: short_answer(table[name]) for name in sorted(table)
            if not is_lost(name, table[name])}
    new = TABLE.with_suffix('.new')
    new.write_text(json.dumps(rows, indent=1, ensure_ascii=False) + '\n', encoding='utf-8')
    os.replace(new, TABLE)
    read_table.cache_clear()


def keep(log: str) -> list[str]:
    """Puts the answers of a log into the table, and returns the names of their edits."""
    found = answers_in(log)
    read_table.cache_clear()
    write_table({**read_table(), **found})
    return list(found)


def complete(name: str, check: Callable[[str], str]) -> None:
    """Completes an answer that the kit cut. `check` returns what a check of an edit prints, by its
    crate and name."""
    told = read_table()[name]
    if told.goal.endswith(CUT):
        whole = whole_answer(told, check(name))
        read_table.cache_clear()
        write_table({**read_table(), name: whole})


def is_stale(name: str, told: Refusal) -> bool:
    """Whether an answer names a call, or a clause of it, that is gone."""
    crate = name.partition('/')[0]
    calls = [it for it in calls_of(crate) if it.title == told.call]
    labels = {clause.label or clause.kind for it in calls for clause in it.clauses}
    return bool(told.call) and (not calls or bool(told.clause) and told.clause not in labels)


def is_needed(name: str, is_whole: bool) -> bool:
    """Whether an edit, by its crate and name, still needs an answer; `is_whole` asks for answers
    that are not cut."""
    told = read_table().get(name)
    return told is None or is_stale(name, told) or is_whole and told.goal.endswith(CUT)
