"""Asks bayctl for what it can prove of rules and of releases: `bayctl audit`. A program that has no
such command proves nothing."""
import functools
import pathlib
import re
import tempfile
import tomllib
from typing import IO

from baytools.bay.rules import KEYWORDS, SWITCH
from baytools.common.ending import Failed
from baytools.common.texts import upcase
from baytools.diagnosis.faults import faults
from baytools.diagnosis.warnings import Proved
from baytools.report.bayctl import Ask, is_tried, run, run_lines

from .answers import Answer, Bad, Judged, read
from .program_inputs import POSITION
from .variables import keys_of

WAYS = ('opened', 'closed')
DONE, FOUND = 0, 4  # statuses with an answer
REFUSED = re.compile(r'(?m)^rules refused (\d+) line (\d+)$')
REFUSED_DIAGRAM = re.compile(r'(?m)^diagram refused (\d+)(?: (\w.*))?$')


def can_prove(bayctl) -> bool:
    """Whether bayctl has the command: its help lists all. The sources have it."""
    if is_tried(bayctl):
        return True
    told = run(bayctl, '--help')
    return re.search(rb'(?m)^ +audit\b', told.stdout + told.stderr) is not None


def can_judge(bayctl) -> bool:
    """Whether bayctl judges releases by a diagram: its help of `audit` lists the option."""
    if is_tried(bayctl):
        return True
    told = run(bayctl, 'audit', '--help')
    return b'--diagram' in told.stdout + told.stderr


def ignore_line(line: bytes) -> None:
    """A line that comes from bayctl, where nobody looks how far it is."""


def run_audit(bayctl, bay, logic, rules, keys: set, each=ignore_line, diagram=None) -> Answer:
    """The answer of bayctl on a bay file, a program, and a file of rules or a diagram or both;
    `keys` are the things of the bay, as rules know them. Each line is handed to `each` when it
    comes."""
    files = [it for option, path in (('--rules', rules), ('--diagram', diagram)) if path
             for it in (option, path)]
    done = run_lines(bayctl, 'audit', '--bay', bay, '--logic', logic, *files, each=each)
    printed = done.stdout.decode('utf-8', 'backslashreplace')
    refused, drawn = REFUSED.search(printed), REFUSED_DIAGRAM.search(printed)
    if refused:
        raise Failed(f'{rules}: line {refused[2]}: {refusal_text(refused[1])}')
    if drawn:
        place = f'{drawn[2]}: ' if drawn[2] else ''
        raise Failed(f'{diagram}: {place}{refusal_text(drawn[1])} (tools/diagnose --diagram shows '
                     'where)')
    if done.returncode not in (DONE, FOUND):
        said = printed.strip() or done.stderr.decode('utf-8', 'backslashreplace').strip()
        first = said.split('\n')[0] or f'it ended with status {done.returncode}'
        hint = ' (tools/diagnose tells why)' if first.startswith('load refused ') else ''
        raise Failed(f'bayctl audit: {first}{hint}')
    try:
        return read(printed, keys)
    except Bad as error:
        raise Failed(f'bayctl audit printed what this tool can\'t read: {error}') from None


def refusal_text(code: str) -> str:
    """A refusal by bayctl, with what its number means and the remedy."""
    fault = faults().get(int(code))
    return f'bayctl refuses it with {code}' + (f': {fault.meaning} {fault.mend}' if fault else '')


def refusal_of_rules(bayctl, bay, logic, rules) -> tuple[int, int] | None:
    """The number and the line of bayctl's refusal of rules; None where it refuses none."""
    done = run(bayctl, 'audit', '--bay', bay, '--logic', logic, '--rules', rules)
    found = REFUSED.search(done.stdout.decode('utf-8', 'backslashreplace'))
    return (int(found[1]), int(found[2])) if found else None


def refusal_of_diagram(bayctl, bay, logic, diagram) -> tuple[int, str] | None:
    """The number and the place of bayctl's refusal of a diagram; None where it refuses none."""
    done = run(bayctl, 'audit', '--bay', bay, '--logic', logic, '--diagram', diagram)
    found = REFUSED_DIAGRAM.search(done.stdout.decode('utf-8', 'backslashreplace'))
    return (int(found[1]), found[2] or '') if found else None


def judged_of(bayctl, bay, logic, diagram, keys: set) -> list[Judged]:
    """What bayctl answers of each release and the hazards in a diagram."""
    if not can_judge(bayctl):
        raise Failed(f'{bayctl}: it has no `audit --diagram`')
    return run_audit(bayctl, bay, logic, None, keys, diagram=diagram).judged


def answer_of(bayctl, bay, logic, rules, keys: set, each=ignore_line,
              diagram=None) -> Answer | None:
    """The answer of bayctl, or None where it can prove nothing."""
    return run_audit(bayctl, bay, logic, rules, keys, each, diagram) if can_prove(bayctl) else None


def proved_of(bayctl, bay, logic, file: dict) -> Proved | None:
    """What bayctl proves of the releases of a program, for warnings; None where it proves nothing.
    """
    answer = releases_of(bayctl, bay, logic, keys_of(file))
    if answer is None or not all(it.is_known for it in answer.releases):
        return None
    cases = [case for it in answer.releases for case in it.cases]
    points = {point for case in cases for kind, name in case.values
              for point in ([name + ending for ending in POSITION] if kind == SWITCH else [name])}
    never = {(it.name, WAYS[it.way]) for it in answer.releases if it.is_known and not it.cases}
    return Proved(never, points, {upcase(name) for case in cases for name in case.kept})


def any_rule(keys: set) -> str:
    """A rule of a bay that asks nothing: bayctl refuses a text without a rule."""
    name = min((name for kind, name in keys if kind == SWITCH and name not in KEYWORDS), default='')
    return f'never {name} open when {name} open and {name} closed\n'


def releases_of(bayctl, bay, logic, keys: set, each=ignore_line, diagram=None) -> Answer | None:
    """What bayctl says of the releases, and of a diagram, if one is given, whatever the rules are;
    None where it can prove nothing."""
    answer = answer_of(bayctl, bay, logic, rules_file(any_rule(keys)).name, keys, each, diagram)
    if answer is not None:
        answer.rules.clear()
    return answer


def ask_of_releases(bay: str, logic: str) -> list[Ask]:
    """What is asked for that, where the bay file can be read."""
    try:
        keys = keys_of(tomllib.loads(pathlib.Path(bay).read_text(encoding='utf-8')))
    except (OSError, ValueError, KeyError, TypeError, AttributeError):
        return []
    return [Ask(('audit', '--bay', bay, '--logic', logic, '--rules',
                 rules_file(any_rule(keys)).name))]


@functools.cache
def rules_file(text: str) -> IO[bytes]:
    """A file of these rules, until the tool ends."""
    kept = tempfile.NamedTemporaryFile(prefix='rules')
    kept.write(text.encode('ascii'))
    kept.flush()
    return kept
