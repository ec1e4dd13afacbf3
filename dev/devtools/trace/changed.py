"""What was changed of definitions, and what that broke: the tables that `dev/wrong_definitions`
keeps, of laws and of what cites a definition."""
import collections
import functools
import html
import json
from collections.abc import Iterable, Mapping

from baytools.common.texts import quantity
from devtools.paths import DATA

from .calls import Call
from .definitions import Named

LAWS, CITING = DATA / 'laws.json', DATA / 'anchors.json'
# A change, a program of cases, and a line of its `stdin` that differs if the code is changed alike;
# or a change, this word, and why no case can differ.
CASES, NO_CASE = DATA / 'changed_cases.txt', 'because'
LAW, CODE, NOTHING = 'a law', 'the code or a lemma', 'nothing that was looked at'


@functools.cache
def outcomes() -> dict[str, dict[str, tuple[str, dict]]]:
    """By a definition's name its changes, each with what holds it and the answer that says so: a
    law where there is one. Changes that are no correct text are left out."""
    found: dict[str, dict[str, tuple[str, dict]]] = collections.defaultdict(dict)
    for path, kind in ((CITING, CODE), (LAWS, LAW)):
        for name, answer in json.loads(path.read_text(encoding='utf-8')).items():
            of = found[name.rpartition('.')[0]]
            if answer['verdict'] == 'broken':
                of[name] = (kind, answer)
            elif answer['verdict'] == 'proves':
                of.setdefault(name, (NOTHING, answer))
    return {name: of for name, of in found.items() if of}


def names_tried() -> set[str]:
    """The names of the changes that were tried, or are no correct text."""
    return {name for path in (CITING, LAWS)
            for name in json.loads(path.read_text(encoding='utf-8'))}


def law_of(answer: dict) -> str:
    """The law that an answer names, or nothing."""
    return answer['at'].partition('/')[0].partition(' ')[0]


def refused_by(laws: Iterable[Call]) -> list[tuple[str, dict]]:
    """The changes of definitions that one of these laws refuses, with the answers."""
    named = {(it.crate, it.title) for it in laws}
    return [(name, answer) for of in outcomes().values() for name, (kind, answer) in of.items()
            if kind == LAW and (answer['crate'], law_of(answer)) in named]


def refused_text(laws: Iterable[Call]) -> list[str]:
    """The changes that these laws refuse, each with its lines."""
    return [f'<details><summary>{html.escape(name)} <span class="quiet">(broken by '
            f'{html.escape(law_of(answer))})</span></summary><pre>- {html.escape(answer["before"])}'
            f'\n+ {html.escape(answer["after"])}</pre></details>'
            for name, answer in refused_by(laws)]


def tried_text(name: str) -> str:
    """What was tried on a definition, in a sentence, or nothing."""
    of = outcomes().get(name, {})
    if not of:
        return ''
    laws = dict.fromkeys(law_of(answer) for kind, answer in of.values() if kind == LAW)
    counts = collections.Counter(kind for kind, _ in of.values())
    parts = [f'{counts[kind]} {"break" if counts[kind] > 1 else "breaks"} {kind}'
             for kind in (LAW, CODE, NOTHING) if counts[kind]]
    named = f' ({", ".join(laws)})' if laws else ''
    told = f'Changed in {quantity(len(of), "way")}: {", ".join(parts)}{named}.'
    return f'<p class="quiet">{html.escape(told)}</p>'


def name_of(it: Named) -> str:
    """The name under which the tables have a definition."""
    return f'{it.crate}.{it.path.stem}.{it.name}'


def tried_by_crate(counts: Mapping[str, tuple[int, int]]) -> str:
    """How many changes were tried of those that can be made to the definitions that the headline
    rests on, by crate; or nothing without these numbers."""
    if not counts:
        return ''
    told = ', '.join(f'{html.escape(crate)} {tried:,} of {count:,}'
                     for crate, (tried, count) in counts.items())
    tried, count = (sum(it) for it in zip(*counts.values()))
    return (f'<p>The tool can make {count:,} changes to the definitions that the headline rests '
            f'on; {tried:,} of these were tried: {told}. The others were not tried, because each '
            'takes a processor some ten seconds.</p>')


def held_by_no_law(counts: Mapping[str, tuple[int, int]]) -> str:
    """The changes that break no law, with what they break; and how many were tried, by crate."""
    rows = [f'<tr><td>{html.escape(name)}</td><td><pre>- {html.escape(answer["before"])}\n'
            f'+ {html.escape(answer["after"])}</pre></td><td>'
            f'{html.escape(broken_text(name, kind, answer))}</td></tr>'
            for of in outcomes().values() for name, (kind, answer) in of.items()
            if kind != LAW]
    count = sum(len(of) for of in outcomes().values())
    return (f'<h2 id="changed">Definitions that were changed</h2><p>{count} changes of definitions '
            'that the headline or another row rests on were tried, one at a time; '
            f'{count - len(rows)} break a law.</p>{tried_by_crate(counts)}<p>These break none:</p>'
            '<table><tr><th>Change</th>'
            f'<th>Lines</th><th>It breaks</th></tr>{"".join(rows)}</table>')


@functools.cache
def cases() -> dict[str, tuple[str, str]]:
    """By the name of a change, the program of cases and the line that shows it; or the word that
    stands in the place of a program, and why no case can."""
    lines = CASES.read_text(encoding='utf-8').splitlines()
    told = (it.split(' ', 2) for it in lines if not it.startswith('#'))
    return {name: (program, line) for name, program, line in told}


def broken_text(name: str, kind: str, answer: dict) -> str:
    """What an answer says that a change breaks, or a case that shows it, or why none can."""
    if kind == CODE:
        return f'{answer["crate"]}, {answer["at"]}'
    if name in cases():
        program, told = cases()[name]
        if program == NO_CASE:
            return f'nothing, {NO_CASE} {told}'
        return f'no law; if the code is changed alike, a case of {program} differs: {told}'
    return kind
