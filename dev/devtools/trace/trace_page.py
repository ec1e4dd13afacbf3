"""The page of `dev/trace`: each promise with what bears it, and the definitions as text."""
import html
import itertools
import os
import pathlib
import re
from collections.abc import Mapping
from types import MappingProxyType

from baytools.common import page_head
from baytools.common.paths import TOP
from baytools.common.texts import quantity
from devtools.paths import CRATES

from . import base, changed, inner, lacking, refusals, shown, standards
from .calls import Call, crates
from .definitions import (NAMED, Declared, Named, Scope, below, definitions_cited, scope_of,
                          scope_of_call)
from .edits import Edit, broken, laws_about, obeying, refused_of
from .markdown import inline, section
from .promises import PAGES, Borne, Promise, borne_by, promises

STYLE = '''
body { font: 15px/1.45 Verdana, "DejaVu Sans", Helvetica, Arial, sans-serif; color: #1a1a1a;
  max-width: 66em; margin: 0 auto; padding: 1em; overflow-wrap: anywhere }
h1 { font-size: 1.6em } h2 { border-bottom: 1px solid #999; margin-top: 2em } h3 { font-size: 1em }
pre { background: #f6f6f4; padding: .5em .8em; overflow-x: auto; margin: .3em 0 }
code, pre { font-family: "DejaVu Sans Mono", Consolas, monospace; font-size: .93em }
table { border-collapse: collapse; margin: .5em 0; display: block; max-width: 100%;
  overflow-x: auto }
td pre { white-space: pre-wrap }
.promise, .definition { content-visibility: auto; contain-intrinsic-size: auto 12em }
th, td { text-align: left; vertical-align: top;
  padding: .2em .8em .2em 0; border-bottom: 1px solid #ddd }
.promise { border: 1px solid #bbb; border-radius: 4px; padding: .2em 1em .6em; margin: 1em 0 }
.promise > p:first-child { font-weight: bold } .kind { color: #555; margin: .8em 0 .2em }
.definition { margin: 1.2em 0 } .definition:target { background: #fffbe0 }
.quiet { color: #555; font-size: .93em } a { color: #14509b; text-decoration: none }
a:hover { text-decoration: underline } summary { cursor: pointer; color: #555 }
'''
HEADINGS = ('Names of values', 'Signs and words', 'Where the words of a clause come from',
            'How a form is read', 'Traits, laws and loans')
# Pages of docs/ that say what the proofs rest on, and what they leave.
OTHERS = (('TRUSTED.md', 'What a verdict of the prover rests on'),
          ('HAZARDS.md', 'The hazards, what bounds each, and what nobody bounds'))
# What a buyer asks for, and the promise that answers it.
FIRST = {
    'The headline: never against the interlocking': 'P-001',
    'No switch is operated that was not selected': 'P-012',
    'A server commands only what a client asked for': 'P-132',
    'A command goes out only while the process lives': 'P-133',
    'A rule that the audit proves binds every command': 'P-071',
    'A program does what its text means': 'P-041',
    'The language is the standard\'s': 'P-044',
    'No program and no image goes wrong': 'P-138',
    'No octets crash the device or change what the process told': 'P-134',
    'A request is read in one way': 'P-137'}
LEAD = '''<p>For each promise of README, PROVED and SECURITY this page shows the clauses that carry
it, the laws, the wrong bodies that the prover refuses, and the cases that show it. In a clause and
in a definition the names are links to their definitions, which stand at the end of the
page.</p><ul>
<li><b>Clauses.</b> What the prover has proved of the code of this call, for every argument.</li>
<li><b>Laws.</b> A law has no code: it says in other words what the definitions come to, and is
proved for every value. A row that names no law has here those that cite a definition of it.</li>
<li><b>Wrong bodies.</b> Each is a change of the code that would break this promise, with which the
proof fails: at the call and the clause that the prover names. First stand those that fail at a
clause of this row, then those that break this row most directly, then those of other rows that
break this one too. The gate tries some; <code>dev/wrong_bodies</code> tries the others. After each
stands the prover's answer: "the facts known there allow values at which this goal is false" says
most, "gave up" less. "Refused, only .." are the kit's own words for an answer that says little of
the contract. An answer that ends with <code>..</code> was cut by the kit;
<code>dev/wrong_bodies --whole</code> asks for the rest.</li>
<li><b>Changed definitions.</b> Each is a definition that was changed in one place, with which a law
of this row fails. A row that is about definitions alone has these, and no wrong body.</li>
<li><b>Cases.</b> They are run in each gate.</li></ul>'''


def sources_read() -> list[page_head.Source]:
    """The documents whose promises the page has, and all sources of the crates as one."""
    found = [page_head.source_at('Page of promises', it) for it in PAGES]
    kinds = {'.rt', '.antt', '.edit', '.txt', '.toml'}
    crate_files = (it for it in CRATES.rglob('*') if it.is_file() and not it.is_symlink()
                   and (it.suffix in kinds or it.name == 'stdin')
                   and 'out' not in it.relative_to(CRATES).parts)
    return [*found, page_head.source_of_many('Crates', crate_files)]


def head(about: list[tuple[str, str]], gate: pathlib.Path | None) -> str:
    """The head of a page: what it is about, the kit, a run of the gate, its time, this machine,
    the sources, the commit."""
    moment = page_head.moment_text(page_head.now())
    rows = [*about, *base.rows(gate)]
    return '\n'.join(page_head.head('dev/trace', moment, rows, sources_read()))


class Sheet:
    """One page, whose links into the sources begin with `sources`; `gate` is the log of a run of
    the gate on its commit, and `changes` has by crate how many changes of definitions were tried,
    and of how many."""

    def __init__(self, sources: str, gate: pathlib.Path | None = None,
                 changes: Mapping[str, tuple[int, int]] = MappingProxyType({})) -> None:
        self.sources, self.gate, self.changes = sources, gate, changes
        self.borne = {it: borne_by(it) for it in promises()}
        self.laws = {it: laws_about(borne) for it, borne in self.borne.items()}
        self.listed = self.definitions()

    def definitions(self) -> dict[Named, str]:
        """The definitions that clauses cite, with all that they rest on, and their anchors."""
        first = [it for borne in self.borne.values() for it in borne.definitions]
        for promise, borne in self.borne.items():
            for call in (*borne.calls, *self.laws[promise]):
                first += definitions_cited(call, frozenset(borne.calls.get(call, ())))
        return {it: f'{it.crate}.{it.path.stem}.{it.name}' for it in closure(first)}

    def source(self, path: pathlib.Path, line: int) -> str:
        """A link to a line of a file."""
        name = path.relative_to(TOP)
        return f'<a href="{html.escape(self.sources)}/{name}#L{line}">{name}:{line}</a>'

    def goal(self, named: Named) -> str:
        """Where a name leads: to its definition on this page, or to its file."""
        if named in self.listed:
            return f'#{self.listed[named]}'
        return f'{html.escape(self.sources)}/{named.path.relative_to(TOP)}#L{named.line}'

    def linked(self, text: str, scope: Scope, own: str = '') -> str:
        """A text whose names lead to their definitions."""
        found, place = [], 0
        for it in NAMED.finditer(text):
            meant = scope.meaning(it[0]) if it[0] != own else None
            if meant:
                word = f'<a href="{self.goal(meant)}">{html.escape(it[0])}</a>'
                found += [html.escape(text[place:it.start()]), word]
                place = it.end()
        return ''.join([*found, html.escape(text[place:])])

    def contract(self, call: Call, borne: Borne) -> str:
        """A call, with the clauses that bear a promise."""
        clauses = borne.clauses(call) if call in borne.calls else call.clauses
        told = [f'<b>{html.escape(call.title)}</b> <span class="quiet">{call.crate}, '
                f'{self.source(call.path, call.line)}. {inline(call.told)}</span>']
        for it in clauses:
            head = ' '.join(word for word in (it.kind, it.label) if word)
            text = self.linked(it.text, scope_of_call(call))
            told.append(f'<pre><b>{head}</b> {{ {text} }}</pre>')
        return f'<div>{"".join(told)}</div>'

    def edit(self, it: Edit) -> str:
        """A wrong body: what it is called, and what it changes."""
        where = '' if it.is_in_gate else ', outside the gate'
        ids = ', '.join(f'<a href="#{known}">{known}</a>' for known in broken()[it.key])
        changed = ', '.join(dict.fromkeys(call.title for call in it.calls))
        lines = '\n'.join(f'- {old}\n+ {new}' for old, new in it.changes)
        return (f'<details><summary>{html.escape(it.name)} <span class="quiet">(in '
                f'{html.escape(changed)}{where}; {self.source(it.path, 1)}; of {ids}; {breaks(it)})'
                f'</span></summary><pre>{html.escape(lines)}</pre></details>')

    def part(self, heading: str, found: list[str], why: str) -> str:
        """A part of a promise, or why there is none."""
        told = ''.join(found) or f'<p>none: {inline(why)}</p>'
        return f'<p class="kind">{heading}</p>{told}'

    def obeyed(self, borne: Borne) -> str:
        """Which calls obey the definitions that the laws of a promise are about."""
        named = ', '.join(f'`{it.title}` of {it.crate}' for it in obeying(borne.laws))
        return named and f'laws carry it; what obeys their definitions is {named}'

    def promise(self, it: Promise) -> str:
        """A promise with all that bears it."""
        borne = self.borne[it]
        laws = [self.contract(law, borne) for law in self.laws[it]]
        edits = [self.edit(edit) for edit in refused_of(it)]
        changes = changed.refused_text(borne.laws)
        cases = ', '.join(f'{case.name} ({self.source(case.path, case.line)})'
                          for case in shown.cases_of(it))
        return ''.join((
            f'<div class="promise"{mark(it)}><p>{inline(title_of(it))}</p>'
            f'<p class="quiet">By: {inline(it.by)} '
            f'({self.source(it.page, it.line)})</p>',
            self.part('Clauses', [self.contract(call, borne) for call in borne.code],
                      self.obeyed(borne) or it.by),
            self.part('Laws' if borne.laws else 'Laws about the same definitions', laws,
                      lacking.reason(lacking.NO_LAW, it)),
            self.part('Wrong bodies', edits, lacking.no_edit(it)),
            self.part('Changed definitions', changes, '') if changes else '',
            self.part('Cases', [f'<p>{cases}</p>'] if cases else [], shown.no_cases(it)),
            '</div>'))

    def first(self) -> str:
        """The first screen: what a buyer asks for, and on how much it rests."""
        by_id = {it.id: borne for it, borne in self.borne.items()}
        rows = []
        for words, known in FIRST.items():
            found = rests_on(by_id[known])
            lines = sum(it.text.count('\n') + 1 for it in found)
            rows.append(f'<tr><td><a href="#{known}">{html.escape(words)}</a></td><td>{known}</td>'
                        f'<td>{quantity(len(found), "definition")}, {quantity(lines, "line")}</td>'
                        '</tr>')
        return ('<h2>What a buyer asks for</h2><table><tr><th>Promise</th><th>Id</th><th>It rests '
                f'on</th></tr>{"".join(rows)}</table><p class="quiet">What a promise rests on is '
                'each definition that its clauses name, with those that these name, and so on; all '
                'of them stand below.</p>')

    def inner(self) -> str:
        """The public clauses that belong to no promise, by call, with the promise they serve."""
        of_calls: dict[Call, list[str]] = {}
        for call, clause in inner.orphans():
            of_calls.setdefault(call, []).append(clause.label or clause.kind)
        rows = []
        for call, labels in of_calls.items():
            serves = inner.inner_calls().get(call)
            why = (f'<a href="#{serves.id}">{serves.id}</a>' if serves
                   else inline(inner.reason_of_none(call)))
            rows.append(f'<tr><td>{call.crate}</td><td>{html.escape(call.title)} '
                        f'({self.source(call.path, call.line)})</td>'
                        f'<td>{html.escape(", ".join(labels))}</td><td>{why}</td></tr>')
        return ('<h2 id="inner">Inner clauses</h2><p>These public clauses are named by no promise: '
                'they say what a call does on the way from a call of the promise beside it, or why '
                'they belong to none.</p><table><tr><th>Crate</th><th>Call</th><th>Clauses</th><th>'
                f'For</th></tr>{"".join(rows)}</table>')

    def definition(self, it: Named) -> str:
        """A definition, with the heading and the comment above it."""
        is_type = isinstance(it, Declared)
        kind = 'type of the code' if is_type else 'definition'
        under = '' if is_type or not it.heading else f'Under "{inline(it.heading)}". '
        return (f'<div class="definition" id="{self.listed[it]}"><b>{html.escape(it.name)}</b> '
                f'<span class="quiet">{kind} of {it.crate}, {self.source(it.path, it.line)}. '
                f'{under}{inline(it.told)}</span>'
                f'<pre>{self.linked(it.text, scope_of(it), it.name)}</pre>'
                f'{changed.tried_text(changed.name_of(it))}</div>')

    def crate(self, name: str, listed: list[Named]) -> str:
        """The definitions of a crate, under what the head of its `specs/Lib.antt` says of them."""
        head, found = head_of(name), [self.definition(it) for it in listed if it.crate == name]
        if not head and not found:
            return ''
        told = ''.join(f'<p>{inline(it)}</p>' for it in head.split('\n\n'))
        return f'<h3 id="crate-{name}">{name}</h3>{told}{"".join(found)}'

    def other_pages(self) -> str:
        """Links to what no clause says: the trusted base, and the hazards with what bounds them."""
        return ''.join(f'<li><a href="{html.escape(self.sources)}/docs/{name}">{told}</a></li>'
                       for name, told in OTHERS)

    def page(self) -> str:
        """The whole page."""
        contracts = (TOP / 'docs' / 'CONTRACTS.md').read_text(encoding='utf-8')
        how = ''.join(f'<h3>{it}</h3>{section(contracts, it)}' for it in HEADINGS)
        sections = list(dict.fromkeys((it.page, it.section) for it in self.borne))
        told = [f'<li><a href="#{anchor(*it)}">{it[0].name}: {html.escape(it[1])}</a></li>'
                for it in sections]
        body = [f'<h2 id="{anchor(page, name)}">{page.name}: {html.escape(name)}</h2>' +
                ''.join(self.promise(it) for it in self.borne
                        if (it.page, it.section) == (page, name)) for page, name in sections]
        listed = sorted(self.listed, key=lambda it: (it.crate, it.name))
        parts = {it: part for it in crates() if (part := self.crate(it, listed))}
        links = [f'<a href="#crate-{it}">{it}</a>' for it in parts]
        about = [('It has', f'{quantity(len(self.borne), "promise")}, '
                            f'{quantity(len(listed), "definition")}'),
                 ('It lacks', base.left_out())]
        return ''.join((
            '<!DOCTYPE html><html lang="en"><meta charset="utf-8">'
            '<meta name="viewport" content="width=device-width"><title>From a promise to its '
            f'proof</title><style>{STYLE}</style><h1>From a promise to its proof</h1>{LEAD}'
            f'{head(about, self.gate)}{self.first()}<ul>{"".join(told)}'
            '<li><a href="#inner">Inner clauses</a></li>'
            '<li><a href="#changed">Definitions that were changed</a></li>'
            '<li><a href="#definitions">Definitions</a></li>'
            f'{self.other_pages()}</ul><details><summary>How to read '
            f'clauses and definitions</summary>{how}</details>', *body, self.inner(),
            changed.held_by_no_law(self.changes),
            f'<h2 id="definitions">Definitions</h2><p>{", ".join(links)}</p>', *parts.values(),
            '</html>\n'))


class StandardSheet(Sheet):
    """The page by standard and clause: definitions, laws and cases."""

    def definitions(self) -> dict[Named, str]:
        """All definitions, with their anchors."""
        found = closure([it for crate in crates() for it in standards.definitions_of(crate)])
        return {it: f'{it.crate}.{it.path.stem}.{it.name}' for it in found}

    def clause(self, clause: str, found: list) -> str:
        """A row of a clause."""
        names = ', '.join(f'<a href="#{self.listed[it]}">{html.escape(it.name)}</a>'
                          for it in found)
        laws = dict.fromkeys(law for it in found for law in standards.laws_of(it))
        told = ', '.join(f'{html.escape(it.title)} ({self.source(it.path, it.line)})'
                         for it in laws)
        cases = dict.fromkeys(name for it in found for name in shown.shown_of(it.crate))
        return (f'<tr><td>{html.escape(clause)}</td><td>{names}</td><td>{told or "none"}</td>'
                f'<td>{", ".join(cases) or "none"}</td></tr>')

    def counts(self) -> str:
        """How many definitions name a clause, in the crates in which all say what they are."""
        rows = [(crate, *standards.counts(crate)) for crate in standards.STATED]
        rows.append(('all of these', *(sum(it) for it in list(zip(*rows))[1:])))
        told = ''.join(f'<tr>{"".join(f"<td>{part}</td>" for part in row)}</tr>' for row in rows)
        return ('<table><tr><th>Crate</th><th>Definitions</th><th>With a clause</th>'
                f'<th>Our own</th></tr>{told}</table>')

    def page(self) -> str:
        """The whole page."""
        tables: dict[str, list[str]] = {}
        for (standard, clause), found in standards.by_clause().items():
            tables.setdefault(standard, []).append(self.clause(clause, found))
        body = [f'<h2>{html.escape(standard)}</h2><table><tr><th>Clause</th><th>Definitions</th>'
                f'<th>Laws that cite them</th><th>Promises with cases</th></tr>{"".join(rows)}'
                '</table>'
                for standard, rows in tables.items()]
        listed = sorted(self.listed, key=lambda it: (it.crate, it.name))
        return ''.join((
            '<!DOCTYPE html><html lang="en"><meta charset="utf-8">'
            '<meta name="viewport" content="width=device-width"><title>By standard and clause'
            f'</title><style>{STYLE}</style><h1>By standard and clause</h1><p>Each definition '
            'stands under the clauses that the comment above it names, or else the heading above '
            'it, or the head of its file. Those of our own stand last, with what they are for. In '
            f'these crates each says what it is:</p>{self.counts()}'
            f'{head([], self.gate)}', *body, '<h2>Definitions</h2>',
            *(self.crate(it, listed) for it in crates()), '</html>\n'))


def breaks(edit: Edit) -> str:
    """What a wrong body breaks, by the prover's last answer."""
    told = refusals.read_table().get(edit.key)
    if told is None:
        return 'its answer is not kept yet'
    at = f'{told.call}: {told.clause}' if told.clause else told.call
    words = f'breaks {at}' if at else 'refused'
    if refusals.is_stale(edit.key, told):
        words = f'broke {at}, which is gone: the code has changed since'
    if told.caveat:
        words = f'refused, {told.caveat}'
    return html.escape(f'{words} ({told.commit}): {told.goal}')


def closure(first: list[Named]) -> list[Named]:
    """Definitions, those that they name, and so on."""
    found = dict.fromkeys(first)
    left = list(found)
    for it in left:
        new = [further for further in below(it) if further not in found]
        found |= dict.fromkeys(new)
        left += dict.fromkeys(new)
    return list(found)


def rests_on(borne: Borne) -> list[Named]:
    """The definitions that a promise rests on: what its clauses cite, and all below."""
    return closure([it for call, labels in borne.calls.items()
                    for it in definitions_cited(call, frozenset(labels))])


def mark(promise: Promise) -> str:
    """The anchor of a promise that has an id."""
    return f' id="{promise.id}"' if promise.id else ''


def title_of(promise: Promise) -> str:
    """The words of a promise behind its id. A row of SECURITY says what can't happen."""
    never = "can't happen: " if promise.page.name == 'SECURITY.md' else ''
    return f'{promise.id} {never}{promise.text}'.strip()


def head_of(crate: str) -> str:
    """What a crate's definitions are: the paragraphs at the head of its `specs/Lib.antt`."""
    path = CRATES / crate / 'specs' / 'Lib.antt'
    lines = path.read_text(encoding='utf-8').split('\n') if path.exists() else []
    head = [it.removeprefix('--').strip()
            for it in itertools.takewhile(lambda it: it.startswith('--'), lines)]
    return '\n\n'.join(' '.join(words) for is_text, words in itertools.groupby(head, bool)
                       if is_text)


def anchor(page: pathlib.Path, name: str) -> str:
    """The anchor of a section."""
    return f'{page.stem}-{re.sub("[^a-z]+", "-", name.lower())}'


def sources_from(file: pathlib.Path) -> str:
    """How links of a page of this name begin, so that they lead into this folder."""
    return pathlib.Path(os.path.relpath(TOP, file.resolve().parent)).as_posix()
