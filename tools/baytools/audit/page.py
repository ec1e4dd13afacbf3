"""The report of an audit: one page of HTML that needs no other file, to be printed and signed."""
from baytools.bay.names import UNIT
from baytools.bay.rules import MEASURE
from baytools.common import page_head
from baytools.common.ending import DONE
from baytools.common.html_page import A4, code, as_html, page, signatures, table
from baytools.common.texts import quantity, upcase
from baytools.diagram.drawing import draw
from baytools.report.bayctl import is_tried

from . import hazards, proofs, verdicts
from .matrix import draw_parts
from .rule_findings import release_conditions, uncovered_release
from .states import drawn_states
from .variables import WAYS

WIDTH = 672  # of the matrix, in pixels: that of a page of A4
PROVED = ('<b>Proved</b>: bayctl runs the verified program with values that stand for all. What is '
           'proved of a rule holds in every scan, from every state that the program can reach and '
           'with every value of the bay, whatever its clients do.')


def product_list(condition) -> str:
    """The products of a condition, one below the other."""
    if condition is None:
        return 'not derived: there are too many cases or combinations'
    first, *others = [code(line) for line in condition.lines()]
    return first + ''.join(f'<br><span class="quiet">or</span> {other}' for other in others)


class Report:
    """An audit as a page. `files` are what was read, by what it is: name and octets; `begun` is
    when the audit began, in milliseconds since 1970; `network` is the single line diagram, where
    there is one."""

    def __init__(self, audit, files, bayctl, begun, network=None) -> None:
        self.network = network
        self.audit, self.bay, self.files, self.bayctl = audit, audit.bay, files, bayctl
        self.begun = begun

    def page(self) -> str:
        bay = self.bay.file['bay']
        title = f'Audit of the interlocking of bay {bay["domain"]}'
        style = A4 % f'Bay {bay["domain"]}, {page_head.moment_text(self.begun)}'
        parts = [f'<h1>{as_html(title)}</h1>', self.verdict(), *self.head(),
                 signatures(), self.how(), self.rules(), self.hazards(), self.diagram(),
                 self.conditions(), self.lost(), self.start(), self.uncovered(), self.matrix()]
        return page(title, style, parts)

    def verdict(self) -> str:
        """The verdict, with what was restricted, and that nothing is proved."""
        kind = 'good' if verdicts.status(self.audit) == DONE else 'bad'
        more = [f'Restricted in what was tried: {it}.' for it in verdicts.restrictions(self.audit)]
        if self.audit.answer is None:
            more.append('Nothing is proved: this bayctl has no command audit, so all was tried.')
        if verdicts.is_unjudged(self.audit):
            more.append(f'{self.audit.diagram} is not judged: this bayctl has no audit --diagram.')
        if is_tried(self.bayctl):
            more.append('The sources of bayctl were run, without proof: what is proved here rests '
                        'on a program that is not.')
        return (f'<div class="verdict {kind}"><p>{as_html(verdicts.verdict(self.audit))}</p>'
                + ''.join(f'<p class="plain">{as_html(it)}</p>' for it in more) + '</div>')

    def head(self) -> list[str]:
        bay = self.bay.file['bay']
        read = [page_head.source_of(what, *it) for what, it in self.files.items()]
        about = [('Bay', bay['domain']),
                 ('Device', f'{bay["vendor"]} {bay["model"]}, {bay["revision"]}')]
        span = page_head.span_text(self.begun, page_head.now())
        return page_head.head('tools/audit', span, about,
                             [*read, page_head.source_at('bayctl', self.bayctl)])

    def how(self) -> str:
        """What proved and tried mean, and what was tried."""
        audit = self.audit
        notes = [PROVED] if audit.answer else []
        notes.append(self.tried_text() if audit.table else 'Nothing was tried.')
        rows = [(as_html(it.name), it.kind, as_html(', '.join(it.words()))
                 + (' (not all)' if it.is_restricted() else '')) for it in self.bay.things]
        shown = table(['Point', 'Kind', 'Values that were tried'], rows) if audit.table else ''
        return ('<h2>What was proved and what was tried</h2>'
                + ''.join(f'<p>{note}</p>' for note in notes + self.notes()) + shown)

    def tried_text(self) -> str:
        audit, some = self.audit, ''
        if not audit.is_whole():
            some = f' of {audit.bay.count():,}, spread over all'
        return (f'<b>Tried</b>: {quantity(len(audit.table), "combination")}{some}, '
                f'{quantity(audit.scans, "scan")}. Each combination is scanned at once and '
                + ', '.join(f'{at:,} ms' for at in audit.offsets[1:]) + ' after it is reached.')

    def notes(self) -> list[str]:
        program = self.bay.program
        notes = [f'Not read by the program, and so not combined: '
                 f'{as_html(", ".join(self.bay.unread))}.'] if self.bay.unread else []
        plain = {upcase(it['id']) for it in self.bay.file.get('meter', []) if 'scale' not in it}
        if any(it.kind == MEASURE and upcase(it.name).rpartition('_')[0] in plain
               for it in self.bay.things):
            notes.append(f'Measured values are {UNIT}: the bay file has none.')
        if program.points is None:
            notes.append('This tool can\'t follow the program, so all points are combined.')
        if program.timers and not self.audit.has_times():
            notes.append(f'The program has {quantity(program.timers, "timer")}, and no rule has a '
                         'time: <b>how long they run is not audited.</b>')
        if program.untold:
            notes.append('The times of these timers are not in the text, so no scan is made at '
                         f'their ends: {as_html(", ".join(program.untold))}.')
        return notes

    def rules(self) -> str:
        rows = []
        for it in self.audit.findings:
            kind = 'good' if it.verdict() in ('PROVED', 'TRIED') else 'bad'
            first, *others = verdicts.lines_of(self.audit, it)
            others = [first.replace('PROVED', 'proved')] if it.verdict() == 'PROVED' else others
            told = ''.join(f'<span class="remark">{as_html(one)}</span>' for one in it.rule.remarks)
            told += code(it.rule.text) + ''.join(
                f'<br><span class="quiet">{as_html(line)}</span>' for line in others)
            cases = f'{it.proof.cases:,}' if it.proof and it.proof.cases else ''
            looked = f'{it.looked:,}' if it.is_tried else ''
            rows.append((it.rule.line, told, cases, looked,
                         f'<span class="mark {kind}">{it.verdict()}</span>'))
        heads = ['#Line', 'Rule', '#Cases proved', '#Applied in so many tried', 'Verdict']
        return '<h2>Rules</h2>' + (table(heads, rows) if rows else '<p>There are none.</p>')

    def hazards(self) -> str:
        """What is proved of the releases and the hazards in the diagram."""
        judged = self.audit.judged
        return hazards.rows_of(judged, self.audit.diagram) if judged else ''

    def diagram(self) -> str:
        """The single line diagram in some states, with what is released in them."""
        if self.network is None:
            return ''
        how = ('Beside a switch, ✓ tells that this is released in the state, ✕ that it is not, '
               'as proved; ? that it depends on variables or timers' if self.audit.answer else
               'What is released in a state is not told: nothing is proved')
        lead = (f'<h2>Single line diagram</h2><p class="quiet">{how}. Inputs tell the positions '
                'of switches of other bays (grey). Other inputs and measures are 0, but in a '
                'state that breaks a rule or is a hazard.</p>')
        states, left = drawn_states(self.audit, self.network)
        more = f'<p>{quantity(left, "other such state")} not drawn.</p>' if left else ''
        return lead + ''.join(
            f'<div class="figure"><p>{as_html(it.title)}</p>'
            + draw(self.network, it.title, it.positions, it.releases) + '</div>'
            for it in states) + more

    def conditions(self) -> str:
        rows = [(f'<b>{as_html(name)}</b> {WAYS[way]}', product_list(it))
                for (name, way), it in release_conditions(self.audit).items()]
        how = ('as it is proved; where it depends on variables or timers, these are named'
               if self.audit.answer else 'as it was tried, once timers have run out')
        return (f'<h2>Derived conditions</h2><p class="quiet">When each release is given, in the '
                f'fewest words: {how}.</p>' + table(['!Release', 'is given when'], rows))

    def lost(self) -> str:
        """What is released while the process is lost, where bayctl tells it."""
        rows = [(f'<b>{as_html(name)}</b>', *map(as_html, told))
                for name, *told in proofs.lost_table(self.audit.answer, self.bay.file)]
        if not rows:
            return ''
        warnings = ''.join(f'<p class="bad"><b>Warning:</b> {as_html(it)}.</p>'
                           for it in verdicts.lost_warnings(self.audit))
        return ('<h2>When the process is lost</h2><p class="quiet">What is released while each '
                'position is bad and each input 0, with any measures: as it is proved, in every '
                'state of the program.</p>'
                + table(['!Switch', *WAYS], rows) + warnings)

    def start(self) -> str:
        """What the first scan after a restart releases, where bayctl tells it."""
        rows = [(f'<b>{as_html(name)}</b>', *map(as_html, told))
                for name, *told in proofs.start_table(self.audit.answer, self.bay.file)]
        if not rows:
            return ''
        warnings = ''.join(f'<p class="bad"><b>Warning:</b> {as_html(it)}.</p>'
                           for it in verdicts.start_warnings(self.audit))
        return ('<h2>After a restart</h2><p class="quiet">What the first scan after a restart '
                'releases, whatever the process reports by then, as it is proved: the program '
                'begins at its first values.</p>'
                + table(['!Switch', *WAYS], rows) + warnings)

    def uncovered(self) -> str:
        bare, is_proved = uncovered_release(self.audit), self.audit.answer is not None
        how = 'is released, as proved,' if is_proved else 'was released, as tried,'
        lead = (f'<h2>Releases that no rule covers</h2><p class="quiet">What {how} and no rule '
                'with <code>always</code> asks for.</p>')
        if bare is None:
            return lead + '<p>Not known: not all combinations were tried.</p>'
        if not bare:
            return lead + '<p>None: each release is asked for by a rule.</p>'
        heads = ['!Release', 'when', *([] if is_proved else ['#Combinations'])]
        rows = [(f'<b>{as_html(name)}</b> {WAYS[way]}', product_list(it),
                 *([] if is_proved else [f'{count:,}']))
                for (name, way), (count, it) in bare.items()]
        return lead + table(heads, rows)

    def matrix(self) -> str:
        if not self.audit.is_whole():
            return ''
        parts = ''.join(f'<div class="figure">{part}</div>'
                        for part in draw_parts(self.bay, self.audit.table, WIDTH))
        return ('<h2>Matrix</h2><p class="quiet">In how many of the combinations that were tried '
                'with a position or value each release is given; a column is empty where the '
                f'release does not depend on it.</p>{parts}')
