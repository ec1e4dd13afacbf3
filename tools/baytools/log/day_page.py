"""The digest of a span as a page of HTML that needs no other file."""
from collections.abc import Sequence

from baytools.common import page_head
from baytools.common.html_page import as_html, page, table
from baytools.common.texts import quantity

from .digest import BAD, GOOD, Digest, dated_text

MARKS = {GOOD: '<span class="good" title="done">✓</span>',
         BAD: '<span class="bad" title="refused, closed or lost">✕</span>'}
STYLE = '''
* { box-sizing: border-box }
body { font: 14px/1.45 system-ui, "DejaVu Sans", Verdana, Arial, sans-serif; color: #14212b;
  max-width: 1200px; margin: 0 auto; padding: 16px }
h1 { font-size: 21px; margin: 0 } h2 { font-size: 16px; margin: 24px 0 6px;
  border-bottom: 1px solid #c9d3da; padding-bottom: 3px }
p { margin: 4px 0 } .quiet { color: #52626e } .warning { color: #8a4b00 }
table { border-collapse: collapse; width: 100% }
th, td { text-align: left; vertical-align: top; padding: 3px 12px 3px 0;
  border-bottom: 1px solid #e3e9ed; overflow-wrap: break-word }
td.name { white-space: nowrap; font-variant-numeric: tabular-nums }
td.number, th.number { text-align: right } code { overflow-wrap: anywhere }
.good { color: #1b6b2f } .bad { color: #b3261e }
@media (max-width: 600px) { body { padding: 8px } th, td { padding-right: 6px }
  td.name { white-space: normal } }
@media print { tr { break-inside: avoid } thead { display: table-header-group } }
'''


NOT_NAMED = 'not named: a log does not say of which bay it is; --bay FILE names it'


def page_of(digest: Digest, bay: str = NOT_NAMED, files: Sequence[page_head.Source] = ()) -> str:
    """The page of a digest. `bay` is of which it is, `files` are those that were read beside the
    logs."""
    title = 'Who asked, what was refused, which links came and went'
    parts = [f'<h1>{title}</h1>',
             *page_head.head('tools/log', digest.time_text(),
                            [('Bay', bay), ('Logged by', digest.programs())],
                            [*digest.files, *files]),
             *(f'<p class="warning">{as_html(it)}</p>' for it in digest.warnings()),
             *controls_section(digest), *refused_section(digest), '<h2>The process</h2>',
             f'<p>{as_html(digest.process())}</p>', *event_rows(digest)]
    return page(title, STYLE, parts)


def table_html(heads: list[str], rows: Sequence[Sequence[object]], none: str) -> str:
    cells = [[as_html(it) for it in row] for row in rows]
    return table(heads, cells) if rows else f'<p>{none}</p>'


def controls_section(digest: Digest) -> list[str]:
    """Who asked, and why what was refused."""
    rows = [[it.who, it.places, it.links, it.done, it.refused] for it in digest.askers()]
    parts = ['<h2>Who asked</h2>',
             table_html(['Certificate', 'From', '#Associations', '#Done', '#Refused'], rows,
                        'Nobody.'),
             '<h2>Why controls were refused</h2>',
             table_html(['Why', '#Times'], digest.refusals(), 'None was.')]
    if ends := digest.ends():
        parts += ['<h2>How operates ended</h2>', table_html(['How', '#Times'], ends, '')]
    return parts


def refused_section(digest: Digest) -> list[str]:
    rows = [[why, hosts, count] for why, count, hosts in digest.refused_clients()]
    return ['<h2>Who was not let in</h2>', table_html(['Why', 'From', '#Times'], rows, 'Nobody.')]


def event_rows(digest: Digest) -> list[str]:
    """All events."""
    rows = digest.rows()
    cells = [[as_html(dated_text(it.moment)), MARKS.get(it.kind, '·'), as_html(it.told),
              as_html(it.who)] for it in rows]
    return [f'<h2>What happened <span class="quiet">({quantity(len(rows), "line")})</span></h2>',
            table(['!Time', '', 'What', 'Who'], cells) if rows else '<p>Nothing.</p>']

