"""Pages of HTML that need no other file: their frame, tables, and texts in them."""
import hashlib
import html
from collections.abc import Iterable, Sequence

from .texts import in_line

# A page of A4 that is printed and signed; what stands at its foot is put in.
A4 = '''
@page { size: A4; margin: 16mm 15mm 18mm;
  @bottom-right { content: counter(page) " / " counter(pages); font: 8pt sans-serif; color: #555 }
  @bottom-left { content: "%s"; font: 8pt sans-serif; color: #555 } }
* { box-sizing: border-box }
body { font: 10pt/1.4 "DejaVu Sans", Verdana, Helvetica, Arial, sans-serif; color: #1a1a1a;
  max-width: 190mm; margin: 0 auto; padding: 6mm; -webkit-print-color-adjust: exact;
  print-color-adjust: exact }
@media print { body { padding: 0; max-width: none; font-size: 9pt } }
h1 { font-size: 17pt; margin: 0 0 1mm } h2 { font-size: 12pt; margin: 7mm 0 2mm;
  border-bottom: 1px solid #999; padding-bottom: 1mm; break-after: avoid }
h2 + p { break-after: avoid } p { margin: 1.5mm 0 }
table { border-collapse: collapse; width: 100%% }
th, td { text-align: left; vertical-align: top; padding: 1mm 2mm 1mm 0;
  border-bottom: 1px solid #ddd } tr { break-inside: avoid } thead { display: table-header-group }
th { font-weight: bold } td.number, th.number { text-align: right }
td.number { white-space: nowrap }
code { font-family: "DejaVu Sans Mono", Consolas, monospace; font-size: 0.92em;
  overflow-wrap: anywhere } td.name { white-space: nowrap }
.verdict { border: 2px solid; padding: 1mm 4mm; margin: 4mm 0; font-size: 12pt; font-weight: bold }
.verdict .plain { font-size: 10pt; font-weight: normal }
.good { color: #1b5e20 } .bad { color: #b3261e } .mark { font-weight: bold; white-space: nowrap }
.quiet { color: #555 } .remark { display: block; font-style: italic; margin-bottom: 1mm }
.figure { break-inside: avoid; overflow-x: auto }
@media print { .figure svg { max-width: 100%%; height: auto } }
.figure svg.diagram { max-width: 100%%; height: auto }
.sign { break-inside: avoid; margin-top: 4mm }
.sign table { width: calc(100%% - 2px); margin: 1px }
.sign td { height: 14mm; border: 1px solid #777; padding: 1mm 2mm; width: 25%% }
.sign th { border: 1px solid #777; padding: 1mm 2mm; background: #f1f1f1 }
'''


def as_html(text: object) -> str:
    return html.escape(in_line(str(text)))


def code(text: object) -> str:
    return f'<code>{as_html(text)}</code>'


def table(heads: Sequence[str], rows: Iterable[Sequence[str]], style: str = '') -> str:
    """A table of cells of HTML; of a head a leading # says that its column has numbers, and !
    names."""
    kinds = [{'#': ' class="number"', '!': ' class="name"'}.get(head[:1], '') for head in heads]
    told = ''.join(f'<th scope="col"{kind}>{as_html(head.lstrip("#!"))}</th>'
                   for head, kind in zip(heads, kinds))
    head = f'<thead><tr>{told}</tr></thead>' if any(heads) else ''
    body = ''.join('<tr>' + ''.join(f'<td{kind}>{cell}</td>' for kind, cell in zip(kinds, row))
                   + '</tr>' for row in rows)
    return f'<table{style}>{head}<tbody>{body}</tbody></table>'


def page(title: str, style: str, parts: list[str]) -> str:
    """A whole page of some parts of HTML."""
    return ('<!DOCTYPE html>\n<html lang="en"><head><meta charset="utf-8">'
            '<meta name="viewport" content="width=device-width">'
            f'<title>{as_html(title)}</title><style>{style}</style></head>\n<body>\n'
            + '\n'.join(parts) + '\n</body></html>\n')


def signatures() -> str:
    """Room for those who tested, checked and accepted."""
    rows = [(who, '', '', '') for who in ('Tested by', 'Checked by', 'Accepted by')]
    return ('<div class="sign"><h2>Signatures</h2>'
            + table(['', 'Name', 'Date', 'Signature'], rows) + '</div>')


def sum_of(octets: bytes) -> str:
    """The SHA-256 of octets, in hexadecimal digits."""
    return hashlib.sha256(octets).hexdigest()
