"""A table of a wiring's terminals, as a commissioning sheet needs it: as text, and as a page of
HTML that needs no other file."""
import html
from dataclasses import dataclass

from baytools.common.texts import quantity, in_line

from .bus import Bus
from .wiring import WHOLE, Contact, Module, Modules, Switch

# The digit that a table of Modbus has before the numbers from 1 that makers print (six digits).
TABLES = {'coil': '0', 'contact': '1', 'register': '3'}
HEADS = ('Number', 'Reference', 'Terminal', 'Of the bay', 'What it does')
CLASSES = ('number', 'reference', 'terminal', 'name', 'told')
STYLE = '''
@page { size: A4; margin: 14mm 12mm }
* { box-sizing: border-box }
body { font: 10pt/1.4 "DejaVu Sans", Verdana, Helvetica, Arial, sans-serif; color: #1a1a1a;
  max-width: 200mm; margin: 0 auto; padding: 6mm }
h1 { font-size: 17pt; margin: 0 0 1mm } h2 { font-size: 12pt; margin: 7mm 0 1mm;
  border-bottom: 1px solid #999; padding-bottom: 1mm; break-after: avoid }
p { margin: 1.5mm 0 } .wide { overflow-x: auto }
table { border-collapse: collapse; width: 100% } tr { break-inside: avoid }
th, td { text-align: left; vertical-align: top; padding: 1.2mm 2mm 1.2mm 0;
  border-bottom: 1px solid #ccc } thead { display: table-header-group }
.number { text-align: right; padding-right: 4mm }
.number, .reference, .terminal, .name { white-space: nowrap } .name { font-weight: bold }
.quiet { color: #555 }
.box { display: inline-block; width: 4mm; height: 4mm; border: 1px solid #555 }
.sign td { height: 14mm; border: 1px solid #777; padding: 1mm 2mm; width: 33% }
.sign { break-inside: avoid; margin-top: 6mm }
@media screen and (max-width: 600px) {
  body { padding: 3mm } .terminals, .terminals tbody { display: block } thead { display: none }
  .terminals tr { display: grid; grid-template-columns: 3em 5em 1fr auto;
    border-bottom: 1px solid #ccc; padding: 1mm 0 }
  .terminals td { border: 0; padding: 0.3mm 2mm 0.3mm 0 }
  .name, .told { grid-column: 1 / 4 } .tried { grid-column: 4; grid-row: 1 }
}
@media print { body { padding: 0; max-width: none; font-size: 9pt } }
'''


@dataclass(frozen=True)
class Row:
    """A terminal: its kind and number, what of the bay it is, and what it does."""
    kind: str
    number: int
    name: str
    told: str


def millis(seconds: float) -> str:
    return f'{1000 * seconds:,.0f} ms'


def reads(contact: Contact) -> str:
    return 'TRUE at 0' if contact.inverted else 'TRUE at 1'


def rows_of_switch(one: Switch) -> list[Row]:
    """The terminals of a switch."""
    stands = f', counts once it has stood for {millis(one.hold)}' if one.hold else ''
    found = [Row('contact', it.at, f'{one.id} {end}', f'{one.id} is {end}: {reads(it)}{stands}')
             for it, end in ((one.open, 'open'), (one.closed, 'closed'))]
    if one.remote:
        found.append(Row('contact', one.remote.at, f'{one.id} at remote',
                         f'no pulse of {one.id} without it: {reads(one.remote)}'))
    lasts = (f'until {one.id} is there, at most {millis(one.pulse)}' if one.until_there
             else f'for {millis(one.pulse)}')
    found += [Row('coil', coil, f'{one.id} to {way}', f'on {lasts}')
              for way, coil in one.coils.items()]
    if one.magnet is not None:
        found.append(Row('coil', one.magnet, f'{one.id} magnet',
                         f'on while {one.id} may be moved by hand'))
    return found


def rows_of(module: Module) -> list[Row]:
    """The terminals of a module: contacts, coils, registers, by their numbers."""
    found = [row for one in module.switches for row in rows_of_switch(one)]
    for it in module.inputs:
        frees, lost = ('FALSE', 'TRUE') if it.fault else ('TRUE', 'FALSE')
        stands = f', {frees} counts once it has stood for {millis(it.hold)}' if it.hold else ''
        found.append(Row('contact', it.contact.at, it.name,
                         f'input {it.name}: {reads(it.contact)}{stands}; {lost} while the module '
                         'is not heard'))
    for one in module.measures:
        order = f', {"low" if one.low_first else "high"} word first' if one.words() == 2 else ''
        offset = f' {one.offset:+g}' if one.offset else ''
        valid = ('' if one.valid == WHOLE else
                 f', good from {one.valid[0]:,.10g} to {one.valid[1]:,.10g}')
        differs = f', told where it differs by more than {one.deadband:,}' if one.deadband else ''
        found.append(Row('register', one.at, f'{one.meter} {one.field}',
                         f'{one.kind}{order}, times {one.scale:g}{offset}{valid}{differs}'))
    if module.counter is not None:
        found.append(Row('register', module.counter, 'its counter',
                         'must change, or all of the module is bad'))
    order_of = {'contact': 0, 'coil': 1, 'register': 2}
    return sorted(found, key=lambda row: (order_of[row.kind], row.number))


def head_of(module: Module) -> list[str]:
    """What is to be known of a module."""
    alive = (f'input {module.alive} is TRUE while it is heard' if module.alive
             else 'no input says whether it is heard')
    found = [module.address.text(),
             f'read each {millis(module.every)}; bad when it does not answer within '
             f'{millis(module.timeout)}; bad for {millis(module.doubt)} when a write is not '
             'answered', alive]
    found += [f'register {register} of its settings is set to {value}'
              for register, value in module.setup]
    return found


def reference(row: Row, bus: Bus) -> str:
    """The number as makers of modules print it: from 1, behind the digit of its table."""
    return f'{TABLES[row.kind]}{row.number + 1:05}' if bus.references else ''


def cells(row: Row, bus: Bus) -> list[str]:
    kinds = {'contact': bus.contact, 'coil': bus.coil, 'register': 'input register'}
    return [str(row.number), reference(row, bus), kinds[row.kind], row.name, row.told]


def sheet(modules: list[Module], bus: Bus) -> list[str]:
    """The lines of the table as text."""
    lines: list[str] = []
    for module in modules:
        rows = [cells(row, bus) for row in rows_of(module)]
        widths = [max(len(row[at]) for row in [list(HEADS), *rows]) for at in range(4)]
        lines += ['', f'module {module.name}', *(f'  {told}' for told in head_of(module)), '']
        for row in [list(HEADS), *rows]:
            shown = [f'{cell:>{widths[0]}}' if at == 0 else f'{cell:<{widths[at]}}'
                     for at, cell in enumerate(row[:4]) if at != 1 or bus.references]
            lines.append(('  ' + '  '.join([*shown, row[4]])).rstrip())
    return lines


def summary(modules: Modules) -> str:
    """How much is wired."""
    counts = [quantity(len(modules), 'module'),
              quantity(sum(len(one.switches) for one in modules), 'switch', 'switches'),
              quantity(sum(len(one.inputs) for one in modules), 'input'),
              quantity(sum(len(one.measures) for one in modules), 'measure')]
    terminals = sum(len({(row.kind, row.number) for row in rows_of(one)}) for one in modules)
    rest = f'; on none: {", ".join(modules.not_wired)}' if modules.not_wired else ''
    return f'{", ".join(counts)}: {quantity(terminals, "terminal")}{rest}'


def as_html(text: str) -> str:
    return html.escape(in_line(text))


def table(module: Module, bus: Bus) -> str:
    """The table of a module, with a box to tick for each terminal that was tried."""
    heads = ''.join(f'<th class="{CLASSES[at]}">{name}</th>'
                    for at, name in enumerate(HEADS) if at != 1 or bus.references)
    lines = []
    for row in rows_of(module):
        shown = ''.join(f'<td class="{CLASSES[at]}">{as_html(cell)}</td>'
                        for at, cell in enumerate(cells(row, bus)) if at != 1 or bus.references)
        lines.append(f'<tr>{shown}<td class="tried"><span class="box"></span></td></tr>')
    return ('<div class="wide"><table class="terminals">\n'
            f'<thead><tr>{heads}<th>Tried</th></tr></thead><tbody>\n'
            + '\n'.join(lines) + '\n</tbody></table></div>')


def page(modules: Modules, bus: Bus, named: tuple[str, str], files: list[tuple[str, str]],
         ) -> str:
    """The whole page. `files` are the names of the files with their SHA-256."""
    title = f'Terminals of bay {as_html(named[0])}'
    parts = [f'<!DOCTYPE html>\n<html lang="en"><head><meta charset="utf-8">\n'
             f'<meta name="viewport" content="width=device-width, initial-scale=1">\n'
             f'<title>{title}</title><style>{STYLE}</style></head><body>',
             f'<h1>{title}</h1>',
             f'<p>Revision {as_html(named[1])}: {as_html(summary(modules))}.</p>']
    parts += [f'<p class="quiet">{as_html(name)}: SHA-256 {digest[:16]}..</p>'
              for name, digest in files]
    for module in modules:
        parts.append(f'<h2>Module {as_html(module.name)}</h2>')
        parts += [f'<p>{as_html(told)}</p>' for told in head_of(module)]
        parts.append(table(module, bus))
    parts.append('<table class="sign"><tr><td>Tried by</td><td>Date</td><td>Signature</td></tr>'
                 '</table></body></html>\n')
    return '\n'.join(parts)
