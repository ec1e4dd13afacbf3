"""The rules of a single line diagram as a page of HTML that needs no other file: the picture, and
each rule with why and by which path, to be printed and signed."""
import itertools
from collections.abc import Sequence
from typing import Any

from baytools.audit.hazards import Judgement, rows_of
from baytools.common import page_head
from baytools.common.html_page import A4, code, as_html, page, signatures, table
from baytools.diagram.network import Network

from .demands import demands_of, inputs_of_other_bays


def page_of(network: Network, bay: dict[str, Any], picture: str,
            sources: Sequence[page_head.Source], judged: Sequence[Judgement] = ()) -> str:
    """The page. `bay` is the table of the bay file, `picture` the drawn diagram, and `sources` are
    the files that were read. `judged` is what was proved of a program in the diagram."""
    title, moment = f'Rules of the diagram of bay {bay["domain"]}', page_head.moment_text(
        page_head.now())
    about = [('Bay', bay['domain']),
             ('Device', f'{bay["vendor"]} {bay["model"]}, {bay["revision"]}'),
             ('Diagram', network.title)]
    parts = [f'<h1>{as_html(title)}</h1>', *page_head.head('tools/rules', moment, about, sources),
             '<p>What the diagram asks of the interlocking. No program was asked whether it keeps '
             'the rules: tools/audit does that. A position that is not known counts as the worse '
             'of both.</p>', *elsewhere(network), signatures(),
             f'<h2>Single line diagram</h2><div class="figure">{picture}</div>',
             *([rows_of(judged, network.title)] if judged else []), *rules(network)]
    return page(title, A4 % f'Bay {bay["domain"]}, {moment}', parts)


def elsewhere(network: Network) -> list[str]:
    """What the programs of other bays must keep."""
    inputs = inputs_of_other_bays(network)
    return [f'<p class="bad">While a disconnector of this bay moves beside a closed path, the '
            f'programs of other bays must keep it closed: {code(", ".join(inputs))}.</p>'
            ] if inputs else []


def rules(network: Network) -> list[str]:
    """The rules under what each of them is for."""
    found = []
    for head, some in itertools.groupby(demands_of(network), lambda it: it.head):
        rows = [(code(it.text()), '<br>'.join(as_html(why) for why in it.why)) for it in some]
        found += [f'<h2>{as_html(head)}</h2>', table(['Rule', 'Why, and by which path'], rows)]
    return found
