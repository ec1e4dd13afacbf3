"""The switches of a bay where there is no diagram: a box each, in the order of the bay file, with
no lines between them, since a bay file does not say what leads where."""
import html
from collections.abc import Sequence

from baytools.diagram.svg_parts import line, text

WIDTH, HEIGHT, LETTER = 158, 92, 11  # of a box, and the width of a letter of an id
MIDDLE, WORDS = (27, 46), 54  # the middle of its symbol, and where its words begin
NOTE = 'no diagram: order of the bay file'


def breaker() -> str:
    """A square: full where it is closed, empty where it is open."""
    return ('<rect class="body" x="-17" y="-17" width="34" height="34"/>'
            '<path class="half" d="M -17 17 L 17 -17 L 17 17 Z"/>'
            '<path class="cross" d="M -17 -17 L 17 17 M 17 -17 L -17 17"/>')


def blade() -> str:
    """Two contacts and a blade between them, drawn downward, once for each way in which it is."""
    return (line(0, 17, 0, -17, 'shut') + line(0, 17, 20, -13, 'apart')
            + line(0, 17, 11, -16, 'middle')
            + '<circle class="contact" cx="0" cy="-19" r="4"/>'
            '<circle class="contact" cx="0" cy="19" r="4"/>'
            '<path class="cross" d="M -11 -11 L 11 11 M 11 -11 L -11 11"/>')


def query(turned: bool = False) -> str:
    """What stands in the place of a position that is not known."""
    turn = ' transform="rotate(-90)"' if turned else ''
    return f'<text class="query" x="0" y="9" text-anchor="middle"{turn}>?</text>'


def box(switch: dict) -> str:
    """A switch with its words, whose class is that of its position."""
    name = html.escape(switch['id'], quote=True)
    drawn = breaker() if switch['kind'] == 'breaker' else blade()
    width = max(WIDTH, WORDS + 8 + LETTER * len(switch['id']))
    rows = [(switch['id'], 'id', 28), (switch['kind'], 'kind', 45), ('not known', 'told', 63),
            ('', 'more', 80)]
    return (f'<svg viewBox="0 0 {width} {HEIGHT}" width="{width}" height="{HEIGHT}" role="group" '
            f'aria-label="{name}"><g class="switch unknown" data-switch="{name}" role="button" '
            f'tabindex="0" aria-label="{name}, not known">'
            f'<rect class="hit" x="2" y="2" width="{width - 4}" height="{HEIGHT - 4}" rx="8"/>'
            f'<g transform="translate({MIDDLE[0]} {MIDDLE[1]})">{drawn}{query()}</g>'
            + ''.join(text(WORDS, y, told, kind) for told, kind, y in rows) + '</g></svg>')


def draw(switches: Sequence[dict]) -> str:
    """The boxes, as HTML."""
    return (f'<p class="quiet">{NOTE}</p><div class="boxes">'
            + '\n'.join(box(it) for it in switches) + '</div>')
