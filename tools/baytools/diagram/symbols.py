"""The symbols of a single line diagram (IEC 60617), each upright around its middle. A switch has
the parts of all its positions; the class of its group says which of them are seen."""
from .network import BREAKER, CABLE, LINE, TRANSFORMER, Node, Switch
from .svg_parts import line

REACH = 19  # from the middle of a switch to its contacts
# What is seen of a switch in each position, for a picture that stands by itself.
STYLE = '''
.diagram { font-family: "DejaVu Sans", Verdana, Helvetica, Arial, sans-serif }
.diagram .wire, .diagram .fixed, .diagram .winding { stroke: #1a1a1a; stroke-width: 2.5;
  fill: none }
.diagram .busbar { stroke: #1a1a1a; stroke-width: 6; stroke-linecap: round }
.diagram .joint, .diagram .ending { fill: #1a1a1a }
.diagram .winding { fill: #ffffff }
.diagram .note { font-size: 12px; fill: #555555 }
.diagram .id { font-size: 15px; font-weight: bold; fill: #1a1a1a }
.diagram .told, .diagram .frees { font-size: 12px; fill: #1a1a1a }
.diagram .more { display: none } .diagram .hit { fill: none; stroke: none }
.diagram .shut, .diagram .apart, .diagram .middle, .diagram .cross { display: none; fill: none;
  stroke: #1a1a1a; stroke-width: 3.5; stroke-linecap: round }
.diagram .closed .shut, .diagram .open .apart { display: inline }
.diagram .intermediate .middle { display: inline; stroke-dasharray: 4 6 }
.diagram .bad .cross { display: inline; stroke: #b3261e } .diagram .bad .told { fill: #b3261e }
.diagram .other .id { font-weight: normal; fill: #555555 }
'''


def contact(switch: Switch) -> str:
    """The fixed contact: a cross of a breaker, a bar of what isolates and of an earthing switch."""
    cross = '<path class="fixed" d="M -6 -25 L 6 -13 M 6 -25 L -6 -13"/>'
    bar = '<path class="fixed" d="M -9 -19 L 9 -19"/>'
    if switch.kind == BREAKER:
        return cross + (bar if switch.isolates else '')
    return bar


def blade(switch: Switch) -> str:
    """A switch: its fixed contact above, and the blade in each position."""
    return (contact(switch) + '<line class="shut" x1="0" y1="19" x2="0" y2="-19"/>'
            '<line class="apart" x1="0" y1="19" x2="19" y2="-12"/>'
            '<line class="middle" x1="0" y1="19" x2="10" y2="-16"/>'
            '<path class="cross" d="M -11 -11 L 11 11 M 11 -11 L -11 11"/>')


def windings(x: float, y: float) -> str:
    """A transformer: two windings."""
    return ''.join(f'<circle class="winding" cx="{x:.0f}" cy="{y + at:.0f}" r="15"/>'
                   for at in (-10, 10)) + (
        f'<circle class="wire" fill="none" cx="{x:.0f}" cy="{y - 10:.0f}" r="15"/>')


def ending(node: Node, x: float, y: float) -> str:
    """What stands at the end of the picture: a line goes on, a cable has its sealing end."""
    if node.kind == TRANSFORMER:
        return line(x, y, x, y + 15) + windings(x, y + 40)
    wire = line(x, y, x, y + 52 if node.kind == CABLE else y + 40)
    top, bottom = (y + 20, y + 36) if node.kind == CABLE else (y + 36, y + 52)
    return wire + (f'<path class="ending" d="M {x - 8:.0f} {top:.0f} L {x + 8:.0f} {top:.0f} '
                   f'L {x:.0f} {bottom:.0f} Z"/>') if node.kind in (LINE, CABLE) else ''
