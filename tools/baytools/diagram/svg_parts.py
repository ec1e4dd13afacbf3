"""What pictures of a bay are drawn of, as SVG."""
import html


def line(x1, y1, x2, y2, kind='wire') -> str:
    return f'<line class="{kind}" x1="{x1}" y1="{y1}" x2="{x2}" y2="{y2}"/>'


def dot(x, y, radius=4) -> str:
    return f'<circle class="joint" cx="{x}" cy="{y}" r="{radius}"/>'


def text(x, y, told, kind, anchor='start') -> str:
    return (f'<text class="{kind}" x="{x}" y="{y}" text-anchor="{anchor}">'
            f'{html.escape(told)}</text>')


def earth(x, y) -> str:
    """An earth at the end of a branch to the right."""
    return (line(x, y - 14, x, y + 14) + line(x + 6, y - 9, x + 6, y + 9)
            + line(x + 12, y - 4, x + 12, y + 4))
