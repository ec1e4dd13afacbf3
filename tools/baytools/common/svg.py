"""Pictures in SVG, that grow downward."""
import html
from collections.abc import Iterable

from .texts import in_line

INK, FAINT, GRID = '#1a1a1a', '#6a6a6a', '#e3e3e3'
WARN, FREE, COMMAND = '#b3261e', '#2e7d32', '#8a4b00'
SMALL = 12  # the size of the smallest letters
FONTS = 'DejaVu Sans, Verdana, Helvetica, Arial, sans-serif'


def room(text: str, size: float = SMALL) -> float:
    """About how wide a text is."""
    return len(text) * size * 0.62


def safe(text: str) -> str:
    """A text as SVG has it, its control characters spelled out."""
    return html.escape(in_line(text))


def title_of(tip: str) -> str:
    return f'<title>{safe(tip)}</title>' if tip else ''


class Picture:
    """What was drawn, and how far down it comes."""

    def __init__(self) -> None:
        self.parts: list[str] = []
        self.y: float = 0

    def text(self, x: float, y: float, text: str, size: float = SMALL, anchor: str = 'start',
             fill: str = INK, weight: str = 'normal') -> None:
        self.parts.append(f'<text x="{x:.1f}" y="{y:.1f}" font-size="{size}" '
                          f'text-anchor="{anchor}" fill="{fill}" '
                          f'font-weight="{weight}">{safe(text)}</text>')

    def upward(self, x: float, y: float, text: str, fill: str = INK) -> None:
        """A text that reads from below to above."""
        self.parts.append(f'<text transform="translate({x:.1f} {y:.1f}) rotate(-90)" '
                          f'font-size="{SMALL}" fill="{fill}">{safe(text)}</text>')

    def box(self, x: float, y: float, width: float, height: float, fill: str,
            stroke: str = 'none', tip: str = '', dash: str = '') -> None:
        dashes = f' stroke-dasharray="{dash}"' if dash else ''
        self.parts.append(f'<rect x="{x:.1f}" y="{y:.1f}" width="{max(width, 0.8):.1f}" '
                          f'height="{height}" fill="{fill}" '
                          f'stroke="{stroke}"{dashes}>{title_of(tip)}</rect>')

    def path(self, points: Iterable[tuple[float, float]], stroke: str, width: float = 1.5,
             fill: str = 'none', tip: str = '', dash: str = '') -> None:
        way = ' L '.join(f'{x:.1f} {y:.1f}' for x, y in points)
        dashes = f' stroke-dasharray="{dash}"' if dash else ''
        self.parts.append(f'<path d="M {way}" fill="{fill}" stroke="{stroke}" '
                          f'stroke-width="{width}"{dashes}>{title_of(tip)}</path>')

    def page(self, width: float, height: float, heading: str, told: str, front: str = '',
             key: str = '') -> str:
        """The octets of the file, with a heading and a description for readers. `key` tells its ids
        from those of other pictures of a page."""
        return (f'<svg xmlns="http://www.w3.org/2000/svg" viewBox="0 0 {width} {height:.0f}" '
                f'width="{width}" height="{height:.0f}" role="img" '
                f'aria-labelledby="heading{key} told{key}" font-family="{FONTS}">\n'
                f'<title id="heading{key}">{safe(heading)}</title>\n'
                f'<desc id="told{key}">{safe(told)}</desc>\n{front}'
                '<rect width="100%" height="100%" fill="#ffffff"/>\n'
                + '\n'.join(self.parts) + '\n</svg>\n')
