"""The Markdown of the documents as HTML: what their tables, paragraphs and code need."""
import html
import re

INLINE = re.compile(r'`([^`]+)`|\*\*([^*]+)\*\*|\[([^\]]+)\]\([^)]*\)')


def inline(text: str) -> str:
    """A line: code, words in bold; of a link its words."""
    def one(it: re.Match) -> str:
        code, bold, words = it.groups()
        if code:
            return f'<code>{html.escape(code)}</code>'
        return f'<b>{inline(bold)}</b>' if bold else inline(words)
    found, place = [], 0
    for it in INLINE.finditer(text):
        found += [html.escape(text[place:it.start()]), one(it)]
        place = it.end()
    return ''.join([*found, html.escape(text[place:])])


def table(lines: list[str]) -> str:
    """A table."""
    rows = [[cell.strip() for cell in line.strip('|').split(' | ')] for line in lines]
    told = [f'<tr>{"".join(f"<th>{inline(it)}</th>" for it in rows[0])}</tr>']
    told += [f'<tr>{"".join(f"<td>{inline(it)}</td>" for it in row)}</tr>' for row in rows[2:]]
    return f'<table>{"".join(told)}</table>'


def block(text: str) -> str:
    """A paragraph, a table, a list or code."""
    lines = text.split('\n')
    if lines[0].startswith('|'):
        return table(lines)
    if lines[0].startswith('    '):
        return f'<pre>{html.escape(text)}</pre>'
    if lines[0].startswith('- '):
        items = ' '.join(lines).removeprefix('- ').split(' - ')
        return f'<ul>{"".join(f"<li>{inline(it)}</li>" for it in items)}</ul>'
    return f'<p>{inline(" ".join(lines))}</p>'


def section(page: str, heading: str) -> str:
    """What stands under a heading of a page."""
    text = page.partition(f'\n## {heading}\n')[2].partition('\n## ')[0]
    return '\n'.join(block(it.strip('\n')) for it in text.split('\n\n') if it.strip())
