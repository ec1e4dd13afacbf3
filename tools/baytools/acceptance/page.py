"""The page of an acceptance test: one page of HTML that needs no other file, to be printed and
signed."""
from baytools.common import page_head
from baytools.common.html_page import A4, code, as_html, page, signatures, table
from baytools.common.texts import quantity

from .bench import Finding
from .steps import Section, switches_with_key

WIDTHS = (7, 28, 26, 29, 10)  # of the columns of steps, in percent
STYLE = 'table.steps { table-layout: fixed }\n' + '\n'.join(
    f'.steps th:nth-child({at}) {{ width: {width}% }}' for at, width in enumerate(WIDTHS, 1))


def untried_keys(file: dict, findings: list[Finding]) -> list[str]:
    """The switches with a key of which no step showed that at local an operate is refused."""
    tried = {it.step.tried for it in findings if it.is_good}
    return [name for name in switches_with_key(file) if name not in tried]


def verdict(file: dict, findings: list[Finding]) -> str:
    """What came of the test, in words."""
    expected = [it for it in findings if it.step.is_expected]
    failed = sum(not it.is_good for it in expected)
    of = f'{quantity(len(findings), "step")}, {quantity(len(expected), "expectation")}'
    if not expected:
        return f'FAILED: {of}: nothing is expected'
    if failed:
        return f'FAILED: {of}, of which {failed} failed'
    if names := untried_keys(file, findings):
        return f'FAILED: {of}: no step tries the key of {", ".join(names)} at local'
    return f'PASSED: {of}, all passed'


def is_passed(file: dict, findings: list[Finding]) -> bool:
    return (any(it.step.is_expected for it in findings) and all(it.is_good for it in findings)
            and not untried_keys(file, findings))


def rows_of(section: Section, findings: dict[int, Finding]) -> list[tuple[str, ...]]:
    """The rows of a section: what is done, or what is expected and found."""
    rows = []
    for step in section.steps:
        found = findings[step.line]
        _, _, told = step.text.partition(' ')
        if step.is_expected:
            kind, word = ('good', 'pass') if found.is_good else ('bad', 'FAIL')
            rows.append((str(step.line), '', code(told), as_html(found.found),
                         f'<span class="mark {kind}">{word}</span>'))
        else:
            rows.append((str(step.line), code(told), '', '', ''))
    return rows


def page_of(file: dict, files: dict, how: str, sections: list[Section],
            findings: list[Finding], begun: int) -> str:
    """The page. `files` are what was read, by what it is: name and octets; `how` says at what bay
    the steps were done, and `begun` when they began."""
    bay = file['bay']
    read = [page_head.source_of(what, *it) for what, it in files.items()]
    about = [('Bay', bay['domain']),
             ('Device', f'{bay["vendor"]} {bay["model"]}, {bay["revision"]}'), ('Done', how)]
    by_line = {it.step.line: it for it in findings}
    heads = ['#Line', 'Step', 'Expected', 'Found', 'Result']
    title = f'Acceptance test of bay {bay["domain"]}'
    kind = 'good' if is_passed(file, findings) else 'bad'
    parts = [f'<h1>{as_html(title)}</h1>',
             f'<div class="verdict {kind}"><p>{as_html(verdict(file, findings))}</p></div>',
             *page_head.head('tools/acceptance', page_head.span_text(begun, page_head.now()), about,
                             read),
             signatures(), '<h2>Steps</h2>']
    for section in sections:
        parts += [f'<h3>{as_html(section.title)}</h3>'] * bool(section.title)
        parts.append(table(heads, rows_of(section, by_line), ' class="steps"'))
    return page(title, A4 % f'Bay {bay["domain"]}, {page_head.moment_text(begun)}' + STYLE, parts)
