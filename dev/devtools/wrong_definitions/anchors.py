"""The table of answers, as `dev/wrong_definitions --out` keeps it: by a change's name its lines
before and after with what it comes to, the last commit of the crates and the date."""
import dataclasses
import datetime
import json
import pathlib
from typing import Any

from baytools.common.ending import Failed
from devtools.figures.stamps import output_of

from .trying import Answer

Row = dict[str, Any]
Table = dict[str, Row]


def read_table(path: pathlib.Path | None) -> Table:
    """The table of a file, or an empty one."""
    try:
        text = path.read_text(encoding='utf-8') if path and path.exists() else '{}'
        found: Table = json.loads(text)
        return found
    except ValueError as error:
        raise Failed(f'{path}: it is no table of answers') from error


def row(before: str, after: str, answer: Answer) -> Row:
    """A row: the lines of a change, and its answer."""
    return {'before': before, 'after': after, **dataclasses.asdict(answer),
            'commit': output_of('git', 'log', '-1', '--format=%h', '--', 'crates'),
            'date': str(datetime.datetime.now(datetime.UTC).date())}


def merge_tables(old: Table, new: Table, there: dict[str, tuple[str, str]]) -> Table:
    """A table with new rows in the place of old ones, without those whose lines stand no more."""
    rows = {**old, **new}
    return {name: rows[name] for name in sorted(rows)
            if there.get(name) == (rows[name]['before'], rows[name]['after'])}


def keep(path: pathlib.Path, table: Table) -> None:
    """Writes a table."""
    path.write_text(json.dumps(table, indent=1, ensure_ascii=False) + '\n', encoding='utf-8')
