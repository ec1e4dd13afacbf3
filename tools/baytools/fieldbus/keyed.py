"""Tables of a TOML file of which each key is taken once, and none is left. What is wrong is told
with its line and what to write in its place."""
import difflib
import re
import tomllib
from collections.abc import Callable, Collection
from typing import Any

from baytools.common.ending import FOUND, Failed
from baytools.common.texts import in_line

HEADER = re.compile(r'\s*\[\[\s*(\w+)\s*\]\]')
KEY = re.compile(r'\s*(\w+)\s*=')


class Miswired(Failed):
    """A wiring that is wrong, or does not fit the bay."""
    status = FOUND


class Table:
    """A table of the file. `line` is that of its header, `lines` are those of its keys."""

    def __init__(self, where: str, keys: object, line: int = 0,
                 lines: dict[str, int] | None = None) -> None:
        self.where, self.line, self.lines = where, line, lines or {}
        if not isinstance(keys, dict):
            raise self.wrong('it must be a table')
        self.keys: dict[str, Any] = dict(keys)

    def wrong(self, told: str, key: str = '') -> Miswired:
        """What is wrong here, with the line of a key."""
        line = self.lines.get(key, self.line)
        return Miswired((f'line {line}: ' if line else '') + f'{self.where}: {told}')

    def shown(self, key: str) -> str:
        """What a key has, in a few characters."""
        found = in_line(repr(self.keys.get(key)))
        if key in self.keys:
            return f'{key} is {found[:40]}'
        other = difflib.get_close_matches(key, self.keys, 1, 0.8)
        return f'{key} is missing' + (f': is {other[0]} misspelt?' if other else '')

    def text(self, key: str) -> str:
        found = self.keys.get(key)
        if not isinstance(found, str) or not found:
            raise self.wrong(f'{self.shown(key)}: write a text in quotes', key)
        del self.keys[key]
        return found

    def optional(self, key: str) -> str | None:
        return self.text(key) if key in self.keys else None

    def whole(self, key: str, least: int, most: int, default: int | None = None) -> int:
        found = self.keys.get(key, default)
        if type(found) is not int or not least <= found <= most:
            raise self.wrong(f'{self.shown(key)}: write a whole number from {least:,} to {most:,}',
                             key)
        self.keys.pop(key, None)
        return found

    def number(self, key: str, default: float) -> float:
        found = self.keys.get(key, default)
        if type(found) not in (int, float) or not abs(found) < 1e15:
            raise self.wrong(f'{self.shown(key)}: write a number', key)
        self.keys.pop(key, None)
        return float(found)

    def truth(self, key: str, default: bool | None = False, why: str = '') -> bool:
        """A truth. `why` says what it is for, where there is no default."""
        found = self.keys.get(key, default)
        if not isinstance(found, bool):
            raise self.wrong(f'{self.shown(key)}: write true or false{why}', key)
        self.keys.pop(key, None)
        return found

    def one_of(self, key: str, words: Collection[str], default: str | None = None) -> str:
        found = self.keys.get(key, default)
        if not isinstance(found, str) or found not in words:
            raise self.wrong(f'{self.shown(key)}: write one of {", ".join(words)}', key)
        self.keys.pop(key, None)
        return found

    def some_of(self, key: str, words: Collection[str]) -> list[str]:
        """A list of some of these words, each once."""
        found = self.keys.get(key, [])
        if (not isinstance(found, list) or not all(one in words for one in found)
                or len(set(found)) != len(found)):
            raise self.wrong(f'{self.shown(key)}: write a list of some of {", ".join(words)}', key)
        self.keys.pop(key, None)
        return found

    def texts(self, key: str) -> list[str]:
        found = self.keys.get(key, [])
        if not isinstance(found, list) or not all(isinstance(one, str) for one in found):
            raise self.wrong(f'{self.shown(key)}: write a list of texts in quotes', key)
        self.keys.pop(key, None)
        return found

    def span(self, key: str) -> tuple[float, float] | None:
        """A least and a greatest number."""
        if key not in self.keys:
            return None
        found = self.keys[key]
        if isinstance(found, list) and len(found) == 2:
            least, most = found
            if {type(least), type(most)} <= {int, float} and least < most:
                del self.keys[key]
                return least, most
        raise self.wrong(f'{self.shown(key)}: write [LEAST, MOST], the least first', key)

    def pairs(self, key: str, most: int) -> list[tuple[int, int]]:
        """Pairs of numbers from 0."""
        found = self.keys.get(key, [])
        if not is_pairs(found, most):
            raise self.wrong(f'{self.shown(key)}: write [[REGISTER, VALUE], ..] with numbers from '
                             f'0 to {most:,}', key)
        self.keys.pop(key, None)
        return [(first, second) for first, second in found]

    def ends(self, known: str = '') -> None:
        """Nothing is left."""
        for key in self.keys:
            raise self.wrong(f'{key} means nothing here: leave it out'
                             + (f' ({known})' if known else ''), key)


def is_pairs(found: object, most: int) -> bool:
    return isinstance(found, list) and all(
        isinstance(one, list) and len(one) == 2
        and all(type(it) is int and 0 <= it <= most for it in one) for one in found)


def lines_of(text: str) -> dict[tuple[str, int], tuple[int, dict[str, int]]]:
    """The line of each header, by its name and its number from 1, and those of its keys; what
    stands before all headers has the name ''."""
    name, counts = '', {'': 1}
    found: dict[tuple[str, int], tuple[int, dict[str, int]]] = {('', 1): (0, {})}
    for number, line in enumerate(text.split('\n'), 1):
        header, key = HEADER.match(line), KEY.match(line)
        if header:
            name = header[1]
            counts[name] = counts.get(name, 0) + 1
            found[name, counts[name]] = number, {}
        elif key:
            found[name, counts[name]][1].setdefault(key[1], number)
    return found


class Tables:
    """The tables of a file by their names."""

    def __init__(self, text: str) -> None:
        try:
            self.found = tomllib.loads(text)
        except tomllib.TOMLDecodeError as error:
            raise Miswired(f'it is no TOML: {error}') from None
        except (ValueError, RecursionError):
            raise Miswired('it has a number or a list that exceeds what Python can read') from None
        self.lines = lines_of(text)

    def each(self, name: str, take: Callable[[Table], None]) -> None:
        """Takes each table [[name]]."""
        many = self.found.pop(name, [])
        if not isinstance(many, list):
            raise Miswired(f'{name}: write its tables as [[{name}]]')
        for at, keys in enumerate(many, 1):
            line, lines = self.lines.get((name, at), (0, {}))
            take(Table(f'{name} {at}', keys, line, lines))

    def rest(self) -> Table:
        """What stands before all tables."""
        return Table('the wiring', self.found, 0, self.lines['', 1][1])
