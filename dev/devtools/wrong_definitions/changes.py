"""The changes of a definition that this project tries: each stands at one place and makes the
definition say something else."""
import collections
import dataclasses
import functools
import pathlib
import re
from collections.abc import Iterable, Iterator

from devtools.trace.definitions import Definition, scope_of

from .written import CLOSES, OPENS, Part, Token, after_group, parts, bare_text, tokens_in, types_of

PRELUDE = re.compile(r'^(use Rattle\.std\.specs\.Prelude\.\{)([^}]*)\}$', re.M)
SIGNS = {'<': '≤', '≤': '<', '≡': '≢', '≢': '≡', '&&': '||', '||': '&&', '+': '-', '-': '+'}
WORDS = {'nat_lt': 'nat_le', 'nat_le': 'nat_lt', 'int_lt': 'int_le', 'int_le': 'int_lt',
         'true': 'false', 'false': 'true'}
# Where an operand ends, beside at a bracket; and one of `&&` also at a relation.
BREAKS = {'if', 'then', 'else', 'let', 'in', 'where', '=', ',', ';', '||', '→', ':', '↦', '|', '.',
          '⊎'}
RELATIONS = {'≡', '≢', '≤', '<', '×'}
WORD = re.compile(r"[^\W\d_][\w'.]*(?<!\.)")
FACT = re.compile(r'[≡≢≤<→×⊎]|(?:^|[( ])(?:All|Contains|(?:Is|Are|Has|Can)[A-Z]\w*) ')


@dataclasses.dataclass(frozen=True)
class Change:
    """A place in a definition's file, what stands there instead, and what that needs of the
    library's prelude; of a fact that is left out its name, and those of all of its record."""
    definition: Definition
    kind: str
    start: int
    end: int
    new: str
    needs: str = ''
    number: int = 0
    name: str = ''
    names: frozenset[str] = frozenset()

    @property
    def id(self) -> str:
        """Its name: the definition, the kind, and its number among the changes of that kind."""
        it = self.definition
        return f'{it.crate}.{it.path.stem}.{it.name}.{self.kind}-{self.number}'

    def applied(self, text: str) -> str:
        """The text of the file with the change, and with an import of what it needs."""
        changed = text[:self.start] + self.new + text[self.end:]
        listed = PRELUDE.search(changed)
        if not self.needs or listed and self.needs in listed[2].split(', '):
            return changed
        if listed:
            return f'{changed[:listed.end(2)]}, {self.needs}{changed[listed.end(2):]}'
        return re.sub(r'^(?=use )', f'use Rattle.std.specs.Prelude.{{{self.needs}}}\n', changed,
                      count=1, flags=re.M)

    def changed_lines(self, text: str) -> tuple[str, str]:
        """The lines at which it stands, before and after."""
        begin, last = text.rfind('\n', 0, self.start) + 1, text[:self.end].rstrip()
        end = len(last) + len(text[len(last):].partition('\n')[0])
        before, after = text[begin:end], text[begin:self.start] + self.new + text[self.end:end]
        return ' '.join(before.split()), ' '.join(after.split())


class Changer:
    """Goes over a definition where it stands in its file."""

    def __init__(self, definition: Definition, text: str) -> None:
        self.definition = definition
        lines = text.split('\n')
        first = definition.line - 1
        last = first + definition.text.count('\n') + 1
        self.begin = sum(len(it) + 1 for it in lines[:first])
        self.whole = '\n'.join(lines[first:last])
        self.text = bare_text(self.whole)
        self.parts = parts(self.text, definition.name)
        self.is_record = definition.text.startswith(('record ', 'pub record '))

    def changes(self) -> list[Change]:
        """All its changes, numbered within their kinds."""
        counts: collections.Counter[str] = collections.Counter()
        found = []
        for it in (*self.of_parts(), *self.arms(), *self.facts()):
            counts[it.kind] += 1
            found.append(dataclasses.replace(it, number=counts[it.kind]))
        return found

    def change(self, kind: str, start: int, end: int, new: str, needs: str = '') -> Change:
        """A change at places of the definition."""
        return Change(self.definition, kind, self.begin + start, self.begin + end, new, needs)

    def of_parts(self) -> Iterator[Change]:
        """The changes within what each part says."""
        for part in self.parts:
            tokens = tokens_in(self.text, part.start, part.end)
            for place, it in enumerate(tokens):
                yield from self.at(tokens, place, it)
            yield from self.operands(tokens)

    def at(self, tokens: list[Token], place: int, it: Token) -> Iterator[Change]:
        """The changes at a token: of a number, a sign, a test, the arguments of a call."""
        before = tokens[place - 1].text if place else ''
        if it.text.isdecimal() and before not in ('Type', '{'):
            yield self.change('number', it.start, it.end, str(int(it.text) + 1))
        elif it.text in SIGNS:
            new = SIGNS[it.text]
            yield self.change('sign', it.start, it.end, new, f'◌{new}◌')
        elif it.text in WORDS:
            yield self.change('sign', it.start, it.end, WORDS[it.text], WORDS[it.text])
        elif it.text == 'if':
            yield from self.test(tokens, place)
        elif it.text == 'not':
            yield self.change('test', it.start, tokens[place + 1].start, '')
        elif WORD.fullmatch(it.text):
            yield from self.arguments(tokens, place)

    def test(self, tokens: list[Token], place: int) -> Iterator[Change]:
        """The test of an `if`, negated."""
        at = place + 1
        while at < len(tokens) and tokens[at].text not in ('then', 'if'):
            at = after_group(tokens, at)
        if at < len(tokens) and tokens[at].text == 'then' and tokens[place + 1].text != 'not':
            start, end = tokens[place + 1].start, tokens[at - 1].end
            yield self.change('test', start, end, f'not ({self.whole[start:end]})', 'not')

    def arguments(self, tokens: list[Token], place: int) -> Iterator[Change]:
        """Two arguments of one type, each in the place of the other, of a call at a place."""
        called = scope_of(self.definition).meaning(tokens[place].text)
        types = types_of(called) if isinstance(called, Definition) else []
        at = place + 1
        atoms: list[tuple[int, int]] = []
        while len(atoms) < len(types) and at < len(tokens) and is_atom(tokens[at]):
            end = after_group(tokens, at)
            atoms.append((tokens[at].start, tokens[end - 1].end))
            at = end
        for (one, other), pair in zip(zip(atoms, atoms[1:]), zip(types, types[1:])):
            first, second = (self.whole[start:end] for start, end in (one, other))
            if pair[0] == pair[1] and first != second:
                between = self.whole[one[1]:other[0]]
                yield self.change('arguments', one[0], other[1], second + between + first)

    def operands(self, tokens: list[Token]) -> Iterator[Change]:
        """An operand of `&&` or `×`, left out; an equality that no `if` asks, negated."""
        for place, it in enumerate(tokens):
            if it.text not in ('&&', '×', '=='):
                continue
            breaks = BREAKS | ({'×'} if it.text == '×' else {'&&'} | RELATIONS)
            first, last = begin_of(tokens, place, breaks), end_of(tokens, place, breaks)
            before = tokens[first - 1].text if first else ''
            if it.text == '==':
                start, end = tokens[first].start, tokens[last - 1].end
                if before != 'if':
                    new = f'not ({self.whole[start:end]})'
                    yield self.change('equality', start, end, new, 'not')
                continue
            if before != it.text:
                yield self.change('conjunct', tokens[first].start, tokens[place + 1].start, '')
            yield self.change('conjunct', tokens[place - 1].end, tokens[last - 1].end, '')

    def arms(self) -> Iterator[Change]:
        """What an arm says, in the place of what the next one says."""
        if self.is_record:
            return
        for one, other in zip(self.parts, self.parts[1:]):
            first, second = (self.whole[it.start:it.end] for it in (one, other))
            if ' '.join(first.split()) != ' '.join(second.split()) and self.may_swap(one, other):
                between = self.whole[one.end:other.start]
                yield self.change('arm', one.start, other.end, second + between + first)

    def may_swap(self, one: Part, other: Part) -> bool:
        """Whether what each of two arms says has a meaning behind the patterns of the other."""
        def words(start: int, end: int) -> set[str]:
            return {it.text.partition('.')[0] for it in tokens_in(self.text, start, end)}
        of = [(words(it.begin, it.start), words(it.start, it.end)) for it in (one, other)]
        bound = of[0][0] ^ of[1][0]
        return not any(bound & said & own for own, said in of)

    def facts(self) -> Iterator[Change]:
        """A fact of a record, left out, where no later field names it."""
        fields = self.parts if self.is_record else []
        names = [self.text[it.begin:it.start].split()[-2] for it in fields]
        for place, (name, part) in enumerate(zip(names, fields)):
            later = ' '.join(self.text[it.start:it.end] for it in fields[place + 1:])
            said = self.text[part.start:part.end]
            if FACT.search(said) and not re.search(rf'\b{re.escape(name)}\b', later):
                end = min(part.end + 1, len(self.text))
                change = self.change('fact', part.begin, end, '')
                yield dataclasses.replace(change, name=name, names=frozenset(names))


def is_atom(it: Token) -> bool:
    """Whether a token begins an argument."""
    return it.text[0] in OPENS + '"' or it.text.isdecimal() or bool(
        WORD.fullmatch(it.text) and it.text not in BREAKS)


def begin_of(tokens: list[Token], place: int, breaks: set[str]) -> int:
    """Where the operand before a place begins."""
    depth = 0
    while place:
        text = tokens[place - 1].text
        depth += (text in CLOSES) - (text in OPENS)
        if depth < 0 or depth == 0 and (text in breaks or text.endswith('.')):
            break
        place -= 1
    return place


def end_of(tokens: list[Token], place: int, breaks: set[str]) -> int:
    """The place behind the operand that follows a place."""
    at = place + 1
    while at < len(tokens) and tokens[at].text not in breaks | set(CLOSES):
        at = after_group(tokens, at)
    return at


@functools.cache
def text_of(path: pathlib.Path) -> str:
    """The text of a file of definitions."""
    return path.read_text(encoding='utf-8')


@functools.cache
def changes_of(definition: Definition) -> list[Change]:
    """The changes of a definition as it stands in its file."""
    return Changer(definition, text_of(definition.path)).changes()


def lines_of(changes: Iterable[Change]) -> dict[str, tuple[str, str]]:
    """The lines of changes, before and after, by their names."""
    return {it.id: it.changed_lines(text_of(it.definition.path)) for it in changes}
