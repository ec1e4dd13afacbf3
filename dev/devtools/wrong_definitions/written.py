"""The text of a definition as its parts: what it says, without its name, its type and comments."""
import dataclasses
import re

from devtools.trace.definitions import WORDS, Definition

SILENT = re.compile(r'--[^\n]*|"(?:[^"\\]|\\.)*"')
TOKEN = re.compile(r'[(){}\[\],;]|[^\s(){}\[\],;]+')
FIELD = re.compile(r'^ {2,}(?:pub )?[^\s:(]+ : ', re.M)
SIGNED = re.compile(rf'(?:{WORDS})?(\S+)((?: *\([^()]*\)| *\{{[^{{}}]*\}})*) *: ')
OPENS, CLOSES = '({[', ')}]'


@dataclasses.dataclass(frozen=True)
class Token:
    """A word, a number, a sign or a bracket of a text, with its places."""
    text: str
    start: int
    end: int


@dataclasses.dataclass(frozen=True)
class Part:
    """An equation of a definition, or a field of a record: where its left side and what it says
    stand."""
    begin: int
    start: int
    end: int


def bare_text(text: str) -> str:
    """A text without comments, and with quotes alone where texts in quotes stand, each character at
    its place."""
    return SILENT.sub(lambda it: ('"' if it.group().startswith('"') else ' ') * len(it.group()),
                      text)


def tokens_in(text: str, start: int = 0, end: int | None = None) -> list[Token]:
    """The tokens of a part of a text that is silenced."""
    return [Token(it.group(), it.start(), it.end())
            for it in TOKEN.finditer(text, start, len(text) if end is None else end)]


def after_group(tokens: list[Token], place: int) -> int:
    """The place behind the bracket that closes the one at a place; behind a token that is none."""
    depth = 0
    for at in range(place, len(tokens)):
        depth += (tokens[at].text in OPENS) - (tokens[at].text in CLOSES)
        if depth <= 0:
            return at + 1
    return len(tokens)


def end_without_blanks(text: str, start: int, end: int) -> int:
    """The end of a part without the blanks behind it."""
    return start + len(text[start:end].rstrip())


def equations(text: str, name: str) -> list[Part]:
    """The equations of a definition in a text that is silenced: `name patterns = what it says`."""
    indent = ' ' * (len(text) - len(text.lstrip(' ')))
    heads = [it.start() for it in re.finditer(rf'^{indent}{re.escape(name)} ', text, re.M)]
    found = []
    for begin, end in zip(heads, [*heads[1:], len(text)]):
        tokens, place = tokens_in(text, begin, end), 0
        while place < len(tokens) and tokens[place].text not in ('=', ':'):
            place = after_group(tokens, place)
        if place < len(tokens) and tokens[place].text == '=':
            start = tokens[place].end
            found.append(Part(begin, start, end_without_blanks(text, start, end)))
    return found


def fields(text: str) -> list[Part]:
    """The fields of a record in a text that is silenced."""
    heads = list(FIELD.finditer(text))
    ends = [it.start() for it in heads[1:]] + [len(text)]
    return [Part(it.start(), it.end(), end_without_blanks(text, it.end(), end))
            for it, end in zip(heads, ends)]


def parts(text: str, name: str) -> list[Part]:
    """What a definition says, part by part; of data, which have constructors alone, nothing."""
    head = text.partition(name)[0]
    if 'data' in head:
        return []
    return fields(text) if 'record' in head else equations(text, name)


def without_fact(text: str, name: str, names: frozenset[str]) -> str:
    """A file of proofs without what gives a fact of a record, wherever all fields of it are
    given: `record { a = x; b = y }`."""
    tokens = tokens_in(bare_text(text))
    gone: list[tuple[int, int]] = []
    for place, it in enumerate(tokens[1:], 1):
        if it.text == '{' and tokens[place - 1].text == 'record':
            last, heads = after_group(tokens, place) - 1, [place + 1]
            at = place + 1
            while at < last:
                if tokens[at].text == ';':
                    heads.append(at + 1)
                at = after_group(tokens, at)
            given = {tokens[head].text: head for head in heads if head < last}
            if set(given) == names and (not gone or tokens[given[name]].start >= gone[-1][1]):
                head = given[name]
                behind = min(it for it in (*heads, last) if it > head)
                gone.append((tokens[head].start, tokens[behind].start))
    for start, end in reversed(gone):
        text = text[:start] + text[end:]
    return text


def split_type(text: str) -> list[str]:
    """The types of the arguments that a part of a type stands for: of `(a k : ℕ)` two, of one in
    braces none, since a call does not write it."""
    named = re.fullmatch(r'\(([^():]+) : (.*)\)', text)
    if named:
        return [named[2]] * len(named[1].split())
    return [] if text.startswith('{') else [text]


def types_of(definition: Definition) -> list[str]:
    """The types of a definition's arguments in their order, as its first lines have them."""
    text = ' '.join(bare_text(definition.text).split())
    signed = SIGNED.match(text)
    if not signed:
        return []
    found = [it for group in re.findall(r'\([^()]*\)', signed[2]) for it in split_type(group)]
    tokens, place, types = tokens_in(text, signed.end()), 0, ['']
    while place < len(tokens) and tokens[place].text not in (definition.name, 'where'):
        end = after_group(tokens, place)
        if tokens[place].text == '→':
            types.append('')
        else:
            types[-1] += f' {text[tokens[place].start:tokens[end - 1].end]}'
        place = end
    return found + [it for of in types[:-1] for it in split_type(of.strip())]
