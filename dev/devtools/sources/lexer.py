"""The tokens of a Rattle source that run, without comments, attributes, clauses and ghost items."""
import dataclasses
import re

SPELLED = re.compile(
    r"""(?P<blank>\s+|//[^\n]*|/\*.*?\*/)
    |(?P<text>b?"(?:[^"\\]|\\.)*")
    |(?P<char>b?'(?:[^'\\\n]|\\[^u]|\\u\{[^}]*\}|\\x..)')
    |(?P<lifetime>'[A-Za-z_]\w*)
    |(?P<word>[^\W\d]\w*!?(?!=))
    |(?P<name>[^\W\d]\w*)
    |(?P<number>\d[\w.]*)
    |(?P<sign>=>|->|::|==|!=|<=|>=|&&|\|\||\.\.=|\.\.|.)""",
    re.VERBOSE | re.DOTALL)
PAIRS = {"(": ")", "[": "]", "{": "}"}
CLAUSES = ("ensures", "requires")


@dataclasses.dataclass(frozen=True)
class Token:
    """A token with its line, counted from 1."""
    text: str
    line: int


def tokens_of(source: str) -> list[Token]:
    """All tokens of a source without blanks and comments."""
    found, line = [], 1
    for it in SPELLED.finditer(source):
        if it.lastgroup != "blank":
            found.append(Token(it.group(), line))
        line += it.group().count("\n")
    return found


def end_of_group(tokens: list[Token], start: int) -> int:
    """The place behind the bracket that closes the one at `start`."""
    depth = 0
    for place in range(start, len(tokens)):
        text = tokens[place].text
        depth += (text in PAIRS) - (text in PAIRS.values())
        if depth == 0:
            return place + 1
    return len(tokens)


def place_of(tokens: list[Token], start: int, *wanted: str) -> int:
    """The first place from `start` on, outside brackets, with one of these texts; else the end."""
    place = start
    while place < len(tokens) and tokens[place].text not in wanted:
        opens = tokens[place].text in PAIRS
        place = end_of_group(tokens, place) if opens else place + 1
    return place


def end_of_clause(tokens: list[Token], start: int) -> int:
    """The place behind a clause: its word, a star or a label, and what stands in braces."""
    brace = place_of(tokens, start, "{")
    return end_of_group(tokens, brace)


def end_of_ghost(tokens: list[Token], start: int) -> int:
    """The place behind a ghost item, which ends in a semicolon, a comma of a field or a brace."""
    end = place_of(tokens, start, ";", ",", "}")
    return end + 1 if end < len(tokens) and tokens[end].text in ";," else end


def end_if_silent(tokens: list[Token], place: int) -> int:
    """The place behind an attribute, a clause or a ghost item; `place` itself where none begins."""
    text = tokens[place].text
    following = tokens[place + 1].text if place + 1 < len(tokens) else ""
    if text == "#" and following in "[!":
        return end_of_group(tokens, place + 1 + (following == "!"))
    if text in CLAUSES and following not in (".", ":", "(", ")", ","):
        return end_of_clause(tokens, place)
    if text == "ghost":
        return end_of_ghost(tokens, place)
    return place


def running_tokens(source: str) -> list[Token]:
    """The tokens of what runs."""
    tokens, kept, place = tokens_of(source), [], 0
    while place < len(tokens):
        end = end_if_silent(tokens, place)
        if end == place:
            kept.append(tokens[place])
            end += 1
        place = end
    return kept
