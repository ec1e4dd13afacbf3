"""Texts as a terminal and a picture may show them, and names as the device compares them."""
import string
import unicodedata

RAISED = str.maketrans(string.ascii_lowercase, string.ascii_uppercase)
ODD = ('Cc', 'Cf', 'Cs', 'Zl', 'Zp')  # what is no character to be seen
LINES = '\n\t'


def upcase(name: str) -> str:
    """A name with a to z as A to Z. No other letter has two cases for the device."""
    return name.translate(RAISED)


def visible_text(text: str) -> str:
    """A text with what can't be seen spelled out, but for the ends of lines."""
    if text.isascii() and text.isprintable():
        return text
    return ''.join(one if one in LINES or unicodedata.category(one) not in ODD else escape_of(one)
                   for one in text)


def in_line(text: str) -> str:
    """A text as a part of a line: the ends of lines are spelled out too."""
    return visible_text(text).replace('\n', '\\n').replace('\t', '\\t')


def escape_of(character: str) -> str:
    return character.encode('unicode_escape').decode('ascii')


def quantity(count: int, one: str, several: str = '') -> str:
    """A number with its word: 1 line, 2 lines."""
    return f'{count:,} {one if count == 1 else several or one + "s"}'
