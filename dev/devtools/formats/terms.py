"""The right-hand sides of definitions of forms as terms: a name, and what it is applied to."""
import dataclasses
import re

TOKEN = re.compile(r'\s*(?:(\()|(\))|(∷)|([^\s()∷]+))')
LAMBDA = re.compile(r'\(\s*λ')


@dataclasses.dataclass(frozen=True)
class Term:
    """A name with its arguments; of what is no application, its text as the name."""
    head: str
    args: tuple['Term', ...] = ()


def after_parenthesis(text: str, start: int) -> int:
    """The place behind the parenthesis that closes the one at `start`."""
    depth = 0
    for place in range(start, len(text)):
        depth += (text[place] == '(') - (text[place] == ')')
        if not depth:
            return place + 1
    return len(text)


class Reader:
    """Goes over a text from the left."""

    def __init__(self, text: str) -> None:
        self.text, self.place = ' '.join(text.split()), 0

    def term(self) -> Term:
        """An application, up to a closing parenthesis or the end; a list by its items."""
        found, items = [], []
        while self.place < len(self.text):
            token = TOKEN.match(self.text, self.place)
            if token is None or token[2]:
                break
            if token[1]:
                found.append(self.within(token.start(1)))
                continue
            self.place = token.end()
            if token[3]:
                items.append(application_of(found))
                found = []
            else:
                found.append(Term(token[4]))
        if items:
            return Term('list', tuple(items))
        return application_of(found)

    def within(self, start: int) -> Term:
        """What stands in parentheses; a function is taken as its text."""
        if LAMBDA.match(self.text, start):
            end = after_parenthesis(self.text, start)
            self.place = end
            return Term(self.text[start:end])
        self.place = start + 1
        term = self.term()
        self.place = after_parenthesis(self.text, start)
        return term


def application_of(found: list[Term]) -> Term:
    """The first of some terms, applied to the others."""
    if not found:
        return Term('')
    head = found[0]
    return Term(head.head, (*head.args, *found[1:]))


def read(text: str) -> Term:
    """The term that a text is."""
    return Reader(text).term()
