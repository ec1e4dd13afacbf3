"""The forms of a crate's definitions as assignments of an ASN.1 module."""
import dataclasses
import re
import textwrap

from devtools.paths import CRATES
from devtools.trace.definitions import Definition, Reader

from .terms import Term, read

FORM = re.compile(r'^(?:unfoldable|abbrev) pub (\w+) : (?:[^→]* → )*'
                  r'Form (Part|\(List Part\)|\(List ℕ\)) [^→]*$', re.S)
TEST = re.compile(r'[a-z]+(?:_[a-z]+)+')
SIMPLE = {'integer': 'INTEGER', 'truth': 'BOOLEAN', 'bits': 'BIT STRING', 'octets': 'OCTET STRING',
          'empty': 'NULL', 'any_octets': 'ANY', 'whole': 'ANY'}
UNIVERSAL = {'int_tag': 'INTEGER', 'oid_tag': 'OBJECT IDENTIFIER', 'visible_tag': 'VisibleString',
             'sequence': 'SEQUENCE', 'set_tag': 'SET', 'external_tag': 'EXTERNAL'}
PLAIN = ('int_tag', 'oid_tag', 'visible_tag')
WIDTH = 96
INITIATE = 'bay_mms_initiate', ('Initiate',)
MODULES = {'initiate': (INITIATE[0], 'Initiate', INITIATE[1]),
           'association': ('bay_assoc', 'Association', ('Presentation', 'Acse')),
           'mms': ('bay_mms', 'Requests', ('Grammar',))}


@dataclasses.dataclass(frozen=True)
class Form:
    """A form as it is defined: of a value, a content or a row."""
    name: str
    kind: str
    parameters: tuple[str, ...]
    term: Term
    told: str


def form_of(it: Definition) -> Form | None:
    """A definition as a form, if it is one."""
    head, *equations = it.text.split(f'\n{it.name}')
    found = FORM.match(' '.join(head.split()))
    if not found or not equations:
        return None
    # Of a form by depth the last equation names the form itself.
    names, _, right = equations[-1].partition(' =')
    parameters = tuple(names.split()) if len(equations) == 1 else ()
    return Form(it.name, found[2].strip('()'), parameters, read(right), it.told)


def forms_of(crate: str, files: tuple[str, ...]) -> dict[str, Form]:
    """The forms of a crate's files by their names."""
    found = {}
    for file in files:
        for it in Reader(crate, CRATES / crate / 'specs' / f'{file}.antt').read():
            form = form_of(it)
            if form:
                found[form.name] = form
    return found


def type_name(name: str) -> str:
    """A name as ASN.1 writes those of types."""
    return ''.join(it.capitalize() for it in name.split('_'))


def field_name(name: str) -> str:
    """A name as ASN.1 writes those of components."""
    return name.replace('_', '-')


class Module:
    """Writes the forms of a crate, which may name those of others."""

    def __init__(self, forms: dict[str, Form], others: tuple[str, ...] = ()) -> None:
        self.forms, self.others = forms, others

    def form(self, term: Term) -> Form | None:
        """The form that a term names."""
        return self.forms.get(term.head)

    def opened(self, term: Term) -> Term:
        """What a name stands for, with its arguments put in."""
        form = self.forms[term.head]
        return put_in(form.term, dict(zip(form.parameters, term.args)))

    # ---- a value

    def value(self, term: Term) -> str:
        """The type of a value."""
        form = self.form(term)
        if form and not form.parameters:
            return type_name(form.name)
        if form:
            return self.value(self.opened(term))
        if term.head in ('map_form', 'try_map_form'):
            return constrained_type(self.value(term.args[1]), term)
        if term.head in self.others:
            return type_name(term.head)
        if term.head == 'tagged':
            return self.tagged(*term.args)
        if term.head == 'choice':
            return block('CHOICE', self.alternatives(term))
        return unread(term)

    def alternatives(self, term: Term) -> list[str]:
        """The components of a choice."""
        if term.head == 'choice':
            tag, first, others = term.args
            return [f'{self.named(first, tag)} {self.tagged(tag, first)}',
                    *self.alternatives(others)]
        if term.head == 'none':
            return []
        return [f'{self.named(term)} {self.value(term)}']

    def tagged(self, tag: Term, content: Term) -> str:
        """A content under a tag."""
        if tag.head in PLAIN:
            return constrained_as(self.content(content), UNIVERSAL[tag.head])
        if tag.head in UNIVERSAL:
            return self.content(content, UNIVERSAL[tag.head])
        number = tag.args[0].head if tag.args else tag.head
        word = f'[{"APPLICATION " if tag.head == "application" else ""}{number}]'
        inner = self.inner(content)
        if inner.head == 'one':
            return f'{word} EXPLICIT {self.content(content)}'
        return f'{word} IMPLICIT {self.content(content)}'

    def inner(self, term: Term) -> Term:
        """A content without what is made of it."""
        while True:
            if term.head in ('map_form', 'try_map_form'):
                term = term.args[1]
            elif self.form(term) and self.forms[term.head].parameters:
                term = self.opened(term)
            else:
                return term

    # ---- a content

    def content(self, term: Term, word: str = 'SEQUENCE') -> str:
        """The type of a content."""
        form = self.form(term)
        if form and not form.parameters:
            return type_name(form.name)
        if form:
            return self.content(self.opened(term), word)
        if term.head in ('map_form', 'try_map_form'):
            return constrained_type(self.content(term.args[1], word), term)
        if term.head in ('one', 'first_form'):
            return self.value(term.args[0])
        if term.head in self.others:
            return type_name(term.head)
        if term.head == 'each':
            return f'{word} OF {self.value(term.args[0])}'
        if term.head == 'fields':
            return block(word, self.row(term.args[0]))
        if term.head == 'fields_with_tags':
            return block(word, [*self.row(term.args[1]), '...'])
        return unread(term)

    # ---- a row

    def row(self, term: Term) -> list[str]:
        """The components of a row."""
        if self.form(term):
            return self.row(self.opened(term))
        if term.head in ('map_form', 'try_map_form'):
            return self.row(term.args[1])
        if term.head == 'value_then':
            first, others = term.args
            return [f'{self.named(first)} {self.value(first)}', *self.row(others)]
        if term.head == 'maybe':
            tag, first, others = term.args
            return [f'{self.named(first, tag)} {self.tagged(tag, first)} OPTIONAL',
                    *self.row(others)]
        if term.head == 'by_first':
            return [*self.row(term.args[1]), '-- in either order']
        return []

    def named(self, term: Term, tag: Term | None = None) -> str:
        """The name of a component: of the form that it is, or of its tag."""
        inner = self.inner(term) if term.head in ('map_form', 'try_map_form') else term
        if self.form(inner):
            return field_name(inner.head)
        if inner.head in ('one', 'each') and self.form(inner.args[0]):
            return field_name(inner.args[0].head)
        tag = tag or (inner.args[0] if inner.head == 'tagged' else None)
        if tag is None:
            return 'other'
        return f'field-{tag.args[0].head}' if tag.args else UNIVERSAL.get(
            tag.head, tag.head).lower().replace(' ', '-')

    def assignment(self, form: Form) -> str:
        """A form as an assignment, under what its comment says."""
        made = self.value(form.term) if form.kind == 'Part' else self.content(form.term)
        told = textwrap.fill(form.told, WIDTH, initial_indent='-- ', subsequent_indent='-- ')
        return f'{told}\n{type_name(form.name)} ::= {made}'

    def text(self) -> list[str]:
        """All forms of values and contents; rows stand where they are used."""
        return [self.assignment(it) for it in self.forms.values()
                if it.kind != 'List Part' and not it.parameters]


def put_in(term: Term, values: dict[str, Term]) -> Term:
    """A term with values in the place of names."""
    args = tuple(put_in(it, values) for it in term.args)
    known = values.get(term.head)
    return Term(known.head, (*known.args, *args)) if known else Term(term.head, args)


def unread(term: Term) -> str:
    """The type of what is read by itself."""
    return SIMPLE.get(term.head, 'ANY -- by a relation of its own --')


def constrained_type(text: str, term: Term) -> str:
    """A type of which only a part is taken."""
    if term.head != 'try_map_form':
        return text
    head = term.args[0].head
    test = TEST.search(head) if head.startswith('(') else re.match(r'\w+', head)
    return f'{text} (CONSTRAINED BY {{-- {test[0] if test else "a test"} --}})'


def constrained_as(text: str, universal: str) -> str:
    """A universal type, with the constraint of its content."""
    return f'{universal}{text[text.index(" (CONSTR"):]}' if ' (CONSTR' in text else universal


def block(word: str, components: list[str]) -> str:
    """A type that is made of others."""
    if not components:
        return f'{word} {{}}'
    components = apart(components)
    last = max(k for k, it in enumerate(components) if not it.startswith('--'))
    lines = [it if it.startswith('--') or k == last else f'{it},'
             for k, it in enumerate(components)]
    return f'{word} {{\n{textwrap.indent(chr(10).join(lines), "  ")} }}'


def apart(components: list[str]) -> list[str]:
    """Components whose names differ: the second of a name is numbered."""
    seen: dict[str, int] = {}
    found = []
    for it in components:
        name, _, rest = it.partition(' ')
        seen[name] = seen.get(name, 0) + 1
        is_field = seen[name] > 1 and name[:1].isalpha()
        found.append(f'{name}-{seen[name]} {rest}' if is_field else it)
    return found


def module(crate: str, title: str, files: tuple[str, ...]) -> str:
    """The module of the forms of a crate's files, which may name those of an initiate."""
    others = tuple(forms_of(*INITIATE))
    body = '\n\n'.join(Module(forms_of(crate, files), others).text())
    return f'{title} DEFINITIONS ::= BEGIN\n\n{body}\n\nEND\n'
