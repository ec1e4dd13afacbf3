"""Words of other dialects and languages where ours are meant, each with what stands for it here."""
from baytools.common.texts import upcase

# STEP 7 in German and in English, and words as they are spoken.
OPERATORS = {
    'U': 'AND', 'UN': 'ANDN', 'O': 'OR', 'ON': 'ORN', 'X': 'XOR', 'XN': 'XORN', 'A': 'AND',
    'AN': 'ANDN', 'L': 'LD', 'T': 'ST', 'UND': 'AND', 'ODER': 'OR', 'NICHT': 'NOT',
    'SPA': 'JMP', 'SPB': 'JMPC', 'SPBN': 'JMPCN', 'JU': 'JMP', 'JC': 'JMPC', 'JCN': 'JMPCN',
    'BE': 'RET', 'BEA': 'RET', 'BEB': 'RETC', 'BEU': 'RET', 'BEC': 'RETC', 'CALL': 'CAL',
    'LADE': 'LD', 'SET': 'LD TRUE', 'CLR': 'LD FALSE'}
# What loads the first operand of a condition, for which STEP 7 has the same word.
FIRST = {'AND': 'LD', 'OR': 'LD', 'XOR': 'LD', 'ANDN': 'LDN', 'ORN': 'LDN', 'XORN': 'LDN'}
TRUTHS = {'WAHR': 'TRUE', 'FALSCH': 'FALSE', 'VRAI': 'TRUE', 'FAUX': 'FALSE', 'VERO': 'TRUE',
          'FALSO': 'FALSE', 'JA': 'TRUE', 'NEIN': 'FALSE'}
STRUCTURED = {'IF', 'ELSIF', 'ELSE', 'END_IF', 'CASE', 'END_CASE', 'FOR', 'END_FOR', 'WHILE',
              'END_WHILE', 'REPEAT', 'UNTIL', 'END_REPEAT', 'RETURN', 'EXIT'}
QUOTES = '\u201c\u201d\u201e\u201f\u2018\u2019\u201a\u201b\u00ab\u00bb\u2039\u203a\u00b4`'


def operator_text(first: str, rest: list[str]) -> tuple[str, str] | None:
    """What is said of a line that begins with an operator of another dialect, and the remedy."""
    if rest[:1] == [':=']:
        return assignment_text(first, rest[1:])
    if upcase(first) in STRUCTURED:
        return (f'{first} is a word of Structured Text',
                'use JMPC, JMP and labels, or AND and OR of the conditions')
    word = OPERATORS.get(upcase(first))
    if word is None:
        return None
    mend = f'write {word}' if ' ' in word or not rest else f'write {word} {rest[0]}'
    if word in FIRST and rest and rest[0] != '(':
        mend += f', or {FIRST[word]} {rest[0]} where a condition begins'
    return f'{first} is an operator of another dialect: here it is {word}', mend


def assignment_text(name: str, rest: list[str]) -> tuple[str, str]:
    """The same of an assignment of Structured Text."""
    value = [word for word in rest if word != ';']
    is_operand = len(value) == 1 or len(value) == 3 and value[1] == '.'
    load = f'LD {"".join(value)}' if is_operand else 'its value by LD and operators'
    return ('an assignment by := is Structured Text: an instruction stores the result by ST',
            f'write {load}, and ST {name} on the next line')


def truth_text(name: str) -> tuple[str, str] | None:
    """The same of a name that is a truth value in another language."""
    word = TRUTHS.get(upcase(name))
    return word and (f'{name} is not a word of the language: here it is {word}', f'write {word}')


def quote_text(line: str, start: int) -> tuple[int, str, str] | None:
    """A typographic quote in the part of a line in which TOML can't be read: its column, what is
    wrong with it, and the remedy."""
    at = next((at for at, it in enumerate(line) if it in QUOTES and at >= start), None)
    if at is None:
        return None
    told = f'{line[at]} (U+{ord(line[at]):04X}) is not the quote of TOML'
    return at, told, 'write " before and behind the text'
