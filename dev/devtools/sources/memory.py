"""Where a source makes want of memory, in place of handing on what std or a library answered."""
import dataclasses

from .lexer import Token, end_of_group, place_of, running_tokens

# What stands for want of memory in an answer or in what is printed.
WORDS = ("AllocError", "AllocFailed", "OutOfMemory", "NO_MEMORY", "write_out_of_memory")
TEXTS = ('b"fault memory\\n"', 'b"load refused memory\\n"')
KEYWORDS = ("if", "while")


@dataclasses.dataclass(frozen=True)
class Place:
    """A named place: code that may say want of memory, once in its file, and why."""
    file: str
    code: str
    reason: str


SYSTEM = "the system's own word for it"
PLACES = (
    Place("bay_config/src/read.rt",
          "if error.is_memory() { Err(BayFault::OutOfMemory) }", "the reader of TOML says so"),
    Place("bay_diagram_file/src/read.rt",
          "if error.is_memory() { Err(file_fault(FaultKind::OutOfMemory)) }",
          "the reader of TOML says so"),
    Place("bay_load/src/error.rt", "None => LoadError::OutOfMemory,",
          "want of memory is the fault without a number"),
    Place("bay_report/src/report.rt",
          'None => writer.put(b"load refused memory\\n"),',
          "want of memory is the error without a number"),
    Place("bay_device/src/fault.rt", "None => LoadFault::OutOfMemory,",
          "want of memory is the fault without a number"),
    Place("bay_files/src/files.rt",
          "if error.kind() == ErrorKind::OutOfMemory { ReadFault::OutOfMemory }", SYSTEM),
    Place("bay_files/src/files.rt",
          "if error.kind() == ErrorKind::OutOfMemory { FileFault::OutOfMemory }", SYSTEM),
    Place("bay_main/src/program.rt",
          "if error.kind() == ErrorKind::OutOfMemory { ArgumentFault::OutOfMemory }", SYSTEM),
    Place("bay_cli/src/parse.rt",
          "if error.kind() == ErrorKind::OutOfMemory { return WordsFault::OutOfMemory; }",
          "the reader of command lines says so"),
    Place("bay_report/src/output.rt",
          'pub const NO_MEMORY: &[u8] = b"fault memory\\n";', "the name of the line"),
    Place("bay_report/src/log.rt", "{ write_text(writer, NO_MEMORY, Status::Fault) }",
          "the body of `write_out_of_memory`, whose calls are held as the line is"),
    Place("cmd_audit/src/loaded.rt", "Err(Stopped) => { writer.put(NO_MEMORY);",
          "an audit stops if an allocation fails, or a write: then nothing more is written"),
    Place("cmd_replay/src/answer.rt",
          "if answer_named(writer, device, octets, line, moment, event)"
          " { Some(ReplayEnd::OutOfMemory) }",
          "the line's octets found no memory, which `answer_named` returns as true"),
    Place("cmd_audit/src/judging_diagram.rt", "None => Err(AllocError),",
          "want of memory is the fault without a number"),
    Place("bay_server/src/turns.rt",
          "for association in memory"
          " { put_closing_line(writer, moment, *association, Why::Memory); }",
          "the turn tells that these were closed for it"),
)


@dataclasses.dataclass(frozen=True)
class Finding:
    """A line that makes want of memory, or a place that is named and not there."""
    line: int
    what: str


def is_memory_token(tokens: list[Token], place: int) -> bool:
    """Whether the token at a place stands for want of memory."""
    text = tokens[place].text
    if text == "Memory":
        return place > 1 and [it.text for it in tokens[place - 2:place]] == ["Why", "::"]
    return text in WORDS or text in TEXTS


def is_of_memory(pattern: list[Token]) -> bool:
    """Whether each alternative of a pattern is of want of memory alone."""
    start, alternatives = 0, []
    while start <= len(pattern):
        end = place_of(pattern, start, "|")
        alternatives.append(pattern[start:end])
        start = end + 1
    return all(any(is_memory_token(it, place) for place in range(len(it))) for it in alternatives)


class Walk:
    """Goes over what runs, and keeps each token that makes want of memory."""

    def __init__(self) -> None:
        self.made: list[Token] = []

    def items(self, tokens: list[Token], is_from: bool) -> None:
        """Goes over items: functions, `impl` blocks and constants."""
        place = 0
        while place < len(tokens):
            place = self.item(tokens, place, is_from)

    def item(self, tokens: list[Token], place: int, is_from: bool) -> int:
        """Goes over what begins at a place, and returns the place behind it."""
        text = tokens[place].text
        if text == "use":
            return self.imports(tokens, place)
        if text in ("const", "static") and tokens[place + 1].text != "fn":
            value = place_of(tokens, place, "=", ";")
            end = place_of(tokens, value, ";")
            self.expression(tokens[value:end], False)
            return end + 1
        if text not in ("fn", "impl", "trait", "mod"):
            return place + 1
        brace = place_of(tokens, place, "{", ";")
        if brace == len(tokens) or tokens[brace].text == ";":
            return brace + 1
        end = end_of_group(tokens, brace)
        body = tokens[brace + 1:end - 1]
        if text == "fn":
            self.expression(body, is_from)
        else:
            self.items(body, self.hands_on(tokens[place:brace]))
        return end

    def imports(self, tokens: list[Token], place: int) -> int:
        """Keeps what an import gives another name."""
        end = place_of(tokens, place, ";")
        for here in range(place, end - 1):
            if is_memory_token(tokens, here) and tokens[here + 1].text == "as":
                self.made.append(tokens[here])
        return end + 1

    @staticmethod
    def hands_on(header: list[Token]) -> bool:
        """Whether an `impl` is From of std's own fault of memory."""
        texts = [it.text for it in header]
        if "From" not in texts:
            return False
        behind = texts[texts.index("From") + 1:]
        return behind[:1] == ["<"] and behind[1:2] in (["AllocError"], ["AllocFailed"])

    def expression(self, tokens: list[Token], is_allowed: bool) -> None:
        """Goes over statements and expressions."""
        place = 0
        while place < len(tokens):
            place = self.part(tokens, place, is_allowed)

    def part(self, tokens: list[Token], place: int, is_allowed: bool) -> int:
        """Goes over what begins at a place of a body, and returns the place behind it."""
        text = tokens[place].text
        following = tokens[place + 1].text if place + 1 < len(tokens) else ""
        if text == "match":
            return self.match(tokens, place, is_allowed)
        if text in KEYWORDS and following == "let":
            return self.condition(tokens, place, is_allowed)
        if text == "let":
            return place_of(tokens, place, "=", ";")
        if text == "::" and following == "<":
            return self.after_types(tokens, place + 1)
        if is_memory_token(tokens, place) and not is_allowed:
            self.made.append(tokens[place])
        return place + 1

    @staticmethod
    def after_types(tokens: list[Token], place: int) -> int:
        """The place behind types in angles."""
        depth = 0
        for end in range(place, len(tokens)):
            depth += (tokens[end].text == "<") - (tokens[end].text == ">")
            if depth == 0:
                return end + 1
        return len(tokens)

    def match(self, tokens: list[Token], place: int, is_allowed: bool) -> int:
        """Goes over a match: what is asked, and each arm by its pattern."""
        brace = place_of(tokens, place, "{")
        self.expression(tokens[place + 1:brace], is_allowed)
        end = end_of_group(tokens, brace)
        arms, start = tokens[brace + 1:end - 1], 0
        while start < len(arms):
            arrow = place_of(arms, start, "=>")
            guard = min(place_of(arms, start, "if"), arrow)
            self.expression(arms[guard:arrow], is_allowed)
            done = self.end_of_arm(arms, arrow + 1)
            is_handed = is_of_memory(arms[start:guard])
            self.expression(arms[arrow + 1:done], is_allowed or is_handed)
            start = done + (done < len(arms) and arms[done].text == ",")
        return end

    @staticmethod
    def end_of_arm(arms: list[Token], start: int) -> int:
        """The place behind the expression of an arm."""
        if start < len(arms) and arms[start].text == "{":
            return end_of_group(arms, start)
        return place_of(arms, start, ",")

    def condition(self, tokens: list[Token], place: int, is_allowed: bool) -> int:
        """Goes over `if let` and `while let`, whose block is reached by their patterns alone."""
        brace = place_of(tokens, place, "{")
        is_handed, start = False, place
        while start < brace:
            if tokens[start].text == "let":
                equals = min(place_of(tokens, start, "="), brace)
                is_handed |= is_of_memory(tokens[start + 1:equals])
                start = equals
            elif is_memory_token(tokens, start) and not is_allowed:
                self.made.append(tokens[start])
            start += 1
        end = end_of_group(tokens, brace)
        self.expression(tokens[brace:end], is_allowed or is_handed)
        return end


def without_place(tokens: list[Token], place: Place) -> list[Token] | None:
    """The tokens without the code of a named place; None where it doesn't stand there once."""
    code = [it.text for it in running_tokens(place.code)]
    texts = [it.text for it in tokens]
    at = [it for it in range(len(texts)) if texts[it:it + len(code)] == code]
    return tokens[:at[0]] + tokens[at[0] + len(code):] if len(at) == 1 else None


def findings(file: str, source: str) -> list[Finding]:
    """What makes want of memory in a source, by its name below crates/."""
    tokens, found = running_tokens(source), []
    for place in PLACES:
        if place.file == file:
            rest = without_place(tokens, place)
            if rest is None:
                found.append(Finding(1, f"doesn't have once: {place.code}"))
            tokens = tokens if rest is None else rest
    walk = Walk()
    walk.items(tokens, False)
    return found + [Finding(it.line, f"makes want of memory: {it.text}") for it in walk.made]
