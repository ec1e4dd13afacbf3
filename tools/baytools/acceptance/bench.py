"""A bay at which steps are done, and what is found of them."""
from abc import ABC, abstractmethod
from collections.abc import Callable
from dataclasses import dataclass

from baytools.common.positions import OF_BITS
from baytools.wire.words import cause_text

from .steps import ASKS, UNKNOWN, WAYS, Step

UNREPORTED = '00', '01'  # a position and the head of its quality before the first report


@dataclass(frozen=True)
class Outcome:
    """What became of a control that was asked: whether it was accepted, and else its cause where
    one was sent; or how it ended."""
    is_good: bool
    cause: int | None = None

    def text(self, good: str, bad: str) -> str:
        if self.is_good:
            return good
        return f'{bad}: {cause_text(self.cause)}' if self.cause is not None else bad


@dataclass
class Finding:
    """A step with what was found; a step that does something has nothing to be found."""
    step: Step
    found: str = ''
    is_good: bool = True


Later = Callable[[], tuple[str, bool]]  # what is found, and whether it is what was expected


class Bench(ABC):
    """A bay. What is found may be known only after the last step, so each expectation gives a
    function that tells it then."""

    def do(self, step: Step) -> None:
        if step.told:
            self.send_line(step.told)
        elif step.kind == 'lost':
            self.lose()
        elif step.kind == 'wait':
            self.wait(step.time)
        elif step.kind in ASKS:
            self.ask(step.kind, step.switch, WAYS[step.way])

    def expect(self, step: Step) -> Later:
        """What is found of an expectation."""
        if step.kind in ('released', 'blocked'):
            return self.expect_release(step)
        if step.kind == 'position':
            return self.expect_position(step)
        if step.kind in ('command', 'no'):
            return self.expect_command(step)
        return self.expect_end(step) if step.kind == 'ended' else self.expect_answer(step)

    def expect_release(self, step: Step) -> Later:
        wanted = step.kind == 'released'
        now = self.released(step.switch, WAYS[step.way], wanted)

        def later() -> tuple[str, bool]:
            is_free = now()
            return 'released' if is_free else 'blocked', is_free is wanted
        return later

    def expect_position(self, step: Step) -> Later:
        now = self.position(step.switch, step.position)
        return lambda: (now(), now() == step.position)

    def expect_command(self, step: Step) -> Later:
        wanted = [(step.switch, step.way)] if step.kind == 'command' else []
        now = self.commands(wanted)

        def later() -> tuple[str, bool]:
            found = now()
            told = ', '.join(f'command: {way} {name}' for name, way in found) or 'no command'
            return told, found == wanted
        return later

    def expect_answer(self, step: Step) -> Later:
        now = self.answer()

        def later() -> tuple[str, bool]:
            found = now()
            is_wanted = found.is_good is (step.kind == 'accepted') and step.cause in (
                None, found.cause)
            return found.text('accepted', 'refused'), is_wanted
        return later

    def expect_end(self, step: Step) -> Later:
        now = self.end()

        def later() -> tuple[str, bool]:
            found = now()
            if found is None:
                return 'no end is reported', False
            return found.text('ended: done', 'ended'), found.cause == step.cause
        return later

    @abstractmethod
    def send_line(self, line: str) -> None:
        """The process tells a contact, an input or a measure."""

    @abstractmethod
    def lose(self) -> None:
        """The process is lost."""

    @abstractmethod
    def wait(self, time: int) -> None:
        """So many milliseconds pass."""

    @abstractmethod
    def ask(self, verb: str, switch: str, on: bool) -> None:
        """A client selects, operates or cancels; to operate it selects first where that is needed.
        """

    @abstractmethod
    def released(self, switch: str, on: bool, wanted: bool) -> Callable[[], bool]:
        """Whether the interlocking releases something."""

    @abstractmethod
    def position(self, switch: str, wanted: str) -> Callable[[], str]:
        """Where a switch is, in words."""

    @abstractmethod
    def commands(self, wanted: list) -> Callable[[], list[tuple[str, str]]]:
        """The commands since something was asked last."""

    @abstractmethod
    def answer(self) -> Callable[[], Outcome]:
        """What became of the control that was asked last."""

    @abstractmethod
    def end(self) -> Callable[[], Outcome | None]:
        """How the operate that was asked last has ended, or None."""

    def finish(self) -> None:
        """After the last step."""

    def close(self) -> None:
        """Lets go what it holds, also where something went wrong."""


def position_text(bits: str, quality: str) -> str:
    """A position in words, by its bits and those of its quality."""
    return UNKNOWN if (bits, quality[:2]) == UNREPORTED else OF_BITS[bits]


def findings_of(bench: Bench, steps: list[Step]) -> list[Finding]:
    """What is found of all steps."""
    later = []
    try:
        for step in steps:
            later.append((step, bench.expect(step) if step.is_expected else bench.do(step)))
        bench.finish()
    finally:
        bench.close()
    return [Finding(step, *tell()) if tell else Finding(step) for step, tell in later]
