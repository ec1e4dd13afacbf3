"""Steps of a checklist, each with a verdict."""
import subprocess
from collections.abc import Callable, Sequence
from dataclasses import dataclass

from baytools.common.ending import DONE, FOUND, PARTLY, Failed, error_text

GOOD, WRONG, OPEN = 'good', 'WRONG', 'OPEN'
SECONDS = 60  # of a program that is asked


@dataclass(frozen=True)
class Verdict:
    """What came of a step, and what was seen."""
    state: str
    told: str


@dataclass(frozen=True)
class Step:
    """A step of the checklist: what must be seen, and what looks at it."""
    wanted: str
    look: Callable[[], Verdict]


def verdict_of(is_good: bool, told: str) -> Verdict:
    return Verdict(GOOD if is_good else WRONG, told)


def check_step(step: Step) -> Verdict:
    """What comes of a step. One that can't be looked at stays open."""
    try:
        return step.look()
    except Failed as error:
        return Verdict(OPEN, str(error))
    except OSError as error:
        return Verdict(OPEN, error_text(error))
    except subprocess.TimeoutExpired as error:
        return Verdict(OPEN, f'{error.cmd[0]}: no answer within {SECONDS} s')


def run_program(words: Sequence[object], given: bytes = b'') -> tuple[int, str]:
    """The status of a program, and what it printed."""
    done = subprocess.run([str(word) for word in words], input=given, stdout=subprocess.PIPE,
                          stderr=subprocess.STDOUT, timeout=SECONDS)
    return done.returncode, done.stdout.decode('utf-8', 'backslashreplace').strip()


def print_steps(steps: Sequence[Step]) -> int:
    """Prints each step with its verdict; the exit status."""
    states = []
    for number, step in enumerate(steps, 1):
        found = check_step(step)
        states.append(found.state)
        print(f'{number}. {found.state}: {step.wanted}', flush=True)
        for line in found.told.splitlines():
            print(f'       {line}', flush=True)
    counts = [f'{states.count(it)} {it}' for it in (GOOD, WRONG, OPEN) if it in states]
    print(f'{len(states)} steps: {", ".join(counts)}')
    return FOUND if WRONG in states else PARTLY if OPEN in states else DONE
