"""Runs of a program in which one allocation after the other is refused, by failmalloc.c."""
import collections
import sys
from collections.abc import Callable

import shared


def refuse_each(name: str, run: Callable, outcome: Callable,
                first: int = 1) -> tuple[int, collections.Counter]:
    """Refuses each allocation of a run in turn, from one on: how many there are, and how often each
    outcome is seen. It ends the script where a run has no outcome that it may have."""
    allocations = shared.allocations(run(FAIL_SHOW='1').stderr)
    seen = collections.Counter()
    for at in range(max(first, 1), allocations + 1):
        done = run(FAIL_AT=str(at))
        answer = outcome(done)
        if answer is None:
            sys.exit(f'{name}, allocation {at}: status {done.returncode}, {done.stdout!r}, '
                     f'{done.stderr!r}')
        seen[answer] += 1
    return allocations, seen


def word_of(done, words: tuple[bytes, ...]) -> str | None:
    """The first of some words that a run prints, or None."""
    said = (word.decode() for word in words if word in done.stderr + done.stdout)
    return next(said, None)
