"""Random values for tests: from hypothesis if it is installed, so that a case that fails is made as small as can be,
and else from seeds."""

from __future__ import annotations

from collections.abc import Callable
from importlib import import_module
from importlib.util import find_spec
from random import Random
from typing import Any

# How many cases are tried.
CASES = 100


def each(check: Callable[[Random], None], cases: int = CASES) -> None:
    """Runs a check over many sources of random values, of which it draws what it wants. The cases are the same each
    time."""
    if find_spec("hypothesis") is None:
        for seed in range(cases):
            check(Random(seed))
        return
    hypothesis: Any = import_module("hypothesis")
    settings = hypothesis.settings(max_examples=cases, deadline=None, derandomize=True, database=None)
    drawn = import_module("hypothesis.strategies").randoms(use_true_random=False)

    def judged(random: Random) -> None:
        check(random)

    settings(hypothesis.given(drawn)(judged))()


def text_of(random: Random, alphabet: str, most: int = 12) -> str:
    """A text of some characters."""
    return "".join(random.choice(alphabet) for _ in range(random.randint(0, most)))
