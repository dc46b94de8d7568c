"""Makes a list of lines that fails as short as can be, and saves it."""

import threading
import time
from collections.abc import Callable, Iterable, Sequence
from pathlib import Path
from typing import TypeVar

from geanmarbles.client.replies import Wrong
from geanmarbles.paths import ROOT

# A list of lines or a line, which is made shorter.
S = TypeVar("S", list[bytes], bytes)
SAVED = ROOT / "out" / "fuzz"
# For how long a list is made shorter, and how many of them a script makes so.
SECONDS, SHRINKS = 30, 3


def shortened(items: S, fails: Callable[[S], bool], until: float) -> S:
    """The items without what can be left out while they still fail: stretches of half the length, and so on."""
    size = max(1, len(items) // 2)
    while size:
        at = 0
        while at < len(items) and time.monotonic() < until:
            fewer = items[:at] + items[at + size :]
            if fails(fewer):
                items = fewer
            else:
                at += size
        size //= 2
    return items


def smallest(lines: Iterable[bytes], fails: Callable[[list[bytes]], bool]) -> list[bytes]:
    """A shorter list of shorter lines that fails too."""
    until = time.monotonic() + SECONDS
    left = shortened(list(lines), fails, until)
    for at in range(len(left)):
        left[at] = shortened(left[at], lambda other: fails([*left[:at], other, *left[at + 1 :]]), until)
    return left


def saved(name: str, lines: Iterable[bytes], folder: Path = SAVED) -> Path:
    """The file into which a list was written, a line each."""
    folder.mkdir(parents=True, exist_ok=True)
    path = folder / f"{name}.jsonl"
    path.write_bytes(b"".join(line + b"\n" for line in lines))
    return path


class Shorter:
    """Makes checks over lists. The first lists that fail are made shorter, and saved."""

    def __init__(self, folder: Path = SAVED) -> None:
        self.folder, self.left, self.turn = folder, SHRINKS, threading.Lock()

    def judge(self, name: str, check: Callable[[list[bytes]], object], lines: Sequence[bytes]) -> None:
        """Makes a check over some lines. Raises Wrong with what it says of the shortest list that was found, and says
        where that list is."""
        said = fault_of(check, list(lines))
        if said is None:
            return
        with self.turn:
            is_made_short, self.left = self.left > 0, self.left - 1
        if not is_made_short:
            raise Wrong(said)
        short = smallest(lines, lambda others: fault_of(check, others) is not None)
        path = saved(name.replace(" ", "-"), short, self.folder)
        raise Wrong(f"{fault_of(check, short) or said}; the shortest list that was found is {path}")


def fault_of(check: Callable[[list[bytes]], object], lines: list[bytes]) -> str | None:
    """What a check says against some lines, or None."""
    try:
        check(lines)
    except Wrong as wrong:
        return str(wrong)
    return None
