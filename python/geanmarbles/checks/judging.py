"""What checks raise, and how they are counted."""

from __future__ import annotations

import http.client
import re
import subprocess
import traceback
from collections.abc import Callable, Iterable
from typing import NamedTuple

from geanmarbles.client.replies import Wrong

Check = Callable[[], object]
# Checks by their names.
Cases = Iterable[tuple[str | None, Check]]
CLOSING = re.compile(r"(\d+) passed, (\d+) failed(?:, (\d+) skipped)?")
# What a check may fail with, besides that something is wrong; of anything else it is told where it came from.
FAULTS = (OSError, ValueError, LookupError, subprocess.SubprocessError, http.client.HTTPException)


class Skipped(Exception):
    """Why a check isn't made here."""


def must(holds: object, what: str) -> None:
    """Fails the check if something doesn't hold."""
    if not holds:
        raise Wrong(what)


class Counted(NamedTuple):
    """How many checks passed, failed and were skipped. As a text it is the last line of a run."""

    passed: int = 0
    failed: int = 0
    skipped: int = 0

    def plus(self, other: Counted) -> Counted:
        return Counted(self.passed + other.passed, self.failed + other.failed, self.skipped + other.skipped)

    def __str__(self) -> str:
        return f"{self.passed} passed, {self.failed} failed" + (f", {self.skipped} skipped" if self.skipped else "")


def counted_in(output: str) -> Counted | None:
    """What the last line of a run counts, or None if it isn't such a line."""
    found = CLOSING.fullmatch((output.strip().split("\n") or [""])[-1])
    return Counted(*(int(it or 0) for it in found.groups())) if found else None


class Counts:
    """How many of the checks of a run passed, failed and were skipped so far."""

    def __init__(self) -> None:
        self.passed = self.failed = self.skipped = 0

    def judge(self, name: str | None, check: Check) -> None:
        """Makes a check, which may be many: it then returns what it counts."""
        try:
            found = check()
            passed, failed, skipped = found if isinstance(found, Counted) else Counted(1)
            self.passed, self.failed = self.passed + passed, self.failed + failed
            self.skipped += skipped
        except Skipped as why:
            self.skip(name, why)
        except Exception as fault:
            self.fail(name, fault)

    def skip(self, name: str | None, why: object) -> None:
        print(f"skipped: {name}: {why}", flush=True)
        self.skipped += 1

    def fail(self, name: str | None, fault: Exception) -> None:
        print(f"FAILED: {name}: {fault if isinstance(fault, Wrong) else repr(fault)}", flush=True)
        if not isinstance(fault, (Wrong, *FAULTS)):
            print("".join(traceback.format_exception(fault)), end="", flush=True)
        self.failed += 1

    def judge_all(self, cases: Cases) -> int:
        """Makes some checks, and returns how many were made. If the next one can't be had, that counts as a failure, or
        as skipped if that is why."""
        before = self.passed + self.failed
        try:
            for name, check in cases:
                self.judge(name, check)
        except Skipped as why:
            self.skip("the next check", why)
        except Exception as fault:
            self.fail("the next check can't be made", fault)
        return self.passed + self.failed - before

    def end(self) -> int:
        """Ends a run: its last line, and its status."""
        print(Counted(self.passed, self.failed, self.skipped), flush=True)
        return 1 if self.failed else 0
