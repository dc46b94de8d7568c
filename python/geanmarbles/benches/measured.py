"""Measures what programs take of a processor: the one way of all scripts of this folder.

A figure is the smallest time, the program's own and the system's for it, that the same run takes out of several. Runs
that are compared take turns, so that a busy moment of the machine slows them alike. What a single request takes is the
difference between a run with many of them and one with none, divided by their number. Each output is compared with what
it must be, so a program that replies wrongly isn't timed.
"""

import argparse
import os
import re
import subprocess
import sys
import tempfile
import time
from collections.abc import Iterable, Sequence
from typing import NamedTuple

from geanmarbles.repository import shipped
from geanmarbles.arguments import Parser
from geanmarbles.client.exchanges import CHANGE, Exchange
from geanmarbles.paths import BUILT_PASSES

TURNS = 15
# How many callbacks all passes of one run call, and the smallest number of passes of a run.
PASSED, FEWEST = 200_000, 20
# A difference that can't be told from none counts as this, in seconds, so that it has a ratio and a logarithm.
NONE = 1e-9
# What callgrind writes of a whole run.
TOTAL = re.compile(r"^(?:summary|totals): (\d+)", re.M)


class Run(NamedTuple):
    """A run of a program: its words, what it is given, and what it must write."""

    words: tuple[str, ...]
    given: bytes
    expected: bytes


class Spent(NamedTuple):
    """What a run takes of a processor, and its peak memory."""

    seconds: float
    kilobytes: int


class Case(NamedTuple):
    """A run in which something is done a number of times, and one in which it isn't done."""

    many: Run
    none: Run
    times: int


def parser_of(about: str | None) -> Parser:
    """The parser of the command line that all scripts have; a script's docstring says what it is about."""
    parser = Parser(description=(about or "").splitlines()[0])
    parser.add_argument("--smoke", action="store_true", help="run small sizes once, to see that the script works")
    program = "the program, crates/site/out/site if it is left out"
    parser.add_argument("program", nargs="?", default=str(shipped.program()), metavar="PROGRAM", help=program)
    return parser


def peak_of(pid: int, program: str) -> int:
    """Peak memory in kilobytes of the program so far, or 0 before it has taken this process over."""
    try:
        if os.readlink(f"/proc/{pid}/exe") != os.path.realpath(program):
            return 0
        with open(f"/proc/{pid}/status", encoding="ascii") as status:
            return next((int(line.split()[1]) for line in status if line.startswith("VmHWM:")), 0)
    except OSError:
        return 0


def ended(child: subprocess.Popen[bytes], program: str) -> Spent:
    """Waits for a child to end, and returns its processor seconds and its peak memory in kilobytes.

    The peak is read while it runs, so it is 0 if the child ends within a millisecond or so: the system's own figure
    counts what Python had before the program took the process over."""
    peak, pid = 0, 0
    while not pid:
        peak = max(peak, peak_of(child.pid, program))
        time.sleep(0.001)
        pid, status, usage = os.wait4(child.pid, os.WNOHANG)
    child.returncode = os.waitstatus_to_exitcode(status)
    return Spent(usage.ru_utime + usage.ru_stime, peak)


def spent(run: Run) -> Spent:
    """What one run takes, whose output must be as expected."""
    with tempfile.TemporaryFile() as source, tempfile.TemporaryFile() as written:
        source.write(run.given)
        source.seek(0)
        child = subprocess.Popen(run.words, stdin=source, stdout=written)
        figures = ended(child, run.words[0])
        if child.returncode != 0:
            sys.exit(f"{run.words[0]} ended with status {child.returncode}")
        written.seek(0)
        if written.read() != run.expected:
            sys.exit(f"{run.words[0]} replied wrongly")
    return figures


def counted(words: Sequence[str], given: bytes = b"") -> tuple[int, bytes]:
    """The instructions of a run, and what it writes."""
    with tempfile.NamedTemporaryFile("r", encoding="utf-8", errors="replace") as counts:
        valgrind = ["valgrind", "--tool=callgrind", f"--callgrind-out-file={counts.name}", *words]
        ran = subprocess.run(valgrind, input=given, capture_output=True, check=False)
        found = TOTAL.search(counts.read())
    if ran.returncode or not found:
        sys.exit(f"{words[0]} ended with status {ran.returncode}: {ran.stderr.decode(errors='replace')}")
    return int(found[1]), ran.stdout


def difference(whole: float, part: float) -> float:
    """What a time has more than another."""
    return max(whole - part, NONE)


class Bench:
    """What the command line of a script says, and the runs that are made for it."""

    def __init__(self, given: argparse.Namespace) -> None:
        self.smoke, self.program = given.smoke, given.program
        self.words = (given.program, "--calls", "100000")
        if not os.access(self.program, os.X_OK):
            sys.exit(f"{self.program} isn't built: run ./site once, or give another program")

    def run(self, exchange: Exchange) -> Run:
        """A run of the program over the lines of an exchange."""
        return Run(self.words, exchange.lines.encode(), exchange.replies.encode())

    def repeated(self, before: Exchange, exchange: Exchange, times: int) -> Case:
        """The case of an exchange that is made a number of times after another."""
        return Case(self.run(before + exchange * times), self.run(before), times)

    def changed(self, before: Exchange, exchange: Exchange, times: int) -> Case:
        """The case of an exchange that is made a number of times after another, each time after a change."""
        return Case(self.run(before + (CHANGE + exchange) * times), self.run(before + CHANGE * times), times)

    def passes(self, count: int, spread: bool) -> Case:
        """The case of passes of a filter over `count` callbacks, at one priority or, if spread, each at its own."""
        if not os.access(BUILT_PASSES, os.X_OK):
            sys.exit(f"{BUILT_PASSES} isn't built: run `rt run` in its crate's folder once")
        times = FEWEST if self.smoke else max(PASSED // count, FEWEST)

        def run(passes: int) -> Run:
            return Run((str(BUILT_PASSES), str(count), str(passes), *["many"] * spread), b"", b"value\n")

        return Case(run(times), run(0), times)

    def best(self, runs: Iterable[Run]) -> list[Spent]:
        """The smallest time and the largest peak of each of some runs, which take turns."""
        runs = list(runs)
        turns = [[spent(run) for run in runs] for _ in range(1 if self.smoke else TURNS)]
        return [Spent(min(it.seconds for it in of), max(it.kilobytes for it in of)) for of in zip(*turns)]

    def costs(self, cases: Sequence[Case]) -> list[Spent]:
        """For each of some cases the seconds of one time, and the peak of the run with many."""
        runs = dict.fromkeys(run for case in cases for run in (case.many, case.none))
        best = dict(zip(runs, self.best(runs)))

        def cost(case: Case) -> Spent:
            many, none = best[case.many], best[case.none]
            return Spent(difference(many.seconds, none.seconds) / case.times, many.kilobytes)

        return [cost(case) for case in cases]
