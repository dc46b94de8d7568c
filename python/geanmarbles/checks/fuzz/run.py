"""Gives the program random lists of lines, and checks of the replies what can be checked without a model.

    tests/fuzz/run [--seconds N] [--seed S] [--begin K] [PROGRAM]
    tests/fuzz/run --list FILE [PROGRAM]

PROGRAM is the one that is here, built or shipped, if it is left out. lines.py makes the lists: edits, activations,
imports, requests, and up to eight pages by turns, some of them with broken bytes or odd values. Of each list, checks.py
says that

- each line has one reply, of a form and a length that are exact, and one that its command can have;
- the first half alone has the same replies, and so has the second half after an import of what the first half stored;
- the replies are the same without the refused lines, without the pages, with `--cache 1` and `--cache 4096`, and with
  the same JSON written otherwise; and with other numbers of calls but for `refused 9 TooManyCalls`;
- pages are the same when they are asked for again, and once a plugin was turned off and on again, or on and off;
- without plugins and templates each page shows the post that the replies tell of, and there is no other post;

and turns.py that

- each page that is begun takes the first free number, of eight, and ends by turns as a `get` right before its `begin`
  does, whatever comes between; numbers that no page has are refused;
- the other replies are the same without the pages by turns;
- a page takes one turn more than the calls that it needs;

and kept.py that

- in a file too the replies are the same; SQLite itself, which carries out the file's history in tables of its own,
  finds the same rows before and after `--compact`, each row of each table, and pages and the next ID are the same.

The lists of a seed, 1 if none is given, are the same each time. Without --seconds a fixed number of lists is tried;
with it, as many as N seconds are enough for. --begin is the number of the first list. A list that fails is made
shorter while it fails in the same way, and is saved in out/fuzz; with --list the lines of a file are checked instead.

The last line is 'N passed, M failed', over the checks of all lists, and the exit status is 0 if none failed.
"""

import argparse
import itertools
import math
import time
from collections.abc import Callable, Iterable, Iterator, Sequence
from concurrent.futures import ThreadPoolExecutor
from pathlib import Path
from random import Random
from typing import Any

from geanmarbles.repository import shipped
from geanmarbles.arguments import Parser
from geanmarbles.checks.fuzz import checks, kept, turns
from geanmarbles.checks.fuzz.checks import Check, Program
from geanmarbles.checks.fuzz.lines import Lines
from geanmarbles.checks.fuzz.shorter import SHRINKS, saved, smallest
from geanmarbles.checks.programs import lanes, missing
from geanmarbles.client.replies import Wrong
from geanmarbles.paths import ROOT

CHECKS = (*checks.CHECKS, *turns.CHECKS, *kept.CHECKS)
# Each check with what it says, or None.
Faults = list[tuple[Check, str | None]]
LISTS = 200
# The longest list, in bytes, that is printed too.
PRINTED = 4_000


def fault_of(check: Check, program: Program, lines: Sequence[bytes]) -> str | None:
    """What a check says against the replies to some lines, or None."""
    try:
        check(program, lines, program.replies(lines))
    except Wrong as wrong:
        return str(wrong)
    return None


def faults_of(program: Program, lines: Sequence[bytes]) -> Faults:
    """Each check with what it says against the replies to some lines, or None."""
    try:
        replies = program.replies(lines)
    except Wrong as wrong:
        said = str(wrong)
        return [(check, said) for check in CHECKS]
    found: Faults = []
    for check in CHECKS:
        try:
            check(program, lines, replies)
            found.append((check, None))
        except Wrong as wrong:
            found.append((check, str(wrong)))
    return found


def shorter(program: Program, check: Check, lines: Iterable[bytes]) -> list[bytes]:
    """A shorter list of shorter lines, against which the check has something to say too."""
    return smallest(lines, lambda others: fault_of(check, program, others) is not None)


def save(program: Program, check: Check, lines: Iterable[bytes], name: object) -> None:
    """Saves a list that fails, made as short as can be, and says how to run it again."""
    lines = shorter(program, check, lines)
    path = saved(f"{name}-{check.__name__}", lines)
    print(f"    {fault_of(check, program, lines)}")
    print(f"    the shortest list that was found: tests/fuzz/run --list {path.relative_to(ROOT)}")
    if path.stat().st_size <= PRINTED:
        print(*(f"        {line.decode(errors='backslashreplace')}" for line in lines), sep="\n")


def listed(seed: str, number: int) -> list[bytes]:
    return Lines(Random(f"{seed}/{number}")).list()


def tried(program: Program, numbers: Iterator[int], seed: str, seconds: float) -> Iterator[tuple[int, Faults]]:
    """The number of each list that is tried, with what the checks say, until there is no number or no time."""
    until = time.monotonic() + seconds

    def judged(number: int) -> tuple[int, Faults] | None:
        return (number, faults_of(program, listed(seed, number))) if time.monotonic() < until else None

    with ThreadPoolExecutor(lanes()) as pool:
        while batch := list(itertools.islice(numbers, 8 * lanes())):
            found = list(pool.map(judged, batch))
            yield from filter(None, found)
            if None in found:
                return


def failures(
    program: Program,
    results: Iterable[tuple[Any, Faults]],
    lines_of: Callable[[Any], list[bytes]],
    command_of: Callable[[Any], str],
) -> tuple[int, int]:
    """How many checks passed and failed; the messages for those that failed, and the first of them made short."""
    passed = 0
    failed: list[tuple[Any, Check, str]] = []
    for name, faults in results:
        passed += sum(fault is None for _, fault in faults)
        failed += [(name, check, fault) for check, fault in faults if fault is not None]
    for place, (name, check, fault) in enumerate(sorted(failed, key=lambda it: str(it[0]).zfill(9))):
        print(f"FAILED: {check.__name__}: {command_of(name)}\n    {fault}")
        if place < SHRINKS:
            save(program, check, lines_of(name), name)
    return passed, len(failed)


def read_arguments() -> argparse.Namespace:
    parser = Parser(description="Gives the program random lists of lines, and checks its replies.")
    parser.add_argument("--seconds", metavar="N", type=int, help="try lists for N seconds")
    parser.add_argument("--seed", metavar="S", default="1", help="make the lists from S")
    parser.add_argument("--begin", metavar="K", type=int, default=1, help="the number of the first list")
    parser.add_argument("--list", metavar="FILE", type=Path, help="check the lines of a file instead")
    parser.add_argument("program", metavar="PROGRAM", nargs="?", type=Path, default=shipped.program())
    return parser.parse_args()


def main() -> int:
    arguments = read_arguments()
    if missing(arguments.program):
        print(f"FAILED: {missing(arguments.program)}\n0 passed, 1 failed")
        return 1
    program = Program(str(arguments.program.resolve()))
    begin = time.monotonic()
    if arguments.list:
        lines: list[bytes] = arguments.list.read_bytes().splitlines()
        only = [("list", faults_of(program, lines))]
        passed, failed = failures(program, only, lambda _: lines, lambda _: f"--list {arguments.list}")
    else:
        first = arguments.begin
        numbers = itertools.count(first) if arguments.seconds else iter(range(first, first + LISTS))
        results = list(tried(program, numbers, arguments.seed, arguments.seconds or math.inf))
        print(f"seed {arguments.seed}: {len(results)} lists in {time.monotonic() - begin:.0f} s")
        again = f"tests/fuzz/run --seed {arguments.seed} --begin"
        passed, failed = failures(program, results, lambda it: listed(arguments.seed, it), lambda it: f"{again} {it}")
    print(f"{passed} passed, {failed} failed")
    return 1 if failed else 0
