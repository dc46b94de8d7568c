"""Proves and builds programs of this repository, or with --quick runs lines over their sources without a proof.

    ./build [PROGRAM ..]
    ./build --quick [--calls N] [--cache N] [FILE ..]

PROGRAM is a crate of crates.txt that is a program, `site` if none is named; it is built into the file
crates/PROGRAM/out/PROGRAM, and ./site then runs that of `site`. What is proved is kept in crates/*/out, so that after a
change only what it reaches is proved again. A line on standard error says when a library is done, after what the prover
said of it if it is refused, and at the end of a build from nothing what it took of time, memory and disk.

Crates wait for one another in chains, of which the longest decides how long the build takes; bench/gate/seconds.txt
says how long each takes. A crate of that chain is proved by as many processes as there are processors, one of a chain
that is nearly as long by half as many if these are idle, the others by one process each, and at a lower priority if the
chains that they are in are much shorter.

With --quick the sources of `site` are compiled, which takes two to five minutes, and run for at most a minute, with
checks for bad memory accesses and overflows, over standard input or over each FILE, whose output follows a line
`== FILE`. Nothing is proved or kept.

The last line is 'N passed, M failed', which counts crates. The exit status is 0 if all are built, 1 if one isn't
proved, and 2 if the arguments are at fault.
"""

import argparse
import multiprocessing
import os
import subprocess
import sys
import tempfile
import time
from collections.abc import Callable, Sequence
from concurrent.futures import FIRST_COMPLETED, Future, ProcessPoolExecutor, wait
from pathlib import Path
from typing import Any, NamedTuple

from geanmarbles.arguments import Parser
from geanmarbles.paths import BUILT_PROGRAM, CRATES, ROOT
from geanmarbles.repository.built import built, crates_of_program, record, sources_of
from geanmarbles.repository.crates import is_program
from geanmarbles.repository.runs import keep_proved, keep_took, spent_since
from geanmarbles.repository.shipped import NotShipped, line_of, look_again, read_manifest
from geanmarbles.repository.toolchain import ToolchainFault, load, processors
from geanmarbles.repository.unproved import run_quick

# How long each crate took when that was last measured.
SECONDS = ROOT / "bench" / "gate" / "seconds.txt"
# What is in a chain longer than this part of the longest has half of the processors.
NEARLY = 0.85
# What is in no chain longer than this part of the longest can wait, and has a priority that is lower by this.
LONG = 0.36
NICE = 10
# What a library that wasn't measured may take: some seconds, in which the libraries below it are read, and one more for
# so many bytes of its text.
FIRST, BYTES = 40, 1_500


class Built(NamedTuple):
    """How a library's build went: 0 if it is proved, the processor seconds, and whether nothing of it was kept."""

    status: int
    seconds: float
    anew: bool


def say(text: str) -> None:
    print(f"build: {text}", file=sys.stderr, flush=True)


def read_seconds() -> dict[str, float]:
    """The processor seconds that each crate took, by its name."""
    lines = SECONDS.read_text(encoding="utf-8").splitlines()
    return {name: float(count) for name, count in (it.split() for it in lines if it and it[0] != "#")}


def text_of(library: Any) -> int:
    """How many bytes of a library the prover reads."""
    parts = (Path(library.folder, it) for it in ("src", "specs", "proofs"))
    return sum(it.stat().st_size for part in parts for it in part.rglob("*") if it.is_file())


def lengths_of(libraries: list[Any]) -> dict[str, float]:
    """How long the longest chain is that each library is in, as a part of the longest of all."""
    measured = read_seconds()
    sizes = {it.name: measured.get(it.name) or FIRST + text_of(it) / BYTES for it in libraries}
    deps = {it.name: [dep.name for dep in it.deps] for it in libraries}
    up_to: dict[str, float] = {}
    from_here: dict[str, float] = {}
    for it in deps:
        up_to[it] = sizes[it] + max((up_to[dep] for dep in deps[it]), default=0)
    for it in reversed(deps):
        from_here[it] = sizes[it] + max((from_here[above] for above in deps if it in deps[above]), default=0)
    return {it: (up_to[it] + from_here[it] - sizes[it]) / max(up_to.values(), default=1) for it in deps}


def jobs_for(length: float, lanes: int, idle: int) -> int:
    """How many processes prove a library of a chain that is this part of the longest."""
    return lanes if length == 1 else max(1, min(lanes // 2, idle)) if length > NEARLY else 1


# The libraries by name, for the processes that build them, which are forked once it's filled.
LIBRARIES: dict[str, Any] = {}
# The crates of which work was kept when this build began, here or in another checkout of this machine.
KEPT: set[str] = set()


def build_library(name: str, jobs: int) -> Built:
    """Builds a library, in a process that builds nothing else meanwhile."""
    library, begin = LIBRARIES[name], time.monotonic()
    before = spent_since()
    with tempfile.TemporaryFile("w+", errors="replace") as library.out:
        status: int = library.build_rlib(["--jobs", str(jobs)], anew=False)
        library.out.seek(0)
        print(library.out.read() if status else "", end="", file=sys.stderr)
    said = "not proved" if status else "proved"
    print(f"{name}: {said} after {time.monotonic() - begin:.0f} s", file=sys.stderr, flush=True)
    return Built(status, spent_since(before).seconds, name not in KEPT)


def pool(lanes: int, nice: int) -> ProcessPoolExecutor:
    fork = multiprocessing.get_context("fork")
    return ProcessPoolExecutor(lanes, mp_context=fork, initializer=os.nice, initargs=(nice,))


def build_all(libraries: list[Any]) -> dict[str, Built]:
    """Builds libraries, those below before those above, until one isn't proved. The result has those that were
    begun."""
    LIBRARIES.update({it.name: it for it in libraries})
    below = {it.name: {low.name for low in it.below()} for it in libraries}
    lengths, lanes = lengths_of(libraries), processors()
    left, found = sorted(below, key=lambda it: -lengths[it]), dict[str, Built]()
    running: dict[Future[Built], tuple[str, ProcessPoolExecutor, int]] = {}
    chain, beside, later = (pool(lanes, it) for it in (0, 0, NICE))
    rooms = {chain: 1, beside: max(1, lanes - 1), later: max(1, lanes // 2)}
    proved: set[str] = set()
    while running or left and len(proved) == len(found):
        for it in [it for it in left if proved >= below[it]] if len(proved) == len(found) else []:
            of_it = chain if lengths[it] == 1 else beside if lengths[it] > LONG else later
            if [of for _, of, _ in running.values()].count(of_it) < rooms[of_it]:
                left.remove(it)
                jobs = jobs_for(lengths[it], lanes, lanes - sum(jobs for _, _, jobs in running.values()))
                running[of_it.submit(build_library, it, jobs)] = it, of_it, jobs
        for call in wait(running, return_when=FIRST_COMPLETED).done:
            name = running.pop(call)[0]
            found[name] = call.result()
            proved |= set() if call.result().status else {name}
    for it in rooms:
        it.shutdown()
    return found


def build_libraries(names: list[str], *, with_named: bool) -> dict[str, Built]:
    """Proves and builds the libraries below some crates, and with the option these too."""
    rt = load()
    # Kits before 13f share no work among the checkouts of a machine.
    getattr(rt, "share_work", lambda is_alone: None)(True)
    folders = [str(CRATES / it) for it in names]
    crates: dict[str, Any] = {}
    for folder in folders:
        crates |= {it.name: it for it in rt.rtlib.crates_below(folder) if it.name not in crates}
    libraries = [it for it in crates.values() if with_named or it.folder not in folders]
    places_of: Callable[[Any], Sequence[object]] = getattr(rt, "places_of", lambda crate: ())
    KEPT.update(name for name, it in crates.items() if Path(it.folder, "out", "rlib").exists() or places_of(it))
    locks: list[int] = rt.rtlib.lock(libraries)
    try:
        return build_all(libraries)
    finally:
        for it in locks:
            os.close(it)


def build_program(name: str) -> Built:
    """Proves a program, builds it into out/ and runs it over an empty input, on which it ends with 0."""
    begin, before = time.time_ns(), spent_since()
    sources = sources_of(crates_of_program(name))
    words = ["rt", "run", "--jobs", str(processors())]
    how: dict[str, Any] = {"cwd": CRATES / name, "stdin": subprocess.DEVNULL, "stdout": sys.stderr}
    status = subprocess.run(words, **how).returncode or not built(name).is_file()
    if not status:
        # A source that was edited meanwhile is newer than the program.
        os.utime(built(name), ns=(begin, begin))
        if built(name) == BUILT_PROGRAM:
            record(sources)
    return Built(int(status), spent_since(before).seconds, name not in KEPT)


def build(programs: list[str]) -> dict[str, Built]:
    """Proves and builds programs and all that they stand on."""
    try:
        found = build_libraries(programs, with_named=False)
    except (ToolchainFault, AttributeError) as fault:
        say(f"{fault}: so `rt run` builds the libraries, one after another, which takes longer")
        found = {}
        KEPT.update(programs)
    for name in programs if not any(it.status for it in found.values()) else []:
        found[name] = build_program(name)
    return found


def tell_shipped() -> None:
    """Looks whether release/ is of the sources that were built, and says so."""
    try:
        manifest = read_manifest()
        say(f"release/ is {line_of(manifest, look_again(manifest)) or 'of these sources'}")
    except NotShipped as fault:
        say(str(fault))


def report(found: dict[str, Built], begin: float) -> int:
    """Says how a build went, and keeps what it took if all was built from nothing."""
    wall, spent = time.monotonic() - begin, spent_since()
    failed = sum(bool(it.status) for it in found.values())
    closing = f"{len(found) - failed} passed, {failed} failed"
    if found and not failed and all(it.anew for it in found.values()):
        say(keep_took(wall, spent, {name: it.seconds for name, it in found.items()}))
    if not failed and "site" in found:
        keep_proved(closing)
        tell_shipped()
    print(f"proofs: {closing}\n{closing}")
    return 1 if failed or not found else 0


def read_arguments() -> argparse.Namespace:
    parser = Parser(__doc__)
    parser.add_argument("--quick", action="store_true", help="run FILES over the sources, without a proof")
    for option in ("--calls", "--cache"):
        parser.add_argument(option, metavar="N", help="as ./site takes it, with --quick")
    parser.add_argument("names", metavar="PROGRAM | FILE", nargs="*", help="the programs to build; with --quick files")
    asked = parser.parse_args()
    if not asked.quick and (asked.calls or asked.cache):
        parser.error("--calls and --cache go with --quick")
    bad = [it for it in asked.names if not asked.quick and not is_program(it)]
    if bad:
        parser.error(f"no program: {', '.join(bad)}; a FILE of lines goes with --quick")
    return asked


def main() -> int:
    asked, begin = read_arguments(), time.monotonic()
    if asked.quick:
        given = {"--calls": asked.calls, "--cache": asked.cache}
        return run_quick([it for option in given.items() if option[1] for it in option], asked.names)
    return report(build(asked.names or ["site"]), begin)
