"""The program run from its sources, without a proof, on several inputs by one compile: what `rt try --cases` does."""

import json
import re
import secrets
import shutil
import signal
import subprocess
import sys
import tempfile
import time
from collections.abc import Callable, Sequence
from pathlib import Path
from typing import Any, NamedTuple

from geanmarbles.paths import ROOT

MINUTES = "two to five minutes"
# The longest output that `rt try` hands on.
OUTPUT_BYTES = 1_048_576
SECONDS = 60
# How often a run says that it is still at work.
EVERY = 30.0


class NotRun(Exception):
    """Why nothing was run at all."""


class Case(NamedTuple):
    """What one run of the program gets: its standard input and its arguments."""

    given: bytes
    words: Sequence[str] = ()


class Outcome(NamedTuple):
    """What came of one run: how it went, its exit status if it ended, and what it wrote."""

    how: str
    status: int
    output: bytes

    def ended_well(self) -> bool:
        return self.how == "ended" and self.status == 0

    def fault(self) -> str:
        """What to say of a run that didn't end with status 0."""
        if self.how == "ended":
            return f"the program ended with status {self.status}"
        return (
            f"`rt try` has no whole run of it ({self.how}): it takes more than {SECONDS} s as it is compiled there, "
            f"which is some hundred times slower, or writes more than {OUTPUT_BYTES:,} bytes"
        )


def run_telling(
    words: Sequence[str], tell: Callable[[str], None], every: float = EVERY, **how: Any
) -> subprocess.CompletedProcess[bytes]:
    """Runs a command, and tells now and then how long it has been at work. It is ended if this is interrupted."""
    begin = time.monotonic()
    with subprocess.Popen(words, **how) as child:
        try:
            while True:
                try:
                    output, said = child.communicate(timeout=every)
                    return subprocess.CompletedProcess(words, child.returncode, output, said)
                except subprocess.TimeoutExpired:
                    tell(f"compiling the sources, and then running them, for {time.monotonic() - begin:.0f} s so far")
        finally:
            if child.poll() is None:
                child.terminate()


def write_cases(room: str, prefix: str, cases: Sequence[Case]) -> None:
    for number, case in enumerate(cases):
        Path(room, f"{prefix}-{number}").write_bytes(case.given)
        if case.words:
            Path(room, f"{prefix}-{number}.args").write_text("".join(f"{word}\n" for word in case.words))


def outputs_of(prefix: str, printed: bytes) -> dict[int, bytes]:
    """What each case wrote, by its number: `rt try` puts a line with the case's name before it."""
    heads = list(re.finditer(rb"^== " + prefix.encode() + rb"-(\d+)\n", printed, re.M))
    ends = [it.start() for it in heads[1:]] + [len(printed)]
    return {int(head[1]): printed[head.end() : end] for head, end in zip(heads, ends)}


def run_cases(
    cases: Sequence[Case], crate: str = "site", tell: Callable[[str], None] = lambda said: None
) -> list[Outcome]:
    """What came of each case of a program crate. One compile serves them all."""
    if not shutil.which("rt"):
        raise NotRun("the command 'rt' of the Rattle toolchain isn't on the PATH (README.md, Try it)")
    # No output has a line with this name, which nobody knows beforehand.
    prefix = f"case{secrets.token_hex(8)}"
    with tempfile.TemporaryDirectory(prefix="unproved-") as room:
        write_cases(room, prefix, cases)
        words = ["rt", "try", "--cases", room, "--seconds", str(SECONDS)]
        folder = ROOT / "crates" / crate
        pipes: dict[str, Any] = {it: subprocess.PIPE for it in ("stdout", "stderr")}
        ran = run_telling(words, tell, cwd=folder, stdin=subprocess.DEVNULL, **pipes)
    said = ran.stderr.decode(errors="replace")
    outputs = outputs_of(prefix, ran.stdout)
    ends = {int(it[1]): it for it in re.finditer(rf"case={prefix}-(\d+) run=(\S+)(?: status=(\d+))?", said)}
    if not ends:
        raise NotRun("\n".join(["`rt try` ran nothing:", *said.strip().split("\n")[-20:]]))
    found = []
    for number in range(len(cases)):
        end = ends.get(number)
        went, status = (end[2], int(end[3] or 0)) if end else ("none", 0)
        found.append(Outcome(went, status, outputs.get(number, b"")))
    return found


def say(text: str) -> None:
    print(f"build: {text}", file=sys.stderr, flush=True)


def is_object(line: bytes) -> bool:
    try:
        return isinstance(json.loads(line), dict)
    except (ValueError, RecursionError):
        return False


def tell_bad_lines(file: str, given: bytes) -> None:
    """Tells now, and not after minutes, of lines that are no JSON objects: they will be refused."""
    lines = given.removesuffix(b"\n").split(b"\n") if given else []
    bad = [number for number, line in enumerate(lines, 1) if not is_object(line)]
    if bad:
        more = f", as will {len(bad) - 1} more lines" if len(bad) > 1 else ""
        say(f"{file}, line {bad[0]}: this is no JSON object, so it will be refused{more}")


def run_files(words: Sequence[str], files: Sequence[str]) -> int:
    """Runs the program from its sources over each file."""
    inputs = [Case(Path(it).read_bytes(), words) for it in files]
    for file, case in zip(files, inputs):
        tell_bad_lines(file, case.given)
    well = True
    for file, outcome in zip(files, run_cases(inputs, tell=say)):
        sys.stdout.buffer.write(f"== {file}\n".encode() + outcome.output)
        sys.stdout.buffer.flush()
        if not outcome.ended_well():
            say(f"{file}: {outcome.fault()}")
            well = False
    return 0 if well else 1


def run_quick(words: Sequence[str], files: Sequence[str]) -> int:
    """Runs the program from its sources: over standard input, or over each file. The result is an exit status."""
    say(f"not proved: this run compiles the sources, which takes {MINUTES} each time and some 2 GB of memory.")
    try:
        if files:
            return run_files(words, files)
        if not shutil.which("rt"):
            raise NotRun("the command 'rt' of the Rattle toolchain isn't on the PATH (README.md)")
        signal.signal(signal.SIGTERM, lambda *_: sys.exit(128 + signal.SIGTERM))
        status = run_telling(["rt", "try", "--", *words], say, cwd=ROOT / "crates" / "site").returncode
        return 128 - status if status < 0 else status
    except OSError as fault:
        say(f"{fault.filename}: {fault.strerror}")
        return 2
    except NotRun as fault:
        say(str(fault))
        return 1
    except KeyboardInterrupt:
        return 130
