"""Runs every row, example and check over the program that is there, built or shipped. Nothing is proved or built.

    ./test [--program PATH] [--may-skip NAME=REASON ..] [PART ..]

With PARTs, it runs the parts whose commands have these words, such as `rows`, `database` or `--part commits`, each in
full. tests/parts.txt lists all parts, with what each needs, and tests/README.md says what each shows.

As many parts as there are processors, and one more, run beside one another, those that take longest first; what a part
says is printed once it has ended. First come those that need Python 3.11 alone, some with git or a C compiler, then
those over etcd, WordPress, valgrind and servers of other people. A part that needs something that isn't here is
skipped, which one line says, and is counted. In an environment with CI=true that is a failure, unless --may-skip names
what it needs, or a word of its command, and the reason. A part that ends badly, or doesn't say what it counts, is a
failure too.

The program is the current build, or else the one in release/; the first line and the one before the last name it. The
last line is 'N passed, M failed', with ', K skipped' after it if something was skipped, over the checks of all parts,
and the status is 0 only if nothing failed. ./prove proves everything anew, and then does this.
"""

from __future__ import annotations

import argparse
import contextlib
import functools
import os
import signal
import subprocess
import sys
import tempfile
import threading
import time
from collections.abc import Iterator, Mapping, Sequence
from concurrent.futures import Future, ThreadPoolExecutor, as_completed
from pathlib import Path
from typing import NamedTuple, NoReturn

from geanmarbles.repository import shipped
from geanmarbles.arguments import Parser
from geanmarbles.checks.judging import Counted, counted_in
from geanmarbles.checks.parts import ALONE, KINDS, Part, all_parts
from geanmarbles.checks.programs import LANES, missing
from geanmarbles.paths import ROOT

# How long a part may take, and how long one that is interrupted may take to end what it has started.
SECONDS, GRACE = 7_200, 10
# How many more parts run beside one another than there are processors: some wait most of their time.
MORE = 1


class Ended(NamedTuple):
    """A part that has ended: its status, what it has said, and how long it took."""

    part: Part
    status: int
    said: str
    seconds: float

    def counted(self) -> tuple[Counted, str | None]:
        """What it counts, and what is wrong with its end."""
        found = counted_in(self.said)
        if found is None:
            return Counted(failed=1), f"it ended with status {self.status} and without a line 'N passed, M failed'"
        if self.status and not found.failed:
            return found._replace(failed=1), f"it reported no failure but ended with status {self.status}"
        return found, None


class Runs:
    """The parts that are running, each in a group of its own."""

    def __init__(self, program: Path, lanes: int) -> None:
        self.program = str(program)
        # The command `python3` of scripts is the Python that runs this, and no script that looks for one.
        self.room = tempfile.TemporaryDirectory()
        Path(self.room.name, "python3").symlink_to(sys.executable)
        self.env = {**os.environ, LANES: str(lanes), "PATH": f"{self.room.name}:{os.environ.get('PATH', os.defpath)}"}
        self.running: set[subprocess.Popen[bytes]] = set()
        self.lock = threading.Lock()
        self.is_over = False

    def run(self, part: Part) -> Ended:
        """Runs a part to its end."""
        words = [self.program if it == "{site}" else it for it in part.words]
        begin = time.monotonic()
        with tempfile.TemporaryFile() as out:
            with self.lock:
                if self.is_over:
                    return Ended(part, -signal.SIGINT, "", 0)
                child = subprocess.Popen(
                    words, cwd=ROOT, stdin=subprocess.DEVNULL, stdout=out, stderr=out, env=self.env, process_group=0
                )
                self.running.add(child)
            try:
                status = child.wait(SECONDS)
            except subprocess.TimeoutExpired:
                status = self.end(child)
            with self.lock:
                self.running.discard(child)
            out.seek(0)
            return Ended(part, status, out.read().decode(errors="replace"), time.monotonic() - begin)

    @staticmethod
    def end(child: subprocess.Popen[bytes]) -> int:
        """Has a part end, and what it has started."""
        for number in (signal.SIGINT, signal.SIGKILL):
            with contextlib.suppress(ProcessLookupError):
                os.killpg(child.pid, number)
            with contextlib.suppress(subprocess.TimeoutExpired):
                child.wait(GRACE)
        return child.wait()

    def end_all(self) -> None:
        with self.lock:
            self.is_over, running = True, list(self.running)
        for child in running:
            self.end(child)
        self.room.cleanup()

    def beside(self, parts: Sequence[Part], together: int) -> Iterator[Ended]:
        """The parts as they end: those that take longest are begun first, some at a time, and those that want a quiet
        machine at last, one by one."""
        longest = sorted(parts, key=lambda it: -it.seconds)
        for count, chosen in (
            (together, [it for it in longest if ALONE not in it.needs]),
            (1, [it for it in longest if ALONE in it.needs]),
        ):
            pool = ThreadPoolExecutor(count)
            begun: list[Future[Ended]] = [pool.submit(self.run, it) for it in chosen]
            try:
                for done in as_completed(begun):
                    yield done.result()
            finally:
                pool.shutdown(wait=False, cancel_futures=True)


class Tally:
    """What all parts count so far, by their kinds, and which of them failed."""

    def __init__(self, allowed: Mapping[str, str], is_strict: bool) -> None:
        self.allowed, self.is_strict = allowed, is_strict
        self.of_kind = {it: Counted() for it in KINDS}
        self.failed: list[str] = []

    def add(self, part: Part, counted: Counted) -> None:
        self.of_kind[part.kind] = self.of_kind[part.kind].plus(counted)
        if counted.failed:
            self.failed.append(str(part))

    def ended(self, ended: Ended) -> None:
        """Shows what a part has said, and counts it."""
        print(f"== {ended.part}: {ended.seconds:.1f} s\n{ended.said}", end="" if ended.said.endswith("\n") else "\n")
        counted, fault = ended.counted()
        if fault:
            print(f"test: {ended.part}: {fault}")
        if not counted.passed and not counted.failed:
            self.skip(ended.part, {"": "it checked nothing"})
        else:
            self.add(ended.part, counted)
        sys.stdout.flush()

    def skip(self, part: Part, lacks: Mapping[str, str]) -> None:
        """Counts a part that isn't run as skipped, or where nothing may be as failed."""
        reason = next((why for name, why in self.allowed.items() if name in lacks or part.has(name)), None)
        is_failed = self.is_strict and reason is None
        why = "; ".join(lacks.values()) + (f" ({reason})" if reason else "")
        print(f"{'FAILED, since it is skipped' if is_failed else 'skipped'}: {part}: {why}", flush=True)
        self.add(part, Counted(failed=1) if is_failed else Counted(skipped=1))

    def whole(self) -> Counted:
        return functools.reduce(Counted.plus, self.of_kind.values())

    def tell(self) -> None:
        for name in self.failed:
            print(f"failed: {name}")
        for kind, counted in self.of_kind.items():
            if any(counted):
                print(f"{KINDS[kind]}: {counted}")


def shown(seconds: float) -> str:
    minutes, rest = divmod(round(seconds), 60)
    return f"{minutes} min {rest} s" if minutes else f"{rest} s"


def run_all(parts: Sequence[Part], tally: Tally, runs: Runs, together: int) -> None:
    """Runs the parts that can be run, those that anybody's machine can run first, and says how long both took."""
    here = []
    for part in parts:
        lacks = part.lacks()
        here += [] if lacks else [part]
        if lacks:
            tally.skip(part, lacks)
    times = []
    try:
        for name, is_base in (("base", True), ("on top", False)):
            begin, chosen = time.monotonic(), [it for it in here if it.is_base() == is_base]
            for ended in runs.beside(chosen, together):
                tally.ended(ended)
            times += [f"{name}: {shown(time.monotonic() - begin)}"] if chosen else []
    finally:
        runs.end_all()
    tally.tell()
    print("; ".join(times))


def told(program: Path) -> str:
    """The program as the first line and the one before the last name it."""
    return f"test: over {shipped.told(program)}"


def allowed(text: str) -> tuple[str, str]:
    """What may be skipped, and the reason."""
    name, _, reason = text.partition("=")
    if not name or not reason.strip():
        raise argparse.ArgumentTypeError(f"NAME=REASON, not {text!r}")
    return name, reason


def read_arguments() -> argparse.Namespace:
    parser = Parser(__doc__)
    parser.add_argument("parts", metavar="PART", nargs="*", help="the parts whose commands have this, of all")
    parser.add_argument("--program", metavar="PATH", type=Path, help="another program")
    may = "in CI, what may be skipped and why"
    parser.add_argument("--may-skip", metavar="NAME=REASON", type=allowed, action="append", default=[], help=may)
    return parser.parse_args()


def interrupted(*_: object) -> NoReturn:
    raise KeyboardInterrupt


def main() -> int:
    asked = read_arguments()
    parts = all_parts()
    chosen = [it for it in parts if not asked.parts or any(map(it.has, asked.parts))]
    if unknown := [word for word in asked.parts if not any(it.has(word) for it in parts)]:
        print(f"test: no part has {unknown[0]!r}; tests/parts.txt lists them", file=sys.stderr)
        return 2
    program = (asked.program or shipped.program()).absolute()
    if fault := missing(program):
        print(f"test: {fault}\n{Counted(failed=1)}")
        return 1
    for number in (signal.SIGTERM, signal.SIGHUP):
        signal.signal(number, interrupted)
    processors = os.cpu_count() or 1
    together = max(1, min(processors + MORE, len(chosen)))
    tally = Tally(dict(asked.may_skip), os.environ.get("CI") == "true")
    print(told(program), flush=True)
    try:
        run_all(chosen, tally, Runs(program, max(1, processors // together)), together)
    except KeyboardInterrupt:
        print("test: interrupted", file=sys.stderr)
        return 128 + signal.SIGINT
    print(told(program))
    print(tally.whole(), flush=True)
    return 1 if tally.whole().failed else 0
