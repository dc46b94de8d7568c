"""Proves and tests the whole repository, or proves single crates.

    ./prove [--anew] [--may-skip NAME=REASON ..]
    ./prove CRATE ..

On a copy of the checkout's files, so that nothing of out/ is used and work may go on meanwhile, it runs
  - the toolchain's gate, `rt ci`: every proof from nothing, the tests, and each program as two compilers build it;
  - beside it tests/wrong_bodies/run: the edits that the prover must refuse, and the runner's own test. An edit is tried
    if it has a line `named:`, or unless its refusal is recorded in tests/wrong_bodies/refused.txt under the sum that it
    has now; what the run then saw is put into that file in the checkout, to be committed;
  - a comparison of the program that was built with the one that release/ ships, if that is of the same sources: they
    have to be the same to the byte;
  - and, once these have ended, ./test, over the program that was built.

What `rt ci` has proved on this machine it doesn't prove again while nothing that it read has changed. With --anew all
is done again, and every edit is tried. --may-skip is handed on to ./test. The built programs are left in crates/*/out/.

With CRATEs, these and the crates that they stand on are proved, over what earlier checks kept in out/, and their tests
are run: `./prove shortcode_scan` takes some two minutes.

At the end come a line for each kind of what was done, what is said of release/, and 'N passed, M failed' over all. The
exit status is 0 if nothing failed, 1 if something did, and 2 if the arguments or the toolchain are at fault.
"""

import argparse
import os
import shutil
import signal
import subprocess
import sys
import tempfile
import time
from collections.abc import Sequence
from pathlib import Path
from typing import IO, Any

from geanmarbles.arguments import Parser
from geanmarbles.checks.judging import Counted, counted_in
from geanmarbles.checks.parts import KINDS
from geanmarbles.paths import CRATES, ROOT
from geanmarbles.repository.build import build, build_libraries
from geanmarbles.repository.crates import has_tests, is_program, read_crates
from geanmarbles.repository.runs import keep_proved
from geanmarbles.repository.toolchain import ToolchainFault
from geanmarbles.repository.shipped import PACKED, NotShipped, differing, line_of, program_in, read_manifest

RECORD = Path("tests", "wrong_bodies", "refused.txt")
WRONG_BODIES = "tests/wrong_bodies/run"


class Kinds:
    """What has passed and failed, by its kind."""

    def __init__(self) -> None:
        self.found: dict[str, Counted] = {}

    def add(self, kind: str, counted: Counted) -> None:
        now = self.found.get(kind, Counted())
        self.found[kind] = Counted(*(one + other for one, other in zip(now, counted)))

    def add_part(self, kind: str, what: str, status: int, said: str) -> None:
        """Adds what a part counts in its last line. One that has no such line, or that ends badly though it reports no
        failure, is a failure."""
        counted = counted_in(said) or Counted(failed=1)
        if status and not counted.failed:
            counted = counted._replace(failed=1)
        if counted.failed:
            print(f"prove: {what} failed, and ended with status {status}", file=sys.stderr)
        self.add(kind, counted)

    def add_test(self, status: int, said: str) -> None:
        """Adds what ./test counts of each kind, in the lines before its last."""
        lines = [it.rpartition(": ") for it in said.splitlines()[-10:]]
        found = {kind: counted for kind, _, count in lines if kind in KINDS.values() and (counted := counted_in(count))}
        if not found or status and not any(it.failed for it in found.values()):
            found["./test"] = Counted(failed=1)
        for kind, counted in found.items():
            self.add(kind, counted)

    def end(self, *said: str) -> int:
        for kind, counted in self.found.items():
            print(f"{kind}: {counted}")
        whole = Counted(*(sum(it) for it in zip(*self.found.values())))
        print(*said, whole, sep="\n", flush=True)
        return 1 if whole.failed or not whole.passed else 0

    def closing(self) -> str:
        return str(Counted(*(sum(it) for it in zip(*self.found.values()))))


def copy_files(copy: Path) -> None:
    """Copies the files that git tracks here and those that it doesn't ignore, with their times."""
    words = ["git", "ls-files", "-z", "--cached", "--others", "--exclude-standard"]
    listed = subprocess.run(words, cwd=ROOT, check=True, capture_output=True).stdout.decode().split("\0")
    for name in filter(None, listed):
        if os.path.lexists(ROOT / name):
            (copy / name).parent.mkdir(parents=True, exist_ok=True)
            shutil.copy2(ROOT / name, copy / name, follow_symlinks=False)
    subprocess.run(["git", "init", "-q", copy], check=True)


def shown(words: Sequence[str | Path], log: Path, copy: Path) -> int:
    """Runs a command in the copy and hands on what it says, which is kept in a log too."""
    how: dict[str, Any] = {"cwd": copy, "stdout": subprocess.PIPE, "stderr": subprocess.STDOUT, "errors": "replace"}
    with log.open("a", encoding="utf-8") as kept, subprocess.Popen(words, bufsize=1, **how) as child:
        lines: IO[str] = child.stdout  # type: ignore[assignment]
        try:
            for line in lines:
                print(line, end="", flush=True)
                kept.write(line)
                kept.flush()
        except KeyboardInterrupt:
            child.terminate()
            raise
    return child.returncode


class Beside:
    """A part that runs at the lowest priority, on what processors the gate leaves idle."""

    def __init__(self, copy: Path, log: Path, *words: str) -> None:
        self.what, self.log = " ".join(words), log
        self.file = log.open("w")
        how: dict[str, Any] = {"cwd": copy, "stdout": self.file, "stderr": subprocess.STDOUT}
        self.child = subprocess.Popen(["nice", "-n", "19", *words], **how)

    def count(self, kinds: Kinds) -> None:
        """Waits for the part, shows what it said, and counts it."""
        status = self.child.wait()
        said = self.log.read_text(encoding="utf-8", errors="replace")
        print(said, end="", flush=True)
        kinds.add_part("wrong bodies", self.what, status, said)

    def __enter__(self) -> "Beside":
        return self

    def __exit__(self, *_: object) -> None:
        self.child.kill()
        self.child.wait()
        self.file.close()


def keep_record(copy: Path, before: bytes) -> None:
    """Puts into the checkout what the run saw of edits whose refusals weren't recorded, to be committed. One that
    wasn't refused has been counted as a failure by then."""
    now = (copy / RECORD).read_bytes()
    if now != before:
        print(f"prove: {RECORD} has changed by what this run saw; commit it", file=sys.stderr)
        (ROOT / RECORD).write_bytes(now)


def keep_programs(copy: Path, begin: int) -> None:
    """Leaves the programs that were built in the checkout. They are as new as the sources that they were built from, so
    that an edit made meanwhile is seen."""
    for path in copy.glob("crates/*/out/*"):
        if path.name == path.parents[1].name and path.is_file() and os.access(path, os.X_OK):
            here = CRATES / path.name / "out" / path.name
            here.parent.mkdir(exist_ok=True)
            shutil.copy2(path, here)
            os.utime(here, ns=(begin, begin))


def compared(program: Path) -> tuple[Counted, str]:
    """How the program that was built compares with the one that is shipped, if that is of the same sources."""
    try:
        manifest = read_manifest()
        if differs := differing(manifest):
            return Counted(), f"release/ is {line_of(manifest, differs)}"
        if program.read_bytes() == program_in(PACKED, manifest):
            return Counted(passed=1), "release/ has the program that was built here, to the byte"
        return Counted(failed=1), "release/ has another program than the one that was built here of the same sources"
    except (NotShipped, OSError) as fault:
        return Counted(failed=1), f"release/ can't be compared: {fault}"


def prove_all(asked: argparse.Namespace) -> int:
    kinds, begin = Kinds(), time.time_ns()
    anew = ["--anew"] if asked.anew else []
    with tempfile.TemporaryDirectory(prefix="prove-") as folder:
        room, copy = Path(folder), Path(folder, "repository")
        copy_files(copy)
        gate, record = room / "gate.log", (copy / RECORD).read_bytes()
        gate.touch()
        follow = [WRONG_BODIES, "--from-nothing", "--follow", str(gate), *anew]
        with (
            Beside(copy, room / "self_test.log", WRONG_BODIES, "--self-test") as self_test,
            Beside(copy, room / "wrong_bodies.log", *follow) as wrong_bodies,
        ):
            status = shown(["rt", "ci", *anew], gate, copy)
            kinds.add_part("proofs", "rt ci", status, gate.read_text(encoding="utf-8"))
            with gate.open("a", encoding="utf-8") as log:
                log.write("rt ci has ended\n")
            self_test.count(kinds)
            wrong_bodies.count(kinds)
        keep_record(copy, record)
        # Only now, since etcd and what is killed in time want a quiet machine.
        may_skip = [word for it in asked.may_skip for word in ("--may-skip", it)]
        status = shown([copy / "test", *may_skip], room / "test.log", copy)
        kinds.add_test(status, (room / "test.log").read_text(encoding="utf-8"))
        counted, release = compared(copy / "crates" / "site" / "out" / "site")
        kinds.add("release", counted)
        keep_programs(copy, begin)
    ended = kinds.end(release)
    if not ended:
        keep_proved(kinds.closing())
    return ended


def prove_crates(names: Sequence[str]) -> int:
    """Proves crates and those that they stand on, and runs their tests."""
    kinds = Kinds()
    libraries, programs = [it for it in names if not is_program(it)], [it for it in names if is_program(it)]
    found = build_libraries(libraries, with_named=True) if libraries else {}
    found |= build(programs) if programs else {}
    failed = sum(bool(it.status) for it in found.values())
    kinds.add("proofs", Counted(passed=len(found) - failed, failed=failed))
    for name in names if not failed else []:
        if has_tests(name):
            status = subprocess.run(["rt", "test"], cwd=CRATES / name).returncode
            kinds.add("tests", Counted(passed=int(not status), failed=int(bool(status))))
    return kinds.end()


def read_arguments() -> argparse.Namespace:
    parser = Parser(__doc__)
    parser.add_argument("--anew", action="store_true", help="prove and try again what earlier runs on this machine did")
    parser.add_argument("--may-skip", metavar="NAME=REASON", action="append", default=[], help="as ./test takes it")
    parser.add_argument("crates", metavar="CRATE", nargs="*", help="the crates to prove; all of it if none is named")
    asked = parser.parse_args()
    if asked.crates and (asked.anew or asked.may_skip):
        parser.error("--anew and --may-skip go with a proof of all")
    if unknown := [it for it in asked.crates if it not in read_crates()]:
        parser.error(f"crates.txt has no {', '.join(unknown)}")
    return asked


def main() -> int:
    asked = read_arguments()
    if not shutil.which("rt"):
        print(
            "prove: the command 'rt' of the Rattle toolchain isn't on the PATH; nothing can be proved", file=sys.stderr
        )
        return 2
    # SIGTERM ends what runs, and what was copied, as Ctrl-C does.
    signal.signal(signal.SIGTERM, signal.default_int_handler)
    try:
        return prove_crates(asked.crates) if asked.crates else prove_all(asked)
    except KeyboardInterrupt:
        return 130
    except ToolchainFault as fault:
        print(f"prove: {fault}", file=sys.stderr)
        return 2
