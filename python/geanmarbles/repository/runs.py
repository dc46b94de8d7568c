"""What the runs that prove took and said last: for the table in bench/gate, and for release/manifest.json."""

import json
import os
import resource
import subprocess
import sys
import time
from collections.abc import Mapping
from pathlib import Path
from typing import Any, NamedTuple

from geanmarbles.paths import CRATES, ROOT
from geanmarbles.repository.built import crates_of_program, sources_of

# What the last build from nothing took, and the last run that proved the program.
TOOK = ROOT / "out" / "build.json"
PROVED = ROOT / "out" / "proved.json"
# The page with the table of builds, and that table's heading.
PAGE = ROOT / "bench" / "gate" / "README.md"
HEADING = "## A build"


class Spent(NamedTuple):
    """The processor seconds of the processes that have ended, and the bytes that the largest of them had in memory."""

    seconds: float
    largest: int


def spent_since(before: Spent = Spent(0, 0)) -> Spent:
    """What the processes that this one began have spent, and those that they began."""
    now = resource.getrusage(resource.RUSAGE_CHILDREN)
    return Spent(now.ru_utime + now.ru_stime - before.seconds, 1024 * now.ru_maxrss)


def disk_of(folder: Path) -> int:
    """The bytes that the files below a folder take on the disk, each once."""
    found = (it.stat() for it in folder.rglob("*") if it.is_file() and not it.is_symlink())
    return sum({(it.st_dev, it.st_ino): 512 * it.st_blocks for it in found}.values())


def gigabytes(count: int) -> str:
    return f"{count / 1e9:.1f} GB" if count < 9.95e9 else f"{count / 1e9:.0f} GB"


def minutes(seconds: float) -> str:
    return f"{seconds // 60:.0f} min {seconds % 60:.0f} s"


def keep_took(wall: float, spent: Spent, crates: Mapping[str, float]) -> str:
    """Keeps what a build of these crates from nothing took, and returns a sentence that says it."""
    disk = sum(disk_of(CRATES / it / "out") for it in crates)
    took = {"wall": wall, "seconds": spent.seconds, "largest": spent.largest, "disk": disk, "crates": dict(crates)}
    TOOK.parent.mkdir(exist_ok=True)
    TOOK.write_text(json.dumps(took, indent=1), encoding="utf-8")
    return (
        f"{len(crates)} crates from nothing: {minutes(wall)}, {spent.seconds:,.0f} s of a processor,"
        f" the largest process {gigabytes(spent.largest)}, {gigabytes(disk)} of disk in crates/*/out"
    )


def keep_proved(closing: str) -> None:
    """Keeps the last line of a run that proved the program, with the sources that it was over."""
    run = f"./{os.path.basename(sys.argv[0])}"
    kept = {"run": run, "line": closing, "sources": sources_of(crates_of_program())}
    PROVED.parent.mkdir(exist_ok=True)
    PROVED.write_text(json.dumps(kept, indent=1), encoding="utf-8")


def line_of_proof() -> str | None:
    """The last line of the run that proved the program of these sources, if there was one here."""
    if not PROVED.is_file():
        return None
    kept = json.loads(PROVED.read_text(encoding="utf-8"))
    is_of_these = kept["sources"] == sources_of(crates_of_program())
    return f"{kept['run']}: {kept['line']}" if is_of_these else None


def with_column(page: str, column: Mapping[str, str]) -> str:
    """A page whose table of builds has one more column. Each row's name is in its first cell."""
    head, found, table = page.partition(HEADING)
    assert found, f"the page has no heading {HEADING!r}"
    rows = [line for line in table.splitlines() if line.startswith("|")]
    for row in rows:
        name = row.split("|")[1].strip()
        cell = "---" if set(name) == {"-"} else column[name]
        table = table.replace(row, f"{row}{cell}|" if cell == "---" else f"{row} {cell} |", 1)
    return head + found + table


def column_of(took: Mapping[str, Any], loop: float) -> dict[str, str]:
    """The column of a build: what it took, by the names of the table's rows."""
    commit = subprocess.run(["git", "rev-parse", "--short", "HEAD"], cwd=ROOT, capture_output=True, text=True)
    return {
        "": f"{time.strftime('%-d %B %Y')}, {commit.stdout.strip()}",
        "Processors": str(len(os.sched_getaffinity(0))),
        "Fixed loop": f"{loop:.2f} s",
        "Wall time": minutes(took["wall"]),
        "Processor seconds": f"{took['seconds']:,.0f} s",
        "Largest process": gigabytes(took["largest"]),
        "Disk": gigabytes(took["disk"]),
    }
