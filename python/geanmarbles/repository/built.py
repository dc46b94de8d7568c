"""The programs that were built here: where they are, and whether a source below one has changed since."""

import os
from collections.abc import Iterable
from pathlib import Path

from geanmarbles.paths import BUILT_PROGRAM, CRATES, ROOT
from geanmarbles.repository.crates import SOURCES, below, read_crates, sum_of

# The sources that the program was built from: file times say nothing after a change of branches.
RECORD = ROOT / "out" / "site.sources"


def built(program: str) -> Path:
    """Where a program of the repository is once it is built."""
    return CRATES / program / "out" / program


def crates_of_program(program: str = "site") -> list[str]:
    """A program's crate and those below it."""
    return sorted({program} | below(read_crates(), program))


def newest_source(crates: Iterable[str]) -> int:
    """When a source of some crates was last written, by its file's time."""
    parts = [CRATES / name / part for name in crates for part in SOURCES]
    return max(it.stat().st_mtime_ns for part in parts for it in part.rglob("*") if it.is_file())


def sources_of(crates: Iterable[str]) -> str:
    """A sum of the sources of some crates."""
    return " ".join(sum_of(CRATES / name, SOURCES)[:16] for name in crates)


def record(sources: str) -> None:
    """Notes which sources the program is made of, by the time of its file. A checkout may be read-only."""
    try:
        RECORD.parent.mkdir(exist_ok=True)
        RECORD.write_text(f"{BUILT_PROGRAM.stat().st_mtime_ns} {sources}", encoding="ascii")
    except OSError:
        pass


def is_current(program: str = "site") -> bool:
    """Whether a program that is built is made of the sources that are here."""
    crates, time = crates_of_program(program), built(program).stat().st_mtime_ns
    if newest_source(crates) <= time:
        return True
    noted = RECORD.read_text(encoding="ascii") if program == "site" and RECORD.is_file() else ""
    return noted == f"{time} {sources_of(crates)}"


def is_built(program: str = "site") -> bool:
    return built(program).is_file() and os.access(built(program), os.X_OK)
