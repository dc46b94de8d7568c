"""What the scripts of this folder know of the repository: its crates, what each depends on and what it is made from."""

import contextlib
import fcntl
import hashlib
import os
from collections.abc import Iterable, Iterator, Mapping
from pathlib import Path

from geanmarbles.paths import ROOT

# The folders of a crate that a proof reads.
SOURCES = ("src", "specs", "proofs")


def read_crates() -> dict[str, list[str]]:
    """The repository's crates as crates.txt lists them: the names of its own crates that each names."""
    listed = {}
    for line in (ROOT / "crates.txt").read_text(encoding="utf-8").splitlines():
        name, colon, libraries = line.partition("#")[0].partition(":")
        if colon:
            listed[name.split()[0]] = libraries.split()
    return {name: [it for it in libraries if it in listed] for name, libraries in listed.items()}


def below(crates: Mapping[str, list[str]], name: str) -> set[str]:
    """All crates that a crate depends on."""
    found: set[str] = set()
    for it in crates[name]:
        found |= {it} | below(crates, it)
    return found


def own_crates(crates: Iterable[str]) -> list[str]:
    """The repository's crates, but for an author's own plugins, of which `geanmarbles new-plugin` makes NAME and
    NAME_site."""
    there = set(crates)
    return [it for it in crates if f"{it}_site" not in there and it.removesuffix("_site") not in there - {it}]


def lowest_first(crates: Mapping[str, list[str]], names: Iterable[str]) -> list[str]:
    return sorted(names, key=lambda it: (len(below(crates, it)), it))


def is_program(name: str) -> bool:
    return (ROOT / "crates" / name / "src" / "main.rt").is_file()


def has_tests(name: str) -> bool:
    return any("#[test]" in it.read_text(encoding="utf-8") for it in (ROOT / "crates" / name / "src").rglob("*.rt"))


def sum_of(folder: Path, parts: Iterable[str]) -> str:
    """A sum of the files in some parts of a crate's folder."""
    found = hashlib.sha256()
    for path in sorted(it for part in parts for it in Path(folder, part).rglob("*") if it.is_file()):
        found.update(f"{path.relative_to(folder)}\0".encode() + path.read_bytes() + b"\0")
    return found.hexdigest()


@contextlib.contextmanager
def locked(folder: Path) -> Iterator[None]:
    """Holds a folder, until the block ends: whoever else asks for it waits, in another thread or in another process."""
    held = os.open(folder, os.O_RDONLY)
    try:
        fcntl.flock(held, fcntl.LOCK_EX)
        yield
    finally:
        os.close(held)
