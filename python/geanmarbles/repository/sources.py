"""Sums of a crate's sources, which tell whether they are those that something was made from or tried over."""

import hashlib
import re
from collections.abc import Iterable, Iterator
from pathlib import Path

from geanmarbles.repository.crates import SOURCES
from geanmarbles.repository.reading import code_of

# A module that is compiled for tests alone.
TESTS = re.compile(r"#\[cfg\(test\)\]\s*mod\s+(\w+)\s*;")


def files_of(folder: str) -> Iterator[tuple[Path, str]]:
    """A crate's sources, specs and proofs, with their texts."""
    for path in sorted(it for part in SOURCES for it in Path(folder, part).rglob("*") if it.is_file()):
        yield path, path.read_text(encoding="utf-8")


def library_files(folder: str) -> Iterator[tuple[Path, str]]:
    """The same as a check of the library reads them: without the modules that are compiled for tests alone."""
    root = Path(folder, "src", "lib.rt")
    tests = TESTS.findall(root.read_text(encoding="utf-8")) if root.is_file() else []
    for path, text in files_of(folder):
        if path.parent != root.parent or path.stem not in tests:
            yield path, TESTS.sub("", text) if path == root else text


def sum_of_texts(folder: str, texts: Iterable[tuple[Path, str]]) -> str:
    """A sum of texts of files below a folder, their layout and comments aside."""
    found = hashlib.sha256()
    for path, text in texts:
        found.update(f"{path.relative_to(folder)}\0{code_of(text, path.suffix)}\0".encode())
    return found.hexdigest()


def sum_of_sources(folder: str) -> str:
    """A sum of a crate's sources, specs and proofs, their layout and comments aside."""
    return sum_of_texts(folder, files_of(folder))


def sum_of_library(folder: str) -> str:
    """The same, of what a check of the library reads."""
    return sum_of_texts(folder, library_files(folder))
