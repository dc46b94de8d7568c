"""What the checks of the documents share: pages, their tables and names, the sources, and what was found missing."""

import re
from collections.abc import Sequence
from functools import cache
from pathlib import Path

from geanmarbles.paths import CRATES, ROOT

BEHAVIOUR = ROOT / "docs" / "BEHAVIOUR.md"
FENCE = re.compile(r"^(```.*?^```|    .*?$)", re.M | re.S)
QUOTED = re.compile(r"`([^`]+)`")
SOURCE_LINK = re.compile(r"\[`([\w:]+)`\]\(([^()\s]+\.(?:rt|antt|edit))\)")
FUNCTION = re.compile(r"(?:\w+::)*[A-Za-z_]\w*")
NAME = re.compile(r"[A-Za-z_][A-Za-z0-9_]*")
# The last headings of the tables of definitions in the crates' pages.
DEFINITIONS_HEAD = ["Definition", "The rule it states", "File", "Carried by", "Wrong bodies refused"]


class Checks:
    """Which documents were looked at, and which of them name something that isn't there."""

    def __init__(self) -> None:
        self.seen: set[Path] = set()
        self.bad: set[Path] = set()

    def check(self, well: object, place: Path, what: str) -> None:
        self.seen.add(place)
        if not well:
            self.bad.add(place)
            print(f"{place.relative_to(ROOT)}: {what}")


def cells_of(line: str) -> list[str]:
    """The cells of a row."""
    return [it.strip() for it in re.split(r"(?<!\\)\|", line)[1:-1]]


def rows_of(text: str, head: Sequence[str]) -> list[list[str]]:
    """The rows of the tables with these last headings, each a list of cells."""
    rows: list[list[str]] = []
    within = False
    for line in text.splitlines():
        cells = cells_of(line)
        if cells[-len(head) :] == head:
            within = True
        elif not line.startswith("|"):
            within = False
        elif within and not set(line) <= set("|-: "):
            rows.append(cells)
    return rows


def names_in(cell: str) -> list[str]:
    quoted = [it.split("::")[-1].split("(")[0] for it in QUOTED.findall(cell)]
    return [it for it in quoted if NAME.fullmatch(it)]


def functions_in(cell: str) -> list[str]:
    """What is quoted, functions with the names of their types."""
    quoted = [it.split("(")[0] for it in QUOTED.findall(cell)]
    return [it for it in quoted if FUNCTION.fullmatch(it)]


@cache
def text_of(crate: str, *folders: str) -> str:
    """All definitions or sources of a crate."""
    files = sorted(it for folder in folders for it in (CRATES / crate / folder).rglob("*") if it.is_file())
    return "\n".join(it.read_text(encoding="utf-8") for it in files)


@cache
def edits_of(crate: str) -> set[str]:
    return {it.stem for it in (CRATES / crate / "wrong-bodies").glob("*.edit")}


def libraries() -> dict[str, set[str]]:
    """What crates.txt says that each crate depends on, the toolchain's libraries too."""
    lines = (it.partition("#")[0].partition(":") for it in (ROOT / "crates.txt").read_text("utf-8").splitlines())
    return {crate.strip(): set(named.split()) for crate, colon, named in lines if colon}
