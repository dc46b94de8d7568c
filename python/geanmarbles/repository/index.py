"""Makes what is made of the sources: docs/THEOREM.md, and a part of docs/ARCHITECTURE.md; and prints an index.

    geanmarbles dev theorem [--check]
    geanmarbles dev index

THEOREM has the clause of the headline, and each definition that it rests on, as in the crates' specs/.

ARCHITECTURE has the floors of the crates, by crates.txt, and a table of what each crate's README.md says of it.

`dev theorem` writes the files, and names those that had another text. With --check it writes nothing, and ends with
status 1 if it names one; tests/links/run fails then.

`dev index` prints an index, as Markdown whose links are relative to docs/. It leads from each rule of docs/BEHAVIOUR.md
to its definition, the contracts that carry it, and the wrong bodies that break it. A rule is a section that ends with a
line in small print, whose links name the definitions. What carries a definition, and which wrong bodies break it, is in
the tables of the crates' README.md and DESIGN.md.
"""

import os
import re
import sys
from collections.abc import Iterator, Mapping
from pathlib import Path
from typing import NamedTuple

from geanmarbles.arguments import Parser
from geanmarbles.output import quiet_output
from geanmarbles.paths import CRATES, DOCS, ROOT
from geanmarbles.repository import floors, theorem

HEAD = "| Definition | The rule it states | File | Carried by | Wrong bodies refused |"
SMALL_PRINT = re.compile(r"<sub>Source: .*? · Proved: (.*?) by .*?</sub>")
DEFINED = re.compile(r"\[`([\w:]+)`\]\(\.\./(crates/[\w/]+/specs/\w+\.antt)\)")
QUOTED = re.compile(r"`([\w:]+)`")
# A function, or the clauses of one in brackets, which have no link.
CARRIER = re.compile(r"\([^()]*\)|`([\w:]+)`")
OF_CRATE = re.compile(r"^\s*of `(\w+)` (.*)$")
OWNER = re.compile(r"^(?:impl|pub trait)\b(?:<[^>]*>)? ?(?:\w+(?:<[^>]*>)? for )?(\w+)")
FUNCTION = re.compile(r"^( *)(?:pub(?:\(\w+\))? )?(?:const )?fn (\w+)")
RULES_HEAD = "| Rule | Definition | Carried by | Wrong bodies refused |"
CRATES_HEAD = "| Crate | Definition | Carried by | Wrong bodies refused |"
INTRODUCTION = """# Index

From each rule to its definition, the functions whose contracts carry it, with the clauses, and wrong bodies: edits of
such functions after which a goal isn't proved any more ([what that shows](PROOFS.md#wrong-bodies)), made from
[BEHAVIOUR](BEHAVIOUR.md) and from the tables of definitions in the crates. What the tables say of each definition in
words is in the `DESIGN.md` or `README.md` of its crate. A ° is at functions, and at wrong bodies of functions, for
programs of one's own.
"""


class Definition(NamedTuple):
    """A row of a crate's table of definitions."""

    crate: str
    page: Path
    names: list[str]
    cells: list[str]


def linked(name: str, path: Path) -> str:
    return f"[`{name}`]({os.path.relpath(path, DOCS)})"


def rows_of(page: Path) -> Iterator[Definition]:
    """The definitions in the tables of a crate's page."""
    within = False
    for line in page.read_text(encoding="utf-8").splitlines():
        within = line == HEAD or within and line.startswith("|")
        if within and line != HEAD and not set(line) <= set("|- "):
            cells = [it.strip() for it in re.split(r"(?<!\\)\|", line)[1:-1]]
            names = [it.split("::")[-1] for it in QUOTED.findall(cells[0])]
            yield Definition(page.parent.name, page, names, cells)


def definitions() -> list[Definition]:
    pages = sorted(it for name in ("README.md", "DESIGN.md") for it in CRATES.glob(f"*/{name}"))
    return [row for page in pages for row in rows_of(page)]


def functions_in(path: Path) -> Iterator[str]:
    """The functions of a source, a method with its type."""
    owner = None
    for line in path.read_text(encoding="utf-8").splitlines():
        at_top, found = OWNER.match(line), FUNCTION.match(line)
        if at_top:
            owner = at_top[1]
        elif line.startswith("}"):
            owner = None
        elif found:
            yield f"{owner}::{found[2]}" if found[1] and owner else found[2]


def sources() -> dict[tuple[str, str], Path]:
    """Where each function is: crate and name to the source."""
    found: dict[tuple[str, str], Path] = {}
    for path in sorted(CRATES.glob("*/src/**/*.rt")):
        for name in functions_in(path):
            found.setdefault((path.relative_to(CRATES).parts[0], name), path)
    return found


def carried(row: Definition, found: Mapping[tuple[str, str], Path]) -> str:
    """What carries a definition, each function with a link to its source."""

    def link(match: re.Match[str]) -> str:
        name = match[1]
        homes = [it for it in found if it[1] == name]
        homes = [it for it in homes if it[0] == row.crate] or homes
        return linked(name, found[homes[0]]) if len(homes) == 1 else match[0]

    return CARRIER.sub(link, row.cells[3])


def edits(row: Definition) -> str:
    """The wrong bodies of a definition, each with a link."""
    parts = []
    for part in row.cells[4].split(";"):
        other = OF_CRATE.match(part)
        crate, said = (other[1], other[2]) if other else (row.crate, part)

        def link(match: re.Match[str], crate: str = crate) -> str:
            path = CRATES / crate / "wrong-bodies" / f"{match[1]}.edit"
            return linked(match[1], path) if path.is_file() else match[0]

        parts.append(QUOTED.sub(link, said.strip()))
    return "; ".join(it for it in parts if it)


def file_of(row: Definition, name: str) -> Path:
    """The file of a definition that a crate's table has."""
    paths = re.findall(r"`((?:\w+/)?specs/\w+)`", row.cells[2])
    files = [CRATES / (row.crate if it.startswith("specs/") else "") / f"{it}.antt" for it in paths]
    texts = {it: it.read_text(encoding="utf-8") for it in files if it.is_file()}
    for pattern in (rf"\bpub {name}\b", rf"\b{name}\b"):
        for path, text in texts.items():
            if re.search(pattern, text):
                return path
    return row.page


def named(row: Definition) -> str:
    """The definitions of a row, with links; or its words, if it names none."""
    return ", ".join(linked(it, file_of(row, it)) for it in row.names) or row.cells[0]


def rules() -> Iterator[tuple[str, list[tuple[str, str]]]]:
    """The headings of the rules, each with the definitions that its small print names."""
    text = (DOCS / "BEHAVIOUR.md").read_text(encoding="utf-8")
    for section in re.split(r"^#+ +", text, flags=re.M)[1:]:
        heading, _, body = section.partition("\n")
        small = SMALL_PRINT.search(" ".join(body.split()))
        if small:
            yield heading, DEFINED.findall(small[1])


def anchor_of(heading: str) -> str:
    return re.sub(r"[^\w\- ]", "", heading.lower()).replace(" ", "-")


def by_rule(rows: list[Definition], found: Mapping[tuple[str, str], Path]) -> tuple[list[str], set[int]]:
    """The lines of the table by rules, and the numbers of the definitions that it has."""
    lines: list[str] = []
    cited: set[int] = set()
    for heading, names in rules():
        rule = f"[{heading}](BEHAVIOUR.md#{anchor_of(heading)})"
        left = list(names)
        for number, row in enumerate(rows):
            here = [it for it in names if it[0] in row.names and file_of(row, it[0]) == ROOT / it[1]]
            if here:
                cited.add(number)
                own = ", ".join(linked(it, ROOT / path) for it, path in here)
                lines.append(f"| {rule} | {own} | {carried(row, found)} | {edits(row)} |")
                left = [it for it in left if it not in here]
        lines += [f"| {rule} | {linked(name, ROOT / path)} | | |" for name, path in left]
    return lines, cited


def index_text() -> str:
    found, rows = sources(), definitions()
    lines, cited = by_rule(rows, found)
    lines = [INTRODUCTION, "## By rule", "", RULES_HEAD, "|---|---|---|---|", *lines]
    lines += ["", "## By crate", "", "The definitions that no rule names by itself.", ""]
    lines += [CRATES_HEAD, "|---|---|---|---|"]
    for number, row in enumerate(rows):
        if number not in cited:
            crate = f"[`{row.crate}`]({os.path.relpath(row.page, DOCS)})"
            lines.append(f"| {crate} | {named(row)} | {carried(row, found)} | {edits(row)} |")
    return re.sub(r"\|  +\|", "| |", "\n".join(lines)) + "\n"


def pages() -> dict[Path, str]:
    """The pages that are made, each with the text that it should have now."""
    return {theorem.PAGE: theorem.page_text(), floors.PAGE: floors.page_text()}


def stale() -> dict[Path, str]:
    """Those of the pages that have another text."""
    return {it: text for it, text in pages().items() if not it.is_file() or it.read_text(encoding="utf-8") != text}


def print_index() -> int:
    Parser(__doc__).parse_args()
    sys.stdout.write(index_text())
    return 0


@quiet_output()
def main() -> int:
    parser = Parser(__doc__)
    parser.add_argument("--check", action="store_true", help="name the pages that aren't up to date")
    asked = parser.parse_args()
    other = stale()
    for page, text in other.items():
        print(f"{page.relative_to(ROOT)} {'is not up to date' if asked.check else 'was written'}")
        if not asked.check:
            page.write_text(text, encoding="utf-8")
    return 1 if asked.check and other else 0
