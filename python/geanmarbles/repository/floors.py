"""What docs/ARCHITECTURE.md has of the crates: the picture of their floors, and the table of what each is for."""

import os
import re
import textwrap
from collections.abc import Mapping

from geanmarbles.paths import CRATES, DOCS, ROOT
from geanmarbles.repository.crates import below, own_crates, read_crates

PAGE = DOCS / "ARCHITECTURE.md"
# What is made is between these lines.
BEGIN, END = "<!-- made by geanmarbles dev theorem: {} -->", "<!-- end -->"
HEAD = "| Crate | What it is for | Depends on | What is proved of it |"
WIDTH = 100
LINK = re.compile(r"\]\(([^()\s]+)\)")


def listed() -> dict[str, list[str]]:
    """The repository's own crates, in the order of crates.txt."""
    crates = read_crates()
    return {it: crates[it] for it in own_crates(crates)}


def first_sentence(text: str) -> str:
    """Up to the first full stop, in one line."""
    joined = " ".join(text.split())
    found = re.match(r"(?:[^.`]|`[^`]*`|\.(?! |$))*", joined)
    return (found[0] if found else joined).rstrip(" .")


def relinked(text: str, crate: str) -> str:
    """A text of a crate's page, with its links as from docs/."""

    def link(match: re.Match[str]) -> str:
        if re.match(r"[a-z]+:", match[1]):
            return match[0]
        return f"]({os.path.relpath(CRATES / crate / match[1], DOCS)})"

    return LINK.sub(link, text).replace("|", "\\|")


def said_of(crate: str) -> tuple[str, str]:
    """What a crate's page says that it is for, and what is proved of it: a sentence of each."""
    path = CRATES / crate / "README.md"
    text = path.read_text(encoding="utf-8") if path.is_file() else ""
    parts = re.split(r"\n\s*\n", text)
    proved = next((it.partition("**Proved**:")[2] for it in parts if it.startswith("**Proved**:")), "")
    about = parts[1] if len(parts) > 1 else ""
    return relinked(first_sentence(about), crate), relinked(first_sentence(proved), crate)


def direct(crates: Mapping[str, list[str]], crate: str) -> list[str]:
    """What a crate depends on, without what another of these depends on."""
    further = set().union(*(below(crates, it) for it in crates[crate]))
    return [it for it in crates[crate] if it not in further]


def floors(crates: Mapping[str, list[str]]) -> list[list[str]]:
    """The crates by floors: each depends on crates of lower floors alone, and on one of the floor right below."""
    heights: dict[str, int] = {}

    def height(crate: str) -> int:
        if crate not in heights:
            heights[crate] = 1 + max((height(it) for it in crates[crate]), default=-1)
        return heights[crate]

    top = max(map(height, crates), default=-1)
    return [[it for it in crates if heights[it] == floor] for floor in range(top + 1)]


def picture() -> list[str]:
    """The floors, the topmost first."""
    lines = ["```"]
    for number, names in reversed(list(enumerate(floors(listed())))):
        head = f"{number:>2}  "
        lines += textwrap.wrap("   ".join(names), WIDTH, initial_indent=head, subsequent_indent=" " * len(head))
    return [*lines, "```"]


def libraries_of(crate: str, crates: Mapping[str, list[str]]) -> str:
    """The crates that one depends on, and the toolchain's libraries."""
    named: dict[str, list[str]] = {}
    for line in (ROOT / "crates.txt").read_text(encoding="utf-8").splitlines():
        name, colon, libraries = line.partition("#")[0].partition(":")
        if colon:
            named[name.strip()] = libraries.split()
    others = [it for it in named[crate] if it not in crates and not it.startswith("sqlite_")]
    return ", ".join(f"`{it}`" for it in [*direct(crates, crate), *others])


def table() -> list[str]:
    """A row for each crate, the lowest first."""
    crates = listed()
    lines = [HEAD, "|---|---|---|---|"]
    for crate in crates:
        about, proved = said_of(crate)
        lines.append(
            f"| [`{crate}`](../crates/{crate}/README.md) | {about} | {libraries_of(crate, crates)} | {proved} |"
        )
    return lines


def page_text() -> str:
    """The page, with what is made of it as it should be now."""
    text = PAGE.read_text(encoding="utf-8")
    for name, lines in (("floors", picture()), ("crates", table())):
        begin = BEGIN.format(name)
        made = re.compile(rf"{re.escape(begin)}\n.*?{re.escape(END)}", re.S)
        made_now = "\n".join([begin, "", *lines, "", END])
        text = made.sub(lambda _, now=made_now: now, text)  # type: ignore[misc]
    return text
