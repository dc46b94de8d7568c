"""Whether what a page names in backticks is there: types, functions of types, files of sources and of definitions.

A crate's page speaks of the crate and of those that it depends on. What it names of another crate it names with that
crate, in the same paragraph or row; only the functions that carry a definition may be of a crate that depends on this
one, without its name.
"""

import re
from collections.abc import Iterable, Iterator
from functools import cache
from pathlib import Path

from geanmarbles.checks.links.declared import contract_in, declared, has_member
from geanmarbles.checks.links.reading import (
    BEHAVIOUR,
    DEFINITIONS_HEAD,
    FENCE,
    QUOTED,
    SOURCE_LINK,
    Checks,
    cells_of,
    edits_of,
    libraries,
    text_of,
)
from geanmarbles.paths import CRATES, ROOT
from geanmarbles.repository.crates import below, read_crates

# A function of a type, a type, and a file of a crate, which are the whole of what is quoted but for arguments.
MEMBER = re.compile(r"(?:\w+::)*(\w+)::(\w+)(?:\(.*\))?", re.S)
TYPE = re.compile(r"&?(?:mut )?[A-Z]\w*[a-z]\w*(?:<.*>)?", re.S)
TYPES = re.compile(r"\b[A-Z]\w*[a-z]\w*")
# A name that a page calls a type: a variant of that name is none.
CALLED_TYPE = re.compile(r"\b[Tt]ypes? `([A-Z]\w*[a-z]\w*)`")
SOURCE = re.compile(r"(?:src/)?((?:\w+/)*\w+\.rt)")
DEFINITIONS = re.compile(r"(?:(\w+)/)?((?:specs|proofs)/(?:\w+/)*\w+)(?:\.antt)?")
SHOWN = re.compile(r"^```rust\n(.*?)^```", re.M | re.S)
# A clause that is shown, after the paragraph that names its function.
SHOWN_CLAUSE = re.compile(r"^```\w*\n((?:ensures|requires)\b.*?)^```", re.M | re.S)
WORD = re.compile(r"([a-z]\w*_\w+)(?:\(\))?")
PARTS = ("src", "specs", "proofs")
# A crate, and an edit of it, to which a command is given; `shout` is what the tutorial makes.
COMMAND = re.compile(r"\btests/wrong_bodies/run (?!CRATE|shout)([a-z]\w*)(?:/(\w+))?")
# Documents whose types and other names are looked for too; what others quote is also WordPress's or of scripts.
OF_THE_CODE = {"ARCHITECTURE.md", "DECISIONS.md", "FAILURES.md", "PROOFS.md", "TOOLCHAIN.md"}
# Types of the toolchain that no source names, and a text.
ELSEWHERE = {"BufWriter", "IsErrAnd", "Unknown", "Tb", "T1b"}
# What is said of the toolchain's libraries, whose sources aren't read.
OF_LIBRARY = re.compile(r"`(\w+)` of `(\w+)`")


def blocks_of(text: str) -> Iterator[tuple[str, bool]]:
    """The paragraphs and rows of a page, and whether each is a row of a table of definitions."""
    within = False
    for part in re.split(r"\n\s*\n|\n(?=\|)|\n(?= *- )", FENCE.sub("", text)):
        head = cells_of(part.strip())[-len(DEFINITIONS_HEAD) :] == DEFINITIONS_HEAD
        within = head or within and part.startswith("|")
        yield part, within


def check_names(checks: Checks, page: Path, crates: set[str], users: set[str]) -> None:
    """The names of a page that speaks of some crates; a crate's own definitions are carried by its users too."""
    has_types = page.is_relative_to(CRATES) or page.name in OF_THE_CODE
    everything, toolchain = declared(), set().union(*libraries().values()) - set(libraries())
    # A crate's page names its own files without their folders; any page may say of a definition which file it is of.
    files = everything[page.parent.name].files if page.parent.name in everything else set()
    for part, is_definition in blocks_of(page.read_text(encoding="utf-8")):
        quoted = QUOTED.findall(part)
        told = {name for name, library in OF_LIBRARY.findall(part) if library in toolchain}
        homes = crates | {it for it in quoted if it in everything}
        owners = homes | users if is_definition else homes
        for name in CALLED_TYPE.findall(part) if has_types else ():
            known = name in told | ELSEWHERE or any(everything[it].has_type(name) for it in homes)
            checks.check(known, page, f"no type {name} {of(page)}")
        for name in quoted:
            member, is_type = MEMBER.fullmatch(name), TYPE.fullmatch(name)
            if member and member[1] in everything:
                here = everything[member[1]]
                checks.check(member[2] in here.free or here.has(member[2]), page, f"no {member[2]} in {member[1]}")
            elif member and member[1][0].isupper() and not is_foreign(member[1], homes):
                checks.check(has_member(owners, *member.groups()), page, f"no function {name} {of(page)}")
            for word in TYPES.findall(name) if is_type and has_types else ():
                known = word in told | ELSEWHERE | files or any(everything[it].has(word) for it in homes)
                known = known or f"of `{word}`" in part and any(word in everything[it].files for it in homes)
                checks.check(known, page, f"no type {word} {of(page)}")


def is_foreign(name: str, crates: Iterable[str]) -> bool:
    """Whether a type is the toolchain's."""
    found = [declared()[it] for it in crates]
    return any(name in it.foreign for it in found) and not any(name in it.types for it in found)


def of(page: Path) -> str:
    """Where a name is looked for."""
    own = page.is_relative_to(CRATES)
    return "in this crate, what it depends on or the crates named here" if own else "in any crate"


@cache
def words_of(crate: str) -> set[str]:
    """All words of a crate's sources, definitions and lemmas, and the names of its files."""
    files = {it.stem for part in PARTS for it in (CRATES / crate / part).rglob("*")}
    return files | edits_of(crate) | set(re.findall(r"\w+", text_of(crate, *PARTS)))


def check_words(checks: Checks, page: Path, crates: set[str], users: set[str]) -> None:
    """Each name with an underscore that a page quotes is a word of those crates, or the name of a library, or one of
    WordPress's or of the commands, which BEHAVIOUR.md has."""
    elsewhere = set().union(*libraries().values(), libraries(), re.findall(r"\w+", BEHAVIOUR.read_text("utf-8")))
    for part, is_definition in blocks_of(page.read_text(encoding="utf-8")):
        quoted = QUOTED.findall(part)
        homes = crates.union(it for it in quoted if it in declared())
        homes |= users if is_definition else set()
        for name in (it[1] for it in map(WORD.fullmatch, quoted) if it):
            known = name in elsewhere or any(name in words_of(it) for it in homes)
            checks.check(known, page, f"no {name} {of(page)}")


def check_files(checks: Checks, page: Path) -> None:
    """The sources that a crate's page names are there, those without a folder in that of the one before them."""
    crate = page.parent
    for part, _ in blocks_of(page.read_text(encoding="utf-8")):
        folder = Path()
        for name in QUOTED.findall(part):
            source, definitions = SOURCE.fullmatch(name), DEFINITIONS.fullmatch(name)
            if source:
                path = Path(source[1])
                there = [it for it in (path, folder / path) if (crate / "src" / it).is_file()]
                checks.check(there, page, f"no source {name}")
                folder = there[0].parent if there else folder
            elif definitions:
                path = (CRATES / definitions[1] if definitions[1] else crate) / definitions[2]
                checks.check(path.with_suffix(".antt").is_file() or path.is_dir(), page, f"no file {name}")


def check_commands(checks: Checks, page: Path) -> None:
    """The crates and edits that a page's commands name are there."""
    text = page.read_text(encoding="utf-8")
    for crate, edit in COMMAND.findall(text):
        file = CRATES / crate / "wrong-bodies" / f"{edit}.edit"
        there = file.is_file() if edit else (CRATES / crate).is_dir()
        checks.check(there, page, f"no {crate}/{edit}" if edit else f"no crate {crate}")


def check_shown(checks: Checks, page: Path) -> None:
    """The code that a document shows is in a source, whatever its lines and spaces."""
    for block in SHOWN.findall(page.read_text(encoding="utf-8")):
        known = any(" ".join(block.split()) in spaced(crate) for crate in read_crates())
        checks.check(known, page, f"no source has this: {' '.join(block.split())[:60]}")


def check_shown_clauses(checks: Checks, page: Path) -> None:
    """A clause that a document shows is in the contract of the function to which the paragraph before it has a link."""
    text = page.read_text(encoding="utf-8")
    for shown in SHOWN_CLAUSE.finditer(text):
        clause = " ".join(shown[1].split())
        links = SOURCE_LINK.findall(text[: shown.start()].rstrip().rpartition("\n\n")[2])
        checks.check(len(links) == 1, page, f"{len(links)} links, and not one, to the function of: {clause[:60]}")
        for name, link in links[:1]:
            source = (page.parent / link).resolve()
            crate = source.relative_to(CRATES).parts[0] if source.is_relative_to(CRATES) else ""
            told = any(clause in " ".join(it.split()) for it in contract_in(crate, name))
            checks.check(told, page, f"{name} of {crate} hasn't this clause: {clause[:60]}")


@cache
def spaced(crate: str) -> str:
    """A crate's sources, with one space between words."""
    return " ".join(text_of(crate, "src").split())


def check_naming(checks: Checks, pages: Iterable[Path]) -> None:
    """Each page of a crate, and each other one."""
    crates = read_crates()
    for page in pages:
        check_commands(checks, page)
        # What PLUGINS.md shows is looked at by tests/scripts/run.
        if page.name != "PLUGINS.md":
            check_shown(checks, page)
            check_shown_clauses(checks, page)
        parts = page.relative_to(ROOT).parts
        if parts[0] == "crates" and parts[1] in crates:
            users = {it for it in crates if parts[1] in below(crates, it)}
            check_names(checks, page, {parts[1]} | below(crates, parts[1]), users)
            check_words(checks, page, {parts[1]} | below(crates, parts[1]), users)
            check_files(checks, page)
        else:
            check_names(checks, page, set(crates), set())
            if page.name in OF_THE_CODE:
                check_words(checks, page, set(crates), set())
