"""Checks that what the documents name is there, and that what two of them say is the same.

    tests/links/run

Of every Markdown file: each relative link leads to a file of the repository, its anchor to a heading there, what a
link to a source is named by is in that file, each path of the repository is there, and so are the crates and edits
that its commands name. Each `Type::function` is a function or variant of that type, or of a trait that the type
implements. The types and other names that PROOFS, ARCHITECTURE, DECISIONS, FAILURES and TOOLCHAIN quote are in some
crate. What is shown as Rust's code is in a source, word for word; a clause is in the contract of the function to which
the paragraph before it has a link.

Of docs/PROOFS.md and docs/FAILURES.md besides: each function that a promise names is in some crate, and each clause
in the contract of one of its functions; a dash is there only if the function's one clause has no name; and those
functions have a mark that the program doesn't reach, by tests/reach/reasons.txt. Of the tables of wrong bodies in
docs/PROOFS.md: each row leads to an edit or a test by its name, and its functions are those that the edits change,
with clauses of theirs. Its section on what is trusted names each library of the toolchain that crates.txt has.

Of each crate, but for an author's own plugins: its README.md has no more than 40 lines and the same heads as the
others, a use that it shows is in the source that it names, the crates that it says call it depend on it, and the
functions, clauses and edits that it names are there. Of the tables of definitions in a crate's README.md or DESIGN.md:
each definition is in the crate's specs/ or a type of its sources, each file named for it is there, each function that
carries it is in some crate with the clauses named, and each edit is the crate's or of the crate that is named for it.
Each edit is named in one of these pages. Each type, function of a type, source, file of definitions or lemmas, and
other name with an underscore that these pages have is in the crate itself, in one that it depends on, or in one that
the same paragraph or row names.

docs/THEOREM.md and what is made in docs/ARCHITECTURE.md are what `geanmarbles dev theorem` makes now, and each
definition in THEOREM has a comment. The functions that README.md names with clauses have them, and it has no more than
120 lines. Each edit that docs/BEHAVIOUR.md names changes a function that the program reaches, or a law.

No line of text is longer than 120 columns, and none ends early in the middle of a paragraph; the glossary has each word
once.

The times of CONTRIBUTING.md's table are those that other documents and scripts say, the figures of a bench those that
README.md and CONTRIBUTING.md repeat, and the numbers of lines, functions and wrong bodies that README and ARCHITECTURE
say about those of the sources; figures.py has the places.

Each script of tests/ is a part of ./test by tests/parts.txt, and the table of tests/README.md says what it is for.

A line is printed for each thing that is missing. The last line is 'N passed, M failed', over the documents. The exit
status is 0 if nothing is missing.
"""

import os
import re
import subprocess
import sys
from collections.abc import Iterable, Mapping, Sequence
from pathlib import Path

from geanmarbles.arguments import Parser
from geanmarbles.checks.links.declared import contracts_of
from geanmarbles.checks.links.figures import check_counted, check_figures, check_times
from geanmarbles.checks.links.layout import check_glossary, check_layout
from geanmarbles.checks.links.naming import check_naming
from geanmarbles.checks.links.reading import (
    BEHAVIOUR,
    DEFINITIONS_HEAD,
    FENCE,
    QUOTED,
    SOURCE_LINK,
    Checks,
    edits_of,
    functions_in,
    libraries,
    names_in,
    rows_of,
    text_of,
)
from geanmarbles.checks.parts import PARTS, all_parts
from geanmarbles.paths import CRATES, ROOT, TESTS
from geanmarbles.repository import index, theorem
from geanmarbles.repository.crates import own_crates, read_crates

README = ROOT / "README.md"
PROOFS = ROOT / "docs" / "PROOFS.md"
FAILURES = ROOT / "docs" / "FAILURES.md"
LINK = re.compile(r"\[[^\]]*\]\(([^()\s]+)\)")
LINK_WITH_TEXT = re.compile(r"\[([^\]]*)\]\(([^()\s]+)\)")
HEADING = re.compile(r"^#+ +(.*)$", re.M)
# A file or folder of the repository, but for one with a word in capitals in place of a name, what is built, and what
# the tutorial makes.
PATH = re.compile(r"`((?:crates|docs|tests|examples|bench|tools|python)/[a-z_/]*[\w./-]*)`")
MADE = re.compile(r"/[A-Z]+\b(?!\.md)|/out\b|^crates/shout")
# The last headings of the tables that are looked at.
PROMISES_HEAD = ["Function", "Clause"]
WRONG_BODIES_HEAD = ["Edit or test", "Function", "Clause"]
# Why the program doesn't reach some functions, and the mark that these have where a promise names them.
REASONS = ROOT / "tests" / "reach" / "reasons.txt"
MARKED = re.compile(r"`([\w:]+)`(°?)")
# A clause without a name, as which it is a function's only one.
ONE_CLAUSE = re.compile(r"\bensures\*? \{")
FUNCTION_NAME = re.compile(r"^function: (?:\w+::)*(\w+)$", re.M)
FUNCTION_PATH = re.compile(r"^function: *(\S+)$", re.M)
# What `./prove` runs beside the parts of `./test`.
BESIDE = {"tests/wrong_bodies/run"}
# What README.md has at most.
MOST_LINES = 120
# What a crate's README.md has, in this order, in at most so many lines.
README_HEADS = ["Called by", "Read first", "Contracts see", "Proved", "Limits", "Wrong bodies"]
README_LINES = 40
# What it may have besides, each right after one of these; and a use, with the source that it is taken from.
FURTHER_HEADS = {"Use": "Read first", "What no clause says": "Proved"}
USE = re.compile(r"^, as in \[\w+\]\((\.\./[\w/.]+)\):\n\n```rust\n(.*?)^```$", re.M | re.S)
# Functions with clauses, as "`a`, `B::c` (`clause`, `other`)", and what is of another crate.
WITH_CLAUSES = re.compile(r"((?:`[\w:]+`°?(?:, | and )?)+) \(((?:`\w+`(?:, )?)+)\)")
OF_CRATE = re.compile(r"^\s*of `(\w+)` (.*)$")


def anchor_of(heading: str) -> str:
    """The anchor that a heading has on the usual hosts: lower case, no punctuation, a hyphen for each space."""
    plain = re.sub(r"\[([^\]]*)\]\([^)]*\)", r"\1", heading)
    return re.sub(r"[^\w\- ]", "", plain.lower()).replace(" ", "-")


def anchors_of(path: Path) -> set[str]:
    """The anchors of a page; the second heading of a name has `-1` after its anchor, the third `-2`."""
    found: dict[str, int] = {}
    for anchor in map(anchor_of, HEADING.findall(FENCE.sub("", path.read_text(encoding="utf-8")))):
        found[anchor] = found.get(anchor, 0) + 1
    return {f"{anchor}-{at}" if at else anchor for anchor, times in found.items() for at in range(times)}


def check_links(checks: Checks, page: Path) -> None:
    text = FENCE.sub("", page.read_text(encoding="utf-8"))
    for link in LINK.findall(text):
        if re.match(r"[a-z]+:", link):
            continue
        file, _, anchor = link.partition("#")
        aim = (page.parent / file).resolve() if file else page
        checks.check(aim.exists(), page, f"no file for the link {link}")
        if anchor and aim.suffix == ".md" and aim.exists():
            checks.check(anchor in anchors_of(aim), page, f"no heading for the link {link}")
    # (a changelog names what is gone)
    for path in PATH.findall(text) if page.name != "CHANGELOG.md" else ():
        checks.check(MADE.search(path) or (ROOT / path).exists(), page, f"no file or folder {path}")
    # What a link to a source, a definition or an edit is named by is in that file, or is its name.
    for name, link in SOURCE_LINK.findall(text):
        aim = (page.parent / link).resolve()
        if aim.is_file():
            last = name.split("::")[-1]
            well = last == aim.stem or re.search(rf"\b{re.escape(last)}\b", aim.read_text(encoding="utf-8"))
            checks.check(well, page, f"no {name} in {link}")


def unreached() -> list[str]:
    """The paths of the functions that the program doesn't reach, but for laws and worked cases, which have no body."""
    lines = [it.split(": ", 1) for it in REASONS.read_text(encoding="utf-8").splitlines() if it and it[0] != "#"]
    return [path for path, why in lines if "*" not in path and "law" not in why.split() and "worked" not in path]


def is_beside(name: str, paths: Iterable[str]) -> bool:
    """Whether a function, a method by its type, is one of those."""
    found = [it.split("::") for it in paths if f"::{it}".endswith(f"::{name}")]
    return any("::" in name or it[-2][0].islower() for it in found)


def check_marks(checks: Checks, page: Path, functions: str, paths: Iterable[str]) -> None:
    """A function that the program doesn't reach has its mark, and no other has."""
    for name, mark in MARKED.findall(functions):
        checks.check(is_beside(name, paths) == bool(mark), page, f"{name} has {'a' if mark else 'no'} °")


def check_rules(checks: Checks, paths: Sequence[str]) -> None:
    """The wrong bodies that the rules name, as far as they name the function that they change."""
    for link in LINK.findall(BEHAVIOUR.read_text(encoding="utf-8")):
        edit = (BEHAVIOUR.parent / link).resolve()
        for changed in FUNCTION_PATH.findall(edit.read_text(encoding="utf-8")) if edit.suffix == ".edit" else []:
            here = not is_beside(f"{edit.parents[1].name}::{changed}", paths)
            checks.check(here, BEHAVIOUR, f"{edit.stem} changes {changed}, which the program doesn't reach")


def check_promises(checks: Checks, page: Path, paths: Sequence[str]) -> None:
    for *_, functions, clauses in rows_of(page.read_text(encoding="utf-8"), PROMISES_HEAD):
        check_marks(checks, page, functions, paths)
        groups = functions.split(";")
        parts = clauses.split(";")
        for number, group in enumerate(groups):
            names = [it for it in functions_in(group) if it != "permalink_query"]
            for name in names:
                checks.check(contracts_of(name), page, f"no function {name}")
            for clause in names_in(parts[number] if len(parts) == len(groups) else clauses):
                clause_of = re.compile(rf"\b(?:ensures|requires) {clause}\b")
                told = any(clause_of.search(contract) for name in names for contract in contracts_of(name))
                checks.check(told, page, f"no clause {clause} of {', '.join(names)}")
            if len(parts) == len(groups) and parts[number].strip() == "-":
                for name in names:
                    told = any(ONE_CLAUSE.search(contract) for contract in contracts_of(name))
                    checks.check(told, page, f"a dash, although {name} has clauses with names")


def check_clauses(checks: Checks, page: Path, text: str) -> None:
    """The functions that a text names with clauses of theirs have them."""
    for functions, clauses in WITH_CLAUSES.findall(text):
        names = functions_in(functions)
        for name in names:
            checks.check(contracts_of(name), page, f"no function {name}")
        for clause in names_in(clauses):
            clause_of = re.compile(rf"\b(?:ensures|requires) {clause}\b")
            told = any(clause_of.search(contract) for name in names for contract in contracts_of(name))
            checks.check(told, page, f"no clause {clause} of {', '.join(names)}")


def check_definitions(checks: Checks, page: Path) -> set[tuple[str, str]]:
    """The tables of definitions of a crate; returns the edits that they have, each with its crate."""
    crate, named = page.parent.name, set()
    for definition, _, file, carried, edits in rows_of(page.read_text(encoding="utf-8"), DEFINITIONS_HEAD):
        files = QUOTED.findall(file)
        homes = {crate, *(it.split("/")[0] for it in files if "/" in it and not it.startswith("specs/"))}
        everything = "\n".join(text_of(it, "specs", "src") for it in homes)
        for name in names_in(definition):
            checks.check(re.search(rf"\b{name}\b", everything), page, f"no definition {name}")
        for name in files:
            path = CRATES / (crate if name.startswith("specs/") else "") / f"{name}.antt"
            there = path.exists() if "/" in name else re.search(rf"\b{name}\b", everything)
            checks.check(there, page, f"no file {name}")
        check_clauses(checks, page, carried)
        for part in edits.split(";"):
            other = OF_CRATE.match(part)
            home, part = (other[1], other[2]) if other else (crate, part)
            for name in names_in(part):
                checks.check(name in edits_of(home), page, f"no edit {name} of {home}")
                named.add((home, name))
    return named


def check_readme(checks: Checks, page: Path, crates: Mapping[str, list[str]]) -> None:
    """The door of a crate."""
    crate, text = page.parent.name, page.read_text(encoding="utf-8")
    checks.check(text.startswith(f"# {crate}\n"), page, f"the title isn't {crate}")
    lines = text.count("\n")
    checks.check(lines <= README_LINES, page, f"{lines} lines, and not at most {README_LINES}")
    heads = re.findall(r"^\*\*([^*]+)\*\*", text, re.M)
    there = [it for it in heads if it not in FURTHER_HEADS]
    checks.check(there == README_HEADS, page, f"the heads are {there}, and not {README_HEADS}")
    for head, before in zip(heads[1:], heads):
        checks.check(FURTHER_HEADS.get(head, before) == before, page, f"{head} is not right after {before}")
    parts = dict(zip(heads, re.split(r"^\*\*[^*]+\*\*", text, flags=re.M)[1:]))
    if "Use" in parts:
        check_use(checks, page, parts["Use"])
    users = {it for it, libraries in crates.items() if crate in libraries}
    callers = parts.get("Called by", "")
    for name in set(names_in(callers)) & set(crates):
        checks.check(name in users, page, f"{name} doesn't depend on it")
    # What isn't in brackets, which have functions, is a crate or a file of this one.
    for name in filter(re.compile(r"[a-z]\w*").fullmatch, QUOTED.findall(re.sub(r"\([^()]*\)", "", callers))):
        checks.check(name in crates or (page.parent / name).exists(), page, f"no crate {name}")
    check_clauses(checks, page, parts.get("Proved", ""))
    for name in names_in(re.split(r"^\|", parts.get("Wrong bodies", ""), flags=re.M)[0]):
        checks.check(name in edits_of(crate), page, f"no edit {name}")


def check_use(checks: Checks, page: Path, text: str) -> None:
    """The use of a crate is code of the source that it names."""
    found = USE.match(text)
    path = (page.parent / found[1]).resolve() if found else page
    known = found and path.is_file() and " ".join(found[2].split()) in " ".join(path.read_text("utf-8").split())
    checks.check(known, page, f"its use isn't in {found[1] if found else 'a source'}")


def check_crates(checks: Checks) -> None:
    """The documents of each crate."""
    crates = read_crates()
    named: set[tuple[str, str]] = set()
    there: dict[tuple[str, str], Path] = {}
    for crate in own_crates(sorted(crates)):
        readme = CRATES / crate / "README.md"
        pages = [it for it in (readme, CRATES / crate / "DESIGN.md") if it.is_file()]
        checks.check(readme in pages, readme, "isn't there")
        for page in pages:
            named |= check_definitions(checks, page)
            named |= {(crate, name) for name in QUOTED.findall(FENCE.sub("", page.read_text(encoding="utf-8")))}
        if readme in pages:
            check_readme(checks, readme, crates)
        there |= {(crate, name): readme for name in edits_of(crate)}
    for (crate, name), readme in there.items():
        checks.check((crate, name) in named, readme, f"the edit {name} isn't named")


def check_trusted(checks: Checks, text: str) -> None:
    """The toolchain's libraries are named, those of `sqlite` by its name alone."""
    trusted = text.partition("\n## Trusted\n")[2].partition("\n## ")[0]
    listed = libraries()
    for name in sorted(set().union(*listed.values()) - set(listed)):
        named = name.startswith("sqlite_") or f"`{name}`" in trusted
        checks.check(named, PROOFS, f"the library {name} isn't named as trusted")


def check_parts(checks: Checks) -> None:
    """The parts of ./test: each is a script, each script is one, and tests/README.md has a row of it."""
    whole = {it.words[0] for it in all_parts()} | BESIDE
    for name in sorted(whole):
        checks.check(os.access(ROOT / name, os.X_OK), PARTS, f"no script {name}")
    there = {str(it.relative_to(ROOT)) for it in TESTS.glob("*/run")}
    for name in sorted(there - whole):
        checks.check(False, PARTS, f"{name} is no part of ./test")
    table = TESTS / "README.md"
    for name in sorted(whole):
        link = name.removeprefix("tests/")
        checks.check(f"\n| [{link}](" in table.read_text(encoding="utf-8"), table, f"it has no row of {link}")


def check_made(checks: Checks) -> None:
    """The pages that are made of the sources are up to date, and a comment says what each definition there is."""
    other = index.stale()
    for page in index.pages():
        checks.check(page not in other, page, "isn't what geanmarbles dev theorem makes of the sources: run it")
    for name in theorem.without_comment():
        checks.check(False, theorem.PAGE, f"no comment says what {name} is")


def check_wrong_bodies(checks: Checks, text: str) -> None:
    """The functions and clauses of these rows are looked at with those of the promises: they share the columns."""
    for body, edits, functions, _ in rows_of(text, WRONG_BODIES_HEAD):
        links = LINK_WITH_TEXT.findall(edits)
        checks.check(links, PROOFS, f"no edit and no test for: {body}")
        for name, link in links:
            edit = (PROOFS.parent / link).resolve()
            if edit.suffix == ".edit" and edit.is_file():
                checks.check(name == f"`{edit.stem}`", PROOFS, f"the link {link} has another name")
                for changed in FUNCTION_NAME.findall(edit.read_text(encoding="utf-8")):
                    here = changed in names_in(functions)
                    checks.check(here, PROOFS, f"{edit.stem} changes {changed}, which isn't named")


def pages() -> list[Path]:
    """The Markdown files of the repository."""
    listed = subprocess.run(
        ["git", "ls-files", "-z", "--cached", "--others", "--exclude-standard", "*.md"],
        cwd=ROOT,
        capture_output=True,
        check=True,
        text=True,
    ).stdout
    return [ROOT / it for it in sorted(listed.split("\0")) if it and (ROOT / it).exists()]


def check_all() -> tuple[int, int]:
    checks = Checks()
    made = set(index.pages())
    for page in pages():
        check_links(checks, page)
        if page not in made:
            check_layout(checks, page)
    check_glossary(checks)
    check_naming(checks, pages())
    check_times(checks)
    check_figures(checks)
    check_counted(checks)
    text = PROOFS.read_text(encoding="utf-8")
    for page in (PROOFS, FAILURES):
        check_promises(checks, page, unreached())
    check_rules(checks, unreached())
    readme = README.read_text(encoding="utf-8")
    check_clauses(checks, README, readme)
    lines = readme.count("\n")
    checks.check(lines <= MOST_LINES, README, f"it has not at most {MOST_LINES} lines, but {lines}")
    check_wrong_bodies(checks, text)
    check_trusted(checks, text)
    check_crates(checks)
    check_made(checks)
    check_parts(checks)
    return len(checks.seen) - len(checks.bad), len(checks.bad)


def main() -> None:
    Parser(__doc__).parse_args()
    passed, failed = check_all()
    print(f"{passed} passed, {failed} failed")
    sys.exit(bool(failed))
