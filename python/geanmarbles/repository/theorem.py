"""The page docs/THEOREM.md: the clause of the headline, and each definition that it rests on, as in the sources."""

import os
import re
from collections.abc import Iterable, Iterator
from pathlib import Path
from typing import NamedTuple

from geanmarbles.paths import CRATES, DOCS
from geanmarbles.repository.definitions import Definition, Key, Rests, closure, read, used

PAGE = DOCS / "THEOREM.md"
SOURCE = CRATES / "site_main" / "src" / "lines.rt"
CLAUSE = re.compile(r"^( *)ensures replied \{.*?\}$", re.M | re.S)
# What the clause names, as far as it is this repository's.
CLAUSE_NAMES = re.compile(r"\b[A-Za-z_]\w+\b")


class Part(NamedTuple):
    """A part of the page: its heading, what it is about, and its files in the order of reading."""

    heading: str
    about: str
    files: list[str]


PARTS = [
    Part(
        "An input",
        "When some bytes are the replies to all lines of an input. `steps_over`, a line's meaning, comes next.",
        ["site_program/Serving", "site_serving/Serving", "site_serving/Lines"],
    ),
    Part(
        "A line",
        "`step` is the meaning of a line. `IsReply` says which replies it may get: that one, or a refusal for memory or"
        " by the database.",
        ["site_main/Steps", "site_program/Step", "site_program/State", "site_replies/Reply"],
    ),
    Part(
        "A command",
        "How a line of JSON is read as a command. `read` and the other names of `serde_json` are the toolchain's.",
        [
            "site_commands/Worked",
            "site_commands/Asked",
            "site_commands/Tree",
            "site_values/Tree",
            "site_values/Named",
            "site_values/Limits",
            "site_records/Ids",
            "site_records/Dates",
            "site_records/Digits",
        ],
    ),
    Part(
        "A request",
        "The page of a path: what is found, which template prints it, and the world in which it begins.",
        ["site_program/Requests", "site_store/Stored", "site_records/Texts", "template_parts/Choice"],
    ),
    Part(
        "What a path finds",
        "A path is read as a query, and the query is a filter and an order over the posts.",
        [
            "permalink_query/Paths",
            "permalink_query/Found",
            "permalink_query/Numbers",
            "permalink_query/Months",
            "post_tables/Page",
            "table_rows/Sorting",
        ],
    ),
    Part(
        "A page",
        "The page that a template prints, node by node.",
        ["template_parts/Pages", "page_escapes/Escapes"],
    ),
    Part(
        "Hooks",
        "The meaning of passes, invocations, asks and shortcodes. A meaning is a trace: each invocation with the world"
        " right after it, and then a result or a fault.",
        ["hook_meaning/Trace", "hook_meaning/World", "hook_meaning/Meaning", "callback_store/Shape"],
    ),
    Part(
        "Registrations",
        "The table in which a pass finds its callbacks.",
        ["hook_registry/Table", "hook_registry/Named"],
    ),
    Part(
        "Shortcodes",
        "Which names a text opens, and the pieces that its shortcodes cut it into.",
        ["shortcode_scan/Live", "shortcode_scan/Pieces", "shortcode_scan/Matches"],
    ),
    Part(
        "Attributes",
        "The attributes that the attribute text of a shortcode spells.",
        ["shortcode_atts/Attributes", "shortcode_atts/Items", "shortcode_atts/Values"],
    ),
    Part(
        "What is stored",
        "The rows of a site, and how the commands that edit change them.",
        ["post_tables/Rows", "site_edits/Edits", "site_edits/Templates", "site_edits/Imports", "site_edits/Late"],
    ),
    Part(
        "Templates and site files",
        "How they are read from JSON, up to the first fault.",
        [
            "template_trees/Trees",
            "site_import/Site",
            "site_import/Walks",
            "site_import/Posts",
            "site_import/Options",
            "site_import/Front",
            "site_import/Templates",
            "site_import/Active",
        ],
    ),
]
# What a definition is of which its source doesn't say so.
SAID = {"no_rows": "-- nothing is stored"}
BESIDES = Part("Small definitions", "Definitions that several parts use.", [])
LAST = "Types and the toolchain"
INTRODUCTION = """# The theorem

The clause by which the program is proved, and each definition that it rests on, as they are in the sources:
`geanmarbles dev theorem` makes this page of them, and `tests/links/run` fails if it isn't up to date.
[PROOFS](PROOFS.md) has the premises, the other promises, and what is trusted.

From [`serve_lines`]({source}), by which the program serves lines:

```rust
{clause}
```

In words: if lines are served in memory (`run.1`, the files of a log, is `None`) and serving ends with `Ok`, and the
reader and the sink show their bytes to contracts, then the sink took some bytes `out` and nothing else, and `out` is
the replies to all lines of the input, one after another, from the empty site on. `S` is the type of the plugins'
callbacks, and `S.says` the reply that each is stated to give.

The definitions are written in the language of the prover. `abbrev` and `unfoldable` give a name to a value or a type,
`record` and `data` declare types; `×` means both, `⊎` one of two, `≡` equal; a text is the list of its bytes, and `ℕ`
is the type of the numbers from 0. Above each definition is a comment that says what it is. There are {count} of them,
in {lines} lines, from an input down to a byte. Each file is in its own order, and shows only the definitions that the
clause rests on. A capitalized name that isn't defined here is a type of the code ([the last
part](#types-and-the-toolchain)).
"""


def clause() -> tuple[str, list[tuple[str, str]]]:
    """The clause as the source has it, without the spaces before it, and what it names, each with its module."""
    text = SOURCE.read_text(encoding="utf-8")
    found = CLAUSE.search(text)
    assert found is not None
    uses = dict(it for line in text.splitlines() for it in used(line))
    names = dict.fromkeys(CLAUSE_NAMES.findall(found[0]))
    aims = [(uses[it][0], uses[it][1] or it) for it in names if it in uses and not uses[it][0].startswith("std.")]
    lines = [it.removeprefix(found[1]) for it in found[0].splitlines()]
    return "\n".join(lines), aims


def without_comment() -> list[str]:
    """The definitions that no comment says anything of, each with its file."""
    rests = closure(clause()[1])
    return sorted(
        f"{it.name} of {key.crate}/specs/{key.path}.antt"
        for key, names in rests.definitions.items()
        for it in read(key).definitions.values()
        if it.name in names and not said_of(it)
    )


def said_of(definition: Definition) -> list[str]:
    """The comment on a definition."""
    said = SAID.get(definition.name)
    return definition.comment or ([said] if said else [])


def anchor_of(heading: str) -> str:
    return re.sub(r"[^\w\- ]", "", heading.lower()).replace(" ", "-")


def key_named(name: str) -> Key:
    crate, _, path = name.partition("/")
    return Key(crate, path)


def shown(definitions: Iterable[Definition]) -> Iterator[str]:
    """The lines of some definitions of a file, with the modules that they are in."""
    modules: list[str] = []
    for number, it in enumerate(definitions):
        yield from [""] * (number > 0)
        yield from (module for at, module in enumerate(it.modules) if modules[at : at + 1] != [module])
        modules = it.modules
        yield from said_of(it)
        yield from it.lines


def file_lines(key: Key, names: set[str]) -> Iterator[str]:
    """A file's definitions that the clause rests on, after what the file says of itself."""
    file = read(key)
    path = CRATES / key.crate / "specs" / f"{key.path}.antt"
    here = [it for it in file.definitions.values() if it.name in names]
    said = f": {file.comment[0].lower()}{file.comment[1:]}" if file.comment else ""
    yield f"[`{key.crate}/specs/{key.path}`]({os.path.relpath(path, DOCS)}){said.rstrip('.')}."
    yield ""
    yield "```"
    yield from shown(here)
    yield "```"
    yield ""


def part_lines(part: Part, rests: Rests, files: Iterable[Key]) -> Iterator[str]:
    yield f"## {part.heading}"
    yield ""
    yield part.about
    yield ""
    for it in files:
        yield from file_lines(it, rests.definitions[it])


def declared(crate: str, name: str) -> tuple[Path, str]:
    """The source that declares a type, and the lines that do, with its comment."""
    head = rf"(?:^(?:///|#\[)[^\n]*\n)*^(?:pub(?:\(\w+\))? )?(?:struct|enum) {name}\b[^;{{]*"
    declares = re.compile(rf"{head}(?:;|\{{.*?^\}}|\{{\}})", re.M | re.S)
    for path in sorted((CRATES / crate / "src").rglob("*.rt")):
        found = declares.search(path.read_text(encoding="utf-8"))
        if found:
            return path, found[0]
    return CRATES / crate / "src", ""


def type_lines(rests: Rests) -> Iterator[str]:
    """The types of the code, as their sources have them, and the toolchain's names."""
    yield f"## {LAST}"
    yield ""
    yield (
        "The types of the code that the definitions name. To a definition a `Text` is the list of its bytes, a `Listed`"
        " and a `SharedList` are the lists of their items, and a callback's number and each integer are numbers."
    )
    yield ""
    for crate in dict.fromkeys(it for it, _ in sorted(rests.types)):
        found = [declared(crate, name) for home, name in sorted(rests.types) if home == crate]
        paths = dict.fromkeys(path for path, _ in found)
        yield ", ".join(f"[`{it.relative_to(CRATES)}`]({os.path.relpath(it, DOCS)})" for it in paths) + ":"
        yield ""
        yield "\n\n".join(f"```rust\n{text}\n```" for _, text in found if text)
        yield ""
    yield "Definitions of the toolchain's libraries:"
    yield ""
    for library, names in sorted(rests.elsewhere.items()):
        yield f"- `{library}`: {', '.join(f'`{it}`' for it in sorted(names))}"


def page_text() -> str:
    text, aims = clause()
    rests = closure(aims)
    placed = {key_named(name) for part in PARTS for name in part.files}
    rest = [it for it in rests.definitions if it not in placed]
    lines: list[str] = []
    parts = [(part, [key_named(it) for it in part.files]) for part in PARTS] + [(BESIDES, sorted(rest))]
    for part, files in parts:
        lines += part_lines(part, rests, [it for it in files if it in rests.definitions])
    lines += type_lines(rests)
    every = [read(it).definitions[name] for it, names in rests.definitions.items() for name in names]
    head = INTRODUCTION.format(
        source=os.path.relpath(SOURCE, DOCS),
        clause=text,
        count=len(every),
        lines=f"{sum(len(said_of(it)) + len(it.lines) for it in every):,}",
    )
    links = [f"[{it}](#{anchor_of(it)})" for it in [*(part.heading for part, _ in parts), LAST]]
    contents = " ·\n".join(" · ".join(links[at : at + 3]) for at in range(0, len(links), 3))
    return "\n".join([head, contents, "", *lines]) + "\n"
