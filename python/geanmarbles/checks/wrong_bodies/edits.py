"""The edits: what each changes, and how far its change reaches."""

import re
from collections.abc import Callable, Collection, Iterable, Mapping
from pathlib import Path
from typing import NamedTuple

NAME = re.compile(r"[A-Za-z0-9_-][A-Za-z0-9_.-]*\.edit")
FUNCTION = re.compile(r"(\s*)(?:pub(?:\([a-z]+\))? )?(?:const )?fn (\w+)")
CYCLE = re.compile(r"\s*#\[cycle\((\w+)\)\]")
# What shows that a body is wrong: a row of tests/rows that fails under it, or a clause of its function, and where that
# is false.
SHOWN = re.compile(r"row (?P<row>\S.*)|clause \w+, \S.*")
# The line that begins a declaration of a proof file, as `pub returns-in-Some : goal.returns-in-Some`.
DECLARATION = re.compile(r"(?:(?:pub|abbrev|unfoldable) )*([^\s()]+) :")


# The file that answers a function's goals.
ANSWERS = "Answers.antt"


# The text of a file, by its path in the crate.
Read = Callable[[str], str]


class Fault(NamedTuple):
    """An error in a function's proof: the file, the line, counted from 1, and what was said."""

    file: str
    line: int
    said: str


class BadEdit(Exception):
    """An edit that can't be applied, or that doesn't have the form that the head of the script states."""


class Edit:
    """One wrong body: the function that it changes, and the texts that it replaces, as (file, old, new)."""

    def __init__(self, crate: str, stem: str, function: str, pairs: list[tuple[str, str, str]]) -> None:
        self.crate = crate
        self.label = f"{crate}/{stem}"
        self.function = function
        self.pairs = pairs
        # What the body does wrong, of one that is tried at each run; and what shows that it is wrong, if no goal does.
        self.named: str | None = None
        self.shown: str | None = None
        # Set by read_edits: the recursion that the function is part of, if any; the bodies in which the texts lie, each
        # as its file and the line where its function begins; and whether all lies in bodies, one of them that of the
        # function.
        self.cycle: str | None = None
        self.bodies: set[tuple[str, int]] = set()
        self.in_bodies = True
        # The answers that failed: by proof file the names of their declarations, each with what was said of it.
        self.aside: dict[str, dict[str | None, str]] = {}

    def applied(self, texts: Mapping[str, str], read: Read) -> dict[str, str] | None:
        """The texts with this edit made in them and its answers set aside, or None if an old text isn't exactly once in
        its file.

        texts has the files that were changed already, by their paths; read gives the text of any other."""
        changed = dict(texts)
        for file, old, new in self.pairs:
            text = changed[file] if file in changed else read(file)
            if text.count(old) != 1:
                return None
            changed[file] = text.replace(old, new)
        for file, names in self.aside.items():
            changed[file] = without(changed[file] if file in changed else read(file), names)
        return changed

    def set_aside(self, faults: Iterable[Fault], texts: Mapping[str, str], read: Read) -> bool:
        """Sets aside the answers in which errors lie, and says whether any was set aside that wasn't before.

        texts and read give the files in which the errors were found, as at `applied`."""
        more = False
        for fault in faults:
            if Path(fault.file).name == ANSWERS:
                name = declared_at(texts[fault.file] if fault.file in texts else read(fault.file), fault.line)
                names = self.aside.setdefault(fault.file, {})
                more = more or name not in names
                names.setdefault(name, " ".join(fault.said.split()))
        return more


def parsed(crate: str, path: Path) -> Edit:
    """The edit that a file holds."""
    heads: dict[str, list[str]] = {"function": [], "named": [], "shown": []}
    pairs: list[tuple[str, str, str]] = []
    file = old = ""
    for line in filter(None, path.read_text(encoding="utf-8").split("\n")):
        key, _, text = line.partition(":")
        text = text.removeprefix(" ")
        if key in heads:
            heads[key].append(text.strip())
        elif key == "file":
            file = text.strip()
            if not file.startswith(("src/", "specs/", "proofs/")) or ".." in file:
                raise BadEdit("a 'file:' line names no file below src/, specs/ or proofs/")
        elif key == "old":
            old = text
        elif key == "new":
            if not file or not old:
                raise BadEdit("a 'new:' line comes before any 'file:' or 'old:' line")
            pairs.append((file, old, text))
            old = ""
        else:
            raise BadEdit(f"it has a line of another kind: {line[:60]}")
    if len(heads["function"]) != 1 or not re.fullmatch(r"[\w:+]+", heads["function"][0]):
        raise BadEdit("it has not exactly one line 'function: FUNCTION'")
    if any(len(it) > 1 or "" in it for it in heads.values()):
        raise BadEdit("it has two lines 'named:' or 'shown:', or one without a text")
    if not all(SHOWN.fullmatch(it) for it in heads["shown"]):
        raise BadEdit("its line 'shown:' is neither 'row NAME' nor 'clause NAME, SENTENCE'")
    if not pairs:
        raise BadEdit("it has no 'old:' and 'new:' pair")
    edit = Edit(crate, path.stem, heads["function"][0], pairs)
    edit.named, edit.shown = next(iter(heads["named"]), None), next(iter(heads["shown"]), None)
    return edit


def declarations(text: str) -> list[tuple[str | None, list[str]]]:
    """The declarations of a proof file, as pairs of a name and lines; what is above the first has no name."""
    found: list[tuple[str | None, list[str]]] = [(None, [])]
    for line in text.split("\n"):
        begins = DECLARATION.match(line)
        if begins:
            found.append((begins[1], []))
        found[-1][1].append(line)
    return found


def declared_at(text: str, line: int) -> str | None:
    """The name of the declaration that a line of a proof file is part of, counted from 1, or None above the first."""
    for name, lines in declarations(text):
        if line <= len(lines):
            return name
        line -= len(lines)
    return None


def without(text: str, names: Collection[str | None]) -> str:
    """A proof file without the declarations of these names, or without any if what is above them is to go."""
    if None in names:
        return ""
    return "\n".join(line for name, lines in declarations(text) if name not in names for line in lines)


def function_around(text: str, at: int) -> tuple[str, int, str | None] | None:
    """The function in whose body a place of a source lies, as its name, its line and its recursion, or None.

    It is the nearest one above, if its body has begun and not ended: rt fmt puts the brace that opens the body of a
    function with clauses on a line of its own, and of one without at the end of the line that ends its signature; the
    one that closes it is alone on a line, as far to the right as the signature."""
    lines = text[:at].split("\n")
    for number in range(len(lines) - 1, -1, -1):
        head = FUNCTION.match(lines[number])
        if not head:
            continue
        opens, closes = f"{head[1]}{{", f"{head[1]}}}"
        stated = False
        for at_line, line in enumerate(lines[number:-1], number):
            stated = stated or re.match(r"\s*(requires|ensures|ghost)\b", line) is not None
            if line == opens or not stated and line.endswith("{"):
                return None if closes in lines[at_line:-1] else (head[2], number, cycle_above(lines, number))
        return None
    return None


def cycle_above(lines: list[str], number: int) -> str | None:
    """The recursion that an attribute above a function names."""
    while number > 0 and re.match(r"\s*(#\[|///|//)", lines[number - 1]):
        number -= 1
        named = CYCLE.match(lines[number])
        if named:
            return named[1]
    return None


def read_edits(crate: str, folder: str, path: Path) -> Edit:
    """The edit that a file holds, once it has been seen to apply."""
    if not NAME.fullmatch(path.name) or not path.is_file():
        raise BadEdit("an edit is a file whose name is of letters, digits, _, - and . and ends in .edit")
    try:
        edit = parsed(crate, path)
    except (OSError, UnicodeDecodeError) as fault:
        raise BadEdit(f"it can't be read ({fault})") from fault

    def read(file: str) -> str:
        try:
            return Path(folder, file).read_text(encoding="utf-8")
        except OSError as fault:
            raise BadEdit(f"there is no file {file}") from fault

    texts: dict[str, str] = {}
    names: set[str] = set()
    for file, old, new in edit.pairs:
        text = texts[file] if file in texts else read(file)
        if text.count(old) != 1:
            raise BadEdit(f"an 'old:' text is in {file} {text.count(old)} times, and not once")
        found = function_around(text, text.index(old)) if file.startswith("src/") else None
        if found:
            name, line, cycle = found
            names.add(name)
            edit.bodies.add((file, line))
            edit.cycle = edit.cycle or cycle
        else:
            edit.in_bodies = False
        texts[file] = text.replace(old, new)
    edit.in_bodies = edit.in_bodies and edit.function.rpartition("::")[2] in names
    return edit
