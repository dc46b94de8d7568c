"""The definitions in the crates' `specs/`, as they are written, and which of them another one rests on."""

import re
from collections.abc import Iterable, Iterator
from functools import cache
from typing import NamedTuple

from geanmarbles.paths import CRATES

# The line that a definition begins with, a module with parameters, and what a file takes from another one.
HEAD = re.compile(r"^( *)(?:(?:abbrev|unfoldable|pub|record|data|theorem) +)+([^\s:({]+)")
MODULE = re.compile(r"^( *)module _ .* where$")
USE = re.compile(r"^ *(?:ghost )?use Rattle\.([\w.]+?)(?:\.\{([^}]*)\})?(?: as (\w+))?;?$")
# A constructor or a field, and a name with what is named within it.
PART = re.compile(r"^ +(?:pub )?(\w+) :")
NAME = re.compile(r"[^\W\d]\w*(?:\.[^\W\d]\w*)?")
COMMENT = re.compile(r"--.*")
# What a `do` of a definition goes by.
BIND = "◌>>=◌"


class Key(NamedTuple):
    """A file of definitions: its crate, and its path in `specs` without the suffix."""

    crate: str
    path: str


class Definition(NamedTuple):
    """A definition: its comment and its lines, and the modules around it, each as it is written."""

    name: str
    comment: list[str]
    lines: list[str]
    modules: list[str]

    def names(self) -> list[str]:
        """What the definition names, comments aside."""
        return NAME.findall("\n".join(COMMENT.sub("", it) for it in [*self.modules, *self.lines]))

    def parts(self) -> list[str]:
        """The constructors and fields of the definition."""
        kinds = self.lines[0].split()[:3]
        found = map(PART.match, self.lines[1:]) if {"data", "record"} & set(kinds) else iter(())
        return [it[1] for it in found if it]


class File(NamedTuple):
    """A file's first comment, what each of its names means elsewhere, and its definitions in order."""

    comment: str
    uses: dict[str, tuple[str, str | None]]
    definitions: dict[str, Definition]


def used(line: str) -> Iterator[tuple[str, tuple[str, str | None]]]:
    """What a line takes: the name here, and the module with the name there, or the module alone."""
    found = USE.match(line)
    if found and found[2] is None:
        yield found[3] or found[1].split(".")[-1], (found[1], None)
    elif found:
        for item in filter(None, map(str.strip, found[2].split(","))):
            there, _, here = item.partition(" as ")
            yield here or there, (found[1], there)


def key_of(module: str) -> Key | None:
    """The file of a module, if it is one of this repository's definitions."""
    crate, _, path = module.partition(".specs.")
    key = Key(crate, path.replace(".", "/"))
    return key if path and (CRATES / crate / "specs" / f"{key.path}.antt").is_file() else None


@cache
def read(key: Key) -> File:
    """The definitions of a file."""
    lines = (CRATES / key.crate / "specs" / f"{key.path}.antt").read_text(encoding="utf-8").splitlines()
    uses: dict[str, tuple[str, str | None]] = {}
    found: dict[str, Definition] = {}
    modules: list[str] = []
    comment: list[str] = []
    current: Definition | None = None
    for line in lines:
        indent = len(line) - len(line.lstrip())
        if not line.strip():
            comment, current = [], None
            continue
        while modules and indent <= len(modules[-1]) - len(modules[-1].lstrip()):
            modules.pop()
        head = HEAD.match(line)
        if current is None and line.lstrip().startswith("--"):
            comment.append(line)
        elif MODULE.match(line):
            modules.append(line)
            comment = []
        elif head and (current is None or indent <= len(current.lines[0]) - len(current.lines[0].lstrip())):
            current = found[head[2]] = Definition(head[2], comment, [line], list(modules))
            comment = []
        elif current:
            current.lines.append(line)
        else:
            uses |= used(line)
    first = re.match(r"(?:--.*\n)*", "\n".join(lines) + "\n")
    said = " ".join(it.lstrip("- ") for it in first[0].splitlines()) if first else ""
    return File(said, uses, found)


def aims_of(key: Key, definition: Definition) -> Iterator[tuple[str, str]]:
    """The modules and names that a definition rests on, those of its own file among them."""
    file = read(key)
    own = f"{key.crate}.specs.{key.path.replace('/', '.')}"
    homes = {part: it.name for it in file.definitions.values() for part in it.parts() if part[0].isupper()}
    for name in definition.names() + [BIND] * any(line.endswith(" do") for line in definition.lines):
        first, _, within = name.partition(".")
        if first in file.uses:
            module, there = file.uses[first]
            if there or within:
                yield module, there or within
        elif first in file.definitions or first in homes:
            yield own, first if first in file.definitions else homes[first]


class Rests(NamedTuple):
    """What some definitions rest on: definitions by their files, types of sources, and the toolchain's names."""

    definitions: dict[Key, set[str]]
    types: set[tuple[str, str]]
    elsewhere: dict[str, set[str]]


def closure(given: Iterable[tuple[str, str]]) -> Rests:
    """All that these rest on, themselves included; each is a module and a name in it."""
    rests = Rests({}, set(), {})
    left = list(given)
    while left:
        module, name = left.pop()
        key = key_of(module)
        if key is None:
            crate, _, path = module.partition(".specs.")
            if (CRATES / crate).is_dir():
                rests.types.add((crate, path.removesuffix(".TheVariants").split(".")[-1]))
            else:
                rests.elsewhere.setdefault(crate, set()).add(name)
            continue
        file = read(key)
        home = next((it.name for it in file.definitions.values() if name in it.parts()), name)
        name = name if name in file.definitions else home
        if name in file.definitions and name not in rests.definitions.setdefault(key, set()):
            rests.definitions[key].add(name)
            left += aims_of(key, file.definitions[name])
    return rests
