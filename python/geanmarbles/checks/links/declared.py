"""What each crate declares: its types with their functions and variants, and the names of its definitions."""

import re
from collections.abc import Iterable, Sequence
from functools import cache

from geanmarbles.checks.links.reading import libraries
from geanmarbles.paths import CRATES

TYPE = re.compile(r"^(?:pub(?:\(\w+\))? )?(struct|enum|trait|type) (\w+)")
IMPL = re.compile(r"^impl\b(.*)$")
FUNCTION = re.compile(r"^( *)(?:pub(?:\(\w+\))? )?(?:const )?fn (\w+)")
# The brace of a body is alone in its line, in the column of its function; a law ends before the next item.
CONTRACT_END = re.compile(r"^(?: {4})?[{}]|^\s*(?:pub )?(?:const )?fn \w", re.M)
VARIANT = re.compile(r"^    ([A-Z]\w*)\b")
# What a source takes from elsewhere, and what a file of definitions does.
USE = re.compile(r"^ *(?:pub )?(?:ghost )?use ([^;]*);", re.M)
USE_OF_DEFINITIONS = re.compile(r"^use (.*)$", re.M)
# A definition, and a constructor or field, which is indented.
DEFINITION = re.compile(
    r"^ *(?:(?:abbrev|unfoldable|record|data|theorem|pub) +)+(\w+)|^ +(?:pub )?([A-Z]\w*) :",
    re.M,
)
CAPITAL = re.compile(r"\b[A-Z]\w*")
# What is there without being named in a `use`.
EVERYWHERE = set("Bool Box Clone Copy Debug Default Display Drop Eq Err Fn FnMut FnOnce From Iterator None Ok".split())
EVERYWHERE |= set("Option Ord PartialEq PartialOrd Result Self Some String Vec".split())


class Declared:
    """The names that a crate declares, and those that it takes from the toolchain's libraries."""

    def __init__(self, crate: str) -> None:
        self.types: set[str] = set()
        self.traits: dict[str, set[str]] = {}
        # By the name of a type or trait: its functions, and its variants.
        self.functions: dict[str, set[str]] = {}
        self.variants: dict[str, set[str]] = {}
        self.free: set[str] = set()
        self.definitions: set[str] = set()
        # The names of its files of definitions and lemmas.
        self.files: set[str] = set()
        self.foreign: set[str] = set(EVERYWHERE)
        # By the name of a function, and by that of its type, or `None`, and its own: the text from `fn NAME` to the
        # body.
        self.contracts: dict[str, list[str]] = {}
        for path in sorted((CRATES / crate / "src").rglob("*.rt")):
            text = path.read_text(encoding="utf-8")
            self.read_contracts(text, self.read_source(text))
        for path in sorted(it for part in ("specs", "proofs") for it in (CRATES / crate / part).rglob("*.antt")):
            self.files.add(path.stem)
            if path.is_relative_to(CRATES / crate / "specs"):
                self.read_definitions(path.read_text(encoding="utf-8"))

    def read_source(self, text: str) -> list[str | None]:
        """Notes what a source declares; returns the type that each of its lines is about."""
        owners: list[str | None] = []
        owner: str | None = None
        kind: str | None = None
        for line in text.splitlines():
            declares, implements, function = TYPE.match(line), IMPL.match(line), FUNCTION.match(line)
            if declares:
                kind, name = declares.groups()
                self.types.add(name)
                owner = None if kind == "type" or line.endswith(";") else name
            elif implements:
                kind, owner = "impl", self.read_impl(implements[1])
            elif line.startswith("}"):
                owner = None
            elif function and owner and function[1]:
                self.functions.setdefault(owner, set()).add(function[2])
            elif function:
                self.free.add(function[2])
            elif kind == "enum" and owner and (variant := VARIANT.match(line)):
                self.variants.setdefault(owner, set()).add(variant[1])
            owners.append(owner)
        for used in USE.findall(text):
            self.take(used)
        return owners

    def read_contracts(self, text: str, owners: Sequence[str | None]) -> None:
        for at in re.finditer(r"\bfn (\w+)", text):
            end = CONTRACT_END.search(text, at.end())
            contract = text[at.start() : end.start() if end else len(text)]
            owner = owners[text.count("\n", 0, at.start())]
            for name in (at[1], f"{owner}::{at[1]}"):
                self.contracts.setdefault(name, []).append(contract)

    def read_impl(self, head: str) -> str:
        """The type that a block is about; its trait is noted."""
        plain = head.replace("->", "")
        while plain != (plain := re.sub(r"<[^<>]*>", "", plain)):
            pass
        trait, given, owner = plain.split("{")[0].split(" where ")[0].rpartition(" for ")
        if given:
            self.traits.setdefault(owner.strip(), set()).add(trait.split("::")[-1].strip())
        return owner.strip()

    def read_definitions(self, text: str) -> None:
        for used in USE_OF_DEFINITIONS.findall(text):
            self.take(used)
        self.definitions |= {it for found in DEFINITION.findall(text) for it in found if it}

    def take(self, used: str) -> None:
        """What is used of the toolchain's libraries: what is used of a crate is looked for there."""
        root = re.split(r"::|\.", used.strip().removeprefix("Rattle."))[0]
        if root not in {*libraries(), "crate", "self", "super"}:
            self.foreign |= set(CAPITAL.findall(used))

    def has_type(self, name: str) -> bool:
        return name in self.types | self.definitions | self.foreign

    def has(self, name: str) -> bool:
        return self.has_type(name) or any(name in it for it in self.variants.values())


@cache
def declared() -> dict[str, Declared]:
    """What each crate of crates.txt declares."""
    return {crate: Declared(crate) for crate in libraries()}


def has_member(crates: Iterable[str], owner: str, name: str) -> bool:
    """Whether a type or trait of one of these crates has this function or variant, itself or by a trait."""
    everything = declared()
    for here in (everything[it] for it in crates):
        members = here.functions.get(owner, set()) | here.variants.get(owner, set())
        for trait in here.traits.get(owner, ()):
            members = members.union(*(it.functions.get(trait, ()) for it in everything.values()))
        if name in members:
            return True
    return False


def contracts_of(name: str) -> list[str]:
    """The contracts that a name may mean: a function that a type has by a trait has that of the trait's."""
    parts = name.split("::")
    found = [it.contracts.get("::".join(parts[-2:]), []) for it in declared().values()]
    if len(parts) > 1 and not any(found):
        found = [it.contracts.get(parts[-1], []) for it in declared().values()]
    return [contract for contracts in found for contract in contracts]


def contract_in(crate: str, name: str) -> list[str]:
    """The contracts that a crate has of a function, or of a method that is named with its type."""
    here = declared().get(crate)
    return here.contracts.get(name if "::" in name else f"{None}::{name}", []) if here else []
