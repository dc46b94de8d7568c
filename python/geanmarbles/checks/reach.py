"""Finds what the program doesn't reach: public functions, and functions that a wrong body changes.

    tests/reach/run [PROGRAM]

PROGRAM is what Rattle's own compiler makes of `site`, crates/site/out/site.by-rattle as `rt ci` leaves it; it has each
function that `main` reaches, and no other. Of the crates that `site` stands on, each public function that isn't in it
must have its reason in reasons.txt beside this script, and so must each function that a wrong body of wrong-bodies/
changes: such a refusal says nothing of the pages that are served. A reason is a line `FUNCTION: WHY`; in FUNCTION a `*`
stands for any text. A reason that no unreached function needs fails too. Without the program nothing is looked at,
which is said.

The last line is 'N passed, M failed'. The exit status is 0 if nothing failed.
"""

import re
import struct
import sys
from collections.abc import Iterator
from fnmatch import fnmatchcase
from pathlib import Path

from geanmarbles.arguments import Parser
from geanmarbles.paths import ROOT, TESTS
from geanmarbles.repository.crates import below, read_crates

HERE = TESTS / "reach"
PROGRAM = ROOT / "crates" / "site" / "out" / "site.by-rattle"
REASONS = HERE / "reasons.txt"
SYMBOLS, FUNCTION = 2, 2
TYPE = re.compile(r"^(?:pub(?:\([a-z]+\))? )?(?:struct|enum|trait) (\w+)", re.M)
IMPL = re.compile(r"impl(?:<[^>]*>)? (?:(\w+)(?:<[^>]*>)? for )?(\w+)")
# An `impl` for some instances of a type alone, as of a `Log<FileStore<D>>`.
OF_INSTANCES = re.compile(r"impl(?:<[^>]*>)? \w+<\w+<")
PUBLIC = re.compile(r"( *)pub (?:const )?fn (\w+)")
CHANGES = re.compile(r"^function: *(\S+)", re.M)


def functions_in(path: Path) -> set[str]:
    """The functions that a file of ELF has, by their paths, without what they are generic over."""
    data = path.read_bytes()
    if data[:5] != b"\x7fELF\x02":
        sys.exit(f"tests/reach/run: {path} is no file of ELF of 64 bits")
    start, size, count = struct.unpack_from("<Q", data, 40)[0], *struct.unpack_from("<HH", data, 58)
    sections = [struct.unpack_from("<IIQQQQIIQQ", data, start + at * size) for at in range(count)]
    found = set()
    for _, kind, _, _, begin, length, link, *_ in sections:
        for at in range(begin, begin + length if kind == SYMBOLS else begin, 24):
            name, info, _, section = struct.unpack_from("<IBBH", data, at)
            if section and info & 15 == FUNCTION:
                text = sections[link][4] + name
                symbol = data[text : data.index(b"\0", text)].decode(errors="replace").split("::<")[0]
                # In the path of a method for some instances of a type alone, what those are follows the type's name.
                found |= {symbol, re.sub(r"\+[^:]*", "", symbol)}
    return found


def module_of(file: Path, source: Path) -> str:
    return "::".join(file.relative_to(source).with_suffix("").parts)


def public_functions(crate: str) -> Iterator[str]:
    """The public functions of a crate, by their paths: a method's is that of its type, wherever its `impl` is, but for
    one of some instances of the type alone, whose path is that of the `impl`."""
    source = ROOT / "crates" / crate / "src"
    texts = {module_of(it, source): it.read_text(encoding="utf-8") for it in source.rglob("*.rt")}
    homes = {name: module for module, text in texts.items() for name in TYPE.findall(text)}
    for module, text in texts.items():
        owner = None
        for line in text.split("\n"):
            if line.startswith("impl"):
                owner = IMPL.match(line)
            elif line.startswith("}"):
                owner = None
            public = PUBLIC.match(line)
            if public:
                name = owner[2] if owner and public[1] else None
                home = module if owner and OF_INSTANCES.match(owner.string) else homes.get(name, module)
                yield "::".join(it for it in (crate, home if home != "lib" else None, name, public[2]) if it)


def changed_functions(crate: str) -> Iterator[tuple[str, str]]:
    """The functions that a crate's wrong bodies change, by the names of the edits."""
    for path in sorted((ROOT / "crates" / crate / "wrong-bodies").glob("*.edit")):
        found = CHANGES.search(path.read_text(encoding="utf-8"))
        assert found is not None
        yield f"{crate}::{found[1]}", path.stem


def main() -> int:
    parser = Parser(description="Finds what the program doesn't reach.")
    parser.add_argument("program", nargs="?", type=Path, default=PROGRAM, metavar="PROGRAM")
    path = parser.parse_args().program
    if not path.is_file():
        print(f"tests/reach/run: there is no {path}, so nothing is looked at: rt ci makes it\n0 passed, 0 failed")
        return 0
    reached = functions_in(path)
    crates = below(read_crates(), "site")
    reasons = dict(it.split(": ", 1) for it in REASONS.read_text(encoding="utf-8").splitlines() if it and it[0] != "#")
    used, passed, failed = set(), 0, []
    looked_at = [(it, "") for crate in crates for it in public_functions(crate)]
    changed = (it for crate in crates for it in changed_functions(crate))
    looked_at += [(it, f", which the wrong body {name} changes") for it, name in changed]
    for function, why in looked_at:
        found = [] if function in reached else [it for it in reasons if fnmatchcase(function, it)]
        used.update(found)
        if function in reached or found:
            passed += 1
        else:
            failed.append(f"{function}{why}: isn't reached, and has no reason")
    failed += [f"{it}: a reason that no unreached function needs" for it in sorted(set(reasons) - used)]
    for fault in failed:
        print(f"FAILED: {fault}")
    print(f"{passed} passed, {len(failed)} failed")
    return 1 if failed else 0
