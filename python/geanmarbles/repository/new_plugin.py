"""Makes a new plugin's crates from an example, or takes them away.

    geanmarbles new-plugin [--from exclaim | --from notices | --from gallery] NAME
    geanmarbles new-plugin --remove NAME

NAME is 1 to 50 lower-case letters, digits and `_`, a letter first. It is no word of Rust or of the definitions'
language, no crate of this repository or of the toolchain, and no word of the example's code. The script makes
crates/NAME, a library with the plugin, its definitions and three wrong bodies, and crates/NAME_site, a program that
serves a site with it, adds both to crates.txt, and says what to do next. The example is `exclaim` if none is given, a
filter on titles; `notices` has two callbacks, one of them a shortcode's handler with attributes; `gallery` has loops,
with proofs of its own, and an action that prints an option.

With --remove, crates/NAME and crates/NAME_site are moved to out/removed/, and their lines leave crates.txt.
docs/PLUGINS.md is the tutorial.
"""

import re
import shutil
import subprocess
import sys
from collections.abc import Iterable
from pathlib import Path
from typing import NamedTuple

from geanmarbles.arguments import Parser
from geanmarbles.paths import CRATES, ROOT

LIST = ROOT / "crates.txt"
REFUSED = ROOT / "tests" / "wrong_bodies" / "refused.txt"
REMOVED = ROOT / "out" / "removed"
# The program of a plugin, as one for `notices`, with lines that show this at work.
TEMPLATE = Path(__file__).parent / "plugin_site"
SITE_LIBRARIES = "site_main bundled_plugins {} callback_store"
# The words that Rust, the definitions' language and the prover keep for themselves.
RUST = (
    "abstract alloc as async await become box break const continue core crate do dyn else enum ensures extern false"
    " final fn for gen ghost if impl in let loop macro main match mod move mut override priv pub ref requires return"
    " self static std struct super test trait true try type typeof union unsafe unsized use virtual where while yield"
)
DEFINITIONS = (
    "abbrev and assumption axiom cap cc coe com data deriving do elim fcoe first_of grind ground grw hcom hlevel in"
    " infix infixl infixr let module mutual no omega open package pattern record refl rewrite ruleset rw search simp"
    " tcoe then unfold unfoldable unfolding vin vproj with yes"
)
KEPT_WORDS = set(f"{RUST} {DEFINITIONS}".split())
INPUT = """{"cmd":"put","title":"Rain","content":"CONTENT","date":"2024-05-01 10:00:00"}
{"cmd":"activate","plugin":"NAME"}
{"cmd":"get","path":"/"}
"""
# The content of the post in that, and its page.
SHOWN = {
    "exclaim": ("", "<h2>Rain!</h2>"),
    "gallery": ("[NAME ids=7]", '<h2>Rain</h2><div class="NAME"><img src="/media/7.jpg" style="width:33%"></div>'),
}
NEXT = """made crates/NAME and crates/NAME_site. Next:

    cd crates/NAME_site && rt try < stdin         serves the lines of stdin with it, before any proof
    cd crates/NAME && rt check                    proves the plugin (the first time also the COUNT crates below it)
    tests/wrong_bodies/run NAME                   tries the wrong bodies, which the prover must refuse

Once the plugin is your own, the edits in crates/NAME/wrong-bodies no longer fit it: put edits of your own in their
place. docs/PLUGINS.md is the tutorial; geanmarbles new-plugin --remove NAME takes the crates away again.
"""


class Example(NamedTuple):
    """An example that new plugins are made from."""

    name: str
    libraries: str
    # Sentences that speak of the example alone.
    remarks: list[str]

    @property
    def title(self) -> str:
        return self.name.capitalize()

    @property
    def crate(self) -> str:
        return f"example_{self.name}"

    @property
    def folder(self) -> Path:
        return CRATES / self.crate


EXAMPLES = {
    it.name: it
    for it in (
        Example(
            "exclaim",
            "callback_store hook_changes plain_data",
            [" docs/PLUGINS.md begins with\n//! it, and `geanmarbles new-plugin` makes a new plugin's crate from it."],
        ),
        *(
            Example(
                name,
                "callback_store hook_changes shortcode_atts page_escapes plain_data",
                ["\n//! docs/PLUGINS.md goes through it."],
            )
            for name in ("notices", "gallery")
        ),
    )
}


def copied(source: Path, target: Path, words: Iterable[tuple[str, str]]) -> None:
    """Copies a file, some words in it replaced."""
    text = source.read_text(encoding="utf-8")
    for old, new in words:
        text = text.replace(old, new)
    target.parent.mkdir(parents=True, exist_ok=True)
    target.write_text(text, encoding="utf-8")


def toolchain_crates() -> set[str]:
    """The names of the toolchain's crates, as far as the toolchain is there."""
    if not shutil.which("rt"):
        return set()
    doc = subprocess.run(["rt", "doc"], check=True, capture_output=True, text=True).stdout.strip()
    return {it.stem for it in (Path(doc).parent / "rlibs").glob("*.rlib")}


def words_of(example: Example) -> set[str]:
    """The words of the example's code, but for its own name: a plugin of such a name would clash with one of them."""
    files = [it for folder in ("src", "specs") for it in (example.folder / folder).iterdir()]
    texts = [it.read_text(encoding="utf-8") for it in files]
    code = [re.sub(r"(--|//).*", "", text) for text in texts]
    return {word for text in code for word in re.findall(r"\w+", text)} - {example.name}


def title_of(name: str) -> str:
    return "".join(part.capitalize() for part in name.split("_"))


def lines_of_list() -> list[str]:
    return LIST.read_text(encoding="utf-8").splitlines(keepends=True)


def crate_of(line: str) -> str:
    return line.partition("#")[0].partition(":")[0].strip()


def refusal(name: str, example: Example) -> str | None:
    """Why no plugin can have a name, or None."""
    if not re.fullmatch(r"[a-z][a-z0-9_]{0,49}", name):
        return f"{name} isn't a name of lower-case letters, digits and `_`, a letter first"
    if name in KEPT_WORDS:
        return f"{name} is a word of Rust or of the definitions' language, so no crate can be named so"
    listed = {crate_of(line) for line in lines_of_list()}
    for crate in (name, f"{name}_site"):
        if crate in listed or (CRATES / crate).exists():
            return f"there is a crate {crate} already"
    if name in toolchain_crates():
        return f"the toolchain has a crate {name}"
    if {name, title_of(name)} & words_of(example):
        return f"{name} is a word of the example's code, crates/{example.crate}; choose another name"
    return None


def make_library(name: str, example: Example) -> None:
    names = [(example.title, title_of(name)), (example.crate, name), (example.name, name)]
    changed = [(it, "") for it in example.remarks] + names
    for folder in ("src", "specs", "proofs", "wrong-bodies"):
        for file in sorted(it for it in (example.folder / folder).rglob("*") if it.is_file()):
            target = (
                CRATES
                / name
                / file.relative_to(example.folder).parent
                / file.name.replace(example.title, title_of(name))
            )
            copied(file, target, changed)


def make_program(name: str, example: Example) -> None:
    """Makes the program, whose input shows the plugin at work."""
    site = CRATES / f"{name}_site"
    words = [("example_notices", name), ("notices", name)]
    copied(TEMPLATE / "main.rt.txt", site / "src" / "main.rt", words)
    if example.name == "notices":
        for file in ("stdin", "stdout"):
            copied(TEMPLATE / f"{file}.txt", site / file, words)
    else:
        content, page = (it.replace("NAME", name) for it in SHOWN[example.name])
        given = INPUT.replace("CONTENT", content).replace("NAME", name)
        (site / "stdin").write_text(given, encoding="utf-8")
        (site / "stdout").write_text(f"ok 1\nok\npage 200 {len(page)}\n{page}\n", encoding="utf-8")


def make(name: str, example: Example) -> None:
    why = refusal(name, example)
    if why:
        sys.exit(f"new-plugin: {why}")
    make_library(name, example)
    make_program(name, example)
    with LIST.open("a", encoding="utf-8") as file:
        file.write(f"{name}: {example.libraries}\n{name}_site: {SITE_LIBRARIES.format(name)}\n")
    count = "three" if example.name == "exclaim" else "four"
    print(NEXT.replace("NAME", name).replace("COUNT", count), end="")


def free_folder(name: str) -> Path:
    """A folder below out/removed/ that isn't there yet."""
    number = 1
    while (REMOVED / f"{name}.{number}").exists():
        number += 1
    return REMOVED / f"{name}.{number}"


def remove(name: str) -> None:
    """Moves a plugin's crates away, if they are a plugin's and nothing else depends on them."""
    crates = (name, f"{name}_site")
    listed = {crate_of(line): line.partition("#")[0].partition(":")[2].split() for line in lines_of_list()}
    line = f"{crates[1]}: {SITE_LIBRARIES.format(name)}"
    if listed.get(crates[1]) != SITE_LIBRARIES.format(name).split() or name not in listed:
        sys.exit(f"new-plugin: crates.txt has no line '{line}', as this script writes one")
    above = sorted(it for it, libraries in listed.items() if set(crates) & set(libraries) and it not in crates)
    if above:
        sys.exit(f"new-plugin: {', '.join(above)} in crates.txt depends on it")
    target = free_folder(name)
    target.mkdir(parents=True)
    for crate in crates:
        if (CRATES / crate).exists():
            shutil.rmtree(CRATES / crate / "out", ignore_errors=True)
            shutil.move(CRATES / crate, target / crate)
    left = [line for line in lines_of_list() if crate_of(line) not in crates]
    LIST.write_text("".join(left), encoding="utf-8")
    if REFUSED.is_file():
        lines = REFUSED.read_text(encoding="utf-8").splitlines(keepends=True)
        kept = [it for it in lines if it.startswith("#") or not it.split(" ")[1].startswith(f"{name}/")]
        if kept != lines:
            REFUSED.write_text("".join(kept), encoding="utf-8")
    print(f"moved crates/{name} and crates/{name}_site to {target.relative_to(ROOT)}, and took them out of crates.txt")


def main() -> None:
    parser = Parser(__doc__)
    which = parser.add_mutually_exclusive_group()
    which.add_argument("--from", dest="example", choices=EXAMPLES, default="exclaim", help="the example to copy")
    which.add_argument("--remove", action="store_true", help="take the crates of the plugin NAME away")
    parser.add_argument("name", metavar="NAME", help="the plugin's name")
    arguments = parser.parse_args()
    if arguments.remove:
        remove(arguments.name)
    else:
        make(arguments.name, EXAMPLES[arguments.example])
