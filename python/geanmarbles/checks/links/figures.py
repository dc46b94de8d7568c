"""Whether a figure or a time that several documents say is the same in all of them.

A time has its home in the table *Times* of CONTRIBUTING.md, what a build takes in the last column of the table *A
build* of bench/gate/README.md, and another measured figure in the page of its bench; the value of an option that is
left out has it in docs/BEHAVIOUR.md. Each place that repeats one is in a table below, as a pattern whose one group is
the figure.
"""

import re
from collections.abc import Iterable
from typing import NamedTuple

from geanmarbles.checks.links.reading import QUOTED, Checks, cells_of, rows_of
from geanmarbles.paths import ROOT
from geanmarbles.repository.numbers import numbers

CONTRIBUTING = ROOT / "CONTRIBUTING.md"
TIMES_HEAD = ["", "What it says", "Time"]
GATE = "bench/gate/README.md"
BEHAVIOUR = "docs/BEHAVIOUR.md"
WORDPRESS = "bench/wordpress/README.md"
# The rows of the table of builds there, each with its newest figure in the last column, and the pages that have these.
BUILD = ("Wall time", "Processor seconds", "Largest process", "Disk")
OF_BUILD = ("README.md", "CONTRIBUTING.md")
# What a row of the clock's tables there has after the figures of both sides; the processor's have no remark.
CELLS_AFTER = r"(?: [^|]*\|){7}$"


class Place(NamedTuple):
    """Where a figure is: a file, and a pattern that it has once."""

    file: str
    pattern: str


# By the command in CONTRIBUTING's table of times: where else its time is said.
TIMES = {
    "./build --quick < FILE": [
        Place("docs/PLUGINS.md", r"before any proof, in ([\w ]+?):"),
        Place("python/geanmarbles/repository/build.py", r"are compiled, which takes ([\w ]+?), and run"),
        Place("python/geanmarbles/repository/unproved.py", r'^MINUTES = "([^"]+)"'),
    ],
    "./test": [Place("README.md", r"every row, example and script, in ([^|]+?) \|")],
    "./prove": [
        Place("README.md", r"then `\./test`; in ([^|]+?) \|"),
        Place(GATE, r"^\| Wall \|.* \| ([^|]+?) \|$"),
    ],
    "./prove CRATE": [Place("README.md", r"shortcode_scan` is a\s+proof\s+of\s+([^,]+),")],
}
# Each a figure's home, and where else it is said.
REPEATED = [
    (
        Place(BEHAVIOUR, r"^\| `--calls` \| [^|]+ \| ([\d,]+) \|"),
        [
            Place("python/geanmarbles/repository/site.py", r"^ +--calls N .* \[default: (\d+)\]"),
            Place(BEHAVIOUR, r"\| `--calls`, (\S+) by default"),
        ],
    ),
    (
        Place(BEHAVIOUR, r"^\| `--cache` \| [^|]+ \| ([\d,]+) \|"),
        [Place("python/geanmarbles/repository/site.py", r"^ +--cache N .* \[default: (\d+)\]")],
    ),
    (
        Place("docs/THEOREM.md", r"^in ([\d,]+) lines, from an input"),
        [Place("README.md", r"([\d,]+) lines\s+of\s+definitions")],
    ),
    (Place(WORDPRESS, r"Figures of (\d+ \w+ \d+)"), [Place("README.md", r"on\s+(\d+\s+\w+\s+\d+); a page cache")]),
    (Place(WORDPRESS, r"WordPress\s+(\d+\.\d+\.\d+)"), [Place("README.md", r"by\s+WordPress\s+(\d+\.\d+\.\d+)")]),
    (Place(WORDPRESS, r"PHP (\d+\.\d+) "), [Place("README.md", r"own\s+functions\s+\(PHP\s+(\d+\.\d+)\)")]),
    (
        Place(WORDPRESS, r"^\| `\[b\]`, 99,999 times \| ([^|]+?) \| [^|]+ \|" + CELLS_AFTER),
        [Place("README.md", r"times\s+`\[b\]`\s+(\S+\s+ms)")],
    ),
    (
        Place(WORDPRESS, r"^\| `\[b\]`, 99,999 times \| [^|]+ \| ([^|]+?) \|" + CELLS_AFTER),
        [Place("README.md", r"times\s+`\[b\]`\s+\S+\s+ms\s+and\s+(\S+\s+s),")],
    ),
    (
        Place(WORDPRESS, r"^\| one post of 2,940 bytes, 14 shortcodes \| ([^|]+?) \| [^|]+ \|" + CELLS_AFTER),
        [Place("README.md", r"14\s+shortcodes\s+takes\s+(\S+\s+µs)")],
    ),
    (
        Place(WORDPRESS, r"^\| one post of 2,940 bytes, 14 shortcodes \| [^|]+ \| ([^|]+?) \|" + CELLS_AFTER),
        [Place("README.md", r"14\s+shortcodes\s+takes\s+\S+\s+µs\s+here\s+and\s+(\S+\s+µs)")],
    ),
]
# Where the size of the repository is said, by what is counted; a tenth more or less may be there.
COUNTED = {
    "source": Place("docs/ARCHITECTURE.md", r"([\d,]+)\s+lines\s+of\s+source"),
    "definitions": Place("docs/ARCHITECTURE.md", r"lines\s+of\s+source,\s+([\d,]+)\s+of\s+definitions"),
    "proofs": Place("docs/ARCHITECTURE.md", r"of\s+definitions\s+and\s+([\d,]+)\s+of\s+proofs"),
    "functions": Place("docs/ARCHITECTURE.md", r"of\s+proofs;\s+([\d,]+)\s+functions"),
    "wrong bodies": Place("README.md", r"([\d,]+)\s+wrong\s+bodies"),
}
NUMBERS = "one two three four five six seven eight nine ten".split()
WORDS = {word: str(number) for number, word in enumerate(NUMBERS, 1)}
WORDS |= {"an": "1", "some": "", "about": "", "minutes": "min", "minute": "min", "hours": "h", "hour": "h"}


def plain(said: str) -> str:
    """A time as figures and units, minutes without their tenths; or a number without its commas."""
    said = re.sub(r"(?<=\d),(?=\d)", "", said)
    whole = re.sub(r"\d+\.\d+(?= min)|^\d+\.\d+$", lambda found: str(round(float(found[0]))), said)
    return " ".join(filter(None, (WORDS.get(it, it) for it in whole.lower().split())))


def said_at(checks: Checks, place: Place) -> str | None:
    """What a place says; it is noted if there isn't one such place."""
    found = re.findall(place.pattern, (ROOT / place.file).read_text(encoding="utf-8"), re.M)
    checks.check(len(found) == 1, ROOT / place.file, f"{len(found)} places, and not one, for {place.pattern}")
    return " ".join(found[0].split()) if len(found) == 1 else None


def compare(checks: Checks, wanted: str | None, home: str, places: Iterable[Place]) -> None:
    for place in places:
        said = said_at(checks, place)
        same = said is None or wanted is None or plain(said) == plain(wanted)
        checks.check(same, ROOT / place.file, f"it says {said!r}, and {home} {wanted!r}")


def check_times(checks: Checks) -> None:
    rows = {QUOTED.findall(row[0])[0]: row[2] for row in rows_of(CONTRIBUTING.read_text("utf-8"), TIMES_HEAD)}
    for command, places in TIMES.items():
        checks.check(command in rows, CONTRIBUTING, f"no time of {command}")
        if command in rows:
            compare(checks, re.split(r"[,:]| from nothing", rows[command])[0], "CONTRIBUTING.md", places)


def check_counted(checks: Checks) -> None:
    """What is said of the size of the repository is about what is there."""
    there = numbers()
    for what, place in COUNTED.items():
        said = said_at(checks, place)
        near = said is None or 10 * abs(int(said.replace(",", "")) - there[what]) <= there[what]
        checks.check(near, ROOT / place.file, f"it says {said!r}, and there are {there[what]:,} ({what})")


def newest_build() -> dict[str, str]:
    """What the newest build took, by the name of its row."""
    table = (ROOT / GATE).read_text("utf-8").partition("\n## A build\n")[2].partition("\n## ")[0]
    rows = [cells_of(line) for line in table.splitlines() if line.startswith("|")]
    return {name: cells[-1] for name, *cells in rows if name in BUILD and cells}


def check_build(checks: Checks) -> None:
    """The pages that say what a build takes say what the newest one took."""
    there = newest_build()
    for name in BUILD:
        checks.check(there.get(name), ROOT / GATE, f"no row {name} of a build")
    for page in OF_BUILD:
        text = " ".join((ROOT / page).read_text("utf-8").split())
        for name, figure in there.items():
            said = re.search(rf"(?<![\d,.]){re.escape(figure)}(?!\w)", text)
            checks.check(said, ROOT / page, f"it doesn't say {figure!r}, which is the {name} of a build")


def check_figures(checks: Checks) -> None:
    for home, places in REPEATED:
        compare(checks, said_at(checks, home), home.file, places)
    check_build(checks)
