"""Compares pages with those that WordPress's own functions make of the same sites.

    tests/wordpress/run [--wordpress DIR] [--seconds N] [--seed N] [PROGRAM]

PROGRAM is the one that is here, built or shipped, if it is left out, and DIR, with WordPress's wp-includes, is
/usr/share/wordpress. bench/wordpress/site.php replies to the same lines of JSON over WordPress's plugin.php,
class-wp-hook.php, shortcodes.php, formatting.php and kses.php, with the bundled plugins written as ordinary callbacks.

First come those worked rows that WordPress can say: sites of published posts, plugins and options that are shown by the
default template. Then, for N seconds, random sites: a few of the ten bundled plugins, and posts whose titles and
contents are made of shortcodes, attributes, brackets and words. Callbacks remove and add callbacks of the running hook,
at the running priority, below and above it, run passes within passes, take and remove tags, and print.

Pages that differ count under the departure that docs/BEHAVIOUR.md names and whose text the site has; if it has none,
the site is printed and fails. Each departure has to be seen in a case of its own, and to be as it is described. Without
PHP or WordPress nothing is compared, which is said.

The last line is 'N passed, M failed'. The exit status is 0 if nothing failed.
"""

import json
import random
import re
import shutil
import subprocess
import sys
import time
from collections import Counter
from collections.abc import Iterator, Sequence
from pathlib import Path
from typing import Any

from geanmarbles.repository import shipped
from geanmarbles.arguments import Parser
from geanmarbles.checks.programs import missing
from geanmarbles.client.exchanges import line, put as stored
from geanmarbles.paths import ROOT, TESTS

HERE = TESTS / "wordpress"
THERE = ROOT / "bench" / "wordpress" / "site.php"
PLUGINS = ("args", "atts", "bold", "deep", "grow", "marks", "nest", "note", "once", "tagmark")
TAGS = ("b", "i", "raw", "off", "alloff", "hush", "show", "link", "ask", "note", "ping", "say", "none")
TITLES = ("", "T", "d", "ddd", "x y", "[b]x[/b]", "&", "é", "1")
WORDS = ("x", "some words ", "é—", " ", "\n", "[", "]", "[/", "/]", "]]>", "'", '"', "[[", "]]", "&amp;")
ATTRIBUTES: tuple[str, ...] = (
    "",
    " ",
    " a=1",
    ' a="x y"',
    " B='q'",
    ' "p q"',
    " word",
    " href=h label='l m'",
    " A=2 a=3",
    " /",
    '\n"',
)
ATTRIBUTES += (" a=", " é=1")
# Each departure: its name, what a content has if it can show, a content that shows it, and its page here and there.
DEPARTURES = (
    ("within HTML tags and comments", re.compile("<"), "<!-- [b]x[/b] -->", "<!-- <b>x</b> -->", "<!-- [b]x[/b] -->"),
    ("`&#91;` and `&#93;`", re.compile("&#9[13];"), "[b]x[/b] &#91;", "<b>x</b> &#91;", "<b>x</b> &#091;"),
    ("`\\x41` and `\\101` in a value", re.compile(r"\\"), '[show a="\\x41"]', "a=x41;", "a=A;"),
    ("a name of digits", re.compile(r"\s-?\d+\s*="), "[show 1=2]", "1=2;", "#2;"),
)
# Attributes, and parts of a content, that WordPress reads otherwise.
OTHER_ATTRIBUTES = (" 1=2", " -1=2", " \\x41", ' a="\\x41"')
OTHER_WORDS = ("<i>", "<!-- ", " -->", "&#91;", "&#93;", '<a href="')


def put(title: str, content: str) -> str:
    return stored(0, content, title).lines


def replies_of(words: Sequence[str], lines: str) -> Any:
    """What a program writes of these lines, as text, or how it ended."""
    ran = subprocess.run(words, input=lines.encode(), capture_output=True, check=False, timeout=60)
    return ran.stdout.decode(errors="replace") if ran.returncode == 0 else f"status {ran.returncode}"


def is_said_there(command: dict[str, Any]) -> bool:
    """Whether site.php knows what a command of a row says."""
    if not isinstance(command, dict):
        return False
    keys = {
        "put": {"title", "content", "date"},
        "option": {"name", "value"},
        "activate": {"plugin"},
        "deactivate": {"plugin"},
        "get": {"path"},
    }.get(str(command.get("cmd")), set())
    if not set(command) <= keys | {"cmd"}:
        return False
    if command["cmd"] == "option":
        return command["name"] in ("blogname", "posts_per_page") and isinstance(command["value"], str)
    if command["cmd"] == "get":
        return re.fullmatch(r"/|/\?p=[1-9]\d{0,5}", str(command["path"])) is not None
    return all(isinstance(it, str) for it in command.values())


def is_shown_there(reply: Any) -> bool:
    """Whether site.php can reply so: `ok`, or a page that shows posts."""
    if isinstance(reply, dict):
        return reply.get("page") == 200 and "Nothing found" not in str(reply)
    return reply == "ok" or str(reply).startswith("ok ")


def rows() -> Iterator[tuple[str, str]]:
    """The worked rows of `site` that WordPress can say, as their names and lines."""
    for path in sorted((HERE.parent / "rows").glob("*.json")):
        for row in json.loads(path.read_text(encoding="utf-8")):
            given, written = row.get("input"), row.get("output")
            is_of_another = row.get("args") or row.get("program", "site") != "site"
            if is_of_another or not isinstance(given, dict) or not isinstance(written, dict):
                continue
            lines, replies = given.get("lines", []), written.get("replies", [])
            asks = any(isinstance(it, dict) and it.get("cmd") == "get" for it in lines)
            if asks and all(map(is_said_there, lines)) and all(map(is_shown_there, replies)):
                yield row["name"], "".join(json.dumps(it, ensure_ascii=False) + "\n" for it in lines)


def content(chance: random.Random, depth: int = 0) -> str:
    """A random content, now and then with what WordPress does otherwise."""
    made: list[str] = []
    for _ in range(chance.randint(0, 5 - 2 * depth)):
        tag = chance.choice(TAGS)
        given = "".join(chance.choice(ATTRIBUTES) for _ in range(chance.randint(0, 2)))
        if chance.random() < 0.03:
            given += chance.choice(OTHER_ATTRIBUTES)
        within = content(chance, depth + 1) if depth < 2 else "y"
        made.append(
            chance.choice(
                (
                    chance.choice(WORDS),
                    chance.choice(OTHER_WORDS) if chance.random() < 0.1 else chance.choice(WORDS),
                    f"[{tag}{given}]",
                    f"[{tag}{given}/]",
                    f"[{tag}{given}]{within}[/{tag}]",
                    f"[[{tag}{given}]{within}[/{tag}]]",
                    f"[/{tag}]",
                )
            )
        )
    return "".join(made)


def site(chance: random.Random) -> tuple[str, list[str]]:
    """The lines of a random site, and its contents."""
    active = chance.sample(PLUGINS, chance.randint(1, 5))
    contents = [content(chance) for _ in range(chance.randint(1, 3))]
    lines = "".join(line("activate", plugin=it) for it in active)
    lines += "".join(put(chance.choice(TITLES), it) for it in contents)
    return lines + line("get", path="/") + line("get", path=f"/?p={chance.randint(1, len(contents))}"), contents


def departures_in(contents: Sequence[str]) -> list[str]:
    return [name for name, shows, *_ in DEPARTURES if any(shows.search(it) for it in contents)]


class Comparison:
    """Both programs, and what was found so far."""

    def __init__(self, here: Sequence[str], there: Sequence[str]) -> None:
        self.here, self.there = here, there
        self.passed, self.failed = 0, 0
        self.departed: Counter[str] = Counter()

    def replies(self, lines: str) -> tuple[Any, Any]:
        return replies_of(self.here, lines), replies_of(self.there, lines)

    def judge(self, name: str, lines: str, contents: Sequence[str] = ()) -> None:
        here, there = self.replies(lines)
        names = departures_in(contents)
        if here != there and names:
            self.departed[names[0]] += 1
        elif here != there:
            self.failed += 1
            print(f"FAILED: {name}\n{lines}here:\n{here}there:\n{there}", flush=True)
            return
        self.passed += 1

    def departure(self, name: str, text: str, here: str, there: str) -> None:
        """A departure as it is described, by its own content."""
        active = line("activate", plugin="bold") + line("activate", plugin="atts")
        lines = active + put("", text) + line("get", path="/")
        heads = [f"ok\nok\nok 1\npage 200 {len(it.encode()) + 9}\n<h2></h2>{it}\n" for it in (here, there)]
        if list(self.replies(lines)) == heads:
            self.passed += 1
        else:
            self.failed += 1
            print(f"FAILED: {name}: isn't as described: {self.replies(lines)}", flush=True)


def main() -> int:
    parser = Parser(description="Compares pages with those that WordPress's own functions make.")
    parser.add_argument("--wordpress", default="/usr/share/wordpress", metavar="DIR")
    parser.add_argument("--seconds", type=float, default=20, metavar="N")
    parser.add_argument("--seed", type=int, default=1, metavar="N")
    parser.add_argument("program", nargs="?", default=str(shipped.program()), metavar="PROGRAM")
    given = parser.parse_args()
    fault = missing(given.program)
    if fault:
        print(f"tests/wordpress/run: {fault}", file=sys.stderr)
        return 2
    if not shutil.which("php") or not Path(given.wordpress, "wp-includes", "plugin.php").is_file():
        print("tests/wordpress/run: there is no PHP or no WordPress here, so nothing is compared\n0 passed, 0 failed")
        return 0
    compared = Comparison([given.program], ["php", str(THERE), given.wordpress])
    said = 0
    for said, (name, lines) in enumerate(rows(), 1):
        compared.judge(name, lines, [lines])
    for name, _, text, here, there in DEPARTURES:
        compared.departure(name, text, here, there)
    chance, begin, sites = random.Random(given.seed), time.monotonic(), 0
    while time.monotonic() - begin < given.seconds:
        sites += 1
        lines, contents = site(chance)
        compared.judge(f"a random site, {sites} of seed {given.seed}", lines, contents)
    differ = ", ".join(f"{name} {count}" for name, count in sorted(compared.departed.items()))
    print(f"{said} rows and {sites} random sites; differ by: {differ or 'nothing'}")
    print(f"{compared.passed} passed, {compared.failed} failed")
    return 1 if compared.failed else 0
