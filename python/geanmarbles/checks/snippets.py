"""Tries `site --snippets` where no row can: over files, beside `site` without it, and on random templates.

    tests/snippets/run [--pages N] [--seed N] [PROGRAM]

PROGRAM is the one that is here, built or shipped, if it is left out. It shows that

- snippets in a file are there after a restart, and the export of a site makes the same pages;
- a site moves from `site` to `site --snippets` by its export, with the same pages, and neither starts from the other's
  file;
- random templates, with random values and contents, are printed as a model of docs/SNIPPETS.md does that shares no code
  with the program (N of them, 2,000 if it isn't said);
- three nodes over three etcd (`geanmarbles cluster three`) show the same snippets; skipped, and said so, without etcd;
- `geanmarbles snippet check` finds what is wrong with some templates, and nothing in those of docs/SNIPPETS.md.

The last line is 'N passed, M failed', over these. The exit status is 0 if nothing failed, 2 if the arguments are bad.
"""

import argparse
import html
import json
import re
import shutil
import signal
import subprocess
import tempfile
import time
import urllib.error
import urllib.request
from collections.abc import Callable, Iterable, Mapping
from functools import partial
from pathlib import Path
from random import Random
from typing import Any

from geanmarbles.checks.browse.browsing import take_interrupts
from geanmarbles.checks.cluster.processes import free_port
from geanmarbles.checks.judging import Counts, Skipped, must
from geanmarbles.checks.programs import missing, parser_of
from geanmarbles.client.snippets import Place, faults, options_in, parts, place_after
from geanmarbles.paths import GEANMARBLES

# A line of a command file, and a check, which is given the arguments.
Line = dict[str, Any]
Check = Callable[[argparse.Namespace], None]

SECONDS = 120
DATE = "2024-05-01 10:00:00"
SNIPPETS: list[Line] = [
    {"cmd": "activate", "plugin": "snippets"},
    {"cmd": "option", "name": "snippets", "value": "[button] the_title:10 wp_head:10"},
    {"cmd": "option", "name": "[button]", "value": '<a href="{{href|#}}">{{content|More}}</a>'},
    {"cmd": "option", "name": "the_title:10", "value": "{{content}} ({{2}})"},
    {"cmd": "option", "name": "wp_head:10", "value": "<style>b{}</style>"},
]
POST: Line = {"cmd": "put", "title": "Rye", "content": "[button href='/\"a']x[/button] [b]y[/b]", "date": DATE}
SHOWN = '<style>b{}</style><h2>Rye (1)</h2><a href="/&quot;a">x</a> [b]y[/b]'
GET: Line = {"cmd": "get", "path": "/?p=1"}

# What random templates, values and contents are made of.
TAGS = ["<b", "<a href=", "script", "</script>", "<script>", "<STYLE ", "</style", "<s", "<p>", "</p>"]
OWN = [*"<><>\"'= /-!a\né", *TAGS, "<!--", "-->", "--", "<!", "<?", "</", ' class="', "='", "{{", "}}", "{", "title = "]
ADDRESSES = ["javascript:x", " JAVA\tscript:x", "data:", "vbscript:"]
VALUES = ["1", "", '"><script>', "<b>", "' onclick=x", *ADDRESSES, "a=b c", "&amp;", "é"]
CONTENTS = ["", "x", "<i>y</i>", "\"q\" & 'r'", "<"]
NAMES = ["a", "b", "content", "c"]
# The kinds of places that values may be at.
KINDS = (
    *("attribute", "bare", "between", "comment", "declared", "end opened", "ending", "equals", "inside", "name"),
    *("nowhere", "opened", "quoted", "raw"),
)


def joined(lines: Iterable[Line]) -> str:
    return "".join(json.dumps(line, ensure_ascii=False) + "\n" for line in lines)


def run(program: str | Path, given: str, *words: str, status: int = 0) -> str:
    """What a run of a program writes, which must end with this status."""
    ran = subprocess.run([program, *words], input=given.encode(), capture_output=True, timeout=SECONDS)
    must(ran.returncode == status, f"{program} ended with status {ran.returncode}: {ran.stderr.decode()[-300:]}")
    return ran.stdout.decode()


def snip(program: str, given: str, *words: str, status: int = 0) -> str:
    """The same of a program with snippets."""
    return run(program, given, "--snippets", *words, status=status)


def pages_in(output: str) -> list[str]:
    """The pages that were written, each as its bytes."""
    data, pages = output.encode(), []
    while data:
        line, _, data = data.partition(b"\n")
        page = re.fullmatch(rb"page \d+ (\d+)", line)
        must(page or not line.startswith(b"page"), f"this is no reply: {line!r}")
        must(not line.startswith(b"refused"), f"a line was refused: {line!r}")
        if page:
            pages.append(data[: int(page[1])].decode())
            data = data[int(page[1]) + 1 :]
    return pages


def lasts(options: argparse.Namespace) -> None:
    """snippets in a file are there after a restart, and an export makes the same pages"""
    with tempfile.TemporaryDirectory() as folder:
        file, other = f"{folder}/site.db", f"{folder}/other.db"
        show = partial(snip, options.program, joined([GET]), "--database")
        snip(options.program, joined([*SNIPPETS, POST]), "--database", file)
        must(pages_in(show(file)) == [SHOWN], "the page after a restart is another")
        changed = {"cmd": "option", "name": "the_title:10", "value": "<{{2}}>"}
        was = snip(options.program, joined([changed, GET]), "--database", file).partition("\n")[2]
        must(show(file) == was, "an edited template didn't last")
        snip(options.program, snip(options.program, "", "--database", file, "--export"), "--database", other)
        must(show(other) == was, "the export makes another page")
        snip(options.program, "", "--database", file, "--compact")
        must(show(file) == was, "--compact makes another page")


def moves(options: argparse.Namespace) -> None:
    """a site moves to `--snippets` by its export and back, and no start of one kind is from the other's file"""
    program = options.program
    with tempfile.TemporaryDirectory() as folder:
        old, new, back = f"{folder}/old.db", f"{folder}/new.db", f"{folder}/back.db"
        edits = [{"cmd": "activate", "plugin": "bold"}, *SNIPPETS[1:], POST, {**POST, "title": "Oats"}]
        asked = joined([GET, {"cmd": "get", "path": "/"}])
        run(program, joined(edits), "--database", old)
        pages = run(program, asked, "--database", old)
        snip(program, "", "--database", old, status=1)
        must(run(program, asked, "--database", old) == pages, "a start that was refused changed the file")
        snip(program, run(program, "", "--database", old, "--export"), "--database", new)
        must(snip(program, asked, "--database", new) == pages, "the pages of the moved site are others")
        run(program, "", "--database", new, status=1)
        said = snip(program, joined([SNIPPETS[0], GET]), "--database", new)
        wanted = SHOWN.replace("[b]y[/b]", "<b>y</b>")
        must(pages_in(said) == [wanted], f"with snippets active it shows {said!r}")
        given = snip(program, "", "--database", new, "--export")
        refused = run(program, given, "--database", back).splitlines()
        must(refused.count("refused 6 UnknownPlugin") == 1, f"on the way back {refused} came")
        must(run(program, asked, "--database", back) == pages, "the pages of the site that moved back are others")


def escaped(value: str) -> str:
    """A value as it is printed where it is safe."""
    bare = re.sub(r"[\x00-\x20]", "", value).lower()
    is_script = bare.startswith(("javascript:", "vbscript:", "data:"))
    return "" if is_script else html.escape(value, quote=True).replace("&#x27;", "&#039;")


def model(template: str, values: Mapping[str, str], content: str) -> tuple[str, list[Place]]:
    """What a template prints, and the places of its values."""
    printed: list[str] = []
    places: list[Place] = []
    place = Place()
    left_out: str | None = None
    for part in parts(template):
        given = content if part.name == "content" else values.get(part.name, "")
        is_given = bool(content) if part.name == "content" else part.name in values
        own = {"own": part.text, "braces": "{{"}.get(part.kind, "")
        if left_out is not None:
            left_out = None if part.kind == "closing" and part.name == left_out else left_out
            continue
        if part.kind in ("opening", "inverted") and is_given == (part.kind == "inverted"):
            left_out = part.name
        if part.kind == "value" and is_given:
            places.append(place)
            takes = place.kind in ("between", "quoted")
            printed.append(given if part.name == "content" else escaped(given) if takes else "")
            continue
        own = part.text if part.kind == "value" else own
        printed.append(own)
        place = place_after(place, own)
    return "".join(printed), places


def random_part(random: Random) -> str:
    name = random.choice(NAMES)
    default = "|" + random.choice(OWN) if random.random() < 0.3 else ""
    forms = [f"{{{{{name}{default}}}}}"] * 4 + [f"{{{{#{name}}}}}", f"{{{{^{name}}}}}", f"{{{{/{name}}}}}", "{{ a }}"]
    return random.choice(forms)


def random_template(random: Random) -> str:
    pieces = (random.choice(OWN) if random.random() < 0.7 else random_part(random) for _ in range(13))
    return "".join(list(pieces)[: random.randrange(1, 14)])


def attributes(values: Mapping[str, str]) -> str:
    """Values as a shortcode spells them, each in quotes that it doesn't have."""
    quotes = {name: "'" if '"' in value else '"' for name, value in values.items()}
    return "".join(f" {name}={quotes[name]}{value}{quotes[name]}" for name, value in values.items())


def prints_as_modelled(options: argparse.Namespace) -> None:
    """random templates are printed as the model says, and some values are at each kind of place"""
    random = Random(options.seed)
    lines = [*SNIPPETS[:1], {"cmd": "option", "name": "snippets", "value": "[t]"}, {**POST, "title": ""}]
    wanted: list[str] = []
    places: set[str] = set()
    for _ in range(options.pages):
        template, content = random_template(random), random.choice(CONTENTS)
        values = {name: random.choice(VALUES) for name in ("a", "b") if random.random() < 0.6}
        lines.append({"cmd": "option", "name": "[t]", "value": template})
        lines.append({"cmd": "edit", "id": 1, "content": f"[t{attributes(values)}]{content}[/t]"})
        lines.append(GET)
        printed, those = model(template, values, content)
        wanted.append(f"<h2></h2>{printed}")
        places.update(place.kind for place in those)
    pages = pages_in(snip(options.program, joined(lines)))
    must(len(pages) == len(wanted), f"{len(wanted)} pages were asked for, {len(pages)} came")
    for at, (page, other) in enumerate(zip(pages, wanted)):
        must(page == other, f"page {at} is {page!r}, wanted {other!r}, of {joined(lines[3 * at + 3 : 3 * at + 5])}")
    must(places == set(KINDS), f"no random value was at these places: {sorted(set(KINDS) - places)}")


def page_at(port: int) -> str | None:
    """The page of the post at a node, or None while the node doesn't have it yet."""
    try:
        with urllib.request.urlopen(f"http://127.0.0.1:{port}/?p=1", timeout=5) as page:
            body: bytes = page.read()
            return body.decode()
    except (urllib.error.URLError, OSError):
        return None


def shows_on_nodes(options: argparse.Namespace) -> None:
    """three nodes over three etcd show the same snippets"""
    if not shutil.which("etcd"):
        raise Skipped("etcd isn't on the PATH")
    with tempfile.TemporaryDirectory() as folder:
        commands, port = Path(folder, "commands.jsonl"), free_port()
        commands.write_text(joined([*SNIPPETS, POST]), encoding="utf-8")
        words = [GEANMARBLES, "cluster", "three", "--program", options.program, "--snippets"]
        words += ["--port", str(port), str(commands)]
        with open(Path(folder, "said"), "w+", encoding="utf-8") as said:
            nodes = subprocess.Popen(words, stdout=said, stderr=said, preexec_fn=take_interrupts)
            try:
                end = time.monotonic() + SECONDS
                pages: list[str | None] = []
                while time.monotonic() < end and nodes.poll() is None and pages != [SHOWN] * 3:
                    time.sleep(1)
                    pages = [page_at(port + number) for number in range(3)]
            finally:
                nodes.send_signal(signal.SIGINT)
                nodes.wait(SECONDS)
            said.seek(0)
            must(pages == [SHOWN] * 3, f"the nodes show {pages}; {said.read()[-300:]}")


def finds_mistakes(_options: argparse.Namespace) -> None:
    """`geanmarbles snippet check` finds what is wrong, and nothing in the templates of the documents"""
    fine = joined(SNIPPETS).splitlines()
    must(not list(faults(options_in(fine))), f"of fine templates it says {list(faults(options_in(fine)))}")
    wrong = {
        "<script>{{a}}</script>": "in a script",
        "<!-- {{a}} -->": "in a comment",
        "<script><!--<script></script>{{a}}</script>": "after a `<!--` in a script",
        "<!DOCTYPE {{a}}>": "in a doctype",
        "<a href={{a}}>": "outside quotes",
        "<h{{a}}>": "outside quotes",
        '<a onclick="{{a}}">': "in `onclick`",
        '<a href="{{a}}{{b}}">': "follows another in `href`",
        '<a title="{{content}}">': "the content is in `title`",
        "{{ a }}": "is printed as it is",
        "{{a": "without `}}`",
        "{{#a}}x": "has no `{{/a}}`",
        "x{{/a}}": "ends nothing",
        "{{A}}": "in lower case",
        "{{#s}}<style>{{/s}}{{a}}": "in a style",
        "{{s|<script>}}{{a}}": "in a script",
    }
    for template, part in wrong.items():
        said = list(faults({"snippets": "[t]", "[t]": template}))
        must(len(said) == 1 and part in said[0], f"of {template!r} it says {said}")
    for word in ("x", "a:05", "a:100", "[a]b", ":1"):
        said = list(faults({"snippets": word}))
        must(len(said) == 1, f"of the word {word!r} it says {said}")
    with tempfile.NamedTemporaryFile("w", suffix=".jsonl") as file:
        file.write(joined([{"cmd": "option", "name": "[t]", "value": "<!--{{a}}-->"}]))
        file.flush()
        must(
            len(run(GEANMARBLES, "", "snippet", "check", file.name, status=1).splitlines()) == 2,
            "the script says something else of a file",
        )
    must(run(GEANMARBLES, joined(SNIPPETS), "snippet", "check") == "", "the script says something of fine templates")


CHECKS: tuple[Check, ...] = (lasts, moves, shows_on_nodes, prints_as_modelled, finds_mistakes)


def main() -> int:
    parser = parser_of(__doc__)
    parser.add_argument("--pages", type=int, default=2000, metavar="N", help="how many random pages are shown")
    parser.add_argument("--seed", type=int, default=1, metavar="N", help="what they are made from")
    options = parser.parse_args()
    counts, absent = Counts(), missing(options.program)
    for check in CHECKS:
        counts.judge(check.__doc__, partial(must, False, absent) if absent else partial(check, options))
    return counts.end()
