"""Compares what requests cost with what is recorded: instructions, and allocations.

    tests/cost/run [--record] [--only WORD] [PROGRAM]

PROGRAM is the one that is here, built or shipped, if it is left out. valgrind's callgrind counts, so the figures are
the same in each run, whatever else the machine does. What one request takes is the difference between a run with many
of them and a run with one, divided by their number. A request fails that replies wrongly, or takes 5 in 100 more of
either than counts.txt beside this script says; --record writes that file anew. What takes less than recorded by as much
is named, so that it can be recorded. With --only those are counted, and recorded, whose names have WORD. Without
valgrind nothing is counted, which is said.

Among the requests are fronts that are found anew, of posts that were read before; a site in a file: edits of which many
come in one read and so in one commit, as many as fill a read, and edits that a start carries out; pages that are
watched by a log, also by one that can't be written, and a page by single turns; large pages and texts; and a site of
10,000 options. Lines that ask for one page differ, so that each is printed, but for two requests whose pages are kept.

`test_bench` adds 1,000 callbacks at one priority: that takes what its run takes more than one without. It loads them as
a page does that finds its load kept, of 4 plugins and of 63.

A snippet is counted beside a bundled plugin that prints the same: it may take twice as many instructions. What takes
`test_bench` is skipped if that isn't built.

The last line is 'N passed, M failed'. The exit status is 0 if nothing failed.
"""

import os
import re
import shutil
import subprocess
import sys
import tempfile
from collections import Counter
from collections.abc import Iterable, Iterator, Mapping
from concurrent.futures import ThreadPoolExecutor
from enum import Enum
from pathlib import Path
from typing import NamedTuple

from geanmarbles.repository import shipped
from geanmarbles.arguments import Parser
from geanmarbles.checks.judging import Counted
from geanmarbles.checks.programs import missing
from geanmarbles.client.exchanges import (
    ARTICLE,
    BOLD_ARTICLE,
    NOTHING,
    Exchange,
    activate,
    done,
    get,
    joined,
    put,
    shown,
)
from geanmarbles.paths import BUILT_PASSES, TESTS

HERE = TESTS / "cost"
COUNTS = HERE / "counts.txt"
HEAD = "# What each request takes: instructions, allocations, name. Written by tests/cost/run --record.\n"
MORE = 1.05
TIMES = 20
ALLOCATE = ("malloc", "calloc", "realloc", "posix_memalign")
NAMED = re.compile(r"(c?)fn=\((\d+)\)(?: (.*))?$")

# What a request may take at most, in instructions, as a multiple of another.
AT_MOST = {"100 links of a snippet": (2, "100 links of a bundled plugin")}

LETTERS = "word " * 10_000
LINK = '<a href="/a">Home</a>'
FIVE = activate("args", "atts", "bold", "marks", "note")
# What the five plugins make of a post that is empty.
OF_FIVE = shown("[1:]", "n0X1Y(2 1)")
# What hands the plugin snippets in.
SNIPPETS = ("--snippets",)


class Place(Enum):
    """Where a request finds its site."""

    MEMORY, FILE, START = range(3)


class Request(NamedTuple):
    """A request: its name, what is sent before it, the exchange that is counted, and the program: its arguments, where
    its standard error goes."""

    name: str
    before: Exchange
    counted: Exchange
    options: tuple[str, ...] = ()
    errors: str = os.devnull
    # Whether the site is in a file; or the edits are there already, and the start that carries them out is counted.
    place: Place = Place.MEMORY
    # Whether the same lines come again, so that pages are those that were kept.
    again: bool = False

    def times(self, times: int) -> Exchange:
        return self.before + (self.counted.again(times) if self.again else self.counted * times)


class Work(NamedTuple):
    """Work of `test_bench`: its name, the words of a run and of one that does it more often, how many times more, and
    what both print."""

    name: str
    run: tuple[str, ...]
    longer: tuple[str, ...]
    times: int
    printed: str

    def counted(self, words: tuple[str, ...]) -> "Cost | None":
        nothing = Exchange()
        return counted(str(BUILT_PASSES), Request(self.name, nothing, nothing, words), Exchange("", self.printed))


class Cost(NamedTuple):
    instructions: float
    allocations: float


def posts(count: int, content: str = "", title: str = "", shows: str = "") -> tuple[Exchange, Exchange]:
    """A site of some posts, and what its front shows of them."""
    shown_at_once = done("option", name="posts_per_page", value=str(count))
    site = shown_at_once + joined(put(it, content, title) for it in range(1, count + 1))
    return site, get(body=shown(shows or content, title) * count)


def pages_in_turn() -> tuple[Exchange, Exchange]:
    """A site of three posts, and pages of them: with two texts kept, two of eight are scanned."""
    posts = joined(put(it, "[b]x[/b]" * 200) for it in (1, 2, 3))
    body = shown("<b>x</b>" * 200)
    pages = (get(f"/?p={it}", body, n=at) for at, it in enumerate((1, 1, 2, 1, 2, 1, 3, 1)))
    return activate("bold") + posts, joined(pages)


def requests() -> Iterator[Request]:
    nothing = Exchange()
    yield Request("the front of no post", nothing, get(body=NOTHING))
    yield Request("one empty post", *posts(1))
    yield Request("one empty post, asked by the same line again", *posts(1), again=True)
    yield Request("one empty post, five plugins active", FIVE + put(1), get(body=OF_FIVE))
    yield Request("20 empty posts", *posts(20))
    site, front = posts(10, ARTICLE, shows=BOLD_ARTICLE)
    yield Request("ten posts of 3 KB, 14 shortcodes each", activate("bold") + site, front)
    yield Request("the same ten, asked by the same line again", activate("bold") + site, front, again=True)
    site, front = posts(1, "[b]x[/b]" * 200, shows="<b>x</b>" * 200)
    yield Request("200 shortcodes", activate("bold") + site, front)
    site, front = posts(1, "[b]x[/b]" * 200, shows="<b>x</b>" * 200)
    edited = done("edit", id=1, title="")
    yield Request("200 shortcodes, after an edit of their post", activate("bold") + site, edited + front)
    yield Request("eight pages of 200 shortcodes, of which two texts are kept", *pages_in_turn(), ("--cache", "2"))
    site, front = posts(1, LETTERS)
    yield Request("50,000 letters", site, front)
    # The option says what the front shows, so that is found anew.
    decided = done("option", name="show_on_front", value="posts")
    yield Request("50,000 letters, after an option that decides what is found", site, decided + front)
    yield Request("50,000 letters, after an edit of their title", site, done("edit", id=1, title="") + front)
    yield Request("a path that finds nothing", nothing, get("/?p=7", NOTHING, 404))
    yield Request("a line that is no command", nothing, Exchange("{}\n", "refused 1 BadCommand\n"))
    yield Request("an option", nothing, done("option", name="blogname", value="Site"))
    yield Request("an edit", put(1, "x"), done("edit", id=1, content="y"))
    gone = done("deactivate", plugin="bold")
    yield Request("a plugin that goes and comes", activate("bold"), gone + activate("bold"))


def links() -> Iterator[Request]:
    """Pages of 100 links, by a plugin of the bundle and by a snippet; and a page of many callbacks on one hook."""
    site, front = posts(1, '[link href="/a" label="Home"]' * 100, shows=LINK * 100)
    yield Request("100 links of a bundled plugin", activate("atts") + site, front, SNIPPETS)
    site, front = posts(1, '[button href="/a"]Home[/button]' * 100, shows=LINK * 100)
    template = done("option", name="[button]", value='<a href="{{href|#}}">{{content|link}}</a>')
    listed = activate("snippets") + done("option", name="snippets", value="[button]")
    yield Request("100 links of a snippet", listed + template + site, front, SNIPPETS)
    hooks = done("option", name="snippets", value=" ".join(f"the_content:{it}" for it in range(100)))
    site = activate("snippets") + hooks + put(1, LETTERS)
    yield Request("100 filters of a text of 50,000 letters", site, get(body=shown(LETTERS)), SNIPPETS)


def stored_requests() -> Iterator[Request]:
    """Edits of a site in a file."""
    site = put(1, "x")
    edits = done("edit", id=1, title="t") * 50
    yield Request("50 edits in a file, in one commit", site, edits, place=Place.FILE)
    # More than the 65,536 bytes that are read at a time, so that each time there is one more commit.
    chunk = done("edit", id=1, content="y" * 1_000) * 64
    yield Request("64 edits of 1 KB in a file, a commit", site, chunk, place=Place.FILE)
    yield Request("50 edits that a start carries out", site, edits, place=Place.START)


def watched_requests() -> Iterator[Request]:
    """Pages that are printed turn by turn."""
    site, front = posts(100)
    traced = ("--trace",)
    yield Request("100 empty posts", site, front)
    yield Request("100 empty posts, after an edit of one of them", site, done("edit", id=50, title="") + front)
    decided = done("option", name="show_on_front", value="posts")
    yield Request("100 empty posts, after an option that decides what is found", site, decided + front)
    yield Request("100 empty posts, watched", site, front, traced)
    yield Request("100 empty posts, watched by a log that is full", site, front, traced, errors="/dev/full")
    begun = Exchange('{"cmd":"begin","path":"/"}\n', "ok 1\n")
    turn = '{"cmd":"turns","page":1,"count":1}\n'
    # The content of each post is a turn, and the last one comes to the end.
    turns = begun + Exchange(turn, "ok\n") * 100 + Exchange(turn, front.replies)
    yield Request("100 empty posts, a turn at a time", site, turns)
    yield Request("100 empty posts, a turn at a time, watched", site, turns, traced)


def large_requests() -> Iterator[Request]:
    """Large pages and texts, many paths, many options."""
    large, echoes = LETTERS * 10, 100
    site = done("option", name="posts_per_page", value="6") + put(1, "[say]" * echoes)
    site += joined(put(it, large) for it in range(2, 7))
    front = get(body=shown(large) * 5 + shown("E" * echoes + "A" * echoes))
    yield Request("a page of 2.5 MB, with 100 echoes at its end", activate("note") + site, front)
    spaced = ("[b]x[/b]" + "word " * 8) * 2_000
    bold = spaced.replace("[b]", "<b>").replace("[/b]", "</b>")
    yield Request("2,000 shortcodes in 96 KB", activate("bold") + put(1, spaced), get(body=shown(bold)))
    for name, paths in (("eight", 8), ("100", 100)):
        site = joined(put(it) for it in range(1, paths + 1))
        turn = joined(get(f"/?p={it}", shown("")) for it in range(1, paths + 1))
        yield Request(f"{name} paths in turn", site, turn)
    options = joined(done("option", name=f"o{it}", value="v") for it in range(10_000))
    yield Request("the front of no post, beside 10,000 options", options, get(body=NOTHING))
    change = done("option", name="o5000", value="v")
    yield Request("the same after a change of one of them", options, change + get(body=NOTHING))
    changes = joined(done("option", name=f"o{it}", value="v") for it in range(0, 10_000, 100))
    yield Request("the same after changes of 100 of them", options, changes + get(body=NOTHING))


def works() -> Iterator[Work]:
    """Callbacks that are added at one priority, and loaded."""
    yield Work("1,000 callbacks added at one priority", ("0", "0"), ("1000", "0"), 1, "value\n")
    for plugins in ("4", "63"):
        one, many = (("1000", str(it), "loads", plugins) for it in (1, 1 + TIMES))
        yield Work(f"a kept load of 1,000 callbacks of {plugins} plugins", one, many, TIMES, "1000\n")


def made_file(program: str, folder: str, exchange: Exchange) -> str:
    """A file with the edits of an exchange."""
    file = str(Path(folder, "site.db"))
    subprocess.run([program, "--database", file], input=exchange.lines.encode(), capture_output=True, check=True)
    return file


def counted(program: str, request: Request, exchange: Exchange) -> Cost | None:
    """What a run over an exchange takes. Its input is a file, so each read of it is as long as it can be."""
    with tempfile.TemporaryDirectory() as folder:
        words = list(request.options)
        if request.place != Place.MEMORY:
            words += ["--database", made_file(program, folder, Exchange())]
        if request.place == Place.START:
            made_file(program, folder, exchange)
            exchange = Exchange()
        counts, given = Path(folder, "counts"), Path(folder, "lines")
        given.write_text(exchange.lines, encoding="utf-8")
        tool = ["valgrind", "--tool=callgrind", "--log-file=/dev/null", f"--callgrind-out-file={counts}"]
        with given.open("rb") as lines, open(request.errors, "wb") as errors:
            ran = subprocess.run(
                [*tool, program, *words], stdin=lines, stdout=subprocess.PIPE, stderr=errors, check=False
            )
        if ran.returncode or ran.stdout != exchange.replies.encode():
            return None
        with counts.open(encoding="utf-8", errors="replace") as texts:
            return cost_in(texts)


def cost_in(counts: Iterable[str]) -> Cost:
    """What callgrind has counted of a run."""
    names: dict[str, str] = {}
    calls: Counter[str] = Counter()
    callee, total = "", 0
    for text in counts:
        named = NAMED.match(text)
        if named:
            names.setdefault(named[2], named[3])
            callee = names[named[2]] if named[1] else callee
        elif text.startswith("calls="):
            calls[callee] += int(text[len("calls=") :].split()[0])
        elif text.startswith(("summary: ", "totals: ")):
            total = int(text.split()[1])
    return Cost(total, sum(calls[it] for it in ALLOCATE))


def cost_of(program: str, asked: Request | Work) -> Cost | None:
    """What one request or work takes, or None if one is replied to wrongly."""
    if isinstance(asked, Work):
        one, many, times = asked.counted(asked.run), asked.counted(asked.longer), asked.times
    else:
        one, many = (counted(program, asked, asked.times(it)) for it in (1, 1 + TIMES))
        times = TIMES
    if not one or not many:
        return None
    return Cost((many.instructions - one.instructions) / times, (many.allocations - one.allocations) / times)


def recorded() -> dict[str, Cost]:
    """What is recorded of each request."""
    lines = COUNTS.read_text(encoding="utf-8").splitlines() if COUNTS.is_file() else []
    words = (it.split(" ", 2) for it in lines if not it.startswith("#"))
    return {name: Cost(float(instructions), float(allocations)) for instructions, allocations, name in words}


def too_many(name: str, costs: Mapping[str, Cost | None]) -> str | None:
    """What is to be said if a request takes too many instructions beside another, or None."""
    times, other = AT_MOST[name]
    mine, its = costs[name], costs[other]
    if not mine or not its or mine.instructions <= times * its.instructions:
        return None
    taken = f"{mine.instructions:,.0f} instructions, more than {times} times the {its.instructions:,.0f}"
    return f"{name}: {taken} of {other}"


def judged(cost: Cost | None, was: Cost | None) -> tuple[bool, str]:
    """Whether a cost passes, and what is to be said of it."""
    if not cost:
        return False, "replied to wrongly"
    said = f"{cost.instructions:,.0f} instructions, {cost.allocations:.1f} allocations"
    if not was:
        return False, f"{said}, of which nothing is recorded"
    if any(now > before * MORE for now, before in zip(cost, was)):
        return False, f"{said}, where {was.instructions:,.0f} and {was.allocations:.1f} are recorded"
    if any(now * MORE < before for now, before in zip(cost, was)):
        return True, f"{said}, less than the {was.instructions:,.0f} and {was.allocations:.1f} recorded: --record"
    return True, said


def record(whole: Iterable[Request | Work], costs: Mapping[str, Cost | None]) -> None:
    """Writes counts.txt anew. What wasn't counted stays as it is recorded."""
    was = recorded()
    named = ((it.name, costs.get(it.name) or was.get(it.name)) for it in whole)
    lines = (f"{cost.instructions:.0f} {cost.allocations:.1f} {name}\n" for name, cost in named if cost)
    COUNTS.write_text(HEAD + "".join(lines), encoding="utf-8")


def main() -> int:
    parser = Parser(description="Compares what requests cost with what is recorded.")
    parser.add_argument("--record", action="store_true", help="write counts.txt anew")
    parser.add_argument("--only", default="", metavar="WORD", help="the requests whose names have WORD")
    parser.add_argument("program", nargs="?", default=str(shipped.program()), metavar="PROGRAM")
    options = parser.parse_args()
    whole: list[Request | Work] = [*requests(), *links(), *stored_requests(), *watched_requests()]
    whole += [*large_requests(), *works()]
    asked = [it for it in whole if options.only in it.name]
    fault, named = missing(options.program), len(asked)
    if fault and any(isinstance(it, Request) for it in asked):
        print(f"tests/cost/run: {fault}", file=sys.stderr)
        return 2
    if missing(BUILT_PASSES) and any(isinstance(it, Work) for it in asked):
        print(f"skipped: what takes {BUILT_PASSES.name}: {missing(BUILT_PASSES)}")
        asked = [it for it in asked if not isinstance(it, Work)]
    if not shutil.which("valgrind"):
        print("tests/cost/run: valgrind isn't on the PATH, so nothing is counted\n0 passed, 0 failed")
        return 0
    with ThreadPoolExecutor(2) as pool:
        costs = dict(zip((it.name for it in asked), pool.map(lambda it: cost_of(options.program, it), asked)))
    if options.record and all(costs.values()):
        record(whole, costs)
    was, failed = recorded(), 0
    for name, cost in costs.items():
        passes, said = judged(cost, was.get(name))
        failed += not passes
        print(f"{'' if passes else 'FAILED: '}{name}: {said}")
    bounds = [name for name, (_, other) in AT_MOST.items() if {name, other} <= costs.keys()]
    for fault in filter(None, (too_many(name, costs) for name in bounds)):
        failed += 1
        print(f"FAILED: {fault}")
    print(Counted(len(asked) + len(bounds) - failed, failed, named - len(asked)))
    return 1 if failed else 0
