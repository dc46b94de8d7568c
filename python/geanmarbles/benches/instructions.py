"""Counts the instructions that pages, passes and loads take, by valgrind's callgrind.

    geanmarbles dev bench instructions [--smoke] [--only WORD] [PROGRAM]

A row for each pass, load, edit and page; with --only for those whose names have WORD. What one request takes is the
difference between a run with many of them and one with a single one, so what is made once isn't counted, nor are the
commands between the requests. Counts are the same in each run, whatever else the machine does. crates/test_bench makes
the passes, and the loads: each is that of a page which finds its load kept. The edits are of sites of several sizes,
each of another post. bench/README.md says what else can follow.
"""

import shutil
import sys
from collections.abc import Callable, Iterator
from itertools import islice
from typing import NamedTuple

from geanmarbles.benches.cases import content
from geanmarbles.benches.measured import Bench, counted, parser_of
from geanmarbles.client.exchanges import (
    ARTICLE,
    CHANGE,
    NOTHING,
    SHOWN,
    UNSEEN,
    Exchange,
    activate,
    dated,
    done,
    get,
    joined,
    put,
)
from geanmarbles.output import quiet_output
from geanmarbles.paths import BUILT_PASSES

POSTS, SHORTCODES, CALLBACKS, LETTERS = 100, 1_000, 1_000, 500_000
# Of how many active plugins the callbacks are that are loaded.
PLUGINS = (4, 16, 63)
# How many posts and options sites have whose edits are counted, how long contents are, and how many edits are made.
STORED, OPTIONS, CONTENTS, EDITS = (1_000, 4_000, 16_000), (10, 1_000, 10_000), (1_000, 64_000, 512_000), 9
# How many rows are enough to see that the script works: passes, loads, edits, a page, and one after a change.
FEW_ROWS = 10
# A post that is shown is edited, and stays as it is.
EDIT = done("edit", id=1, title="")


class Page(NamedTuple):
    """A page: its name, the exchange that makes the site, what comes before each request, of how many parts it consists
    and what they are, and how often it is asked for."""

    name: str
    site: Exchange
    before: Exchange
    parts: int
    part: str
    times: int


def pages(smoke: bool) -> Iterator[Page]:
    posts, shortcodes, letters = (10, 20, 1_000) if smoke else (POSTS, SHORTCODES, LETTERS)
    bold = activate("bold") + put(1, "[b]x[/b]" * shortcodes)
    yield Page(f"{shortcodes:,} `[b]x[/b]`", bold, Exchange(), shortcodes, "shortcode", 20)
    articles = activate("bold") + joined(put(number, ARTICLE) for number in range(1, SHOWN + 1))
    empty = done("option", name="posts_per_page", value=str(posts)) + joined(put(it) for it in range(1, posts + 1))
    for name, site, parts in (("ten posts of 3 KB", articles, SHOWN), (f"{posts} empty posts", empty, posts)):
        yield Page(name, site, Exchange(), parts, "post", 50)
        yield Page(f"{name}, after a change that they don't show", site, UNSEEN, parts, "post", 50)
        yield Page(f"{name}, after a change of what decides them", site, CHANGE, parts, "post", 50)
        yield Page(f"{name}, after an edit of one", site, EDIT, parts, "post", 50)
    for plugin in ("marks", "once", "nest"):
        yield Page(f"{posts} empty posts, `{plugin}`", activate(plugin) + empty, Exchange(), posts, "post", 20)
    yield Page("one empty post", put(1), Exchange(), 1, "page", 200)
    five = activate("args", "atts", "bold", "marks", "note") + put(1)
    yield Page("one empty post, five plugins active", five, Exchange(), 1, "page", 200)
    plain = activate("atts", "bold") + put(1, "word " * (letters // 5))
    yield Page(f"plain text of {letters:,} bytes", plain, Exchange(), 1, "page", 10)
    yield Page(f"plain text of {letters:,} bytes, after an edit of it", plain, EDIT, 1, "page", 10)


def of_page(bench: Bench, page: Page, times: int) -> float:
    """The instructions of one request of the front."""

    def run(each: Exchange, count: int) -> tuple[int, bytes]:
        return counted(bench.words, (page.site + each * count).lines.encode())

    begun, one = run(page.before + get("/"), 1)
    ended, many = run(page.before + get("/"), 1 + times)
    single = one[len(page.site.replies.encode()) :]
    if not one.startswith(page.site.replies.encode()) or many != page.site.replies.encode() + single * (1 + times):
        sys.exit(f"{bench.program} replied wrongly: {page.name}")
    between = run(page.before, 1 + times)[0] - run(page.before, 1)[0] if page.before.lines else 0
    return (ended - begun - between) / times


class Work(NamedTuple):
    """Work over callbacks that give the value back: its name, the words that ask `test_bench` for it, of how many parts
    it consists and what they are."""

    name: str
    words: tuple[str, ...]
    parts: int
    part: str


def works(callbacks: int) -> Iterator[Work]:
    yield Work(f"a pass over {callbacks:,} callbacks, at one priority", (), callbacks, "callback")
    yield Work(f"a pass over {callbacks:,} callbacks, each at its own", ("many",), callbacks, "callback")
    for plugins in PLUGINS:
        name = f"a kept load of {callbacks:,} callbacks of {plugins} plugins"
        yield Work(name, ("loads", str(plugins)), 1, "load")


def of_work(work: Work, callbacks: int, times: int) -> float:
    """The instructions of one pass or load over a number of callbacks."""
    begun, ended = (counted([str(BUILT_PASSES), str(callbacks), str(it), *work.words])[0] for it in (1, 1 + times))
    return (ended - begun) / times


# A site, and edits of it.
Edited = tuple[Exchange, list[Exchange]]


def edits(posts: int) -> Iterator[tuple[str, Edited]]:
    """Edits of each kind in a site of that many posts, in the middle of all."""
    stored = joined(dated(number, content(number)) for number in range(1, posts + 1))
    first = (posts - EDITS) // 2 + 1

    def each(cmd: str, **keys: object) -> Edited:
        return stored, [done(cmd, id=it, **keys) for it in range(first, first + EDITS)]

    def new(date: str) -> Edited:
        return stored, [put(posts + 1 + it, date=date) for it in range(EDITS)]

    yield "a title", each("edit", title="Another title")
    yield "a content", each("edit", content="Another content.")
    yield "a status", each("edit", status="draft")
    yield "a date", each("edit", date="2101-01-01 00:00:00")
    yield "a post that is deleted", each("delete")
    yield "a new post of the newest date", new("2101-01-01 00:00:00")
    yield "a new post of the oldest date", new("1999-01-01 00:00:00")


def beside_contents(letters: int) -> Edited:
    """Edits of titles beside contents of this many bytes."""
    posts = range(1, EDITS + 1)
    return joined(put(it, "x" * letters) for it in posts), [done("edit", id=it, title="T") for it in posts]


def among_options(options: int) -> Edited:
    """Options that are set among this many, each with the front after it."""
    before = joined(done("option", name=f"option_{it:05}", value="x") for it in range(options))
    each = (done("option", name=f"option_{it:05}", value=f"{it}") + get("/", NOTHING) for it in range(EDITS))
    return before + get("/", NOTHING), list(each)


def all_edits(smoke: bool) -> Iterator[tuple[str, Callable[[], Edited]]]:
    if smoke:
        yield "a title, 20 posts", lambda: dict(edits(20))["a title"]
        yield "an option, and the front, among 10", lambda: among_options(10)
        return
    for name in dict(edits(EDITS)):
        for posts in STORED:
            yield f"{name}, {posts:,} posts", lambda: dict(edits(posts))[name]
    for letters in CONTENTS:
        yield f"a title beside contents of {letters:,} bytes", lambda: beside_contents(letters)
    for options in OPTIONS:
        yield f"an option, and the front, among {options:,}", lambda: among_options(options)


def of_edits(bench: Bench, edited: Edited) -> float:
    """The instructions of one of some edits."""
    site, changes = edited
    one, all_of = site + changes[0], site + joined(changes)
    (begun, _), (ended, written) = (counted(bench.words, it.lines.encode()) for it in (one, all_of))
    if written.decode() != all_of.replies:
        sys.exit(f"{bench.program} replied wrongly")
    return (ended - begun) / (len(changes) - 1)


def rows(bench: Bench, word: str) -> Iterator[tuple[str, float, int, str]]:
    """For each row its name, what it counts, of how many parts that consists and what they are."""
    callbacks = 10 if bench.smoke else CALLBACKS
    for work in works(callbacks):
        if word in work.name:
            yield work.name, of_work(work, callbacks, 1 if bench.smoke else 20), work.parts, work.part
    for name, made in all_edits(bench.smoke):
        if word in name:
            yield name, of_edits(bench, made()), 1, "edit"
    for page in pages(bench.smoke):
        if word in page.name:
            yield page.name, of_page(bench, page, 1 if bench.smoke else page.times), page.parts, page.part


@quiet_output()
def main() -> None:
    parser = parser_of(__doc__)
    parser.add_argument("--only", default="", metavar="WORD", help="the rows whose names have WORD")
    given = parser.parse_args()
    if not shutil.which("valgrind"):
        sys.exit("valgrind isn't on the PATH")
    if not BUILT_PASSES.is_file():
        sys.exit(f"{BUILT_PASSES} isn't built: run `rt run` in its crate's folder once")
    bench = Bench(given)
    print(f"{'work':<70} {'instructions':>12}   of a")
    for name, count, parts, part in islice(rows(bench, given.only), FEW_ROWS if bench.smoke else None):
        print(f"{name:<70} {count / parts:>12,.0f}   {part}", flush=True)
