"""The cases that `geanmarbles dev bench cases` times: what each row asks the program for, and beside what it is
measured."""

from __future__ import annotations

import os
from collections.abc import Callable, Iterable, Iterator, Sequence
from typing import NamedTuple

from geanmarbles.benches.measured import Bench, Case
from geanmarbles.client.exchanges import (
    ARTICLE,
    BOLD_ARTICLE,
    CHANGE,
    DATE,
    MONTH,
    NOTHING,
    SHOWN,
    Exchange,
    activate,
    dated,
    done,
    get,
    joined,
    line,
    part,
    put,
    shown,
)
from geanmarbles.paths import BUILT_PASSES


class Row(NamedTuple):
    """What is timed: rows of one name are compared with the first of them. A row may consist of some parts, and count
    what it takes more than another case."""

    name: str
    what: str
    case: Case
    parts: int = 0
    less: Case | None = None


# The exchange that makes a site, and the request of a page of it.
Asked = tuple[Exchange, Exchange]


def scaled(bench: Bench, count: int) -> int:
    return max(1, count // 100) if bench.smoke else count


def times_of(bench: Bench, times: int) -> int:
    return min(times, 20) if bench.smoke else times


def bold(text: str, page: str) -> Asked:
    return activate("bold") + put(1, text), get("/", shown(page))


def atts(text: str, page: str) -> Asked:
    return activate("atts") + put(1, text), get("/", shown(page))


def serve(bench: Bench) -> Iterator[Row]:
    """Lines that ask for one page: linear if ten times the lines take about ten times as long."""
    site, request = activate("marks") + put(1, title="T"), get("/", shown("", "TX1Y"))
    for count in (200, 2_000) if bench.smoke else (20_000, 200_000):
        yield Row("lines", f"{count:,}", bench.repeated(site, request * count, 1), count)


def content(number: int) -> str:
    return f"Content of post {number}."


def filled(posts: int) -> Asked:
    """A site of that many short posts, and its front."""
    body = "".join(shown(content(number), f"Post {number}") for number in part(posts, 1))
    return joined(dated(number, content(number)) for number in range(1, posts + 1)), get("/", body)


def tables(bench: Bench) -> Iterator[Row]:
    """Posts that are stored, and the front, as a site grows."""
    sizes = (10, 100) if bench.smoke else (10, 1_000, 10_000)
    times = times_of(bench, 2_000)
    for posts in sizes:
        yield Row(
            "a site's posts are stored", f"{posts:,} posts", bench.repeated(Exchange(), filled(posts)[0], 1), posts
        )
    for name, case in (("the front after a change", bench.changed), ("the front again", bench.repeated)):
        yield from (Row(name, f"{posts:,} posts", case(*filled(posts), times)) for posts in sizes)


# The posts of a site, and the bytes of a content.
SITES = ((0, 8), (100, 8), (10_000, 8), (100, 3_000), (10_000, 3_000))
SMALL_SITES = ((0, 8), (100, 8), (100, 3_000))
# A query's name, its path, the posts that it shows, and how often it is asked for: later parts take longer.
Query = tuple[str, str, Sequence[int], int]
PAST = "/?paged=999999"


def queries_of(posts: int, size: int) -> Iterator[Query]:
    """What is asked of a site: parts of its front, and of one with short contents its other lists."""
    last = posts // SHOWN
    yield "the front", "/", part(posts, 1), 2_000
    if posts:
        yield "its middle part", f"/?paged={last // 2}", part(posts, last // 2), 200
        yield "its last part", f"/?paged={last}", part(posts, last), 200
    yield f"past its last part, {PAST}", PAST, (), 2_000
    if posts and size == 8:
        month = min(posts, MONTH)
        yield "one post", f"/?p={posts // 2}", [posts // 2], 2_000
        yield "a month", "/?m=202001", part(month, 1), 2_000
        yield "a month's last full part", f"/?m=202001&paged={month // SHOWN}", part(month, month // SHOWN), 2_000


def queries(bench: Bench) -> Iterator[Row]:
    """What paths find, after a change and again, as a site grows."""
    rows: list[Row] = []
    for posts, size in SMALL_SITES if bench.smoke else SITES:
        text = ("Content." * size)[:size]
        before = joined(dated(number, text) for number in range(1, posts + 1))
        for name, path, numbers, times in queries_of(posts, size):
            body = "".join(shown(text, f"Post {number}") for number in numbers) or NOTHING
            request, what = get(path, body, 404 if path == PAST else 200), f"{posts:,} posts of {size:,} bytes"
            for when, case in (("after a change", bench.changed), ("again", bench.repeated)):
                rows.append(Row(f"{name}, {when}", what, case(before, request, times_of(bench, times))))
    yield from sorted(rows, key=lambda row: row.name)


def imported(numbers: Iterable[int], content: str = "") -> str:
    """The line that imports posts with these IDs."""
    kept: dict[str, object] = {"kind": "post", "status": "publish", "title": "", "content": content, "date": DATE}
    return line("import", site={"version": 1, "posts": [dict(kept, id=number) for number in numbers]})


def imports(posts: int, content: str, each: int) -> Exchange:
    """Imports of posts in lines of `each`."""
    firsts = range(1, posts + 1, each)
    return joined(Exchange(imported(range(it, min(it + each, posts + 1)), content), "ok\n") for it in firsts)


# The posts, the bytes of a content, and the posts of a line, which has at most 1,048,576 bytes.
IMPORTS = ((1_000, 0, 10_000), (10_000, 0, 10_000), (1_000, 1_024, 900), (10_000, 1_024, 900))
OTHERS = "index home front-page single page singular date archive header footer content".split()


def refused_imports(bench: Bench) -> Iterator[Row]:
    """An import whose last ID is taken, beside one of the same length whose last ID isn't."""
    posts, times = 100 if bench.smoke else 1_000, 10
    firsts = [100_000 + posts * it for it in range(times)]
    taken, free = range(900_000, 900_000 + times), range(800_000, 800_000 + times)
    before = Exchange(imported(taken), "ok\n")
    for what, lasts, reply in (
        ("accepted", free, "ok\n"),
        ("refused for its last ID", taken, "refused 4 DuplicateId\n"),
    ):
        numbers = [[*range(first, first + posts - 1), last] for first, last in zip(firsts, lasts)]
        asked = joined(Exchange(imported(it), reply) for it in numbers)
        yield Row(f"{times} imports of {posts:,} posts", what, bench.repeated(before, asked, 1), times)


def by_templates(bench: Bench) -> Iterator[Row]:
    """Pages by stored templates, and a page that is not found beside large ones that it has no use for."""
    home = [{"part": "header"}, {"loop": ["<h2>", {"tag": "title_escaped"}, "</h2>", {"tag": "the_content"}]}]
    templates = done("template", name="home", body=home) + done("template", name="header", body=["<h1/>"])
    article = activate("bold") + templates + imports(10, ARTICLE, 10)
    times, few = times_of(bench, 2_000), times_of(bench, 500)
    many = imports(10_000, "x" * 1_024, 900), get("/", shown("x" * 1_024) * 10)
    yield Row("the front", "10,000 posts of 1 KB", bench.repeated(*many, times))
    shown_articles = get("/", "<h1/>" + shown(BOLD_ARTICLE) * 10)
    yield Row("the front by a template", "ten of 3 KB, 14 shortcodes", bench.repeated(article, shown_articles, times))
    not_found, short = get("/x", NOTHING, 404), done("template", name="404", body=[NOTHING])
    large = short + joined(done("template", name=it, body=["x" * 250_000]) for it in OTHERS)
    yield Row("`/x`", "no template stored", bench.repeated(Exchange(), not_found, times))
    yield Row("`/x`", "a short `404` stored", bench.repeated(short, not_found, times))
    yield Row("`/x`", "and eleven others of 250 KB", bench.repeated(large, not_found, few))


def imports_and_templates(bench: Bench) -> Iterator[Row]:
    """Imports, accepted and refused, and pages by stored templates."""
    for posts, size, each in IMPORTS[:1] if bench.smoke else IMPORTS:
        made, lines = imports(posts, "x" * size, each), -(-posts // each)
        what = f"{posts:,} posts in {lines} lines"
        yield Row(f"an import, contents of {size:,} bytes", what, bench.repeated(Exchange(), made, 1), posts)
    yield from refused_imports(bench)
    yield from by_templates(bench)


def plain(size: int) -> str:
    return ("Plain text with no bracket in it " * (size // 33 + 1))[:size]


# A text's name, its unit, what a page shows of it, and how many units; an escaped shortcode before a text without any
# makes a name live. No unit has a handler called.
TEXTS = [
    ("brackets, `[`", "[", None, 250_000),
    ("names, `[b`", "[b", None, 100_000),
    ("commas, `[b,`", "[b,", None, 50_000),
    ("escaped, `[[b]]`", "[[b]]", "[b]", 32_768),
    ("escaped and closed, `[[b]x[/b]]`", "[[b]x[/b]]", "[b]x[/b]", 16_384),
]
HANDLED = [("`[b]`", "[b]", "<b></b>", 25_000), ("`[b]x[/b]`", "[b]x[/b]", "<b>x</b>", 25_000)]
ATTRIBUTES = ' a="1" b=\'2\' c=3 "four" five'


def scan(bench: Bench) -> Iterator[Row]:
    """The scan of a text: what its page takes more than that of as long a text without a bracket."""
    for size in (scaled(bench, it) for it in (250_000, 500_000)):
        yield Row("a page of plain text", f"{size:,} bytes", bench.repeated(*bold(plain(size), plain(size)), 20), size)
    for name, unit, page, most in TEXTS:
        for count in (scaled(bench, most), 2 * scaled(bench, most)):
            before = ("[[b]]", "[b]") if page is None else ("", "")
            text = before[0] + unit * count
            case = bench.repeated(*bold(text, before[1] + (page or unit) * count), 20)
            less = bench.repeated(*bold(plain(len(text)), plain(len(text))), 20)
            yield Row(f"scan of {name}", f"{count:,} units", case, len(unit) * count, less)
    for name, unit, page, most in HANDLED:
        for count in (scaled(bench, most), 2 * scaled(bench, most)):
            yield Row(
                f"page of {name}", f"{count:,} shortcodes", bench.repeated(*bold(unit * count, page * count), 10), count
            )
    count, listed = scaled(bench, 2_000), "a=1;b=2;c=3;#four;#five;"
    none = bench.repeated(*atts("[show]" * count, ""), 20)
    five = bench.repeated(*atts(f"[show{ATTRIBUTES}]" * count, listed * count), 20)
    yield Row("five attributes of a shortcode, and their list", f"{count:,} shortcodes", five, count, none)
    for count in (scaled(bench, 5_000), scaled(bench, 10_000)):
        asked = atts(f"[show{ATTRIBUTES * count}]", "a=1;b=2;c=3;" + "#four;#five;" * count)
        yield Row("attributes in one text", f"{5 * count:,}", bench.repeated(*asked, 10), 5 * count)


def hooks(bench: Bench) -> Iterator[Row]:
    """Passes over callbacks, which crates/test_bench makes if it is built, and pages of shortcodes."""
    has_passes = os.access(BUILT_PASSES, os.X_OK)
    for name, spread in (("at one priority", False), ("each at its own", True)) if has_passes else ():
        for count in (1, 10) if bench.smoke else (1, 10, 100, 1_000):
            yield Row(f"a filter pass, {name}", f"{count:,} callbacks", bench.passes(count, spread), count)
    for count in (100,) if bench.smoke else (100, 1_000, 10_000, 60_000):
        asked = bold("[b]x[/b]" * count, "<b>x</b>" * count)
        case = bench.repeated(*asked, times_of(bench, max(20_000 // count, 3)))
        yield Row("a page of `[b]x[/b]`", f"{count:,} shortcodes", case, count)
    site = activate("bold") + joined(put(number, ARTICLE) for number in range(1, 11))
    case = bench.repeated(site, get("/", shown(BOLD_ARTICLE) * 10), times_of(bench, 400))
    yield Row(f"ten posts of {len(ARTICLE):,} bytes", "14 shortcodes each", case, 10)


def begin(page: int, path: str = "/") -> Exchange:
    """Opens a page, which gets this number."""
    return Exchange(line("begin", path=path), f"ok {page}\n")


def more(page: int, count: int) -> Exchange:
    """Gives a page turns, of which it has more."""
    return Exchange(line("turns", page=page, count=count), "ok\n")


def by_turns(request: Exchange, calls: int, count: int) -> Exchange:
    """The page of a request for the front, which calls that many callbacks, from its `begin` to its end."""
    last = Exchange(line("turns", page=1, count=count), request.replies)
    return begin(1) + more(1, count) * (calls // count) + last


# How many pages are open at most, the largest sizes of a title and a content, and the most posts of a page.
OPEN, TITLE, CONTENT, MOST = 8, 65_536, 524_288, 100


def turns(bench: Bench) -> Iterator[Row]:
    """Pages by turns beside the same pages by `get`, and the memory that open pages take."""
    many = 100 if bench.smoke else 10_000
    articles = activate("bold") + joined(put(number, ARTICLE) for number in range(1, SHOWN + 1))
    title = activate("marks") + put(1, title="T"), get("/", shown("", "TX1Y"))
    for name, (site, request), calls, often in (
        ("a post, two callbacks on its title", title, 3, 2_000),
        ("ten posts of 3 KB, 14 shortcodes", (articles, get("/", shown(BOLD_ARTICLE) * SHOWN)), SHOWN * 15, 200),
        (f"{many:,} shortcodes", bold("[b]x[/b]" * many, "<b>x</b>" * many), many + 1, 5),
    ):
        times = min(often, 2) if bench.smoke else often
        ways = [bench.repeated(site, by_turns(request, calls, count), times) for count in (1_000_000, 10, 1)]
        yield Row(name, "by `get`", bench.repeated(site, request, times), calls)
        for what, case in zip(("all turns at once", "by turns of 10", "by turns of 1"), ways):
            yield Row(name, what, case, calls)
        yield Row(f"{name}: a turn", "of a line of its own", ways[2], calls, ways[0])
    no_page = Exchange(line("turns", page=8, count=1), "refused 14 NoSuchPage\n")
    yield Row("a line that gives a turn", "to no page", bench.repeated(Exchange(), no_page, times_of(bench, 20_000)))
    yield from open_pages(bench)


def open_pages(bench: Bench) -> Iterator[Row]:
    """For two sites, what is under way in them: their memory is looked at."""
    # What is asked for at the end of a run, so that it doesn't end before its memory is looked at.
    wait = get("/x", NOTHING, 404) * 2_000
    posts, size, letters = (3, 1_000, 100) if bench.smoke else (MOST, CONTENT, TITLE)
    texts = "x" * size, "t" * letters
    largest = done("option", name="posts_per_page", value=str(MOST))
    largest += joined(put(number, *texts) for number in range(1, posts + 1))
    many = 200 if bench.smoke else 10_000
    parts = [f"/?paged={number}" for number in range(1, OPEN + 1)]
    for name, (site, front), paths, calls in (
        ("the largest pages", (largest, get("/", shown(*texts) * posts)), ["/"] * OPEN, posts),
        (f"{many:,} posts", filled(many), parts, SHOWN),
    ):
        begun = joined(begin(number, path) for number, path in enumerate(paths, 1))
        changed = joined(CHANGE + begin(number) for number in range(1, OPEN + 1))
        last = joined(more(number, calls) for number in range(1, OPEN + 1))
        for what, run in (
            ("no page", Exchange()),
            ("one `get`", front),
            ("eight begun", begun),
            ("eight before their last turn", begun + last),
            ("the same of `/`, a change each", changed + last),
        ):
            yield Row(f"open pages: {name}", what, bench.repeated(Exchange(), site + run + wait, 1))


# The largest size in bytes of a line and a path.
LINE, PATH = 1_048_576, 8_192
BAD, LARGE = "refused 1 BadCommand\n", "refused 8 TooLarge\n"


def escaped_title(text: str, page: str) -> Asked:
    home = done("template", name="home", body=[{"loop": [{"tag": "title_escaped"}]}])
    return home + put(1, title=text), get("/", page)


def not_found(text: str, page: str) -> Asked:
    return Exchange(), get(text, page, 404)


# A text's name, what is asked for, how often its unit is repeated, what comes before it, the unit and what comes after
# it, and the same of what is shown. Units with a number differ.
HOSTILE: list[tuple[str, Callable[[str, str], Asked], int, tuple[str, str, str], tuple[str, str, str]]] = [
    ("plain text", bold, 524_288, ("", "x", ""), ("", "x", "")),
    ("`[`", bold, 524_288, ("", "[", ""), ("", "[", "")),
    ("`[b`", bold, 262_144, ("", "[b", ""), ("", "[b", "")),
    ("`[b]`", bold, 99_998, ("", "[b]", ""), ("", "<b></b>", "")),
    ("`[b]x[/b]`", bold, 65_536, ("", "[b]x[/b]", ""), ("", "<b>x</b>", "")),
    ("`[[b]]`", bold, 104_856, ("", "[[b]]", ""), ("", "[b]", "")),
    ("`[b]` before one `[/b]`", bold, 174_760, ("[b]", "[b]", "[/b]"), ("<b>", "[b]", "</b>")),
    ("`[/b]` after `[i]`", bold, 131_070, ("[i]", "[/b]", ""), ("<i></i>", "[/b]", "")),
    ("`[i]`", bold, 49_998, ("", "[i]", ""), ("", "<i></i>", "")),
    ("`]` after `[b]`", bold, 524_284, ("[b]", "]", ""), ("<b></b>", "]", "")),
    ("`[show a`", atts, 74_898, ("", "[show a", ""), ("", "[show a", "")),
    ("slashes in a tag", atts, 524_280, ("[show /", "/", "]"), ("#", "/", ";")),
    ("double quotes in a tag", atts, 500_000, ("[show ", '"', "]"), ("#", '"', ";")),
    ('` ""` in a tag', atts, 174_760, ("[show", ' ""', "]"), ("", "", "")),
    ('`[show a="`', atts, 58_250, ("", '[show a="', '[show a="[show a="]'), ("a=[show a=;", '#a="[show;', "")),
    ("` a=1` in a tag", atts, 131_070, ("[show", " a=1", "]"), ("a=1;", "", "")),
    ("names that differ in a tag", atts, 50_000, ("[show", " a%d=1", "]"), ("", "a%d=1;", "")),
    ("values that differ in a tag", atts, 60_000, ("[show", " %d", "]"), ("", "#%d;", "")),
    ("backslashes in a value", atts, 250_000, ("[show a='", "\\\\", "']"), ("a=", "\\", ";")),
    ("`<` in a value", atts, 524_276, ("[show a='", "<", "']"), ("a=;", "", "")),
    ("no-break spaces in a tag", atts, 262_140, ("[show ", "\u00a0", "b]"), ("#b;", "", "")),
    ("`]]>`", bold, 174_762, ("", "]]>", ""), ("", "]]&gt;", "")),
    ("plain text in a title", escaped_title, 65_536, ("", "x", ""), ("", "x", "")),
    ("`&` in a title", escaped_title, 65_536, ("", "&", ""), ("", "&amp;", "")),
    ("`p` in a path", not_found, 4_095, ("/?", "p&", ""), (NOTHING, "", "")),
    ("`%31` in a path", not_found, 2_729, ("/?p=", "%31", ""), (NOTHING, "", "")),
]


def built(parts: tuple[str, str, str], count: int) -> str:
    before, unit, after = parts
    units = "".join(unit % number for number in range(count)) if "%d" in unit else unit * count
    return before + units + after


def hostile(bench: Bench) -> Iterator[Row]:
    """Texts that are meant to be slow, at half and all of their largest size; and lines that are refused, each beside
    one of as many bytes that is carried out."""

    def times(size: int) -> int:
        return 2 if bench.smoke else max(10, 5_000_000 // size)

    for name, asked, most, given, page in HOSTILE:
        for units in (scaled(bench, most) // 2, scaled(bench, most)):
            text = built(given, units)
            size = len(text.encode())
            yield Row(name, f"{size:,} bytes", bench.repeated(*asked(text, built(page, units)), times(size)), size)
    site = put(1, title="T")
    for name, refused, carried_out in refused_lines(LINE // 100 if bench.smoke else LINE):
        size = len(refused.lines) - 1
        assert size == len(carried_out.lines) - 1
        for what, exchange in (("carried out", carried_out), ("refused", refused)):
            yield Row(name, f"{size:,} bytes, {what}", bench.repeated(site, exchange, times(size)))


def edit(content: str = "", title: str = "", **more: str) -> str:
    """The line that edits post 1; `more` are keys that it ignores."""
    return line("edit", id=1, title=title, content=content, **more)


def text_of(size: int) -> str:
    """A line of this size that is carried out: an edit with a long content, and a longer text that it ignores."""
    content = "x" * (size // 2)
    return edit(content, more="x" * (size - len(edit(content, more="")) + 1))


def keys_of(begin: str, key: str, size: int) -> str:
    """A line of this size: an object that begins so, as many keys as it has room for, and blanks."""
    last = '"end":0}'
    count = (size - len(begin) - len(last)) // len(key.format(0))
    return (begin + "".join(map(key.format, range(count))) + last).ljust(size) + "\n"


def refused_lines(size: int) -> Iterator[tuple[str, Exchange, Exchange]]:
    """For each refused line its name, it with its reply, and an exchange of the same length that isn't refused."""
    content, title, path = "x" * CONTENT, "x" * TITLE, "/?".ljust(PATH, "x")
    front, text = shown("", "T"), Exchange(text_of(size), "ok\n")
    yield "a content too long by 1", Exchange(edit(content + "x"), LARGE), Exchange(edit(content, "x"), "ok\n")
    yield "a title too long by 1", Exchange(edit("", title + "x"), LARGE), Exchange(edit("x", title), "ok\n")
    yield "a path too long by 1", Exchange(line("get", path=path + "x", more=""), LARGE), get(path, front, more="x")
    yield "`[` to the end; a text", Exchange("[" * size + "\n", BAD), text
    for name, key in (("`a`", '"a":0,'), ("that differ", '"a{:06}":0,')):
        refused = Exchange(keys_of("{", key, size), BAD)
        request = Exchange(keys_of('{"cmd":"get","path":"/",', key, size), get("/", front).replies)
        yield f"keys {name}; a text", refused, text
        yield f"keys {name}; a `get` that ignores them", refused, request


CASES: dict[str, Callable[[Bench], Iterator[Row]]] = {
    "serve": serve,
    "tables": tables,
    "queries": queries,
    "import": imports_and_templates,
    "scan": scan,
    "hooks": hooks,
    "turns": turns,
    "hostile": hostile,
}
