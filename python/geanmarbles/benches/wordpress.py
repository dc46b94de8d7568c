"""Times the program beside WordPress's own functions, doing the same work on the same machine in the same run.

    geanmarbles dev bench wordpress [--wordpress DIR] [--smoke] [PROGRAM]

DIR is the folder with WordPress's wp-includes; if it is left out, /usr/share/wordpress. PHP's command `php` with its
opcache and a WordPress are needed, of Debian for instance the packages `php-cli`, `php-opcache` and `wordpress`. This
script installs nothing:

    apt-get install php-cli php-opcache; apt-get download wordpress; dpkg -x wordpress_*.deb FOLDER
    geanmarbles dev bench wordpress --wordpress FOLDER/usr/share/wordpress

All are asked by the same lines of JSON over a pipe, in turn: the program; PHP without its opcode cache, with opcache
and its tracing JIT, and with a page cache; and a loop that makes no page, so that the pipe's share is known. Pages are
timed by the clock, from the line to the last byte of the reply, each by a line of its own; a table has what each takes
of a processor, and the last one pages that the same line asks for again. If the pages differ, the row says so. The
passes over 1 to 1,000 callbacks are timed apart: those of crates/test_bench, if it is built, as bench/cases does, and a
loop within PHP.

WordPress does more for a page than what is timed here; README.md says what.
"""

import contextlib
import os
import shutil
import sys
import tempfile
from collections.abc import Callable, Iterable, Iterator, Sequence
from pathlib import Path
from typing import NamedTuple

from geanmarbles.benches.measured import Bench, parser_of
from geanmarbles.benches.piped import SECONDS, Asked, Figure, Piped, figures_of, request_of
from geanmarbles.client.exchanges import ARTICLE, CHANGE, WORDS, Exchange, activate, done, get, joined, line, put
from geanmarbles.output import quiet_output
from geanmarbles.paths import BUILT_PASSES, ROOT

HERE = ROOT / "bench" / "wordpress"
NAMES = ("Here", "WordPress's functions", "with JIT", "Page cache", "Pipe alone")
# What the first is compared with, in the columns of times: the three after it.
RATIOS = ("Times as fast", "than with JIT", "than a page cache")
PLAIN = ("php", "-d", "opcache.enable_cli=0")
# Without a size for its buffer PHP's JIT stays off, whatever else is asked for.
JIT = ("php", "-d", "opcache.enable_cli=1", "-d", "opcache.jit=tracing", "-d", "opcache.jit_buffer_size=64M")
# Edits of a post's title, which stays what it is: the page is the same, and there is no telling before it is made.
EDIT, RENAMED = (done("edit", id=1, title=it) for it in ("", "Title"))
# Why a page after a change may take longer here.
TABLES = "what the path finds is put together again, of what is kept; there posts are the items of an array"


class Page(NamedTuple):
    """A page: its row's title, the exchange that makes its site, its path, the change that comes before each request if
    one does, and what is known of why WordPress's functions are the faster ones, if they are."""

    title: str
    site: Exchange
    path: str = "/"
    change: Exchange | None = None
    why: str = ""


class Timed(NamedTuple):
    """What a page takes by each of NAMES, and the replies of the program and of WordPress's functions."""

    figures: list[Figure]
    here: bytes
    there: bytes


def readable(seconds: float) -> str:
    for unit, scale in (("s", 1), ("ms", 1e3), ("µs", 1e6)):
        if seconds * scale >= 1:
            return f"{seconds * scale:,.1f} {unit}"
    return f"{seconds * 1e9:,.0f} ns"


def ratio(there: float, here: float) -> str:
    """How many times as fast the first is, in two digits if it is the slower one."""
    times = there / here
    return f"{times:,.1f}" if times >= 0.995 else f"{times:.2g}"


def size_of(reply: bytes) -> int:
    """How many bytes the page of a reply has."""
    return int(reply.split(maxsplit=3)[2])


def print_head(title: str, *names: str) -> None:
    print(f"\n| {' | '.join([title, *names])} |\n|{'---|' * (1 + len(names))}", flush=True)


def print_row(title: str, seconds: Sequence[float], *rest: str) -> None:
    """A row of times, of how many times as fast the first is as those after it but for the pipe's, and of more."""
    ratios = [ratio(there, seconds[0]) for there in seconds[1 : 1 + len(RATIOS)]]
    print(f"| {' | '.join([title, *map(readable, seconds), *ratios, *rest])} |", flush=True)


class Comparison:
    """The programs that are compared, and what each page took of a processor so far."""

    def __init__(self, bench: Bench, wordpress: Path) -> None:
        self.seconds = 0 if bench.smoke else SECONDS
        site = (str(HERE / "site.php"), str(wordpress))
        self.plain, self.with_jit = (*PLAIN, *site), (*JIT, *site)
        self.words = (bench.words, self.plain, self.with_jit, (*self.plain, "--page-cache"))
        self.processor: list[tuple[str, list[float]]] = []

    def check_jit(self) -> None:
        """Ends the script if PHP's JIT isn't on in the programs that are to have it, or is in another."""
        for words in self.words[1:]:
            with Piped(words) as php:
                reply = php.ask(line("jit").encode().strip()).text()
            wanted = f"ok {2 if words == self.with_jit else 1}"
            if reply != wanted:
                said = "isn't on; is there opcache (Debian's php-opcache)?" if words == self.with_jit else "is on"
                sys.exit(f"{' '.join(words)}: PHP's JIT {said}")

    def timed(self, page: Page) -> Timed:
        """What a page takes by each program, of which those with WordPress's functions must make the same."""
        asked = get(page.path).lines.encode()
        change = request_of(page.change) if page.change else None
        with contextlib.ExitStack() as programs, tempfile.NamedTemporaryFile() as file:
            turns = []
            for words in self.words:
                program = programs.enter_context(Piped(words))
                program.make(page.site)
                turns.append(Asked(program, program.request(asked), change))
            here, there, *others = [it.page.reply for it in turns]
            for turn, reply in zip(turns[2:], others):
                if reply != there:
                    turn.program.fail("its page isn't the one without JIT and page cache")
            file.write(here)
            file.flush()
            pipe = programs.enter_context(Piped([*PLAIN, str(HERE / "pipe.php"), file.name]))
            turns.append(Asked(pipe, pipe.request(asked)))
            figures = figures_of(turns, self.seconds)
        return Timed(figures, here, there)

    def pages(self, title: str, cases: Iterable[Page]) -> None:
        """Prints a row for each case."""
        print_head(title, *NAMES, *RATIOS, "Remark")
        for page in cases:
            figures, here, there = self.timed(page)
            clock = [it.clock for it in figures]
            if here != there:
                note = f"the pages differ: {size_of(here):,} bytes here, {size_of(there):,} there"
            else:
                note = page.why if min(clock[1:3]) < clock[0] else ""
            print_row(page.title, clock, note)
            self.processor.append((page.title, [it.processor for it in figures]))

    def asked_again(self, cases: Iterable[Page]) -> None:
        """Prints a row for each case without a change: what the same line takes that came before."""
        print_head("A page, by the same line again", "Here", "Page cache", "Pipe alone", "than a page cache")
        for page in cases:
            if page.change:
                continue
            asked = get(page.path).lines.encode()
            with contextlib.ExitStack() as programs, tempfile.NamedTemporaryFile() as file:
                turns = []
                for words in (self.words[0], self.words[-1]):
                    program = programs.enter_context(Piped(words))
                    program.make(page.site)
                    turns.append(Asked(program, program.request(asked), again=True))
                file.write(turns[0].page.reply)
                file.flush()
                pipe = programs.enter_context(Piped([*PLAIN, str(HERE / "pipe.php"), file.name]))
                turns.append(Asked(pipe, pipe.request(asked), again=True))
                clock = [it.clock for it in figures_of(turns, self.seconds)]
            print(f"| {' | '.join([page.title, *map(readable, clock), ratio(clock[1], clock[0])])} |", flush=True)

    def print_processor(self) -> None:
        print_head("A page, by the processor", *NAMES, *RATIOS)
        for title, seconds in self.processor:
            print_row(title, seconds)


def article(count: int) -> str:
    """The content of 3 KB with this many of its 14 shortcodes; the tags of the others are words of the same length."""
    pieces = (("[b]", "[/b]") if number < count else ("or ", " too") for number in range(14))
    return "".join(f"{WORDS}{begin}word {number:02}{end} " for number, (begin, end) in enumerate(pieces))


def single_posts() -> Iterator[Page]:
    """The page of one post, which a site is asked for most."""
    small = "small: to read the line and to write the reply takes most of its time"
    yield Page("one empty post", put(1), "/?p=1", why=small)
    for count in (0, 3, 14):
        title = f"one post of {len(ARTICLE):,} bytes, {count or 'no'} shortcodes"
        yield Page(title, activate("bold") + put(1, article(count), "Title"), "/?p=1", why=small)
    site = activate("bold") + put(1, ARTICLE, "Title")
    yield Page("the same post, after a change", site, "/?p=1", CHANGE, TABLES)
    yield Page("the same post, after an edit of its title", site, "/?p=1", RENAMED, TABLES)


def lists_of_posts() -> Iterator[Page]:
    hundred = done("option", name="posts_per_page", value="100") + joined(put(it) for it in range(1, 101))
    yield Page("the front of 100 empty posts", hundred)
    yield Page("the same 100, after a change", hundred, change=CHANGE, why=TABLES)
    yield Page("the same 100, after an edit of one", hundred, change=EDIT, why=TABLES)
    yield Page("the same, `marks` active: 2 callbacks a title", activate("marks") + hundred)
    yield Page("the same, `once`: 3, one takes itself away and adds itself", activate("once") + hundred)
    yield Page("the same, `nest`: 7, a pass within the pass", activate("nest") + hundred)
    posts = activate("bold", "marks") + joined(put(it, ARTICLE, "Title") for it in range(1, 11))
    yield Page(f"ten posts of {len(ARTICLE):,} bytes, 14 shortcodes each", posts)
    yield Page("the same ten, after a change", posts, change=CHANGE, why=TABLES)
    yield Page("the same ten, after an edit of one", posts, change=RENAMED, why=TABLES)


def hostile_texts(smoke: bool) -> Iterator[Page]:
    scale = 100 if smoke else 1
    active = activate("bold", "atts")
    texts: list[tuple[str, Callable[[int], str], int]] = [
        ("`[`, {:,} times", lambda n: "[" * n, 500_000),
        ("`[b`, {:,} times", lambda n: "[b" * n, 200_000),
        ("`[b]`, {:,} times", lambda n: "[b]" * n, 9_999),
        ("`[b]`, {:,} times", lambda n: "[b]" * n, 99_999),
        ("`[b ` and {:,} `/` and `x]`", lambda n: "[b " + "/" * n + "x]", 8_000),
        ("`[b ` and {:,} `/` and `x]`", lambda n: "[b " + "/" * n + "x]", 100_000),
        ("`[b]`, {:,} `[`, `[/b]`", lambda n: "[b]" + "[" * n + "[/b]", 100_000),
        ("`[show ` and {:,} times `a `, `]`", lambda n: "[show " + "a " * n + "]", 100_000),
        ("plain text of {:,} bytes", lambda n: ("word " * n)[:n], 500_000),
    ]
    for title, text, count in texts:
        count = max(1, count // scale)
        yield Page(title.format(count), active + put(1, text(count)), "/?p=1")
    yield Page("the same text, after a change", active + put(1, text(count)), "/?p=1", CHANGE, TABLES)
    yield Page("the same text, after an edit of its title", active + put(1, text(count)), "/?p=1", EDIT, TABLES)


def bold_pages(counts: Sequence[int]) -> Iterator[Page]:
    for count in counts:
        yield Page(f"`[b]x[/b]`, {count:,} times", activate("bold") + put(1, "[b]x[/b]" * count), "/?p=1")


def passes(bench: Bench, compared: Comparison) -> None:
    print_head("A pass of a filter, callbacks that give the value back", *NAMES[:3], *RATIOS[:2], "Remark")
    with Piped(compared.plain) as plain, Piped(compared.with_jit) as with_jit:
        for spread, title in ((False, "at one priority"), (True, "each at its own priority")):
            for count in (1, 10) if bench.smoke else (1, 10, 100, 1_000):
                asked = line("pass", count=count, spread=spread).encode().strip()
                there = [int(php.ask(asked).words[1]) / 1e9 for php in (plain, with_jit)]
                seconds = [bench.costs([bench.passes(count, spread)])[0].seconds, *there]
                each = ", ".join(f"{it / count * 1e9:.0f}" for it in seconds)
                print_row(f"{count:,} callback{'s' * (count > 1)}, {title}", seconds, f"{each} ns a callback")


def compare(bench: Bench, wordpress: Path) -> None:
    compared = Comparison(bench, wordpress)
    compared.check_jit()
    compared.pages("A page of one post", single_posts())
    compared.pages("A page of many posts", lists_of_posts())
    compared.pages("A page of `[b]x[/b]`", bold_pages((100,) if bench.smoke else (100, 1_000, 10_000, 60_000)))
    compared.pages("A page of a hostile text", hostile_texts(bench.smoke))
    if os.access(BUILT_PASSES, os.X_OK):
        passes(bench, compared)
    else:
        print(f"\n{BUILT_PASSES.name} isn't built (`rt run` in its folder), so passes aren't timed.")
    compared.print_processor()
    compared.asked_again([*single_posts(), *lists_of_posts()])


@quiet_output()
def main() -> None:
    parser = parser_of(__doc__)
    parser.add_argument("--wordpress", type=Path, default=Path("/usr/share/wordpress"), metavar="DIR")
    given = parser.parse_args()
    if not shutil.which("php") or not (given.wordpress / "wp-includes" / "shortcodes.php").exists():
        wanted = "PHP's command php, and a WordPress (--wordpress DIR); Debian's php-cli, php-opcache and wordpress"
        sys.exit(f"wanted: {wanted}")
    compare(Bench(given), given.wordpress)
