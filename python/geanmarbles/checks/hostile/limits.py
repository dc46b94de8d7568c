"""Runs under limits on the address space and on the stack, over lines that need much of either."""

import json
import re
import subprocess
import tempfile
from bisect import bisect_left
from collections import Counter
from collections.abc import Callable, Iterable, Iterator, Sequence
from functools import partial
from pathlib import Path
from typing import Any

from geanmarbles.checks.judging import Cases, must
from geanmarbles.client.exchanges import Exchange, get, put
from geanmarbles.client.program import Program
from geanmarbles.client.replies import Wrong, read_replies, shown

# A command; and checks by their names.
Keys = dict[str, Any]

SECONDS = 60
CALLS = 100_000
DATE = "2024-05-01 10:00:00"
REFUSED = b"refused 11 OutOfMemory\n"
NO_SUCH_PAGE = b"refused 14 NoSuchPage\n"
OUT_OF_MEMORY = (1, b"site: out of memory\n")
DONE = (0, b"")
# How many limits on memory are tried, and the size of a page, in kilobytes.
STEPS = 64
PAGE = 4
# The kernel places a stack at random, so what a program needs to start differs from run to run by some pages: a limit
# lets it start if it does so this many times. The pages that its stack grows by count too, and if there is none the
# system itself ends the program; so the first limit tried is larger by this many kilobytes.
STARTS = 8
SLACK = 64
# Limits on the stack, in kilobytes: the usual one, and smaller ones, in memory and with a file.
STACKS = (8_192, 1_024, 320)
STACKS_WITH_A_FILE = (8_192, 512)
# More turns than any page has.
ALL_TURNS = 1_000_000
# No limit is needed beyond this one, in kilobytes.
AMPLE = 4 * 1_048_576
# How many lines ask for a page of some bytes, and how many kilobytes their pages may take: the program keeps 4 MiB.
ASKED, PAGE_BYTES, KEPT = 2_000, 16_000, 6_144
# How many posts of some bytes are asked for, and how many kilobytes more that may take than to ask for one of them: the
# program keeps 16 MiB of posts, 4 MiB of what paths found and 4 MiB of pages.
POSTS, POST_BYTES, KEPT_POSTS = 1_000, 60_000, 24_576


def post(number: int, title: str = "", content: str = "") -> Keys:
    return {"id": number, "kind": "post", "status": "publish", "title": title, "content": content, "date": DATE}


def begin(path: str) -> Keys:
    return {"cmd": "begin", "path": path}


def turns(page: int, count: int) -> Keys:
    return {"cmd": "turns", "page": page, "count": count}


def hungry() -> Iterator[Keys]:
    """Commands that need much memory, of every kind, some of them while pages are open. Page 4 is left open."""
    texts = ["t" * 64] * 4_000
    loop = [{"loop": [{"tag": "the_title"}, {"tag": "the_content"}, *texts]}]
    yield {"cmd": "get", "path": "/"}
    yield from ({"cmd": "activate", "plugin": plugin} for plugin in ("bold", "deep", "atts", "note"))
    yield {"cmd": "put", "title": "d" * 32, "content": "[i]a[b]c[/b][/i]", "date": DATE}
    yield begin("/?p=1")
    yield turns(1, 33)
    yield {"cmd": "put", "title": "t" * 65_536, "content": "[b]x[/b]" * 65_536, "date": DATE}
    yield {"cmd": "get", "path": "/?p=2"}
    yield begin("/?p=2")
    yield turns(2, 30_000)
    yield {"cmd": "edit", "id": 2, "content": "[show a='1' b]" * 20_000}
    yield {"cmd": "get", "path": "/?p=2"}
    yield begin("/?p=2")
    yield {"cmd": "edit", "id": 2, "content": "[" * 524_288}
    yield {"cmd": "import", "site": {"version": 1, "posts": [post(it, "d" * 8, "[b]") for it in range(10, 3_000)]}}
    yield {"cmd": "import", "site": {"version": 1, "options": {"posts_per_page": "100"}, "templates": {"home": loop}}}
    yield {"cmd": "get", "path": "/"}
    yield begin("/")
    yield turns(4, 500)
    yield {"cmd": "option", "name": "blogname", "value": "&" * 65_536}
    yield turns(2, ALL_TURNS)
    yield {"cmd": "template", "name": "single", "body": [{"tag": "site_name"}] * 100}
    yield {"cmd": "get", "path": "/?p=10"}
    yield turns(3, ALL_TURNS)
    yield {"cmd": "delete", "id": 2}
    yield {"cmd": "deactivate", "plugin": "deep"}
    yield turns(1, 36)
    yield turns(1, 1)
    yield {"cmd": "get", "path": "/?paged=2"}
    yield turns(4, 1)


def deep() -> Iterator[str]:
    """Lines that nest, and pages that go, as deep as they may, some left open, and lines of the maximum length."""
    arrays, objects = "[" * 126 + "]" * 126, '{"a":' * 125 + "{}" + "}" * 125
    for nested in (arrays, objects):
        yield f'{{"cmd":"get","path":"/","more":{nested}}}'
        yield f'{{"cmd":"import","site":{nested}}}'
        yield f'{{"cmd":"import","site":{{"version":1,"options":{nested[1:-1]}}}}}' if nested is arrays else "{}"
        yield f'{{"cmd":"template","name":"home","body":{nested}}}'
        yield f'{{"cmd":"get","path":{nested}'
    yield "[" * 1_048_576
    yield '{"a":' * 200_000
    yield '{"cmd":"put","title":"' + "\\u0041" * 65_536 + '","content":"' + "\\\\" * 300_000 + f'","date":"{DATE}"}}'
    for plugin in ("args", "atts", "bold", "deep", "grow", "marks", "nest", "note", "once", "tagmark"):
        yield json.dumps({"cmd": "activate", "plugin": plugin})
    yield json.dumps({"cmd": "put", "title": "d" * 32, "content": "[i][ask][ping][note]" * 500, "date": DATE})
    yield json.dumps({"cmd": "put", "title": "x", "content": "[[[b" * 100_000, "date": DATE})
    yield json.dumps({"cmd": "put", "title": "spin", "content": "[show " + "a='1' \"" * 70_000 + "]", "date": DATE})
    yield from (json.dumps({"cmd": "get", "path": f"/?p={number}"}) for number in range(1, 5))
    for page in (1, 2, 3):
        yield json.dumps(begin(f"/?p={page + 1}"))
        yield json.dumps(turns(page, 5))
    for plugin in ("args", "grow", "marks", "nest", "once"):
        yield json.dumps({"cmd": "deactivate", "plugin": plugin})
    yield from (json.dumps({"cmd": "get", "path": f"/?p={number}"}) for number in range(1, 5))
    # The title of post 2 is 32 levels deep after 33 calls, and that of post 4 has no end.
    for page, number in ((4, 2), (5, 4)):
        yield json.dumps(begin(f"/?p={number}"))
        yield json.dumps(turns(page, 33))
    yield json.dumps(turns(1, ALL_TURNS))
    yield json.dumps({"cmd": "get", "path": "/?" + "p&" * 4_095})
    yield json.dumps({"cmd": "import", "site": {"version": 1, "posts": [post(it) for it in range(10, 8_000)]}})
    yield json.dumps({"cmd": "template", "name": "home", "body": [{"loop": [{"part": "header"}] * 4_090}]})
    yield json.dumps({"cmd": "get", "path": "/?paged=800"})


def run(program: str, lines: Iterable[bytes], limit: str = "", *more: str) -> tuple[tuple[int, bytes], bytes]:
    """A run over some lines, by a shell that sets a limit first; nothing of the environment counts."""
    words = ["sh", "-c", f'{limit} exec "$@"', "sh", program, "--calls", str(CALLS), *more]
    given = b"".join(line + b"\n" for line in lines)
    nothing: dict[str, str] = {}
    ran = subprocess.run(words, input=given, capture_output=True, env=nothing, timeout=SECONDS)
    return (ran.returncode, ran.stderr), ran.stdout


def whole(program: str, lines: Sequence[bytes], limit: str = "", *more: str) -> list[bytes]:
    """The replies to all lines."""
    end, output = run(program, lines, limit, *more)
    replies, rest = read_replies(output)
    if end != DONE or rest or len(replies) != len(lines):
        raise Wrong(f"it ended with status {end[0]} and {shown(end[1])} after {len(replies)} of {len(lines)} replies")
    return replies


def smallest(works: Callable[[int], bool], low: int, high: int, step: int) -> int:
    """The smallest limit that works, to a step, between one that doesn't and one that does."""
    too_small = bisect_left(range(low + step, high, step), True, key=works)
    return min(low + (too_small + 1) * step, high)


class Memory:
    """Runs under limits on the address space."""

    def __init__(self, program: str) -> None:
        self.program = program
        self.commands = list(hungry())
        self.lines = [json.dumps(command).encode() for command in self.commands]
        self.without: dict[tuple[frozenset[int], frozenset[int]], list[bytes]] = {}
        self.begins = 0
        self.ends: int | None = None
        self.came: Counter[str] = Counter()

    def measure(self) -> None:
        """The smallest limits with which the program serves no line, and all of them."""
        every = b"".join(self.replies_without(frozenset()))

        def begins(kilobytes: int) -> bool:
            limit = f"ulimit -v {kilobytes};"
            return all(run(self.program, [], limit) == (DONE, b"") for _ in range(STARTS))

        def ends(kilobytes: int) -> bool:
            end, output = run(self.program, self.lines, f"ulimit -v {kilobytes};")
            return end == DONE and output == every

        self.begins = smallest(begins, 0, AMPLE, PAGE)
        self.ends = smallest(ends, self.begins - PAGE, AMPLE, PAGE)
        print(f"memory: {self.begins} KB for no line, {self.ends} KB for the whole list of {len(self.lines)}")

    def replies_without(self, places: frozenset[int], closing: frozenset[int] = frozenset()) -> list[bytes]:
        """The replies to the lines that aren't at these places, if turns at some of them have closed their pages."""
        if (places, closing) not in self.without:
            lines = list(self.lines)
            for at in closing:
                lines[at] = json.dumps({**self.commands[at], "count": ALL_TURNS}).encode()
            kept = [at for at in range(len(lines)) if at in closing or at not in places]
            replies = zip(kept, whole(self.program, [lines[at] for at in kept]))
            self.without[places, closing] = [reply for at, reply in replies if at not in places]
        return self.without[places, closing]

    def closer(self, at: int, reply: bytes, places: frozenset[int]) -> int | None:
        """If a reply tells that a page is closed, the last of these places before it at which the page had turns."""
        command = self.commands[at]
        page = command.get("page") if reply == NO_SUCH_PAGE else None
        if command["cmd"] == "begin" and reply.startswith(b"ok "):
            page = int(reply[3:])
        before = [it for it in places if it < at and page and self.commands[it].get("page") == page]
        return max(before, default=None)

    def expected(self, replies: Sequence[bytes], places: frozenset[int]) -> tuple[list[bytes], frozenset[int]]:
        """The replies to the lines that aren't at these places, and at which of them turns have closed their page."""
        closing: frozenset[int] = frozenset()
        while True:
            wanted = self.replies_without(places, closing)
            kept = [at for at in range(len(replies)) if at not in places]
            other = next((at for at, reply in zip(kept, wanted) if replies[at] != reply), None)
            closer = None if other is None else self.closer(other, replies[other], places - closing)
            if closer is None:
                return wanted, closing
            closing |= {closer}

    def judge(self, step: int) -> None:
        """A run under a limit between those two: its replies, and how it ends."""
        if self.ends is None:
            raise Wrong("the limits couldn't be measured")
        kilobytes = self.begins + SLACK + (self.ends - self.begins) * step // STEPS
        end, output = run(self.program, self.lines, f"ulimit -v {kilobytes};")
        replies, rest = read_replies(output)
        where = f"at {kilobytes} KB, after {len(replies)} replies,"
        if rest:
            raise Wrong(f"{where} there is no whole reply: {shown(rest)}")
        if end not in (DONE, OUT_OF_MEMORY) or (end == DONE) != (len(replies) == len(self.lines)):
            raise Wrong(f"{where} it ended with status {end[0]} and {shown(end[1])}")
        places = frozenset(at for at, reply in enumerate(replies) if reply == REFUSED)
        kept = [reply for reply in replies if reply != REFUSED]
        others, closing = self.expected(replies, places)
        for reply, wanted in zip(kept, others):
            if reply != wanted:
                raise Wrong(f"{where} one is {shown(reply)}, wanted {shown(wanted)}")
        kind = "ended" if end != DONE else "refused lines" if places else "were as without a limit"
        self.came[f"runs {kind}"] += 1
        self.came["lines refused"] += len(places)
        self.came["pages closed by that"] += len(closing)

    def tell(self) -> None:
        """Says what came of the limits that were tried."""
        print(f"memory: {STEPS} limits: " + ", ".join(f"{count} {what}" for what, count in sorted(self.came.items())))


class Stack:
    """Runs under limits on the stack."""

    def __init__(self, program: str) -> None:
        self.program = program
        self.lines = [line.encode() for line in deep()]
        self.replies: list[bytes] = []

    def measure(self) -> None:
        """The smallest limit with which all replies are those without a limit."""
        self.replies = whole(self.program, self.lines, "ulimit -s unlimited;")

        def works(kilobytes: int) -> bool:
            end, output = run(self.program, self.lines, f"ulimit -s {kilobytes};")
            return end == DONE and output == b"".join(self.replies)

        needed = smallest(works, 0, STACKS[0], PAGE)
        print(f"stack: {needed} KB for a list of {len(self.lines)} lines as deep as they may be")

    def judge(self, kilobytes: int, *more: str) -> None:
        replies = whole(self.program, self.lines, f"ulimit -s {kilobytes};", *more)
        if replies != self.replies:
            raise Wrong("the replies are others than without a limit")

    def judge_with_a_file(self, kilobytes: int) -> None:
        with tempfile.TemporaryDirectory() as folder:
            self.judge(kilobytes, "--database", f"{folder}/site.db")


def peak_after(program: str, puts: Iterable[Exchange], gets: Iterable[Exchange]) -> int:
    """Peak memory of a program, in kilobytes, after these posts were stored and these pages asked for."""
    with Program(program) as site:
        for asked in (*puts, *gets):
            site.ask(asked.lines.encode().strip())
        status = Path(f"/proc/{site.child.pid}/status").read_text(encoding="ascii")
    found = re.search(r"^VmHWM:\s+(\d+) kB$", status, re.M)
    return int(found[1]) if found else 0


def keeps_few_pages(program: str) -> None:
    """Pages by many lines take little more memory than one page by one line."""
    stored = [put(1, "x" * PAGE_BYTES)]
    one, many = (
        peak_after(program, stored, (get("/?p=1", n=it) for it in numbers)) for numbers in ([0] * ASKED, range(ASKED))
    )
    must(0 < one <= many < one + KEPT, f"{many - one} kB are kept of {ASKED * PAGE_BYTES // 1_024} kB")


def keeps_few_posts(program: str) -> None:
    """Pages of many posts take little more memory than as many of one post."""
    stored = [put(it, "x" * POST_BYTES) for it in range(1, POSTS + 1)]
    one, many = (
        peak_after(program, stored, (get(f"/?p={it}", n=at) for at, it in enumerate(numbers)))
        for numbers in ([1] * POSTS, range(1, POSTS + 1))
    )
    must(0 < one <= many < one + KEPT_POSTS, f"{many - one} kB are kept of {POSTS * POST_BYTES // 1_024} kB")


def cases(program: str) -> Cases:
    """Each run by its name, with what judges it."""
    yield "pages that are kept", partial(keeps_few_pages, program)
    yield "posts that are kept", partial(keeps_few_posts, program)
    stack = Stack(program)
    yield "the smallest stack", stack.measure
    for kilobytes in STACKS:
        yield f"a stack of {kilobytes} KB", partial(stack.judge, kilobytes)
    for kilobytes in STACKS_WITH_A_FILE:
        yield f"a stack of {kilobytes} KB, with a file", partial(stack.judge_with_a_file, kilobytes)
    memory = Memory(program)
    yield "the smallest memory", memory.measure
    for step in range(STEPS):
        yield f"memory, step {step} of {STEPS}", partial(memory.judge, step)
    memory.tell()
