"""What must hold of the replies to any list of lines, and of those to lists that are made from it."""

import subprocess
from collections.abc import Callable, Iterable, Sequence
from pathlib import Path

from geanmarbles.checks.fuzz.lines import BY_TURNS, PLUGINS
from geanmarbles.checks.fuzz.sites import Stored, bared, line_of
from geanmarbles.checks.fuzz.values import Keys, Unreadable, command_of, read, rewritten
from geanmarbles.client.replies import Wrong, read_replies, refusal_of, shown

SECONDS = 60
CALLS = 1_000
# The replies that each command can have: what one begins with if it is done, and its refusals.
REPLIES: dict[str, tuple[bytes | tuple[bytes, ...], set[int]]] = {
    "import": (b"ok\n", {1, 2, 4, 5, 6, 7, 8}),
    "put": (b"ok ", {1, 5, 8, 13}),
    "edit": (b"ok\n", {1, 3, 5, 8}),
    "delete": (b"ok\n", {1, 3}),
    "option": (b"ok\n", {1, 8}),
    "activate": (b"ok\n", {1, 6}),
    "deactivate": (b"ok\n", {1, 6}),
    "template": (b"ok\n", {1, 7, 8}),
    "get": (b"page ", {1, 8, 9, 10}),
    "begin": (b"ok ", {1, 8, 15}),
    "turns": ((b"ok\n", b"page "), {1, 9, 10, 14}),
}
OK = b"ok\n"


def check_form(line: bytes, reply: bytes) -> None:
    """A line has a reply that its command can have, and that of no command if no reader of JSON reads it."""
    try:
        read(line)
    except Unreadable:
        if refusal_of(reply) != 1:
            raise Wrong(f"{shown(line)} is no JSON, and its reply is {shown(reply)}") from None
    kind = command_of(line).get("cmd")
    nothing: tuple[bytes | tuple[bytes, ...], set[int]] = ((), {1})
    done, refusals = REPLIES.get(kind, nothing) if isinstance(kind, str) else nothing
    number = refusal_of(reply)
    if not (number in refusals if number else reply.startswith(done)):
        raise Wrong(f"{shown(line)} has the reply {shown(reply)}")


class Program:
    """Runs of a program, whose replies are looked at line by line."""

    def __init__(self, path: str) -> None:
        self.path = path

    def replies(
        self, lines: Sequence[bytes], calls: int = CALLS, cache: int | None = None, file: Path | None = None
    ) -> list[bytes]:
        """The replies to some lines, one for each, by a site in memory or in a file."""
        words = ["--calls", str(calls), *(["--cache", str(cache)] if cache else [])]
        output = self.output(lines, *words, *(["--database", str(file)] if file else []))
        replies, rest = read_replies(output)
        if rest or len(replies) != len(lines):
            raise Wrong(f"{len(lines)} lines have {len(replies)} replies, and {len(rest)} bytes after them")
        return replies

    def compact(self, file: Path) -> None:
        """Shortens the history in a file."""
        output = self.output([], "--database", str(file), "--compact")
        if output:
            raise Wrong(f"--compact writes {shown(output)}")

    def output(self, lines: Iterable[bytes], *words: str) -> bytes:
        """What a run over some lines writes, which has to end well."""
        given = b"".join(line + b"\n" for line in lines)
        try:
            run = subprocess.run([self.path, *words], input=given, capture_output=True, timeout=SECONDS)
        except subprocess.TimeoutExpired:
            raise Wrong(f"it had not ended after {SECONDS} seconds") from None
        if run.returncode or run.stderr:
            raise Wrong(f"it ended with status {run.returncode} and says {shown(run.stderr)}")
        return run.stdout


def same(lines: Iterable[bytes], replies: Iterable[bytes], others: Iterable[bytes], what: str) -> None:
    """The replies to some lines are these others."""
    for line, reply, other in zip(lines, replies, others, strict=True):
        if reply != other:
            raise Wrong(f"the reply to {shown(line)} is {shown(reply)}, but {what} {shown(other)}")


def is_by_turns(line: bytes) -> bool:
    return command_of(line).get("cmd") in BY_TURNS


def at_once(lines: Iterable[bytes], replies: Iterable[bytes]) -> tuple[list[bytes], list[bytes]]:
    """The lines that neither begin a page nor give turns, and their replies."""
    kept = [pair for pair in zip(lines, replies, strict=True) if not is_by_turns(pair[0])]
    return [line for line, _ in kept], [reply for _, reply in kept]


def left_out(
    program: Program,
    lines: Sequence[bytes],
    replies: Sequence[bytes],
    is_left_out: Callable[[bytes, bytes], object],
    what: str,
) -> None:
    """Without some of the lines, the replies to the others are the same."""
    kept = [pair for pair in zip(lines, replies) if not is_left_out(*pair)]
    if len(kept) < len(lines):
        rest = [line for line, _ in kept]
        same(rest, [reply for _, reply in kept], program.replies(rest), what)


def forms(program: Program, lines: Sequence[bytes], replies: Sequence[bytes]) -> None:
    """Each reply is one that its command can have, IDs are those that are told, and a page's bytes are UTF-8."""
    Stored().after(lines, replies)
    for line, reply in zip(lines, replies):
        check_form(line, reply)
        try:
            reply.decode()
        except UnicodeDecodeError:
            raise Wrong(f"the page of {shown(line)} is no UTF-8: {shown(reply)}") from None


def halves(program: Program, lines: Sequence[bytes], replies: Sequence[bytes]) -> None:
    """The first half alone has the same replies, and so has the second after an import of what the first leaves.

    An import brings no open pages, so what pages by turns have in the second half isn't compared."""
    half = len(lines) // 2
    same(lines[:half], replies[:half], program.replies(lines[:half]), "without what follows")
    begun = Stored().after(lines[:half], replies[:half]).lines()
    second, wanted = at_once(lines[half:], replies[half:])
    again = program.replies(begun + second)
    same(begun, again[: len(begun)], [OK] * len(begun), "it imports what was stored, so wanted is")
    same(second, wanted, again[len(begun) :], "after an import of the site")


def refused(program: Program, lines: Sequence[bytes], replies: Sequence[bytes]) -> None:
    """A refused line has no effect, but that a page by turns which is refused is closed."""

    def is_left_out(line: bytes, reply: bytes) -> object:
        closes = command_of(line).get("cmd") == "turns" and refusal_of(reply) in (9, 10)
        return refusal_of(reply) and not closes

    left_out(program, lines, replies, is_left_out, "without the refused lines")


def pages(program: Program, lines: Sequence[bytes], replies: Sequence[bytes]) -> None:
    """Pages change nothing: the last one is the same without all others, and so are the other replies."""
    gets = [at for at, line in enumerate(lines) if command_of(line).get("cmd") == "get"]
    places = iter(range(len(lines)))
    left_out(program, lines, replies, lambda *_: next(places) in gets[:-1], "without the pages before")


def caches(program: Program, lines: Sequence[bytes], replies: Sequence[bytes]) -> None:
    """How many scanned texts are kept changes no reply."""
    for cache in (1, 4_096):
        same(lines, replies, program.replies(lines, cache=cache), f"with --cache {cache}")


def calls(program: Program, lines: Sequence[bytes], replies: Sequence[bytes]) -> None:
    """With fewer calls a page is the same or has too few of them."""
    lines, replies = at_once(lines, replies)
    for fewer in (CALLS // 50, 1):
        less = program.replies(lines, calls=fewer)
        kept = [other if refusal_of(other) == 9 else reply for reply, other in zip(replies, less)]
        same(lines, kept, less, f"with --calls {fewer}")
    for line, reply, other in zip(lines, replies, program.replies(lines, calls=3 * CALLS)):
        if refusal_of(reply) != 9 and reply != other:
            raise Wrong(f"the reply to {shown(line)} is {shown(reply)}, but with more calls {shown(other)}")


def values(program: Program, lines: Sequence[bytes], replies: Sequence[bytes]) -> None:
    """Another writing of the same JSON has the same replies."""
    same(lines, replies, program.replies([rewritten(line) for line in lines]), "written otherwise")


def toggles(program: Program, lines: Sequence[bytes], replies: Sequence[bytes]) -> None:
    """A page is the same when asked for again, by the same line or another, also if a plugin was turned off and on, or
    on and off, meanwhile."""
    stored = Stored().after(lines, replies)
    asked = [line for line in lines if command_of(line).get("cmd") == "get"][-2:]
    asked += [line_of(cmd="get", path=path) for path in ("/", "/?p=1", "/?page_id=2")]
    rounds = [asked, [line + b" " for line in asked]]
    for plugin in PLUGINS:
        there, back = stored.toggled(plugin)
        rounds.append([there, *asked, back, *asked])
    got = program.replies([*lines, *asked, *(line for it in rounds for line in it)])[len(lines) :]
    first, got = got[: len(asked)], got[len(asked) :]
    for it in rounds:
        again, got = got[: len(it)], got[len(it) :]
        same(asked, first, again[-len(asked) :], f"once more, after {shown(it[0])},")


def bare_page(post: Keys | None) -> bytes:
    """The reply with a post's page, or that none was found, without plugins and templates."""
    status, body = 404, "<p>Nothing found.</p>"
    if post:
        status, body = 200, f"<h2>{post['title']}</h2>{post['content'].replace(']]>', ']]&gt;')}"
    return f"page {status} {len(body.encode())}\n{body}\n".encode()


def posts(program: Program, lines: Sequence[bytes], replies: Sequence[bytes]) -> None:
    """Without plugins and templates each page shows the post that the replies tell of, and there is no other post."""
    stored = Stored().after(lines, replies)
    ids = sorted({*stored.posts, *range(1, min(stored.largest + 3, 30))})
    begun = [*lines, *bared(ids)]
    paths = ["/?" + ("page_id" if stored.posts.get(it, {}).get("kind") == "page" else "p") + f"={it}" for it in ids]
    gets = [line_of(cmd="get", path=path) for path in paths]
    got = program.replies(begun + gets)
    edits = [b"ok\n" if it in stored.posts else b"refused 3 NoSuchPost\n" for it in ids]
    same(begun[-len(ids) :], got[len(begun) - len(ids) : len(begun)], edits, "the replies before tell")
    same(gets, got[len(begun) :], [bare_page(stored.posts.get(it)) for it in ids], "the replies before tell")


# A check of the replies to some lines: it raises Wrong.
Check = Callable[[Program, Sequence[bytes], Sequence[bytes]], None]
CHECKS: tuple[Check, ...] = (forms, halves, refused, pages, caches, calls, values, toggles, posts)
