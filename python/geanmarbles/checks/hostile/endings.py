"""Runs with ends that are closed, full or of the wrong kind, and runs that a signal ends, also with pages left open."""

import contextlib
import fcntl
import json
import os
import random
import resource
import signal
import subprocess
import tempfile
import time
from functools import partial
from typing import Any, NamedTuple

from geanmarbles.checks.judging import Cases
from geanmarbles.client.program import pipe
from geanmarbles.client.replies import Wrong, read_replies, shown

# How a run ended: its status, and what it says on standard error; and checks by their names.
End = tuple[int, bytes]

SECONDS = 60
LINE = b"{}\n"
REPLY = b"refused 1 BadCommand\n"
LONG_LINE = b" " * 1_048_577
READ_FAILED = (1, b"site: read failed\n")
WRITE_FAILED = (1, b"site: write failed\n")
TOO_MUCH_INPUT = (1, b"site: too much input\n")
# What a shell makes of the ends, the input, what must be written, and the status and line on standard error.
ENDS = [
    ("the input ends", "", LINE, REPLY, (0, b"")),
    ("a line is too long", "", LINE + LONG_LINE, REPLY, TOO_MUCH_INPUT),
    ("standard input is closed", "<&-", b"", b"", READ_FAILED),
    ("standard input is a folder", "</", b"", b"", READ_FAILED),
    ("standard input can only be written", "0>/dev/null", b"", b"", READ_FAILED),
    ("standard input is an endless line", "</dev/zero", b"", b"", TOO_MUCH_INPUT),
    ("standard output is closed", ">&-", LINE, b"", WRITE_FAILED),
    ("standard output is closed, and nothing is to be written", ">&-", b"", b"", (0, b"")),
    ("standard output can only be read", "1</dev/null", LINE, b"", WRITE_FAILED),
    ("standard error is closed, and nothing is to be said", "2>&-", LINE, REPLY, (0, b"")),
    ("standard error is closed", "2>&-", LINE + LONG_LINE, REPLY, (1, b"")),
    ("standard error is full", "2>/dev/full", LINE + LONG_LINE, REPLY, (1, b"")),
    ("all three are closed", "<&- >&- 2>&-", b"", b"", (1, b"")),
]
# A page of this many bytes, more than any pipe holds.
CONTENT = "x" * 524_288
PUT = json.dumps({"cmd": "put", "content": CONTENT, "date": "2024-05-01 10:00:00"}).encode() + b"\n"
PAGE = b"page 200 524297\n<h2></h2>" + CONTENT.encode() + b"\n"
# Where a reader goes away: before the page, in its first line, after that, in its bytes, and at its end.
LEAVES = (0, 5, 16, 17, 100_000, len(PAGE) - 1, len(PAGE))
POSTS = 8_000


class Site(NamedTuple):
    """A site that some lines have made, in which pages may be open."""

    name: str
    lines: bytes
    replies: bytes
    # The reply to PUT.
    put: bytes
    # How the front is asked for, and what comes before its page.
    ask: bytes
    asked: bytes
    # What gives the open pages all their turns, and the pages.
    ends: bytes
    ended: bytes


GET = b'{"cmd":"get","path":"/"}\n'
EMPTY = Site(name="", lines=b"", replies=b"", put=b"ok 1\n", ask=GET, asked=b"", ends=b"", ended=b"")
# Page 1 has had one turn of its four, and page 2 none. The post and the plugin that both show are gone from the site.
OPEN = Site(
    name=", with pages left open",
    lines=b"""{"cmd":"activate","plugin":"marks"}
{"cmd":"put","title":"T","date":"2024-05-01 10:00:00"}
{"cmd":"begin","path":"/?p=1"}
{"cmd":"turns","page":1,"count":1}
{"cmd":"begin","path":"/"}
{"cmd":"deactivate","plugin":"marks"}
{"cmd":"delete","id":1}
""",
    replies=b"ok\nok 1\nok 1\nok\nok 2\nok\nok\n",
    put=b"ok 2\n",
    ask=b'{"cmd":"begin","path":"/"}\n{"cmd":"turns","page":3,"count":2}\n',
    asked=b"ok 3\n",
    ends=b'{"cmd":"turns","page":2,"count":4}\n{"cmd":"turns","page":1,"count":3}\n',
    ended=b"page 200 13\n<h2>TX1Y</h2>\n" * 2,
)
# Pages that are begun and ended again and again, which takes some milliseconds, and less than a pipe holds.
BUSY = (OPEN.ask * 1_000, (OPEN.asked + b"page 200 21\n<p>Nothing found.</p>\n") * 1_000)


def check_end(ended: End, end: End) -> None:
    if ended != end:
        raise Wrong(f"it ended with status {ended[0]} and {shown(ended[1])}, wanted {end[0]} and {end[1]!r}")


def check_output(output: bytes, wanted: bytes) -> None:
    if output != wanted:
        raise Wrong(f"it wrote {shown(output)}, wanted {shown(wanted)}")


def check_part(output: bytes, whole: bytes) -> None:
    """What was written is a prefix of all replies."""
    if not whole.startswith(output):
        raise Wrong(f"it wrote {shown(output)}, wanted a prefix of {shown(whole)}")


def redirected(program: str, site: Site, words: str, given: bytes, output: bytes, end: End) -> None:
    """A run whose ends a shell turns to something else."""
    shell = ["sh", "-c", f'exec "$0" {words}', program]
    run = subprocess.run(shell, input=site.lines + given, capture_output=True, timeout=SECONDS)
    check_output(run.stdout, site.replies + output)
    check_end((run.returncode, run.stderr), end)


def started(program: str, output: Any = subprocess.PIPE, **how: Any) -> subprocess.Popen[bytes]:
    return subprocess.Popen([program], stdin=subprocess.PIPE, stdout=output, stderr=subprocess.PIPE, **how)


def finished(child: subprocess.Popen[bytes]) -> End:
    """How a child ended, whose output is read elsewhere."""
    try:
        status = child.wait(SECONDS)
    except subprocess.TimeoutExpired:
        child.kill()
        child.wait()
        raise
    return status, pipe(child.stderr).read()


def feed(child: subprocess.Popen[bytes], given: bytes) -> None:
    """Writes the input, as far as it is read."""
    with contextlib.suppress(BrokenPipeError):
        pipe(child.stdin).write(given)
        pipe(child.stdin).close()


def reader_leaves(program: str, site: Site, after: int) -> None:
    """The reader goes away after some bytes of a page, and there is more to be written than a pipe holds."""
    before = site.replies + site.put + site.asked
    whole = before + PAGE + (site.asked + PAGE) * 2
    reader, writer = os.pipe()
    child = started(program, writer)
    os.close(writer)
    with open(reader, "rb") as output:
        pipe(child.stdin).write(site.lines + PUT + site.ask * 3)
        pipe(child.stdin).flush()
        got = output.read(len(before) + after)
    check_part(got, whole)
    feed(child, site.ask)
    check_end(finished(child), WRITE_FAILED)


def reader_left_before(program: str, site: Site) -> None:
    """The reader goes away while the program waits for a line: the next reply finds that out."""
    child = started(program)
    pipe(child.stdin).write(site.lines + LINE)
    pipe(child.stdin).flush()
    output = site.replies + REPLY
    check_output(pipe(child.stdout).read(len(output)), output)
    pipe(child.stdout).close()
    feed(child, site.ends or LINE)
    check_end(finished(child), WRITE_FAILED)


def input_in_the_way(program: str, site: Site) -> None:
    """Standard input that doesn't wait: a read that finds nothing yet has failed."""
    reader, writer = os.pipe()
    fcntl.fcntl(reader, fcntl.F_SETFL, os.O_NONBLOCK)
    os.write(writer, site.lines + LINE * 2 + LINE[:1])
    run = subprocess.run([program], stdin=reader, capture_output=True, timeout=SECONDS)
    os.close(reader)
    os.close(writer)
    check_output(run.stdout, site.replies + REPLY * 2)
    check_end((run.returncode, run.stderr), READ_FAILED)


def output_in_the_way(program: str, site: Site) -> None:
    """Standard output that doesn't wait: a write that finds no room has failed."""
    reader, writer = os.pipe()
    fcntl.fcntl(writer, fcntl.F_SETFL, os.O_NONBLOCK)
    child = started(program, writer)
    os.close(writer)
    feed(child, site.lines + PUT + site.ask)
    check_end(finished(child), WRITE_FAILED)
    with open(reader, "rb") as output:
        check_part(output.read(), site.replies + site.put + site.asked + PAGE)


def file_is_full(program: str, site: Site, is_told: bool) -> None:
    """A file that may grow to 1,000 bytes: the system ends the program, or a write fails if the signal is ignored."""

    def limit() -> None:
        resource.setrlimit(resource.RLIMIT_FSIZE, (1_000, 1_000))

    with tempfile.TemporaryFile() as file:
        # Python ignores the signal, and restores it in a child if it is told to.
        child = started(program, file, restore_signals=not is_told, preexec_fn=limit)
        feed(child, site.lines + LINE * 100)
        check_end(finished(child), WRITE_FAILED if is_told else (-signal.SIGXFSZ, b""))
        file.seek(0)
        check_output(file.read(), (site.replies + REPLY * 100)[:1_000])


def noise(program: str, site: Site) -> None:
    """Random bytes: each line is refused, and no open page is another."""
    given = random.Random(1).randbytes(3_000_000) + b"\n"
    run = subprocess.run([program], input=site.lines + given + site.ends, capture_output=True, timeout=SECONDS)
    check_output(run.stdout, site.replies + REPLY * given.count(b"\n") + site.ended)
    check_end((run.returncode, run.stderr), (0, b""))


def slow_reader(program: str, site: Site) -> None:
    """A reader that takes little at a time gets every byte."""
    child = started(program)
    feed(child, site.lines + PUT + site.ask + site.ends)
    parts = []
    while part := os.read(pipe(child.stdout).fileno(), 4_000):
        parts.append(part)
        time.sleep(0.001)
    check_output(b"".join(parts), site.replies + site.put + site.asked + PAGE + site.ended)
    check_end(finished(child), (0, b""))


def heed_signals() -> None:
    """Whoever runs this may ignore some signals, as `nohup` does, and a child would ignore them too."""
    for number in (signal.SIGTERM, signal.SIGINT, signal.SIGHUP):
        signal.signal(number, signal.SIG_DFL)


def signalled(program: str, site: Site, number: int, given: bytes, waits: float, replies: bytes = b"ok\n") -> None:
    """A signal while the input is open, amid the replies to some lines: none is cut short, and nothing is said."""
    child = started(program, preexec_fn=heed_signals)
    output = site.replies + REPLY
    pipe(child.stdin).write(site.lines + LINE)
    pipe(child.stdin).flush()
    check_output(pipe(child.stdout).read(len(output)), output)
    pipe(child.stdin).write(given)
    pipe(child.stdin).flush()
    time.sleep(waits)
    child.send_signal(number)
    ended = finished(child)
    output = pipe(child.stdout).read()
    _, rest = read_replies(output)
    if rest or not replies.startswith(output):
        raise Wrong(f"after its first replies it wrote {shown(output)}")
    check_end(ended, (-number, b""))


def import_line() -> bytes:
    """An import of many posts, which takes a while."""
    post: dict[str, object] = {
        "kind": "post",
        "status": "publish",
        "title": "",
        "content": "",
        "date": "2024-05-01 10:00:00",
    }
    posts = [dict(post, id=it) for it in range(1, POSTS + 1)]
    return json.dumps({"cmd": "import", "site": {"version": 1, "posts": posts}}, separators=(",", ":")).encode() + b"\n"


def continued(program: str, site: Site) -> None:
    """A program that is stopped in mid-line and continued goes on as if nothing had been."""
    child = started(program)
    pipe(child.stdin).write(site.lines + PUT[:300_000])
    pipe(child.stdin).flush()
    child.send_signal(signal.SIGSTOP)
    time.sleep(0.05)
    child.send_signal(signal.SIGCONT)
    output, error = child.communicate(PUT[300_000:] + site.ask + site.ends, SECONDS)
    check_output(output, site.replies + site.put + site.asked + PAGE + site.ended)
    check_end((child.returncode, error), (0, b""))


def cases_over(program: str, site: Site) -> Cases:
    """Each run over a site by its name, with what judges it."""
    for name, *row in ENDS:
        # If nothing can be written, or no line is read, no page can be opened before.
        if site is EMPTY or row[2]:
            yield name, partial(redirected, program, site, *row)
    for after in LEAVES:
        name = f"a reader goes away after {after} bytes of a page"
        yield name, partial(reader_leaves, program, site, after)
    yield "a reader went away while a line was awaited", lambda: reader_left_before(program, site)
    yield "a reader is slow", lambda: slow_reader(program, site)
    yield "standard input doesn't wait", lambda: input_in_the_way(program, site)
    yield "standard output doesn't wait", lambda: output_in_the_way(program, site)
    yield "a file may not grow", lambda: file_is_full(program, site, False)
    yield "a file may not grow, and the signal is ignored", lambda: file_is_full(program, site, True)
    yield "random bytes", lambda: noise(program, site)
    large = import_line()
    for number in (signal.SIGTERM, signal.SIGINT, signal.SIGHUP, signal.SIGKILL):
        yield f"{number.name} in mid-line", partial(signalled, program, site, number, large[:40_000], 0.02)
    for waits in (0.0, 0.005, 0.02, 0.08):
        name = f"SIGTERM {waits * 1000:.0f} ms into an import"
        yield name, partial(signalled, program, site, signal.SIGTERM, large, waits)
    yield "a stop that is continued", lambda: continued(program, site)


def cases(program: str) -> Cases:
    """Each run by its name, with what judges it."""
    for site in (EMPTY, OPEN):
        yield from ((f"{name}{site.name}", judged) for name, judged in cases_over(program, site))
    for waits in (0.0, 0.001, 0.003, 0.01):
        name = f"SIGTERM {waits * 1000:.0f} ms into pages by turns"
        yield name, partial(signalled, program, OPEN, signal.SIGTERM, BUSY[0], waits, BUSY[1])
