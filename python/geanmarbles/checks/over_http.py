"""Serves HTTP with the built program: its responses byte by byte, on its standard input and output.

    tests/http/run [PROGRAM]

PROGRAM is the one that is here, built or shipped, if it is left out. What is shown:

- each exchange below: the bytes that are sent, and the whole of what comes back; the number that each tag begins with
  is drawn by chance at a start, and stands as START;
- a stream of requests gets the same bytes however it is cut into writes; so does one of 25,000 requests, each of which
  is sent after the response to the one before;
- the longest path and the longest body that are taken, all replies to such a body, a page of more than 65,536 bytes;
- the number of a start differs each time, in every byte;
- Python's own client reads what comes, also without a body (HEAD, 304), and a connection is used again;
- a page that the client has isn't sent again until an edit is done;
- a site in a file: an edit that a 200 tells of is there after a kill, at a start without HTTP too; at an end FILE has
  all by itself; a commit that fails, as the file is gone or can't grow, is told by no response, and ends the program by
  name;
- a read or a write that fails ends the program with status 1 and a line that has the system's error;
- arguments that don't go together, a token that can't be read or isn't there, and a file that can't be opened.

The last line is 'N passed, M failed'. The exit status is 0 if nothing failed.
"""

import errno
import http.client
import os
import re
import shutil
import signal
import socket
import subprocess
import tempfile
from collections.abc import Iterator, Sequence
from functools import partial
from pathlib import Path
from typing import NamedTuple

from geanmarbles.checks.database.files import history
from geanmarbles.checks.judging import Cases, Counts, must
from geanmarbles.checks.programs import parser_of
from geanmarbles.client.replies import Wrong

SECONDS = 60
TOKEN = "a token"
START = re.compile(rb'(?<=etag: ")\d+(?=-)')
PUT = b'{"cmd":"put","title":"%s","date":"2024-05-01 10:00:00"}'
# The longest path of a page and the longest body of a request, in bytes.
MAX_PATH, MAX_BODY = 8_192, 1_048_576
# How many requests come one after another on one connection, and how many starts are compared.
REQUESTS, STARTS = 25_000, 8
# Becomes the program, no file of which may have more than some 500 kB.
FULL = "trap '' XFSZ; ulimit -f 1000; exec \"$@\""
# A post whose page is longer than a frame, or than what a connection gathers before it writes.
CONTENT = b"x" * 100_000
LARGE = b'{"cmd":"put","title":"Large","content":"%s","date":"2024-05-01 10:00:00"}' % CONTENT
LARGE_PAGE = b"<h2>Large</h2>" + CONTENT


def same(got: object, wanted: object, what: str) -> None:
    """Fails the check if something isn't as wanted."""
    if got != wanted:
        raise Wrong(f"{what}: {got!r:.2000}, wanted {wanted!r:.2000}")


def sent(method: str, target: str, *fields: str, body: bytes = b"", version: str = "1.1", host: bool = True) -> bytes:
    """A request. It has a Host, and a length if it has a body."""
    lines = [f"{method} {target} HTTP/{version}", *(["Host: h"] if host else []), *fields]
    if body:
        lines.append(f"Content-Length: {len(body)}")
    return "".join(f"{line}\r\n" for line in [*lines, ""]).encode() + body


def came(status: str, *fields: str, body: bytes = b"", kind: str = "text/plain", length: bool = True) -> bytes:
    """A response: its type and length come first if it has content."""
    first = [f"content-type: {kind}; charset=utf-8", f"content-length: {len(body)}"] if body and length else []
    return "".join(f"{line}\r\n" for line in [f"HTTP/1.1 {status}", *first, *fields, ""]).encode() + body


def page(body: bytes, edits: int) -> bytes:
    """The response to a request for a page that is found, after so many edits."""
    return came("200 OK", f'etag: "START-{edits}"', body=body, kind="text/html")


def edit(*lines: bytes, token: str = TOKEN) -> bytes:
    """A request to carry out lines."""
    return sent("POST", "/command", f"Authorization: Bearer {token}", body=b"\n".join(lines))


EMPTY = b"<p>Nothing found.</p>"
RYE = b"<h2>Rye</h2>"
NONE = b"<p>Nothing found.</p>"
CLOSED = ("connection: close", "content-length: 0")
MALFORMED = came("400 Bad Request", *CLOSED)
NO_TOKEN = came("401 Unauthorized", "www-authenticate: Bearer", body=b"edits need their token\n")
NO_PATH = came("400 Bad Request", body=b"the target has no path\n")
UNKNOWN = came("501 Not Implemented", body=b"the method is unknown\n")


class Exchange(NamedTuple):
    """What is sent, what comes back, and what the program is started with."""

    name: str
    request: bytes
    response: bytes
    token: str | None = TOKEN


# A site with one post, by an edit over HTTP.
BEGUN, DONE = edit(PUT % b"Rye"), came("200 OK", body=b"ok 1\n")
# Exchanges after which the connection is open.
OPEN = [
    Exchange("the front page", sent("GET", "/"), page(RYE, 1)),
    Exchange("a path with a query", sent("GET", "/?p=1"), page(RYE, 1)),
    Exchange(
        "a page that isn't there",
        sent("GET", "/?p=9"),
        came("404 Not Found", body=NONE, kind="text/html"),
    ),
    Exchange("the target as a proxy has it", sent("GET", "http://other/?p=1"), page(RYE, 1)),
    Exchange("the longest path", sent("GET", "/?p=1&".ljust(MAX_PATH, "a")), page(RYE, 1)),
    Exchange(
        "a path that is a byte too long",
        sent("GET", "/?p=1&".ljust(MAX_PATH + 1, "a")),
        came("414 URI Too Long", body=b"the path is too long\n"),
    ),
    Exchange("a body that a GET doesn't need", sent("GET", "/", body=b"GET /?p=9 HTTP/1.1\r\n"), page(RYE, 1)),
    Exchange("a head alone", sent("HEAD", "/"), page(RYE, 1)[: -len(RYE)]),
    Exchange("no path", sent("OPTIONS", "*"), NO_PATH),
    Exchange("another method", sent("PUT", "/"), UNKNOWN),
    Exchange("a method in lower case", sent("get", "/"), UNKNOWN),
    Exchange(
        "an edit at a page",
        sent("POST", "/", "Content-Length: 0"),
        came("405 Method Not Allowed", "allow: GET, HEAD", body=b"there are only pages here\n"),
    ),
    Exchange("no token", sent("POST", "/command", body=b"{}"), NO_TOKEN),
    Exchange("another token", edit(b"{}", token="a toke"), NO_TOKEN),
    Exchange(
        "lines that are refused",
        edit(b"a", b"", b'{"cmd":"get"}'),
        came("200 OK", body=b"refused 1 BadCommand\n" * 3),
    ),
    Exchange(
        "a body in chunks",
        sent("POST", "/command", f"authorization: bearer {TOKEN}", "Transfer-Encoding: chunked")
        + b"1\r\n{\r\n4;x=y\r\n}\n{}\r\n0\r\n\r\n",
        came("200 OK", body=b"refused 1 BadCommand\n" * 2),
    ),
    Exchange("a condition on another tag", sent("GET", "/", 'If-None-Match: "1-1"'), page(RYE, 1)),
    Exchange(
        "a condition on any tag", sent("GET", "/", "If-None-Match: *"), came("304 Not Modified", 'etag: "START-1"')
    ),
    Exchange(
        "a condition on a page that isn't there",
        sent("GET", "/?p=9", "If-None-Match: *"),
        came("404 Not Found", body=NONE, kind="text/html"),
    ),
    Exchange(
        "a client that waits for a sign",
        sent("POST", "/command", f"Authorization: Bearer {TOKEN}", "Expect: 100-continue", body=b"a"),
        b"HTTP/1.1 100 Continue\r\n\r\n" + came("200 OK", body=b"refused 1 BadCommand\n"),
    ),
]
LENGTHS = ("Content-Length: 1", "Content-Length: 2")
BOTH = ("Content-Length: 4", "Transfer-Encoding: chunked")
# Exchanges that end the connection: what is sent after them gets nothing.
CLOSING = [
    Exchange("no Host", sent("GET", "/", host=False), MALFORMED),
    Exchange("two of them", sent("GET", "/", "Host: h"), MALFORMED),
    Exchange("a Host that is none", sent("GET", "/", "Host: a b/@x", host=False), MALFORMED),
    Exchange("two lengths", sent("POST", "/command", *LENGTHS), MALFORMED),
    Exchange("a length and chunks", sent("POST", "/command", *BOTH), MALFORMED),
    Exchange("a space before a colon", sent("GET", "/", "A : b"), MALFORMED),
    Exchange("a folded line", sent("GET", "/", "A: b\r\n c"), MALFORMED),
    Exchange("lines without a carriage return", b"GET / HTTP/1.1\nHost: h\n\n", MALFORMED),
    Exchange("a carriage return in a value", sent("GET", "/", "A: b\rc"), MALFORMED),
    Exchange("another version", sent("GET", "/", version="1.2"), MALFORMED),
    Exchange("the preface of HTTP/2", b"PRI * HTTP/2.0\r\n\r\nSM\r\n\r\n", MALFORMED),
    Exchange(
        "a long target",
        sent("GET", "/" + "a" * 70_000),
        came("414 URI Too Long", *CLOSED),
    ),
    Exchange(
        "a long field",
        sent("GET", "/", "A: " + "b" * 66_000),
        came("431 Request Header Fields Too Large", *CLOSED),
    ),
    Exchange(
        "many fields",
        sent("GET", "/", *["A: b"] * 64),
        came("431 Request Header Fields Too Large", *CLOSED),
    ),
    Exchange(
        "a long body",
        sent("POST", "/command", "Content-Length: 8388609"),
        came("413 Payload Too Large", *CLOSED),
    ),
]


class Program(NamedTuple):
    """How the program is run over HTTP."""

    path: str
    folder: Path

    def words(self, *more: str, token: str | None = TOKEN) -> list[str]:
        """Its command line, with the token in a file if there is one."""
        if token is None:
            return [self.path, "--http", *more]
        file = self.folder / "token"
        file.write_text(f"{token}\n", encoding="utf-8")
        return [self.path, "--http", "--token-file", str(file), *more]

    def run(self, stream: bytes, *more: str, token: str | None = TOKEN) -> bytes:
        """What comes back for a stream, whose tags begin with START."""
        words = self.words(*more, token=token)
        ran = subprocess.run(words, input=stream, capture_output=True, timeout=SECONDS, check=False)
        same((ran.returncode, ran.stderr), (0, b""), "the end")
        return START.sub(b"START", ran.stdout)


def exchange(program: Program, of: Exchange) -> None:
    """One exchange, after the edit that makes a post; what follows one that closes gets nothing."""
    follows = b"" if of in OPEN else sent("GET", "/")
    same(program.run(BEGUN + of.request + follows), DONE + of.response, "the responses")


def without_a_token(program: Program) -> None:
    """Started without a token, the program takes no edits."""
    refused = came("403 Forbidden", body=b"no edits are taken here\n")
    same(program.run(BEGUN + sent("GET", "/"), token=None), refused + page(EMPTY, 0), "the responses")


def around_a_token(program: Program) -> None:
    """White space at both ends of a file isn't of its token."""
    same(program.run(BEGUN, token=f"\n\t {TOKEN} \r"), DONE, "the response")


def old_version(program: Program) -> None:
    """A client of HTTP/1.0 is told that the connection closes."""
    got = program.run(sent("GET", "/", version="1.0") + sent("GET", "/"))
    kept = got.replace(b"connection: close\r\n", b"")
    must(b"connection: close\r\n" in got, "no field says that the connection closes")
    same(kept, page(EMPTY, 0).replace(b"HTTP/1.1", b"HTTP/1.0"), "the response")


def cut(program: Program, size: int) -> None:
    """All exchanges in one stream, written in pieces."""
    stream = BEGUN + b"".join(it.request for it in OPEN)
    wanted = DONE + b"".join(it.response for it in OPEN)
    with subprocess.Popen(program.words(), stdin=subprocess.PIPE, stdout=subprocess.PIPE, bufsize=0) as running:
        assert running.stdin and running.stdout
        for at in range(0, len(stream), size):
            running.stdin.write(stream[at : at + size])
        running.stdin.close()
        same(START.sub(b"START", running.stdout.read()), wanted, "the responses")
    same(running.returncode, 0, "the status")


def one_by_one(program: Program) -> None:
    """Many requests on one connection, each after the response to the one before."""
    request, response = sent("HEAD", "/?p=9"), came("404 Not Found", body=NONE, kind="text/html")[: -len(NONE)]
    with subprocess.Popen(program.words(), stdin=subprocess.PIPE, stdout=subprocess.PIPE) as running:
        assert running.stdin and running.stdout
        for number in range(REQUESTS):
            running.stdin.write(request)
            running.stdin.flush()
            same(running.stdout.read(len(response)), response, f"response {number}")
        running.stdin.close()
        same((running.stdout.read(), running.wait(SECONDS)), (b"", 0), "the end")


def largest(program: Program) -> None:
    """The longest body is carried out and all of its lines are replied to; one that is a byte longer is refused."""
    lines = [b"x" * 15] * (MAX_BODY // 16)
    body = b"\n".join([*lines, b""])
    same(program.run(edit(body)), came("200 OK", body=b"refused 1 BadCommand\n" * len(lines)), "the replies")
    same(program.run(edit(body + b"x")), came("413 Payload Too Large", *CLOSED), "the refusal")


def large_page(program: Program) -> None:
    """A page of more than 65,536 bytes comes whole, again and again."""
    got = program.run(edit(LARGE) + sent("GET", "/") * 3)
    same(got, DONE + page(LARGE_PAGE, 1) * 3, "the responses")


def starts(program: Program) -> None:
    """Each start draws a number of its own for its tags, and every byte of it."""
    drawn = []
    for _ in range(STARTS):
        ran = subprocess.run(program.words(), input=sent("GET", "/"), capture_output=True, timeout=SECONDS, check=False)
        found = START.search(ran.stdout)
        drawn.append(int(found[0]) if found else 0)
    # (a byte is the same in eight numbers once in 2^56 times)
    same([len({number >> at & 0xFF for number in drawn}) > 1 for at in range(0, 64, 8)], [True] * 8, f"in {drawn}")


def ends_within(program: Program, of: Exchange, at: int) -> None:
    """An input that ends within a request."""
    same(program.run(of.request[:at]), MALFORMED, "the responses")


class OneSocket(http.client.HTTPConnection):
    """Python's client over a socket that is there."""

    def __init__(self, end: socket.socket) -> None:
        super().__init__("h")
        self.sock = end

    def asked(self, method: str, path: str, **fields: str) -> tuple[int, str | None, bytes]:
        """The status, the tag and the body of a response."""
        self.request(method, path, headers={name.replace("_", "-"): value for name, value in fields.items()})
        response = self.getresponse()
        return response.status, response.getheader("etag"), response.read()


def by_a_client(program: Program) -> None:
    """Python's client asks again and again over one connection, and is sent no page that it has."""
    ours, its = socket.socketpair()
    with subprocess.Popen(program.words(), stdin=its.fileno(), stdout=its.fileno()) as running:
        its.close()
        client = OneSocket(ours)
        status, tag, body = client.asked("GET", "/")
        same((status, body), (200, EMPTY), "the first page")
        assert tag
        same(client.asked("GET", "/", If_None_Match=f'"x", W/{tag}'), (304, tag, b""), "the page again")
        same(client.asked("HEAD", "/"), (200, tag, b""), "its head")
        client.request("POST", "/command", PUT % b"Rye", {"Authorization": f"Bearer {TOKEN}"})
        same(client.getresponse().read(), b"ok 1\n", "the edit")
        status, later, body = client.asked("GET", "/", If_None_Match=tag)
        same((status, body), (200, RYE), "the page after an edit")
        must(later and later != tag, "an edit left the tag as it was")
        ours.close()
        same(running.wait(SECONDS), 0, "the status")


def after_a_kill(program: Program) -> None:
    """An edit that was told is in the file, whatever ends the program."""
    file = program.folder / "kept.db"
    words = program.words("--database", str(file))
    with subprocess.Popen(words, stdin=subprocess.PIPE, stdout=subprocess.PIPE, bufsize=0) as running:
        assert running.stdin and running.stdout
        running.stdin.write(BEGUN)
        same(running.stdout.read(len(DONE)), DONE, "the response")
        running.send_signal(signal.SIGKILL)
    same(history(file)[1:], [PUT % b"Rye"], "the history")
    same(program.run(sent("GET", "/"), "--database", str(file)), page(RYE, 0), "the page at a start")
    line = b'{"cmd":"get","path":"/"}'
    ran = subprocess.run([program.path, "--database", str(file)], input=line, capture_output=True, check=False)
    same(ran.stdout, b"page 200 %d\n%s\n" % (len(RYE), RYE), "the page by a line")


def kept_alone(program: Program) -> None:
    """After a client that was served to its end FILE has the whole history by itself."""
    file = program.folder / "alone.db"
    same(program.run(BEGUN, "--database", str(file)), DONE, "the response")
    with tempfile.TemporaryDirectory() as folder:
        same(history(Path(shutil.copy(file, folder)))[1:], [PUT % b"Rye"], "the history in FILE alone")


def no_commit(program: Program) -> None:
    """A file that is removed ends the program, and the edit after that is told by no response."""
    file = program.folder / "gone.db"
    words = program.words("--database", str(file))
    pipe = subprocess.PIPE
    with subprocess.Popen(words, bufsize=0, stdin=pipe, stdout=pipe, stderr=pipe) as running:
        assert running.stdin and running.stdout and running.stderr
        running.stdin.write(BEGUN)
        same(running.stdout.read(len(DONE)), DONE, "the response")
        file.unlink()
        running.stdin.write(BEGUN)
        running.stdin.close()
        same(running.stdout.read(), b"", "what was said of the edit")
        said = running.stderr.read().decode()
        must("removed or replaced" in said, f"it said {said!r}")
    same(running.returncode, 1, "the status")


def full(program: Program) -> None:
    """A commit that fails, as the file can't grow any more: what was told of is there, and the program says why."""
    file = program.folder / "full.db"
    words = ["sh", "-c", FULL, "sh", *program.words("--database", str(file))]
    stream = b"".join(edit(PUT % (b"%d " % at).ljust(200, b"x")) for at in range(10_000))
    ran = subprocess.run(words, input=stream, capture_output=True, timeout=SECONDS, check=False)
    said = ran.stderr.decode()
    must(ran.returncode == 1 and said.startswith("site: the database failed: "), f"status {ran.returncode}, {said!r}")
    told, found = ran.stdout.count(b"HTTP/1.1 200 OK"), len(history(file)) - 1
    must(0 < told <= found < 10_000, f"{told} edits were told of, and {found} are there")


def failing_ends(program: Program) -> None:
    """A write that fails, and a read that does, end the program with status 1 and the system's error in one line."""
    no_room, a_folder = system_error(errno.ENOSPC), system_error(errno.EISDIR)
    ends_at_faults(program.words(), sent("GET", "/"), of_write=no_room, of_read=a_folder)
    # With FILE a read also looks whether FILE is still there, and of a fault it tells only that there was one.
    words = program.words("--database", str(program.folder / "failing.db"))
    ends_at_faults(words, sent("GET", "/"), of_write=no_room, of_read="other error")


def system_error(number: int) -> str:
    """What is said of an error of the system."""
    return f"{os.strerror(number)} (os error {number})"


def ends_at_faults(words: Sequence[str], request: bytes, *, of_write: str, of_read: str) -> None:
    """Writes to a device that is full, and then reads a folder: the program ends by name at both."""
    with open("/dev/full", "wb") as device:
        ran = subprocess.run(words, input=request, stdout=device, stderr=subprocess.PIPE, timeout=SECONDS, check=False)
    same((ran.returncode, ran.stderr), (1, f"site: {of_write}\n".encode()), "the end at a write")
    folder = os.open("/", os.O_RDONLY)
    try:
        ran = subprocess.run(words, stdin=folder, capture_output=True, timeout=SECONDS, check=False)
    finally:
        os.close(folder)
    same((ran.returncode, ran.stderr), (1, f"site: {of_read}\n".encode()), "the end at a read")


# Arguments that are refused, with what the line on standard error has.
REFUSED: list[tuple[Sequence[str], int, str]] = [
    (["--token-file", "a"], 2, "'--token-file <FILE>' need '--http'"),
    (["--framed"], 2, "'--framed' and '--token-file <FILE>' need '--http'"),
    (["--framed", "--http", "--framed"], 2, "--framed"),
    (["--http", "--database", "a", "--export"], 2, "'--http' excludes"),
    (["--http", "--database", "a", "--compact"], 2, "'--http' excludes"),
    (["--http", "--database", "a", "--check"], 2, "'--http' excludes"),
    (["--http", "--http"], 2, "--http"),
    (["--http", "--token-file", "/nowhere/at/all"], 1, f"site: /nowhere/at/all: {system_error(errno.ENOENT)}\n"),
    (["--http", "--token-file", "/dev/null"], 1, "site: /dev/null: invalid data\n"),
    (["--http", "--token-file", "blank"], 1, "site: blank: invalid data\n"),
    (["--http", "--token-file", "latin"], 1, "site: latin: stream did not contain valid UTF-8\n"),
    (["--http", "--database", "."], 1, "site: .: the file cannot be opened\n"),
]
# Files without a token.
TOKENLESS = {"blank": b" \n\t\n", "latin": b"caf\xe9\n"}


def refused(program: Program, words: Sequence[str], status: int, line: str) -> None:
    """The program ends at once, and says why."""
    for name, text in TOKENLESS.items():
        (program.folder / name).write_bytes(text)
    ran = subprocess.run([program.path, *words], input=b"", capture_output=True, cwd=program.folder, check=False)
    same((ran.returncode, ran.stdout), (status, b""), "the end")
    must(line in ran.stderr.decode(), f"it said {ran.stderr!r}")


def cases(program: Program) -> Iterator[tuple[str, partial[None]]]:
    """All checks, by their names."""
    for it in [*OPEN, *CLOSING]:
        yield it.name, partial(exchange, program, it)
    yield "no token at the start", partial(without_a_token, program)
    yield "HTTP/1.0", partial(old_version, program)
    for size in (1, 7, 100, 4_096):
        yield f"one stream in pieces of {size} bytes", partial(cut, program, size)
    for at in (1, 10, len(OPEN[0].request) - 1):
        yield f"an input that ends after {at} bytes", partial(ends_within, program, OPEN[0], at)
    for check in (around_a_token, one_by_one, largest, large_page, starts, kept_alone, full, failing_ends):
        yield str(check.__doc__), partial(check, program)
    yield "Python's client", partial(by_a_client, program)
    yield "a kill after an edit", partial(after_a_kill, program)
    yield "a file that is removed", partial(no_commit, program)
    for words, status, line in REFUSED:
        yield " ".join(words), partial(refused, program, words, status, line)


def main() -> int:
    args = parser_of(__doc__).parse_args()
    counts = Counts()
    with tempfile.TemporaryDirectory() as folder:
        of: Cases = cases(Program(args.program, Path(folder)))
        counts.judge_all(of)
    return counts.end()
