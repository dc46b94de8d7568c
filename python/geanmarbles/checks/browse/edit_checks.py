"""Checks of edits that come to `geanmarbles browse` by HTTP: who may make them, what is read of them, what becomes of
them.

It is a module, and runs nothing by itself. Each check is a function, named by its first line.
"""

import contextlib
import json
import os
import signal
import tempfile
import threading
import time
from collections.abc import Iterator, Mapping
from concurrent.futures import ThreadPoolExecutor
from pathlib import Path

from geanmarbles.checks.browse.browsing import PLAIN, Browse, Response, expect, expect_plain, ran
from geanmarbles.checks.programs import executable
from geanmarbles.paths import EXAMPLES

TOKEN = "a+b/c=1"
RIGHT = {"Authorization": f"Bearer {TOKEN}"}
WRONG_TOKEN = b"the token is missing or wrong\n"
BODY_BYTES = 8 << 20
LINE_BYTES = 1_048_576
# The same program, which writes its process ID to a file as it is started to serve.
NOTED = "#!/bin/sh\ncase \"$*\" in *--export*) ;; *) echo $$ >'{file}' ;; esac\nexec '{program}' \"$@\"\n"


def put_line(title: str) -> bytes:
    return json.dumps({"cmd": "put", "title": title, "date": "2024-05-01 10:00:00"}).encode()


def page_of(title: str) -> bytes:
    return f"<h2>{title}</h2>".encode()


@contextlib.contextmanager
def served(program: str | Path, *words: str) -> Iterator[Browse]:
    """A site in a new file, which whoever has the token edits by HTTP."""
    with tempfile.TemporaryDirectory() as folder:
        token = Path(folder, "token")
        token.write_text(f"  {TOKEN}\n", encoding="ascii")
        with Browse(program, "--database", str(Path(folder, "site.db")), "--token-file", token, *words) as browse:
            yield browse


def edit(browse: Browse, body: bytes, headers: Mapping[str, str | bytes] | None = None) -> Response:
    return browse.ask("/command", "POST", body, RIGHT if headers is None else headers)


def edits_of(browse: Browse) -> list[bytes]:
    """The edits that the site is made of."""
    response = browse.ask("/history", headers=RIGHT)
    expect((response.status, response.kind), (200, PLAIN), "the history")
    return response.body.split(b"\n")[:-1]


def edits_need_a_token(program: str) -> None:
    """without --token-file nothing is edited by HTTP, and with it by the token alone"""
    with Browse(program) as browse:
        expect(edit(browse, put_line("T")).status, 405, "an edit of a site that takes none")
        expect(browse.ask("/history", headers=RIGHT).status, 404, "its history")
    with served(program) as browse:
        wrong = ["", "Bearer", f"Bearer {TOKEN}x", f"Bearer {TOKEN[:-1]}", f"Basic {TOKEN}", TOKEN, "Bearer \u00e9"]
        for given in wrong:
            headers: Mapping[str, str | bytes] = {"Authorization": given.encode()} if given else {}
            for response in (edit(browse, put_line("T"), headers), browse.ask("/history", headers=headers)):
                expect_plain(response, 401, WRONG_TOKEN, f"with {given!r}")
                expect(response.headers["WWW-Authenticate"], "Bearer", "what it asks for")
        expect(edits_of(browse), [], "what was edited")
        expect(browse.ask("/history", "HEAD", headers=RIGHT).body, b"", "HEAD of the history")
        for path, method in (("/", "POST"), ("/command?x", "POST"), ("/command", "PUT"), ("/command", "OPTIONS")):
            expect(browse.ask(path, method, put_line("T"), RIGHT).status, 405, f"{method} {path}")
        expect(browse.ask("/command", headers=RIGHT).status, 404, "GET of where edits go")
        other = {**RIGHT, "Host": "evil.example"}
        expect(edit(browse, put_line("T"), other).status, 421, "an edit by another name of this machine")
        expect(browse.ask("/history", headers=other).status, 421, "the history by another name")
        expect(edit(browse, put_line("T")).body, b"ok 1\n", "an edit with the token")


def tokens_are_read(program: str) -> None:
    """a file without a token ends it with a reason"""
    with tempfile.TemporaryDirectory() as folder:
        for name, text in (("empty", b" \n"), ("two", b"a\nb"), ("other", "\u00e9".encode()), ("none", None)):
            file = Path(folder, name)
            if text is not None:
                file.write_bytes(text)
            status, said, errors = ran("browse", "--program", program, "--port", "0", "--token-file", file)
            expect((status, said, errors.count("\n"), name in errors), (1, "", 1, True), f"{name}: {errors!r}")


def edits_are_carried_out(program: str) -> None:
    """each line has its reply, all pages are those after it, and the history has what was done, byte for byte"""
    lines = [put_line("T"), b'{"cmd":"edit","id":7}', b' {"cmd": "edit", "id":1, "title":"U"}\r', put_line("V")]
    with served(program) as browse:
        response = edit(browse, b"\n".join(lines))
        expect_plain(response, 200, b"ok 1\nrefused 3 NoSuchPost\nok\nok 2\n", "the replies")
        expect({browse.ask("/?p=1").body for _ in range(4)}, {page_of("U")}, "the page after them")
        done = [lines[0], *lines[2:]]
        expect(edits_of(browse), done, "the history")
        expect(browse.ask("/command").status, 404, "the program's page at that path")
    with tempfile.TemporaryDirectory() as folder:
        token, database = Path(folder, "token"), str(Path(folder, "site.db"))
        token.write_text(TOKEN, encoding="ascii")
        for number in range(3):
            with Browse(program, "--database", database, "--token-file", token) as browse:
                expect(len(edits_of(browse)), number, "edits of the starts before")
                expect(edit(browse, put_line("T") + b"\n").body, f"ok {number + 1}\n".encode(), "an edit")
        with Browse(program, "--token-file", token, EXAMPLES / "bakery.jsonl") as browse:
            expect(json.loads(edits_of(browse)[0])["cmd"], "import", "the history of a site in memory")


def bodies_have_limits(program: str) -> None:
    """a body that is too large, has no length or isn't edits is refused whole, and nothing of it is done"""
    many, long = b'{"cmd":"get"}\n' * 10_001, b'{"cmd":"put","title":"' + b"x" * LINE_BYTES + b'"}'
    with served(program) as browse:
        for body, status, why in (
            (b"", 400, "there is no line"),
            (many, 413, "10001 lines"),
            (put_line("T") + b"\n" + long, 400, f"line 2: it has {len(long)} bytes"),
            (put_line("T") + b"\n\xff", 400, "line 2: it isn't UTF-8"),
            (b"{", 400, "line 1: it isn't JSON"),
            (b"[" * 100_000, 400, "line 1: it isn't JSON"),
            (b"[]", 400, "line 1: it isn't a JSON object"),
            (put_line("T") + b'\n{"cmd":"get","path":"/"}', 400, "line 2: its `cmd` isn't an edit's"),
            (b'{"cmd":["put"]}', 400, "line 1: its `cmd` isn't an edit's"),
            (b"x" * (BODY_BYTES + 1), 413, f"the body has {BODY_BYTES + 1} bytes"),
        ):
            response = edit(browse, body)
            expect((response.status, response.kind), (status, PLAIN), f"{body[:40]!r}")
            expect(why in response.body.decode(), True, f"{body[:40]!r}: {response.body[:200]!r}")
        head = f"Host: 127.0.0.1\r\nAuthorization: Bearer {TOKEN}\r\n".encode()
        for more, status in (
            (b"", 411),
            (b"Transfer-Encoding: chunked\r\n", 411),
            (b"Content-Length: -1\r\n", 400),
            (b"Content-Length: 2\r\nTransfer-Encoding: chunked\r\n", 400),
            (b"Content-Length: 2\r\nContent-Length: 2\r\n", 400),
            (b"Content-Length: 99999999999999999999\r\n", 413),
        ):
            response = browse.ask_bytes(b"/command", b"POST", headers=head + more)
            expect((response.status, response.kind), (status, PLAIN), f"{more!r}")
        waits = head + b"Content-Length: 99\r\nExpect: 100-continue\r\n\r\n"
        for sent, wanted in ((waits, b" 100 "), (waits.replace(b"Bearer ", b"Bearer x"), b" 401 ")):
            with browse.connected() as connection:
                connection.sendall(b"POST /command HTTP/1.1\r\n" + sent)
                expect(connection.recv(4096)[8:13], wanted, "what a body that waits is told")
        with browse.connected() as connection:
            connection.sendall(b"POST /command HTTP/1.1\r\n" + head + b"Content-Length: 99\r\n\r\n{}")
            connection.shutdown(1)
            expect(b" 400 " in connection.recv(4096), True, "a body that ends early")
        expect(edits_of(browse), [], "what was edited")


def edits_are_made_once(program: str) -> None:
    """a request whose key came before gets what it got then, also while it is carried out"""
    with served(program) as browse, ThreadPoolExecutor(8) as pool:
        keyed = {**RIGHT, "Idempotency-Key": "one"}
        came = {it.body for it in pool.map(lambda _: edit(browse, put_line("T"), keyed), range(8))}
        expect(came, {b"ok 1\n"}, "eight requests with one key")
        expect(edit(browse, put_line("T"), keyed).headers["Idempotency-Key"], "one", "the key in the response")
        expect(edit(browse, put_line("U"), keyed).status, 422, "another body with the key")
        expect(edit(browse, put_line("T"), {**RIGHT, "Idempotency-Key": "x" * 201}).status, 400, "a long key")
        made = {edit(browse, put_line("T")).headers["Idempotency-Key"] for _ in range(2)}
        expect(len(made), 2, "keys of requests without one")
        expect(len(edits_of(browse)), 3, "edits that were made")


def lost_edits_are_told(program: str) -> None:
    """if the program ends in an edit, the response is 504, also to the same again, and history and pages agree"""
    with tempfile.TemporaryDirectory() as folder:
        file = Path(folder, "pid")
        path = executable(folder, "noted", NOTED.format(file=file, program=program))
        with served(path) as browse:
            expect(edit(browse, put_line("T")).body, b"ok 1\n", "the first edit")
            pid = int(file.read_text(encoding="ascii"))
            os.kill(pid, signal.SIGSTOP)
            killer = threading.Timer(0.3, os.kill, (pid, signal.SIGKILL))
            killer.start()
            keyed = {**RIGHT, "Idempotency-Key": "lost"}
            begun = time.monotonic()
            expect_plain(edit(browse, put_line("U"), keyed), 504, b"unknown 1\n", "the edit that was lost")
            expect(time.monotonic() - begun > 0.2, True, "it was answered before the program had ended")
            expect_plain(edit(browse, put_line("U"), keyed), 504, b"unknown 1\n", "the same again")
            count = len(edits_of(browse))
            expect(browse.ask("/?p=2").status, 200 if count == 2 else 404, "the page of the edit that was lost")
            expect(edit(browse, put_line("V")).body, f"ok {count + 1}\n".encode(), "the next edit")


CHECKS = [
    edits_need_a_token,
    tokens_are_read,
    edits_are_carried_out,
    bodies_have_limits,
    edits_are_made_once,
    lost_edits_are_told,
]
