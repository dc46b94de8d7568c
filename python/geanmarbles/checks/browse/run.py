"""Serves sites by `geanmarbles browse` and asks for their pages.

    tests/browse/run [PROGRAM]

PROGRAM is the one that is here, built or shipped, if it is left out. Each check is a function below, named by its first
line, and fails if something came otherwise than it must. The pages that examples/bakery.out has are what a browser must
get. The last line is 'N passed, M failed', over the checks. The exit status is 0 if nothing failed.
"""

import contextlib
import html
import io
import json
import os
import re
import signal
import socket
import subprocess
import tempfile
import threading
import time
from collections.abc import Callable
from concurrent.futures import ThreadPoolExecutor
from functools import partial
from pathlib import Path
from typing import Any

from geanmarbles.checks.browse import edit_checks
from geanmarbles.checks.browse.browsing import PLAIN, SECONDS, Browse, Response, expect, expect_plain, ran
from geanmarbles.checks.judging import Counts, must
from geanmarbles.checks.programs import executable, missing, parser_of
from geanmarbles.client.log import printed, read_pages, tree_of
from geanmarbles.client.program import lines_of, pipe
from geanmarbles.client.replies import Reply, Wrong, read_reply
from geanmarbles.paths import EXAMPLES

# How long geanmarbles browse waits for a client.
STALLED_SECONDS = 10
HTML = "text/html; charset=utf-8"
NOTHING_FOUND = "/?p=6"

# Writes its process ID and its arguments to a file and becomes the program.
TRACED = "#!/bin/sh\necho $$ $* >>'{file}'\nexec '{program}' \"$@\"\n"
# The same, once.
ONCE = "#!/bin/sh\ntest -e '{file}' && exit 1\necho $$ >'{file}'\nexec '{program}'\n"
# Replies to each line with a page that is the line.
ECHO = '#!/bin/bash\nLC_ALL=C\nwhile IFS= read -r line; do printf "page 200 %d\\n%s\\n" "${#line}" "$line"; done\n'
# Refuses each line for its memory.
REFUSE = "#!/bin/sh\nwhile read -r line; do echo refused 11 OutOfMemory; done\n"
# A site whose one post makes more calls than a page may make.
SPIN = b'{"cmd":"activate","plugin":"deep"}\n' b'{"cmd":"put","title":"spin","date":"2024-05-01 10:00:00"}\n'
# Paths that show pages of the bakery, and the paths in its example that show the same.
SAME_PAGES = {
    "/?": "/",
    "/?&&": "/",
    "/index.php": "/",
    "/?p=4&x=%F0": "/?p=4",
    "/?%70=%34": "/?p=4",
    "/?x=\u00e9&p=4": "/?p=4",
    "/?x=\u00e0&p=4": "/?p=4",
    "//": NOTHING_FOUND,
    "//?p=4": NOTHING_FOUND,
    "/%3Fp=4": NOTHING_FOUND,
    "/?p=4%26": NOTHING_FOUND,
    "/../?p=4": NOTHING_FOUND,
    "/caf\u00e9": NOTHING_FOUND,
}
# Paths that must reach the program as they are.
ODD_PATHS = ["/?p=1&x=%F0", "//", "//a//?b", "/?", '/?"\\', "/?\u00e0\u0085\u2028", "/\U0001f35e", "*"]
# Heads that aren't HTTP, or that two servers may read in two ways: the version and what follows the first line.
BAD_HEADS: list[tuple[int, bytes, bytes]] = [
    (505, b"HTTP/2.0", b"Host: 127.0.0.1\r\n"),
    (400, b"HTTP/x", b""),
    (400, b"HTTP/1.10", b"Host: 127.0.0.1\r\n"),
    (431, b"HTTP/1.1", b"A: b\r\n" * 101),
    (431, b"HTTP/1.1", b"A: " + b"b" * 70_000 + b"\r\n"),
    (400, b"HTTP/1.1", b"Host: 127.0.0.1\r\nA B: c\r\n"),
    (400, b"HTTP/1.1", b"Host: 127.0.0.1\r\nA: b\r\n c\r\n"),
    (400, b"HTTP/1.1", b"Host: 127.0.0.1\nA: b\r\n"),
    (400, b"HTTP/1.1", b"Host: 127.0.0.1\r\nContent-Length: 1\r\nContent-Length: 2\r\n"),
    (400, b"HTTP/1.1", b"Host: 127.0.0.1@evil.example\r\n"),
]


def bakery() -> dict[str, Reply]:
    """The replies to the pages that the example asks for, by path, as its output has them."""
    commands = (EXAMPLES / "bakery.jsonl").read_bytes()
    output = io.BytesIO((EXAMPLES / "bakery.out").read_bytes())
    replies = [(json.loads(line), read_reply(output)) for line in lines_of(commands)]
    return {command["path"]: reply for command, reply in replies if command["cmd"] == "get"}


def expect_page(response: Response, reply: Reply, what: object) -> None:
    """Compares a response with a page of the example."""
    expect(response.status, int(reply.words[1]), f"{what}: status")
    expect(response.kind, HTML, f"{what}: type")
    expect(response.headers["Content-Length"], reply.words[2], f"{what}: length")
    expect(response.body, reply.page, f"{what}: page")


def pages_are_served(program: str) -> None:
    """each page of the bakery, with its status, type, length and bytes"""
    with Browse(program) as browse:
        for path, reply in bakery().items():
            expect_page(browse.ask(path), reply, path)


def trees_of_bakery(program: str) -> dict[str, list[str]]:
    """What is to be said below each page of the bakery, by path, as lines."""
    how: dict[str, Any] = {
        "input": (EXAMPLES / "bakery.jsonl").read_bytes(),
        "capture_output": True,
        "timeout": SECONDS,
    }
    pages, _ = read_pages(subprocess.run([program, "--trace"], **how).stderr.splitlines())
    trees = {page.path: tree_of(page) for page in pages}
    return {path: [line.strip() for line in printed(tree)] for path, tree in trees.items() if tree is not None}


def expect_tree(response: Response, reply: Reply, tree: list[str], what: object) -> None:
    """Compares a page that has a tree below it."""
    expect(response.status, int(reply.words[1]), f"{what}: status")
    expect(response.headers["Content-Length"], str(len(response.body)), f"{what}: length")
    expect(response.body[: len(reply.page)], reply.page, f"{what}: page")
    below = response.body[len(reply.page) :].decode()
    expect(
        below.startswith('\n<div id="which-callbacks-ran"><template shadowrootmode="open">'), True, f"{what}: its begin"
    )
    shown = [html.unescape(it).strip() for it in re.findall("<code>(.*?)</code>", below, re.S)]
    expect(shown, tree, f"{what}: what ran")


def what_ran_is_shown(program: str) -> None:
    """--explain shows below each page which callbacks ran for it alone, also if many pages are asked for at once"""
    trees, pages = trees_of_bakery(program), bakery()
    with Browse(program, "--explain") as browse:
        for path, reply in pages.items():
            expect_tree(browse.ask(path), reply, trees[path], path)
        paths = (list(pages) * 20)[:20]
        with ThreadPoolExecutor(len(paths)) as pool:
            for path, response in zip(paths, pool.map(browse.ask, paths)):
                expect_tree(response, pages[path], trees[path], f"{path} beside others")
        expect_plain(browse.ask("/?x=".ljust(8193, "x")), 400, b"refused 8 TooLarge\n", "a path that is too long")
        expect_tree(browse.ask("/"), pages["/"], trees["/"], "the page after it")
    with tempfile.TemporaryDirectory() as folder:
        commands = Path(folder, "deep.jsonl")
        commands.write_bytes(SPIN.replace(b"spin", b"d" * 33))
        with Browse(program, "--explain", commands) as browse:
            expect_plain(browse.ask("/?p=1"), 500, b"refused 10 TooDeep\n", "too deep")
            shown = browse.ask("/?p=9").body.partition(b"<main>")[2]
            expect((b"/?p=9: 404, " in shown, shown.count(b"<code>")), (True, 1), "what is shown of the next page")


def odd_paths_are_served(program: str) -> None:
    """paths of other forms"""
    pages = bakery()
    with Browse(program) as browse:
        for path, same in SAME_PAGES.items():
            expect_page(browse.ask_bytes(path.encode()), pages[same], path)


def paths_come_unchanged(_program: str) -> None:
    """paths reach the program as they came"""
    with tempfile.TemporaryDirectory() as folder:
        echo = executable(folder, "echo", ECHO)
        with Browse(echo, "/dev/null") as browse:
            for path in ODD_PATHS:
                came = json.loads(browse.ask_bytes(path.encode()).body)
                expect(came, {"cmd": "get", "path": path}, "the line that the program got")
            whole = json.loads(browse.ask_bytes(b"http://localhost:1/?p=1").body)
            expect(whole, {"cmd": "get", "path": "/?p=1"}, "the line of a whole address")
            for path in ("/?\x01", "/\x7f", "/\x0b"):
                expect(browse.ask_bytes(path.encode()).status, 400, f"a control in {path!r}")


def paths_have_limits(program: str) -> None:
    """paths that aren't UTF-8, or too long"""
    with Browse(program) as browse:
        expect_plain(browse.ask_bytes(b"/?x=\xff"), 400, b"the path isn't UTF-8\n", "a byte FF")
        longest = "/?x=".ljust(8192, "x")
        expect_page(browse.ask(longest), bakery()["/"], "a path of 8,192 bytes")
        for size in (8193, 9000):
            expect_plain(browse.ask("/?x=".ljust(size, "x")), 400, b"refused 8 TooLarge\n", f"a path of {size} bytes")
        response = browse.ask("/?x=".ljust(70_000, "x"))
        expect((response.status, response.kind), (414, PLAIN), "a path of 70,000 bytes")


def heads_are_served(program: str) -> None:
    """HEAD has the status and headers of GET, without the page"""
    with Browse(program) as browse:
        for path, reply in bakery().items():
            expect_page(browse.ask(path, "HEAD"), reply._replace(page=b""), path)
            expect_page(browse.ask_bytes(path.encode(), b"HEAD"), reply._replace(page=b""), f"{path} read to its end")


def other_methods_are_refused(program: str) -> None:
    """methods other than GET and HEAD are 405"""
    with Browse(program) as browse:
        for method in ("POST", "PUT", "DELETE", "OPTIONS", "BREW"):
            response = browse.ask("/", method, b"x=1")
            expect((response.status, response.kind), (405, PLAIN), method)
            expect(response.headers["Allow"], "GET, HEAD", f"{method}: Allow")


def refusals_are_named(program: str) -> None:
    """a page that is refused, and the next page after it"""
    with tempfile.TemporaryDirectory() as folder:
        commands = Path(folder, "spin.jsonl")
        commands.write_bytes(SPIN)
        with Browse(program, commands) as browse:
            expect_plain(browse.ask("/?p=1"), 500, b"refused 9 TooManyCalls\n", "too many calls")
            expect(browse.ask("/?p=9").status, 404, "status of the next page")
        with Browse(executable(folder, "refuse", REFUSE), "/dev/null") as browse:
            expect_plain(browse.ask("/"), 503, b"refused 11 OutOfMemory\n", "no memory")


def pages_have_titles(_program: str) -> None:
    """each kind of page of the bakery has a title of its own, and one heading of the first rank"""
    found = {path: re.search(rb"<title>(.*) - Ada &amp; ", it.page) for path, it in bakery().items()}
    titles = {path: it[1] for path, it in found.items() if it}
    expect(len(titles), len(found), "how many pages have a title")
    wanted = {"/?p=4": b"Rye &amp; caraway", "/?page_id=1": b"About", "/?p=6": b"No such page"}
    expect({path: titles[path] for path in wanted}, wanted, "titles")
    expect(len({titles[path] for path in ("/", "/?m=202403", *wanted)}), 5, "how many titles differ")
    for path, reply in bakery().items():
        expect(reply.page.count(b"<h1>"), 1, f"{path}: headings")


def other_hosts_are_refused(program: str) -> None:
    """names of other machines, so that no other site's page can read what is served"""
    with Browse(program) as browse:
        for host in (b"127.0.0.1", b"localhost", b"LOCALHOST:80", b"[::1]:8080", b" 127.0.0.1:1 "):
            response = browse.ask_bytes(b"/", headers=b"Host:" + host + b"\r\n")
            expect_page(response, bakery()["/"], host)
        told = f"this site is for this machine alone: http://127.0.0.1:{browse.port}/\n".encode()
        others = (b"evil.example", b"127.0.0.1.evil.example", b"localhost.evil", b"", b"10.0.0.1")
        for host in others:
            expect_plain(browse.ask_bytes(b"/", headers=b"Host: " + host + b"\r\n"), 421, told, host)
        two = b"Host: 127.0.0.1\r\nHost: evil.example\r\n"
        for headers, count in ((b"", 0), (two, 2)):
            told = f"a request has one Host, and this one has {count}\n".encode()
            expect_plain(browse.ask_bytes(b"/", headers=headers), 400, told, f"{count} hosts")


def bad_requests_are_told(program: str) -> None:
    """requests that aren't of HTTP as it is read here"""
    with Browse(program) as browse:
        for status, version, headers in BAD_HEADS:
            response = browse.ask_bytes(b"/", version=version, headers=headers)
            expect((response.status, response.kind), (status, PLAIN), version + headers[:80])
        other = browse.ask_bytes(b"http://evil.example/")
        expect(other.status, 421, "a whole address of another machine")


def responses_say_what_they_are(program: str) -> None:
    """each response says of itself of which type it is and that it isn't kept, and nothing of Python's version"""
    with Browse(program) as browse:
        page, other = browse.ask("/"), browse.ask("/", "PUT")
        for response, kept in ((page, "no-cache"), (other, "no-store")):
            said = [response.headers[name] for name in ("X-Content-Type-Options", "Cache-Control", "Server")]
            expect(said, ["nosniff", kept, None], f"what {response.status} says of itself")
        expect(other.headers["Content-Security-Policy"] or "", "default-src 'none'; frame-ancestors 'none'", "405")


def drip(connection: socket.socket) -> None:
    """Sends a byte of a header each second, until the other side has closed the connection."""
    with contextlib.suppress(OSError):
        connection.sendall(b"GET / HTTP/1.1\r\nX: ")
        for _ in range(SECONDS):
            connection.sendall(b"x")
            time.sleep(1)


def is_closed(connection: socket.socket) -> bool:
    """Whether the other side closes a connection before this one's patience is at its end."""
    try:
        return connection.recv(1) == b""
    except ConnectionResetError:
        return True


def stalled_connections_are_closed(program: str) -> None:
    """clients that stall are cut off, and don't keep others out meanwhile"""
    with Browse(program) as browse:
        begin = time.monotonic()
        silent = [browse.connected() for _ in range(40)]
        for connection, sent in zip(silent, (b"", b"GET", b"GET / HTTP/1.1\r\nHost: 127.0.0.1\r\n")):
            connection.sendall(sent)
        dripping = browse.connected()
        threading.Thread(target=drip, args=[dripping], daemon=True).start()
        expect_page(browse.ask("/"), bakery()["/"], "a page meanwhile")
        for connection in [*silent, dripping]:
            expect(is_closed(connection), True, "the connection is closed")
            connection.close()
        spent = time.monotonic() - begin
        expect(STALLED_SECONDS - 1 < spent < STALLED_SECONDS + 10, True, f"closed after {spent:.0f} s, not in time")
        expect_page(browse.ask("/"), bakery()["/"], "a page afterwards")
        expect(browse.errors().count("Traceback"), 0, "tracebacks on standard error")


def other_programs_are_told(_program: str) -> None:
    """a --program that isn't the program"""
    with tempfile.TemporaryDirectory() as folder:
        mute = executable(folder, "mute", "#!/bin/sh\nexec 1>&-\nexec sleep 60\n")
        for path, why in (("/bin/cat", "it said b'{}\\n'"), ("/bin/true", None), (mute, None)):
            told = f"browse: {path} doesn't reply to a line as the program does: {why}\n"
            told = told if why else "browse: the program has ended, so the site is gone\n"
            expect(ran("browse", "--program", path, "--port", "0"), (1, "", told), path)


def requests_come_in_parallel(program: str) -> None:
    """twenty requests at once, beside a connection that asks for nothing"""
    pages = bakery()
    paths = (list(pages) * 20)[:20]
    with Browse(program) as browse, browse.connected():
        with ThreadPoolExecutor(len(paths)) as pool:
            for path, response in zip(paths, pool.map(browse.ask, paths)):
                expect_page(response, pages[path], path)


def other_addresses_are_closed(program: str) -> None:
    """no address but 127.0.0.1 is listened on"""
    with Browse(program) as browse:
        try:
            socket.create_connection(("127.0.0.2", browse.port), SECONDS).close()
        except ConnectionRefusedError:
            return
    raise Wrong("a connection to 127.0.0.2 was taken")


def taken_ports_are_told(program: str) -> None:
    """a port that is taken"""
    with Browse(program) as browse:
        came = ran("browse", "--program", program, "--port", str(browse.port))
        wanted = (1, "", f"browse: port {browse.port} is taken; --port N chooses another\n")
        expect(came, wanted, "status, standard output and standard error")


def refused_lines_are_told(program: str) -> None:
    """a command file with a line that is refused"""
    with tempfile.TemporaryDirectory() as folder:
        commands = Path(folder, "bad.jsonl")
        commands.write_bytes(SPIN + b'{"cmd":"activate","plugin":"nope"}\n')
        came = ran("browse", "--program", program, "--port", "0", commands)
        expect(came, (1, "", f"browse: {commands}, line 3: refused 6 UnknownPlugin\n"), "status and what it wrote")


def bad_arguments_are_told(_program: str) -> None:
    """bad arguments, and a program that isn't built"""
    for words in (["--port", "x"], ["--port", "65536"], ["a", "b"], ["--lines", "39"], ["--lines", "x"]):
        expect(ran("browse", *words)[:2], (2, ""), f"status and standard output of {words}")
    wanted = (1, "", "browse: there is no program at /nonexistent; ./build builds it\n")
    expect(ran("browse", "--program", "/nonexistent"), wanted, "without a program")


def is_running(pid: int) -> bool:
    try:
        os.kill(pid, 0)
    except ProcessLookupError:
        return False
    return True


def traced(folder: str | Path, program: str, text: str = TRACED) -> tuple[Path, Callable[[], list[tuple[int, str]]]]:
    """A program that tells its process IDs, and how they are read: each with the arguments that it was started with."""
    file = Path(folder, "pids")

    def pids() -> list[tuple[int, str]]:
        lines = (line.partition(" ") for line in file.read_text(encoding="utf-8").splitlines())
        return [(int(pid), words) for pid, _, words in lines]

    return executable(folder, "traced", text.format(file=file, program=program)), pids


def interrupts_end_it(program: str) -> None:
    """Ctrl-C ends it and all programs, without a word"""
    with tempfile.TemporaryDirectory() as folder:
        path, pids = traced(folder, program)
        with Browse(path) as browse:
            [(pid, _)] = pids()
            expect(is_running(pid), True, "the program runs while it serves")
            expect(browse.interrupted(), (0, ""), "status and standard error")
            expect(is_running(pid), False, "the program runs afterwards")


def ends_are_made_good(program: str) -> None:
    """if the program ends, the next one takes its place, and no visitor is refused for it"""
    pages, killed = bakery(), set()
    with tempfile.TemporaryDirectory() as folder:
        path, pids = traced(folder, program)

        def kill_last() -> None:
            # The program that ends at a page's turn has noted itself, so after that page the last one noted runs.
            pid = pids()[-1][0]
            expect(pid in killed, False, "the last program noted has been killed before")
            killed.add(pid)
            os.kill(pid, signal.SIGKILL)

        with Browse(path) as browse:
            for _ in range(3):
                kill_last()
                expect_page(browse.ask("/?p=4"), pages["/?p=4"], "a page after the program's end")
            paths = (list(pages) * 10)[:10]
            with ThreadPoolExecutor(8) as pool:
                for _ in range(4):
                    responses = [pool.submit(browse.ask, path) for path in paths]
                    responses[0].result()
                    kill_last()
                    for asked, response in zip(paths, responses):
                        expect_page(response.result(), pages[asked], f"{asked} while programs end")
            expect(browse.interrupted(), (0, ""), "status and standard error")


def ends_are_told(program: str) -> None:
    """it ends if no program can be started any more, and says so"""
    with tempfile.TemporaryDirectory() as folder:
        path, pids = traced(folder, program, ONCE)
        with Browse(path) as browse:
            os.kill(pids()[0][0], signal.SIGKILL)
            expect_plain(browse.ask("/"), 503, b"the program has ended\n", "a page that no program prints")
            wanted = (1, "browse: the program has ended, so the site is gone\n")
            expect((browse.ended(), browse.said()), wanted, "status and standard error")


def put_line(title: str) -> bytes:
    return json.dumps({"cmd": "put", "title": title, "date": "2024-05-01 10:00:00"}).encode()


def page_of(title: str) -> bytes:
    return f"<h2>{title}</h2>".encode()


def sites_last(program: str) -> None:
    """--database serves the site in the file: what a command file and standard input edit is there at the next start"""
    with tempfile.TemporaryDirectory() as folder:
        database, pages = str(Path(folder, "site.db")), bakery()
        with Browse(program, "--database", database, EXAMPLES / "bakery.jsonl") as browse:
            expect_page(browse.ask("/"), pages["/"], "the front")
            came = ran("browse", "--program", program, "--port", "0", "--database", database)
            wanted = (
                f"site: {database}: the file is in use: end the program that has it, or edit the site through that"
                " one\n"
                "browse: the program has ended, so the site is gone\n"
            )
            expect(came, (1, "", wanted), "a second browse on the file")
            expect(browse.interrupted(), (0, ""), "status and standard error")
        for number in (1, 2, 3):
            with Browse(program, "--database", database, "--edits", given=subprocess.PIPE) as browse:
                expect_page(browse.ask("/?p=4"), pages["/?p=4"], f"a post at start {number}")
                line = json.dumps({"cmd": "option", "name": "x", "value": str(number)}).encode()
                expect(browse.edit(line).text(), "ok", "an edit")
                expect(browse.edit(b"{}").text(), "refused 1 BadCommand", "a line that is no command")
                expect(browse.edit(b'{"cmd":"get","path":"/"}').page, pages["/"].page, "a page as a line")
                pipe(browse.process.stdin).close()
                expect_page(browse.ask("/"), pages["/"], "a page after the last edit")
        with Browse(program, "--database", str(Path(folder, "new.db")), "--edits", given=subprocess.PIPE) as browse:
            expect(browse.ask("/").body, b"<p>Nothing found.</p>", "the front of a new site")
            expect(browse.edit(put_line("T")).text(), "ok 1", "an edit of a new site")
            expect(browse.ask("/").body, page_of("T"), "the front after it")


def lines_are_counted(program: str) -> None:
    """each program is replaced before its last line, amid edits and pages, and no visitor is refused for it"""
    with tempfile.TemporaryDirectory() as folder:
        path, pids = traced(folder, program)
        words = ("--database", str(Path(folder, "site.db")), "--edits", "--lines", "40")
        with Browse(path, *words, given=subprocess.PIPE) as browse, ThreadPoolExecutor(4) as pool:
            before = len(pids())
            expect(browse.edit(put_line("T")).text(), "ok 1", "the first edit")
            for number in range(2, 30):
                asked = [pool.submit(browse.ask, "/?p=1") for _ in range(4)]
                line = json.dumps({"cmd": "edit", "id": 1, "title": f"T{number}"}).encode()
                expect(browse.edit(line).text(), "ok", f"edit {number}")
                expect({it.result().status for it in asked}, {200}, "statuses of pages")
                expect(browse.ask("/?p=1").body, page_of(f"T{number}"), f"the page after edit {number}")
            expect(len(pids()) - before >= 4, True, f"only {len(pids()) - before} programs were started")
            status, said = browse.interrupted()
            expect((status, "refused" in said), (0, False), f"status and standard error: {said!r}")
        many = Path(folder, "many.jsonl")
        many.write_bytes(put_line("T") + b"\n")
        with Browse(path, "--lines", "40", many) as browse:
            for _ in range(100):
                expect(browse.ask("/?p=1").body, page_of("T"), "a page of a site in memory")


def lost_replies_are_told(program: str) -> None:
    """if the program ends in an edit, it says that nobody knows whether it was done, and all pages agree afterwards"""
    with tempfile.TemporaryDirectory() as folder:
        path, pids = traced(folder, program)
        words = ("--database", str(Path(folder, "site.db")), "--edits")
        with Browse(path, *words, given=subprocess.PIPE) as browse:
            expect(browse.edit(put_line("T")).text(), "ok 1", "the first edit")
            [pid] = [pid for pid, words in pids() if "--database" in words and "--export" not in words]
            os.kill(pid, signal.SIGSTOP)
            browse.send(put_line("U"))
            time.sleep(0.2)
            os.kill(pid, signal.SIGKILL)
            last = int(browse.edit(put_line("V")).words[1])
            expect(last in (2, 3), True, f"the ID after the lost reply: {last}")
            expect("line 2: the program ended before it had replied" in browse.said(), True, browse.said())
            expect({browse.ask(f"/?p={last}").body for _ in range(4)}, {page_of("V")}, "the page after it")
            expect(len({browse.ask("/?p=2").body for _ in range(4)}), 1, "how many pages of post 2 there are")


CHECKS = [
    pages_are_served,
    what_ran_is_shown,
    odd_paths_are_served,
    paths_come_unchanged,
    paths_have_limits,
    pages_have_titles,
    heads_are_served,
    other_methods_are_refused,
    refusals_are_named,
    bad_requests_are_told,
    responses_say_what_they_are,
    requests_come_in_parallel,
    stalled_connections_are_closed,
    other_hosts_are_refused,
    other_programs_are_told,
    other_addresses_are_closed,
    taken_ports_are_told,
    refused_lines_are_told,
    bad_arguments_are_told,
    interrupts_end_it,
    ends_are_made_good,
    ends_are_told,
    sites_last,
    lines_are_counted,
    lost_replies_are_told,
    *edit_checks.CHECKS,
]


def main() -> int:
    program = parser_of(__doc__).parse_args().program
    absent, counts = missing(program), Counts()
    for check in CHECKS:
        counts.judge(check.__doc__, partial(must, False, absent) if absent else partial(check, program))
    return counts.end()
