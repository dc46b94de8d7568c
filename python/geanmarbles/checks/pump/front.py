"""The pump and what may stand before it: requests that two servers might read in two ways, proxies, and clients that
others have written. What isn't installed is skipped."""

from __future__ import annotations

import json
import os
import re
import shutil
import signal
import subprocess
import sys
import tempfile
from collections.abc import Callable, Iterator
from concurrent.futures import ThreadPoolExecutor
from contextlib import contextmanager
from functools import partial
from pathlib import Path

from geanmarbles.checks.cluster.attacks import Attack, attacks
from geanmarbles.checks.cluster.processes import free_port, wait_for
from geanmarbles.checks.cluster.raw import Raw, Response, asked
from geanmarbles.checks.judging import Skipped, must
from geanmarbles.checks.over_http import PUT, SECONDS, TOKEN, edit, same, sent
from geanmarbles.checks.pump.serving import GET, Serve
from geanmarbles.client.replies import Wrong
from geanmarbles.paths import command

# What each list of attacks may add to the memory of pump and program, in kilobytes, once there was one.
GROWN = 20_000
# What is an attack on a node and can be read in one way alone, so that the program takes it, with all statuses that
# come; the last one is that of the request after it.
BOTH = [200, 404]
SOUND: dict[str, list[int]] = {
    # One length, said twice. Of the last of these, the one byte of the body is the first of the next request.
    **{"one length twice": [200], "one length, written in two ways": [200], "Content-Length twice": [200, 501]},
    # An edit without a length has no body.
    **{"no length": BOTH, "a length under another name": BOTH},
    # Fields that have no say here, a user in a target, and empty lines before a request.
    **{f"{name} twice": BOTH for name in ("Authorization", "Content-Type", "Idempotency-Key")},
    **{f"{name} twice": BOTH for name in ("X-Site-Fresh", "X-Site-Revision")},
    **{"an expectation that nobody has": BOTH, "a request line: a host with a user": BOTH},
    "two empty lines before it": BOTH,
    # The program takes larger heads than a node; of paths only so much that this page is refused.
    **{"a long path": [414, 404], "a long field": BOTH, "one byte too many": BOTH},
}
NGINX = """daemon off; pid {folder}/nginx.pid; error_log stderr; user root;
events {{ worker_connections 512; }}
http {{
    access_log off; client_body_temp_path {folder}/body; proxy_temp_path {folder}/proxy; client_max_body_size 8m;
    upstream site {{ server {backend}; keepalive 32; keepalive_timeout 30s; }}
    server {{
        listen {front};
        proxy_http_version 1.1; proxy_set_header Connection ""; proxy_set_header Host $host;
        location / {{ proxy_pass http://site; }}
        location = /command {{ proxy_pass http://site; proxy_request_buffering off; }}
    }}
}}
"""
HAPROXY = """defaults
    mode http
    timeout connect 2s
    timeout client 30s
    timeout server 40s
    timeout http-keep-alive 8s
frontend site
    bind {front}
    default_backend sites
backend sites
    option httpchk GET /
    http-reuse always
    server site {backend} check inter 1s
"""


def attacked(serve: Serve, attack: Attack) -> None:
    """An attack gets one refusal and its connection's end, unless it is no attack."""
    responses, is_closed = asked(serve.address, attack.sent)
    statuses = [it.status for it in responses]
    if attack.name in SOUND:
        same(statuses, SOUND[attack.name], "the statuses")
        return
    must(len(statuses) == 1 and 400 <= statuses[0] < 600, f"{statuses} came")
    must(is_closed, f"the connection stays after {statuses}")
    same(responses[0].fields.get("connection"), "close", "what it says of the connection")


def cases(program: str) -> Iterator[tuple[str, Callable[[], None]]]:
    """Each attack, and that all of them leave the program as it was."""
    with Serve(program) as serve:
        pid, before = serve.pid(), 0
        for attack in attacks(TOKEN):
            yield f"attack: {attack.name}", partial(attacked, serve, attack)
        before = serve.kilobytes()
        yield "attacks: they leave the program as it was", partial(unharmed, serve, pid, before)


def unharmed(serve: Serve, pid: int, before: int) -> None:
    with ThreadPoolExecutor(16) as pool:
        for _ in range(3):
            for _ in pool.map(lambda it: asked(serve.address, it.sent), attacks(TOKEN)):
                pass
    serve.is_served()
    same((serve.pid(), serve.process.said()), (pid, ""), "the program, and what was said")
    grown = serve.kilobytes() - before
    must(grown < GROWN, f"{grown} kB more are held")


def need(name: str, package: str | None = None) -> str:
    """The path of a program that isn't ours."""
    found = shutil.which(name, path="/usr/local/sbin:/usr/sbin:/sbin:/usr/local/bin:/usr/bin:/bin")
    if found is None:
        raise Skipped(f"there is no {name} here (Debian: {package or name})")
    return found


@contextmanager
def behind(serve: Serve, name: str) -> Iterator[tuple[str, int]]:
    """The address of a proxy before the pump, until the block ends."""
    port, backend, folder = free_port(), "%s:%d" % serve.address, serve.folder / name
    folder.mkdir()
    file, front = folder / "conf", f"127.0.0.1:{port}"
    if name == "nginx":
        words = [need("nginx", "nginx-light"), "-c", str(file)]
        file.write_text(NGINX.format(folder=folder, front=front, backend=backend), encoding="utf-8")
    else:
        words = [need("haproxy"), "-db", "-f", str(file)]
        file.write_text(HAPROXY.format(front=front, backend=backend), encoding="utf-8")
    process = serve.processes.start(name, words)
    wait_for(lambda: status_of(("127.0.0.1", port), GET) == 200, SECONDS, f"{name} answers: {process.said()}", 0.2)
    yield "127.0.0.1", port
    process.end()


def response_of(address: tuple[str, int], request: bytes) -> Response | None:
    with Raw(address) as raw:
        raw.send(request)
        return raw.response("POST")


def status_of(address: tuple[str, int], request: bytes) -> int:
    """The status of a response, or 0 if none comes."""
    try:
        found = response_of(address, request)
    except (OSError, Wrong):
        return 0
    return found.status if found else 0


def by_proxy(program: str, name: str) -> None:
    """Pages and edits through a proxy, many at once, over connections that it keeps, also after a program's end."""
    with Serve(program) as serve, behind(serve, name) as address:
        same(status_of(address, sent("GET", "/?p=99")), 404, "a page that isn't there")
        for number in range(2, 12):
            made = response_of(address, edit(PUT % b"post %d" % number))
            same(made and made.body, b"ok %d\n" % number, "an edit")
            shown = response_of(address, sent("GET", f"/?p={number}"))
            same(shown and shown.body, b"<h2>post %d</h2>" % number, "its page")
        same(status_of(address, edit(b"{}", token="other")), 401, "an edit without the token")

        def ask(number: int) -> None:
            with Raw(address) as raw:
                for at in range(50):
                    post = 2 + (number + at) % 10
                    raw.send(sent("GET", f"/?p={post}"))
                    response = raw.response()
                    same(response and response.body, b"<h2>post %d</h2>" % post, f"the page of post {post}")

        with ThreadPoolExecutor(24) as pool:
            for done in [pool.submit(ask, number) for number in range(24)]:
                done.result()
        os.kill(serve.pid(), signal.SIGKILL)
        wait_for(lambda: status_of(address, GET) == 200, SECONDS, "pages come again")


def by_curl(program: str) -> None:
    """curl: pages, heads, conditions, edits, an expectation, both versions"""
    curl = [need("curl"), "--silent", "--show-error", "--max-time", "20", "--noproxy", "*"]
    with Serve(program) as serve, tempfile.TemporaryDirectory() as folder:
        url, out = serve.place, Path(folder, "out")

        def ran(*words: str) -> tuple[str, str]:
            told = "%{http_code} %{num_connects} %{http_version}\n"
            done = subprocess.run([*curl, "-w", told, "-o", str(out), *words], capture_output=True, text=True)
            must(done.returncode == 0, f"{words}: {done.stderr}")
            return done.stdout, out.read_text("utf-8") if out.exists() else ""

        same(ran(url), ("200 1 1.1\n", "<h2>Rye</h2>"), "a page")
        same(ran("--http1.0", url), ("200 1 1\n", "<h2>Rye</h2>"), "a page by HTTP/1.0")
        same(ran("--head", url)[0], "200 1 1.1\n", "a head")
        tag = re.search('etag: ("[^"]+")', out.read_text("utf-8"))
        same(ran("--header", f"If-None-Match: {tag and tag[1]}", url)[0], "304 1 1.1\n", "a page that it has")
        same(ran(url, "--next", "-s", "-o", str(out), "-w", "%{num_connects}", url)[0], "200 1 1.1\n0", "two pages")
        token, body = ["--header", f"Authorization: Bearer {TOKEN}"], json.dumps({"cmd": "x"})
        posted = ["--data-binary", body, f"{url}command"]
        same(ran(*token, *posted), ("200 1 1.1\n", "refused 1 BadCommand\n"), "an edit")
        same(ran(*token, "--header", "Expect: 100-continue", *posted)[0], "200 1 1.1\n", "an edit that waits")
        same(ran(*token, "--header", "Transfer-Encoding: chunked", *posted)[0], "200 1 1.1\n", "an edit in chunks")
        same(ran(*posted)[0], "401 1 1.1\n", "an edit without the token")


def by_h11(program: str) -> None:
    """h11, a strict client"""
    for python in (sys.executable, "/usr/bin/python3"):
        if shutil.which(python) and not subprocess.run([python, "-c", "import h11"], capture_output=True).returncode:
            break
    else:
        raise Skipped("there is no h11 here (Debian: python3-h11)")
    with Serve(program) as serve:
        words = [python, *command("tests/pump/strict")[1:], str(serve.address[1])]
        ran = subprocess.run(words, capture_output=True, text=True, timeout=SECONDS, check=False)
        same((ran.returncode, ran.stderr), (0, ""), "its end")


PROXIES = ("nginx", "haproxy")
CLIENTS = {"curl": by_curl, "h11": by_h11}
OTHERS = (*PROXIES, *CLIENTS)


def others(program: str, name: str) -> Iterator[tuple[str, Callable[[], None]]]:
    """The check of a proxy or of a client that others have written."""
    if name in PROXIES:
        yield f"pump: pages and edits through {name}", partial(by_proxy, program, name)
    else:
        yield f"pump: {CLIENTS[name].__doc__}", partial(CLIENTS[name], program)
