"""How scripts end their programs, and what they say of an edit whose response is lost."""

import json
import tempfile
import threading
import time
from collections.abc import Iterator
from contextlib import contextmanager
from http.server import BaseHTTPRequestHandler, ThreadingHTTPServer
from pathlib import Path

from geanmarbles.checks.programs import executable
from geanmarbles.checks.units.test_etcd import raised
from geanmarbles.client.program import Program
from geanmarbles.client.watched import MARK, is_end_of_mark
from geanmarbles.supervisor import served
from geanmarbles.supervisor.kept import NotKept

# Reads its input to its end, writes more than a pipe takes, and then makes a file, as a program copies its log.
SLOW = '#!/bin/sh\ncat >/dev/null\nhead -c 300000 /dev/zero\nsleep 0.2\necho done >"$1"\n'


def test_a_program_ends_by_itself_with_its_block() -> None:
    with tempfile.TemporaryDirectory() as folder:
        for name in ("quiet", "with an exception"):
            made = Path(folder, name)
            try:
                with Program(str(executable(folder, "slow", SLOW)), str(made)) as program:
                    if name != "quiet":
                        raise KeyboardInterrupt
            except KeyboardInterrupt:
                pass
            assert made.exists() and program.child.returncode == 0, name
            program.end()


def test_a_program_that_does_not_end_is_killed() -> None:
    with tempfile.TemporaryDirectory() as folder:
        for text in ("#!/bin/sh\nexec sleep 60\n", "#!/bin/sh\nexec 1>&-\nexec sleep 60\n", "#!/bin/sh\nexec yes\n"):
            program, begun = Program(str(executable(folder, "stays", text))), time.monotonic()
            program.end(0.3)
            assert program.child.returncode == -9 and time.monotonic() - begun < 10, text


def test_the_mark_of_the_log_ends_with_its_page() -> None:
    line: dict[str, object] = {
        "page": MARK,
        "count": 1,
        "hook": "init",
        "callback": 7,
        "depth": 0,
        "args": ['"invocations":1'],
    }
    end: dict[str, object] = {"page": MARK, "status": 404, "bytes": 0, "invocations": 2}
    later: dict[str, object] = {**end, "page": "/"}
    lines = [json.dumps(it, separators=(",", ":")).encode() + b"\n" for it in (line, end, later)]
    assert [is_end_of_mark(it) for it in lines] == [False, True, False]
    assert not is_end_of_mark(lines[1][:30])


class Losing(BaseHTTPRequestHandler):
    """A server that makes each edit, and answers only those after the first."""

    headers_of_pages: dict[str, str] = {}
    keys: list[str] = []

    def log_message(self, *_: object) -> None:
        """Nothing is logged."""

    def do_HEAD(self) -> None:
        self.send_response(404)
        for name, value in self.headers_of_pages.items():
            self.send_header(name, value)
        self.end_headers()

    def do_POST(self) -> None:
        self.rfile.read(int(self.headers["Content-Length"]))
        self.keys.append(self.headers["Idempotency-Key"])
        if len(self.keys) > 1:
            self.send_response(200)
            self.end_headers()
            self.wfile.write(b"ok 7\n")


@contextmanager
def losing(headers: dict[str, str]) -> Iterator[str]:
    Losing.headers_of_pages, Losing.keys = headers, []
    pause, served.PAUSE_SECONDS = served.PAUSE_SECONDS, 0
    with ThreadingHTTPServer(("127.0.0.1", 0), Losing) as server:
        threading.Thread(target=server.serve_forever, daemon=True).start()
        yield f"http://127.0.0.1:{server.server_port}/"
        server.shutdown()
    served.PAUSE_SECONDS = pause


def test_an_edit_is_sent_again_to_a_cluster_alone() -> None:
    with losing({"X-Site-Revision": "3"}) as address:
        assert served.edited(address, "token", b"{}") == "ok 7"
        assert len(Losing.keys) == 2 and len(set(Losing.keys)) == 1
    others: tuple[dict[str, str], ...] = ({}, {"Server": "nginx"})
    for headers in others:
        with losing(headers) as address:
            said = str(raised(NotKept, lambda: served.edited(address, "token", b"{}")))
            assert said.startswith("whether the edit was made isn't known: ") and len(Losing.keys) == 1
