"""`geanmarbles browse` as a child process, and what its checks say if something came otherwise than it must.

It is a module, and runs nothing by itself.
"""

from __future__ import annotations

import http.client
import re
import signal
import socket
import subprocess
import tempfile
import threading
import time
from collections.abc import Mapping
from pathlib import Path
from typing import Any, NamedTuple, Self

from geanmarbles.client.program import pipe
from geanmarbles.client.replies import Reply, Wrong, read_reply
from geanmarbles.paths import GEANMARBLES

SECONDS = 30
# How long the programs of one that was killed may take to end.
ENDING = 5
PLAIN = "text/plain; charset=utf-8"


def expect(came: object, wanted: object, what: object) -> None:
    if came != wanted:
        raise Wrong(f"{what}: {came!r} came, wanted {wanted!r}")


class Response(NamedTuple):
    """A response that was read to its end."""

    status: int
    kind: str
    body: bytes
    headers: http.client.HTTPMessage


def read_response(came: http.client.HTTPResponse) -> Response:
    body = came.read()
    return Response(came.status, came.headers["Content-Type"], body, came.headers)


def take_interrupts() -> None:
    """Has a child end by SIGINT also if this script runs in the background, in which shells ignore it."""
    signal.signal(signal.SIGINT, signal.default_int_handler)


def children_of(pid: int) -> list[int]:
    """The processes that a process has started and that are there."""
    try:
        found = [it.joinpath("children").read_text("ascii") for it in Path(f"/proc/{pid}/task").iterdir()]
        return [int(it) for listed in found for it in listed.split()]
    except OSError:
        return []


def has_ended(pid: int) -> bool:
    """Whether a process is gone, or waits for nothing but that its end is heard of."""
    try:
        return Path(f"/proc/{pid}/stat").read_text("utf-8", "replace").rpartition(")")[2].split()[0] in "ZX"
    except OSError:
        return True


class Browse:
    """`geanmarbles browse`, serving on a free port until the `with` block ends."""

    def __init__(
        self,
        program: str | Path | None,
        *words: str | Path,
        env: dict[str, str] | None = None,
        given: int | None = None,
    ) -> None:
        program_words = ["--program", program] if program else []
        command = [GEANMARBLES, "browse", *program_words, "--port", "0", *words]
        self.error_file = tempfile.TemporaryFile()
        how: dict[str, Any] = {
            "stdout": subprocess.PIPE,
            "stderr": self.error_file,
            "preexec_fn": take_interrupts,
            "env": env,
        }
        how |= {"stdin": given} if given else {}
        self.process: subprocess.Popen[bytes] = subprocess.Popen(command, **how)
        self.output = pipe(self.process.stdout)
        self.timer = threading.Timer(4 * SECONDS, self.process.kill)
        self.timer.start()
        address = re.fullmatch(rb"http://127\.0\.0\.1:(\d+)/\n", self.output.readline())
        if not address:
            self.__exit__()
            raise Wrong(f"it said no address, but {self.errors()!r}")
        self.port = int(address[1])

    def __enter__(self) -> Self:
        return self

    def __exit__(self, *_: object) -> None:
        self.timer.cancel()
        programs = children_of(self.process.pid)
        self.process.kill()
        self.process.wait()
        self.output.close()
        # Its programs end once they see that it is gone. Until then a site's file is in use.
        until = time.monotonic() + ENDING
        while not all(map(has_ended, programs)) and time.monotonic() < until:
            time.sleep(0.01)

    def errors(self) -> str:
        """What it has written to standard error."""
        self.error_file.seek(0)
        return self.error_file.read().decode()

    def edit(self, line: bytes) -> Reply:
        """The reply to a line of standard input."""
        self.send(line)
        return read_reply(self.output)

    def send(self, line: bytes) -> None:
        """Sends a line of standard input, whose reply is read later."""
        given = pipe(self.process.stdin)
        given.write(line + b"\n")
        given.flush()

    def ask(
        self,
        path: str,
        method: str = "GET",
        body: bytes | None = None,
        headers: Mapping[str, Any] | None = None,
    ) -> Response:
        connection = http.client.HTTPConnection("127.0.0.1", self.port, timeout=SECONDS)
        try:
            connection.request(method, path, body, headers or {})
            return read_response(connection.getresponse())
        finally:
            connection.close()

    def ask_bytes(
        self, path: bytes, method: bytes = b"GET", version: bytes = b"HTTP/1.1", headers: bytes = b"Host: 127.0.0.1\r\n"
    ) -> Response:
        """Asks for a path that the client itself might refuse to send, and reads all that comes as the page."""
        with self.connected() as connection:
            connection.sendall(method + b" " + path + b" " + version + b"\r\n" + headers + b"\r\n")
            response = http.client.HTTPResponse(connection)
            response.begin()
            response.length = None
            return read_response(response)

    def said(self) -> str:
        """The same without the requests that it tells."""
        lines = self.errors().splitlines(keepends=True)
        return "".join(line for line in lines if not line.startswith("127.0.0.1 - - "))

    def connected(self) -> socket.socket:
        return socket.create_connection(("127.0.0.1", self.port), SECONDS)

    def ended(self) -> int:
        """Its exit status, once it has ended."""
        return self.process.wait(SECONDS)

    def interrupted(self) -> tuple[int, str]:
        """Its exit status after Ctrl-C, and what it has said."""
        self.process.send_signal(signal.SIGINT)
        return self.ended(), self.said()


def ran(script: str, *words: object, env: dict[str, str] | None = None) -> tuple[int, str, str]:
    """A run of an example's script that must end by itself."""
    run = subprocess.run(
        [GEANMARBLES, script, *map(str, words)], capture_output=True, text=True, timeout=SECONDS, env=env
    )
    return run.returncode, run.stdout, run.stderr


def expect_plain(response: Response, status: int, text: bytes, what: object) -> None:
    expect((response.status, response.kind, response.body), (status, PLAIN, text), what)
