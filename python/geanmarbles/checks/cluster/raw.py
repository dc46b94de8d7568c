"""Requests as bytes over a connection, and what comes of them: whole responses, and the connection's end."""

from __future__ import annotations

import contextlib
import re
import socket
import time
from typing import NamedTuple, Self

from geanmarbles.client.replies import Wrong

# How long a response may take, on a machine that has much else to do; and after how long without a byte a connection
# counts as one that stays.
SECONDS, QUIET_SECONDS = 20, 0.4
HEAD = re.compile(rb"HTTP/1\.[01] ([1-5][0-9]{2}) [^\r\n]*\r\n((?:[^\r\n]+\r\n)*)\r\n")


class Response(NamedTuple):
    """A response that has come whole."""

    status: int
    fields: dict[str, str]
    body: bytes


class Raw:
    """A connection, for a `with` block."""

    def __init__(self, address: tuple[str, int], seconds: float = SECONDS, buffer: int = 0) -> None:
        """`buffer` is how many bytes the system may keep for the client to read, if that is to be few."""
        self.socket = socket.socket()
        if buffer:
            self.socket.setsockopt(socket.SOL_SOCKET, socket.SO_RCVBUF, buffer)
        self.socket.settimeout(seconds)
        self.socket.connect(address)
        self.seconds, self.came = seconds, b""

    def __enter__(self) -> Self:
        return self

    def __exit__(self, *_: object) -> None:
        self.socket.close()

    def send(self, text: bytes) -> None:
        """Sends some bytes, as far as the other side takes them."""
        with contextlib.suppress(BrokenPipeError, ConnectionResetError):
            self.socket.sendall(text)

    def more(self) -> bool:
        """Whether more has come; it hasn't at the end. Raises TimeoutError if nothing comes."""
        try:
            came = self.socket.recv(1 << 16)
        except ConnectionResetError:
            return False
        self.came += came
        return bool(came)

    def response(self, method: str = "GET") -> Response | None:
        """The next response, or None at the end."""
        while not (head := HEAD.match(self.came)):
            if not self.more():
                if self.came:
                    raise Wrong(f"no response, but {self.came[:80]!r}")
                return None
        self.came = self.came[head.end() :]
        lines = head[2].decode("iso-8859-1").splitlines()
        fields = {name.lower(): it.strip() for name, _, it in (line.partition(":") for line in lines)}
        status = int(head[1])
        size = 0 if method == "HEAD" or status in (100, 304) else int(fields.get("content-length", "0"))
        while len(self.came) < size:
            if not self.more():
                raise Wrong(f"a response {status} of {size} bytes ends after {len(self.came)}")
        body, self.came = self.came[:size], self.came[size:]
        return Response(status, fields, body)

    def rest(self) -> tuple[list[Response], bool]:
        """All responses that come until nothing comes for a moment, and whether the connection has ended."""
        found: list[Response] = []
        while True:
            self.socket.settimeout(self.seconds if not found else QUIET_SECONDS)
            try:
                response = self.response()
            except TimeoutError:
                return found, False
            if response is None:
                return found, True
            found.append(response)

    def is_closed_by(self, until: float) -> bool:
        """Whether the other side ends the connection, by a time at the latest."""
        while (left := until - time.monotonic()) > 0:
            self.socket.settimeout(left)
            try:
                if not self.more():
                    return True
            except TimeoutError:
                return False
        return False


def asked(address: tuple[str, int], text: bytes, seconds: float = SECONDS) -> tuple[list[Response], bool]:
    """What comes of some bytes, and whether the connection has ended after it."""
    with Raw(address, seconds) as raw:
        raw.send(text)
        return raw.rest()
