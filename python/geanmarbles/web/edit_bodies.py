"""What a request that brings edits may hold, and how its body is read: of a node of a cluster and of geanmarbles
browse.

docs/CLUSTER.md (Requests) says the same to those who send one.
"""

import hmac
import json
import re
import secrets
from typing import Any

from geanmarbles.client.program import LINE_BYTES
from geanmarbles.web.pages import PageHandler

EDITS = {"put", "edit", "delete", "option", "activate", "deactivate", "template", "import"}
# What one request may hold.
BODY_BYTES, BODY_LINES = 8 << 20, 10_000
# What a client is told that waits to send a body.
CONTINUE = b"HTTP/1.1 100 Continue\r\n\r\n"
# The most digits of a number in a header: those of etcd's largest revision.
DIGITS = 19
# A client's own key for a request.
KEY = re.compile(r"[!-~]{1,200}")


class Bad(Exception):
    """Why a request is refused: the status, what the client is told, and headers that go with it."""

    def __init__(self, status: int, text: str, **headers: str) -> None:
        super().__init__(text)
        self.status, self.text, self.headers = status, text, headers


def number(text: str) -> int | None:
    """The number that a text is, or None."""
    text = text.strip()
    return int(text) if text.isascii() and text.isdigit() and len(text) <= DIGITS else None


def check_token(token: bytes, given: str | None) -> None:
    """Makes sure that a request has the token. The time that this takes doesn't tell how much of one is right."""
    if not hmac.compare_digest((given or "").encode("utf-8", "replace"), b"Bearer " + token):
        raise Bad(401, "the token is missing or wrong", WWW_Authenticate="Bearer")


def check_length(size: int | None) -> int:
    """The length that a body has by its headers, if it may have it."""
    if size is None:
        raise Bad(411, "the body's length has to be told by Content-Length")
    if size > BODY_BYTES:
        raise Bad(413, f"the body has {size} bytes, and at most {BODY_BYTES} are taken at once")
    return size


def key_of(given: str | None) -> str:
    """The key of a request: the client's own, or a new one."""
    if given is None:
        return secrets.token_hex(16)
    if not KEY.fullmatch(given):
        raise Bad(400, "Idempotency-Key has 1 to 200 visible ASCII characters")
    return given


def lines_of_body(body: bytes) -> list[bytes]:
    """The edits of a body. Each is looked at before any is carried out."""
    lines = body.split(b"\n")
    if not lines[-1]:
        lines.pop()
    if not lines:
        raise Bad(400, "there is no line")
    if len(lines) > BODY_LINES:
        raise Bad(413, f"there are {len(lines)} lines, and at most {BODY_LINES} are taken at once")
    for number, line in enumerate(lines, 1):
        if why := fault_of(line):
            raise Bad(400, f"line {number}: {why}")
    return lines


def fault_of(line: bytes) -> str:
    """Why a line isn't an edit, or an empty text."""
    if len(line) > LINE_BYTES:
        return f"it has {len(line)} bytes, and at most {LINE_BYTES} are read"
    try:
        command = json.loads(line.decode())
    except UnicodeDecodeError:
        return "it isn't UTF-8"
    except (ValueError, RecursionError):
        return "it isn't JSON"
    if not isinstance(command, dict):
        return "it isn't a JSON object"
    name = command.get("cmd")
    if not isinstance(name, str) or name not in EDITS:
        return "its `cmd` isn't an edit's: " + ", ".join(sorted(EDITS))
    return ""


class EditHandler(PageHandler):
    """The requests of one connection that may bring edits."""

    def methods(self) -> dict[str, Any]:
        return {**super().methods(), "POST": self.do_POST}

    def do_POST(self) -> None:
        raise NotImplementedError

    def body(self) -> bytes:
        """The body of the request. A client that waits to be told to send it is told so, once its length is right."""
        size = check_length(self.head.length)
        if self.head.waits and not self.stream.has_more():
            self.stream.send(CONTINUE)
        self.is_read = True
        try:
            body = self.stream.body(size)
        except TimeoutError:
            self.close_connection = True
            raise Bad(408, "the body hasn't come in time") from None
        if len(body) < size:
            self.close_connection = True
            raise Bad(400, "the body is shorter than its Content-Length")
        return body
