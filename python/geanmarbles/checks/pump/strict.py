"""A strict client, h11, over a port: whatever comes that isn't what it may be is an error. Run as a process of its own,
by a Python that has h11."""

import socket
import sys
from importlib import import_module
from typing import Any, NamedTuple

from geanmarbles.checks.over_http import PUT, TOKEN, same

PIECE = 7
h11: Any = import_module("h11")


class Answer(NamedTuple):
    status: int
    fields: dict[str, str]
    body: bytes


class Strict:
    """A connection of h11's."""

    def __init__(self, port: int) -> None:
        self.socket = socket.create_connection(("127.0.0.1", port), 20)
        self.state: Any = h11.Connection(h11.CLIENT)

    def ask(self, method: str, target: str, body: bytes = b"", **fields: str) -> Answer:
        """What comes of a request over this connection, which stays. Its body goes in pieces."""
        named = [("Host", "site"), *((name.replace("_", "-"), it) for name, it in fields.items())]
        if body and "Transfer_Encoding" not in fields:
            named.append(("Content-Length", str(len(body))))
        self.send(h11.Request(method=method, target=target, headers=named))
        if "Expect" in fields:
            same(self.event().status_code, 100, "what a client that waits is told")
        for at in range(0, len(body), PIECE):
            self.send(h11.Data(data=body[at : at + PIECE]))
        self.send(h11.EndOfMessage())
        first, parts = self.event(), []
        while not isinstance(event := self.event(), h11.EndOfMessage):
            parts.append(bytes(event.data))
        same((self.state.our_state, self.state.their_state), (h11.DONE, h11.DONE), "the states after a response")
        self.state.start_next_cycle()
        return Answer(first.status_code, {name.decode(): it.decode() for name, it in first.headers}, b"".join(parts))

    def send(self, event: Any) -> None:
        self.socket.sendall(self.state.send(event) or b"")

    def event(self) -> Any:
        while (event := self.state.next_event()) is h11.NEED_DATA:
            self.state.receive_data(self.socket.recv(1 << 16))
        return event


def main() -> None:
    port = int(sys.argv[1])
    client = Strict(port)
    token = {"Authorization": f"Bearer {TOKEN}"}
    answer = client.ask("POST", "/command", PUT % b"Oat", **token)
    same((answer.status, answer.body), (200, b"ok 2\n"), "an edit")
    answer = client.ask("POST", "/command", PUT % b"Oat", Transfer_Encoding="chunked", **token)
    same((answer.status, answer.body), (200, b"ok 3\n"), "an edit in chunks")
    answer = client.ask("POST", "/command", b"{}", Expect="100-continue", **token)
    same((answer.status, answer.body), (200, b"refused 1 BadCommand\n"), "an edit of a client that waits")
    page = client.ask("GET", "/?p=2")
    same((page.status, page.body), (200, b"<h2>Oat</h2>"), "a page")
    head = client.ask("HEAD", "/?p=2")
    same((head.status, head.body, head.fields), (200, b"", page.fields), "its head")
    again = client.ask("GET", "/?p=2", If_None_Match=page.fields["etag"])
    same((again.status, again.body), (304, b""), "the page again")
    for method, target, status in (
        ("PUT", "/", 501),
        ("POST", "/", 405),
        ("GET", "/?p=99", 404),
        ("OPTIONS", "*", 400),
    ):
        same(client.ask(method, target).status, status, f"{method} {target}")
    same(client.ask("POST", "/command", b"{}").status, 401, "an edit without the token")
    same(client.ask("GET", "/" + "a" * 9_000).status, 414, "a path that is too long for a page")
