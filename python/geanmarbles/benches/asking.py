"""A process of clients that each ask one thing after another of some nodes, over a connection that stays.

benches.cluster starts some, with these arguments:

    pages SECONDS CLIENTS PATHS TARGET..
    edits SECONDS CLIENTS LINES TOKEN NAME TARGET..

A TARGET is HOST:PORT; clients are spread over them. For pages, PATHS is how many posts are asked for in turn. For
edits, LINES is how many edits a request has, and NAME begins the keys of requests. It prints how many pages, or edits,
were answered as they must be within the time, and how many seconds that took. Anything else ends it with status 1.
"""

import http.client
import json
import sys
import threading
import time
from collections.abc import Iterator, Mapping, Sequence

CONTENT = "Some words of a post, as they are edited. " * 5
POSTS, DATE = 1_000, "2024-05-01 10:00:00"
NO_HEADERS: Mapping[str, str] = {}


def edit_line(at: int, base: str) -> bytes:
    """An edit of a site by its place: posts are stored up to a number, and then edited in turns."""
    keys: dict[str, object]
    if at < POSTS:
        keys = {"cmd": "put", "title": f"Post {base} {at}", "content": CONTENT, "date": DATE}
    else:
        keys = {"cmd": "edit", "id": 1 + at % POSTS, "content": f"{CONTENT}{base} {at}"}
    return json.dumps(keys, separators=(",", ":")).encode()


class Client(threading.Thread):
    """One client, until a time is over."""

    def __init__(self, target: str, until: float) -> None:
        super().__init__()
        host, _, port = target.rpartition(":")
        self.connection = http.client.HTTPConnection(host, int(port), timeout=60)
        self.until, self.count = until, 0
        self.fault: str | None = None

    def ask(self) -> int:
        """Asks one thing, and returns for how many it counts."""
        raise NotImplementedError

    def run(self) -> None:
        try:
            while time.monotonic() < self.until:
                self.count += self.ask()
        except (OSError, http.client.HTTPException, ValueError) as fault:
            self.fault = repr(fault)

    def answer(
        self, method: str, path: str, body: bytes | None = None, headers: Mapping[str, str] = NO_HEADERS
    ) -> tuple[int, bytes]:
        self.connection.request(method, path, body, headers)
        response = self.connection.getresponse()
        return response.status, response.read()


class Reader(Client):
    def __init__(self, target: str, until: float, posts: int, number: int) -> None:
        super().__init__(target, until)
        self.posts, self.at = posts, number

    def ask(self) -> int:
        self.at += 1
        status, page = self.answer("GET", f"/?p={1 + self.at % self.posts}")
        if status != 200 or not page:
            raise ValueError(f"a page is answered by {status}")
        return 1


class Editor(Client):
    def __init__(self, target: str, until: float, lines: int, token: str, name: str) -> None:
        super().__init__(target, until)
        self.lines, self.token, self.name, self.made = lines, token, name, 0

    def ask(self) -> int:
        self.made += 1
        lines = [edit_line((self.made * self.lines + at) % (2 * POSTS), self.name) for at in range(self.lines)]
        headers = {"Authorization": f"Bearer {self.token}", "Idempotency-Key": f"{self.name}-{self.made}"}
        status, replies = self.answer("POST", "/command", b"\n".join(lines), headers)
        if status != 200 or len(replies.splitlines()) != self.lines:
            raise ValueError(f"edits are answered by {status} {replies[:100]!r}")
        return self.lines


def clients_of(words: Sequence[str]) -> Iterator[Client]:
    kind, seconds, counted, number, *rest = words
    begin, count = time.monotonic(), int(counted)
    until = begin + float(seconds)
    targets = rest if kind == "pages" else rest[2:]
    for at in range(count):
        target = targets[at % len(targets)]
        if kind == "pages":
            yield Reader(target, until, int(number), at)
        else:
            yield Editor(target, until, int(number), rest[0], f"{rest[1]}.{at}")


def main() -> None:
    begin = time.monotonic()
    clients = list(clients_of(sys.argv[1:]))
    for client in clients:
        client.start()
    for client in clients:
        client.join()
    faults = [client.fault for client in clients if client.fault]
    if faults:
        sys.exit(f"asking: {faults[0]}")
    print(sum(client.count for client in clients), time.monotonic() - begin)
