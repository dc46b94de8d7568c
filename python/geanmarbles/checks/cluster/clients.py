"""Clients of nodes: requests, what is recorded of them, and the load of several clients that edit and read."""

from __future__ import annotations

import hashlib
import http.client
import json
import threading
import time
from collections.abc import Callable, Iterable, Sequence
from random import Random
from typing import TYPE_CHECKING, Any, NamedTuple, Self

from geanmarbles.checks.cluster.history import Operation

if TYPE_CHECKING:
    from geanmarbles.checks.cluster.nodes import Node

DATE = "2024-05-01 10:00:00"
# For how long a client of a load waits for an answer.
SECONDS = 5
TAGS = ("the_title", "the_content", "the_ID")
PLUGINS = ("bold", "marks", "atts")
PATHS = ("/", "/?p=1", "/?p=2", "/?p=5", "/?p=17", "/?paged=2", "/?m=202405", "/x")
# How often a client asks again after no answer, the chance that it does, and that it does so although it was answered.
AGAIN, ASKS_AGAIN, ASKS_TWICE = 6, 0.7, 0.1


class NoAnswer(Exception):
    """No whole answer came."""


class Answer(NamedTuple):
    """An answer, and when it was asked for and had come."""

    status: int
    headers: http.client.HTTPMessage
    body: bytes
    start: float
    end: float

    def cookie(self) -> str:
        """The cookie that it sets, as a browser sends it."""
        return str(self.headers["Set-Cookie"]).partition(";")[0]

    def revision(self) -> int | None:
        return int(self.headers["X-Site-Revision"]) if self.headers["X-Site-Revision"] else None

    def place(self) -> int:
        """Its revision, of an answer that must have one."""
        revision = self.revision()
        assert revision is not None
        return revision

    def lines(self) -> list[str]:
        return self.body.decode().splitlines()

    def shown(self) -> str:
        return f"{self.status} {self.body[:200]!r}"


def ask(
    host: str, port: int, method: str, path: str, body: bytes | None, headers: dict[str, str], seconds: float
) -> Answer:
    """One request over a connection of its own."""
    connection = http.client.HTTPConnection(host, port, timeout=seconds)
    start = time.monotonic()
    try:
        connection.request(method, path, body, headers)
        response = connection.getresponse()
        return Answer(response.status, response.headers, response.read(), start, time.monotonic())
    except (OSError, http.client.HTTPException) as fault:
        raise NoAnswer(repr(fault)) from None
    finally:
        connection.close()


def line_of(**keys: object) -> bytes:
    return json.dumps(keys, ensure_ascii=False, separators=(",", ":")).encode()


def joined(lines: Iterable[bytes]) -> bytes:
    return b"".join(line + b"\n" for line in lines)


def page_of(status: int, page: bytes) -> str:
    """A page as it is recorded: its status, its length and a sum."""
    return f"{status} {len(page)} {hashlib.sha256(page).hexdigest()[:16]}"


def name_of(line: bytes) -> str:
    """The name of an edit: a key that the program ignores."""
    return str(json.loads(line).get("n"))


class Editor:
    """Makes edits that differ from all others by their name."""

    def __init__(self, name: str, seed: object) -> None:
        self.name, self.random, self.made = name, Random(seed), 0

    def line(self) -> bytes:
        self.made += 1
        name = f"{self.name}-{self.made}"
        post = self.random.randrange(1, 20)
        kinds: dict[int, dict[str, object]] = {
            0: {"cmd": "edit", "id": post, "title": f"title {name}", "content": "[b]x[/b]" * (self.made % 50)},
            1: {"cmd": "option", "name": "blogname", "value": f"name {name}"},
            2: {"cmd": self.random.choice(("activate", "deactivate")), "plugin": self.random.choice(PLUGINS)},
            3: {"cmd": "template", "name": "single", "body": [{"loop": [{"tag": self.random.choice(TAGS)}]}]},
            4: {"cmd": "delete", "id": post},
        }
        new = {"cmd": "put", "title": f"post {name}", "content": "[b]y[/b]", "date": DATE}
        return line_of(**kinds.get(self.random.randrange(9), new), n=name)

    def lines(self, count: int) -> list[bytes]:
        return [self.line() for _ in range(count)]


class Record:
    """All that clients have asked, in the form that the check of histories reads, and answers that no node may give."""

    def __init__(self) -> None:
        self.operations: list[Operation] = []
        self.faults: list[str] = []
        self.statuses: dict[str, int] = {}

    def count(self, what: str) -> None:
        self.statuses[what] = self.statuses.get(what, 0) + 1

    def edits(self, lines: Sequence[bytes], start: float, end: float, answer: Answer | None) -> bool:
        """Records a request with edits; an answer of None is one that hasn't come. Returns whether all are done."""
        status = answer.status if answer else None
        self.count(f"POST {status}")
        replies = answer.lines() if answer and status in (200, 504) else []
        outcomes = self.outcomes(lines, status, replies)
        for at, (line, outcome) in enumerate(zip(lines, outcomes)):
            edit = {"kind": "edit", "name": name_of(line), "start": start, "end": end, "outcome": outcome}
            if at:
                edit["after"] = name_of(lines[at - 1])
            if outcome == "ok":
                edit["reply"] = replies[at]
                edit["revision"] = answer.revision() if answer and at + 1 == len(lines) else None
            self.operations.append(edit)
        return outcomes.count("ok") == len(lines)

    def outcomes(self, lines: Sequence[bytes], status: int | None, replies: list[str]) -> list[str]:
        """What came of each line of a request."""
        count = len(lines)
        if status is None:
            return ["unknown"] * count
        if status == 200 and len(replies) == count:
            return ["ok"] * count
        done = len(replies) - 1
        if status == 504 and 0 <= done < count and replies[-1] == f"unknown {done + 1}":
            return ["ok"] * done + ["unknown"] + ["failed"] * (count - done - 1)
        if status != 503:
            self.faults.append(f"{count} edits were answered by {status} and {replies[:3]}")
            return ["unknown"] * count
        return ["failed"] * count

    def given(self, line: bytes) -> None:
        """Records an edit that was there before, of which nothing else is known."""
        self.operations.append({"kind": "edit", "name": name_of(line), "start": 0, "end": 0, "outcome": "unknown"})

    def read(self, node: str, path: str, promise: object, start: float, end: float, answer: Answer | None) -> bool:
        status = answer.status if answer else None
        self.count(f"GET {status}")
        read = {"kind": "read", "node": node, "promise": promise, "start": start, "end": end, "path": path}
        if answer and status in (200, 404):
            page = page_of(answer.status, answer.body)
            read |= {"outcome": "ok", "revision": answer.revision(), "page": page}
            if answer.revision() is None:
                self.faults.append(f"{node} gave a page without its revision")
        else:
            read["outcome"] = "unknown"
            if answer and (status != 503 or not answer.body):
                self.faults.append(f"{node} answered {path} by {answer.shown()}")
        self.operations.append(read)
        return read["outcome"] == "ok"


class Client(threading.Thread):
    """A client that edits and reads at any of some nodes until it is told to end."""

    def __init__(self, name: str, nodes: Sequence[Node], record: Record, seed: object, reads: float = 0.5) -> None:
        super().__init__(daemon=True)
        self.random, self.editor = Random(f"{seed}/{name}"), Editor(name, f"{seed}/{name}/edits")
        self.client, self.nodes, self.record, self.reads = name, nodes, record, reads
        self.has_ended, self.requests = threading.Event(), 0
        self.known: int | None = None
        self.cookie = ""
        self.fault: Exception | None = None

    def run(self) -> None:
        try:
            while not self.has_ended.is_set():
                is_answered = self.read() if self.random.random() < self.reads else self.edit()
                if not is_answered:
                    time.sleep(self.random.uniform(0.01, 0.1))
        except Exception as fault:  # pylint: disable=broad-except
            self.fault = fault

    def asked(self, call: Callable[..., Answer], *words: Any, **headers: Any) -> tuple[float, float, Answer | None]:
        """An answer, or None, and when it was asked for and had come."""
        start = time.monotonic()
        try:
            answer = call(*words, seconds=SECONDS, **headers)
            return start, answer.end, answer
        except NoAnswer:
            return start, time.monotonic(), None

    def edit(self) -> bool:
        """Some edits under one key, asked for again at another node if no answer came."""
        lines = self.editor.lines(self.random.choice((1, 1, 1, 1, 2, 5)))
        self.requests += 1
        headers = {"Idempotency_Key": f"{self.client}-{self.requests}"}
        for _ in range(AGAIN):
            node = self.random.choice(self.nodes)
            start, end, answer = self.asked(node.post, joined(lines), **headers)
            if self.record.edits(lines, start, end, answer) and answer:
                self.known, self.cookie = answer.revision(), answer.cookie()
                if self.random.random() > ASKS_TWICE:
                    return True
            if self.has_ended.is_set() or self.random.random() > ASKS_AGAIN:
                return False
            time.sleep(self.random.uniform(0.01, 0.2))
        return False

    def read(self) -> bool:
        node, path = self.random.choice(self.nodes), self.random.choice(PATHS)
        promise, headers = self.promise()
        start, end, answer = self.asked(node.get, path, **headers)
        return self.record.read(node.name, path, promise, start, end, answer)

    def promise(self) -> tuple[object, dict[str, str]]:
        """What a read asks the node to wait for, and the header that says so."""
        kind = self.random.randrange(5)
        if kind == 0:
            return "fresh", {"X_Site_Fresh": "1"}
        if self.known is not None and kind == 1:
            return self.known, {"X_Site_Revision": str(self.known)}
        if self.known is not None and kind == 2:
            return self.known, {"Cookie": f"other=1; {self.cookie}"}
        return None, {}


class Load:
    """Some clients at once, for as long as a block lasts."""

    def __init__(self, nodes: Sequence[Node], record: Record, seed: object, count: int = 6, reads: float = 0.5) -> None:
        self.clients = [Client(f"c{seed}.{at}", nodes, record, seed, reads) for at in range(count)]

    def __enter__(self) -> Self:
        for client in self.clients:
            client.start()
        return self

    def __exit__(self, *_: object) -> None:
        for client in self.clients:
            client.has_ended.set()
        for client in self.clients:
            client.join(4 * SECONDS)
        faults = [client.fault for client in self.clients if client.fault]
        if faults:
            raise faults[0]
