"""Three members of etcd, and what a test asks of them by etcd's own JSON gateway."""

from __future__ import annotations

import base64
import contextlib
import http.client
import json
import os
import shutil
import ssl
import subprocess
import threading
import time
from collections.abc import Sequence
from pathlib import Path
from typing import Any, NamedTuple
from urllib.parse import SplitResult, urlsplit

from geanmarbles.checks.cluster.processes import Processes, free_port, wait_for

# A request, an answer or a part of one.
Json = dict[str, Any]


COUNT, SECONDS = 3, 30
# For how long one request of a test waits for one member.
ONE_REQUEST = 5


class Unanswered(Exception):
    """No member has answered within the time, or they have refused."""


class Place(NamedTuple):
    """Where a process runs: its address, its ports if they are fixed, and the words before its command."""

    host: str = "127.0.0.1"
    client: int = 0
    peer: int = 0
    words: tuple[str, ...] = ()


class Edit(NamedTuple):
    """An edit as etcd has it."""

    revision: int
    key: str
    line: bytes


class Event(NamedTuple):
    """What etcd tells of one key of a site, named without the site's prefix: it was written, or deleted."""

    revision: int
    is_put: bool
    key: str
    value: bytes
    lease: str


def b64(text: str | bytes) -> str:
    return base64.b64encode(text.encode() if isinstance(text, str) else text).decode()


def un64(text: str) -> bytes:
    return base64.b64decode(text)


def after(prefix: str) -> str:
    """The key that ends the range of all keys that begin so."""
    return prefix[:-1] + chr(ord(prefix[-1]) + 1)


class Store:
    """A client of some members, which asks the next one if one doesn't answer."""

    def __init__(self, urls: Sequence[str], context: ssl.SSLContext | None = None) -> None:
        """`context` is the TLS context for URLs of https."""
        self.urls, self.at, self.context = list(urls), 0, context
        self.token: str | None = None

    def call(self, path: str, seconds: float = SECONDS, **body: Any) -> Json:
        until, why = time.monotonic() + seconds, None
        while True:
            try:
                return self.ask(self.urls[self.at % len(self.urls)], path, body)
            except (OSError, http.client.HTTPException, ValueError, Unanswered) as fault:
                why, self.at = fault, self.at + 1
            if time.monotonic() > until:
                raise Unanswered(f"etcd {path}: {why!r}")
            time.sleep(0.1)

    def connection(self, url: str) -> http.client.HTTPConnection:
        split = urlsplit(url)
        host = split.hostname or ""
        if split.scheme == "https":
            return http.client.HTTPSConnection(host, split.port, timeout=ONE_REQUEST, context=self.context)
        return http.client.HTTPConnection(host, split.port, timeout=ONE_REQUEST)

    def ask(self, url: str, path: str, body: Json) -> Json:
        """What one member answers."""
        headers = {"Content-Type": "application/json", **({"Authorization": self.token} if self.token else {})}
        with contextlib.closing(self.connection(url)) as asked:
            asked.request("POST", path, json.dumps(body), headers)
            response = asked.getresponse()
            text = response.read()
        if response.status != 200:
            raise Unanswered(text.decode(errors="replace")[:300])
        answer: Json = json.loads(text)
        return answer

    def range(self, prefix: str, **more: Any) -> Json:
        return self.call("/v3/kv/range", key=b64(prefix), range_end=b64(after(prefix)), **more)

    def keys(self, prefix: str) -> list[str]:
        """The names of all keys that begin so."""
        return [un64(it["key"]).decode() for it in self.range(prefix, keys_only=True).get("kvs", [])]

    def count(self, prefix: str) -> int:
        """How many keys begin so."""
        return int(self.range(prefix, count_only=True).get("count", 0))

    def revision(self) -> int:
        return int(self.range("\0", limit="1", keys_only=True)["header"]["revision"])

    def put(self, key: str, value: str) -> Json:
        return self.call("/v3/kv/put", key=b64(key), value=b64(value))

    def delete(self, prefix: str) -> Json:
        return self.call("/v3/kv/deleterange", key=b64(prefix), range_end=b64(after(prefix)))

    def edits(self, prefix: str) -> list[Edit]:
        """All edits of a site that etcd has, in their order."""
        found = self.range(f"{prefix}/edit/").get("kvs", [])
        edits = [Edit(int(it["create_revision"]), un64(it["key"]).decode(), un64(it.get("value", ""))) for it in found]
        return sorted(edits)


class Witness(threading.Thread):
    """Keeps each edit of a site as etcd tells of it, so that it is known also once etcd no longer has it."""

    def __init__(self, urls: Sequence[str], prefix: str) -> None:
        super().__init__(daemon=True)
        self.urls, self.prefix = list(urls), prefix
        self.seen: dict[int, Edit] = {}
        self.fault: Exception | str | None = None
        self.events: list[Event] = []
        self.last, self.has_ended = 0, False

    def run(self) -> None:
        at = 0
        while not self.has_ended and self.fault is None:
            with contextlib.suppress(OSError, http.client.HTTPException, ValueError):
                self.follow(urlsplit(self.urls[at % len(self.urls)]))
            at += 1
            time.sleep(0.05)

    def follow(self, url: SplitResult) -> None:
        key = f"{self.prefix}/"
        create = {"key": b64(key), "range_end": b64(after(key)), "start_revision": str(self.last + 1)}
        with contextlib.closing(http.client.HTTPConnection(url.hostname or "", url.port, timeout=ONE_REQUEST)) as asked:
            asked.request("POST", "/v3/watch", json.dumps({"create_request": create}))
            for raw in asked.getresponse():
                told = json.loads(raw).get("result", {})
                if told.get("compact_revision"):
                    self.fault = f"etcd has only what comes after {told['compact_revision']}, and {self.last} was seen"
                    return
                for event in told.get("events", []):
                    self.take(event)
                if self.has_ended:
                    return

    def take(self, event: Json) -> None:
        kept, key = event["kv"], un64(event["kv"]["key"]).decode()
        revision = int(kept["mod_revision"])
        kind, value = event.get("type", "PUT"), un64(kept.get("value", ""))
        if kind == "PUT" and key.startswith(f"{self.prefix}/edit/"):
            self.seen[revision] = Edit(revision, key, value)
        name = key.removeprefix(f"{self.prefix}/")
        self.events.append(Event(revision, kind == "PUT", name, value, kept.get("lease")))
        self.last = max(self.last, revision)

    def edits(self, store: Store) -> list[Edit]:
        """All edits, once it has seen what etcd has at the moment."""
        wanted = store.edits(self.prefix)
        last = wanted[-1].revision if wanted else 0
        wait_for(lambda: self.last >= last or self.fault, SECONDS, "the witness sees all edits")
        if self.fault:
            raise Unanswered(self.fault)
        return [self.seen[it] for it in sorted(self.seen)]


class Members:
    """Three members of one etcd, with their data in a folder."""

    def __init__(
        self,
        processes: Processes,
        folder: Path,
        places: Sequence[Place] = (Place(),) * COUNT,
        options: Sequence[str] = (),
        tls: Any = None,
    ) -> None:
        """`tls` has what is needed for https, if clients are to use it."""
        self.processes, self.folder, self.options, self.tls = processes, Path(folder), tuple(options), tls
        ports = [(it.client or free_port(), it.peer or free_port()) for it in places]
        self.places = [it._replace(client=client, peer=peer) for it, (client, peer) in zip(places, ports)]
        self.urls = [f"http{'s' * bool(tls)}://{it.host}:{it.client}" for it in self.places]
        self.store = Store(self.urls, tls and tls.context())
        self.running: list[Any] = [None] * len(self.places)
        self.token = "first"

    def peers(self) -> str:
        return ",".join(f"m{at}=http://{it.host}:{it.peer}" for at, it in enumerate(self.places))

    def data(self, at: int) -> Path:
        return self.folder / f"m{at}"

    def start(self, at: int) -> None:
        place = self.places[at]
        client, peer = self.urls[at], f"http://{place.host}:{place.peer}"
        words = [
            *place.words,
            "etcd",
            "--name",
            f"m{at}",
            "--data-dir",
            self.data(at),
            "--listen-client-urls",
            client,
            "--advertise-client-urls",
            client,
            "--listen-peer-urls",
            peer,
            "--initial-advertise-peer-urls",
            peer,
            "--initial-cluster",
            self.peers(),
            "--initial-cluster-state",
            "new",
            "--initial-cluster-token",
            self.token,
            "--logger",
            "zap",
            "--log-level",
            "error",
            *self.options,
            *(self.tls.of_members() if self.tls else ()),
        ]
        self.running[at] = self.processes.start(f"m{at}", list(map(str, words)))

    def start_all(self) -> None:
        for at in range(len(self.places)):
            self.start(at)
        self.wait()

    def wait(self) -> None:
        """Waits until all members answer, so there is a leader that each of them knows."""
        for url in self.urls:
            Store([url], self.store.context).revision()

    def kill(self, at: int) -> None:
        self.running[at].kill()

    def kill_all(self) -> None:
        for at, process in enumerate(self.running):
            if process and process.is_running():
                self.kill(at)

    def ctl(self, *words: str | Path, seconds: float = 60) -> str:
        """Runs etcd's own client."""
        env = {**os.environ, "ETCDCTL_API": "3"}
        more = self.tls.of_clients("--") if self.tls else []
        ran = subprocess.run(
            ["etcdctl", *map(str, words), *more], capture_output=True, text=True, timeout=seconds, env=env
        )
        if ran.returncode:
            raise Unanswered(f"etcdctl {words[0]}: {ran.stderr.strip()[-300:]}")
        return ran.stdout

    def save(self, file: Path) -> None:
        """Has one member save a snapshot of all that it has."""
        self.ctl("--endpoints", self.urls[0], "snapshot", "save", file)

    def restore(self, file: Path, token: str) -> None:
        """Makes all members anew from a snapshot, as another cluster; they are started by `start_all`."""
        self.kill_all()
        self.token = token
        for at, place in enumerate(self.places):
            shutil.rmtree(self.data(at), ignore_errors=True)
            self.ctl(
                "snapshot",
                "restore",
                file,
                "--name",
                f"m{at}",
                "--data-dir",
                self.data(at),
                "--initial-cluster",
                self.peers(),
                "--initial-cluster-token",
                token,
                "--initial-advertise-peer-urls",
                f"http://{place.host}:{place.peer}",
            )

    def copy(self, folder: Path) -> None:
        """Copies the data of all members, none of which may run."""
        for at in range(len(self.places)):
            shutil.copytree(self.data(at), Path(folder, f"m{at}"))

    def put_back(self, folder: Path) -> None:
        """Puts a copy of the data back, as the same cluster."""
        self.kill_all()
        for at in range(len(self.places)):
            shutil.rmtree(self.data(at))
            shutil.copytree(Path(folder, f"m{at}"), self.data(at))
