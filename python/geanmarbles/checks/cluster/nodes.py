"""Nodes of a site, and a cluster of them over three members of etcd, for as long as a block lasts."""

from __future__ import annotations

import json
import os
import sys
import tempfile
import time
from collections.abc import Callable, Iterator, Sequence
from contextlib import ExitStack, contextmanager
from pathlib import Path
from typing import Any, Self

from geanmarbles.checks.cluster.clients import Answer, NoAnswer, ask
from geanmarbles.checks.cluster.etcd import COUNT, Members, Place, Witness
from geanmarbles.checks.cluster.processes import Process, Processes, free_port, wait_for
from geanmarbles.paths import ROOT

NODE = ROOT / "geanmarbles"
TOKEN = "a token of the test's own"
# Starts the process that follows with a socket where systemd hands one over.
HAND_OVER = """import os, sys
os.dup2(int(sys.argv[1]), 3)
os.execve(sys.argv[2], sys.argv[2:], {**os.environ, "LISTEN_PID": str(os.getpid()), "LISTEN_FDS": "1"})
"""
# Where members keep their files: in memory if there is such a folder, since a disk that is busy holds up each edit by
# seconds, and no check here takes the power away.
MEMORY = "/dev/shm" if os.access("/dev/shm", os.W_OK) else None
# How long a node may take to listen and to be ready, and for one answer, on a machine that has much else to do.
LISTENS, READY, ANSWERS = 120, 120, 60


class Node:
    """One node, which keeps its port from one start to the next."""

    def __init__(self, cluster: Cluster, name: str, place: Place, options: Sequence[str]) -> None:
        self.cluster, self.name, self.place = cluster, name, place
        # What is in its environment besides.
        self.options = tuple(options)
        self.env: dict[str, str] = {}
        self.port = place.client or free_port(place.host)
        # A socket that listens, which it is handed over at its start, as systemd does it.
        self.handed: int | None = None
        self.started: Process | None = None

    @property
    def process(self) -> Process:
        """Its process, once it was started."""
        assert self.started is not None
        return self.started

    def start(self, program: str | Path | None = None, token: bool = True, script: str | Path | None = None) -> None:
        """Starts it, or a script that runs it, and waits until it listens; it needn't be ready then."""
        words = [
            *self.place.words,
            script or NODE,
            "node",
            "--etcd",
            ",".join(self.cluster.members.urls),
            "--listen",
            f"{self.place.host}:{self.port}",
            "--program",
            program or self.cluster.program,
            *self.options,
        ]
        words += ["--token-file", self.cluster.token] if token else []
        if self.handed is not None:
            words = [sys.executable, "-c", HAND_OVER, str(self.handed), *words]
        self.started = self.cluster.processes.start(self.name, list(map(str, words)), self.handed, **self.env)
        line = self.process.first_line(LISTENS)
        if line != f"serving http://{self.place.host}:{self.port}/\n":
            raise TimeoutError(f"the first line of {self.name} is {line!r}")

    def ask(
        self, method: str, path: str, body: bytes | None = None, seconds: float = ANSWERS, **headers: Any
    ) -> Answer:
        named = {name.replace("_", "-"): it for name, it in headers.items()}
        return ask(self.place.host, self.port, method, path, body, named, seconds)

    def get(self, path: str, **headers: Any) -> Answer:
        return self.ask("GET", path, **headers)

    def get_again(self, path: str, **headers: Any) -> Answer:
        """The answer to a request that is made again, for some time, while it is refused for now."""
        return self.again(lambda: self.get(path, **headers), (503,))

    def post_again(self, body: bytes, key: str) -> Answer:
        """The same of edits: by their key they are made once, however often they are asked for."""
        return self.again(lambda: self.post(body, Idempotency_Key=key), (503, 504))

    @staticmethod
    def again(ask: Callable[[], Answer], passing: Sequence[int]) -> Answer:
        until = time.monotonic() + READY
        while True:
            answer = ask()
            if answer.status not in passing or time.monotonic() > until:
                return answer
            time.sleep(0.2)

    def post(self, body: bytes, token: str | None = TOKEN, seconds: float = ANSWERS, **headers: Any) -> Answer:
        """Posts edits; `headers` have an underscore where the header's name has a hyphen."""
        if token is not None:
            headers["Authorization"] = f"Bearer {token}"
        return self.ask("POST", "/command", body, seconds, **headers)

    def health(self) -> dict[str, Any]:
        """What it says of itself, or nothing if it doesn't answer."""
        try:
            said: dict[str, Any] = json.loads(self.ask("GET", "/health", seconds=5).body)
            return said
        except (NoAnswer, ValueError):
            return {}

    def is_ready(self) -> bool:
        return self.health().get("ready") is True

    def wait_until_ready(self, seconds: float = READY) -> None:
        try:
            wait_for(self.is_ready, seconds, f"{self.name} is ready")
        except TimeoutError as fault:
            raise TimeoutError(f"{fault}; it says {self.health()} and {self.process.said()!r}") from None

    def wait_for_reason(self, *reasons: str, seconds: float = READY) -> str:
        """Waits until it isn't ready for one of some reasons, and returns the reason."""
        try:
            return wait_for(lambda: (set(reasons) & {self.health().get("reason")}), seconds, f"{reasons}").pop()
        except TimeoutError:
            raise TimeoutError(f"{self.name} says {self.health()}, wanted one of {reasons}") from None


class Cluster:
    """Three members of etcd and some nodes, in a folder of their own."""

    def __init__(
        self,
        program: str,
        count: int = 3,
        options: Sequence[str] = (),
        etcd: Sequence[str] = (),
        places: tuple[Sequence[Place], Sequence[Place]] | None = None,
        tls: Any = None,
        prepare: Callable[[Members], None] | None = None,
    ) -> None:
        """`options` are the nodes', `etcd` the members'. `prepare` is called with the members before nodes start."""
        self.program, self.stack, self.options, self.prepare = program, ExitStack(), options, prepare
        self.etcd_options, self.tls = etcd, tls
        self.member_places, self.node_places = places or ((Place(),) * COUNT, (Place(),) * count)

    def __enter__(self) -> Self:
        with ExitStack() as stack:
            self.folder = Path(stack.enter_context(tempfile.TemporaryDirectory(prefix="site-cluster-", dir=MEMORY)))
            self.token = self.folder / "token"
            self.token.write_text(TOKEN + "\n", encoding="utf-8")
            self.token.chmod(0o600)
            self.processes = stack.enter_context(Processes(self.folder))
            self.members = Members(self.processes, self.folder, self.member_places, self.etcd_options, self.tls)
            self.members.start_all()
            if self.prepare:
                self.prepare(self.members)
            self.nodes = [self.new_node(f"n{at}", place=place) for at, place in enumerate(self.node_places)]
            self.stack = stack.pop_all()
        try:
            self.start_nodes()
        except BaseException:
            self.stack.close()
            raise
        return self

    def __exit__(self, *_: object) -> None:
        self.stack.close()

    def new_node(self, name: str, options: Sequence[str] | None = None, place: Place = Place()) -> Node:
        """Another node, which isn't started yet."""
        return Node(self, name, place, self.options if options is None else options)

    def start_nodes(self) -> None:
        for node in self.nodes:
            node.start()
        for node in self.nodes:
            node.wait_until_ready()

    def settle(self, nodes: Sequence[Node] | None = None) -> None:
        """Waits until all nodes are ready and have applied what the cluster has."""
        for node in nodes or self.nodes:
            node.wait_until_ready()

    @contextmanager
    def witnessed(self, prefix: str = "site") -> Iterator[Witness]:
        """Keeps the whole history meanwhile, also what etcd drops."""
        witness = Witness(self.members.urls, prefix)
        witness.start()
        try:
            yield witness
        finally:
            witness.has_ended = True

    def end(self) -> None:
        """Ends the nodes, and sees that none of their programs outlives them."""
        for node in self.nodes:
            if node.process and node.process.is_running():
                node.process.end()
        self.members.kill_all()
        self.processes.check_ended()
