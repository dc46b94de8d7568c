"""Nodes that are started anew under load, behind a balancer or over a socket that outlives them: no request is lost.

A client of this check does what a balancer does: it asks each node for its health, sends requests to those that are
ready, keeps connections open, and goes to another node if one refuses a connection. Everything else is a lost request:
an answer of 500 or more, a connection that breaks, an answer that doesn't come whole.
"""

from __future__ import annotations

import argparse
import http.client
import re
import select
import shutil
import signal
import socket
import subprocess
import tempfile
import threading
import time
from collections import Counter
from collections.abc import Callable, Sequence
from functools import partial
from pathlib import Path
from random import Random
from typing import Self

from geanmarbles.checks.cluster.attacks import edits
from geanmarbles.checks.cluster.clients import DATE, joined, line_of, name_of
from geanmarbles.checks.cluster.nodes import TOKEN, Cluster, Node
from geanmarbles.checks.cluster.processes import SECONDS as ENDS
from geanmarbles.checks.cluster.processes import wait_for
from geanmarbles.checks.cluster.raw import Raw
from geanmarbles.checks.judging import Cases, Skipped, must
from geanmarbles.paths import EXAMPLES
from geanmarbles.web.pages import MOST

# How many clients there are, and how long one waits for an answer.
CLIENTS, SECONDS = 12, 30
# How often a balancer asks for health, and for how long requests come before and after each start.
HEALTH_SECONDS, AROUND_SECONDS = 0.1, 0.7
# One of so many requests is an edit.
EDITS = 8
PAGE, HEALTH = b"GET / HTTP/1.1\r\nHost: x\r\n\r\n", b"GET /health HTTP/1.1\r\nHost: x\r\n\r\n"
# How often a sign of life is asked for, in microseconds.
WATCHDOG = 1_000_000


class Balancer:
    """Which nodes are ready, as their health says. It ends with the `with` block."""

    def __init__(self, nodes: Sequence[Node]) -> None:
        self.nodes, self.is_over = nodes, threading.Event()
        self.ready = {node.name: True for node in nodes}
        # How often each was found to take no connection.
        self.refusals: Counter[str] = Counter()
        self.lock = threading.Lock()
        self.thread = threading.Thread(target=self.look, daemon=True)

    def __enter__(self) -> Self:
        self.thread.start()
        return self

    def __exit__(self, *_: object) -> None:
        self.is_over.set()
        self.thread.join(SECONDS)

    def look(self) -> None:
        while not self.is_over.wait(HEALTH_SECONDS):
            for node in self.nodes:
                before = self.refusals[node.name]
                is_ready = node.is_ready()
                with self.lock:
                    # An answer of before a refusal is of a process that has ended.
                    self.ready[node.name] = is_ready and self.refusals[node.name] == before

    def refused(self, node: Node) -> None:
        """Notes that a node takes no connection; its health says when it does again."""
        with self.lock:
            self.refusals[node.name] += 1
            self.ready[node.name] = False

    def choose(self, random: Random) -> Node:
        """A node that is ready."""
        until = time.monotonic() + SECONDS
        while time.monotonic() < until:
            ready = [node for node in self.nodes if self.ready[node.name]]
            if ready:
                return random.choice(ready)
            time.sleep(0.01)
        raise TimeoutError("no node is ready")


class Everywhere(Balancer):
    """No balancer: each request goes to a node, whatever its health is, and none may refuse a connection."""

    def look(self) -> None:
        """Asks nothing."""

    def refused(self, node: Node) -> None:
        raise ConnectionRefusedError(f"{node.name} refuses a connection")


class Visitor(threading.Thread):
    """Sends requests, one after the other, over connections that it keeps, and counts what comes."""

    def __init__(self, name: str, balancer: Balancer, keeps: bool) -> None:
        super().__init__(daemon=True)
        self.client, self.balancer, self.keeps, self.random = name, balancer, keeps, Random(name)
        self.kept: dict[str, http.client.HTTPConnection] = {}
        self.is_over, self.sent = threading.Event(), 0
        # The names of the edits that were acknowledged.
        self.edits: list[str] = []
        self.came: Counter[str] = Counter()
        self.slowest = 0.0

    def run(self) -> None:
        while not self.is_over.is_set():
            begin = time.monotonic()
            try:
                self.came[self.asked()] += 1
            except (OSError, http.client.HTTPException) as fault:
                self.came[f"lost: {type(fault).__name__} {fault}"] += 1
            self.slowest = max(self.slowest, time.monotonic() - begin)
            time.sleep(self.random.uniform(0, 0.02))

    def connection_to(self, node: Node) -> http.client.HTTPConnection | None:
        """A connection to a node, or None if it takes none now."""
        kept = self.kept.pop(node.name, None)
        if kept is not None:
            # A client of HTTP looks whether the other side has ended a connection meanwhile.
            if not select.select([kept.sock], [], [], 0)[0]:
                return kept
            kept.close()
        made = http.client.HTTPConnection(node.place.host, node.port, timeout=SECONDS)
        try:
            made.connect()
        except ConnectionRefusedError:
            self.balancer.refused(node)
            return None
        return made

    def asked(self) -> str:
        """What came of one request."""
        self.sent += 1
        while True:
            node = self.balancer.choose(self.random)
            connection = self.connection_to(node)
            if connection is not None:
                break
        edit = f"{self.client}-{self.sent}" if self.sent % EDITS == 0 else ""
        try:
            if edit:
                line = line_of(cmd="put", title=self.client, date=DATE, n=edit)
                headers = {"Authorization": f"Bearer {TOKEN}", "Idempotency-Key": edit}
                connection.request("POST", "/command", joined([line]), headers)
            else:
                connection.request("GET", self.random.choice(("/", "/?p=1", "/x")))
            response = connection.getresponse()
            body = response.read()
        except BaseException:
            connection.close()
            raise
        if self.keeps and response.headers["Connection"] != "close":
            self.kept[node.name] = connection
        else:
            connection.close()
        if response.status >= 500:
            return f"lost: {response.status} {body[:100].decode(errors='replace').strip()}"
        self.edits += [edit] if edit else []
        return f"{response.status}"


class Visitors:
    """Some visitors at once, half of whom keep their connections, for as long as a block lasts."""

    def __init__(self, name: str, balancer: Balancer) -> None:
        self.all = [Visitor(f"{name}-{at}", balancer, at % 2 == 0) for at in range(CLIENTS)]

    def __enter__(self) -> Self:
        for visitor in self.all:
            visitor.start()
        return self

    def __exit__(self, *_: object) -> None:
        for visitor in self.all:
            visitor.is_over.set()
        for visitor in self.all:
            visitor.join(2 * SECONDS)

    def came(self) -> Counter[str]:
        return sum((it.came for it in self.all), Counter[str]())

    def lost(self) -> dict[str, int]:
        return {what: count for what, count in self.came().items() if what.startswith("lost")}

    def told(self) -> str:
        slowest = max(it.slowest for it in self.all)
        return f"{self.came().total():,} requests, {sum(self.lost().values())} lost, the slowest in {slowest:.2f} s"


def restart(node: Node, begun: Callable[[], None]) -> float:
    """Ends a node by SIGTERM and starts it anew; how long its end took."""
    begin = time.monotonic()
    status = node.process.end()
    spent = time.monotonic() - begin
    must(status == 0 and spent < ENDS, f"{node.name} ends with {status} after {spent:.1f} s")
    begun()
    node.wait_until_ready()
    return spent


def roll(arguments: argparse.Namespace) -> None:
    """three nodes are started anew in turn under load, and no request is lost"""
    with Cluster(arguments.program) as cluster:
        with Balancer(cluster.nodes) as balancer, Visitors("roll", balancer) as visitors:
            for node in cluster.nodes:
                time.sleep(AROUND_SECONDS)
                restart(node, node.start)
            time.sleep(AROUND_SECONDS)
        must(not visitors.lost(), f"nodes lose {visitors.lost()} of {visitors.told()}")
        must(visitors.came()["200"] > 100, f"only {visitors.came()} came")
        print(f"restarts: three nodes started anew: {visitors.told()}", flush=True)
        check_edits(cluster, visitors)


def check_edits(cluster: Cluster, visitors: Visitors) -> None:
    """Each edit that was acknowledged is there once, and no other."""
    there = sorted(name_of(edit.line) for edit in cluster.members.store.edits("site"))
    acknowledged = sorted(name for visitor in visitors.all for name in visitor.edits)
    must(there == acknowledged, f"{len(there)} edits are there, and {len(acknowledged)} were acknowledged")
    must(len(there) > CLIENTS, f"only {len(there)} edits were made")


class Manager:
    """What systemd is to a node: a socket that outlives it, and a socket to which the node says how it is."""

    def __init__(self, cluster: Cluster, node: Node) -> None:
        self.node = node
        self.listening = socket.create_server((node.place.host, node.port), backlog=512)
        self.path = str(cluster.folder / f"notify-{node.name}")
        self.told = socket.socket(socket.AF_UNIX, socket.SOCK_DGRAM)
        self.told.bind(self.path)
        self.said: list[str] = []
        node.env |= {"NOTIFY_SOCKET": self.path, "WATCHDOG_USEC": str(WATCHDOG)}
        node.handed = self.listening.fileno()

    def __enter__(self) -> Self:
        return self

    def __exit__(self, *_: object) -> None:
        self.listening.close()
        self.told.close()

    def heard(self, word: str) -> bool:
        """Whether the node has said something since `said` was last emptied."""
        while select.select([self.told], [], [], 0)[0]:
            self.said += self.told.recv(4096).decode().splitlines()
        return word in self.said

    def hears(self, word: str, seconds: float = SECONDS) -> None:
        try:
            wait_for(lambda: self.heard(word), seconds, f"it says {word}")
        except TimeoutError as fault:
            raise TimeoutError(f"{fault}; it has said {self.said}") from None


def hand_over(arguments: argparse.Namespace) -> None:
    """one node alone is started anew under load, over a socket that outlives it, and no request is lost or refused"""
    with Cluster(arguments.program, count=1) as cluster:
        node = cluster.nodes[0]
        node.process.end()
        with Manager(cluster, node) as manager:
            node.start()
            manager.hears("READY=1")
            must(node.is_ready(), f"it says that it is ready, and {node.health()}")
            with Everywhere(cluster.nodes) as all_nodes, Visitors("handed", all_nodes) as visitors:
                for _ in range(3):
                    time.sleep(AROUND_SECONDS)
                    manager.said.clear()
                    restart(node, node.start)
                    manager.hears("STOPPING=1")
                    manager.hears("READY=1")
                    order = [it for it in manager.said if it in ("STOPPING=1", "READY=1")]
                    must(order == ["STOPPING=1", "READY=1"], f"it has said {manager.said}")
                time.sleep(AROUND_SECONDS)
            must(not visitors.lost(), f"it loses {visitors.lost()} of {visitors.told()}")
            check_edits(cluster, visitors)
            print(f"restarts: one node over a socket that outlives it: {visitors.told()}", flush=True)
            gives_signs_of_life(manager, node)
            waits_until_ready(cluster, manager, node)


def gives_signs_of_life(manager: Manager, node: Node) -> None:
    """A node that lives says so often enough, and one that is stopped doesn't."""
    manager.said.clear()
    time.sleep(2 * WATCHDOG / 1e6)
    manager.heard("")
    must(manager.said.count("WATCHDOG=1") >= 3, f"in two seconds it has said {manager.said}")
    node.process.stop()
    time.sleep(0.2)
    manager.heard("")
    manager.said.clear()
    time.sleep(WATCHDOG / 1e6)
    must(not manager.heard("WATCHDOG=1"), "it says that it lives though it is stopped")
    node.process.go_on()
    manager.hears("WATCHDOG=1")


def waits_until_ready(cluster: Cluster, manager: Manager, node: Node) -> None:
    """Whoever comes while a node starts waits until it is ready; it says meanwhile why it isn't."""
    node.process.end()
    cluster.members.kill_all()
    manager.said.clear()
    node.start()
    with Raw((node.place.host, node.port), 2 * SECONDS) as raw:
        raw.send(b"GET / HTTP/1.1\r\nHost: x\r\n\r\n")
        time.sleep(1)
        must(not select.select([raw.socket], [], [], 0)[0], "it answers though it isn't ready")
        must(not manager.heard("READY=1"), "it says that it is ready without etcd")
        for at in range(len(cluster.members.places)):
            cluster.members.start(at)
        response = raw.response()
    must(response is not None and response.status == 200, f"{response} came")
    manager.hears("READY=1")


def ends_slowly(arguments: argparse.Namespace) -> None:
    """told to end, a node refuses connections at once, says so on those that are there, and ends what is under way"""
    with Cluster(arguments.program, count=2) as cluster:
        node, address = cluster.nodes[0], (cluster.nodes[0].place.host, cluster.nodes[0].port)
        body = joined([line_of(cmd="put", title="under way", date=DATE, n="under-way")])
        with Raw(address) as kept, Raw(address) as author, Raw(address) as idle, Raw(address) as begun:
            kept.send(PAGE)
            first = kept.response()
            must(first is not None and "connection" not in first.fields, f"{first} came")
            author.send(edits(TOKEN, len(body)) + body[:10])
            begun.send(PAGE[:20])
            time.sleep(0.3)
            node.process.send(signal.SIGTERM)
            time.sleep(0.3)
            kept.send(HEALTH)
            health = kept.response()
            must(health is not None and health.status == 503 and b'"stopping"' in health.body, f"{health} came")
            must(health is not None and health.fields.get("connection") == "close", f"it says {health}")
            begun.send(PAGE[20:])
            last = begun.response()
            must(last is not None and last.status in (200, 404), f"{last} came of a request that had begun")
            must(last is not None and last.fields.get("connection") == "close", f"it says {last}")
            wait_for(lambda: refuses(address), 5, "it takes no connection any more")
            must(idle.is_closed_by(time.monotonic() + 6), "a connection on which nothing comes stays")
            author.send(body[10:])
            done = author.response("POST")
            must(done is not None and done.status == 200, f"{done} came of an edit that had begun")
            begin = time.monotonic()
            must(wait_for(lambda: not node.process.is_running(), ENDS, "it ends"), "it stays")
            must(time.monotonic() - begin < 4, "it stays though nothing is under way")
        must(node.process.end() == 0, "its status isn't 0")
        must(len(cluster.members.store.edits("site")) == 1, "the edit isn't there once")
        stalls(cluster.nodes[1])


def stalls(node: Node) -> None:
    """A client that stalls doesn't keep a node from ending."""
    with Raw((node.place.host, node.port)) as raw:
        raw.send(edits(TOKEN, 1000))
        time.sleep(0.3)
        node.process.send(signal.SIGTERM)
        wait_for(lambda: not node.process.is_running(), ENDS, "it ends")
    must(node.process.end() == 0, "its status isn't 0")


def refuses(address: tuple[str, int]) -> bool:
    try:
        socket.create_connection(address, 5).close()
    except ConnectionRefusedError:
        return True
    return False


def units(_: argparse.Namespace) -> None:
    """systemd finds no fault in the units of examples/cluster"""
    if not shutil.which("systemd-analyze"):
        raise Skipped("there is no systemd-analyze here")
    with tempfile.TemporaryDirectory() as folder:
        for unit in (*EXAMPLES.glob("cluster/*.service"), *EXAMPLES.glob("cluster/*.socket")):
            text = unit.read_text(encoding="utf-8").replace("/opt/site/geanmarbles", "/bin/true")
            Path(folder, unit.name).write_text(text.replace("/usr/bin/etcd", "/bin/true"), encoding="utf-8")
        names = sorted(it.name for it in Path(folder).iterdir())
        must("site-node.socket" in names, f"the units are {names}")
        for name in names:
            words = ["systemd-analyze", "verify", "--man=no", str(Path(folder, name))]
            ran = subprocess.run(words, capture_output=True, text=True, timeout=SECONDS)
            said = "".join(line for line in ran.stderr.splitlines(True) if name in line)
            must(ran.returncode == 0 and not said, f"{name}: {ran.stderr}")


def bounds(_: argparse.Namespace) -> None:
    """the unit of a node says when it is ready, has a watchdog, and limits on memory, tasks and files that it keeps"""
    text = (EXAMPLES / "cluster" / "site-node.service").read_text(encoding="utf-8")
    settings = dict(line.split("=", 1) for line in text.splitlines() if re.match(r"[A-Z]\w+=", line))
    lacking = {"MemoryMax", "MemoryHigh", "WatchdogSec", "UMask", "TimeoutStopSec"} - set(settings)
    must(settings["Type"] == "notify" and not lacking, f"it lacks {lacking}, or its type is {settings['Type']}")
    for name in ("TasksMax", "LimitNOFILE"):
        must(int(settings[name]) > MOST, f"{name} is {settings[name]}, with {MOST} connections")
    must(int(settings["TimeoutStopSec"]) > ENDS, f"it is killed after {settings['TimeoutStopSec']} s")


def cases(arguments: argparse.Namespace) -> Cases:
    for judged in (roll, hand_over, ends_slowly, units, bounds):
        yield judged.__doc__, partial(judged, arguments)
