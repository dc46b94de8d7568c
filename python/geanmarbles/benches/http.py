"""Times pages over HTTP: by `geanmarbles serve`, by the servers in Python, and as a file by nginx.

    geanmarbles dev bench http [--smoke] [PROGRAM]

Clients ask for the front of the bakery, each for one page after another, over connections that stay if the server keeps
them. Printed is, for 1, 16 and 256 connections, what a page takes of a processor at the server and at its program, and
how long it takes by the clock: half of them at most, and 99 in 100. A node of a cluster and nginx are left out if etcd
or nginx isn't installed. README.md says how to read it, and bench/README.md what the options do.
"""

import contextlib
import selectors
import shutil
import socket
import sys
import tempfile
import time
from collections.abc import Iterator, Sequence
from pathlib import Path
from typing import NamedTuple

from geanmarbles.benches.measured import Bench, parser_of
from geanmarbles.checks.cluster.faults import children_of
from geanmarbles.checks.cluster.nodes import Cluster
from geanmarbles.checks.cluster.processes import Processes, free_port, listens, wait_for
from geanmarbles.output import quiet_output
from geanmarbles.paths import EXAMPLES, command

COMMANDS = EXAMPLES / "bakery.jsonl"
REQUEST = b"GET / HTTP/1.1\r\nHost: localhost\r\n\r\n"
CONNECTIONS, SMALL = (1, 16, 256), (1, 4)
# How many pages are asked for in a turn, and how many turns there are; before them some pages that aren't counted.
PAGES, TURNS, FIRST = 8_000, 5, 200
SMALL_PAGES = 50
NGINX = """daemon off; pid {folder}/nginx.pid; error_log stderr; user root; worker_processes 1;
events {{ worker_connections 1024; }}
http {{
    access_log off; client_body_temp_path {folder}/body; keepalive_requests 1000000000; default_type text/html;
    server {{ listen 127.0.0.1:{port}; root {folder}; }}
}}
"""
READY = 60


class Server(NamedTuple):
    """A server, and the IDs of its processes: the server's own, and its program's."""

    name: str
    port: int
    own: list[int]
    program: list[int]


class Figures(NamedTuple):
    """What a page takes, in seconds: of a processor at the server and at its program, and by the clock."""

    server: float
    program: float
    median: float
    slow: float


class Asking:
    """A connection that asks for one page after another."""

    def __init__(self, port: int) -> None:
        self.port, self.came, self.page = port, b"", b""
        self.times: list[float] = []
        self.connect()

    def connect(self) -> None:
        self.socket = socket.create_connection(("127.0.0.1", self.port), READY)
        self.socket.setsockopt(socket.IPPROTO_TCP, socket.TCP_NODELAY, 1)

    def ask(self) -> None:
        self.came, self.begun = b"", time.perf_counter()
        self.socket.sendall(REQUEST)

    def is_done(self) -> bool:
        """Reads what has come. Whether the page is whole."""
        more = self.socket.recv(1 << 18)
        if not more:
            raise ConnectionResetError("the server has ended a connection in mid-page")
        self.came += more
        head, _, page = self.came.partition(b"\r\n\r\n")
        length = head.lower().partition(b"content-length: ")[2].partition(b"\r\n")[0]
        if not length or len(page) < int(length):
            return False
        self.times.append(time.perf_counter() - self.begun)
        if not head.startswith(b"HTTP/1.1 200 ") or (self.page and self.page != page):
            sys.exit(f"a page came otherwise than the first: {head!r}")
        self.page = page
        if b"\r\nconnection: close" in head.lower():
            self.socket.close()
            self.connect()
        return True


def page_of(port: int) -> bytes:
    """The page that a server has."""
    client = Asking(port)
    client.ask()
    while not client.is_done():
        pass
    client.socket.close()
    return client.page


def asked(port: int, connections: int, pages: int) -> list[float]:
    """Asks for some pages, over some connections at once. How long each took."""
    clients = [Asking(port) for _ in range(connections)]
    with selectors.DefaultSelector() as waiting:
        for client in clients:
            waiting.register(client.socket, selectors.EVENT_READ, client)
            client.ask()
        left, under_way = pages - connections, connections
        while under_way:
            for key, _ in waiting.select():
                client = key.data
                if not client.is_done():
                    continue
                if client.socket is not key.fileobj:
                    waiting.unregister(key.fileobj)
                    waiting.register(client.socket, selectors.EVENT_READ, client)
                if left > 0:
                    client.ask()
                else:
                    under_way -= 1
                left -= 1
    for client in clients:
        client.socket.close()
    return [it for client in clients for it in client.times]


def processor(pids: Sequence[int]) -> float:
    """Seconds of a processor that some processes have taken so far, each by its own clock."""
    return sum(time.clock_gettime(~pid << 3 | 2) for pid in pids)


def figures_of(server: Server, connections: int, pages: int) -> Figures:
    own, program = processor(server.own), processor(server.program)
    times = sorted(asked(server.port, connections, pages))
    count = len(times)
    return Figures(
        (processor(server.own) - own) / count,
        (processor(server.program) - program) / count,
        times[count // 2],
        times[count * 99 // 100],
    )


def best(turns: Sequence[Figures]) -> Figures:
    """The smallest of each figure."""
    return Figures(*(min(of) for of in zip(*turns)))


def by_script(processes: Processes, name: str, program: str) -> Server:
    """An example's script that serves the bakery."""
    words = [*command("geanmarbles"), name, "--program", program, "--port", "0", str(COMMANDS)]
    process = processes.start(name, words)
    port = int(process.first_line(READY).strip().rstrip("/").rpartition(":")[2])
    return Server(f"geanmarbles {name}", port, [process.child.pid], children_of(process.child.pid))


def by_nginx(processes: Processes, page: bytes) -> Server:
    """nginx, which has the page as a file."""
    port, folder = free_port(), processes.folder
    Path(folder, "index.html").write_bytes(page)
    Path(folder, "nginx.conf").write_text(NGINX.format(folder=folder, port=port), encoding="utf-8")
    process = processes.start("nginx", ["nginx", "-c", f"{folder}/nginx.conf"])
    wait_for(lambda: listens(port), READY, "nginx listens")
    pid = process.child.pid
    return Server("nginx, a file", port, [pid, *children_of(pid)], [])


def by_node(cluster: Cluster) -> Server:
    """A node of a cluster over the bakery."""
    node, lines = cluster.nodes[0], COMMANDS.read_bytes().splitlines()
    node.wait_until_ready()
    node.post_again(b"".join(it + b"\n" for it in lines if b'"cmd":"get"' not in it), "the bakery")
    pid = node.process.child.pid
    return Server("geanmarbles node", node.port, [pid], children_of(pid))


@contextlib.contextmanager
def servers(program: str) -> Iterator[list[Server]]:
    """The servers that are compared, until the block ends."""
    with contextlib.ExitStack() as held:
        folder = held.enter_context(tempfile.TemporaryDirectory())
        processes = held.enter_context(Processes(folder))
        found = [by_script(processes, name, program) for name in ("serve", "browse")]
        if shutil.which("etcd"):
            found.append(by_node(held.enter_context(Cluster(program, count=1))))
        if shutil.which("nginx"):
            found.append(by_nginx(processes, page_of(found[0].port)))
        yield found


@quiet_output()
def main() -> None:
    bench = Bench(parser_of(__doc__).parse_args())
    counts, pages, turns = (SMALL, SMALL_PAGES, 1) if bench.smoke else (CONNECTIONS, PAGES, TURNS)
    print("                     connections   µs of a processor: server  program   by the clock, ms: half  99 in 100")
    with servers(bench.program) as compared:
        for count in counts:
            figures: dict[str, list[Figures]] = {it.name: [] for it in compared}
            for server in compared:
                asked(server.port, count, max(count, 0 if bench.smoke else FIRST))
            for _ in range(turns):
                for server in compared:
                    figures[server.name].append(figures_of(server, count, max(count, pages)))
            for name, of in figures.items():
                it = best(of)
                cells = f"{it.server * 1e6:25.1f}{it.program * 1e6:9.1f}{it.median * 1e3:24.2f}{it.slow * 1e3:11.2f}"
                print(f"{name:<20}{count:>12}{cells}", flush=True)
