"""Measures a site on several machines: pages by nodes, edits by clients, delays between nodes, and starts.

    geanmarbles dev bench cluster [--smoke] [--edits N] [PROGRAM]

Three members of etcd, the nodes and the clients are all on this machine, so they share its processors; beside each rate
is what a page or an edit takes of a processor at the node, at its program and at etcd. The starts are over N edits,
100,000 if it is left out, first of the whole history and then of a snapshot. README.md says how to read it, and
bench/README.md what the options do. Each program is ended at the end, also on failure.
"""

import contextlib
import http.client
import json
import os
import re
import shutil
import signal
import statistics
import subprocess
import sys
import time
from collections.abc import Iterable, Sequence
from concurrent.futures import ThreadPoolExecutor
from pathlib import Path
from typing import Self

from geanmarbles.benches.asking import edit_line
from geanmarbles.benches.measured import Bench, parser_of
from geanmarbles.checks.cluster.clients import Answer, joined, line_of
from geanmarbles.checks.cluster.etcd import Place, after, b64
from geanmarbles.checks.cluster.faults import children_of
from geanmarbles.checks.cluster.nodes import TOKEN, Cluster, Node
from geanmarbles.checks.cluster.processes import wait_for
from geanmarbles.output import quiet_output
from geanmarbles.paths import ROOT, command

HERE = ROOT / "bench" / "cluster"
# Nodes and clients for pages; clients for edits; how many processes they are in.
NODES, READERS, WRITERS, PROCESSES = (1, 2, 4), 4, (1, 4, 16, 64), 4
TOGETHER = 100
# How many edits a request has that makes the history of a start, and how many clients make them.
IN_REQUEST, FILLERS = 250, 16
SECONDS, EDITS, DELAYS, STARTS, POSTS = 6, 100_000, 300, 3, 100
# The same of the smallest sizes: seconds; edits, delays and starts.
SMALL_SECONDS, SMALL = 0.5, (150, 10, 1)
TICKS = os.sysconf("SC_CLK_TCK")
# No snapshot is made, and one is made soon.
NEVER, SOON = ("--snapshot-every", "250000"), ("--snapshot-every", "100")
# How long a node may take for its start or for a snapshot, how often that is looked at, and how many edits may be left.
READY, PAUSE, FEW = 600, 0.2, 100


class Sizes:
    """How much is measured."""

    def __init__(self, smoke: bool, edits: int) -> None:
        self.seconds: float = SMALL_SECONDS if smoke else SECONDS
        self.edits, self.delays, self.starts = SMALL if smoke else (edits, DELAYS, STARTS)
        self.nodes = NODES[:2] if smoke else NODES
        self.writers = WRITERS[:2] if smoke else WRITERS


def seconds_of(pid: int) -> float:
    """What a process has taken of a processor so far, with its children that have ended."""
    fields = Path(f"/proc/{pid}/stat").read_text(encoding="utf-8").rpartition(")")[2].split()
    return (int(fields[11]) + int(fields[12])) / TICKS


class Taken:
    """What nodes, their programs and members take of a processor, for a `with` block."""

    def __init__(self, cluster: Cluster, nodes: Sequence[Node]) -> None:
        self.nodes = [node.process.child.pid for node in nodes]
        self.members = [it.child.pid for it in cluster.members.running]

    def now(self) -> list[float]:
        programs = [pid for node in self.nodes for pid in children_of(node)]
        return [sum(map(seconds_of, pids)) for pids in (self.nodes, programs, self.members)]

    def __enter__(self) -> Self:
        self.before = self.now()
        return self

    def __exit__(self, *_: object) -> None:
        self.node, self.program, self.member = (now - then for now, then in zip(self.now(), self.before))


def asked(kind: str, seconds: float, count: int, words: Sequence[object], targets: list[str]) -> float:
    """How many pages or edits some clients were answered a second, in several processes."""
    processes = min(PROCESSES, count)
    shares = [count // processes + (at < count % processes) for at in range(processes)]
    children: list[subprocess.Popen[str]] = []
    try:
        for at, share in enumerate(shares):
            more = [f"{it}.{at}" if place == 2 else it for place, it in enumerate(words)]
            turned = targets[at % len(targets) :] + targets[: at % len(targets)]
            asking = [*command("bench/cluster/asking"), kind, seconds, share, *more, *turned]
            children.append(subprocess.Popen(list(map(str, asking)), stdout=subprocess.PIPE, text=True))
        told = [child.communicate(timeout=seconds + 120)[0].split() for child in children]
        if any(child.returncode for child in children):
            sys.exit("clients weren't answered as they must be")
        return sum(int(number) for number, _ in told) / max(float(took) for _, took in told)
    finally:
        for child in children:
            child.kill()
            child.wait()


def targets_of(nodes: Iterable[Node]) -> list[str]:
    return [f"{node.place.host}:{node.port}" for node in nodes]


def store(node: Node, lines: Sequence[bytes]) -> Answer:
    answer = node.post(joined(lines), seconds=300)
    if answer.status != 200:
        sys.exit(f"edits were answered by {answer.shown()}")
    return answer


def show_pages(cluster: Cluster, sizes: Sizes) -> None:
    """Pages a second by nodes, and what one takes."""
    store(cluster.nodes[0], [edit_line(at, "pages") for at in range(POSTS)])
    cluster.settle()
    print("pages          a second    node, µs    program, µs   of a processor for each page")
    for count in sizes.nodes:
        nodes = cluster.nodes[:count]
        with Taken(cluster, nodes) as taken:
            rate = asked("pages", sizes.seconds, READERS * count, [POSTS], targets_of(nodes))
        each = rate * sizes.seconds
        name = f"{count} node{'s' * (count > 1)}"
        figures = f"{taken.node / each * 1e6:>11,.0f} {taken.program / each * 1e6:>14,.0f}"
        print(f"{name:<12} {rate:>10,.0f} {figures}", flush=True)


def show_edits(cluster: Cluster, sizes: Sizes) -> None:
    """Edits a second by clients, and what one takes."""
    print("\nedits                     a second    at a node, µs   at etcd, µs   of a processor for each edit, of all")
    nodes = cluster.nodes[:3]
    cases = [(count, 1) for count in sizes.writers] + [(1, TOGETHER)]
    for count, lines in cases:
        with Taken(cluster, cluster.nodes) as taken:
            name = f"w{count}x{lines}"
            rate = asked("edits", sizes.seconds, count, [lines, TOKEN, name], targets_of(nodes))
        each = max(1, rate * sizes.seconds)
        what = f"{count} client{'s' * (count > 1)}" + f", {lines} in a request" * (lines > 1)
        figures = f"{taken.node / each * 1e6:>14,.0f} {taken.member / each * 1e6:>13,.0f}"
        print(f"{what:<25} {rate:>8,.0f} {figures}", flush=True)


def show_delays(cluster: Cluster, sizes: Sizes) -> None:
    """How long after an edit's answer each other node has it, by asking each all the time."""
    first, *others = cluster.nodes[:3]
    delays: list[float] = []
    at_once = 0
    for number in range(sizes.delays):
        line = line_of(cmd="option", name="blogname", value=f"delay {number}")
        answer = store(first, [line])
        for node in others:
            tries = 0
            while (page := node.get("/?p=1")).place() < answer.place():
                tries += 1
            at_once += tries == 0
            delays.append(page.end - answer.end)
    plain = [page.end - page.start for page in (others[0].get("/?p=1") for _ in range(sizes.delays))]
    print(f"\nof {len(delays)} pages asked of other nodes once an edit was answered, {at_once} had the edit")
    print(f"from the edit's answer to a page that has it: {quantiles(delays)}")
    print(f"a page by itself: {quantiles(plain)}", flush=True)


def quantiles(seconds: Sequence[float]) -> str:
    cuts = [1e3 * it for it in statistics.quantiles(seconds, n=100, method="inclusive")]
    return f"half within {cuts[49]:.1f} ms, 99 in 100 within {cuts[98]:.1f} ms, all within {1e3 * max(seconds):.1f} ms"


def fill(cluster: Cluster, count: int) -> None:
    """Makes that many edits, by clients of all nodes, each with some edits in a request."""
    nodes, firsts = cluster.nodes, range(0, count, IN_REQUEST)

    def make(first: int) -> None:
        lines = [edit_line(at, "fill") for at in range(first, min(first + IN_REQUEST, count))]
        store(nodes[first // IN_REQUEST % len(nodes)], lines)

    with ThreadPoolExecutor(FILLERS) as pool:
        for number, _ in enumerate(pool.map(make, firsts), 1):
            if number * IN_REQUEST % 20_000 == 0:
                print(f"  {number * IN_REQUEST:,} edits are there", file=sys.stderr, flush=True)


def start_of(cluster: Cluster, options: Sequence[str], times: int) -> tuple[float, float, float]:
    """The shortest of some times from the start of a node until it is ready, what that took of a processor, and the
    peak memory of the node and its program."""
    figures = []
    for _ in range(times):
        node = cluster.new_node("timed", options)
        begin = time.monotonic()
        node.start()
        node.wait_until_ready(READY)
        took = time.monotonic() - begin
        pids = [node.process.child.pid, *children_of(node.process.child.pid)]
        figures.append((took, sum(map(seconds_of, pids)), sum(map(peak_of, pids))))
        node.process.end()
    return min(figures)


def peak_of(pid: int) -> float:
    """Peak memory in megabytes."""
    found = re.search(r"VmHWM:\s+(\d+)", Path(f"/proc/{pid}/status").read_text(encoding="utf-8"))
    return int(found[1]) / 1024 if found else 0


def show_starts(program: str, sizes: Sizes) -> None:
    """Starts over a whole history, and over a snapshot of it. One etcd holds it: a start asks one member alone."""
    one, quota = ((Place(),), (Place(),) * 3), ("--quota-backend-bytes", "8000000000")
    with Cluster(program, options=NEVER, etcd=quota, places=one) as cluster:
        begin = time.monotonic()
        fill(cluster, sizes.edits)
        took, size = time.monotonic() - begin, database_of(cluster)
        print(f"\n{sizes.edits:,} edits were made in {took:.0f} s, and etcd has {size:.0f} MB of them")
        print("start of a node                  seconds   of a processor   peak, MB")
        show_start(f"{sizes.edits:,} edits, no snapshot", start_of(cluster, NEVER, sizes.starts))
        maker = cluster.new_node("maker", SOON)
        maker.start()
        begin = time.monotonic()
        wait_for(lambda: maker.health().get("snapshot"), READY, "a snapshot is made", PAUSE)
        wait_for(lambda: cluster.members.store.count("site/edit/") < FEW, READY, "its edits are deleted", PAUSE)
        made = time.monotonic() - begin
        maker.process.end()
        show_start(f"{sizes.edits:,} edits, a snapshot", start_of(cluster, NEVER, sizes.starts))
    print(f"the snapshot was made, and the edits deleted, within {made:.1f} s")


def show_start(name: str, figures: tuple[float, float, float]) -> None:
    seconds, taken, peak = figures
    print(f"{name:<32} {seconds:>7.2f} {taken:>16.2f} {peak:>10.0f}", flush=True)


def database_of(cluster: Cluster) -> float:
    status = cluster.members.store.call("/v3/maintenance/status")
    return int(status["dbSize"]) / 1e6


def show_traffic(cluster: Cluster) -> None:
    """What a watch tells of an edit, in bytes, for what 100 nodes cost on paper."""
    line = edit_line(0, "traffic")
    revision = store(cluster.nodes[0], [line]).revision()
    wanted = {"key": b64("site/edit/"), "range_end": b64(after("site/edit/")), "start_revision": str(revision)}
    host, _, port = cluster.members.urls[0].removeprefix("http://").rpartition(":")
    with contextlib.closing(http.client.HTTPConnection(host, int(port), timeout=10)) as watch:
        watch.request("POST", "/v3/watch", json.dumps({"create_request": wanted}))
        response = watch.getresponse()
        # The first line says that the watch has begun.
        _, told = response.readline(), response.readline()
    print(f"\na watch tells an edit of {len(line)} bytes in {len(told)} bytes, beside the heads of HTTP and TCP")


def show_idle(cluster: Cluster, sizes: Sizes) -> None:
    """What a node costs that nobody asks anything: it asks etcd for its last edit, twice a second."""
    first, *others = cluster.nodes
    many = idle(cluster, cluster.nodes, sizes)
    for node in others:
        node.process.end()
    one = idle(cluster, [first], sizes)
    own, at_etcd = (1e3 * (all_of - of_one) / len(others) for all_of, of_one in zip(many, one))
    print(f"a node that nobody asks takes {own:.1f} ms a second of a processor, and {at_etcd:.1f} ms at etcd")


def idle(cluster: Cluster, nodes: Sequence[Node], sizes: Sizes) -> tuple[float, float]:
    """What nodes and members take of a processor in a second in which nobody asks anything."""
    seconds = 4 * sizes.seconds
    with Taken(cluster, nodes) as taken:
        time.sleep(seconds)
    return taken.node / seconds, taken.member / seconds


@quiet_output()
def main() -> None:
    parser = parser_of(__doc__)
    parser.add_argument("--edits", type=int, default=EDITS, metavar="N", help="edits of the history of a start")
    given = parser.parse_args()
    if not shutil.which("etcd"):
        sys.exit("geanmarbles dev bench cluster: there is no etcd here (Debian: etcd-server, etcd-client)")
    # So that a signal, too, has all that was started end.
    signal.signal(signal.SIGTERM, lambda *_: sys.exit("geanmarbles dev bench cluster: ended by a signal"))
    bench, sizes = Bench(given), Sizes(given.smoke, given.edits)
    with Cluster(bench.program, count=max(sizes.nodes), options=NEVER) as cluster:
        show_pages(cluster, sizes)
        show_edits(cluster, sizes)
        show_delays(cluster, sizes)
        show_traffic(cluster)
        show_idle(cluster, sizes)
    show_starts(bench.program, sizes)
