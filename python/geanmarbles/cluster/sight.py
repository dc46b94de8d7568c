"""What a node tells of the requests that it answers: a line of JSON for each, and figures for whoever collects them.

The figures are in the form of Prometheus, whose library for Python (Debian: python3-prometheus-client) makes and serves
them; a node that isn't asked for them doesn't need it.
"""

from __future__ import annotations

import importlib
import json
import sys
import threading
from collections.abc import Iterator
from datetime import datetime, timezone
from typing import TYPE_CHECKING, Any, NamedTuple

if TYPE_CHECKING:
    from geanmarbles.cluster.site_node import Node

# The upper ends of the times by which requests are counted, in seconds.
BUCKETS = (0.001, 0.0025, 0.005, 0.01, 0.025, 0.05, 0.1, 0.25, 0.5, 1, 2.5, 5, 10)
METHODS = {"GET", "HEAD", "POST"}


class Seen(NamedTuple):
    """A request that was answered: where it came from, itself as a proxy says and from whom; what it asked for; and its
    answer. `by` is the name of the token that it had, and `edits` how many lines it brought that have a reply."""

    client: str
    forwarded: str | None
    method: str
    path: str
    status: int
    bytes: int
    seconds: float
    revision: int | None = None
    by: str | None = None
    edits: int | None = None


class NoFigures(Exception):
    """Why figures can't be served."""


class Figures:
    """The figures of a node, at an address of their own."""

    def __init__(self, node: Node, address: tuple[str, int]) -> None:
        try:
            library: Any = importlib.import_module("prometheus_client")
            self.core: Any = importlib.import_module("prometheus_client.core")
        except ImportError:
            raise NoFigures("--metrics needs Debian's python3-prometheus-client") from None
        self.node = node
        registry = library.CollectorRegistry()
        how = {"registry": registry}
        self.requests = library.Counter("site_requests", "Requests answered", ["method", "status"], **how)
        self.seconds = library.Histogram("site_request_seconds", "Seconds a request", buckets=BUCKETS, **how)
        self.edits = library.Counter("site_edits", "Edits that have a reply", ["by"], **how)
        registry.register(self)
        library.start_http_server(address[1], address[0], registry)

    def note(self, seen: Seen) -> None:
        method = seen.method if seen.method in METHODS else "other"
        self.requests.labels(method, str(seen.status)).inc()
        self.seconds.observe(seen.seconds)
        if seen.edits and seen.by:
            self.edits.labels(seen.by).inc(seen.edits)

    def collect(self) -> Iterator[Any]:
        """What is read off the node whenever somebody asks."""
        for name, (text, value) in figures_of(self.node).items():
            yield self.core.GaugeMetricFamily(f"site_{name}", text, value=value)


def figures_of(node: Node) -> dict[str, tuple[str, float]]:
    """What there is to read off a node, each with what it is."""
    current, head = node.current, node.head
    program = current.program if current else None
    return {
        "ready": ("Whether the node is ready", float(node.state() is None)),
        "applied_revision": ("The place of the last edit applied", node.place()),
        "known_revision": ("The place of the last edit of the cluster", max(node.known.place, node.last.place)),
        "applied_edits": ("Edits applied", node.last.count),
        "snapshot_edits": ("Edits that the newest snapshot has", head.last.count if head else 0),
        "program_lines": ("Lines that the program was sent", program.lines if program else 0),
        "program_owes_seconds": ("For how long the program has owed a reply", current.owes() if current else 0.0),
        "programs_started": ("Programs that were started", node.begun_count),
        "etcd_faults": ("Questions to etcd that have had no answer", node.news.failures),
        "etcd_silent_seconds": ("Since when etcd hasn't answered", node.silence()),
    }


class Sight:
    """What is told of requests."""

    def __init__(self, has_lines: bool = False, figures: Figures | None = None) -> None:
        self.has_lines, self.figures, self.turn = has_lines, figures, threading.Lock()

    def note(self, seen: Seen) -> None:
        if self.figures:
            self.figures.note(seen)
        if self.has_lines:
            now = datetime.now(timezone.utc).isoformat(timespec="milliseconds").replace("+00:00", "Z")
            told = {name: it for name, it in seen._asdict().items() if it is not None}
            self.write(json.dumps({"time": now, **told, "seconds": round(seen.seconds, 6)}))

    def write(self, line: str) -> None:
        """Writes a line at once and whole. If nobody reads it any more, no request is refused for that."""
        with self.turn:
            try:
                sys.stdout.write(f"{line}\n")
                sys.stdout.flush()
            except OSError:
                self.has_lines = False
