"""Judges a cluster at rest: what clients recorded, and what its nodes have, against one program and the history."""

from __future__ import annotations

import bisect
import subprocess
import time
from collections.abc import Callable, Sequence
from typing import Any

from geanmarbles.checks.cluster.clients import PATHS, Record, joined, line_of, name_of, page_of
from geanmarbles.checks.cluster.etcd import Edit
from geanmarbles.checks.cluster.history import violations_of
from geanmarbles.checks.cluster.nodes import Cluster, Node
from geanmarbles.checks.judging import Counted, counted_in, must
from geanmarbles.client.replies import Wrong, shown, whole_replies


SECONDS = 120
# How long edits may come once no client asks for any: a node tries for some seconds.
REST_SECONDS = 40
# The pages that all nodes must have alike at the end, beside those that clients read.
ALIKE = (*PATHS, *(f"/?p={number}" for number in range(3, 40)), "/?paged=3")
# How many violations a message shows.
SHOWN = 4


def counted(output: str, status: int) -> tuple[list[str], Counted]:
    """What this script has said, run for a part alone: its lines but for the last, and what that one counts."""
    *lines, last = output.splitlines() or [""]
    found = counted_in(last)
    if not found:
        raise Wrong(f"it ended with status {status}, and last said {last!r}")
    return [line for line in lines if not line.startswith("seed ")], found


def get(path: str) -> bytes:
    return line_of(cmd="get", path=path)


def replies_of(program: str, lines: Sequence[bytes]) -> list[bytes]:
    """The replies of a single program that is given some lines, without their last newlines."""
    ran = subprocess.run([program], input=joined(lines), capture_output=True, timeout=SECONDS, check=False)
    if ran.returncode or ran.stderr:
        raise Wrong(f"a single program ended with status {ran.returncode} and says {shown(ran.stderr)}")
    found = whole_replies(ran.stdout)
    if len(found) != len(lines):
        raise Wrong(f"{len(lines)} lines have {len(found)} replies")
    return [reply[:-1] for reply in found]


def page_in(reply: bytes) -> str:
    """A page as it is recorded, of a reply that has one."""
    head, _, page = reply.partition(b"\n")
    return page_of(int(head.split()[1]), page) if head.startswith(b"page ") else reply.decode()


class Alone:
    """A single program that is given the history: its replies to edits, and its pages at revisions."""

    def __init__(self, program: str, history: Sequence[Edit], asked: Any) -> None:
        """`history` are edits by etcd; `asked` pairs of a revision and a path whose pages are needed."""
        self.revisions = [edit.revision for edit in history]
        last = self.revisions[-1] if history else 0
        needed = {(self.place(revision), path) for revision, path in asked}
        wanted = sorted(needed | {(len(history), path) for path in ALIKE})
        lines: list[bytes] = []
        places: dict[object, int] = {}
        at = 0
        for place in range(len(history) + 1):
            while at < len(wanted) and wanted[at][0] == place:
                places[wanted[at]] = len(lines)
                lines.append(get(wanted[at][1]))
                at += 1
            if place < len(history):
                places[history[place].revision] = len(lines)
                lines.append(history[place].line)
        self.replies, self.places, self.last = replies_of(program, lines), places, last

    def place(self, revision: int) -> int:
        """How many edits of the history a revision has."""
        return bisect.bisect_right(self.revisions, revision)

    def reply(self, revision: int) -> str:
        return self.replies[self.places[revision]].decode()

    def page(self, revision: int, path: str) -> str:
        return page_in(self.replies[self.places[self.place(revision), path]])

    def pages(self) -> list[str]:
        return [self.page(self.last, path) for path in ALIKE]


def pages_of(node: Node) -> list[str]:
    """The pages that a node has, each as fresh as the cluster, which may take some time after trouble."""
    found: list[str] = []
    for path in ALIKE:
        answer = node.get_again(path, X_Site_Fresh="1")
        if answer.status not in (200, 404):
            raise Wrong(f"{node.name} answers {path} by {answer.shown()}")
        found.append(page_of(answer.status, answer.body))
    return found


def first_difference(pages: dict[str, list[str]]) -> dict[str, str]:
    """The pages of each node as a text; of nodes that differ, the first path at which they do."""
    for path, alike in zip(ALIKE, zip(*pages.values())):
        if len(set(alike)) > 1:
            return {name: f"{path}: {page}" for name, page in zip(pages, alike)}
    return dict.fromkeys(pages, "alike")


def at_rest(read_history: Callable[[], list[Edit]], nodes: Sequence[Node]) -> tuple[list[Edit], dict[str, list[str]]]:
    """The history and the pages of all nodes, once no edit comes any more: one that a client has given up may still be
    on its way."""
    until = time.monotonic() + REST_SECONDS
    while True:
        history, pages = read_history(), {node.name: pages_of(node) for node in nodes}
        if read_history() == history:
            return history, pages
        must(time.monotonic() < until, "edits come though no client asks for any")
        time.sleep(0.2)


def judge(program: str, read_history: Callable[[], list[Edit]], record: Record, nodes: Sequence[Node]) -> str:
    """Sees that the history, what was recorded and what the nodes have fit together; returns how much was judged."""
    if record.faults:
        raise Wrong(f"{len(record.faults)} answers that no node may give: {record.faults[:SHOWN]}")
    history, pages = at_rest(read_history, nodes)
    operations = record.operations
    reads = [it for it in operations if it["kind"] == "read" and it["outcome"] == "ok"]
    alone = Alone(program, history, {(it["revision"], it["path"]) for it in reads})
    for read in reads:
        read["wanted"] = alone.page(read["revision"], read["path"])
    names = [(edit.revision, name_of(edit.line)) for edit in history]
    revisions = {name: revision for revision, name in names}
    for edit in operations:
        if edit["kind"] == "edit" and edit["outcome"] == "ok" and edit["name"] in revisions:
            edit["wanted"] = alone.reply(revisions[edit["name"]])
    found = violations_of(names, operations, first_difference(pages | {"a single program": alone.pages()}))
    if found:
        raise Wrong(f"{len(found)} violations: {'; '.join(map(str, found[:SHOWN]))}")
    return f"{len(history)} edits in the history, {len(reads)} reads"


def judge_at_rest(
    cluster: Cluster,
    record: Record,
    read_history: Callable[[], list[Edit]] | None = None,
    nodes: Sequence[Node] | None = None,
) -> str:
    """Waits until all nodes are ready, and judges them. The history is what etcd has, if it isn't read otherwise."""
    nodes = nodes or cluster.nodes
    cluster.settle(nodes)
    return judge(cluster.program, read_history or (lambda: cluster.members.store.edits("site")), record, nodes)
