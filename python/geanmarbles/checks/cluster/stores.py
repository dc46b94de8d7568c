"""An etcd that is full, and one that forgot."""

import argparse
import tempfile
import time
from collections.abc import Callable, Sequence
from functools import partial
from pathlib import Path
from typing import Any

from geanmarbles.checks.cluster.clients import DATE, Answer, Load, NoAnswer, Record, joined, line_of
from geanmarbles.checks.cluster.etcd import Json, Unanswered, b64
from geanmarbles.checks.cluster.judged import judge_at_rest
from geanmarbles.checks.cluster.nodes import Cluster, Node
from geanmarbles.checks.cluster.processes import wait_for
from geanmarbles.checks.judging import Cases, must
from geanmarbles.client.replies import Wrong

# How much etcd may keep, in bytes, and the size of what fills it up.
QUOTA, LARGE = 8_000_000, 200_000
# Reasons for which a node doesn't serve over an etcd that forgot.
FORGOTTEN = ("history-went-back",)
SECONDS = 30
# What reads promise: nothing, or that they are fresh.
PLAIN: dict[str, str] = {}
FRESH = {"X_Site_Fresh": "1"}


def put(name: str, size: int = 0) -> bytes:
    return line_of(cmd="put", title=name, content="x" * size, date=DATE, n=name)


def posted(node: Node, lines: Sequence[bytes], record: Record, **headers: Any) -> Answer | None:
    """Posts edits and records what came of them."""
    start = time.monotonic()
    try:
        answer = node.post(joined(lines), **headers)
    except NoAnswer:
        record.edits(lines, start, time.monotonic(), None)
        return None
    record.edits(lines, answer.start, answer.end, answer)
    return answer


def answered(node: Node, lines: Sequence[bytes], record: Record) -> Answer:
    """The same, where an answer must come."""
    answer = posted(node, lines, record)
    if answer is None:
        raise Wrong(f"{node.name} gave no answer")
    return answer


def loaded(cluster: Cluster, record: Record, seed: object, seconds: float = 1.0) -> None:
    """Has some clients edit and read for some time."""
    with Load(cluster.nodes, record, seed, 4):
        time.sleep(seconds)


# An etcd that is full.


def fill(cluster: Cluster) -> None:
    """Fills etcd up by keys that aren't the site's, until it takes no more."""
    store = cluster.members.store
    for number in range(2 * QUOTA // LARGE):
        try:
            store.ask(store.urls[0], "/v3/kv/put", filler(number))
        except Unanswered as fault:
            must("exceeded" in str(fault) or "space" in str(fault).lower(), f"etcd refused it by {fault}")
            return
    raise Wrong("etcd isn't full")


def filler(number: int) -> Json:
    return {"key": b64(f"filler/{number:04}"), "value": b64("x" * LARGE)}


def check_full(cluster: Cluster, record: Record) -> str:
    """Full, it takes no edit, says so by name, and serves the pages that it has."""
    for at, node in enumerate(cluster.nodes * 2):
        answer = answered(node, [put(f"full-{at}")], record)
        must(answer.status == 503, f"{node.name} answered {answer.shown()}")
        must(answer.body.strip(), f"{node.name} names no reason")
    for node in cluster.nodes:
        for headers in (PLAIN, FRESH):
            page = node.get_again("/", **headers)
            must(page.status in (200, 404), f"{node.name} answered {page.shown()} to a read")
    return answer.body.decode().strip()


def clear(cluster: Cluster) -> None:
    """What whoever runs etcd does: deletes, compacts, defragments and takes the alarm back."""
    members, ends = cluster.members, ",".join(cluster.members.urls)
    members.store.delete("filler/")
    members.store.call("/v3/kv/compaction", revision=str(members.store.revision()), physical=True)
    for url in members.urls:
        members.ctl("--endpoints", url, "defrag")
    members.ctl("--endpoints", ends, "alarm", "disarm")


def full_and_cleared(arguments: argparse.Namespace, limits: Sequence[str]) -> None:
    with Cluster(arguments.program, etcd=limits) as cluster:
        record = Record()
        loaded(cluster, record, f"{arguments.seed}.full")
        history = cluster.members.store.edits("site")
        fill(cluster)
        reason = check_full(cluster, record)
        must(cluster.members.store.edits("site") == history, "an edit is there that was refused")
        clear(cluster)
        for node in cluster.nodes:
            node.wait_until_ready()
        for at, node in enumerate(cluster.nodes):
            line = put(f"cleared-{at}")
            wait_for(partial(is_taken, node, line, record), SECONDS, f"{node.name} takes edits again")
        # Compacted, etcd has no older events: a node that starts now reads the keys.
        cluster.nodes[0].process.kill()
        cluster.nodes[0].start()
        loaded(cluster, record, f"{arguments.seed}.cleared")
        judge_at_rest(cluster, record)
        print(f"stores: full, a node says {reason!r}", flush=True)


def is_done(answer: Answer | None) -> bool:
    return answer is not None and answer.status == 200


def is_taken(node: Node, line: bytes, record: Record) -> bool:
    return is_done(posted(node, [line], record))


def full_and_enlarged(arguments: argparse.Namespace, limits: Sequence[str]) -> None:
    """All is the site's own: the quota is raised by starting the members anew."""
    with Cluster(arguments.program, etcd=limits) as cluster:
        record = Record()
        for number in range(2 * QUOTA // LARGE):
            answer = posted(cluster.nodes[number % 3], [put(f"large-{number}", LARGE)], record)
            if answer is None or answer.status != 200:
                break
        must(answer is not None and answer.status == 503, f"edit {number} was answered by {answer and answer.shown()}")
        check_full(cluster, record)
        cluster.members.options = ()
        for at in range(3):
            cluster.members.kill(at)
            cluster.members.start(at)
            cluster.members.wait()
        cluster.members.ctl("--endpoints", ",".join(cluster.members.urls), "alarm", "disarm")
        cluster.settle()
        loaded(cluster, record, f"{arguments.seed}.enlarged")
        judge_at_rest(cluster, record)


def full_under_load(arguments: argparse.Namespace, limits: Sequence[str]) -> None:
    """Clients edit while etcd becomes full and is cleared again."""
    with Cluster(arguments.program, etcd=limits) as cluster:
        record = Record()
        with Load(cluster.nodes, record, f"{arguments.seed}.filling", 6):
            time.sleep(0.5)
            fill(cluster)
            time.sleep(1)
            clear(cluster)
            time.sleep(1)
        judge_at_rest(cluster, record)


# An etcd that has dropped what it tells of the past.


def compacted(arguments: argparse.Namespace) -> None:
    """Nodes are stopped, and killed, while etcd drops the events that they lack; there is no snapshot."""
    with Cluster(arguments.program) as cluster:
        record, stopped, killed = Record(), *cluster.nodes[:2]
        loaded(cluster, record, f"{arguments.seed}.first", 0.5)
        stopped.process.stop()
        killed.process.kill()
        try:
            with Load(cluster.nodes[2:], record, f"{arguments.seed}.away", 4):
                time.sleep(1)
            store = cluster.members.store
            store.call("/v3/kv/compaction", revision=str(store.revision()), physical=True)
        finally:
            stopped.process.go_on()
            killed.start()
        loaded(cluster, record, f"{arguments.seed}.back", 0.5)
        judge_at_rest(cluster, record)


# An etcd that forgot.


def refuses_to_serve(cluster: Cluster, record: Record) -> set[str]:
    """No node serves over a history that it knows to be another, and each names it."""
    reasons: set[str] = set()
    for node in cluster.nodes:
        reasons.add(node.wait_for_reason(*FORGOTTEN, seconds=SECONDS))
    for at, node in enumerate(cluster.nodes):
        for headers in (PLAIN, FRESH, {"X_Site_Revision": "1"}):
            page = node.get("/", **headers)
            must(page.status == 503 and page.body.strip(), f"{node.name} answered {page.shown()}")
        answer = answered(node, [put(f"forgotten-{at}")], record)
        must(answer.status == 503, f"{node.name} answered {answer.shown()}")
        health = node.ask("GET", "/health")
        must(health.status == 503, f"{node.name} says {health.shown()} of itself")
    return reasons


def serves_nothing_forgotten(nodes: Sequence[Node], path: str, seconds: float) -> None:
    """Asks for a page all the time: it may not be answered once it would be that of the older history."""
    until = time.monotonic() + seconds
    while time.monotonic() < until:
        for node in nodes:
            try:
                page = node.get(path, seconds=5)
            except NoAnswer:
                continue
            must(page.status != 404, f"{node.name} serves the history that forgot: {page.shown()}")


def forgot(
    arguments: argparse.Namespace, how: tuple[Callable[[Cluster, Path], object], Callable[[Cluster, Path], object]]
) -> None:
    """Edits, a copy of etcd, more edits, and the copy in etcd's place; `how` has two steps, the copy and its return."""
    save, put_back = how
    with Cluster(arguments.program) as cluster, tempfile.TemporaryDirectory() as folder:
        record, node = Record(), cluster.nodes[0]
        loaded(cluster, record, f"{arguments.seed}.before")
        save(cluster, Path(folder))
        cluster.settle()
        last = answered(node, [put("after the copy")], record)
        must(last.status == 200, last.shown())
        path = f"/?p={last.lines()[0].split()[1]}"
        for other in cluster.nodes:
            must(other.get_again(path, X_Site_Fresh="1").status == 200, f"{other.name} doesn't have the edit")
        before = [it.get_again("/", X_Site_Fresh="1").place() for it in cluster.nodes]
        put_back(cluster, Path(folder))
        cluster.members.start_all()
        must(cluster.members.store.revision() < max(before), "etcd hasn't forgotten")
        serves_nothing_forgotten(cluster.nodes, path, 3)
        history = cluster.members.store.edits("site")
        reasons = refuses_to_serve(cluster, record)
        must(cluster.members.store.edits("site") == history, "an edit was written over the history that forgot")
        print(f"stores: it forgot, and nodes say {sorted(reasons)}")
        starts_over(cluster, arguments)


def starts_over(cluster: Cluster, arguments: argparse.Namespace) -> None:
    """Whoever runs it starts the nodes anew, which is to serve what etcd has."""
    for node in cluster.nodes:
        node.process.end()
        node.start()
    fresh = Record()
    cluster.settle()
    history = cluster.members.store.edits("site")
    loaded(cluster, fresh, f"{arguments.seed}.over")
    known = {edit.revision for edit in history}
    later = [it for it in cluster.members.store.edits("site") if it.revision not in known]
    must(len(later) > 0, "no edit was taken")
    for edit in history:
        fresh.given(edit.line)
    judge_at_rest(cluster, fresh)


def stop_and_copy(cluster: Cluster, folder: Path) -> None:
    """Copies the files of all members while none runs."""
    cluster.members.kill_all()
    cluster.members.copy(folder)
    cluster.members.start_all()


def went_another_way(arguments: argparse.Namespace) -> None:
    """A node is stopped; meanwhile etcd forgets, and other nodes go on from there, beyond what the node had come to."""
    with Cluster(arguments.program) as cluster, tempfile.TemporaryDirectory() as folder:
        record, other, away = Record(), cluster.nodes[0], cluster.nodes[2]
        loaded(cluster, record, f"{arguments.seed}.way")
        stop_and_copy(cluster, Path(folder))
        cluster.settle()
        last = answered(other, [put("the one way")], record)
        path = f"/?p={last.lines()[0].split()[1]}"
        page = away.get_again(path, X_Site_Fresh="1")
        must(page.status == 200, page.shown())
        away.process.stop()
        for node in cluster.nodes[:2]:
            node.process.kill()
        cluster.members.put_back(Path(folder))
        cluster.members.start_all()
        for node in cluster.nodes[:2]:
            node.start()
            node.wait_until_ready()
        for number in range(20):
            answer = other.post(joined([put(f"the other way {number}")]))
            must(answer.status == 200, answer.shown())
        must(answer.place() > page.place(), "the other way isn't beyond what the node had come to")
        away.process.go_on()
        until = time.monotonic() + 3
        while time.monotonic() < until:
            for headers in (PLAIN, FRESH):
                found = away.get(path, **headers)
                is_former = found.status == 200 and found.body == page.body and not headers
                must(found.status == 503 or is_former, f"with {headers} it answered {found.shown()}")
        away.wait_for_reason(*FORGOTTEN, seconds=SECONDS)


RESTORED = (
    lambda cluster, folder: cluster.members.save(folder / "saved.db"),
    lambda cluster, folder: cluster.members.restore(folder / "saved.db", "second"),
)
PUT_BACK = (stop_and_copy, lambda cluster, folder: cluster.members.put_back(folder))


def cases(arguments: argparse.Namespace) -> Cases:
    limits = ("--quota-backend-bytes", str(QUOTA))
    yield "full by others, and cleared", lambda: full_and_cleared(arguments, limits)
    yield "full by the site, and enlarged", lambda: full_and_enlarged(arguments, limits)
    yield "full under load, and cleared", lambda: full_under_load(arguments, limits)
    yield "compacted while nodes are away", lambda: compacted(arguments)
    yield "restored from an older snapshot", lambda: forgot(arguments, RESTORED)
    yield "older files put back", lambda: forgot(arguments, PUT_BACK)
    yield "it went another way", lambda: went_another_way(arguments)
