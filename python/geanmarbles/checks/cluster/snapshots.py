"""Histories that are replaced by snapshots: nodes that start from one or were away, and makers that are stopped."""

from __future__ import annotations

import argparse
import hashlib
import json
import signal
import subprocess
import time
from collections.abc import Callable, Sequence
from functools import partial
from pathlib import Path
from typing import Any

from geanmarbles.checks.cluster import nodes
from geanmarbles.checks.cluster.clients import Answer, Load, Record, joined, line_of
from geanmarbles.checks.cluster.etcd import Witness, un64
from geanmarbles.checks.cluster.faults import children_of
from geanmarbles.checks.cluster.judged import ALIKE, get, judge_at_rest, page_in, pages_of, replies_of
from geanmarbles.checks.cluster.nodes import Cluster, Node
from geanmarbles.checks.cluster.processes import wait_for
from geanmarbles.checks.judging import Cases, must
from geanmarbles.checks.programs import executable
from geanmarbles.client.replies import Wrong
from geanmarbles.cluster.node import REMEMBER_LEAST

# After how many edits a snapshot is made, for how long a client edits, and how long a snapshot may take to be there.
EVERY, LOAD_SECONDS, SECONDS = 40, 2.0, 120
# How often a maker is killed or stopped at some moment.
MAKERS = 3
# Waits before a run over a file, for as long as there is a file `hold`: for any run, or for one that exports.
HELD = """#!/usr/bin/env python3
import os, sys, time
words, folder = [{program!r}, *sys.argv[1:]], os.environ["HELD"]
while "--database" in words and (
    os.path.exists(folder + "/hold") or "--export" in words and os.path.exists(folder + "/hold-export")
):
    time.sleep(0.01)
os.execv(words[0], words)
"""


def put(name: str) -> bytes:
    return line_of(cmd="put", title=name, content="[b]x[/b]", date="2024-05-01 10:00:00", n=name)


class Snapshots:
    """A cluster whose nodes make snapshots often."""

    def __init__(self, cluster: Cluster, witness: Witness, seed: object) -> None:
        self.cluster, self.nodes, self.witness, self.seed = cluster, cluster.nodes, witness, seed
        self.record, self.made = Record(), 0

    def load(self, seconds: float = LOAD_SECONDS, nodes: Sequence[Node] | None = None) -> None:
        self.made += 1
        with Load(nodes or self.nodes, self.record, f"{self.seed}.snapshots.{self.made}", 5, reads=0.3):
            time.sleep(seconds)

    def heads(self) -> list[int]:
        """The places of all snapshots so far."""
        return [json.loads(it.value)["place"] for it in list(self.witness.events) if it.key == "snapshot/head"]

    def wait_for_head(self, place: int | None = None, nodes: Sequence[Node] | None = None) -> None:
        """Edits until there is a snapshot of more than a place, or than what there is now."""
        place = self.cluster.members.store.revision() if place is None else place
        until = time.monotonic() + SECONDS
        while not any(it > place for it in self.heads()):
            must(time.monotonic() < until, f"no snapshot is of more than {place}: {self.heads()[-3:]}, {self.said()}")
            self.load(0.3, nodes)

    def said(self) -> list[str]:
        return [node.process.said()[-200:] for node in self.nodes]

    def judge(self, nodes: Sequence[Node] | None = None) -> None:
        store = self.cluster.members.store
        judge_at_rest(self.cluster, self.record, lambda: self.witness.edits(store), nodes or self.nodes)
        check_makers(list(self.witness.events))

    def compact(self) -> None:
        """Has etcd drop what it tells of the past, as whoever runs it does now and then."""
        store = self.cluster.members.store
        self.witness.edits(store)
        store.call("/v3/kv/compaction", revision=str(self.witness.last), physical=True)

    def shortens_the_history(self) -> None:
        """snapshots take the place of edits under load, and pages stay those of the whole history"""
        for _ in range(2):
            self.wait_for_head()
        self.judge()
        last = self.heads()[-1]
        wait_for(lambda: self.kept_before(last) == 0, SECONDS, "edits that a snapshot has are deleted")
        parts = {key.split("/")[2] for key in self.cluster.members.store.keys("site/snapshot/") if key.count("/") > 2}
        must(len(parts) <= 2, f"there are parts of {len(parts)} snapshots")

    def kept_before(self, place: int) -> int:
        return len([it for it in self.cluster.members.store.edits("site") if it.revision <= place])

    def starts_from_a_snapshot(self) -> None:
        """a node that starts once the older edits are gone has the same site, also if etcd was compacted"""
        self.compact()
        late = self.cluster.new_node("late")
        late.start()
        self.judge([*self.nodes, late])
        must(late.health().get("snapshot", 0) > 0, f"it knows of no snapshot: {late.health()}")
        self.load(1, [*self.nodes, late])
        self.judge([*self.nodes, late])
        late.process.end()

    def has_a_digest(self) -> None:
        """nodes at one revision have the same digest, that of all edits, also one that began with a snapshot"""
        self.wait_for_head()
        late = self.cluster.new_node("digested")
        late.start()
        self.load(0.5, [*self.nodes, late])
        self.judge([*self.nodes, late])
        digest, digests = hashlib.sha256().digest(), {}
        for edit in self.witness.edits(self.cluster.members.store):
            digest = hashlib.sha256(digest + edit.line).digest()
            digests[edit.revision] = digest.hex()
        for node in (*self.nodes, late):
            said = wait_for(partial(self.health_at, node, edit.revision), SECONDS, f"{node.name} has all edits")
            must(said["digest"] == digest.hex(), f"{node.name} says {said}, wanted {digest.hex()}")
        heads = [json.loads(it.value) for it in self.witness.events if it.key == "snapshot/head"]
        must(len(heads) > 0 and late.health()["snapshot"] > 0, "there is no snapshot")
        for told in heads:
            must(told["digest"] == digests[told["place"]], f"a snapshot says {told}, wanted {digests[told['place']]}")
        late.process.end()

    def health_at(self, node: Node, place: int) -> dict[str, Any]:
        """What a node says of itself once it has applied an edit, or nothing."""
        said = node.health()
        return said if said.get("applied") == place else {}

    def stays_away(self, away: Callable[[Node], object], back: Callable[[Node], object]) -> None:
        """A node is away while the edits that it lacks are replaced by snapshots, and dropped by etcd."""
        node, others = self.nodes[0], self.nodes[1:]
        away(node)
        try:
            self.wait_for_head(nodes=others)
            self.cluster.settle(others)
            self.compact()
        finally:
            back(node)
        self.load(0.5)
        self.judge()

    def stops(self) -> None:
        """a node that is stopped for longer than the history reaches starts from the snapshot"""
        self.stays_away(lambda node: node.process.stop(), lambda node: node.process.go_on())

    def ends(self) -> None:
        """a node that is killed and away for longer than the history reaches starts from the snapshot"""
        self.stays_away(lambda node: node.process.kill(), lambda node: node.start())

    def remembers_keys(self) -> None:
        """a key that is given again once a snapshot has its edits has the same reply, and no second edit"""
        bodies = {"kept-a": [put("kept-1")], "kept-b": [put("kept-2"), put("kept-3")]}
        first = {key: self.posted(self.nodes[0], lines, key) for key, lines in bodies.items()}
        last = max(it.place() for it in first.values())
        self.wait_for_head(last)
        wait_for(lambda: not self.kept_before(last), SECONDS, "its edits are deleted")
        for node in self.nodes:
            for key, lines in bodies.items():
                again, before = self.posted(node, lines, key), first[key]
                same = (again.body, again.revision()) == (before.body, before.revision())
                must(same, f"again, it answered {again.shown()} at {again.revision()}, and first {before.shown()}")
                for other in ([put("kept-4"), *lines[1:]], [*lines, put("kept-5")]):
                    refused = node.post(joined(other), Idempotency_Key=key)
                    must(refused.status == 422, f"with another body it answered {refused.shown()}")
        self.judge()

    def exports(self) -> None:
        """what a node prints with --export makes the same site, in a program alone and under another name"""
        words = [nodes.NODE, "node", "--etcd", ",".join(self.cluster.members.urls), "--program", self.cluster.program]
        ran = subprocess.run([*map(str, words), "--export"], capture_output=True, timeout=SECONDS)
        must(ran.returncode == 0, f"it ended with status {ran.returncode} and {ran.stderr[-200:]!r}")
        wanted, lines = pages_of(self.nodes[0]), ran.stdout.splitlines()
        found = replies_of(self.cluster.program, [*lines, *map(get, ALIKE)])[len(lines) :]
        must([page_in(it) for it in found] == wanted, "a program that is given the lines has other pages")
        other = self.cluster.new_node("other", ("--name", "other"))
        other.start()
        try:
            other.wait_until_ready()
            answer = other.post(joined(lines))
            must(answer.status == 200 and b"refused" not in answer.body, f"it answered {answer.shown()}")
            must(pages_of(other) == wanted, "a site of another name that is given the lines has other pages")
        finally:
            other.process.end()

    def forgets_keys(self) -> None:
        """what is known of keys is kept for the time asked for, and once it is gone a key is like a new one"""
        node, lines = self.nodes[0], [put("forgotten-1"), put("forgotten-2")]
        first = self.posted(node, lines, "forgotten")
        self.wait_for_head(first.revision())
        store, names = self.cluster.members.store, ("/forgotten", "/forgotten/1", "/forgotten/2")
        wait_for(lambda: not self.kept_before(first.place()), SECONDS, "its edits are deleted")
        known = [it for it in store.range("site/", keys_only=True)["kvs"] if un64(it["key"]).decode().endswith(names)]
        leases = [it.get("lease") for it in known]
        must(len(known) == len(names) and all(leases), f"{len(known)} keys are known, with leases {leases}")
        for lease in set(leases):
            granted = store.call("/v3/lease/timetolive", ID=lease)["grantedTTL"]
            must(granted == str(REMEMBER_LEAST), f"they are kept for {granted} seconds")
            # The test doesn't wait for so long: etcd drops the keys of a lease that is revoked as of one that is over.
            store.call("/v3/lease/revoke", ID=lease)
        must(not [it for it in store.keys("site/") if it.endswith(names)], "a key is still known")
        again = node.post(joined(lines), Idempotency_Key="forgotten")
        is_new = again.status == 200 and again.place() > first.place() and again.body != first.body
        must(is_new, f"it answered {again.shown()}, and first {first.shown()}")

    def posted(self, node: Node, lines: Sequence[bytes], key: str) -> Answer:
        answer = node.post(joined(lines), Idempotency_Key=key)
        must(self.record.edits(lines, answer.start, answer.end, answer), f"it answered {answer.shown()}")
        return answer


class Makers:
    """Makers of snapshots that are stopped or killed at a moment of the making."""

    def __init__(self, snapshots: Snapshots, folder: Path) -> None:
        self.snapshots, self.cluster, self.folder = snapshots, snapshots.cluster, folder

    def start(self) -> None:
        """nodes over a program that can be held"""
        program = executable(self.folder, "held", HELD.format(program=self.cluster.program))
        for node in self.cluster.nodes:
            node.env["HELD"] = str(self.folder)
            node.process.end()
            node.start(program=program)
        self.cluster.settle()

    def maker(self) -> Node | None:
        """The node whose program waits over a file."""
        for node in self.cluster.nodes:
            for pid in children_of(node.process.child.pid):
                try:
                    words = Path(f"/proc/{pid}/cmdline").read_bytes().split(b"\0")
                except OSError:
                    continue
                if b"--database" in words and (not (self.folder / "hold-export").exists() or b"--export" in words):
                    return node
        return None

    def caught(self, hold: str) -> Node:
        """Has the next making of a snapshot wait, and returns who makes it."""
        (self.folder / hold).touch()
        until = time.monotonic() + SECONDS
        while (node := self.maker()) is None:
            must(time.monotonic() < until, "no node makes a snapshot")
            self.snapshots.load(0.3)
        return node

    def lose_the_turn(self) -> None:
        """Has etcd take the turn back, as it does by itself once the maker has given no sign of life for some time."""
        maker = [it for it in list(self.snapshots.witness.events) if it.key == "maker"]
        must(maker and maker[-1].is_put and maker[-1].lease, f"nobody has the turn: {maker[-1:]}")
        self.cluster.members.store.call("/v3/lease/revoke", ID=maker[-1].lease)

    def is_stopped(self, hold: str, number: int) -> None:
        """A maker is stopped or killed amid its work, and loses its turn; another makes a snapshot; it comes back."""
        node = self.caught(hold)
        others = [it for it in self.cluster.nodes if it is not node]
        try:
            node.process.kill() if number == signal.SIGKILL else node.process.stop()
            self.lose_the_turn()
            (self.folder / hold).unlink()
            self.snapshots.wait_for_head(nodes=others)
        finally:
            (self.folder / hold).unlink(missing_ok=True)
            node.start(program=self.folder / "held") if number == signal.SIGKILL else node.process.go_on()
        self.snapshots.load(0.5)
        self.snapshots.judge()

    def is_killed_at_random(self, number: int) -> None:
        """A node is killed as soon as some node has the turn; the turn is taken back."""
        known = len(self.snapshots.witness.events)
        until = time.monotonic() + SECONDS
        with Load(self.cluster.nodes, self.snapshots.record, f"{self.snapshots.seed}.makers.{number}", 5, reads=0.3):
            while not any(it.key == "maker" and it.is_put for it in self.snapshots.witness.events[known:]):
                must(time.monotonic() < until, "no node makes a snapshot")
                time.sleep(0.002)
            time.sleep(0.02 * number)
            killed = self.cluster.nodes
            for node in killed:
                node.process.kill()
            maker = [it for it in self.snapshots.witness.events if it.key == "maker"][-1]
            if maker.is_put:
                self.lose_the_turn()
            for node in killed:
                node.start(program=self.folder / "held")
        self.snapshots.judge()


def check_makers(events: Sequence[Any]) -> None:
    """No two nodes have made a snapshot at once: whatever was written of one is by who had the turn, and no edit was
    deleted but those that the newest snapshot has."""
    maker, place, created = None, 0, {}
    for it in events:
        kind = it.key.split("/")[0]
        if it.key == "maker":
            if it.is_put and maker is not None:
                raise Wrong(f"at {it.revision} a node has the turn that another has had since {maker}")
            maker = it.revision if it.is_put else None
        elif it.key == "snapshot/head":
            told = json.loads(it.value)
            must(told["place"] >= place, f"at {it.revision} a snapshot of {told['place']} comes after {place}")
            must(maker is not None, f"at {it.revision} a snapshot is written by a node that hasn't the turn")
            place = told["place"]
        elif kind == "snapshot" and it.is_put:
            must(it.key.split("/")[1].endswith(f"-{maker}"), f"at {it.revision} {it.key} is written, by {maker}'s turn")
        elif kind == "edit" and it.is_put:
            created[it.key] = it.revision
        elif kind == "edit":
            must(maker is not None, f"at {it.revision} {it.key} is deleted by a node that hasn't the turn")
            must(created[it.key] <= place, f"at {it.revision} {it.key} is deleted, and the snapshot is of {place}")


def cases(arguments: argparse.Namespace) -> Cases:
    options = ("--snapshot-every", str(EVERY))
    with Cluster(arguments.program, options=options) as cluster, cluster.witnessed() as witness:
        snapshots = Snapshots(cluster, witness, arguments.seed)
        for judged in (
            snapshots.shortens_the_history,
            snapshots.starts_from_a_snapshot,
            snapshots.has_a_digest,
            snapshots.remembers_keys,
            snapshots.stops,
            snapshots.ends,
            snapshots.exports,
        ):
            yield judged.__doc__, judged
    options_of_one = (*options, "--remember", str(REMEMBER_LEAST))
    with Cluster(arguments.program, count=1, options=options_of_one) as cluster, cluster.witnessed() as witness:
        forgetful = Snapshots(cluster, witness, arguments.seed)
        yield forgetful.forgets_keys.__doc__, forgetful.forgets_keys
    with Cluster(arguments.program, options=options) as cluster, cluster.witnessed() as witness:
        makers = Makers(Snapshots(cluster, witness, arguments.seed), cluster.folder)
        yield makers.start.__doc__, makers.start
        for hold in ("hold", "hold-export"):
            for number in (signal.SIGSTOP, signal.SIGKILL):
                name = f"a maker that gets {number.name} at its {'export' if hold == 'hold-export' else 'start'}"
                yield name, partial(makers.is_stopped, hold, number)
        for turn in range(max(MAKERS, arguments.rounds // 4)):
            yield f"all killed in turn {turn + 1}", partial(makers.is_killed_at_random, turn)
