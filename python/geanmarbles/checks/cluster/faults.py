"""SIGKILL and SIGSTOP at random moments under load: of members of etcd, of nodes, and of the programs of nodes."""

from __future__ import annotations

import argparse
import os
import signal
import time
from collections.abc import Callable, Sequence
from contextlib import ExitStack, suppress
from functools import partial
from pathlib import Path
from random import Random
from typing import NamedTuple

from geanmarbles.checks.cluster.clients import Load, Record
from geanmarbles.checks.cluster.judged import judge_at_rest
from geanmarbles.checks.cluster.nodes import Cluster, Node
from geanmarbles.checks.judging import Cases
from geanmarbles.client.replies import Wrong

# What undoes a fault, and what is said of it.
Fault = tuple[Callable[[], object], str]

# A cluster goes on over so many rounds, and then a new one begins.
ROUNDS_OF_A_CLUSTER = 10
# For how long a fault lasts, and what comes before and after it, at the most, in seconds.
LASTS, BEFORE, AFTER = 2.0, 0.7, 0.5
# How many clients there are of each site, and how many nodes each site has.
CLIENTS, NODES = 6, 3


class Site(NamedTuple):
    """A site in the cluster's etcd: its name, its nodes, and what clients have seen of it."""

    name: str
    nodes: Sequence[Node]
    record: Record


def children_of(pid: int) -> list[int]:
    """The processes that a process has started."""
    found: list[int] = []
    for entry in Path("/proc").iterdir():
        with suppress(OSError):
            if entry.name.isdigit() and int((entry / "stat").read_text().rpartition(")")[2].split()[1]) == pid:
                found.append(int(entry.name))
    return found


def in_turn(calls: Sequence[Callable[[], object]]) -> Callable[[], None]:
    """One call that makes some, one after the other."""

    def made() -> None:
        for call in calls:
            call()

    return made


class Faults:
    """What can be done to a cluster. Each fault is done at once, and returns what undoes it and what it is called."""

    def __init__(self, cluster: Cluster, random: Random) -> None:
        self.cluster, self.random = cluster, random

    def some_members(self, count: int) -> list[int]:
        return self.random.sample(range(len(self.cluster.members.running)), count)

    def kill_members(self, count: int) -> Fault:
        ats = self.some_members(count)
        for at in ats:
            self.cluster.members.kill(at)
        return in_turn([partial(self.cluster.members.start, at) for at in ats]), f"members {ats} killed"

    def stop_members(self, count: int) -> Fault:
        ats = self.some_members(count)
        for at in ats:
            self.cluster.members.running[at].stop()

        def undo() -> None:
            for at in ats:
                self.cluster.members.running[at].go_on()

        return undo, f"members {ats} stopped"

    def kill_nodes(self, count: int) -> Fault:
        nodes = self.random.sample(self.cluster.nodes, count)
        for node in nodes:
            node.process.kill()
        return in_turn([node.start for node in nodes]), f"{[node.name for node in nodes]} killed"

    def stop_nodes(self, count: int) -> Fault:
        nodes = self.random.sample(self.cluster.nodes, count)
        for node in nodes:
            node.process.stop()

        def undo() -> None:
            for node in nodes:
                node.process.go_on()

        return undo, f"{[node.name for node in nodes]} stopped"

    def signal_programs(self, number: int) -> tuple[Node, list[int]]:
        """Sends a signal to all programs of a node."""
        node = self.random.choice(self.cluster.nodes)
        pids = children_of(node.process.child.pid)
        for pid in pids:
            with suppress(ProcessLookupError):
                os.kill(pid, number)
        return node, pids

    def kill_program(self) -> Fault:
        node, pids = self.signal_programs(signal.SIGKILL)
        return (lambda: None), f"{len(pids)} programs of {node.name} killed"

    def stop_program(self) -> Fault:
        node, pids = self.signal_programs(signal.SIGSTOP)

        def undo() -> None:
            for pid in pids:
                with suppress(ProcessLookupError):
                    os.kill(pid, signal.SIGCONT)

        return undo, f"{len(pids)} programs of {node.name} stopped"

    def choose(self) -> tuple[Callable[[], Fault], ...]:
        """One fault, or one of a member and one of a node at once."""
        of_members = [
            lambda: self.kill_members(1),
            lambda: self.kill_members(1),
            lambda: self.stop_members(1),
            lambda: self.stop_members(1),
            lambda: self.kill_members(2),
            lambda: self.stop_members(2),
            lambda: self.kill_members(3),
        ]
        of_nodes = [
            lambda: self.kill_nodes(1),
            lambda: self.kill_nodes(1),
            lambda: self.stop_nodes(1),
            lambda: self.stop_nodes(1),
            lambda: self.kill_nodes(2),
            lambda: self.kill_nodes(len(self.cluster.nodes)),
            self.kill_program,
            self.stop_program,
        ]
        one, other = self.random.choice(of_members), self.random.choice(of_nodes)
        return self.random.choice(((one,), (other,), (one, other)))


class Rounds:
    """All rounds, over clusters that each last for some of them. The site of the cluster's own nodes may have others
    beside it in the same etcd."""

    def __init__(self, program: str, count: int, seed: object, others: Sequence[str] = ()) -> None:
        self.program, self.count, self.seed, self.others = program, count, seed, others
        self.stack = ExitStack()
        self.cluster: Cluster | None = None
        self.sites: list[Site] = []
        self.done: list[str] = []
        self.statuses: dict[str, int] = {}
        self.judged = 0

    def next_cluster(self) -> Cluster:
        self.end_cluster()
        self.cluster = cluster = self.stack.enter_context(Cluster(self.program))
        self.sites = [Site("site", list(cluster.nodes), Record())]
        for name in self.others:
            nodes = [cluster.new_node(f"{name}{at}", ("--name", name)) for at in range(NODES)]
            self.sites.append(Site(name, nodes, Record()))
            cluster.nodes += nodes
            for node in nodes:
                node.start()
        cluster.settle()
        return cluster

    def end_cluster(self) -> None:
        """Ends the nodes one by one, which must leave no program, and then all."""
        cluster, self.cluster = self.cluster, None
        if cluster is not None:
            for site in self.sites:
                self.judged += len(cluster.members.store.edits(site.name))
                for what, count in site.record.statuses.items():
                    self.statuses[what] = self.statuses.get(what, 0) + count
            cluster.end()
        self.stack.close()

    def make(self, number: int) -> None:
        """A round: load, faults, and what is left of it once all is up again."""
        cluster = self.cluster
        if cluster is None or number % ROUNDS_OF_A_CLUSTER == 0:
            cluster = self.next_cluster()
        random = Random(f"{self.seed}/{number}")
        faults, done = Faults(cluster, random), []
        try:
            with ExitStack() as loads:
                for site in self.sites:
                    loads.enter_context(Load(site.nodes, site.record, f"{self.seed}.{number}.{site.name}", CLIENTS))
                time.sleep(random.uniform(0.05, BEFORE))
                undone = []
                for fault in faults.choose():
                    undo, what = fault()
                    undone.append(undo)
                    done.append(what)
                    time.sleep(random.uniform(0, 0.3))
                time.sleep(random.uniform(0.05, LASTS))
                for undo in undone:
                    undo()
                time.sleep(random.uniform(0, AFTER))
            for site in self.sites:
                judge_at_rest(cluster, site.record, partial(cluster.members.store.edits, site.name), site.nodes)
        except BaseException as fault:
            self.cluster = None
            self.stack.close()
            if isinstance(fault, (Wrong, TimeoutError)):
                raise Wrong(f"after {', '.join(done)}: {fault}") from None
            raise
        self.done += done

    def cases(self) -> Cases:
        try:
            for number in range(self.count):
                yield f"round {number + 1} of faults{self.beside()}, seed {self.seed}", partial(self.make, number)
            yield "no program outlives its node", self.end_cluster
        finally:
            self.cluster = None
            self.stack.close()
        if self.done:
            self.tell()

    def beside(self) -> str:
        return f" beside {', '.join(self.others)}" if self.others else ""

    def tell(self) -> None:
        kinds = ", ".join(f"{what} {count}" for what, count in sorted(self.statuses.items()))
        told = f"{len(self.done)} in {self.count} rounds; {self.judged} edits in the histories"
        print(f"faults{self.beside()}: {told}; {kinds}")


def cases(arguments: argparse.Namespace) -> Cases:
    return Rounds(arguments.program, arguments.rounds, arguments.seed).cases()
