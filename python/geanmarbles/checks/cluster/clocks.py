"""Nodes whose clocks are apart: nothing that a node decides rests on the time of day.

A node gets another time of day from a script that runs it, and is told rightly how much time has passed, as on a
machine whose clock is set. (Under Debian's `faketime` Python either can't sleep or waits for ever.) The clocks of
etcd's members aren't moved.
"""

import argparse
import time
from collections.abc import Iterable
from pathlib import Path

from geanmarbles.checks.cluster import nodes
from geanmarbles.checks.cluster.clients import Load, Record
from geanmarbles.checks.cluster.etcd import Witness
from geanmarbles.checks.cluster.judged import judge_at_rest
from geanmarbles.checks.cluster.nodes import Cluster
from geanmarbles.checks.judging import Cases, must
from geanmarbles.checks.programs import executable

# Runs a node to which each question for the time is answered by the time in so many days, or by any at all.
SKEWED = """#!/usr/bin/env python3
import os, random, runpy, sys, time

days, real = os.environ["DAYS"], time.time


def skewed():
    return random.uniform(0, 2e9) if days == "any" else real() + 86400 * float(days)


time.time, time.time_ns = skewed, lambda: int(1e9 * skewed())
sys.dont_write_bytecode = True
sys.argv = [{python!r}, "geanmarbles", "geanmarbles", *sys.argv[1:]]
runpy.run_path({python!r}, run_name="__main__")
"""
APART, JUMPS = ("3000", "-9000", "any"), (("-9000", "any", "3000"), ("any", "1", "-1"))
SECONDS = 4


class Clocks:
    """A cluster whose nodes have clocks of their own."""

    def __init__(self, cluster: Cluster, witness: Witness, seed: object) -> None:
        self.cluster, self.witness, self.seed, self.record = cluster, witness, seed, Record()

    def set_clocks(self, days: Iterable[str]) -> None:
        """Starts each node anew under another clock, one after the other, so that two always serve."""
        path = executable(
            self.cluster.folder, "skewed", SKEWED.format(python=str(Path(nodes.NODE).resolve().parent / "python"))
        )
        for node, more in zip(self.cluster.nodes, days):
            node.process.end()
            node.env["DAYS"] = more
            node.start(script=path)
            node.wait_until_ready()

    def judge(self) -> None:
        judge_at_rest(self.cluster, self.record, lambda: self.witness.edits(self.cluster.members.store))

    def shows_other_clocks(self) -> None:
        """the clocks are indeed apart: the date in the head of an answer is that of the node's clock"""
        self.set_clocks(APART)
        dates = [node.get("/").headers["Date"] for node in self.cluster.nodes]
        years = [int(it.split()[3]) for it in dates[:2]]
        now = time.gmtime().tm_year
        must(years[0] > now > years[1], f"the answers are of {dates}")

    def serves_apart(self) -> None:
        """three nodes whose clocks are thirty years apart, of which one says another time whenever it is asked"""
        with Load(self.cluster.nodes, self.record, f"{self.seed}.apart"):
            time.sleep(SECONDS)
        self.judge()

    def jumps(self) -> None:
        """nodes that are started under other clocks while clients edit and read"""
        with Load(self.cluster.nodes, self.record, f"{self.seed}.jumps"):
            for days in JUMPS:
                self.set_clocks(days)
                time.sleep(SECONDS / 4)
        self.judge()


def cases(arguments: argparse.Namespace) -> Cases:
    # Snapshots are made meanwhile, by one node at a time.
    with Cluster(arguments.program, options=("--snapshot-every", "100")) as cluster, cluster.witnessed() as witness:
        clocks = Clocks(cluster, witness, arguments.seed)
        for judged in (clocks.shows_other_clocks, clocks.serves_apart, clocks.jumps):
            yield judged.__doc__, judged
