"""What clients see of three nodes without a fault; and of two sites in one etcd, with faults of nodes and members."""

from __future__ import annotations

import argparse
import time
from functools import partial

from geanmarbles.checks.cluster.clients import Load, Record
from geanmarbles.checks.cluster.faults import Rounds
from geanmarbles.checks.cluster.judged import judge_at_rest
from geanmarbles.checks.cluster.nodes import Cluster
from geanmarbles.checks.judging import Cases

# For how long clients edit and read, and how many there are.
LASTS, CLIENTS = 8.0, 8
# The site beside the first one.
OTHER = "other"


def under_load(program: str, seed: object) -> None:
    """Edits and reads at three nodes, some of which are asked for again at another node."""
    record = Record()
    with Cluster(program) as cluster:
        with Load(cluster.nodes, record, seed, CLIENTS):
            time.sleep(LASTS)
        judge_at_rest(cluster, record)
        cluster.end()


def cases(arguments: argparse.Namespace) -> Cases:
    yield "three nodes under load, without a fault", partial(under_load, arguments.program, f"{arguments.seed}.load")
    yield from Rounds(arguments.program, arguments.rounds, arguments.seed, [OTHER]).cases()
