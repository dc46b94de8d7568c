"""Runs sites on several machines, with real members of etcd and nodes on loopback, and ends, stops and cuts them.

    tests/cluster/run [--rounds N] [--seed N] [--part NAME] [--verbose] [--node NODE] [PROGRAM]

PROGRAM is the one that is here, built or shipped, if it is left out, and NODE the script geanmarbles. Three members of
etcd and three nodes are started for each check, or for a few rounds. The parts, three at a time, or one of them with
--part:

- steady: what a node takes and refuses, keys that are given again, what reads promise, and starts;
- faults: N rounds, 12 if N is left out, in which SIGKILL ends, or SIGSTOP stops for some time, members, nodes and their
  programs at random moments under load;
- loads: what clients see without a fault; and N rounds of faults over two sites of three nodes each in one etcd;
- networks: members and nodes in network namespaces of their own, between which the network is cut, one way or both, and
  healed; that takes root, or user namespaces, and is otherwise skipped;
- stores: an etcd that is full, and one that forgot: it was restored from an older snapshot, or its files were put back;
- clocks: nodes whose clocks are years apart, jump, or say any time at all;
- programs: programs that refuse an edit for their memory or their database, that end, that are another one, and that
  are at their last line;
- front: a bare node as strangers meet it: requests that can be read in two ways, slow clients and such as stall, a
  program that hangs or has had its lines, and cookies of a site that was restored from a backup;
- restarts: nodes that are started anew under load, behind a balancer and over a socket that outlives them, which may
  lose no request, and the units of examples/cluster (skipped without `systemd-analyze`);
- caches: tags of pages, and what reads promise behind Varnish as Debian ships it (skipped without `varnishd`);
- sight: a line of JSON for each request, figures (skipped without prometheus_client), and tokens with names that change
  while a node serves;
- proxies: nginx and HAProxy before nodes, by the files of examples/cluster (each skipped where it isn't installed);
- secured: an etcd that asks for certificates, a user and a password (skipped without `openssl`);
- snapshots: histories that are replaced by snapshots, nodes that start from one, or were away for too long, and makers
  of snapshots that are killed.

In each round several clients edit and read at all nodes. Afterwards, all being up again, every edit that was
acknowledged has to be in the history, once, in an order that fits when it was sent and acknowledged; replies and pages,
each at its revision, have to be those of a single program that is given the history; reads have to be as new as
promised; and all nodes have to end with equal pages. history.py is the check.

The seed of random rounds is printed, and is another one each time if --seed is left out; the moments at which things
happen vary all the same. Without etcd nothing is run, which is said. Each process that is started is ended at the end.

The last line is 'N passed, M failed', over the checks and rounds, and the exit status is 0 if none failed.
"""

import argparse
import os
import shutil
import signal
import subprocess
import sys
import time
from concurrent.futures import Future, ThreadPoolExecutor, as_completed
from functools import partial
from random import SystemRandom
from typing import Any

from geanmarbles.checks.cluster import (
    caches,
    clocks,
    faults,
    front,
    loads,
    networks,
    nodes,
    programs_that_end,
    proxies,
    restarts,
    secured,
    sight,
    snapshots,
    steady,
    stores,
)
from geanmarbles.checks.cluster.judged import counted
from geanmarbles.checks.judging import Cases, Check, Counts
from geanmarbles.checks.programs import missing, parser_of
from geanmarbles.client.replies import Wrong
from geanmarbles.paths import command

# The parts, those that take longest first.
PARTS = {
    "snapshots": snapshots,
    "stores": stores,
    "networks": networks,
    "faults": faults,
    "loads": loads,
    "programs": programs_that_end,
    "steady": steady,
    "front": front,
    "restarts": restarts,
    "caches": caches,
    "proxies": proxies,
    "sight": sight,
    "clocks": clocks,
    "secured": secured,
}
# How many parts run at once, and how long one may take.
TOGETHER, SECONDS = 3, 3600


def told(cases: Cases) -> Cases:
    """The same checks, each of which tells how long it took."""

    def timed(name: str | None, check: Check) -> object:
        moment = time.monotonic()
        try:
            return check()
        finally:
            print(f"  {name}: {time.monotonic() - moment:.1f} s", flush=True)

    return ((name, partial(timed, name, check)) for name, check in cases)


def judge_part(counts: Counts, name: str, cases: Cases, is_told: bool) -> None:
    begin = time.monotonic()
    made = counts.judge_all(told(cases) if is_told else cases)
    print(f"{name}: {made} checks in {time.monotonic() - begin:.0f} s", flush=True)


def absolute(path: str) -> str:
    return os.path.abspath(path)


def read_arguments() -> argparse.Namespace:
    parser = parser_of(__doc__)
    parser.add_argument("--rounds", metavar="N", type=int, default=12, help="how many rounds of faults")
    parser.add_argument("--seed", metavar="N", type=int, help="the seed of random rounds")
    parser.add_argument("--part", metavar="NAME", choices=PARTS, help=f"one part alone: {', '.join(PARTS)}")
    parser.add_argument("--node", metavar="NODE", type=absolute, default=nodes.NODE, help="another node")
    parser.add_argument("--verbose", action="store_true", help="tell how long each check takes")
    # The rest of a part that starts this script anew, in namespaces of its own.
    parser.add_argument("--inside", action="store_true", help=argparse.SUPPRESS)
    arguments = parser.parse_args()
    if arguments.seed is None:
        arguments.seed = SystemRandom().randrange(1_000_000)
    return arguments


def lacking(arguments: argparse.Namespace) -> str | None:
    """What isn't there of what all parts need."""
    if missing(arguments.program):
        return missing(arguments.program)
    return None if os.access(arguments.node, os.X_OK) else f"there is no node at {arguments.node}"


class Parts:
    """This script, run once for each part, some parts at a time: most of what they do is wait."""

    def __init__(self, arguments: argparse.Namespace) -> None:
        self.words = ["--rounds", arguments.rounds, "--seed", arguments.seed, "--node", arguments.node]
        self.words += ["--verbose"] * arguments.verbose + [arguments.program]
        self.children: list[subprocess.Popen[str]] = []

    def run(self, name: str) -> tuple[str, int]:
        """What the script says of a part, and its status."""
        words = map(str, [*command("tests/cluster/run"), "--part", name, *self.words])
        child = subprocess.Popen(list(words), stdout=subprocess.PIPE, stderr=subprocess.STDOUT, text=True)
        self.children.append(child)
        return child.communicate(timeout=SECONDS)[0], child.returncode

    def judge(self, counts: Counts) -> None:
        pool = ThreadPoolExecutor(TOGETHER)
        try:
            for done in as_completed([pool.submit(self.run, name) for name in PARTS]):
                counts.judge("a part", partial(shown_of, done))
        finally:
            pool.shutdown(wait=False, cancel_futures=True)
            for child in self.children:
                child.terminate()
            for child in self.children:
                child.wait()


def shown_of(done: Future[tuple[str, int]]) -> Any:
    return shown(*done.result())


def shown(output: str, status: int) -> Any:
    """Shows what a part has said, and returns what it counts."""
    try:
        lines, found = counted(output, status)
    except Wrong:
        print(output, flush=True)
        raise
    print("\n".join(lines), flush=True)
    return found


def ended(*_: object) -> None:
    """Has all blocks end, and what they have started."""
    sys.exit("tests/cluster/run: ended by a signal")


def main() -> int:
    arguments = read_arguments()
    counts, verbose = Counts(), arguments.verbose
    signal.signal(signal.SIGTERM, ended)
    signal.signal(signal.SIGHUP, ended)
    if lacking(arguments):
        print(f"FAILED: {lacking(arguments)}\n0 passed, 1 failed")
        return 1
    elif not shutil.which("etcd") or not shutil.which("etcdctl"):
        print("tests/cluster/run: there is no etcd here (Debian: etcd-server, etcd-client), so nothing is run")
    else:
        nodes.NODE = arguments.node
        print(f"seed {arguments.seed}", flush=True)
        if arguments.part:
            judge_part(counts, arguments.part, PARTS[arguments.part].cases(arguments), verbose)
        else:
            Parts(arguments).judge(counts)
    return counts.end()
