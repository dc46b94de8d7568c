"""Members and nodes in network namespaces of their own, between which the network is cut and healed.

All of it is in namespaces of the test's own: a network with one bridge, in which nothing of the machine's network is
there, and a space of processes, with whose first process all others end.
"""

from __future__ import annotations

import argparse
import re
import shutil
import subprocess
import time
from collections.abc import Iterable, Sequence
from functools import partial
from random import Random
from typing import Any

from geanmarbles.checks.cluster.clients import DATE, Load, Record, joined, line_of
from geanmarbles.checks.cluster.etcd import COUNT, Place
from geanmarbles.checks.cluster.judged import counted, judge_at_rest
from geanmarbles.checks.cluster.nodes import Cluster
from geanmarbles.checks.judging import Cases, Skipped, must
from geanmarbles.client.replies import Wrong
from geanmarbles.paths import TESTS, command

HERE = TESTS / "cluster"
# The network, whose addresses nothing else has, and an address of the link layer that nobody has.
NETWORK, NOBODY = "10.77.0", "02:00:00:00:00:fe"
CLIENT, PEER, LISTEN = 2379, 2380, 8080
MEMBERS, NODES = [f"m{at}" for at in range(COUNT)], [f"n{at}" for at in range(3)]
# All namespaces that are needed, with the rights that they take: root's, or those of a user namespace.
SPACES = ["unshare", "--net", "--mount", "--pid", "--fork", "--kill-child", "--mount-proc"]
RIGHTS: tuple[list[str], ...] = ([], ["--map-root-user"])
# The names of what namespaces are made by are in a file system of its own.
PREPARED = "mount -t tmpfs tmpfs /run && mkdir -p /run/netns && ip link set lo up"
SECONDS, ROUNDS = 3600, 6
# What the script in the namespaces says that the one outside says too.
SAID = re.compile(r"networks: \d+ checks in \d+ s")
# For how long the network is cut, in seconds, at least and at most: an election takes one to two.
CUT = (0.5, 5.0)


def ip(*words: str) -> None:
    ran = subprocess.run(["ip", *words], capture_output=True, text=True, check=False)
    if ran.returncode:
        raise Wrong(f"ip {' '.join(words)}: {ran.stderr.strip()}")


class Network:
    """A bridge, and a namespace for each member and each node. The test itself is at the bridge."""

    def __init__(self) -> None:
        self.hosts = {name: f"{NETWORK}.{at}" for at, name in enumerate((*MEMBERS, *NODES), 1)}
        ip("link", "add", "bridge", "type", "bridge")
        ip("addr", "add", f"{NETWORK}.254/24", "dev", "bridge")
        ip("link", "set", "bridge", "up")
        for name, host in self.hosts.items():
            ip("netns", "add", name)
            ip("link", "add", f"to-{name}", "type", "veth", "peer", "name", "eth0", "netns", name)
            ip("link", "set", f"to-{name}", "master", "bridge", "up")
            ip("-n", name, "addr", "add", f"{host}/24", "dev", "eth0")
            ip("-n", name, "link", "set", "eth0", "up")
            ip("-n", name, "link", "set", "lo", "up")
        self.lost: set[tuple[str, str]] = set()

    def places(self) -> tuple[list[Place], list[Place]]:
        """Where members and nodes run."""

        def place(name: str, client: int) -> Place:
            return Place(self.hosts[name], client, PEER, ("nsenter", f"--net=/run/netns/{name}", "--"))

        return [place(name, CLIENT) for name in MEMBERS], [place(name, LISTEN) for name in NODES]

    def lose(self, one: str, other: str) -> None:
        """What one sends to the other is lost, without a word: it goes to an address that nobody has."""
        ip("-n", one, "neigh", "replace", self.hosts[other], "lladdr", NOBODY, "nud", "permanent", "dev", "eth0")
        self.lost.add((one, other))

    def cut(self, some: Iterable[str], others: Sequence[str]) -> None:
        """Nothing passes between some and others."""
        for one in some:
            for other in others:
                self.lose(one, other)
                self.lose(other, one)

    def heal(self) -> None:
        for one, other in self.lost:
            ip("-n", one, "neigh", "del", self.hosts[other], "dev", "eth0")
        self.lost.clear()


class Cuts:
    """The ways in which the network is cut."""

    def __init__(self, network: Network, random: Random) -> None:
        self.network, self.random = network, random

    def member_alone(self) -> str:
        """A member is cut off from all."""
        name = self.random.choice(MEMBERS)
        self.network.cut([name], [it for it in self.network.hosts if it != name])
        return f"{name} cut off"

    def members_apart(self) -> str:
        """No member reaches another, so there is no leader."""
        for at, name in enumerate(MEMBERS):
            self.network.cut([name], MEMBERS[at + 1 :])
        return "all members apart"

    def link_of_members(self) -> str:
        """Two members don't reach each other, and both reach the third."""
        one, other = self.random.sample(MEMBERS, 2)
        self.network.cut([one], [other])
        return f"{one} and {other} apart"

    def one_way(self) -> str:
        """What a member sends to the others is lost, and it gets what they send."""
        one = self.random.choice(MEMBERS)
        for other in MEMBERS:
            if other != one:
                self.network.lose(one, other)
        return f"{one} can't send"

    def node_alone(self) -> str:
        """A node reaches no member, and clients reach it."""
        name = self.random.choice(NODES)
        self.network.cut([name], MEMBERS)
        return f"{name} cut off from etcd"

    def node_and_member(self) -> str:
        """A node and a member are on the smaller side: the node reaches that member alone."""
        node, member = self.random.choice(NODES), self.random.choice(MEMBERS)
        others = [it for it in MEMBERS if it != member]
        self.network.cut([node, member], others)
        return f"{node} and {member} on the smaller side"

    def halves(self) -> str:
        """Each node is cut off from one member, another one each."""
        for node, member in zip(NODES, self.random.sample(MEMBERS, len(MEMBERS))):
            self.network.cut([node], [member])
        return "each node cut off from one member"


WAYS = ("node_and_member", "member_alone", "node_alone", "one_way", "members_apart", "link_of_members", "halves")


def round_of_cuts(cluster: Cluster, network: Network, record: Record, way: str, seed: object) -> None:
    random = Random(seed)
    with Load(cluster.nodes, record, seed):
        time.sleep(random.uniform(0.1, 0.5))
        what = getattr(Cuts(network, random), way)()
        time.sleep(random.uniform(*CUT))
        network.heal()
        time.sleep(random.uniform(0, 0.5))
    try:
        judge_at_rest(cluster, record)
    except (Wrong, TimeoutError) as fault:
        raise Wrong(f"after {what}: {fault}") from None


def serves_what_it_has(cluster: Cluster, network: Network) -> None:
    """A node that reaches no member gives pages as it has them, and refuses by name what it can't promise."""
    node, other = cluster.nodes[0], cluster.nodes[1]
    known = node.post(b'{"cmd":"option","name":"blogname","value":"before","n":"before"}').place()
    page = node.get("/").body
    network.cut([node.name], MEMBERS)
    try:
        edited = other.post(b'{"cmd":"option","name":"blogname","value":"after","n":"after"}')
        later = edited.place()
        plain: dict[str, str] = {}
        for headers, wanted in ((plain, 200), ({"X_Site_Revision": str(known)}, 200)):
            answer = node.get("/", **headers)
            must(answer.status in (wanted, 503), f"with {headers} it answered {answer.shown()}")
            must(answer.status == 503 or (answer.body, answer.revision()) == (page, known), "it has another page")
        for headers in ({"X_Site_Revision": str(later)}, {"X_Site_Fresh": "1"}, {"Cookie": edited.cookie()}):
            answer = node.get("/", **headers)
            must(answer.status == 503 and answer.body, f"with {headers} it answered {answer.shown()}")
            must(answer.headers["Retry-After"], f"with {headers} it says not when to ask again")
        answer = node.post(b'{"cmd":"option","name":"blogname","value":"lost","n":"lost"}')
        must(answer.status in (503, 504), f"an edit was answered by {answer.shown()}")
    finally:
        network.heal()
    node.wait_until_ready()
    answer = node.get_again("/", X_Site_Revision=str(later))
    must(answer.status == 200 and answer.place() >= later, f"healed it answered {answer.shown()}")


def settles_unknown_edits(cluster: Cluster, network: Network, record: Record, times: int) -> None:
    """Edits of an unknown outcome are asked for again with their key once the network is healed, and are there once."""
    node = cluster.nodes[0]
    for number in range(times):
        lines = [line_of(cmd="put", title="t", date=DATE, n=f"cut-{number}-{at}") for at in (1, 2)]
        headers = {"Idempotency_Key": f"cut-{number}"}
        network.cut([node.name], MEMBERS)
        try:
            answer = node.post(joined(lines), seconds=60, **headers)
            record.edits(lines, answer.start, answer.end, answer)
            must(answer.status in (503, 504), f"it was answered by {answer.shown()}")
        finally:
            network.heal()
        node.wait_until_ready()
        answer = node.post_again(joined(lines), f"cut-{number}")
        must(answer.status == 200 and record.edits(lines, answer.start, answer.end, answer), answer.shown())
    judge_at_rest(cluster, record)


def inside(arguments: argparse.Namespace) -> Cases:
    """The checks, in namespaces that are there."""
    network = Network()
    with Cluster(arguments.program, places=network.places()) as cluster:
        yield "a node that is cut off serves what it has", lambda: serves_what_it_has(cluster, network)
    with Cluster(arguments.program, places=network.places()) as cluster:
        record = Record()
        times = max(1, arguments.rounds // 20)
        yield "unknown edits asked for again", lambda: settles_unknown_edits(cluster, network, record, times)
        for number in range(max(ROUNDS, arguments.rounds // 4)):
            way, seed = WAYS[number % len(WAYS)], f"{arguments.seed}.net{number}"
            judged = partial(round_of_cuts, cluster, network, record, way, seed)
            yield f"round {number + 1} of cuts ({way}), seed {arguments.seed}", judged
        kinds = ", ".join(f"{what} {count}" for what, count in sorted(record.statuses.items()))
        print(f"networks: {kinds}")


def how_inside() -> list[str] | None:
    """The words that make the namespaces, or nothing if it isn't permitted here."""
    if not all(map(shutil.which, ("unshare", "nsenter", "ip"))):
        return None
    tried = f"{PREPARED} && ip netns add tried && ip link add one type veth peer name two netns tried"
    for rights in RIGHTS:
        words = [*SPACES, *rights, "sh", "-c", f"{tried} && ip link add bridge type bridge"]
        if subprocess.run(words, capture_output=True, check=False).returncode == 0:
            return [*SPACES, *rights]
    return None


def run_inside(arguments: argparse.Namespace) -> Any:
    """Runs this part in namespaces of its own; returns how many of its checks passed and failed, which it has told."""
    spaces = how_inside()
    if spaces is None:
        raise Skipped("network namespaces of one's own take root, or user namespaces, and iproute2")
    words = [
        *command("tests/cluster/run"),
        "--inside",
        "--part",
        "networks",
        "--rounds",
        str(arguments.rounds),
        "--seed",
        str(arguments.seed),
        "--node",
        str(arguments.node),
        *["--verbose"] * arguments.verbose,
        arguments.program,
    ]
    prepared = [*spaces, "sh", "-c", f'{PREPARED} && exec "$@"', "sh", *words]
    ran = subprocess.run(prepared, stdout=subprocess.PIPE, text=True, timeout=SECONDS, check=False)
    lines, found = counted(ran.stdout, ran.returncode)
    print("\n".join(line for line in lines if not SAID.fullmatch(line)), flush=True)
    return found


def cases(arguments: argparse.Namespace) -> Cases:
    if arguments.inside:
        yield from inside(arguments)
    else:
        yield "network namespaces", lambda: run_inside(arguments)
