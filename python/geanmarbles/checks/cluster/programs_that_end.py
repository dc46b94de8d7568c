"""Programs that refuse an edit by chance, that end, that are another one, and that are at their last line."""

from __future__ import annotations

import argparse
import contextlib
import os
import signal
import threading
import time
from collections.abc import Sequence
from functools import partial
from pathlib import Path
from typing import Any

from geanmarbles.checks.cluster.clients import Answer, Load, NoAnswer, Record, joined, line_of
from geanmarbles.checks.cluster.faults import children_of
from geanmarbles.checks.cluster.judged import judge_at_rest
from geanmarbles.checks.cluster.nodes import Cluster, Node
from geanmarbles.checks.cluster.processes import wait_for
from geanmarbles.checks.judging import Cases, must
from geanmarbles.checks.programs import executable

# Runs the program, and at an edit does what a file in the node's folder says, once: refuses it, ends, or ends once the
# program has carried it out. Each start is noted in another file.
INJECTING = """#!/usr/bin/env python3
import os, subprocess, sys
words, folder = [{program!r}, *sys.argv[1:]], os.environ["INJECTED"]
if "--database" in words:
    os.execv(words[0], words)
with open(folder + "/starts", "a") as starts:
    print(os.getpid(), file=starts)
site = subprocess.Popen(words, stdin=subprocess.PIPE, stdout=subprocess.PIPE)


def is_due(what):
    try:
        os.unlink(folder + "/" + what)
        return True
    except FileNotFoundError:
        return False


def reply_to(line):
    site.stdin.write(line)
    site.stdin.flush()
    head = site.stdout.readline()
    return head + site.stdout.read(int(head.split()[2]) + 1) if head.startswith(b"page ") else head


for line in sys.stdin.buffer:
    is_edit = b'"n":' in line
    if is_edit and is_due("11"):
        reply = b"refused 11 OutOfMemory\\n"
    elif is_edit and is_due("12"):
        reply = b"refused 12 Store\\n"
    elif is_edit and is_due("ends"):
        break
    else:
        reply = reply_to(line)
        if is_edit and is_due("ends-after"):
            break
    sys.stdout.buffer.write(reply)
    sys.stdout.buffer.flush()
"""
# The program, and a file that it makes is said to be another program's.
ANOTHER = """#!/usr/bin/env python3
import hashlib, os, sqlite3, subprocess, sys
words = [{program!r}, *sys.argv[1:]]
if "--database" not in words:
    os.execv(words[0], words)
ended = subprocess.run(words).returncode
file = sqlite3.connect(words[words.index("--database") + 1])
digest = hashlib.sha256(b"").digest()
for number, line in file.execute("SELECT number, line FROM command ORDER BY number").fetchall():
    line = line.replace("bold", "bald") if number == 1 else line
    digest = hashlib.sha256(digest + line.encode()).digest()
    file.execute("UPDATE command SET line = ?, digest = ? WHERE number = ?", (line, digest, number))
file.commit()
file.close()
sys.exit(ended)
"""
INJECTED = ("11", "12", "ends", "ends-after")
SECONDS = 30
# How many lines a program takes where its last ones are tried, how many edits there are, and how many pages are asked
# for.
LINES, EDITS, PAGES = 400, 40, 3_000


class Injected:
    """A cluster whose programs do what they are told to."""

    def __init__(self, cluster: Cluster, folder: Path, seed: object) -> None:
        self.cluster, self.seed, self.folder, self.record = cluster, seed, folder, Record()
        self.judged = 0

    def start(self) -> None:
        """Starts each node anew over a program that can be told something."""
        program = executable(self.folder, "injecting", INJECTING.format(program=self.cluster.program))
        for node in self.cluster.nodes:
            folder = self.folder / f"of-{node.name}"
            folder.mkdir()
            node.env["INJECTED"] = str(folder)
            node.process.end()
            node.start(program=program)
        self.cluster.settle()

    def starts(self, node: Node) -> int:
        return len((self.folder / f"of-{node.name}" / "starts").read_text(encoding="utf-8").splitlines())

    def inject(self, what: str, nodes: Sequence[Node]) -> None:
        """Has the programs of some nodes do this at their next edit, under load."""
        before = {node.name: self.starts(node) for node in nodes}
        flags = [self.folder / f"of-{node.name}" / what for node in nodes]
        with Load(self.cluster.nodes, self.record, f"{self.seed}.{what}.{len(nodes)}", 5):
            time.sleep(0.5)
            for flag in flags:
                flag.touch()
            wait_for(lambda: not any(flag.exists() for flag in flags), SECONDS, "an edit comes")
            time.sleep(0.5)
        judge_at_rest(self.cluster, self.record)
        for node in nodes:
            must(self.starts(node) > before[node.name], f"{node.name} goes on with a program that did {what!r}")

    def keeps_asking(self) -> None:
        """a client that waits for the edit at which its node's program gives up gets the edit's own reply"""
        node, other = self.cluster.nodes[:2]
        for number, what in enumerate(INJECTED):
            (self.folder / f"of-{node.name}" / what).touch()
            line = line_of(cmd="put", title="asked", date="2024-05-01 10:00:00", n=f"asked-{number}")
            answer = node.post(joined([line]), seconds=60, Idempotency_Key=f"asked-{number}")
            self.record.edits([line], answer.start, answer.end, answer)
            must(answer.status in (200, 504), f"it answered {answer.shown()}")
            node.wait_until_ready()
            for asked in (other, node):
                again = asked.post(joined([line]), Idempotency_Key=f"asked-{number}")
                must(self.record.edits([line], again.start, again.end, again), f"again, it answered {again.shown()}")
        judge_at_rest(self.cluster, self.record)

    def kills_programs(self) -> None:
        """the programs of each node in turn are killed under load"""
        with Load(self.cluster.nodes, self.record, f"{self.seed}.killed", 5):
            for node in self.cluster.nodes:
                time.sleep(0.4)
                for pid in children_of(node.process.child.pid):
                    # It may have ended by itself.
                    with contextlib.suppress(ProcessLookupError):
                        os.kill(pid, signal.SIGKILL)
        judge_at_rest(self.cluster, self.record)

    def ends(self) -> None:
        self.cluster.end()


class Visitor(threading.Thread):
    """Asks one node for pages, none of which may be refused."""

    def __init__(self, node: Node, count: int) -> None:
        super().__init__(daemon=True)
        self.node, self.count, self.slowest = node, count, 0.0
        self.refused: list[Any] = []

    def run(self) -> None:
        for number in range(self.count):
            try:
                answer = self.node.get(f"/?p={1 + number % EDITS}")
                self.slowest = max(self.slowest, answer.end - answer.start)
                if answer.status != 200:
                    self.refused.append(answer.shown())
            except NoAnswer as fault:
                self.refused.append(str(fault))


def edit(cluster: Cluster, record: Record, number: int) -> Answer:
    """Stores a post at a node, which may not refuse it."""
    line = line_of(cmd="put", title=f"t{number}", date="2024-05-01 10:00:00", n=f"lines-{number}")
    answer = cluster.nodes[number % 3].post(joined([line]))
    must(record.edits([line], answer.start, answer.end, answer), f"edit {number} is answered by {answer.shown()}")
    return answer


def refuses_no_visitor(arguments: argparse.Namespace) -> None:
    """Pages and edits at all nodes while programs come to their last line, one after the other."""
    with Cluster(arguments.program, options=("--lines", str(LINES))) as cluster, cluster.witnessed() as witness:
        record = Record()
        pids: dict[str, set[int]] = {node.name: set() for node in cluster.nodes}
        for number in range(EDITS):
            last = edit(cluster, record, number)
        for node in cluster.nodes:
            must(
                node.get_again("/", X_Site_Revision=str(last.revision())).status == 200,
                "it doesn't come to the last edit",
            )
        visitors = [Visitor(node, PAGES // 3) for node in cluster.nodes]
        for visitor in visitors:
            visitor.start()
        while any(visitor.is_alive() for visitor in visitors):
            number += 1
            edit(cluster, record, number)
            for node in cluster.nodes:
                pids[node.name].update(children_of(node.process.child.pid))
        refused = [it for visitor in visitors for it in visitor.refused]
        must(not refused, f"{len(refused)} of {PAGES} pages were refused: {refused[:3]}")
        must(min(map(len, pids.values())) >= 3, f"programs were started that often: {pids}")
        judge_at_rest(cluster, record, lambda: witness.edits(cluster.members.store))
        slowest, programs = max(visitor.slowest for visitor in visitors), sum(map(len, pids.values()))
        told = f"{PAGES} pages and {number + 1} edits by {programs} programs of {LINES} lines"
        print(f"programs: {told}, the slowest page in {slowest * 1e3:.0f} ms")


def refuses_another_program(arguments: argparse.Namespace) -> None:
    """A node whose program gives the history another meaning says so, and serves nothing."""
    with Cluster(arguments.program, count=2) as cluster:
        record = Record()
        with Load(cluster.nodes, record, arguments.seed, 2):
            time.sleep(0.5)
        program = executable(cluster.folder, "another", ANOTHER.format(program=arguments.program))
        node = cluster.new_node("another")
        node.start(program=program)
        node.wait_for_reason("other-program")
        history = cluster.members.store.edits("site")
        for answer in (node.get("/"), node.get("/", X_Site_Fresh="1"), node.post(joined([line_of(cmd="put", n="x")]))):
            must(answer.status == 503 and b"other-program" in answer.body, f"it answered {answer.shown()}")
        must(cluster.members.store.edits("site") == history, "it has written an edit")
        node.process.end()
        judge_at_rest(cluster, record)


def cases(arguments: argparse.Namespace) -> Cases:
    with Cluster(arguments.program) as cluster:
        injected = Injected(cluster, cluster.folder, arguments.seed)
        yield "programs that can be told something", injected.start
        for what in INJECTED:
            for count in (1, 3):
                nodes = cluster.nodes[:count]
                yield f"{what}, at {count} nodes", partial(injected.inject, what, nodes)
        yield injected.keeps_asking.__doc__, injected.keeps_asking
        yield injected.kills_programs.__doc__, injected.kills_programs
        yield "no program outlives its node", injected.ends
    yield "programs at their last line", lambda: refuses_no_visitor(arguments)
    yield "another program", lambda: refuses_another_program(arguments)
