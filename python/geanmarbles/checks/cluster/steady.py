"""What a node takes and refuses, keys that are given again, what reads promise, and starts, with all members up."""

import argparse
import re
import socket
import time
from collections.abc import Callable, Iterator, Sequence
from concurrent.futures import ThreadPoolExecutor
from contextlib import contextmanager
from functools import partial
from typing import Any

from geanmarbles.checks.cluster.clients import Answer, Editor, Load, NoAnswer, Record, joined, line_of
from geanmarbles.checks.cluster.etcd import Edit
from geanmarbles.checks.cluster.judged import judge_at_rest
from geanmarbles.checks.cluster.nodes import TOKEN, Cluster, Node
from geanmarbles.checks.cluster.processes import wait_for
from geanmarbles.checks.judging import Cases, must
from geanmarbles.checks.programs import executable

# For how long several clients edit and read.
LOAD_SECONDS, CLIENTS = 6, 8
# The longest line that is taken, and how many of them are.
LINE_BYTES, LARGE = 1_048_576, 6
DATE = "2024-05-01 10:00:00"
# Bodies that have a line which isn't an edit, or that aren't lines of JSON.
NO_EDITS = {
    "get": b'{"cmd":"get","path":"/"}',
    "begin": b'{"cmd":"begin","path":"/"}',
    "turns": b'{"cmd":"turns","page":1,"count":1}',
    "an unknown command": b'{"cmd":"nothing"}',
    "no command": b"{}",
    "a list": b"[]",
    "a number": b"1",
    "no JSON": b"put",
    "half a line": b'{"cmd":"put"',
    "not UTF-8": b'{"cmd":"option","name":"blogname","value":"\xff"}',
    "an empty line": b"",
    "a command that is no text": b'{"cmd":1}',
    "a line that is too long": b'{"cmd":"option","name":"a","value":"' + b"x" * LINE_BYTES + b'"}',
}
# Answers before its first edit only once a file is there.
GATED = """#!/usr/bin/env python3
import os, subprocess, sys, time
words = [{program!r}, *sys.argv[1:]]
if "--database" in words:
    os.execv(words[0], words)
site = subprocess.Popen(words, stdin=subprocess.PIPE, stdout=subprocess.PIPE)
for line in sys.stdin.buffer:
    while b'"n":' in line and not os.path.exists({gate!r}):
        time.sleep(0.01)
    site.stdin.write(line)
    site.stdin.flush()
    head = site.stdout.readline()
    rest = site.stdout.read(int(head.split()[2]) + 1) if head.startswith(b"page ") else b""
    sys.stdout.buffer.write(head + rest)
    sys.stdout.buffer.flush()
"""


def option(name: str, value: str = "v") -> bytes:
    return line_of(cmd="option", name="blogname", value=value, n=name)


def put(name: str) -> bytes:
    return line_of(cmd="put", title=name, date=DATE, n=name)


def post_under(key: str, node: Node, lines: Sequence[bytes]) -> Answer:
    """Posts edits under a key."""
    return node.post(joined(lines), Idempotency_Key=key)


class Steady:
    """The checks, over one cluster."""

    def __init__(self, cluster: Cluster, seed: object) -> None:
        self.cluster, self.nodes, self.seed, self.record = cluster, cluster.nodes, seed, Record()
        self.made = 0

    def edits(self) -> list[Edit]:
        return self.cluster.members.store.edits("site")

    def key(self) -> str:
        self.made += 1
        return f"steady-{self.made}"

    def posted(self, node: Node, lines: Sequence[bytes], **headers: Any) -> Answer:
        """Posts edits that must be done, and records them."""
        answer = node.post(joined(lines), **headers)
        must(self.record.edits(lines, answer.start, answer.end, answer), f"it answered {answer.shown()}")
        return answer

    def keeps_history(self, asked: Callable[[], Answer], wanted: int | Sequence[int]) -> Answer:
        """Asks, and sees that the answer has a status and that nothing was written."""
        before = self.edits()
        answer = asked()
        statuses = wanted if isinstance(wanted, tuple) else (wanted,)
        must(answer.status in statuses, f"it answered {answer.shown()}, wanted {wanted}")
        must(self.edits() == before, f"it answered {answer.shown()}, and an edit was written")
        return answer

    def serves_clients(self) -> None:
        """several clients edit and read at three nodes"""
        with Load(self.nodes, self.record, self.seed, CLIENTS):
            time.sleep(LOAD_SECONDS)
        odd = [it for it in self.record.statuses if it not in ("POST 200", "GET 200", "GET 404")]
        must(not odd, f"with all up there were {self.record.statuses}")
        judge_at_rest(self.cluster, self.record)

    def answers_a_key_again(self) -> None:
        """a key that is given again with its body has the same reply, at each node, and no second edit"""
        for lines in ([put("again-1")], [put("again-2"), option("again-3"), put("again-4")]):
            key = self.key()
            first = self.posted(self.nodes[0], lines, Idempotency_Key=key)
            for node in self.nodes:

                def asked(node: Node = node, lines: list[bytes] = lines, key: str = key) -> Answer:
                    return self.posted(node, lines, Idempotency_Key=key)

                answer = self.keeps_history(asked, 200)
                same = (answer.body, answer.revision()) == (first.body, first.revision())
                must(same, f"{node.name} answered {answer.shown()} at {answer.revision()}, and first {first.shown()}")
                must(answer.headers["Idempotency-Key"] == key, f"its key is {answer.headers['Idempotency-Key']!r}")

    def refuses_another_body(self) -> None:
        """a key that is given again with another body is refused, and nothing is written"""
        lines, key = [put("body-1"), option("body-2")], self.key()
        self.posted(self.nodes[0], lines, Idempotency_Key=key)
        others = ([option("body-3"), lines[1]], [lines[0], option("body-4")], lines[:1], [*lines, put("body-5")])
        for other in others:
            for node in self.nodes[:2]:

                def asked(node: Node = node, other: list[bytes] = other) -> Answer:
                    return node.post(joined(other), Idempotency_Key=key)

                self.keeps_history(asked, 422)
        self.posted(self.nodes[2], lines, Idempotency_Key=key)

    def takes_a_key_once(self) -> None:
        """a key that is given to all nodes at once is taken once, also with other bodies that begin alike"""
        for number in range(6):
            first, key = put(f"once-{number}"), self.key()
            bodies = [[first, option(f"once-{number}-{at}")] for at in range(3)] if number % 2 else [[first]] * 3
            with ThreadPoolExecutor() as pool:
                answers = list(pool.map(partial(post_under, key), self.nodes, bodies))
            done = [(lines, answer) for lines, answer in zip(bodies, answers) if answer.status == 200]
            must(len(done) == (1 if number % 2 else 3), f"the answers are {[it.shown() for it in answers]}")
            must(all(it.status in (200, 422) for it in answers), f"the answers are {[it.shown() for it in answers]}")
            for lines, answer in done:
                self.record.edits(lines, answer.start, answer.end, answer)
            must(len({answer.body for _, answer in done}) == 1, f"the answers are {[it.shown() for it in answers]}")
        judge_at_rest(self.cluster, self.record)

    def takes_keys_of_all_forms(self) -> None:
        """a key is any visible ASCII text, which is never taken for another; what else is given is refused"""
        for number, key in enumerate(("k" * 200, "a", "a/1", "a/1/1", "/", "../x", "%00", "~!'\"", "0", "edit/a")):
            lines = [put(f"form-{number}-{at}") for at in (1, 2)]
            self.posted(self.nodes[0], lines, Idempotency_Key=key)
            self.keeps_history(partial(self.posted, self.nodes[1], lines, Idempotency_Key=key), 200)
        for key in ("", "a b", "k" * 201, "\u00e9"):
            self.keeps_history(partial(self.nodes[0].post, joined([put("formless")]), Idempotency_Key=key), 400)

    def takes_whole_bodies(self) -> None:
        """of a body that is cut off nothing is done"""
        body = joined([put("cut-1"), put("cut-2")])
        for given in (body[:1], body[: len(body) // 2], body[:-1]):
            before = self.edits()
            head = f"POST /command HTTP/1.1\r\nHost: x\r\nAuthorization: Bearer {TOKEN}\r\n"
            with socket.create_connection((self.nodes[0].place.host, self.nodes[0].port), timeout=10) as client:
                client.sendall(f"{head}Content-Length: {len(body)}\r\n\r\n".encode() + given)
                client.shutdown(socket.SHUT_WR)
                came = client.recv(100)
            must(not came or came.split()[1] == b"400", f"it answered {came!r}")
            must(self.edits() == before, "an edit was written")

    def takes_large_edits(self) -> None:
        """edits of the longest line are taken, one byte more is refused, and a node that starts has them all"""

        def large(name: str, size: int = LINE_BYTES) -> bytes:
            line = line_of(cmd="put", title=name, content="", date=DATE, n=name)
            return line.replace(b'"content":""', b'"content":"' + b"[b]" * 9 + b"x" * (size - len(line) - 27) + b'"')

        for number in range(LARGE):
            node = self.nodes[number % 3]
            self.posted(node, [large(f"large-{number}"), put(f"beside-{number}")])
        over = joined([put("small"), large("larger", LINE_BYTES + 1)])
        self.keeps_history(partial(self.nodes[0].post, over), (400, 413))
        late = self.cluster.new_node("large")
        late.start()
        try:
            judge_at_rest(self.cluster, self.record, nodes=[*self.nodes, late])
        finally:
            late.process.end()

    @contextmanager
    def other_site(self, name: str, count: int) -> Iterator[list[Node]]:
        """Nodes of another site in the same etcd, for as long as a block lasts."""
        nodes = [self.cluster.new_node(f"{name}{at}", ("--name", name)) for at in range(count)]
        try:
            for node in nodes:
                node.start()
            for node in nodes:
                node.wait_until_ready()
            yield nodes
        finally:
            for node in nodes:
                if node.started:
                    node.process.end()

    def makes_a_key(self) -> None:
        """edits without a key are made each time, under a key that the answer names"""
        line, keys = put("keyless"), set()
        with self.other_site("keyless", 1) as [node]:
            for number in range(1, 5):
                answer = node.post(joined([line]))
                must((answer.status, answer.body) == (200, b"ok %d\n" % number), f"it answered {answer.shown()}")
                keys.add(answer.headers["Idempotency-Key"])
            must(len(keys) == 4 and None not in keys, f"the keys are {keys}")
            again = node.post(joined([line]), Idempotency_Key=keys.pop())
            is_one = again.body in [b"ok %d\n" % it for it in range(1, 5)]
            must(again.status == 200 and is_one, f"again, it answered {again.shown()}")
        must(len(self.cluster.members.store.edits("keyless")) == 4, "they aren't four edits")

    def refuses_tokens(self) -> None:
        """without the token, or with another, no edit is taken"""
        body = joined([put("token")])
        for token in (None, "", "other", TOKEN[:-1], TOKEN + "x", TOKEN.upper(), TOKEN + " " + TOKEN):
            self.keeps_history(partial(self.nodes[0].post, body, token=token), (401,))
        for scheme in ("Basic", "Bear", ""):
            asked = partial(self.nodes[0].post, body, token=None, Authorization=f"{scheme} {TOKEN}")
            self.keeps_history(asked, (401,))

    def takes_none_without_a_token(self) -> None:
        """a node without a token takes no edit, whatever token is given"""
        node = self.cluster.new_node("tokenless")
        node.start(token=False)
        try:
            node.wait_until_ready()
            for token in (None, "", TOKEN):
                self.keeps_history(partial(node.post, joined([put("none")]), token=token), 403)
            must(node.get("/").status == 200, "it gives no pages")
        finally:
            node.process.end()

    def refuses_lines(self) -> None:
        """a body with a line that isn't an edit is refused whole, and nothing is written"""
        for what, line in NO_EDITS.items():
            for lines in ([line], [put("good"), line, put("better")]):
                answer = self.keeps_history(partial(self.nodes[0].post, joined(lines)), (400, 413))
                must(answer.body, f"{what} is refused without a reason")
        self.keeps_history(lambda: self.nodes[0].post(b""), 400)

    def keeps_refused_edits(self) -> None:
        """an edit that the site refuses has its reply, and is in the history"""
        lines = [
            line_of(cmd="edit", id=2_000_000, title="t", n="refused-1"),
            line_of(cmd="activate", plugin="nothing", n="refused-2"),
            line_of(cmd="put", title="t", date="2024-02-30 10:00:00", n="refused-3"),
            line_of(cmd="template", name="single", body=5, n="refused-4"),
            line_of(cmd="import", site={"version": 3}, n="refused-5"),
        ]
        answer = self.posted(self.nodes[1], lines)
        numbers = [it.split()[:2] for it in answer.lines()]
        must(numbers == [["refused", it] for it in ("3", "6", "5", "7", "2")], f"it answered {answer.shown()}")
        must(self.edits()[-1].revision == answer.revision(), "the last isn't in the history")

    def reads_what_was_written(self) -> None:
        """each node shows an edit to whoever names its revision, in a header or a cookie, or asks for a fresh page"""
        shows = [{"loop": [{"tag": "the_title"}]}]
        self.posted(self.nodes[0], [line_of(cmd="template", name="single", body=shows, n="written")])
        for at in range(30):
            title = f"written {at}"
            node = self.nodes[at % 3]
            answer = self.posted(node, [line_of(cmd="put", title=title, date=DATE, n=f"written-{at}")])
            path = f"/?p={answer.lines()[0].split()[1]}"
            cookie = answer.cookie()
            is_named = re.fullmatch(rf"site_revision=[0-9a-f]+\.{answer.revision()}", cookie)
            must(is_named, f"its cookie is {answer.headers['Set-Cookie']!r}")
            number = str(answer.revision())
            for headers in ({"X_Site_Revision": number}, {"Cookie": cookie}, {"X_Site_Fresh": "1"}):
                for other in self.nodes:
                    page = other.get_again(path, **headers)
                    holds = page.status == 200 and title.encode() in page.body and page.place() >= answer.place()
                    must(holds, f"{other.name} with {headers} answered {page.shown()}")

    def refuses_the_future(self) -> None:
        """a revision that isn't there yet is waited for, for some seconds, and then refused"""
        ahead = str(self.cluster.members.store.revision() + 1_000_000)
        answer = self.nodes[0].get("/", X_Site_Revision=ahead)
        must(answer.status == 503 and answer.body, f"it answered {answer.shown()}")
        must(answer.headers["Retry-After"], "it says not when to ask again")
        must(answer.end - answer.start < 15, f"it took {answer.end - answer.start:.1f} s")

    def answers_head(self) -> None:
        """HEAD has the head of GET, and other methods and paths are refused"""
        for node in self.nodes:
            for path in ("/", "/?p=1", "/x"):
                page, head = node.get(path), node.ask("HEAD", path)
                same = ("Content-Length", "Content-Type", "X-Site-Revision")
                must(page.status == head.status and head.body == b"", f"HEAD {path} has {head.shown()}")
                must(all(page.headers[it] == head.headers[it] for it in same), f"HEAD {path} has {head.headers}")
        for method, path in (("PUT", "/"), ("DELETE", "/command"), ("POST", "/")):
            body = joined([put("elsewhere")])
            asked = partial(self.nodes[0].ask, method, path, body, Authorization=f"Bearer {TOKEN}")
            self.keeps_history(asked, (404, 405, 501))

    def catches_up_first(self) -> None:
        """a node isn't ready, and gives no page, before it has caught up"""
        gate = self.cluster.folder / "gate"
        path = executable(self.cluster.folder, "gated", GATED.format(program=self.cluster.program, gate=str(gate)))
        node = self.cluster.new_node("late")
        node.start(program=path)
        try:
            time.sleep(1)
            for page in ("/", "/?p=1"):
                answer = node.get(page)
                must(answer.status == 503 and answer.body, f"not caught up, it answered {answer.shown()}")
            said = node.health()
            must(said.get("ready") is False and said.get("reason") == "catching-up", f"it says {said}")
            must(self.posts_nothing(node), "it took an edit")
            gate.touch()
            node.wait_until_ready()
            judge_at_rest(self.cluster, self.record, nodes=[*self.nodes, node])
        finally:
            node.process.end()

    def posts_nothing(self, node: Node) -> bool:
        """Whether a node refuses an edit for now."""
        try:
            return node.post(joined([put("too early")]), seconds=5).status == 503
        except NoAnswer:
            return False

    def starts_before_etcd(self) -> None:
        """a node that starts before etcd says so, and is ready once etcd is there"""
        self.cluster.members.kill_all()
        node = self.cluster.new_node("early")
        node.start()
        try:
            node.wait_for_reason("etcd-unreachable", "catching-up")
            must(node.get("/").status == 503, "it gives a page")
            for at in range(3):
                self.cluster.members.start(at)
            self.cluster.members.wait()
            node.wait_until_ready()
            judge_at_rest(self.cluster, self.record, nodes=[*self.nodes, node])
        finally:
            node.process.end()

    def has_several_sites(self) -> None:
        """sites of other names in one etcd have nothing to do with each other"""
        editor, before = Editor("other", self.seed), self.edits()
        with self.other_site("other", 2) as others:
            must(b"written" not in others[0].get("/").body, "it has another's posts")
            answer = others[0].post(joined(editor.lines(20)))
            must(answer.status == 200, f"it answered {answer.shown()}")
            pages = [node.get_again("/", X_Site_Fresh="1").body for node in others]
            must(pages[0] == pages[1], "two nodes of one site differ")
        must(self.edits() == before and len(self.cluster.members.store.edits("other")) == 20, "sites are mixed")

    def ends_well(self) -> None:
        """a node ends by itself when it is told to, and its program with it"""
        statuses = [node.process.end() for node in self.nodes]
        must(set(statuses) <= {0, -15, 143}, f"they ended with {statuses}")
        self.cluster.members.kill_all()
        wait_for(lambda: not self.cluster.processes.left(), 10, "all programs have ended")


CHECKS = (
    "serves_clients",
    "answers_a_key_again",
    "refuses_another_body",
    "makes_a_key",
    "takes_a_key_once",
    "takes_keys_of_all_forms",
    "takes_whole_bodies",
    "refuses_tokens",
    "takes_none_without_a_token",
    "refuses_lines",
    "keeps_refused_edits",
    "reads_what_was_written",
    "refuses_the_future",
    "answers_head",
    "has_several_sites",
    "takes_large_edits",
    "catches_up_first",
    "starts_before_etcd",
    "ends_well",
)


def cases(arguments: argparse.Namespace) -> Cases:
    with Cluster(arguments.program) as cluster:
        steady = Steady(cluster, arguments.seed)
        for name in CHECKS:
            judged = getattr(steady, name)
            yield judged.__doc__, judged
