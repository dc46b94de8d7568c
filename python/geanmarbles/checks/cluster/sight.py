"""What an operator sees of a node: a line for each request, figures, and who has edited; and tokens that change while
it serves."""

from __future__ import annotations

import argparse
import contextlib
import http.client
import importlib.util
import json
import re
import select
import signal
import time
from collections import Counter
from functools import partial
from pathlib import Path
from typing import Any

from geanmarbles.checks.cluster.clients import DATE, Answer, NoAnswer, joined, line_of
from geanmarbles.checks.cluster.etcd import un64
from geanmarbles.checks.cluster.nodes import Cluster, Node
from geanmarbles.checks.cluster.processes import free_port, wait_for
from geanmarbles.checks.cluster.raw import asked
from geanmarbles.checks.judging import Cases, Skipped, must
from geanmarbles.client.program import pipe

SECONDS = 20
# Where Debian has the library for figures, which another Python than Debian's doesn't look at.
LIBRARY = "prometheus_client"
DEBIANS = Path("/usr/lib/python3/dist-packages", LIBRARY)
FIRST = "# who may edit\nada a+b/c=1\n\n  bob   2-2-2  \n"


def post(node: Node, token: str, name: str, count: int = 1) -> Answer:
    lines = [line_of(cmd="put", title=name, date=DATE, n=f"{name}-{number}") for number in range(count)]
    return node.post(joined(lines), token=token)


class Seen:
    """One node whose requests are seen, and whose tokens have names."""

    def __init__(self, cluster: Cluster) -> None:
        self.cluster, self.node, self.tokens = cluster, cluster.nodes[0], cluster.folder / "tokens"
        self.metrics = free_port()
        self.rest = b""

    def start(self) -> None:
        """a node with named tokens starts"""
        node = self.node
        node.process.end()
        self.tokens.write_text(FIRST, encoding="utf-8")
        node.options = ("--tokens", str(self.tokens), "--log-requests")
        if library_for(node):
            node.options += ("--metrics", f"127.0.0.1:{self.metrics}")
        node.start(token=False)
        node.wait_until_ready()

    def lines(self) -> list[dict[str, Any]]:
        """What the node has written of requests since the last call, but for those that ask for its health."""
        output = pipe(self.node.process.child.stdout)
        time.sleep(0.2)
        while select.select([output], [], [], 0)[0] and (came := output.read(1 << 16)):
            self.rest += came
        *whole, self.rest = self.rest.split(b"\n")
        found: list[dict[str, Any]] = [json.loads(line) for line in whole]
        return [it for it in found if it["path"] != "/health"]

    def tells_of_requests(self) -> None:
        """each request is a line of JSON, with who has edited, and without any token"""
        node = self.node
        self.lines()
        edit = post(node, "a+b/c=1", "seen", 3)
        must(edit.status == 200, f"an edit is answered by {edit.shown()}")
        text = 'GET /?p=1&x="\u00e9" HTTP/1.1\r\nHost: x\r\nX-Forwarded-For: 192.0.2.7, 10.0.0.1\r\n\r\n'
        [page], _ = asked((node.place.host, node.port), text.encode())
        tag = node.get("/?p=1").headers["ETag"]
        node.ask("HEAD", "/?p=1", If_None_Match=tag)
        post(node, "wrong", "unseen")
        asked((node.place.host, node.port), b"GET /\x01 HTTP/1.1\r\nHost: x\r\n\r\n")
        told = self.lines()
        came = [(it["method"], it["status"], it.get("by"), it.get("edits"), it.get("revision")) for it in told]
        place = edit.revision()
        wanted = [("POST", 200, "ada", 3, place), ("GET", 200, None, None, place), ("GET", 200, None, None, place)]
        wanted += [("HEAD", 304, None, None, place), ("POST", 401, None, None, None), ("", 400, None, None, None)]
        # A request is told once it was answered, so the next one may be told before it.
        must(Counter(came) == Counter(wanted), f"it tells {came}, wanted {wanted}")
        [sent_on] = [it for it in told if "forwarded" in it]
        must((sent_on["forwarded"], sent_on["client"]) == ("192.0.2.7, 10.0.0.1", "127.0.0.1"), f"it tells {sent_on}")
        must(sent_on["bytes"] == len(page.body) and sent_on["path"] == '/?p=1&x="\u00e9"', f"it tells {sent_on}")
        must(all(0 <= it["seconds"] < SECONDS and re.fullmatch(r"2\S+Z", it["time"]) for it in told), f"{told}")
        must("a+b/c=1" not in json.dumps(told), "it tells a token")

    def reads_tokens_anew(self) -> None:
        """on SIGHUP tokens are read anew, while requests go on; a file without any changes nothing"""
        node = self.node
        must(post(node, "2-2-2", "bob").status == 200, "the second token isn't taken")
        steps = (
            ("eve 3-3-3\nada a+b/c=1\n", {"a+b/c=1": 200, "2-2-2": 401, "3-3-3": 200}, "ada"),
            ("", {"a+b/c=1": 200, "3-3-3": 200}, "stay as they were"),
            ("eve 3-3-3\neve 4\n", {"a+b/c=1": 200, "3-3-3": 200, "4": 401}, "line 2"),
            ("no name\u00e9 5\n", {"a+b/c=1": 200, "5": 401}, "line 1"),
            ("fay a+b/c=1\n", {"a+b/c=1": 200, "3-3-3": 401}, "anew: fay"),
        )
        for text, statuses, said in steps:
            self.tokens.write_text(text, encoding="utf-8")
            size = len(self.log())
            node.process.send(signal.SIGHUP)
            wait_for(lambda: said in self.log()[size:], SECONDS, f"after {text!r} it says {said!r}")
            came = {token: post(node, token, "anew").status for token in statuses}
            must(came == statuses, f"after {text!r} tokens are answered by {came}")
        self.lines()
        post(node, "a+b/c=1", "renamed")
        must(self.lines()[0]["by"] == "fay", "an edit isn't told by the new name")
        store = self.cluster.members.store
        names = {un64(it["value"]) for it in store.range("site/by/")["kvs"]}
        must(names == {b"ada", b"bob", b"eve", b"fay"}, f"etcd has edits by {names}")

    def log(self) -> str:
        return Path(self.node.process.log).read_text(encoding="utf-8", errors="replace")

    def figures(self, port: int) -> dict[str, float]:
        with contextlib.closing(http.client.HTTPConnection("127.0.0.1", port, timeout=SECONDS)) as made:
            made.request("GET", "/metrics")
            text = made.getresponse().read().decode()
        lines = (line.rpartition(" ") for line in text.splitlines() if not line.startswith("#"))
        return {name: float(value) for name, _, value in lines}

    def has_figures(self) -> None:
        """figures are served at an address of their own, and are those of the requests that were answered"""
        if "--metrics" not in self.node.options:
            raise Skipped("there is no prometheus_client here (Debian: python3-prometheus-client)")
        before = self.figures(self.metrics)
        answer = post(self.node, "a+b/c=1", "figured", 2)
        for _ in range(5):
            self.node.get("/?p=1")
        self.node.get("/x")
        time.sleep(1)
        after = self.figures(self.metrics)
        grown = {name: value - before.get(name, 0.0) for name, value in after.items()}
        wanted = {
            'site_requests_total{method="GET",status="200"}': 5,
            'site_requests_total{method="GET",status="404"}': 1,
            'site_requests_total{method="POST",status="200"}': 1,
            'site_edits_total{by="fay"}': 2,
            "site_request_seconds_count": 7,
            "site_applied_edits": 2,
        }
        must({name: grown.get(name) for name in wanted} == wanted, f"{[(it, grown.get(it)) for it in wanted]}")
        now = {name: after.get(f"site_{name}") for name in ("ready", "applied_revision", "known_revision")}
        place = float(answer.place())
        must(now == {"ready": 1.0, "applied_revision": place, "known_revision": place}, f"it tells {now}")
        must(after["site_program_lines"] > 7 and after["site_programs_started"] >= 1, f"it tells {after}")
        must(after["site_etcd_silent_seconds"] < 5, f"it tells {after['site_etcd_silent_seconds']}")
        must(b"site_requests" not in self.node.get("/metrics").body, "visitors see the figures")

    def says_why_it_ends(self) -> None:
        """a node without a good file of tokens doesn't start, and says why"""
        node = self.node
        node.process.end()
        self.tokens.write_text("ada\n", encoding="utf-8")
        try:
            node.start(token=False)
        except TimeoutError:
            must("tokens, line 1: it isn't NAME TOKEN" in self.log(), f"it says {self.log()[-300:]}")
        else:
            raise NoAnswer("it starts with a file that has no token")


def library_for(node: Node) -> bool:
    """Whether a node can have the library for figures, which it is shown if its Python doesn't look at Debian's."""
    if importlib.util.find_spec(LIBRARY):
        return True
    if not DEBIANS.is_dir():
        return False
    folder = node.cluster.folder / "libraries"
    folder.mkdir()
    (folder / LIBRARY).symlink_to(DEBIANS)
    node.env["PYTHONPATH"] = str(folder)
    return True


def cases(arguments: argparse.Namespace) -> Cases:
    with Cluster(arguments.program, count=1) as cluster:
        seen = Seen(cluster)
        for judged in (
            seen.start,
            seen.tells_of_requests,
            seen.reads_tokens_anew,
            seen.has_figures,
            seen.says_why_it_ends,
        ):
            yield judged.__doc__, partial(judged)
