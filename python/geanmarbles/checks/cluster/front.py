"""A bare node as strangers meet it: requests that are none, slow clients, a program that hangs, and cookies of a site
that is no more."""

from __future__ import annotations

import argparse
import contextlib
import http.client
import os
import re
import signal
import time
from collections.abc import Iterator
from concurrent.futures import ThreadPoolExecutor
from functools import partial

from geanmarbles.checks.cluster import attacks, slow
from geanmarbles.checks.cluster.clients import DATE, Answer, joined, line_of
from geanmarbles.checks.cluster.faults import children_of
from geanmarbles.checks.cluster.nodes import TOKEN, Cluster, Node
from geanmarbles.checks.cluster.processes import wait_for
from geanmarbles.checks.judging import Cases, must
from geanmarbles.checks.programs import executable

SECONDS = 60
# The large page: how many posts it has, and how many bytes each of them.
POSTS, POST_BYTES = 40, 250_000
# How long a page may take at most, and after which time of a program's silence a node isn't ready; with what a machine
# that has much else to do adds.
PAGE_SECONDS, OWES_SECONDS, LATE = 5, 1, 3
# How many requests strangers send, from how many clients; and how often in a second a node asks its etcd at most.
STRANGERS, CLIENTS, ASKED = 600, 24, 60
# The program, which ends without a word where it would make a snapshot, once a file is there.
UNMADE = """#!/usr/bin/env python3
import os, sys
if "--database" in sys.argv and os.path.exists({flag!r}):
    sys.exit(1)
os.execv({program!r}, [{program!r}, *sys.argv[1:]])
"""
# How many lines a program takes where its last ones are tried.
LINES = 160


def address(node: Node) -> attacks.Address:
    return node.place.host, node.port


def put(name: str, content: str = "") -> bytes:
    return line_of(cmd="put", title=name, content=content, date=DATE, n=name)


def done(answer: Answer) -> Answer:
    must(answer.status == 200, f"an edit is answered by {answer.shown()}")
    return answer


def shows_titles(node: Node) -> None:
    """Has the page of a post show its title."""
    body = [{"loop": [{"tag": "the_title"}]}]
    done(node.post(joined([line_of(cmd="template", name="single", body=body, n="single")])))


class Bare:
    """The checks of one node, over a cluster that stays as it is."""

    def __init__(self, cluster: Cluster) -> None:
        self.cluster, self.node = cluster, cluster.nodes[0]

    def resists(self) -> None:
        """requests that are none, or that two servers may read in two ways, are refused, and others are served"""
        given = list(attacks.checks(address(self.node), TOKEN))
        before = self.cluster.members.store.edits("site")
        found = attacks.failures(given)
        must(not found, f"{len(found)} of {len(given)}: {dict(list(found.items())[:4])}")
        must(self.cluster.members.store.edits("site") == before, "an edit was made")
        said = self.node.process.said()
        must("Traceback" not in said, f"it says {said}")
        print(f"front: {len(given)} requests, each answered as it must be", flush=True)

    def makes_large_page(self) -> tuple[str, int]:
        """The path of a large page, and how many bytes it has."""
        lines = [
            line_of(cmd="template", name="index", body=[{"loop": [{"tag": "the_content"}]}], n="index"),
            line_of(cmd="option", name="posts_per_page", value=str(POSTS), n="posts"),
            *(put(f"large-{number}", "x" * POST_BYTES) for number in range(POSTS)),
        ]
        for line in lines:
            done(self.node.post(joined([line])))
        size = len(self.node.get("/").body)
        must(size >= POSTS * POST_BYTES, f"the page has {size} bytes")
        return "/", size

    def bears_slow_clients(self) -> None:
        """slow clients have what they ask for, those that stall are given up, and others are served meanwhile"""
        path, size = self.makes_large_page()
        told, others = slow.stalls_and_drips(address(self.node), TOKEN, path, size)
        shown = "; ".join(f"{name}: {it.size:,} bytes in {it.seconds:.0f} s" for name, it in told.items())
        print(f"front: {shown}; {others} pages of others meanwhile", flush=True)

    def keeps_no_heads(self) -> None:
        """heads without an end cost no memory"""
        grown = slow.heads_without_end(address(self.node), self.node.process.child.pid)
        print(f"front: {slow.MANY} heads of 6 MB make it {grown >> 10:,} kB larger", flush=True)

    def takes_so_many(self) -> None:
        """beside as many clients as it takes another one is told to come back, and then they are all served"""
        slow.crowd(address(self.node))

    def stopped_programs(self) -> list[int]:
        pids = children_of(self.node.process.child.pid)
        for pid in pids:
            os.kill(pid, signal.SIGSTOP)
        return pids

    def says_that_it_hangs(self) -> None:
        """while its program owes a reply for a second a node isn't ready, and each page has its own limit of time"""
        node = self.node
        shows_titles(node)
        paths = [f"/?p={done(node.post(joined([put(f'hangs {at}')]))).lines()[0].split()[1]}" for at in range(3)]
        tag = node.get(paths[0]).headers["ETag"]
        pids, begin = self.stopped_programs(), time.monotonic()
        try:
            with ThreadPoolExecutor() as pool:
                asked = [pool.submit(node.get, paths[number % 2]) for number in range(4)]
                wait_for(lambda: node.health().get("reason") == "program-slow", OWES_SECONDS + LATE, "it says so")
                spent = time.monotonic() - begin
                must(spent > OWES_SECONDS - 0.2, f"it says so after {spent:.1f} s")
                must(node.get(paths[0], If_None_Match=tag).status == 304, "it asks the program for a known page")
                pages = [it.result() for it in asked]
            time.sleep(1)
            answer = node.post(joined([put("hangs no more")]), seconds=5)
            must((answer.status, b"program-slow" in answer.body) == (503, True), f"an edit is {answer.shown()}")
        finally:
            for pid in pids:
                os.kill(pid, signal.SIGCONT)
        must([it.status for it in pages] == [503] * 4, f"pages are {[it.shown() for it in pages]}")
        slowest = max(it.end - it.start for it in pages)
        must(slowest < PAGE_SECONDS + LATE, f"a page took {slowest:.1f} s")
        wait_for(node.is_ready, LATE, "it is ready again")
        # The replies that nobody waited for aren't anybody else's.
        for number, path in enumerate(paths * 3):
            page = node.get(path)
            wanted = f"hangs {number % 3}".encode()
            must(page.status == 200 and wanted in page.body, f"{path} is {page.shown()}")
        must(children_of(node.process.child.pid) == pids, "it has another program")

    def asks_for_no_stranger(self) -> None:
        """whatever revisions strangers name, and however fresh they want their pages, etcd is asked no more often"""
        node, ahead = self.node, str(self.cluster.members.store.revision() + 1_000_000)
        cookie = self.cookie().partition(".")[0]
        kinds = (
            {"Cookie": f"{cookie}.{ahead}"},
            {"Cookie": f"{cookie}.9999999999999999999"},
            {"Cookie": "site_revision=9999999999999"},
            {"X_Site_Revision": ahead},
            {"X_Site_Fresh": "1"},
        )
        for headers in kinds:
            begin, before = time.monotonic(), asked_of_etcd(self.cluster)
            with ThreadPoolExecutor(CLIENTS) as pool:
                statuses = list(pool.map(lambda _: self.status(headers), range(STRANGERS // len(kinds))))
            spent, count = time.monotonic() - begin, asked_of_etcd(self.cluster) - before
            # Each of the nodes asks twice a second anyway.
            most = len(self.cluster.nodes) * 3 * (spent + 1) + (ASKED * spent if "X_Site_Fresh" in headers else 0)
            must(
                count <= most, f"{len(statuses)} requests with {headers}: etcd was asked {count} times in {spent:.1f} s"
            )
            wanted = 503 if "X_Site_Revision" in headers else 200
            must(set(statuses) == {wanted}, f"with {headers} it answered {set(statuses)}")
            told = f"{len(statuses)} requests in {spent:.1f} s, of which etcd was asked {count}"
            print(f"front: {next(iter(headers))}: {told}", flush=True)
        must(node.is_ready(), f"it says {node.health()}")

    def status(self, headers: dict[str, str]) -> int:
        return self.node.get("/?p=1", **headers).status

    def cookie(self) -> str:
        """The cookie of an edit, as a client sends it."""
        return done(self.node.post(joined([put("cookie")]))).cookie()

    def clears_cookies(self) -> None:
        """a cookie of another site, or of an edit that never was, is ignored and cleared, and the node's own is kept"""
        node, cookie = self.node, self.cookie()
        name, _, value = cookie.partition("=")
        origin, _, place = value.partition(".")
        must(name == "site_revision" and place.isdigit(), f"the cookie is {cookie!r}")
        others = (f"{'0' * len(origin)}.{place}", f"{origin}.{int(place) + 1000}", place, "x", "", f"{origin}.-1")
        for value in others:
            for given in (f"{name}={value}", f"a=b; {name}={value}; c=d"):
                page = node.get("/", Cookie=given)
                must(page.status == 200, f"with {given!r} it answered {page.shown()}")
                cleared = page.headers["Set-Cookie"] or ""
                must(cleared.startswith(f"{name}=; Max-Age=0"), f"with {given!r} it has the cookie {cleared!r}")
                must("private" in page.headers["Cache-Control"], f"a cache may keep {page.headers.items()}")
        for given in (cookie, f"a=b; {cookie}"):
            page = node.get("/", Cookie=given)
            must(page.place() >= int(place), f"with {given!r} it shows {page.revision()}")
            must(page.headers["Set-Cookie"] is None, f"with {given!r} it sets {page.headers['Set-Cookie']!r}")
        must(node.get("/", Cookie="a=b").headers["Set-Cookie"] is None, "it clears a cookie that isn't there")


def asked_of_etcd(cluster: Cluster) -> int:
    """How often all members have been asked for keys."""
    count = 0.0
    for place in cluster.members.places:
        with contextlib.closing(http.client.HTTPConnection(place.host, place.client, timeout=SECONDS)) as asked:
            asked.request("GET", "/metrics")
            text = asked.getresponse().read().decode()
        found = re.findall(r'^grpc_server_handled_total\{.*grpc_service="etcdserverpb\.KV".*\} (\S+)$', text, re.M)
        count += sum(map(float, found))
    return int(count)


def survives_a_restore(arguments: argparse.Namespace) -> None:
    """after a restore from a backup, and over a site that is wholly new, authors' browsers have their pages"""
    with Cluster(arguments.program, count=2) as cluster:
        node, file = cluster.nodes[0], cluster.folder / "saved.db"
        done(node.post(joined([put("before")])))
        cluster.members.save(file)
        for number in range(5):
            answer = done(node.post(joined([put(f"lost {number}")])))
        cookie = answer.cookie()
        must(node.get("/", Cookie=cookie).place() == answer.place(), "its own cookie isn't heeded")
        for it in cluster.nodes:
            it.process.end()
        for token in ("second", "third"):
            cluster.members.restore(file, token)
            cluster.members.start_all()
            for it in cluster.nodes:
                it.start()
            cluster.settle()
            for it in cluster.nodes:
                page = it.get("/", Cookie=cookie)
                must(page.status == 200 and page.place() < answer.place(), f"it answered {page.shown()}")
                must("Max-Age=0" in (page.headers["Set-Cookie"] or ""), f"it sets {page.headers['Set-Cookie']!r}")
            again = done(node.post(joined([put("after")]))).cookie()
            must(again.partition(".")[0] != cookie.partition(".")[0], f"the cookies are {again!r} and {cookie!r}")
            must(cluster.nodes[1].get("/", Cookie=again).headers["Set-Cookie"] is None, "a new cookie is cleared")
            for it in cluster.nodes:
                it.process.end()


def goes_on_with_the_old(arguments: argparse.Namespace) -> None:
    """a program at its last line for edits serves pages until there is another, also if none can be made for long"""
    with Cluster(arguments.program, count=2, options=("--lines", str(LINES))) as cluster:
        flag = cluster.folder / "unmade"
        made = UNMADE.format(program=arguments.program, flag=str(flag))
        program = executable(cluster.folder, "unmade-program", made)
        for node in cluster.nodes:
            node.process.end()
            node.start(program=program)
        cluster.settle()
        flag.touch()
        node = cluster.nodes[0]
        shows_titles(node)
        number, page = 0, node.get("/")
        while (answer := node.post(joined([put(f"used-{number}")]))).status == 200:
            number, page = number + 1, node.get(f"/?p={answer.lines()[0].split()[1]}", X_Site_Revision=answer.place())
            must(page.status == 200, f"page {number} is {page.shown()}")
            must(number < 2 * LINES, "there is no end of lines")
        must(answer.status in (503, 504), f"edit {number} is answered by {answer.shown()}")
        node.wait_for_reason("lines-used-up")
        refused = node.post(joined([put("one more")]))
        must((refused.status, b"lines-used-up" in refused.body) == (503, True), f"an edit is {refused.shown()}")
        until = time.monotonic() + 3
        while time.monotonic() < until:
            shown = node.get("/?p=1")
            must(shown.status == 200, f"without lines for edits a page is {shown.shown()}")
            time.sleep(0.3)
        said = (cluster.folder / f"{node.name}.log").read_text(encoding="utf-8")
        reasons = re.findall(r"no snapshot: ?(.*)", said)
        must(reasons and all(reasons), f"why there is no snapshot it says by {reasons[:3]}")
        flag.unlink()
        for it in cluster.nodes:
            it.wait_until_ready()
        done(node.post_again(joined([put("one more")]), "one-more"))
        print(
            f"front: {number} edits with {LINES} lines, then pages alone, and after a snapshot edits again", flush=True
        )


def over_one(arguments: argparse.Namespace) -> Iterator[tuple[str | None, partial[None]]]:
    with Cluster(arguments.program, count=2) as cluster:
        bare = Bare(cluster)
        for judged in (
            bare.resists,
            bare.clears_cookies,
            bare.asks_for_no_stranger,
            bare.says_that_it_hangs,
            bare.keeps_no_heads,
            bare.takes_so_many,
            bare.bears_slow_clients,
        ):
            yield judged.__doc__, partial(judged)


def cases(arguments: argparse.Namespace) -> Cases:
    yield from over_one(arguments)
    yield survives_a_restore.__doc__, partial(survives_a_restore, arguments)
    yield goes_on_with_the_old.__doc__, partial(goes_on_with_the_old, arguments)
