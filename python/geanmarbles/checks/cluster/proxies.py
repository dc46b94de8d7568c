"""nginx and HAProxy before nodes, by the files of examples/cluster: what they refuse and let through, and that nodes
are started anew behind them without a request lost.

The files are used as they are but for what is of another machine: names of files, addresses, and limits by address
where all clients are at one.
"""

from __future__ import annotations

import argparse
import contextlib
import gzip
import http.client
import re
import shutil
import ssl
import time
from collections.abc import Sequence
from concurrent.futures import ThreadPoolExecutor
from contextlib import ExitStack
from functools import partial
from pathlib import Path
from typing import NamedTuple, Self

from geanmarbles.checks.cluster.caches import keeps_promises
from geanmarbles.checks.cluster.clients import DATE, Answer, ask, joined, line_of
from geanmarbles.checks.cluster.nodes import TOKEN, Cluster, Node
from geanmarbles.checks.cluster.processes import Process, Processes, free_port, wait_for
from geanmarbles.checks.cluster.restarts import AROUND_SECONDS, Everywhere, Manager, Visitors, check_edits, restart
from geanmarbles.checks.cluster.secured import Certificates
from geanmarbles.checks.judging import Cases, Skipped, must
from geanmarbles.paths import EXAMPLES

SECONDS, READY = 60, 20
ADDRESS = "127.0.0.1"
WHERE = "/usr/sbin:/usr/bin:/sbin:/bin"
# What is around a site's file of nginx.
AROUND = """daemon off; pid {folder}/nginx.pid; error_log stderr; user root;
events {{ worker_connections 1024; }}
http {{
    access_log off; client_body_temp_path {folder}/body; proxy_temp_path {folder}/proxy;
    include {folder}/site.conf;
}}
"""
# How many requests come at once where limits are tried: more than the file of either proxy allows an address.
CROWD = 700


class Ports(NamedTuple):
    """Where a proxy listens: for HTTP that is sent on to HTTPS, for HTTPS, and for HTTP in these checks."""

    http: int
    https: int
    plain: int


def replaced(text: str, changes: dict[str, str]) -> str:
    """A text in which each of some pieces is there, and is replaced."""
    for old, new in changes.items():
        must(old in text, f"the file has no {old!r}")
        text = text.replace(old, new)
    return text


def with_nodes(text: str, ports: Sequence[int]) -> str:
    """A file whose three nodes are those of a check, one of them named several times if there are fewer."""
    left = iter(range(3))
    text, count = re.subn(
        r"\b(?:127\.0\.0\.1|10\.0\.0\.[23]):8080", lambda _: f"{ADDRESS}:{ports[next(left) % len(ports)]}", text
    )
    must(count == 3, f"the file has {count} nodes")
    return text


def nginx_words(folder: Path, ports: Ports, nodes: Sequence[int], tls: Certificates, limits: bool) -> list[str]:
    text = (EXAMPLES / "cluster" / "nginx.conf").read_text(encoding="utf-8")
    changes = {
        "    listen [::]:80;\n": "",
        "    listen [::]:443 ssl http2;\n": "",
        "listen 80;": f"listen {ADDRESS}:{ports.http};",
        "listen 443 ssl http2;": f"listen {ADDRESS}:{ports.https} ssl http2; listen {ADDRESS}:{ports.plain};",
        "/etc/site/site.pem": str(tls.certificate),
        "/etc/site/site.key": str(tls.key),
        "/var/cache/nginx/site": str(folder / "cache"),
    }
    text = with_nodes(replaced(text, changes), nodes)
    if not limits:
        text = re.sub(r"    limit_(req|conn) .*\n", "", text)
    (folder / "site.conf").write_text(text, encoding="utf-8")
    (folder / "nginx.conf").write_text(AROUND.format(folder=folder), encoding="utf-8")
    return ["nginx", "-c", str(folder / "nginx.conf")]


def haproxy_words(folder: Path, ports: Ports, nodes: Sequence[int], tls: Certificates, limits: bool) -> list[str]:
    text = (EXAMPLES / "cluster" / "haproxy.cfg").read_text(encoding="utf-8")
    both = folder / "both.pem"
    both.write_bytes(tls.certificate.read_bytes() + tls.key.read_bytes())
    changes = {
        "    user haproxy\n    group haproxy\n": "",
        "bind :80\n": f"bind {ADDRESS}:{ports.http}\n    bind {ADDRESS}:{ports.plain}\n",
        "bind :443 ": f"bind {ADDRESS}:{ports.https} ",
        "/etc/site/site-with-key.pem": str(both),
        "unless { ssl_fc }": f"unless {{ ssl_fc }} || {{ dst_port {ports.plain} }}",
    }
    text = with_nodes(replaced(text, changes), nodes)
    if not limits:
        text = re.sub(r"    http-request deny deny_status 429 .*\n", "", text)
    (folder / "haproxy.cfg").write_text(text, encoding="utf-8")
    return ["haproxy", "-db", "-f", str(folder / "haproxy.cfg")]


WORDS = {"nginx": nginx_words, "haproxy": haproxy_words}


class Proxy:
    """A proxy before some ports, for a `with` block."""

    def __init__(self, name: str, processes: Processes, nodes: Sequence[int], limits: bool = False) -> None:
        self.name, self.processes, self.nodes, self.limits = name, processes, nodes, limits
        self.tls: Certificates
        self.ports = Ports(free_port(), free_port(), free_port())
        self.folder = processes.folder / f"{name}-{self.ports.plain}"
        self.process: Process | None = None

    def __enter__(self) -> Self:
        self.folder.mkdir()
        self.tls = Certificates(self.folder, "site")
        words = WORDS[self.name](self.folder, self.ports, self.nodes, self.tls, self.limits)
        self.process = self.processes.start(f"{self.name}-{self.ports.plain}", words)
        try:
            wait_for(self.is_there, READY, f"{self.name} answers")
        except TimeoutError as fault:
            raise TimeoutError(f"{fault}: {self.process.said()}") from None
        return self

    def __exit__(self, *_: object) -> None:
        if self.process:
            self.process.end()

    def is_there(self) -> bool:
        with contextlib.suppress(Exception):
            return self.get("/").status in (200, 404)
        return False

    def get(self, path: str, **headers: str) -> Answer:
        named = {name.replace("_", "-"): it for name, it in headers.items()}
        return ask(ADDRESS, self.ports.plain, "GET", path, None, named, SECONDS)

    def post(self, body: bytes, token: str = TOKEN) -> Answer:
        headers = {"Authorization": f"Bearer {token}"}
        return ask(ADDRESS, self.ports.plain, "POST", "/command", body, headers, SECONDS)

    def over_tls(self, path: str, **headers: str) -> tuple[int, http.client.HTTPMessage, bytes]:
        context = ssl.create_default_context(cafile=str(self.tls.authority))
        made = http.client.HTTPSConnection(ADDRESS, self.ports.https, timeout=SECONDS, context=context)
        with contextlib.closing(made):
            made.request("GET", path, headers={name.replace("_", "-"): it for name, it in headers.items()})
            response = made.getresponse()
            return response.status, response.headers, response.read()


def need(*names: str) -> None:
    for name in names:
        if not shutil.which(name, path=WHERE):
            raise Skipped(f"there is no {name} here")


def serves(arguments: argparse.Namespace, name: str) -> None:
    """What a proxy sends on, and what it doesn't."""
    need(name, "openssl")
    with Cluster(arguments.program, count=3) as cluster:
        with Proxy(name, cluster.processes, [node.port for node in cluster.nodes]) as proxy:
            large = line_of(cmd="put", title="large", content="<p>words</p>" * 20_000, date=DATE, n="large")
            answer = proxy.post(joined([large] * 20))
            must(answer.status == 200 and len(answer.lines()) == 20, f"an edit is answered by {answer.shown()}")
            must(proxy.post(joined([large]), "wrong").status == 401, "a wrong token is taken")
            must(proxy.post(b"x" * (9 << 20)).status == 413, "a body that is too large is taken")
            path, place = f"/?p={answer.lines()[0].split()[1]}", str(answer.place())
            plain = proxy.get(path, X_Site_Revision=place)
            must(plain.status == 200 and b"words" in plain.body, f"a page is {plain.shown()}")
            must(proxy.get("/health").status == 404, "it tells strangers how nodes are")
            status, headers, body = proxy.over_tls(path, Accept_Encoding="gzip", X_Site_Revision=place)
            must((status, headers["Content-Encoding"]) == (200, "gzip"), f"by TLS {status} {headers.items()} came")
            must(gzip.decompress(body) == plain.body, "another page comes by TLS")
            must("max-age" in (headers["Strict-Transport-Security"] or ""), f"{headers.items()}")
            tag = str(headers["ETag"])
            must(tag.removeprefix("W/") == plain.headers["ETag"], f"the tags are {tag} and {plain.headers['ETag']}")
            must(proxy.over_tls(path, If_None_Match=tag)[0] == 304, "a page that the client has is sent again")
            sent_on = ask(ADDRESS, proxy.ports.http, "GET", "/?p=1", None, {"Host": "www.example.org"}, SECONDS)
            to = sent_on.headers["Location"]
            must((sent_on.status, to) == (308, "https://www.example.org/?p=1"), f"{sent_on.status} {to} came")


def limits(arguments: argparse.Namespace, name: str) -> None:
    """A crowd at one address is told to wait, and is served afterwards."""
    need(name, "openssl")
    with Cluster(arguments.program, count=1) as cluster:
        with Proxy(name, cluster.processes, [cluster.nodes[0].port], limits=True) as proxy:
            with ThreadPoolExecutor(16) as pool:
                statuses = [it.status for it in pool.map(lambda _: proxy.get("/"), range(CROWD))]
            must({429} < set(statuses) <= {200, 404, 429}, f"{set(statuses)} came")
            wait_for(lambda: proxy.get("/").status in (200, 404), SECONDS, "the address is served again", pause=1)


def rolls(arguments: argparse.Namespace, name: str, handed: bool) -> None:
    """Nodes behind a proxy are started anew under load; with sockets that outlive them if their proxy doesn't ask them
    for their health."""
    need(name, "openssl")
    with ExitStack() as stack:
        cluster = stack.enter_context(Cluster(arguments.program))
        if handed:
            for node in cluster.nodes:
                node.process.end()
                stack.enter_context(Manager(cluster, node))
                node.start()
            cluster.settle()
        proxy = stack.enter_context(Proxy(name, cluster.processes, [node.port for node in cluster.nodes]))
        front = cluster.new_node("front")
        front.port = proxy.ports.plain
        with Everywhere([front]) as balancer, Visitors(f"{name}", balancer) as visitors:
            for node in cluster.nodes:
                time.sleep(AROUND_SECONDS)
                restart(node, node.start)
            time.sleep(AROUND_SECONDS)
        must(not visitors.lost(), f"behind {name} {visitors.lost()} are lost of {visitors.told()}")
        check_edits(cluster, visitors)
        print(f"proxies: three nodes started anew behind {name}: {visitors.told()}", flush=True)


def keeps(arguments: argparse.Namespace) -> None:
    """nginx keeps pages for a second, and what reads promise holds all the same"""
    need("nginx", "openssl")
    with Cluster(arguments.program, count=1, options=("--max-age", "1")) as cluster:
        node: Node = cluster.nodes[0]
        must(node.post(joined([line_of(cmd="put", title="first", date=DATE)])).status == 200, "an edit isn't taken")
        with Proxy("nginx", cluster.processes, [node.port]) as proxy:
            keeps_promises(proxy, plain_may_be_old=True)
            first, answer = proxy.get("/"), node.post(joined([line_of(cmd="put", title="kept", date=DATE)]))
            second = proxy.get("/")
            must(first.revision() == second.revision(), "it keeps no page")
            wait_for(lambda: proxy.get("/").place() >= answer.place(), SECONDS, "it has the edit a second later")


def cases(arguments: argparse.Namespace) -> Cases:
    for name in WORDS:
        yield f"{name} sends on what it is to", partial(serves, arguments, name)
        yield f"{name} limits requests by address", partial(limits, arguments, name)
    yield "nodes are started anew behind nginx, by systemd's sockets", partial(rolls, arguments, "nginx", True)
    yield "nodes are started anew behind HAProxy, which asks for their health", partial(
        rolls, arguments, "haproxy", False
    )
    yield keeps.__doc__, partial(keeps, arguments)
