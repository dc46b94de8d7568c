"""Serves one site on several machines: a node, which runs the program over a history of edits that etcd holds.

    geanmarbles node --etcd URL[,URL..] [--listen HOST:PORT] [--program PATH] [--snippets] [--name PREFIX]
                  [--token-file FILE] [--tokens FILE] [--etcd-ca FILE] [--etcd-cert FILE] [--etcd-key FILE]
                  [--etcd-user NAME] [--etcd-password-file FILE] [--lines N] [--snapshot-every N] [--remember SECONDS]
                  [--max-age SECONDS] [--calls N] [--cache N] [--log-requests] [--metrics HOST:PORT] [--export]

Any number of nodes serve the site. Each runs a program of its own over the same history, so all give the same pages.
Once it listens, the node writes `serving http://HOST:PORT/` to standard output; it serves once it has carried out
the history, and until a signal ends it. What it notices is on standard error.

    GET, HEAD PATH    the page, with the place in the history that it shows in the header X-Site-Revision. With
                      X-Site-Revision: N, or the cookie that came with edit N, the page shows edit N; with
                      X-Site-Fresh: 1 every edit that was done before the request. A page has a tag (ETag), by which a
                      client that has it is told so
    POST /command     edits, one a line, with Authorization: Bearer TOKEN; the replies, one a line. Idempotency-Key: KEY
                      makes it safe to ask again
    GET /health       a JSON object: ready or not and why, the revision applied, and the one known of the cluster

On SIGTERM the node takes no more connections and ends those that it has, each after the response to the request that
is under way, in ten seconds at most. If systemd hands a socket over, the node takes connections from that one, once it
is ready, in place of --listen's; and it tells systemd when it is ready, how it is, and that it lives. On SIGHUP it
reads the tokens of those who may edit anew.

With --export the node serves nothing: it prints the lines that make the site as it is now.

docs/CLUSTER.md has the whole: what each request promises, each status and reason, and how to run a cluster. The exit
status is 0 after SIGTERM or Ctrl-C, 1 if the node can't start, and 2 if the arguments are bad.
"""

import argparse
import hashlib
import re
import resource
import signal
import socket
import ssl
import sys
from collections.abc import Callable
from pathlib import Path
from typing import Any, NoReturn
from urllib.parse import urlsplit

from geanmarbles.arguments import Parser, count_in
from geanmarbles.client.program import LINES, add_program_option, check_program
from geanmarbles.cluster import snapshots
from geanmarbles.cluster.etcd import Etcd, Refused, Unreachable, tls_context
from geanmarbles.cluster.history import Gap, History
from geanmarbles.cluster.identity import NotTold, identity_of, noted
from geanmarbles.cluster.pages import Server
from geanmarbles.cluster.replica import begin_program
from geanmarbles.cluster.service import Service, inherited
from geanmarbles.cluster.sight import Figures, NoFigures, Sight
from geanmarbles.cluster.site_node import SUM_DIGITS, Node, Snapshots, say
from geanmarbles.cluster.tokens import BadTokens, Tokens, named_tokens, one_token


SNAPSHOT_EVERY, REMEMBER = 10_000, 86_400
# For how long a request is known at least: whoever has no answer may ask again some minutes later, and an edit whose
# request is forgotten by then would be made twice.
REMEMBER_LEAST = 300
# How long requests under way may take once a signal has ended the node, and how long a connection stays meanwhile on
# which nothing is asked for.
DRAIN_SECONDS, IDLE_SECONDS = 10, 2
# How long connections wait on a socket that was handed over before they are told why the node isn't ready.
HOLD_SECONDS = 20
# The longest time for which a cache may keep a page.
MAX_AGE = 86_400
# How many files and connections are open at most: those of clients, and for each at most one to each of some etcd.
FILES = 8192


def stop(why: object) -> NoReturn:
    sys.exit(f"node: {why}")


def endpoints(text: str) -> list[str]:
    """The endpoints of etcd."""
    urls = text.split(",")
    for url in urls:
        try:
            parts = urlsplit(url)
            is_good = parts.scheme in ("http", "https") and parts.hostname and parts.port and parts.path in ("", "/")
        except ValueError:
            is_good = False
        if not is_good or parts.username or parts.query:
            raise argparse.ArgumentTypeError(f"{url} isn't http://HOST:PORT or https://HOST:PORT")
    return urls


def address(text: str) -> tuple[str, int]:
    """A host and a port, which may be 0."""
    host, _, port = text.rpartition(":")
    if not host or not port.isascii() or not port.isdigit() or int(port) > 65535:
        raise argparse.ArgumentTypeError(f"{text} isn't HOST:PORT")
    return host.strip("[]"), int(port)


def site_name(text: str) -> str:
    if not re.fullmatch(r"[A-Za-z0-9._-]{1,64}", text):
        raise argparse.ArgumentTypeError("a name has 1 to 64 letters, digits, dots, hyphens and underscores")
    return text


def count(first: int, last: int, default: int | None, text: str) -> dict[str, Any]:
    """What an option that is a number has: its range, its default and its help."""
    how = {"metavar": "N", "type": count_in(first, last), "default": default}
    return how | {"help": f"{text}, {default:,} if it is left out" if default else text}


def file(text: str, kind: Callable[[str], object] = str) -> dict[str, Any]:
    return {"metavar": "FILE", "type": kind, "help": text}


OPTIONS: dict[str, dict[str, Any]] = {
    "--etcd": {"metavar": "URL[,URL..]", "type": endpoints, "required": True, "help": "etcd's client URLs"},
    "--listen": {"metavar": "HOST:PORT", "type": address, "default": "127.0.0.1:8080", "help": "where to listen"},
    "--name": {"metavar": "PREFIX", "type": site_name, "default": "site", "help": "the prefix of the site's keys"},
    "--token-file": file("the token of those who may edit; without it, or --tokens, nobody may", Path),
    "--tokens": file("the tokens of those who may edit, a line NAME TOKEN for each", Path),
    "--etcd-ca": file("the authorities that etcd's certificate is checked by, in place of the system's"),
    "--etcd-cert": file("the node's certificate for etcd"),
    "--etcd-key": file("its key"),
    "--etcd-user": {"metavar": "NAME", "help": "the node's user of etcd"},
    "--etcd-password-file": file("the user's password", Path),
    "--lines": count(100, LINES, LINES, "replace each program before its line N"),
    "--snapshot-every": count(1, LINES, SNAPSHOT_EVERY, "edits from one snapshot to the next"),
    "--remember": count(
        REMEMBER_LEAST, 10**9, REMEMBER, "seconds for which a request is known once a snapshot has its edits"
    ),
    "--max-age": count(
        0, MAX_AGE, 0, "seconds for which a cache in front may keep a page that no promise was asked of"
    ),
    "--calls": count(1, 100_000, None, "the program's option; every node of a site has to have the same"),
    "--cache": count(1, 4096, None, "the program's option"),
    "--log-requests": {"action": "store_true", "help": "write a line of JSON for each request to standard output"},
    "--metrics": {"metavar": "HOST:PORT", "type": address, "help": "serve figures for Prometheus at another address"},
    "--export": {"action": "store_true", "help": "print the lines that make the site as it is now"},
}


def read_arguments() -> argparse.Namespace:
    parser = Parser(__doc__)
    add_program_option(parser)
    for name, how in OPTIONS.items():
        parser.add_argument(name, **how)
    arguments = parser.parse_args()
    for one, other in (("etcd_user", "etcd_password_file"), ("etcd_cert", "etcd_key")):
        if (getattr(arguments, one) is None) != (getattr(arguments, other) is None):
            parser.error(f"--{one} and --{other} go together".replace("_", "-"))
    if arguments.token_file and arguments.tokens:
        parser.error("--token-file and --tokens don't go together")
    return arguments


def secret(path: Path) -> bytes:
    """What a file has, without the white space around it."""
    text = path.read_bytes().strip()
    if not text or not text.isascii() or not text.decode().isprintable():
        stop(f"{path} has to hold visible ASCII characters in one line")
    return text


def history_of(arguments: argparse.Namespace) -> History:
    user: tuple[str, str] | None = None
    context: ssl.SSLContext | None = None
    if arguments.etcd_user:
        user = (arguments.etcd_user, secret(arguments.etcd_password_file).decode())
    if any(it.startswith("https:") for it in arguments.etcd):
        context = tls_context(arguments.etcd_ca, arguments.etcd_cert, arguments.etcd_key)
    return History(Etcd(arguments.etcd, context, user), arguments.name)


def export(arguments: argparse.Namespace, history: History, identity: bytes) -> None:
    """Prints the lines that make the site."""
    had = noted(history)
    if had is None:
        stop(f"there is no site named {arguments.name}")
    if had != identity:
        stop(f"other-program: the history of {arguments.name} belongs to a program with another identity")
    text, *_ = snapshots.rebuilt(history, arguments.program)
    sys.stdout.buffer.write(text)


def allow_connections() -> None:
    """Has the system allow as many open files as the connections of this node may need."""
    _, most = resource.getrlimit(resource.RLIMIT_NOFILE)
    resource.setrlimit(resource.RLIMIT_NOFILE, (FILES if most == resource.RLIM_INFINITY else min(FILES, most), most))


def sum_of(path: str, *options: str) -> str:
    """What tells a program with its options from others: they may print other pages of one history."""
    with open(path, "rb") as program:
        found = hashlib.file_digest(program, "sha256")
    found.update(" ".join(options).encode())
    return found.hexdigest()[:SUM_DIGITS]


def node_of(arguments: argparse.Namespace, history: History, identity: bytes) -> Node:
    given = {"--calls": arguments.calls, "--cache": arguments.cache}
    words = [*arguments.program, *(word for name, it in given.items() if it for word in (name, str(it)))]
    due = min(arguments.snapshot_every, arguments.lines // 4)
    made = Snapshots(arguments.program, due, arguments.remember)
    return Node(history, identity, lambda: begin_program(words), arguments.lines, made, sum_of(*words))


def handed_over() -> socket.socket | None:
    """The socket that systemd has handed over, or None."""
    try:
        return inherited()
    except ValueError as fault:
        stop(fault)


def tokens_of(arguments: argparse.Namespace) -> Tokens | None:
    """The tokens of those who may edit, or None if nobody may. SIGHUP has them read anew."""
    if not arguments.token_file and not arguments.tokens:
        return None
    try:
        path = arguments.tokens or arguments.token_file
        tokens = Tokens(named_tokens if arguments.tokens else one_token, path)
    except BadTokens as fault:
        stop(fault)
    signal.signal(signal.SIGHUP, lambda *_: say(tokens.read_again()))
    return tokens


def sight_of(arguments: argparse.Namespace, node: Node) -> Sight:
    try:
        figures = Figures(node, arguments.metrics) if arguments.metrics else None
    except NoFigures as fault:
        stop(fault)
    return Sight(arguments.log_requests, figures)


def serve(arguments: argparse.Namespace, history: History, identity: bytes) -> None:
    allow_connections()
    tokens, service, listening = tokens_of(arguments), Service(), handed_over()
    node = node_of(arguments, history, identity)
    sight = sight_of(arguments, node)
    with Server(arguments.listen, node, tokens, arguments.max_age, listening, service, sight) as server:
        signal.signal(signal.SIGTERM, lambda *_: server.end())
        host, port = server.socket.getsockname()[:2]
        print(f"serving http://{f'[{host}]' if ':' in host else host}:{port}/", flush=True)
        node.start()
        try:
            if listening:
                # Until then whatever comes waits on the socket, as it did while no node was there.
                server.wait_until(lambda: node.state() is None or bool(node.ended), HOLD_SECONDS)
            server.serve_forever()
            service.tell_end()
            server.drain(IDLE_SECONDS, DRAIN_SECONDS)
        finally:
            node.stop()


def main() -> None:
    arguments = read_arguments()
    check_program(arguments.program)
    try:
        history, identity = history_of(arguments), identity_of(arguments.program)
        (export if arguments.export else serve)(arguments, history, identity)
    except KeyboardInterrupt:
        pass
    except (NotTold, OSError, ssl.SSLError, Unreachable, Refused, snapshots.NotMade, Gap) as fault:
        stop(fault)
