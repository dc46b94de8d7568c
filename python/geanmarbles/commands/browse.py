"""Serves a site to a browser on this machine.

    geanmarbles browse [--program PATH] [--snippets] [--explain] [--port N] [--database FILE] [--edits]
                       [--token-file FILE] [--lines N] [FILE]

For example:

    geanmarbles browse --explain --database site.db

FILE is a command file, examples/bakery.jsonl of this repository if it and --database are left out. A program reads it
first; none of its lines may be refused. Then the site is at the address that standard output names, on 127.0.0.1 alone,
until Ctrl-C or SIGTERM. Port 0 means any free one.

This script looks at requests and at pages, for what follows here; `geanmarbles serve` moves bytes alone, and the
program itself speaks HTTP then.

Each GET or HEAD becomes one line {"cmd":"get","path":PATH}, with the path and its query as the browser sent them, and
the page's status becomes the response's. A program is sent one line at a time.

With --database the site is the one in that file, which lasts; the lines of a command file beside it are edits of it
that stay. With --edits each line of standard input is carried out while the site is served, and its reply is written to
standard output; from then on every page is one after that line.

With --token-file whoever has the token in that file may edit the site through its address: `POST /command` has edits,
one a line, with `Authorization: Bearer TOKEN`, and the response their replies, in the form that a node of a cluster has
(docs/CLUSTER.md). `GET /history` with the same token is every edit that the site is made of, drafts too, one a line.
`geanmarbles post`, history and undo use both. Without --token-file nothing is edited by HTTP.

A program ends after 1,000,000 lines. The next takes its place before that, or before the number of lines that --lines
names, and also if one ends for another reason; a page that it owed is then printed by the next. At the end of this
script the program of a site in a file ends by itself, so FILE alone then has every edit.

With --explain each page has below it which callbacks ran for that request, what each received and what it did, as
`geanmarbles explain` shows them. The page is otherwise as it is without.

What is no page is plain text:

    400    the path isn't UTF-8, or the program can't take it, such as one over 8,192 bytes; the request isn't one, or
           has not just one Host
    401    an edit, or the history, without the token; 411, 413 a body without a length, or too large; 422 an
           Idempotency-Key that came with another body; 504 it isn't known whether an edit was made
    405    another method than GET or HEAD, and than POST where edits are taken
    414    a request line of more than 16,384 bytes
    421    a Host that isn't 127.0.0.1, localhost or [::1], so that no other site's page can read this one
    431    more than 100 headers, or more than 16,384 bytes of them
    500    the page is refused
    503    the page is refused because memory ran out, or three programs have ended at it
    505    HTTP/2 or later

A connection is closed without an answer if its request hasn't come in ten seconds, or if in ten seconds less than
16,384 bytes of its response were read, and not the last. The exit status is 0 after Ctrl-C or SIGTERM, 1 if the site
can't be served, or no more since a program ends as soon as it is started, and 2 if the arguments are bad.
"""

import argparse
import contextlib
import errno
import os
import re
import sys
import threading
from collections.abc import Iterator
from pathlib import Path
from typing import Any, NamedTuple

from geanmarbles.arguments import Parser, count_in
from geanmarbles.client.program import LINES, add_program_option, check_program, end_by_signals, lines_of
from geanmarbles.client.replies import Ended, NoReply, Reply
from geanmarbles.paths import EXAMPLES
from geanmarbles.supervisor.programs import FIRST_SECONDS, MARGIN, Explained, NotServed, Plain, Site, Unknown
from geanmarbles.web.edit_bodies import Bad, EditHandler, check_token, lines_of_body
from geanmarbles.web.edit_requests import COMMAND, HISTORY, Edits, token_of
from geanmarbles.web.pages import NoPage, PageServer

BAKERY = EXAMPLES / "bakery.jsonl"
ADDRESS = "127.0.0.1"
# How long requests that are under way at Ctrl-C may take to end.
END_SECONDS = 2.0
# The names by which a browser on this machine can mean this machine, with any port or none.
HERE = re.compile(r"(127\.0\.0\.1|localhost|\[::1\])(:[0-9]*)?", re.I)


class Editing(NamedTuple):
    """The token of those who may edit by HTTP, and what carries their edits out; nobody may without them."""

    token: bytes
    edits: Edits


class Server(PageServer):
    """A server of one site on this machine."""

    site: Site

    def __init__(self, port: int) -> None:
        super().__init__((ADDRESS, port), Handler)
        self.editing: Editing | None = None

    def service_actions(self) -> None:
        """Ends serving if no program can be started any more."""
        if self.site.fault is not None:
            raise self.site.fault
        super().service_actions()


class Handler(EditHandler):
    """The request of one connection."""

    server: Server

    def is_taken(self) -> bool:
        return self.is_for_here() and (self.is_an_edit() or self.is_read_only())

    def is_for_here(self) -> bool:
        """Whether the request names this machine. Another site's page may have its own name lead here, so as to read
        what is served; the browser then sends that name."""
        hosts = self.headers.get_all("Host") or []
        if len(hosts) != 1:
            self.refuse(400, f"a request has one Host, and this one has {len(hosts)}")
        elif not HERE.fullmatch(hosts[0].strip()):
            self.refuse(421, f"this site is for this machine alone: http://{ADDRESS}:{self.server.server_port}/")
        else:
            return True
        return False

    def is_an_edit(self) -> bool:
        return self.server.editing is not None and self.command == "POST" and self.asked == COMMAND

    def is_read_only(self) -> bool:
        if self.command not in ("GET", "HEAD"):
            self.refuse(405, f"the site takes no {self.command}, only GET and HEAD", Allow="GET, HEAD")
            return False
        return True

    def do_GET(self) -> None:
        editing = self.server.editing
        if editing is None or self.asked != HISTORY:
            super().do_GET()
            return
        try:
            check_token(editing.token, self.headers.get("Authorization"))
        except Bad as fault:
            self.refuse(fault.status, fault.text, **fault.headers)
        else:
            self.respond(200, "text/plain", b"".join(line + b"\n" for line in editing.edits.site.edits_done()))

    do_HEAD = do_GET

    def do_POST(self) -> None:
        """Carries out the edits of a request. Nothing of its body is read before its token is right."""
        editing = self.server.editing
        assert editing is not None
        try:
            check_token(editing.token, self.headers.get("Authorization"))
            lines = lines_of_body(self.body())
            key, outcome = editing.edits.made(self.headers.get("Idempotency-Key"), lines)
        except Bad as fault:
            self.refuse(fault.status, fault.text, **fault.headers)
        else:
            told = "".join(f"{it}\n" for it in outcome.replies).encode()
            self.respond(outcome.status, "text/plain", told, {"Idempotency-Key": key})

    def page_of(self, path: str) -> tuple[Reply, dict[str, str]]:
        try:
            return self.server.site.get(path), {}
        except (Ended, NoReply, NotServed):
            raise NoPage("the program has ended") from None


def feed(site: Site, file: Path, commands: bytes) -> None:
    """Has the site carry out a command file, and ends the script at the first line that it refuses."""
    for number, line in enumerate(lines_of(commands), 1):
        reply = site.edit(line)
        if reply.is_refused():
            sys.exit(f"browse: {file}, line {number}: {reply.text()}")


def lines_that_come(descriptor: int) -> Iterator[bytes]:
    """The lines of an input as they come. No lock is held meanwhile, which Python would wait for at its end."""
    held = b""
    while more := os.read(descriptor, 1 << 16):
        *lines, held = (held + more).split(b"\n")
        yield from lines
    if held:
        yield held


def carry_out_edits(site: Site) -> None:
    """Has the site carry out the lines of standard input, and writes the replies as the program does."""
    for number, line in enumerate(lines_that_come(sys.stdin.fileno()), 1):
        try:
            reply = site.edit(line)
        except Unknown:
            say(f"line {number}: the program ended before it had replied, so it isn't known whether the line was done")
        except (NoReply, NotServed):
            return
        except ValueError as fault:
            say(f"line {number}: {fault}")
        else:
            page = reply.page + b"\n" if reply.is_page() else b""
            write(sys.stdout.fileno(), f"{reply.text()}\n".encode() + page)


def write(descriptor: int, text: bytes) -> None:
    while text:
        text = text[os.write(descriptor, text) :]


def opened(port: int) -> Server:
    """A server that listens on a port."""
    try:
        return Server(port)
    except OSError as error:
        if error.errno == errno.EADDRINUSE:
            sys.exit(f"browse: port {port} is taken; --port N chooses another")
        sys.exit(f"browse: port {port}: {error.strerror}")


def say(what: str) -> None:
    print(f"browse: {what}", file=sys.stderr, flush=True)


def announce(server: Server) -> None:
    print(f"http://{ADDRESS}:{server.server_port}/", flush=True)
    try:
        server.serve_forever()
    finally:
        # Python aborts if a thread is writing to standard error as it ends, as each does once it has served a page.
        server.drain(0, END_SECONDS)


def read_token(path: Path) -> bytes:
    """The token that a file has; without one nothing is served."""
    try:
        return token_of(path)
    except ValueError as fault:
        sys.exit(f"browse: {fault}")


def serve(arguments: argparse.Namespace) -> None:
    """Serves a site until no program can be started any more."""
    # A command file has to be there before a program is started.
    commands = arguments.file.read_bytes() if arguments.file else b""
    token = read_token(arguments.token_file) if arguments.token_file else None
    kind = Explained if arguments.explain else Plain
    site = Site(arguments.program, arguments.database, most=arguments.lines, kind=kind, notes_edits=token is not None)
    with opened(arguments.port) as server, begun(site):
        feed(site, arguments.file, commands)
        server.site = site
        server.editing = Editing(token, Edits(site)) if token is not None else None
        if arguments.edits:
            threading.Thread(target=carry_out_edits, args=[site], daemon=True).start()
        announce(server)


@contextlib.contextmanager
def begun(site: Site) -> Iterator[None]:
    """Has a site's programs run until the block ends."""
    try:
        with site:
            yield
    except NoReply as fault:
        said = f"it said {fault.args[0]!r}" if fault.args[0] else f"it said nothing for {FIRST_SECONDS} s"
        sys.exit(f"browse: {site.words[0]} doesn't reply to a line as the program does: {said}")
    except NotServed as fault:
        sys.exit(f"browse: {fault}")


def port_number(text: str) -> int:
    if not text.isascii() or not text.isdigit() or int(text) > 65535:
        raise argparse.ArgumentTypeError(f"a port is a number from 0 to 65535, not {text}")
    return int(text)


def read_arguments() -> argparse.Namespace:
    parser = Parser(__doc__)
    add_program_option(parser)
    parser.add_argument("--explain", action="store_true", help="show below each page which callbacks ran")
    parser.add_argument("--port", metavar="N", type=port_number, default=8080, help="8080 if it is left out")
    parser.add_argument("--database", metavar="FILE", help="serve the site in this file, which lasts")
    parser.add_argument("--edits", action="store_true", help="carry out the lines of standard input meanwhile")
    how: dict[str, Any] = {"metavar": "FILE", "type": Path}
    parser.add_argument("--token-file", help="take edits by HTTP from those who have the token in this file", **how)
    how = {"metavar": "N", "type": count_in(4 * MARGIN, LINES), "default": LINES}
    parser.add_argument("--lines", help="replace each program before its line N, 1,000,000 if it is left out", **how)
    parser.add_argument("file", metavar="FILE", nargs="?", type=Path, help="a command file")
    arguments = parser.parse_args()
    if arguments.file is None and arguments.database is None:
        arguments.file = BAKERY
    return arguments


def main() -> None:
    arguments = read_arguments()
    end_by_signals()
    try:
        check_program(arguments.program)
        serve(arguments)
    except KeyboardInterrupt:
        pass
    except OSError as error:
        sys.exit(f"browse: {error}")
