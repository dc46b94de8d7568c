"""Serves a site to browsers.

    geanmarbles serve [--program PATH] [--snippets] [--database FILE [--new]] [--token-file FILE] [--address ADDRESS]
                      [--port N | --unix PATH] [--connections N] [--seconds N] [--idle N] [FILE]

For example:

    geanmarbles serve --database site.db --new

The program speaks HTTP itself (docs/BEHAVIOUR.md, Over HTTP). This script takes the connections of clients and moves
their bytes to it and back, without a look at one; it starts the program, and the next one if it ends.

FILE is a command file, examples/bakery.jsonl of this repository if it and --database are left out; none of its lines
may be refused. With --database the site is the one in that file, which lasts, and the lines of a command file are edits
of it that stay. If the file isn't there or is empty, a site is made in it with --new alone. Without --database the site
is in a file that is removed at the end. With --snippets the program has the plugin `snippets` too; a site that was
begun with it is served with it. With --token-file whoever has the token in that file may edit the site.

Clients find it at the address that standard output names: 127.0.0.1 and port 8080 if no other is given; port 0 means
any free one. With --unix it is a socket at PATH, and if systemd hands sockets over (LISTEN_FDS) it is those. Which name
a request has for its host makes no difference, so a site that isn't for all belongs behind a proxy that asks.

At most --connections clients are connected, 1,000 if it is left out. One more takes the place of the one that is idle
for the longest, or else of the one whose request is waited for the longest. A client is waited for --seconds, 10, while
its request comes or it reads its response, and again after each 16,384 bytes of them; it may be idle for --idle
seconds, 60. Then its connection is closed. So it is if it leaves more than 32 MB unread, or the most of 256 MB that all
clients leave unread.

If the program ends, its clients' connections end, and the next one is started, if it ends at once some seconds later. A
program that doesn't answer for 60 seconds is killed. After SIGTERM or Ctrl-C no connection is taken, each is closed
once it is idle, ten seconds later at most, and then the program ends: every edit is then in FILE alone.

The exit status is 0 after a signal, 1 if the site can't be served: the first program ends at once, or five others do in
a row. It is 2 if the arguments are bad.
"""

import argparse
import asyncio
import contextlib
import errno
import resource
import socket
import sys
import tempfile
from collections.abc import Iterator
from pathlib import Path

from geanmarbles.arguments import Parser, count_in
from geanmarbles.client.program import Program, absolute, add_program_option, check_program, end_by_signals, lines_of
from geanmarbles.client.replies import Ended, NoReply
from geanmarbles.paths import EXAMPLES
from geanmarbles.pump.listening import at_path, at_port, handed_over, name_of
from geanmarbles.pump.moving import Limits
from geanmarbles.pump.running import NotRun, Running

BAKERY = EXAMPLES / "bakery.jsonl"
# How long the program may take for its first reply to a command file, and how many clients it takes at once.
FIRST_SECONDS, MOST = 60, 1_000
# What keeps a program from making a site where there is none.
MUST_EXIST = "--must-exist"


def say(what: str) -> None:
    print(f"serve: {what}", file=sys.stderr, flush=True)


def feed(words: list[str], file: Path) -> None:
    """Has a program carry out a command file, and ends the script at the first line that it refuses."""
    lines = lines_of(file.read_bytes())
    try:
        with Program(*words) as site:
            site.check(FIRST_SECONDS)
            for number, line in enumerate(lines, 1):
                reply = site.ask(line)
                if reply.is_refused():
                    sys.exit(f"serve: {file}, line {number}: {reply.text()}")
    except Ended:
        sys.exit(f"serve: the program ended before it had replied to {file}")
    except NoReply:
        sys.exit(f"serve: {words[0]} doesn't reply to a line as the program does")


@contextlib.contextmanager
def database_of(arguments: argparse.Namespace) -> Iterator[str]:
    """The file of the site, with the lines of the command file."""
    with tempfile.TemporaryDirectory() as folder:
        database = arguments.database or str(Path(folder, "site.db"))
        if arguments.file:
            is_new = arguments.new or not arguments.database
            feed([*arguments.program, "--database", database, *([] if is_new else [MUST_EXIST])], arguments.file)
        yield database


@contextlib.contextmanager
def sockets_of(arguments: argparse.Namespace) -> Iterator[list[socket.socket]]:
    """The sockets that clients connect to."""
    with contextlib.ExitStack() as held:
        given = handed_over()
        if not given:
            try:
                if arguments.unix:
                    given = [held.enter_context(at_path(arguments.unix))]
                else:
                    given = [at_port(arguments.address, arguments.port)]
            except OSError as fault:
                where = arguments.unix or f"port {arguments.port}"
                taken = fault.errno == errno.EADDRINUSE
                sys.exit(f"serve: {where} is taken" if taken else f"serve: {where}: {fault.strerror}")
        for it in given:
            held.enter_context(it)
        yield given


def serve(arguments: argparse.Namespace) -> None:
    with sockets_of(arguments) as sockets, database_of(arguments) as database:
        first = [*arguments.program, "--http", "--framed", "--database", database]
        if arguments.token_file:
            first += ["--token-file", arguments.token_file]
        later = [*first, MUST_EXIST]

        def announce() -> None:
            print(*[name_of(it) for it in sockets], sep="\n", flush=True)

        limits = Limits(arguments.connections, arguments.seconds, arguments.idle)
        asyncio.run(Running(first if arguments.new else later, later, limits, say).serve(sockets, announce))


def read_arguments() -> argparse.Namespace:
    parser = Parser(__doc__)
    add_program_option(parser)
    parser.add_argument("--database", metavar="FILE", type=absolute, help="serve the site in this file, which lasts")
    parser.add_argument("--new", action="store_true", help="make a site in that file if there is none")
    token = "take edits from those who have the token in this file"
    parser.add_argument("--token-file", metavar="FILE", type=absolute, help=token)
    parser.add_argument("--address", default="127.0.0.1", help="127.0.0.1 if it is left out")
    where = parser.add_mutually_exclusive_group()
    where.add_argument("--port", metavar="N", type=count_in(0, 65_535), default=8080, help="8080 if it is left out")
    where.add_argument("--unix", metavar="PATH", type=Path, help="listen at this path")
    most = f"how many clients may be connected, {MOST:,} if it is left out"
    parser.add_argument("--connections", metavar="N", type=count_in(1, 100_000), default=MOST, help=most)
    slow = "how long a client may take, 10 if it is left out"
    parser.add_argument("--seconds", metavar="N", type=count_in(1, 3_600), default=10, help=slow)
    idle = "how long a client may be idle, 60 if it is left out"
    parser.add_argument("--idle", metavar="N", type=count_in(1, 86_400), default=60, help=idle)
    parser.add_argument("file", metavar="FILE", nargs="?", type=Path, help="a command file")
    arguments = parser.parse_args()
    if arguments.new and arguments.database is None:
        parser.error("--new needs --database")
    if arguments.file is None and arguments.database is None:
        arguments.file = BAKERY
    return arguments


def main() -> None:
    arguments = read_arguments()
    check_program(arguments.program)
    soft, hard = resource.getrlimit(resource.RLIMIT_NOFILE)
    resource.setrlimit(resource.RLIMIT_NOFILE, (hard, hard))
    end_by_signals()
    try:
        serve(arguments)
    except KeyboardInterrupt:
        pass
    except NotRun as fault:
        sys.exit(f"serve: {fault}")
    except OSError as fault:
        sys.exit(f"serve: {fault}")
