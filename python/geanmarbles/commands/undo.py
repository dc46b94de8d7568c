"""Writes a site without its last edits into a new file.

    geanmarbles undo [--program PATH] [--snippets] SITE.db NEW.db [N]
    geanmarbles undo [--program PATH] [--snippets] [--token-file FILE] ADDRESS NEW.db [N]

For example:

    geanmarbles undo site.db new.db && mv new.db site.db

The program carries out all edits of the site but the last N, the last one if N is left out, over NEW.db, which may not
be there yet, and isn't there if this fails. Standard output has the edits that were left out, the newest first.

SITE.db is the site in a file, which nothing may serve meanwhile. ADDRESS is the address at which `geanmarbles browse
--token-file FILE` serves a site, with the same file for --token-file. Either site stays as it is. To go back, serve
NEW.db instead, or move it: `mv NEW.db SITE.db`, and SITE.db-wal stays. After `site --compact` there are only the edits
since then.

The exit status is 0, 1 if a file can't be read or written, and 2 if the arguments are bad.
"""

import argparse
import contextlib
import sys
from pathlib import Path

from geanmarbles.arguments import Parser
from geanmarbles.client.program import add_program_option, check_program, end_by_signals
from geanmarbles.output import quiet_output
from geanmarbles.supervisor.kept import NotKept, carried_out, remove
from geanmarbles.supervisor.served import history_of

SHOWN = 120


def undone(arguments: argparse.Namespace) -> list[bytes]:
    """Makes the new file, and returns the edits that it doesn't have, the newest first."""
    lines = history_of(arguments.program, arguments.site, arguments.token_file)
    if arguments.count > len(lines):
        raise NotKept(f"{arguments.site} has {len(lines):,} edits, and not {arguments.count:,}")
    if arguments.new.exists():
        raise NotKept(f"{arguments.new} is there already")
    kept, left = lines[: -arguments.count], lines[-arguments.count :]
    try:
        with contextlib.closing(carried_out(arguments.program, arguments.new, kept or [b"{}"])) as replies:
            for number, reply in enumerate(replies, 1):
                if kept and not reply.startswith("ok"):
                    raise NotKept(f"edit {number} is {reply!r} in {arguments.new}")
    except BaseException:
        remove(arguments.new)
        raise
    return left[::-1]


def positive(text: str) -> int:
    if not text.isascii() or not text.isdigit() or int(text) < 1:
        raise argparse.ArgumentTypeError(f"a number of edits, 1 or more, not {text}")
    return int(text)


@quiet_output()
def main() -> int:
    parser = Parser(__doc__)
    add_program_option(parser)
    parser.add_argument("--token-file", metavar="FILE", type=Path, help="the token of what serves the site")
    parser.add_argument("site", metavar="SITE", help="the site in a file, or the address of what serves it")
    parser.add_argument("new", metavar="NEW.db", type=Path, help="the file to be made")
    parser.add_argument("count", metavar="N", nargs="?", type=positive, default=1, help="how many edits, 1 if left out")
    arguments = parser.parse_args()
    check_program(arguments.program)
    end_by_signals()
    try:
        left = undone(arguments)
    except (NotKept, OSError, ValueError) as fault:
        sys.exit(f"undo: {fault}")
    except KeyboardInterrupt:
        sys.exit("undo: stopped")
    for line in left:
        shown = line.decode()
        print(shown if len(shown) <= SHOWN else f"{shown[:SHOWN]} .. ({len(line):,} bytes)")
    return 0
