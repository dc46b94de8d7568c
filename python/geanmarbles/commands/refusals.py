"""Says why lines of a command file are refused, by the rules of docs/BEHAVIOUR.md.

    geanmarbles refusals [--snippets] [--plugin NAME ..] [--after FILE ..] [--notes] FILE [REPLIES]

For each refused line of FILE, standard output gets its number, the refusal and the reason: which key, which section and
entry of an import, which node of a template's tree. Entries of lists are counted from 0:

    2: refused 2 BadImport: site.posts[3].date: the key is missing
    5: refused 7 BadTemplate: body[2].loop[0]: a loop can't be in a loop

REPLIES is what the program wrote for FILE, or `-` for standard input, as in

    geanmarbles site < FILE | geanmarbles refusals FILE -

No program runs, and none is needed. What this doesn't know without REPLIES:

- 9 TooManyCalls and 10 TooDeep: which callbacks a page calls only the program finds out;
- which pages are open after a `turns` that may have ended one. From that line on, 14 NoSuchPage and 15 TooManyPages
  aren't told either, and standard error says so;
- 11 OutOfMemory and 12 Store: memory and the database are the program's.

With REPLIES these are told too, though not why a page needs so many calls or goes so deep: `site --trace` and
`geanmarbles explain` show that. Then each reply is also compared with what the rules say, and a line where they differ
is shown with both.

The site is empty at first. --after names a command file that was carried out before, and is given once for each of
several, in their order: what they refuse is left out, and each is a run of the program of its own, after which no page
is open. For a site in a file, the file is what the program writes of it before the edits of FILE:

    geanmarbles site --database SITE.db --export > SITE.jsonl
    geanmarbles refusals --after SITE.jsonl FILE

With --notes it also says which keys and options of a line nothing reads, and the nearest name that is read. The program
ignores them, so a note is no refusal. Of options only those are known that the program, its own plugins and geanmarbles
publish read:

    3: note: titel: nothing reads this key; the nearest that is read is title

The plugins are those of the program `site`, or with --snippets of `site --snippets`; --plugin names those of another
program in place of them. A line that the program would end at, since it is over 1,048,576 bytes or comes after
1,000,000 others, is shown, and what follows isn't looked at.

The exit status is 0 if FILE was read, 1 if it can't be read or REPLIES isn't what the rules say, and 2 if the arguments
are bad.
"""

import argparse
import sys
from collections.abc import Iterable, Sequence
from typing import Any

from geanmarbles.arguments import Parser
from geanmarbles.client.program import lines_of
from geanmarbles.client.replies import Wrong, refusal_of, whole_replies
from geanmarbles.client.rules import LINES, LINE_BYTES, PLUGINS, Refused, Site, read_command
from geanmarbles.client.unread import notes
from geanmarbles.output import quiet_output

# What only the program can tell, by the refusal's number.
TOLD = {
    9: "the page needs more calls than it has, 10,000 unless --calls gives another number",
    10: "the page would go deeper than 32",
    11: "memory ran out",
    12: "the database refused, and rows are as they were",
}
# The commands that depend on which pages are open, and what is said if only the program knows.
OF_PAGES = ("begin", "turns")
UNKNOWN = "which pages are open isn't known here, since memory ran out in a line with turns"
# How a site in a file begins, which is no command file.
DATABASE = b"SQLite format 3\0"


class Other(Exception):
    """A reply that the rules don't have."""


class Reading:
    """A command file that is gone through, with the program's replies if there are any."""

    def __init__(self, site: Site, replies: list[bytes] | None) -> None:
        self.site = site
        self.replies = replies
        # The lines with `begin` or `turns` of which it isn't known whether they are refused.
        self.unknown: list[int] = []

    def refusal(self, number: int, line: bytes) -> Refused | None:
        """The refusal of a line, counted from 1, or None."""
        reply = self.replies[number - 1] if self.replies is not None else None
        told = refusal_of(reply) if reply is not None else 0
        if told in TOLD:
            self.follow_told(line, told)
            return Refused(told, TOLD[told])
        found = None
        try:
            keys = self.site.command(line)
        except Refused as refused:
            found = refused
        else:
            if keys["cmd"] in OF_PAGES:
                found = self.follow(number, keys, reply, told)
        if reply is not None and told != (found.number if found else 0):
            said = reply.partition(b"\n")[0].decode()
            raise Other(f"{number}: the program replied `{said}`; by the rules: {found or 'done'}")
        return found

    def follow_told(self, line: bytes, told: int) -> None:
        """What a refusal that the program alone knows of leaves: `turns` closes the page, but for one that memory
        stopped, which may have been while the line was read."""
        try:
            keys = read_command(line)
        except Refused:
            return
        if keys["cmd"] == "turns" and self.site.open is not None:
            if told == 11:
                self.site.open = None
            else:
                self.site.open.discard(keys.get("page", 0))

    def follow(self, number: int, keys: dict[str, Any], reply: bytes | None, told: int) -> Refused | None:
        """What `begin` and `turns` have done to the open pages; the result is a refusal that only the reply tells."""
        if self.site.open is None:
            if reply is None:
                self.unknown.append(number)
            return Refused(told, UNKNOWN) if told in (14, 15) else None
        if keys["cmd"] == "turns" and keys["page"] in self.site.open:
            if reply is None:
                self.site.open = None
            elif reply.startswith(b"page "):
                self.site.open.discard(keys["page"])
        return None


def ends_at(number: int, line: bytes) -> str | None:
    """Why the program would end at a line, or None."""
    if number > LINES:
        return f"the program takes {LINES:,} lines"
    if len(line) > LINE_BYTES:
        return f"the line has {len(line):,} bytes, and the program takes {LINE_BYTES:,}"
    return None


def site_after(paths: list[str], plugins: Sequence[str]) -> Site:
    """The site that some command files leave, each carried out by a run of the program."""
    site = Site(plugins)
    for path in paths:
        given = read_bytes(path)
        refused: list[str] = []
        if given.startswith(DATABASE):
            sys.exit(f"refusals: {path} is a site in a file; `site --database {path} --export` writes its lines")
        lines = lines_of(given)
        for number, line in enumerate(lines, 1):
            if end := ends_at(number, line):
                print(f"refusals: {path}, line {number}: the program ends here: {end}", file=sys.stderr)
                break
            try:
                site.command(line)
            except Refused as why:
                refused.append(f"line {number}: {why}")
        site.open = set()
        if refused:
            said = f"{len(refused):,} of {len(lines):,} lines are refused and left out, the first in {refused[0]}"
            print(f"refusals: {path}: {said}", file=sys.stderr)
    return site


def noted(line: bytes) -> list[str]:
    """What of a line nothing reads, if it is a command at all."""
    try:
        return notes(read_command(line))
    except Refused:
        return []


def explain(lines: Iterable[bytes], site: Site, replies: list[bytes] | None, has_notes: bool = False) -> bool:
    """Prints what is refused, and says whether all replies are what the rules say."""
    reading, is_well = Reading(site, replies), True
    for number, line in enumerate(lines, 1):
        end = ends_at(number, line)
        if end or replies is not None and number > len(replies):
            print(f"{number}: the program ends here: {end or 'there is no reply to this line'}")
            break
        try:
            refused = reading.refusal(number, line)
        except Other as other:
            print(other)
            is_well = False
        else:
            if refused:
                print(f"{number}: {refused}")
        for note in noted(line) if has_notes else ():
            print(f"{number}: note: {note}")
    if reading.unknown:
        shown = ", ".join(map(str, reading.unknown[:8])) + (" .." if len(reading.unknown) > 8 else "")
        said = "whether these are refused only the program's replies tell, which can follow FILE"
        print(f"refusals: lines {shown} open pages or give them turns: {said}", file=sys.stderr)
    return is_well


def read_bytes(path: str) -> bytes:
    if path == "-":
        return sys.stdin.buffer.read()
    with open(path, "rb") as file:
        return file.read()


def read_arguments() -> argparse.Namespace:
    parser = Parser(__doc__)
    how: dict[str, Any] = {
        "metavar": "NAME",
        "action": "append",
        "help": "a plugin of the program, in place of those of `site`",
    }
    parser.add_argument("--plugin", **how)
    parser.add_argument("--snippets", action="store_true", help="the plugins of `site --snippets`")
    how = {"metavar": "FILE", "action": "append", "default": [], "help": "a command file that was carried out before"}
    parser.add_argument("--after", **how)
    parser.add_argument("--notes", action="store_true", help="say which keys and options nothing reads")
    parser.add_argument("file", metavar="FILE", help="a command file, or - for standard input")
    parser.add_argument("replies", metavar="REPLIES", nargs="?", help="what the program wrote for it, or -")
    return parser.parse_args()


@quiet_output()
def main() -> int:
    arguments = read_arguments()
    if arguments.file == arguments.replies == "-":
        sys.exit("refusals: standard input can't be both FILE and REPLIES")
    if [arguments.file, arguments.replies, *arguments.after].count("-") > 1:
        sys.exit("refusals: standard input can't be several of the files")
    try:
        lines = lines_of(read_bytes(arguments.file))
        replies = whole_replies(read_bytes(arguments.replies)) if arguments.replies is not None else None
        plugins = [*(arguments.plugin or PLUGINS), *(["snippets"] if arguments.snippets else [])]
        site = site_after(arguments.after, plugins)
        is_well = explain(lines, site, replies, arguments.notes)
        sys.stdout.flush()
    except Wrong:
        sys.exit(f"refusals: {arguments.replies} isn't what the program writes")
    except BrokenPipeError:
        # That of standard output, which `quiet_output` ends the script for.
        raise
    except OSError as error:
        sys.exit(f"refusals: {error}")
    return 0 if is_well else 1
