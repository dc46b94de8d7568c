"""Shows each version that a post or page of a site has had.

    geanmarbles history [--program PATH] [--snippets] [--difference] SITE.db ID
    geanmarbles history [--token-file FILE] [--difference] ADDRESS ID

For example:

    geanmarbles history --difference site.db 7

A line is printed for each edit that made or changed it: the edit's number in the history, what kind of edit it was,
and what it set. With --difference the lines of the content that it changed follow, as `diff -u` shows them.

SITE.db is the site in a file, which nothing may serve meanwhile; it stays as it is. ADDRESS is the address at which
`geanmarbles browse --token-file FILE` serves a site, with the same file for --token-file. After `site --compact` there
is only what was left then.

The exit status is 0, 1 if the site can't be read or has had no such post, and 2 if the arguments are bad.
"""

import difflib
import json
import sys
from pathlib import Path
from typing import Any

from geanmarbles.arguments import Parser
from geanmarbles.client.program import add_program_option
from geanmarbles.output import quiet_output
from geanmarbles.supervisor.kept import NotKept, touched
from geanmarbles.supervisor.served import history_of

FIELDS = ("kind", "status", "date", "title")


def described(given: dict[str, Any]) -> str:
    """What an edit set, in words."""
    said = [f"{name} {json.dumps(given[name], ensure_ascii=False)}" for name in FIELDS if name in given]
    if "content" in given:
        said.append(f"content of {len(given['content'].encode()):,} bytes")
    return ", ".join(said) or "nothing"


def versions(lines: list[bytes], wanted: int) -> list[tuple[int, dict[str, Any]]]:
    """The number of each edit of a post, and what it says; a `put` gets one ID more than the largest so far."""
    found, largest = [], 0
    for number, line in enumerate(lines, 1):
        for identity, given in touched(line):
            identity = identity or largest + 1
            largest = max(largest, identity)
            if identity == wanted:
                found.append((number, given))
    return found


@quiet_output()
def main() -> int:
    parser = Parser(__doc__)
    add_program_option(parser)
    parser.add_argument("--token-file", metavar="FILE", type=Path, help="the token of what serves the site")
    parser.add_argument("--difference", action="store_true", help="show which lines of the content were changed")
    parser.add_argument("site", metavar="SITE", help="the site in a file, or the address of what serves it")
    parser.add_argument("number", metavar="ID", type=int, help="the ID of a post or page")
    arguments = parser.parse_args()
    try:
        found = versions(history_of(arguments.program, arguments.site, arguments.token_file), arguments.number)
    except (NotKept, OSError, ValueError) as fault:
        sys.exit(f"history: {fault}")
    if not found:
        sys.exit(f"history: {arguments.site} has had no post or page with the ID {arguments.number}")
    content = ""
    for number, given in found:
        print(f"{number}: {given['cmd']}: {described(given)}")
        if arguments.difference and "content" in given:
            before, after = content.splitlines(), given["content"].splitlines()
            for line in list(difflib.unified_diff(before, after, lineterm="", n=1))[2:]:
                print(f"    {line}")
        content = given.get("content", content)
    return 0
