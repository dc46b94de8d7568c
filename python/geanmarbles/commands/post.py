"""Lists, reads and writes the posts and pages of a site in a file, each as a file with a head.

    geanmarbles post list [--program PATH] [--snippets] [--token-file FILE] SITE [WORD ..]
    geanmarbles post get [--program PATH] [--snippets] [--token-file FILE] SITE ID > FILE
    geanmarbles post set [--program PATH] [--snippets] [--token-file FILE] SITE ID FILE
    geanmarbles post new [--program PATH] [--snippets] [--token-file FILE] SITE FILE

For example:

    geanmarbles post get site.db 7 > rye.txt; geanmarbles post set site.db 7 rye.txt

`list` prints the ID, kind, status, date and title of each post and page, the newest first, or of those whose title or
content has every WORD. `get` prints one: a head of lines `title: ..`, `date: ..` and `status: ..`, a blank line, and
the content as it is. `set` makes a post what such a file says, and leaves what the file doesn't have: what its head
doesn't name, and of a file that ends with its head or the blank line after it the content. `new` makes a new one, whose
head needs a date and may have a line `kind: page`, and prints its ID. A title that isn't one line is a text of JSON.

SITE is the site in a file, such as SITE.db, which nothing may serve meanwhile. A site that is served is read and edited
through what serves it. SITE can also be:

- the address at which `geanmarbles browse --token-file FILE` serves a site, such as http://127.0.0.1:8080/, with the
  same file for --token-file;
- for `set` and `new`, the address of a node of a cluster, with the file of its token;
- for `list` and `get`, a file of lines as `site --export` or `geanmarbles node --export` writes them;
- for `set` and `new`, `-`: the line of the edit is printed and nothing else is done. Such a line is for the standard
  input of `geanmarbles browse --edits`.

The exit status is 0, 1 if nothing was done, with the reason, and 2 if the arguments are bad.
"""

import argparse
import json
import sys
from pathlib import Path
from typing import Any

from geanmarbles.archive.store import NotRead, Post, Store
from geanmarbles.arguments import Parser
from geanmarbles.client.program import end_by_signals
from geanmarbles.archive.sites import add_site_arguments, edit, store_of
from geanmarbles.output import quiet_output
from geanmarbles.supervisor.kept import NotKept

HEAD = ("title", "date", "status", "kind")


def shown_title(title: str) -> str:
    """A title as a head has it."""
    is_plain = title == title.strip() and title.isprintable() and not title.startswith('"')
    return title if is_plain else json.dumps(title, ensure_ascii=True)


def listed(store: Store, words: list[str]) -> list[str]:
    """A line for each post and page that has all words, the newest first."""
    lines = []
    for post in sorted(store.posts.values(), key=lambda it: (it.date, it.number), reverse=True):
        text = f"{post.title}\n{store.content(post.number) if words else ''}".lower()
        if all(it.lower() in text for it in words):
            lines.append(f"{post.number}\t{post.kind}\t{post.status}\t{post.date}\t{shown_title(post.title)}")
    return lines


def as_file(post: Post, content: str) -> str:
    """A post with its head, as `set` reads it."""
    return f"title: {shown_title(post.title)}\ndate: {post.date}\nstatus: {post.status}\n\n{content}\n"


def read_file(path: Path) -> dict[str, Any]:
    """What a file says of a post."""
    head, _, content = path.read_text(encoding="utf-8").partition("\n\n")
    # (a file that ends with its head says nothing of the content; an empty content is one more empty line)
    given = {"content": content.removesuffix("\n")} if content else {}
    for number, line in enumerate(head.removesuffix("\n").split("\n"), 1):
        name, colon, value = line.partition(":")
        if not colon or name not in HEAD or name in given:
            raise NotKept(f"{path}, line {number}: the head has {', '.join(HEAD)}, each once, as in `title: Rye`")
        value = value.strip()
        given[name] = json.loads(value) if name == "title" and value.startswith('"') else value
    return given


def done(arguments: argparse.Namespace) -> str:
    """Does what was asked, and returns what is to be printed."""
    if arguments.what in ("list", "get"):
        store = store_of(arguments)
        if arguments.what == "list":
            return "\n".join(listed(store, arguments.words)) + "\n"
        if post := store.posts.get(arguments.number):
            return as_file(post, store.content(post.number))
        raise NotKept(f"there is no post or page with the ID {arguments.number}")
    given = read_file(arguments.file)
    if arguments.what == "set" and "kind" in given:
        raise NotKept(f"{arguments.file}: the kind of a post can't be changed, so its head has none")
    is_new = arguments.what == "new"
    said = edit(arguments, {"cmd": "put", **given} if is_new else {"cmd": "edit", "id": arguments.number, **given})
    return f"{said}\n" if said else ""


def read_arguments() -> argparse.Namespace:
    parser = Parser(__doc__)
    commands = parser.add_subparsers(dest="what", required=True, metavar="list|get|set|new")
    helps = {"list": "list posts and pages", "get": "print one with its head", "set": "make one what a file says"}
    for name, what in {**helps, "new": "make a new one"}.items():
        one = commands.add_parser(name, help=what, description=__doc__)
        add_site_arguments(one)
        if name in ("get", "set"):
            one.add_argument("number", metavar="ID", type=int)
        if name in ("set", "new"):
            one.add_argument("file", metavar="FILE", type=Path)
        if name == "list":
            one.add_argument("words", metavar="WORD", nargs="*", help="only those that have all these words")
    return parser.parse_args()


@quiet_output()
def main() -> int:
    arguments = read_arguments()
    end_by_signals()
    try:
        said = done(arguments)
    except (NotKept, NotRead, OSError, ValueError) as fault:
        sys.exit(f"post: {fault}")
    except KeyboardInterrupt:
        sys.exit("post: stopped; if an edit was asked for, it isn't known whether it was made")
    sys.stdout.write(said)
    return 0
