"""Shows which callbacks ran for each page of a log that `site --trace` wrote, and what each received and did.

    geanmarbles explain [--hook NAME] [--post ID] [--whole] [--notes] [--input FILE ..] [--html FILE] [LOG]

LOG is a file with what a run of the program wrote on standard error, as by

    crates/site/out/site --trace < COMMANDS > PAGES 2> LOG

and standard input if it is left out or `-`. Each page is an indented tree:

    /?p=1: 200, 18 bytes, 3 invocations
      the_title of post 1: "T" → "TX1Y"
        10  marks/2  "T" → "TX"

A pass over a hook shows the value that came in and the one that came out; below it is each callback that ran, with its
priority, its plugin and number, what it received and what it answered; and below that what it printed, changed and
asked, with the passes that it asked for. A shortcode stands in the place of a hook and a priority.

--hook shows only the passes over that hook, wherever they are, and --post only those that a page makes for that post;
pages without any are left out. A long text is cut, and its length is said; --whole shows it as the log has it, which
cuts it after 200 bytes.

--notes adds what else follows from the log of a page that came to its end: which texts a filter left as they were, and
which shortcodes in a text no active plugin has. Of a text that the log cuts this is told only with --input, the lines
that the program read, COMMANDS above, once for each of several files; of a site in a file they begin with what
`site --database SITE.db --export` writes:

    the_content of post 2: "[foo] and [1]", unchanged
      11  core/0  "[foo] and [1]" → its shortcodes replaced
        no active plugin has the shortcodes [foo], [1]

--html writes the trees to a file for a browser, where each can be closed and opened.

The exit status is 0, 1 if there is nothing to show or the log can't be read, and 2 if the arguments are bad.
"""

import argparse
import sys
from typing import Any

from geanmarbles.arguments import Parser
from geanmarbles.client.log import STYLE, as_html, printed, read_pages, tree_of
from geanmarbles.client.notes import Inputs, Notes
from geanmarbles.client.program import lines_of
from geanmarbles.output import quiet_output

HEAD = f"""<!doctype html>
<html lang="en">
<meta charset="utf-8">
<meta name="viewport" content="width=device-width">
<title>Which callbacks ran</title>
<style>{STYLE}
body {{ margin: 2em auto; max-width: 70em; padding: 0 1em; }}
</style>
<h1>Which callbacks ran</h1>
"""


def read_lines(path: str) -> list[bytes]:
    """The lines of a log."""
    if path == "-":
        return sys.stdin.buffer.read().splitlines()
    with open(path, "rb") as log:
        return log.read().splitlines()


def inputs_of(paths: list[str]) -> Inputs:
    """What the lines of some command files tell of contents."""
    lines: list[bytes] = []
    for path in paths:
        with open(path, "rb") as file:
            lines += lines_of(file.read())
    return Inputs(lines)


def read_arguments() -> argparse.Namespace:
    parser = Parser(__doc__)
    parser.add_argument("--hook", metavar="NAME", help="only passes over this hook")
    parser.add_argument("--post", metavar="ID", type=int, help="only passes that a page makes for this post")
    parser.add_argument("--whole", action="store_true", help="texts as the log has them")
    parser.add_argument("--notes", action="store_true", help="say what is unchanged, and which shortcodes nobody has")
    how: dict[str, Any] = {
        "metavar": "FILE",
        "action": "append",
        "default": [],
        "help": "with --notes: lines that the program read",
    }
    parser.add_argument("--input", **how)
    parser.add_argument("--html", metavar="FILE", help="writes a page for a browser")
    parser.add_argument("log", metavar="LOG", nargs="?", default="-", help="standard input if it is left out")
    arguments = parser.parse_args()
    if arguments.input and not arguments.notes:
        parser.error("--input needs --notes")
    return arguments


@quiet_output()
def main() -> None:
    arguments = read_arguments()
    try:
        pages, others = read_pages(read_lines(arguments.log))
        noted: list[Notes | None] = [None for _ in pages]
        if arguments.notes:
            inputs = inputs_of(arguments.input)
            noted = [Notes(page, inputs) for page in pages]
        which = arguments.hook, arguments.post, arguments.whole
        made = (tree_of(page, *which, notes) for page, notes in zip(pages, noted))
        trees = [tree for tree in made if tree is not None]
        if arguments.html is not None:
            with open(arguments.html, "w", encoding="utf-8") as file:
                file.write(HEAD + "".join(part for tree in trees for part in as_html(tree)))
        else:
            sys.stdout.write("".join(f"{line}\n" for tree in trees for line in printed(tree)))
            sys.stdout.flush()
    except BrokenPipeError:
        # That of standard output, which `quiet_output` ends the script for.
        raise
    except OSError as error:
        sys.exit(f"explain: {error}")
    if others:
        print(f"explain: {others} lines are no lines of a log, and were passed over", file=sys.stderr)
    if not trees:
        sys.exit("explain: no page is shown: none was told of, or none has such a pass")
