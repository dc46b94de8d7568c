"""Lists the snippets of a site, or says what is wrong with them, by the rules of docs/SNIPPETS.md.

    geanmarbles snippet list [FILE ..]
    geanmarbles snippet check [FILE ..]

Both read command files (standard input if none is named): their `option` lines and the options of their imports, of
which the last of a name counts, as in a site. `list` prints each word of the option `snippets`, and its template as
JSON. `check` prints: for each word of the option `snippets` that registers nothing, each template that isn't there or
isn't listed, and each place of a template that doesn't do what it seems to, a line:

    [button]: `{{hreff |#}}` is printed as it is: a name is 1 to 64 letters, digits, `_` and `-`
    [chart]: the value of `id` is in a script, where values are printed as nothing

For a site in a file, the file is what the program writes of it:

    geanmarbles site --snippets --database SITE.db --export | geanmarbles snippet check

No program runs, and none is needed. What a content has is not looked at. The exit status is 0 if there is nothing to
say, 1 if `check` has something to say or a file can't be read, and 2 if the arguments are bad.
"""

import json
import sys
from collections.abc import Callable, Iterable, Sequence
from pathlib import Path

from geanmarbles.arguments import Parser
from geanmarbles.client.snippets import faults, options_in


def lines_of(names: Sequence[str]) -> list[str]:
    """The lines of files, or of standard input if none is named."""
    if not names:
        return sys.stdin.buffer.read().decode(errors="replace").split("\n")
    return [line for name in names for line in Path(name).read_text(encoding="utf-8", errors="replace").split("\n")]


def said_by(what: Callable[[dict[str, str]], Iterable[str]]) -> bool:
    """Prints what is said of the options of the files, and returns whether anything is."""
    parser = Parser(__doc__)
    parser.add_argument("files", metavar="FILE", nargs="*", help="a command file")
    names = parser.parse_args().files
    try:
        said = list(what(options_in(lines_of(names))))
    except OSError as error:
        sys.exit(f"snippet: {error}")
    print("".join(f"{line}\n" for line in said), end="")
    return bool(said)


def listed() -> int:
    said_by(lambda options: (f"{it} {json.dumps(options.get(it))}" for it in options.get("snippets", "").split()))
    return 0


def checked() -> int:
    return int(said_by(faults))
