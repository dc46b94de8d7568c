"""Steps through a page of a site, one callback at a time.

    geanmarbles step [--program PATH] [--snippets] [--calls N] FILE PATH

For example:

    geanmarbles step examples/bakery.jsonl '/?p=1'

FILE is a command file, as examples/bakery.jsonl of this repository, and none of its lines may be refused. The page of
PATH, as `/?p=1`, is then opened by `begin`, and nothing of it has run. At the prompt:

    n           goes on to the next callback, and shows what it received and replied; so does an empty line
    n COUNT     does so COUNT times
    c NAME      goes on to the next callback that runs on the hook or for the shortcode NAME, or has the number NAME
    p           shows all that is known of the callback that ran last
    q           ends, as the end of the input does
    {..}        a line of JSON is a command to the site, as {"cmd":"option","name":"blogname","value":"New"}, and its
                reply is shown. The page doesn't care: it is of the site as it was when it was opened

Once the page is printed or refused, that is shown, and only commands are left.

The exit status is 0, 1 if the site or the page can't be opened or the program ended, and 2 if the arguments are bad.
"""

import argparse
import json
import sys
from collections.abc import Iterator
from pathlib import Path

from geanmarbles.arguments import Parser
from geanmarbles.client.log import Run, Teller, Told
from geanmarbles.client.program import add_program_option, check_program, lines_of
from geanmarbles.client.replies import Ended, Reply
from geanmarbles.client.watched import Watched
from geanmarbles.output import quiet_output


class Stepper:
    """A page that is open, and what was told of its last callback."""

    def __init__(self, program: Watched, number: int) -> None:
        self.program, self.number = program, number
        self.is_open = True
        self.last: Told | None = None

    def step(self) -> bool:
        """Gives the page one turn, and shows what came of it. Returns whether a callback ran."""
        if not self.is_open:
            print("the page has ended")
            return False
        reply = self.program.command(cmd="turns", page=self.number, count=1)
        if reply.text() == "ok":
            self.last = self.program.told(lambda told: told.get("open") == self.number and "count" in told)
            print(shown(self.last))
            return True
        self.is_open = False
        show_reply(reply)
        return False

    def steps(self, count: int) -> None:
        for _ in range(count):
            if not self.step():
                return

    def go_to(self, name: str) -> None:
        """Gives the page turns until a callback of this hook, shortcode or number has run."""
        while self.step():
            last = self.last or {}
            if name in (last.get("hook"), last.get("tag"), str(last.get("callback"))):
                return

    def show_call(self) -> None:
        print("nothing has run yet" if self.last is None else json.dumps(self.last, indent=2, ensure_ascii=False))


def shown(told: Told | None) -> str:
    """A line of the log, for a reader."""
    if told is None:
        return "a callback ran, and nothing was told of it"
    node = Teller().run(Run(told))
    where = f"{told['hook']} " if "hook" in told else ""
    lines = [f"{told['count']}. {where}{node.text}", *(f"   {below.text}" for below in node.below)]
    return "\n".join(f"{'  ' * told['depth']}{line}" for line in lines)


def show_reply(reply: Reply) -> None:
    print(reply.text())
    if reply.is_page():
        print(reply.page.decode(errors="replace"))


def carry_out(stepper: Stepper, line: str) -> bool:
    """Does what a line at the prompt says. Returns whether to go on."""
    word, _, rest = line.partition(" ")
    rest = rest.strip()
    if word.startswith("{"):
        show_reply(stepper.program.ask(line.encode()))
    elif word in ("", "n") and (not rest or rest.isdecimal()):
        stepper.steps(int(rest or 1))
    elif word == "c" and rest:
        stepper.go_to(rest)
    elif word == "p" and not rest:
        stepper.show_call()
    elif word == "q" and not rest:
        return False
    else:
        print("n [COUNT], c NAME, p, q, or a command as a line of JSON; geanmarbles step --help says more")
    return True


def feed(program: Watched, file: Path) -> None:
    """Has the program carry out a command file, and ends the script at the first line that it refuses."""
    for number, line in enumerate(lines_of(file.read_bytes()), 1):
        reply = program.ask(line)
        if reply.is_refused():
            sys.exit(f"step: {file}, line {number}: {reply.text()}")


def opened(program: Watched, path: str) -> int:
    """The number of the page of a path, once it is opened."""
    reply = program.command(cmd="begin", path=path)
    if reply.is_refused():
        sys.exit(f"step: {path}: {reply.text()}")
    return int(reply.words[1])


def prompted() -> Iterator[str]:
    """The lines that are typed, or that come from a file."""
    prompt = "step> " if sys.stdin.isatty() else ""
    while True:
        try:
            yield input(prompt).strip()
        except EOFError:
            return


def read_arguments() -> argparse.Namespace:
    parser = Parser(__doc__)
    add_program_option(parser)
    parser.add_argument("--calls", metavar="N", help="how many callbacks the page may call")
    parser.add_argument("file", metavar="FILE", type=Path, help="a command file")
    parser.add_argument("path", metavar="PATH", help="the path of the page")
    return parser.parse_args()


@quiet_output()
def main() -> None:
    arguments = read_arguments()
    check_program(arguments.program)
    options = ["--calls", arguments.calls] if arguments.calls else []
    try:
        with Watched(*arguments.program, *options) as program:
            feed(program, arguments.file)
            stepper = Stepper(program, opened(program, arguments.path))
            print(f"the page of {arguments.path} is open, and nothing of it has run")
            for line in prompted():
                if not carry_out(stepper, line):
                    break
    except KeyboardInterrupt:
        pass
    except Ended:
        sys.exit("step: the program has ended, so the site is gone")
    except BrokenPipeError:
        # That of standard output, which `quiet_output` ends the script for.
        raise
    except OSError as error:
        sys.exit(f"step: {error}")
