"""Runs the program over a site in a file that nothing serves, by one of its options.

    geanmarbles check [--program PATH] [--snippets] FILE
    geanmarbles export [--program PATH] [--snippets] FILE > LINES
    geanmarbles compact [--program PATH] [--snippets] FILE

`check` prints how many edits the file has, and the digest of its history. `export` prints short lines that make the
site, each a command in JSON as `geanmarbles site` reads it. `compact` puts such lines in the place of the file's
history, so earlier versions of posts are gone. So a site is moved to another program, here one with snippets:

    geanmarbles export SITE.db | geanmarbles site --snippets --database NEW.db

The exit status is 0, 1 if FILE isn't there or isn't sound, and 2 if the arguments are bad.
"""

import os
from typing import NoReturn

from geanmarbles.arguments import Parser
from geanmarbles.client.program import absolute, add_program_option, check_program


def run(option: str) -> NoReturn:
    parser = Parser(__doc__)
    add_program_option(parser)
    parser.add_argument("file", metavar="FILE", type=absolute, help="the site in a file")
    arguments = parser.parse_args()
    check_program(arguments.program)
    words = [*arguments.program, "--database", arguments.file, "--must-exist", option]
    os.execv(words[0], words)


def check() -> NoReturn:
    run("--check")


def export() -> NoReturn:
    run("--export")


def compact() -> NoReturn:
    run("--compact")
