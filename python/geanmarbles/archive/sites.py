"""Reading and editing a site that a command is given: one in a file, what serves one, or a file of its lines."""

import argparse
from pathlib import Path
from typing import Any

from geanmarbles.archive.store import Store, line_of, read_store
from geanmarbles.client.program import add_program_option, check_program
from geanmarbles.supervisor.kept import NotKept, carried_out, check_site
from geanmarbles.supervisor.served import edited, history_at, is_address, token_in

# How a file of lines begins; a site in a file has no such byte there.
LINE = b"{"


def add_site_arguments(parser: argparse.ArgumentParser) -> None:
    """Adds the argument SITE, and the options that say by what it is read and edited."""
    add_program_option(parser)
    parser.add_argument("--token-file", metavar="FILE", type=Path, help="the token of what serves the site")
    parser.add_argument("site", metavar="SITE", help="the site in a file, a file of its lines, or what serves it")


def is_lines(site: str) -> bool:
    """Whether a file has the lines of a site, as an export writes them."""
    if not Path(site).is_file():
        return False
    with open(site, "rb") as file:
        return file.read(1) == LINE


def store_of(arguments: argparse.Namespace) -> Store:
    """What a site in a file has, or the lines of one, or what serves one."""
    if is_address(arguments.site):
        return Store(history_at(arguments.site, token_in(arguments.token_file)))
    if is_lines(arguments.site):
        with open(arguments.site, "rb") as file:
            return Store(it.rstrip(b"\n") for it in file)
    check_program(arguments.program)
    return read_store(arguments.program, arguments.site)


def edit(arguments: argparse.Namespace, command: dict[str, Any]) -> str:
    """Makes an edit, and returns what its reply says after `ok`. With `-` as the site, the line of the edit is returned
    and nothing is done."""
    line = line_of(command)
    if arguments.site == "-":
        return line.decode()
    if is_address(arguments.site):
        reply = edited(arguments.site, token_in(arguments.token_file), line)
    else:
        if is_lines(arguments.site):
            raise NotKept(f"{arguments.site} has lines of a site, which nothing edits")
        check_program(arguments.program)
        check_site(arguments.program, Path(arguments.site))
        [reply] = carried_out(arguments.program, Path(arguments.site), [line])
    if not reply.startswith("ok"):
        raise NotKept(f"the edit is {reply}; geanmarbles refusals says why")
    return reply.removeprefix("ok").strip()
