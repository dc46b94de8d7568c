"""How all commands of the repository read their arguments."""

import argparse
import os
import sys
from collections.abc import Callable
from typing import Any, NoReturn


class Parser(argparse.ArgumentParser):
    """A command line whose usage names the command as it was typed, whose help is a module's documentation, and whose
    faults are one line, which begins with the command's name alone."""

    def __init__(self, description: str | None = None, **how: Any) -> None:
        how = {"prog": sys.argv[0], "formatter_class": argparse.RawDescriptionHelpFormatter, **how}
        super().__init__(description=description, **how)

    def error(self, message: str) -> NoReturn:
        name = self.prog.replace(sys.argv[0], command_name(), 1)
        self.exit(2, f"{name}: {message}; --help says more\n")


def command_name() -> str:
    """The command's name, with which what it says on standard error begins."""
    return os.path.basename(sys.argv[0]).removeprefix("geanmarbles ")


def count_in(first: int, last: int) -> Callable[[str], int]:
    """A reader of whole numbers in a range."""

    def read(text: str) -> int:
        if not text.isascii() or not text.isdigit() or not first <= int(text) <= last:
            raise argparse.ArgumentTypeError(f"a number from {first} to {last}, not {text}")
        return int(text)

    return read
