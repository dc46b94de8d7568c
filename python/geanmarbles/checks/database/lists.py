"""Random lists of tests/fuzz for sites in files. One that fails is made shorter, and saved."""

from random import Random

from geanmarbles.checks.fuzz.lines import BY_TURNS, Lines
from geanmarbles.checks.fuzz.shorter import Shorter
from geanmarbles.checks.fuzz.values import command_of

# How many lists each check is made over.
LISTS = 20
SHORTER = Shorter()


def random_lines(seed: str) -> list[bytes]:
    """A list without pages by turns, which end with the program."""
    return [it for it in Lines(Random(seed)).list() if command_of(it).get("cmd") not in BY_TURNS]
