"""Where the checkout, or the installed package, has what is read."""

import sys
from pathlib import Path

PACKAGE = Path(__file__).resolve().parent
IS_CHECKOUT = (PACKAGE.parents[1] / "crates.txt").is_file()
# An installed package has what is shipped, and the examples that it reads, in its own folder.
ROOT = PACKAGE.parents[1] if IS_CHECKOUT else PACKAGE
GEANMARBLES = str(ROOT / "geanmarbles")
CRATES = ROOT / "crates"
DOCS = ROOT / "docs"
EXAMPLES = ROOT / "examples"
TESTS = ROOT / "tests"
# The program, once it is built.
BUILT_PROGRAM = CRATES / "site" / "out" / "site"
BUILT_PASSES = CRATES / "test_bench" / "out" / "test_bench"


def command(name: str) -> list[str]:
    """The words that run a command in a process of its own."""
    return [sys.executable, "-B", str(ROOT / "python"), name, name]
