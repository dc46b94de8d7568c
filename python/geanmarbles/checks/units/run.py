"""Tests single functions of the package: calls of etcd that fail and are made again, the history of edits over an etcd
that is a dictionary, the reading of arguments, exports, logs, heads of requests and replies, a node's front without a
node, how checks are counted, and how wrong bodies are read and judged.

    tests/units/run [--plain] [NAME ..]

With names, it runs the tests whose names have one of these. The tests are run by pytest if it is installed (Debian:
python3-pytest), and by a loop if it isn't, or with --plain. Random values come from hypothesis if the Python that runs
them has it (Debian: python3-hypothesis): a case that fails is then made as small as can be, and shown. Nothing else is
needed. The last line is 'N passed, M failed', over the tests, and the exit status is 0 if none failed.
"""

from pathlib import Path

from geanmarbles.checks.runner import main_of

HERE = Path(__file__).parent


def main() -> int:
    return main_of(__doc__, [f"{__package__}.{it.stem}" for it in sorted(HERE.glob("test_*.py"))])
