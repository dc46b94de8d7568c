"""Runs each command of `geanmarbles dev bench` at its smallest sizes, so that none goes stale.

    tests/bench/run [--needs NAME] [--wordpress DIR] [PROGRAM]

PROGRAM is the program that is there if it is left out. Each script has to end well. Skipped are the passes of
bench/cases and bench/instructions if crates/test_bench isn't built, bench/instructions if there is no valgrind,
bench/wordpress if there is no PHP with opcache or no WordPress at DIR, /usr/share/wordpress if it is left out, and
bench/cluster if there is no etcd; bench/gate, which runs the whole test, isn't run. With --needs the scripts are run
that need test_bench, valgrind, wordpress or etcd, or the program alone.

The last line is 'N passed, M failed', with ', K skipped' if some are, over the scripts, and the exit status is 0 if
none failed.
"""

import shutil
import subprocess
from collections.abc import Iterator, Sequence
from functools import partial
from pathlib import Path

from geanmarbles.checks.judging import Counts, must
from geanmarbles.checks.programs import missing, parser_of
from geanmarbles.command_line import COMMANDS
from geanmarbles.paths import BUILT_PASSES, GEANMARBLES

WORDPRESS = Path("/usr/share/wordpress")
# Ends with 0 if PHP has its opcache.
HAS_OPCACHE = ["php", "-r", "exit((int) !function_exists('opcache_get_status'));"]
SECONDS = 300
# What the scripts need that need more than the program; hooks is the case of bench/cases that has passes.
NEEDS = {"hooks": "test_bench", "instructions": "valgrind", "wordpress": "wordpress", "cluster": "etcd"}
PROGRAM = "program"


def fault_of(words: Sequence[str]) -> str:
    """What is wrong with a script with some arguments, or an empty text."""
    try:
        ran = subprocess.run(words, capture_output=True, text=True, timeout=SECONDS, check=False)
    except subprocess.TimeoutExpired:
        return f"it takes longer than {SECONDS} s"
    return (ran.stderr.strip() or f"it ended with status {ran.returncode}") if ran.returncode else ""


def lacking(name: str, wordpress: Path) -> str | None:
    """What isn't here of what a script needs, or None."""
    if name in ("hooks", "instructions") and missing(BUILT_PASSES):
        return missing(BUILT_PASSES)
    if name == "wordpress":
        is_here = shutil.which("php") and (wordpress / "wp-includes" / "shortcodes.php").exists()
        has_all = is_here and subprocess.run(HAS_OPCACHE, check=False).returncode == 0
        return None if has_all else "there is no PHP with opcache, or no WordPress"
    needed = {"instructions": "valgrind", "cluster": "etcd"}.get(name)
    return f"there is no {needed}" if needed and not shutil.which(needed) else None


def runs(wordpress: Path) -> Iterator[tuple[str, list[str]]]:
    """The name of each script but gate's, with the words that run it."""
    for name in [it.removeprefix("dev bench ") for it in COMMANDS if it.startswith("dev bench ")]:
        words = [GEANMARBLES, "dev", "bench", name, "--smoke"]
        if name != "gate":
            yield name, [*words, *(["--wordpress", str(wordpress)] if name == "wordpress" else [])]
        if name == "cases":
            yield "hooks", [*words, "--only", "hooks"]


def main() -> int:
    parser = parser_of(__doc__)
    parser.add_argument("--wordpress", type=Path, default=WORDPRESS, metavar="DIR", help="the folder of a WordPress")
    needed = sorted({PROGRAM, *NEEDS.values()})
    parser.add_argument("--needs", metavar="NAME", choices=needed, help="the scripts that need this, of all")
    given = parser.parse_args()
    counts = Counts()
    for name, words in runs(given.wordpress):
        if given.needs not in (None, NEEDS.get(name, PROGRAM)):
            continue
        if why := lacking(name, given.wordpress):
            counts.skip(name, why)
            continue
        fault = fault_of([*words, given.program])
        counts.judge(name, partial(must, not fault, fault))
    return counts.end()
