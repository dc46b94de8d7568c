"""The parts of `./test`, as tests/parts.txt lists them, and what is here of what they need."""

from __future__ import annotations

import os
import re
import shutil
import subprocess
from collections.abc import Callable
from pathlib import Path
from typing import NamedTuple

from geanmarbles.checks.programs import compiler
from geanmarbles.checks import reach
from geanmarbles.paths import BUILT_PASSES, TESTS

PARTS = TESTS / "parts.txt"
KINDS = {"rows": "rows", "checks": "checks of scripts and program"}
# Where commands are, those of an administrator too.
PATH = f"{os.environ.get('PATH', os.defpath)}:/usr/sbin:/sbin"
WORDPRESS = Path("/usr/share/wordpress/wp-includes/plugin.php")
# A part with this mark runs while no other does.
ALONE = "alone"


class Part(NamedTuple):
    """A part: its kind, how many seconds it takes, what it needs besides Python, and its command."""

    kind: str
    seconds: float
    needs: tuple[str, ...]
    words: tuple[str, ...]

    def __str__(self) -> str:
        return " ".join(it for it in self.words if it[0] != "{")

    def has(self, words: str) -> bool:
        """Whether its command has some words, whole."""
        return re.search(rf"(?<!\w){re.escape(words)}(?!\w)", str(self)) is not None

    def is_base(self) -> bool:
        """Whether it needs nothing that people's machines don't have."""
        return set(self.needs) <= {ALONE, "cc", "git"}

    def lacks(self) -> dict[str, str]:
        """What isn't here of what it needs, with why not."""
        return {need: why for need in self.needs if need != ALONE and (why := NEEDS[need]())}


def on_the_path(*names: str) -> Callable[[], str | None]:
    """What finds that some commands aren't here."""

    def found() -> str | None:
        missing = [it for it in names if not shutil.which(it, path=PATH)]
        return f"there is no {' and no '.join(missing)} on the PATH" if missing else None

    return found


def built(program: Path, what: str) -> Callable[[], str | None]:
    return lambda: None if program.is_file() else f"{what} isn't built"


def h11() -> str | None:
    """The module is asked for where Debian's Python has it, too."""
    found = [it for it in ("python3", "/usr/bin/python3") if shutil.which(it)]
    has = any(subprocess.run([it, "-c", "import h11"], capture_output=True).returncode == 0 for it in found)
    return None if has else "there is no h11 here (Debian: python3-h11)"


# What a part may need, with what says why it isn't here.
NEEDS: dict[str, Callable[[], str | None]] = {
    "cc": lambda: None if compiler() else "there is no C compiler on the PATH",
    "git": on_the_path("git"),
    "test_bench": built(BUILT_PASSES, "the program test_bench"),
    "toolchain": built(reach.PROGRAM, "what the toolchain's gate leaves of site"),
    "etcd": on_the_path("etcd", "etcdctl"),
    "php": on_the_path("php"),
    "wordpress": lambda: None if WORDPRESS.is_file() else "there is no WordPress in /usr/share/wordpress",
    "h11": h11,
    **{it: on_the_path(it) for it in ("valgrind", "strace", "nginx", "haproxy", "curl")},
}


def parts_of(text: str) -> list[Part]:
    """The parts that a text lists: of each line the kind, the seconds, the needs and the command."""
    found = []
    for line in text.splitlines():
        if line.strip() and not line.startswith("#"):
            kind, seconds, needs, *words = line.split()
            wanted = () if needs == "-" else tuple(needs.split(","))
            if kind not in KINDS or not words or not set(wanted) <= {*NEEDS, ALONE}:
                raise ValueError(f"this lists no part: {line}")
            found.append(Part(kind, float(seconds), wanted, tuple(words)))
    return found


def all_parts() -> list[Part]:
    return parts_of(PARTS.read_text(encoding="utf-8"))
