"""Runs checks that are functions, by pytest if it is installed, and else by a loop of its own.

The checks of a module are its functions whose names begin with `test_`, and those that are in its list CHECKS. A check
that returns has passed, and one that raises something has failed. pytest is that of the Python which runs this, or the
command `pytest-3` or `pytest`, as Debian's package python3-pytest has it. Whichever runs them, the last line is 'N
passed, M failed', with ', K skipped' after it if a check was skipped.
"""

from __future__ import annotations

import os
import shutil
import subprocess
import sys
from collections.abc import Iterable, Iterator, Sequence
from importlib import import_module
from importlib.util import find_spec
from pathlib import Path
from types import ModuleType

from geanmarbles.arguments import Parser
from geanmarbles.checks.judging import Check, Counts
from geanmarbles.paths import ROOT


def is_check(module: ModuleType, name: str, found: object) -> bool:
    """Whether what a module has under a name is a check of its own."""
    listed = found in getattr(module, "CHECKS", ()) and getattr(found, "__module__", "") == module.__name__
    return callable(found) and (listed or name.startswith("test_"))


def checks_of(modules: Iterable[str], only: Sequence[str]) -> Iterator[tuple[str, Check]]:
    """The checks of some modules whose names have one of some texts, or all if there is no text."""
    for name in modules:
        module = import_module(name)
        for function, found in list(vars(module).items()):
            full = f"{name.rpartition('.')[2]}::{function}"
            if is_check(module, function, found) and (not only or any(it in full for it in only)):
                yield full, found


def pytest_words() -> list[str] | None:
    """The words that begin pytest, or None if it isn't installed."""
    if find_spec("pytest"):
        return [sys.executable, "-m", "pytest"]
    for name in ("pytest-3", "pytest"):
        found = shutil.which(name)
        if found and subprocess.run([found, "--version"], capture_output=True).returncode == 0:
            return [found]
    return None


def run_by_pytest(words: Sequence[str], modules: Iterable[str], only: Sequence[str]) -> int:
    """Runs the checks by pytest, whose last line is written by `closing_line.py`."""
    files = [str(Path(ROOT, "python", *it.split(".")).with_suffix(".py")) for it in modules]
    chosen = ["-k", " or ".join(only)] if only else []
    env = {**os.environ, "PYTHONDONTWRITEBYTECODE": "1"}
    sys.stdout.flush()
    ran = subprocess.run([*words, "-q", "-rs", "--tb=short", *chosen, *files], cwd=ROOT, env=env)
    return 0 if ran.returncode == 0 else 1


def run_by_itself(modules: Iterable[str], only: Sequence[str]) -> int:
    """Runs the checks one after another."""
    counts = Counts()
    for name, check in checks_of(modules, only):
        counts.judge(f"{name}: {check.__doc__ or ''}", check)
    return counts.end()


def main_of(doc: str | None, modules: Sequence[str]) -> int:
    """The `main` of a command that runs the checks of some modules."""
    parser = Parser(doc)
    parser.add_argument("only", metavar="NAME", nargs="*", help="run the checks whose names have this, of all")
    parser.add_argument("--plain", action="store_true", help="run them without pytest, also if it is installed")
    asked = parser.parse_args()
    words = None if asked.plain else pytest_words()
    if words:
        return run_by_pytest(words, modules, asked.only)
    if not asked.plain:
        print("there is no pytest (Debian: python3-pytest), so the checks are run by a loop", flush=True)
    return run_by_itself(modules, asked.only)
