"""What the scripts of this folder know of programs: which one they run, and how C is loaded into it."""

import os
import shutil
import subprocess
import sys
from pathlib import Path
from typing import Any

from geanmarbles.repository import shipped
from geanmarbles.arguments import Parser
from geanmarbles.checks.judging import Skipped


def missing(program: str | Path) -> str | None:
    """What to say if there is no program at a path, or None if there is one."""
    is_there = os.path.isfile(program) and os.access(program, os.X_OK)
    return None if is_there else f"there is no program at {program}; ./build builds it"


def parser_of(doc: str | None) -> Parser:
    """The command line of a script that runs over a program, whose help is the script's own documentation."""
    parser = Parser(doc)
    how: dict[str, Any] = {"nargs": "?", "type": os.path.abspath, "default": str(shipped.program())}
    parser.add_argument("program", metavar="PROGRAM", help="the built program, `site`", **how)
    return parser


# Answers as `rt try` does, by a built program, and writes what it was called with to a file beside it.
TRIED = """#!/usr/bin/env python3
import subprocess, sys
from pathlib import Path

words = sys.argv[1:]
with Path(__file__).with_suffix(".log").open("a") as log:
    print(*words, file=log)
if words[:2] == ["try", "--"]:
    sys.exit(subprocess.run([{program!r}, *words[2:]]).returncode)
folder = Path(words[words.index("--cases") + 1])
for case in sorted(it for it in folder.iterdir() if it.suffix != ".args"):
    args = case.with_suffix(".args")
    given = args.read_text().splitlines() if args.exists() else []
    ran = subprocess.run([{program!r}, *given], input=case.read_bytes(), capture_output=True)
    sys.stdout.buffer.write(b"== " + case.name.encode() + b"\\n" + ran.stdout)
    print(f"case={{case.name}} run=ended status={{ran.returncode}} runners=1 proved=no", file=sys.stderr)
"""


# A command of a shell that writes each line that it reads, at once, with one text in the place of another.
REPLACED = (
    "python3 -uc 'import sys; [sys.stdout.buffer.write(it.replace(*map(str.encode, sys.argv[1:])))"
    " for it in sys.stdin.buffer]'"
)


def executable(folder: str | Path, name: str, text: str) -> Path:
    """A script in a folder that can be run."""
    path = Path(folder, name)
    path.write_text(text, encoding="utf-8")
    path.chmod(0o755)
    return path


def without_toolchain(folder: str | Path) -> dict[str, str]:
    """The environment in which the few commands that scripts here use are found, and the command `rt` isn't."""
    Path(folder, "python3").symlink_to(sys.executable)
    for name in ("sh", "cat", "cp", "dirname", "git", "mkdir", "readlink"):
        found = shutil.which(name)
        if found:
            Path(folder, name).symlink_to(found)
    return {**os.environ, "PATH": str(folder)}


def with_toolchain(folder: str | Path, program: str | Path) -> dict[str, str]:
    """The environment in which the command `rt` is a script that runs a built program."""
    executable(folder, "rt", TRIED.format(program=str(program)))
    return {**os.environ, "PATH": f"{folder}:{os.environ['PATH']}"}


# What compiles a file of C, by the first of these names that is on the PATH.
COMPILERS = ("cc", "gcc", "clang")
# In the environment of a part of `./test`: how many processors it has, since others run beside it.
LANES = "TEST_LANES"


def lanes() -> int:
    """How many runs a script makes at once."""
    return int(os.environ.get(LANES) or os.cpu_count() or 1)


def compiler() -> str | None:
    """The C compiler that is here, or None."""
    return next(filter(None, map(shutil.which, COMPILERS)), None)


def compiled(source: Path, folder: Path) -> Path:
    """A file of C as a library that can be loaded before the C library. It names no function that isn't declared in the
    file, so neither headers nor libraries are needed."""
    found = compiler()
    if found is None:
        raise Skipped(f"there is no C compiler on the PATH ({', '.join(COMPILERS)}) for {source.name}")
    made = folder / f"{source.stem}.so"
    words = ["-O2", "-fno-builtin", "-shared", "-fPIC", "-nostdlib", "-o", str(made), str(source)]
    subprocess.run([found, *words], check=True)
    return made
