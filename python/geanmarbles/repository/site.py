"""Runs the program `site`: the one that was built here if no source has changed since, else the one that is shipped.

    ./site [--exact] [--calls N] [--cache N] [--trace] [--database FILE] < COMMANDS
    ./site [--exact] --http [--framed] [--token-file FILE] [--calls N] [--cache N] [--trace] [--database FILE]
    ./site [--exact] --database FILE --export | --compact | --check
    ./site --help | --version

Each line of standard input is a JSON command, and each gets a reply on standard output (docs/BEHAVIOUR.md).

    --calls N        how many callbacks a page may call, 1 to 100000 [default: 10000]
    --cache N        how many texts are kept with their shortcodes found, 1 to 4096 [default: 64]
    --trace          tells on standard error which callbacks run; geanmarbles explain shows it as trees
    --database FILE  keeps the site in this SQLite database, which is made if it isn't there
    --export         prints lines that make the file's site, and serves nothing
    --compact        puts such lines in the place of the file's history, and serves nothing
    --check          says how many edits the file has and their digest, and serves nothing
    --must-exist     refuses a file that isn't there or is empty, in place of making it
    --without-wal    takes a file that has no FILE-wal beside it, which is else refused
    --http           serves one client of HTTP on standard input and output, in place of lines
    --framed         with --http, serves many clients, on one stream of frames
    --token-file FILE  takes edits over HTTP from whoever sends the token in this file
    --exact          refuses a shipped program whose sources aren't those of this checkout

The shipped program is unpacked once, into out/shipped, or if that can't be written into the user's cache folder, and
its sum is compared with release/manifest.json. If the checkout's sources aren't those that it was built from, a line on
standard error says so, as it was found then; with the toolchain on the PATH, or --exact, they are looked at in each
run. Nothing is built here: ./build does that.

The exit status is the program's, which is 2 after bad arguments, or 3 if there is no program to run, if the one that is
shipped is damaged or not for this machine, or if --exact refuses it.
"""

import os
import shutil
import sys
from pathlib import Path
from typing import NoReturn

from geanmarbles.output import quiet_output
from geanmarbles.paths import BUILT_PROGRAM
from geanmarbles.repository.built import is_built, is_current
from geanmarbles.repository.shipped import (
    NotShipped,
    line_of,
    look_again,
    read_manifest,
    told,
    unpacked,
)

NOT_RUN = 3


def say(text: str) -> None:
    print(f"site: {text}", file=sys.stderr, flush=True)


def version() -> str:
    """What `--version` prints: the version, the commit, the program's sum, and of which sources it is."""
    if is_built() and is_current():
        return f"Geanmarbles, {told(BUILT_PROGRAM)}"
    manifest = read_manifest()
    look_again(manifest)
    said = f"Geanmarbles {manifest.version}, commit {manifest.commit}, sum {manifest.sum}"
    return f"{said}\n{told(unpacked(manifest).program)}"


def run(program: Path, words: list[str]) -> NoReturn:
    try:
        os.execv(program, [str(program), *words])
    except OSError as fault:
        raise NotShipped(f"{program}: {fault.strerror}") from fault


def run_shipped(words: list[str], is_exact: bool) -> int:
    """Runs the shipped program; returns a status only if it isn't run."""
    manifest, has_toolchain = read_manifest(), shutil.which("rt") is not None
    # Who has the toolchain edits sources, so they are looked at in each run; else what was found is repeated.
    is_looked_at = is_exact or has_toolchain
    line = line_of(manifest, look_again(manifest)) if is_looked_at else unpacked(manifest).note.read_text().strip()
    if line:
        say(line + ("; ./build proves and builds these" if has_toolchain else ""))
        if is_exact:
            return NOT_RUN
    run(unpacked(manifest).program, words)


@quiet_output()
def main() -> int:
    words = sys.argv[1:]
    try:
        if "--help" in words or "-h" in words:
            print((__doc__ or "").strip())
        elif "--version" in words:
            print(version())
        else:
            is_exact = "--exact" in words
            words = [it for it in words if it != "--exact"]
            if is_built() and is_current():
                run(BUILT_PROGRAM, words)
            return run_shipped(words, is_exact)
    except NotShipped as fault:
        say(str(fault))
        return NOT_RUN
    return 0
