"""The commands by their names: `geanmarbles` and its table, and the other scripts of the repository."""

import os
import sys
from importlib import import_module
from typing import NoReturn

from geanmarbles.output import quiet_output
from geanmarbles.paths import IS_CHECKOUT

CHECKOUT = "In a checkout of the repository"
# The commands of `geanmarbles` in groups: the function of each, which is `main` if none is named, and what it does.
GROUPS = {
    "A site": {
        "serve": ("commands.serve", "serves a site to browsers"),
        "browse": ("commands.browse", "shows a site on this machine, and which callbacks ran; takes edits over HTTP"),
        "post": ("commands.post", "list, get, set, new: posts as files with a head"),
        "option": ("commands.settings:option", "list, get, set: the options of a site"),
        "plugin": ("commands.settings:plugin", "list, activate, deactivate: the active plugins of a site"),
        "history": ("commands.history", "shows each version that a post has had"),
        "undo": ("commands.undo", "writes a site without its last edits into a new file"),
        "site": ("repository.site", "runs the program itself: lines of JSON in, replies and pages out"),
    },
    "A site in a file": {
        "check": ("commands.file:check", "says how many edits the file has, and their digest"),
        "export": ("commands.file:export", "prints short lines that make the site"),
        "compact": ("commands.file:compact", "puts such lines in the place of the file's history"),
        "backup": ("commands.backup", "copies the file, also while a program serves it"),
        "salvage": ("commands.salvage", "saves the sound edits of a damaged file"),
    },
    "From WordPress": {
        "import wordpress": ("commands.from_wordpress", "makes lines of an export of WordPress"),
        "publish": ("commands.publish", "writes such a site as files for any web server, at its old addresses"),
    },
    "Looking closer": {
        "snippet list": ("commands.snippets:listed", "prints where each snippet runs, and its template"),
        "snippet check": ("commands.snippets:checked", "says what is wrong with the snippets of a site"),
        "refusals": ("commands.refusals", "says why lines are refused, and what nothing reads in them"),
        "explain": ("commands.explain", "shows which callbacks ran, by a log of the program"),
        "step": ("commands.step", "goes through a page, one callback at a time"),
    },
    "Several machines": {
        "node": ("cluster.node", "serves one site beside other nodes, over etcd"),
    },
    CHECKOUT: {
        "cluster three": ("commands.three", "starts three nodes and three etcd on this machine, to look at"),
        "new-plugin": ("repository.new_plugin", "makes a plugin's crates from an example, or takes them away"),
        "dev index": ("repository.index:print_index", "prints an index from rules to definitions and proofs"),
        "dev theorem": ("repository.index", "makes docs/THEOREM.md and a part of docs/ARCHITECTURE.md"),
        "dev titles": ("repository.titles", "checks the titles of new commits"),
        "dev release-program": ("repository.release_program", "ships the program that is built"),
        "dev bench cases": ("benches.run", "times cases of lines, pages, imports and texts"),
        "dev bench cluster": ("benches.cluster", "measures nodes over etcd"),
        "dev bench database": ("benches.database", "times starts and edits of sites in a file"),
        "dev bench gate": ("benches.gate", "says what the whole proof costs"),
        "dev bench http": ("benches.http", "times pages over HTTP"),
        "dev bench instructions": ("benches.instructions", "counts instructions by valgrind"),
        "dev bench wordpress": ("benches.wordpress", "times the program beside WordPress's own functions"),
    },
}
COMMANDS = {name: found for group in GROUPS.values() for name, found in group.items()}
# What scripts of their own run, by their paths in the checkout, and what other commands run as processes of their own.
SCRIPTS = {
    "build": "repository.build",
    "prove": "checks.prove",
    "site": "repository.site",
    "test": "checks.parts_run",
    "tests/bench/run": "checks.bench",
    "tests/browse/run": "checks.browse.run",
    "tests/cluster/run": "checks.cluster.run",
    "tests/cost/run": "checks.cost",
    "tests/database/run": "checks.database.run",
    "tests/ends/run": "checks.ends",
    "tests/from_wordpress/record": "checks.from_wordpress.record",
    "tests/from_wordpress/run": "checks.from_wordpress.run",
    "tests/fuzz/run": "checks.fuzz.run",
    "tests/hostile/run": "checks.hostile.run",
    "tests/http/run": "checks.over_http",
    "tests/left_files/run": "checks.left_files",
    "tests/links/run": "checks.links.run",
    "tests/memory/run": "checks.memory",
    "tests/pump/run": "checks.pump.run",
    "tests/reach/run": "checks.reach",
    "tests/refusals/run": "checks.refusals",
    "tests/rows/run": "checks.rows",
    "tests/scripts/run": "checks.scripts",
    "tests/snippets/run": "checks.snippets",
    "tests/trace/run": "checks.trace",
    "tests/units/run": "checks.units.run",
    "tests/wordpress/run": "checks.wordpress",
    "tests/wrong_bodies/run": "checks.wrong_bodies.run",
    "bench/cluster/asking": "benches.asking",
    "tests/database/disks": "checks.database.disks",
    "tests/pump/strict": "checks.pump.strict",
    "tests/refusals/warm": "checks.warm",
}


def table(begin: str) -> str:
    """The commands whose names begin with some words, in their groups, one a line."""
    lines = [f"usage: {sys.argv[0]} COMMAND ..; COMMAND --help says what each takes"]
    for title, group in GROUPS.items():
        named = [f"  {name:22}  {what}" for name, (_, what) in group.items() if f"{name} ".startswith(begin)]
        lines += ["", f"{title}:", *named] if named else []
    return "\n".join(lines)


def end(why: str) -> NoReturn:
    print(f"geanmarbles: {why}", file=sys.stderr)
    sys.exit(2)


def chosen() -> str:
    """The function of the command that the arguments begin with, whose words go over to the script's name."""
    typed, *words = sys.argv
    for count in (3, 2, 1):
        name = " ".join(words[:count])
        if name in COMMANDS:
            if name in GROUPS[CHECKOUT] and not IS_CHECKOUT:
                end(f"{name} needs a checkout of the repository")
            sys.argv = [f"{typed} {name}", *words[count:]]
            return COMMANDS[name][0]
    if words and words[-1] in ("--help", "-h"):
        print(table("".join(f"{it} " for it in words[:-1])))
        sys.exit()
    end(
        f"{' '.join(words[:2])} is no command; --help lists them"
        if words
        else "a command is missing; --help lists them"
    )


def run(script: str) -> NoReturn:
    """Runs the command of a script; `sys.argv` has the script as it was typed, and the arguments."""
    with quiet_output():
        module, _, function = (chosen() if script == "geanmarbles" else SCRIPTS[script]).partition(":")
        sys.exit(getattr(import_module(f"geanmarbles.{module}"), function or "main")())


def main() -> NoReturn:
    """What an installed package has on the PATH."""
    sys.argv[0] = os.path.basename(sys.argv[0])
    run("geanmarbles")
