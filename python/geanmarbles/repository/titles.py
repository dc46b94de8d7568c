"""Checks that the titles of new commits are short.

    geanmarbles dev titles

Each commit of HEAD that origin doesn't have yet, or the last one if origin has them all or isn't known, has a title of
at most 72 characters. Older ones may be longer, and those of merges are made by git. The titles that are too long are
printed, and the exit status is then 1.
"""

import subprocess

from geanmarbles.arguments import Parser
from geanmarbles.paths import ROOT

LONGEST = 72


def git(*words: str) -> list[str]:
    """The lines that git writes; none if it refuses."""
    ran = subprocess.run(["git", *words], cwd=ROOT, capture_output=True, text=True, encoding="utf-8")
    return ran.stdout.splitlines()


def titles(*commits: str) -> list[list[str]]:
    """The titles of these commits, each after a short name of the commit."""
    return [it.split(" ", 1) for it in git("log", "--no-merges", "--format=%h %s", *commits, "--")]


def main() -> int:
    parser = Parser(__doc__)
    parser.parse_args()
    is_known = git("for-each-ref", "--count=1", "refs/remotes/origin")
    new = titles("HEAD", "--not", "--remotes=origin") if is_known else []
    too_long = [(commit, title) for commit, title in new or titles("-1", "HEAD") if len(title) > LONGEST]
    for commit, title in too_long:
        print(f"titles: {commit} has a title of {len(title)} characters, and not at most {LONGEST}: {title}")
    return 1 if too_long else 0
