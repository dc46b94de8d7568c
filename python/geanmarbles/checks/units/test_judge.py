"""The number under which refusals are recorded, and the rules that it stands for."""

import ast
import hashlib
import sys
from pathlib import Path

from geanmarbles.checks import wrong_bodies
from geanmarbles.checks.judging import Skipped
from geanmarbles.checks.wrong_bodies.record import JUDGE

JUDGES = ("checks.py", "edits.py", "refusals.py", "rounds.py")
# The sum of the rules of each number. Of another tree JUDGE is raised, and a line is added here.
RULES = {2: "97455325ab6373bcff4f94e7ade1d6c050a2da6e0a54f26da1e6f2858c0ea29f"}


def rules_of(name: str) -> str:
    """The syntax tree of a module, without its documentation."""
    tree = ast.parse(Path(next(iter(wrong_bodies.__path__)), name).read_text(encoding="utf-8"))
    for node in ast.walk(tree):
        if isinstance(node, (ast.Module, ast.ClassDef, ast.FunctionDef)) and ast.get_docstring(node, clean=False):
            del node.body[0]
    return ast.dump(tree)


def test_the_number_of_the_rules_is_raised_with_them() -> None:
    """Refusals rest on JUDGE, so no change of these files may leave the number as it is."""
    if sys.version_info[:2] != (3, 11):
        raise Skipped("the syntax trees are compared as Python 3.11 has them")
    found = hashlib.sha256("".join(rules_of(it) for it in JUDGES).encode()).hexdigest()
    assert RULES[JUDGE] == found, f"what counts as a refusal has changed: raise JUDGE, whose sum is now {found}"
