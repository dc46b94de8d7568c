"""Whether a page's paragraphs are filled, and the words of its glossary are each there once."""

import re
from itertools import pairwise
from pathlib import Path

from geanmarbles.checks.links.reading import BEHAVIOUR, FENCE, Checks, cells_of

LONGEST = 120
# A line that ends before this column, although the next word has room before the other one, was cut by a change.
SHORT, ROOM = 104, 110
# Lines that aren't text: rows, headings, markup, and those that keep their end or begin an item.
APART = re.compile(r"\||#|<|    |$|\[.* ·$|!\[")
ITEM = re.compile(r" *(?:- |\d+\. )")
WORD = re.compile(r"(?:`[^`]*`|\S)+")


def check_layout(checks: Checks, page: Path) -> None:
    """No line of text is longer than may be, and none ends in the middle of a paragraph's line."""
    lines = FENCE.sub(lambda fence: "\n" * fence[0].count("\n"), page.read_text(encoding="utf-8")).splitlines()
    for number, line in enumerate(lines, 1):
        well = len(line) <= LONGEST or APART.match(line) or " " not in line[:LONGEST].strip()
        checks.check(well, page, f"line {number} has {len(line)} columns, and not at most {LONGEST}")
    for number, (line, after) in enumerate(pairwise(lines), 1):
        word = WORD.match(after.strip())
        if word and not APART.match(line) and not APART.match(after) and not ITEM.match(after):
            well = len(line) > SHORT or len(line) + 1 + len(word[0]) > ROOM or line.endswith(("·", "  "))
            checks.check(well, page, f"line {number} ends early: {line[-30:]}")


def check_glossary(checks: Checks) -> None:
    """Each word of the glossary is in one row of its tables."""
    text = BEHAVIOUR.read_text(encoding="utf-8").partition("\n# Glossary\n")[2].partition("\n# ")[0]
    words = [word for line in text.splitlines() if line.startswith("|") for word in cells_of(line)[0].split(", ")]
    for word in sorted(set(words) - {"Word", "---"}):
        checks.check(words.count(word) == 1, BEHAVIOUR, f"the glossary has {word} in {words.count(word)} rows")
