"""Texts on which typography and paragraphs are compared with WordPress's own functions.

It is a module, and runs nothing by itself. `python3` calls nothing of it: tests/from_wordpress/run and record do.
"""

import json
import random
import subprocess
from collections.abc import Iterator
from pathlib import Path

from geanmarbles.paths import TESTS

HERE = TESTS / "from_wordpress"
PHRASES = (
    'She said "hello". ',
    "It's a 'test' of things. ",
    "The '90s were 'great', weren't they? ",
    "A 6\" pipe, 5' long. ",
    '("quoted") ',
    "\"A 'nested' quote,\" he said -- and left. ",
    "rock 'n' roll ",
    '<em>"x"</em> ',
    '<a href="#">don\'t</a> ',
    "dogs' tails ",
    '"Is it 9"? ',
    "1-2 - 3 ",
    "wait... ",
    "4x4 ",
    "R&D ",
    '<strong>"Bold"</strong>, "plain" ',
    "'quote' ",
    '"<em>x</em>" ',
    'word"s ',
    '\n\n"New" line\n',
    "Smith's \"big\" 3'x4' table ",
    '"9 lives" ',
    "the class of '09 ",
    "it’s “fine” ",
    "AT&amp;T &nbsp; ",
    "(tm) x (tm) ",
    '<code>"kept" -- it\'s</code> ',
    "<pre>'as is'</pre> ",
    "[caption x=\"1\" y='2'] ",
    "--- and -- ",
    "xn--p1ai ",
    '<!-- it\'s "kept" --> ',
    "'tis the season ",
    "``old'' quotes ",
    "10,000x20 ",
    '&#8220; &lt; "x" ',
    '[sic, it\'s "so"] ',
)
BLOCKS = (
    "A line of text.\n",
    "Some <em>text</em> here.\n\n",
    "Two\nlines\n\n",
    "<h2>Heading</h2>\n",
    "<ul>\n\t<li>one</li>\n\t<li>two</li>\n</ul>\n",
    "<blockquote>Quoted text.</blockquote>\n",
    "<blockquote>Quoted.\n\nMore.</blockquote>\n\n",
    '<img src="a.jpg" alt="" />\n\n',
    '<div class="x">In a div</div>\n',
    "<div>\n\nBlank\n\n</div>\n",
    "<pre>code\n\nmore</pre>\n",
    "<hr />\n",
    "<p>Own paragraph</p>\n",
    "<p>Own</p>\n\n",
    "<strong>Bold</strong>\n",
    '<a href="/x"><img src="b.jpg" /></a>\n',
    "<table>\n<tbody>\n<tr>\n<td>a</td>\n<td>b\nc</td>\n</tr>\n</tbody>\n</table>\n",
    "<h3>H</h3>\nText after.\n\n",
    "Text<br />\nbroken\n",
    "&nbsp;\n\n",
    "<div>\ntext\nmore\n</div>\n",
    "<blockquote>\n<p>Para</p>\n</blockquote>\n",
    '<span style="x">Span</span> text\n\n',
    '<iframe src="x"></iframe>\n\n',
    "one<br /><br />two\n",
    "\r\nWindows\r\n\r\nlines\r\n",
    "<ol>\n<li>x\n\ny</li>\n</ol>\n",
    "<!-- a comment -->\n\n",
    "<section>\n<p>x</p>\n</section>\n",
    '<p style="x">Styled\n\nsplit</p>\n',
)
PARTS = {"wptexturize": (PHRASES, 5), "wpautop": (BLOCKS, 5)}


def cases(chance: random.Random, count: int) -> Iterator[tuple[str, str]]:
    """Each text alone, and then random rows of them."""
    for function, (parts, _) in PARTS.items():
        yield from ((function, it) for it in parts)
    for _ in range(count):
        function = chance.choice(list(PARTS))
        parts, most = PARTS[function]
        yield function, "".join(chance.choice(parts) for _ in range(chance.randint(2, most)))


def by_wordpress(wordpress: Path, asked: list[tuple[str, str]]) -> list[str]:
    """What WordPress's own functions make of some texts."""
    given = "".join(json.dumps(it) + "\n" for it in asked).encode()
    words = ["php", str(HERE / "whole" / "texts.php"), str(wordpress)]
    ran = subprocess.run(words, input=given, capture_output=True, timeout=300, check=True)
    return [json.loads(it) for it in ran.stdout.splitlines()]
