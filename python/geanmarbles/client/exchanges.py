"""Makes exchanges: lines of commands, and what the program replies to them."""

from __future__ import annotations

import json
from collections.abc import Iterable

DATE = "2024-05-01 10:00:00"
NOTHING = "<p>Nothing found.</p>"
# A content of 3 KB with 14 shortcodes, as a post may have, and what the plugin `bold` makes of it.
WORDS = "Some words of a post that a reader takes for real ones, and then " * 3
ARTICLE = "".join(f"{WORDS}[b]word {number:02}[/b] " for number in range(14))
BOLD_ARTICLE = ARTICLE.replace("[b]", "<b>").replace("[/b]", "</b>")
# What a line that asks for a page begins with.
ASKS = '{"cmd":"get"'
# How many posts a page shows; and how many a month of 28 days has if they are dated one an hour.
SHOWN, MONTH = 10, 28 * 24


def apart(line: str, number: int) -> str:
    """A line that means the same, and differs from those of other numbers by spaces and tabs at its end. The program
    keeps pages by the lines that asked for them, so a page is printed again only if another line asks for it."""
    return line + f"{number:b}".translate({48: " ", 49: "\t"})


class Exchange:
    """Lines, and the replies to them. Exchanges are added one after the other, and repeated by a factor: then no two
    requests for pages are the same line. `again` has them so."""

    def __init__(self, lines: str = "", replies: str = "") -> None:
        self.lines, self.replies = lines, replies

    def __add__(self, other: Exchange) -> Exchange:
        return Exchange(self.lines + other.lines, self.replies + other.replies)

    def __mul__(self, times: int) -> Exchange:
        if ASKS not in self.lines:
            return self.again(times)
        return Exchange("".join(map(self.numbered, range(times))), self.replies * times)

    def again(self, times: int) -> Exchange:
        """The same lines a number of times."""
        return Exchange(self.lines * times, self.replies * times)

    def numbered(self, number: int) -> str:
        """The lines, of which those that ask for pages differ from the same of another number."""
        lines = self.lines.split("\n")
        return "\n".join(apart(it, number) if it.startswith(ASKS) else it for it in lines)


def joined(exchanges: Iterable[Exchange]) -> Exchange:
    """All of some exchanges, one after the other."""
    listed = list(exchanges)
    return Exchange("".join(it.lines for it in listed), "".join(it.replies for it in listed))


def line(cmd: str, **keys: object) -> str:
    return json.dumps({"cmd": cmd, **keys}, ensure_ascii=False, separators=(",", ":")) + "\n"


def done(cmd: str, **keys: object) -> Exchange:
    """A command that is replied to by `ok` alone."""
    return Exchange(line(cmd, **keys), "ok\n")


def activate(*plugins: str) -> Exchange:
    return joined(done("activate", plugin=it) for it in plugins)


# A command after which what paths found is read anew, since the option may decide it; and one after which it is kept.
CHANGE = done("option", name="page_on_front", value="")
UNSEEN = done("option", name="unseen", value="")


def put(number: int, content: str = "", title: str = "", date: str = DATE, **more: object) -> Exchange:
    """Stores a post, which gets this number; `more` are other keys of it."""
    return Exchange(line("put", title=title, content=content, date=date, **more), f"ok {number}\n")


def dated(number: int, content: str) -> Exchange:
    """Stores a post that has its number, counted from 1, in its title, and is an hour younger than the one before."""
    month, hour = divmod(number - 1, MONTH)
    day, hour = divmod(hour, 24)
    date = f"{2020 + month // 12}-{1 + month % 12:02}-{1 + day:02} {hour:02}:00:00"
    return put(number, content, f"Post {number}", date)


def part(newest: int, number: int) -> range:
    """The posts of a part of a list whose newest post is this, in the order in which they are shown."""
    first = newest - (number - 1) * SHOWN
    return range(first, max(first - SHOWN, 0), -1)


def get(path: str = "/", body: str = "", status: int = 200, **more: object) -> Exchange:
    """Asks for a page of this body; `more` are keys that the command ignores."""
    return Exchange(line("get", path=path, **more), f"page {status} {len(body.encode())}\n{body}\n")


def shown(content: str, title: str = "") -> str:
    """What the default template prints of a post."""
    return f"<h2>{title}</h2>{content}"
