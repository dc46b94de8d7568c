"""What a log of `site --trace` also tells: which texts a filter left as they were, and which shortcodes nobody had.

It says only what follows from the log: nothing of a page whose lines aren't all there, and nothing of a text that the
log cuts, unless the lines that the program read have it.
"""

import re
from collections.abc import Iterable
from typing import Any, NamedTuple

from geanmarbles.client.log import Page, Part, Pass, Run
from geanmarbles.client.rules import Refused, Site

# What begins as a shortcode does, and what after its name makes the name live if a plugin has it (docs/BEHAVIOUR.md,
# Matches and Live names).
OPENED = re.compile(r"\[(\[?)([A-Za-z0-9_-]{1,64})(?![A-Za-z0-9_-])")
LIVE = re.compile(r"[<>&/\[\]=\x00-\x20]")
# How many names a note lists.
LISTED = 8


class Found(NamedTuple):
    """What a text has: the names that no plugin had, and whether all of the text is as it was."""

    names: list[str]
    is_left: bool


def end_of_match(text: str, name: str, closed: int) -> tuple[int, bool]:
    """Where a match ends whose opening tag has its `]` at a place, and whether a further `]` belongs to it."""
    at = closed + 1
    closing = f"[/{name}]"
    if text[closed - 1] != "/" and (place := text.find(closing, at)) >= 0:
        at = place + len(closing)
    has_extra = text.startswith("]", at)
    return at + has_extra, has_extra


def found_in(text: str, ran: set[str], changed: set[str]) -> Found:
    """What a text has in which handlers of some names ran. Of names that were added or removed meanwhile it isn't known
    whether they were matched, so the search ends at them; and so it does at an escape of an unknown name, if there is
    more in it."""
    names: dict[str, None] = {}
    at, closed, is_left = 0, -1, not ran
    while opened := OPENED.search(text, at):
        name, after = opened[2], opened.end()
        closed = text.find("]", after) if closed < after else closed
        if closed < 0:
            break
        if name not in ran and name in changed:
            return Found(list(names), False)
        end, has_extra = end_of_match(text, name, closed) if name in ran or opened[1] else (after, False)
        if name in ran:
            at = end
        elif opened[1] and has_extra:
            # (whether it lost its outer brackets isn't known)
            if re.search(r"\[(?!/)", text[after:end]):
                return Found(list(names), False)
            at, is_left = end, False
        else:
            at = after
            if LIVE.match(text, after):
                names[name] = None
    return Found(list(names), is_left)


class Inputs:
    """The contents that each post has had, by the lines that the program read."""

    def __init__(self, lines: Iterable[bytes] = ()) -> None:
        self.contents: dict[int, set[str]] = {}
        site = Site()
        for line in lines:
            try:
                keys = site.command(line)
            except Refused:
                continue
            if keys["cmd"] == "put":
                self.add(site.largest, keys)
            elif keys["cmd"] == "edit":
                self.add(keys["id"], keys)
            elif keys["cmd"] == "import":
                for post in keys["site"].get("posts", []):
                    self.add(post["id"], post)

    def add(self, number: int, keys: dict[str, Any]) -> None:
        if "content" in keys:
            self.contents.setdefault(number, set()).add(keys["content"])

    def whole(self, value: object, post: int | None) -> str | None:
        """The text that the log has as a value, or None if it is cut and not known."""
        if isinstance(value, str) or not isinstance(value, dict) or post is None:
            return value if isinstance(value, str) else None
        same = [
            it
            for it in self.contents.get(post, ())
            if it.startswith(value["cut"]) and len(it.encode()) == value["bytes"]
        ]
        return same[0] if len(same) == 1 else None


class Notes:
    """What is noted of one page."""

    def __init__(self, page: Page, inputs: Inputs) -> None:
        self.inputs = inputs
        end = page.end or {}
        self.is_whole = "status" in end and end["invocations"] == len(page.lines)
        changes = [it for line in page.lines for it in line.get("changes", [])]
        # The tags that the page's callbacks added or removed; after `remove_all_shortcodes` none is known.
        self.changed = {it["tag"] for change in changes for it in change.values() if "tag" in it}
        self.is_whole &= not any("remove_all_shortcodes" in it for it in changes)

    def received(self, run: Run, is_first: bool) -> str | None:
        """The text that core's callback received, or None if it isn't known."""
        line = run.first()
        args = line.get("args", [])
        post = line.get("post") if is_first and line["depth"] == 0 and line.get("hook") == "the_content" else None
        return self.inputs.whole(args[0], post) if args else None

    def found(self, text: str | None, nested: list[Part]) -> Found | None:
        """What a text has whose shortcodes were replaced."""
        if text is None or not self.is_whole:
            return None
        ran = {it.first()["tag"] for it in nested if isinstance(it, Run)}
        return found_in(text, ran, self.changed)

    def is_unchanged(self, part: Pass) -> bool:
        """Whether a filter is known to have left its text as it was."""
        runs = part.runs
        if not self.is_whole or not part.is_filter() or not runs[0].first().get("args"):
            return False
        if len(runs) == 1 and runs[0].first()["callback"] == 0:
            found = self.found(self.received(runs[0], True), runs[0].nested[-1])
            return found is not None and found.is_left
        given, last = runs[0].first()["args"][0], runs[-1]
        made = last.answer()
        if last.first()["callback"] == 0 and last.first()["args"]:
            found = self.found(self.received(last, False), last.nested[-1])
            made = last.first()["args"][0] if found and found.is_left else None
        return isinstance(given, str) and made == given

    def of_core(self, run: Run, is_first: bool) -> list[str]:
        """What is noted of core's callback, which replaces shortcodes."""
        text = self.received(run, is_first)
        args = run.first().get("args", [])
        if text is None and self.is_whole and args and isinstance(args[0], dict):
            size = f"the log has {len(args[0]['cut'].encode())} of {args[0]['bytes']} bytes"
            return [f"which shortcodes no active plugin has isn't known: {size}"]
        return self.of_text(text, run.nested[-1])

    def of_text(self, text: object, nested: list[Part]) -> list[str]:
        """What is noted of a text whose shortcodes were replaced."""
        found = self.found(self.inputs.whole(text, None), nested)
        if found is None or not found.names:
            return []
        listed = ", ".join(f"[{it}]" for it in found.names[:LISTED]) + (" .." if len(found.names) > LISTED else "")
        return [f"no active plugin has the shortcode{'s' if len(found.names) > 1 else ''} {listed}"]
