"""The keys and options of a command that nothing reads, each with the nearest name that is read: for scripts.

The program ignores such names (docs/BEHAVIOUR.md, Commands), so most of them are slips: `titel` in a `put`, or the
option `post_per_page`. A script uses it so:

    from geanmarbles.client.unread import notes

    notes({"cmd": "put", "titel": "Rye", "date": "2024-04-02 06:00:00"})
    # ['titel: nothing reads this key; the nearest that is read is title']
"""

import re
from collections.abc import Iterator
from difflib import get_close_matches
from typing import Any, NamedTuple

from geanmarbles.client.rules import POST, SECTIONS, shown

# The keys that the program reads, beside `cmd`.
KEYS: dict[str, tuple[str, ...]] = {
    **{"put": tuple(POST), "edit": ("id", *(it for it in POST if it != "kind")), "delete": ("id",)},
    **{"option": ("name", "value"), "activate": ("plugin",), "deactivate": ("plugin",)},
    **{"template": ("name", "body"), "import": ("site",), "get": ("path",), "begin": ("path",)},
    "turns": ("page", "count"),
}
OF_IMPORT, OF_ENTRY = ("version", *SECTIONS), ("id", *POST)
# The options that the program and its plugins read, and those that geanmarbles publish reads beside these.
OPTIONS = ("blogname", "page_on_front", "posts_per_page", "show_on_front")
OF_ARCHIVE = ("blogdescription", "date_format", "page_for_posts")
# How many names that are read are listed, if none is near.
LISTED = 8
# How long a name is that has to be nearer, since a few letters are soon alike.
SHORT = 3


class Unread(NamedTuple):
    """A name that nothing reads: where it is, what it is, and what could be meant."""

    where: str
    what: str
    name: str
    read: tuple[str, ...]
    # Why it isn't read, if it is read elsewhere.
    why: str = ""

    def text(self, more: int) -> str:
        """The note, with the number of further places that have the same name."""
        places = f"{self.where} and {more:,} more" if more else self.where
        return f"{places}: {self.why or f'nothing reads this {self.what}; {self.instead()}'}"

    def instead(self) -> str:
        near = get_close_matches(self.name.lower(), self.read, n=1, cutoff=0.6 if len(self.name) > SHORT else 0.75)
        if near:
            return f"the nearest that is read is {near[0]}"
        listed = ", ".join(self.read[:LISTED]) + (" .." if len(self.read) > LISTED else "")
        return f"what is read is {listed}"


def called(name: str) -> str:
    """A name as a note has it."""
    return name if re.fullmatch(r"[\w-]{1,64}", name) else shown(name)


def others(members: object, read: tuple[str, ...], where: str = "") -> Iterator[Unread]:
    """The keys of an object that aren't among those that are read."""
    for name in members if isinstance(members, dict) else ():
        if name not in read:
            yield Unread(f"{where}{called(name)}", "key", name, read)


def of_option(name: object, where: str) -> Iterator[Unread]:
    """An option that nothing reads."""
    if isinstance(name, str) and name not in (*OPTIONS, *OF_ARCHIVE):
        yield Unread(f"{where}{called(name)}", "option", name, (*OPTIONS, *OF_ARCHIVE))


def of_front(front: object, version: object) -> Iterator[Unread]:
    """What isn't read of an import's section `front`."""
    if version == 1:
        yield Unread("site.front", "section", "front", (), "nothing reads this section in version 1; version 2 has it")
    elif isinstance(front, dict):
        yield from others(front, ("show", "page"), "site.front.")
        if front.get("show") == "posts" and "page" in front:
            yield Unread("site.front.page", "key", "page", (), 'nothing reads this key beside "show":"posts"')


def of_import(site: object) -> Iterator[Unread]:
    """What isn't read of an import, as far as its sections have their form."""
    if not isinstance(site, dict):
        return
    yield from others(site, OF_IMPORT, "site.")
    posts, options = site.get("posts"), site.get("options")
    for place, post in enumerate(posts if isinstance(posts, list) else ()):
        yield from others(post, OF_ENTRY, f"site.posts[{place}].")
    for name in options if isinstance(options, dict) else ():
        yield from of_option(name, "site.options.")
    if "front" in site:
        yield from of_front(site["front"], site.get("version"))


def unread(keys: dict[str, Any]) -> Iterator[Unread]:
    """Each name of a command that nothing reads."""
    command = keys["cmd"]
    for it in others({name: None for name in keys if name != "cmd"}, KEYS[command]):
        is_kind = (command, it.name) == ("edit", "kind")
        yield it._replace(why="nothing reads this key; the kind of a post can't be changed") if is_kind else it
    if command == "option":
        yield from of_option(keys.get("name"), "")
    if command == "import":
        yield from of_import(keys.get("site"))


def notes(keys: dict[str, Any]) -> list[str]:
    """A text for each name of a command that nothing reads: one for all entries of an import that have it."""
    found: dict[tuple[str, str, tuple[str, ...]], list[Unread]] = {}
    for it in unread(keys):
        found.setdefault((it.what, it.name, it.read), []).append(it)
    return [same[0].text(len(same) - 1) for same in found.values()]
