"""Follows every link of an archive's pages.
"""

from collections.abc import Callable, Iterator
from functools import lru_cache
from itertools import chain
from pathlib import Path
from typing import NamedTuple
from urllib.parse import parse_qsl, unquote, urljoin

from geanmarbles.archive.files import files_below
from geanmarbles.disk_tables import Disk, DiskDict, DiskSet
from geanmarbles.wordpress.harmless import attributes_of_tag, split, tag_name
from geanmarbles.wordpress.texts import TAGS

# How many tags and addresses are known from page to page: most pages have the same.
KNOWN = 20_000
SOURCES = {
    "a": ("href",),
    "area": ("href",),
    "link": ("href",),
    "img": ("src", "srcset"),
    "source": ("src", "srcset"),
    "audio": ("src",),
    "video": ("src", "poster"),
    "iframe": ("src",),
    "script": ("src",),
    "form": ("action",),
}


class Dead(NamedTuple):
    """An address that leads nowhere, how many pages have it, and the first of them."""

    address: str
    pages: int
    first: str


class Found:
    """What following all links came to."""

    def __init__(self, disk: Disk) -> None:
        self.pages = self.links = 0
        # The addresses that lead nowhere, in their order, and of each how many pages have it and the first of them.
        self.addresses: DiskSet[str] = DiskSet(disk)
        self.where: DiskDict[str, tuple[int, str]] = DiskDict(disk)

    def take_dead(self, address: str, page: str) -> None:
        pages, first = self.where.get(address, (0, page))
        self.addresses.add(address)
        self.where[address] = pages + 1, first

    def dead(self) -> Iterator[Dead]:
        return (Dead(it, *self.where[it]) for it in self.addresses)


@lru_cache(maxsize=KNOWN)
def addresses_in(tag: str) -> tuple[str, ...]:
    """The addresses that a tag links to or shows."""
    made: list[str] = []
    names = SOURCES.get(tag_name(tag), ())
    for name, value in attributes_of_tag(tag) if names else ():
        if name in names and value.strip():
            listed = value.split(",") if name == "srcset" else [value]
            made += (it.split()[0] if name == "srcset" else it.strip() for it in listed if it.strip())
    return tuple(made)


def file_of(root: Path, path: str) -> Path | None:
    """The file that a web server has for a path, or None."""
    name = unquote(path).lstrip("/")
    if "\0" in name or ".." in name.split("/"):
        return None
    for it in (root / name, root / name / "index.html", root / name / "index.xml"):
        try:
            if it.is_file():
                return it
        except OSError:
            return None
    return None


def check(root: Path, host: str, moved: Callable[[str, dict[str, str]], str], disk: Disk) -> Found:
    """Follows the links of each page below a folder, but for those to other hosts."""
    found = Found(disk)

    @lru_cache(maxsize=KNOWN)
    def follow(address: str, here: str) -> tuple[str, bool] | None:
        """What an address of a page asks for and whether something is there, or None if it is of another host. What no
        address can be is of none, and leads nowhere."""
        try:
            parts = split(urljoin(f"http://{host}{here}", address))
        except ValueError:
            return address, False
        if parts.scheme not in ("http", "https") or parts.netloc.removeprefix("www.") != host:
            return None
        target = parts.path + (f"?{parts.query}" if parts.query else "")
        return target, leads(root, parts.path or "/", parts.query, moved)

    for name in (it for it in files_below(root, disk) if it.endswith((".html", ".htm"))):
        here = "/" + name.removesuffix("index.html")
        found.pages += 1
        tags = TAGS.split((root / name).read_text(encoding="utf-8"))[1::2]
        for it in dict.fromkeys(chain.from_iterable(map(addresses_in, tags))):
            # (most addresses are those of many pages, and don't depend on them)
            to = follow(it, "" if it.startswith("/") else here)
            found.links += to is not None
            if to is not None and not to[1]:
                found.take_dead(to[0], here)
    return found


def leads(root: Path, path: str, query: str, moved: Callable[[str, dict[str, str]], str]) -> bool:
    given = dict(parse_qsl(query, keep_blank_values=True))
    if to := moved(unquote(path), given):
        return file_of(root, split(to).path) is not None
    # A plain permalink that isn't moved shows the front, which isn't what it leads to.
    is_plain = {"p", "page_id", "attachment_id", "m", "cat", "tag", "paged"} & set(given)
    return not is_plain and file_of(root, path) is not None
