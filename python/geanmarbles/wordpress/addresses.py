"""The addresses that a WordPress site had: of posts and pages, of lists by term, author and date, of feeds.

Posts and pages have their addresses in the export; those of lists follow from them, by the rules that the Permalinks
page of WordPress's handbook gives. A path here has its characters, not their `%XX`.
"""

import re
import unicodedata
from collections import Counter
from functools import lru_cache
from typing import NamedTuple
from urllib.parse import quote, unquote

from geanmarbles.wordpress.harmless import split
from geanmarbles.wordpress.items import Item, Term, WholeSite, host_of, same_address

# The longest name of a file.
NAME_BYTES = 255
UPLOADS = "wp-content/uploads/"
# A path as nearly all are: no name in it can be at fault.
SIMPLE = re.compile(r"(?:/[a-z0-9_-][a-z0-9_.-]{0,99})+/?", re.ASCII)
# A picture as Jetpack's service has it: the address that it comes from follows the host.
CACHED = re.compile(r"i\d\.wp\.com/([^/]+)(/.*)")


class Bases(NamedTuple):
    """What the addresses of categories and tags begin with."""

    category: str = "category"
    tag: str = "tag"


class Places:
    """The paths of one site."""

    def __init__(self, site: WholeSite, bases: Bases = Bases()) -> None:
        self.site = site
        self.hosts = {host_of(it) for it in (site.address, site.files_address)} - {""}
        self.home = unquote(split(site.address).path).rstrip("/") + "/"
        patterns: Counter[tuple[str, ...]] = Counter()
        with_slash = 0
        for it in site.of_kind("post"):
            if it.status == "publish" and self.own(it):
                patterns[self.pattern(it)] += 1
                with_slash += it.link.endswith("/")
        # How posts' addresses are made, such as ("%year%", "%monthnum%", "%postname%").
        self.structure = patterns.most_common(1)[0][0] if patterns else ("%postname%",)
        self.has_slash = not patterns or with_slash * 2 > patterns.total()
        before = 0
        while before < len(self.structure) - 1 and not self.structure[before].startswith("%"):
            before += 1
        self.before = self.home + "".join(f"{it}/" for it in self.structure[:before])
        by_number = self.structure[before : before + 1] == ("%post_id%",)
        self.dates = self.before + ("date/" if by_number else "")
        self.categories = self.based(bases.category, Bases().category)
        self.tags = self.based(bases.tag, Bases().tag)

    def based(self, base: str, usual: str) -> str:
        """What an archive's paths begin with: a base of the site's own stands at its home."""
        base = base.strip("/")
        return f"{self.before if base == usual else self.home}{base}/"

    def local(self, address: str) -> str:
        """An address of the site without its host; any other as it is."""
        address = address.strip()
        parts = split(address if not address.startswith("//") else "http:" + address)
        if (cached := CACHED.fullmatch(parts.netloc + parts.path)) and cached[1].removeprefix("www.") in self.hosts:
            # A picture of the site that a service of another host hands on at another size.
            return cached[2]
        if parts.scheme in ("http", "https") and parts.netloc.lower().removeprefix("www.") in self.hosts:
            return parts._replace(scheme="", netloc="", path=parts.path or "/").geturl()
        return address

    def own(self, item: Item) -> str:
        """The path that the export gives an item, or an empty text if it has none of its own."""
        parts = split(item.link)
        if not item.link or parts.query or not same_address(item.link, self.site.address):
            return ""
        return path_or_none(unquote(parts.path)) or ""

    def pattern(self, item: Item) -> tuple[str, ...]:
        """An item's path with the names of what its parts are."""
        made: list[str] = []
        names = self.own(item)[len(self.home) :].strip("/").split("/")
        categories = {it.slug for it in item.terms if it.domain == "category"}
        above = {
            name
            for it in item.terms
            if it.domain == "category" and (it.domain, it.slug) in self.site.terms
            for name in self.site.term_names(self.site.terms[it.domain, it.slug])
        }
        known = {item.date[:4]: "%year%", item.date[5:7]: "%monthnum%", item.date[8:10]: "%day%"}
        for place, name in enumerate(names):
            is_last = place == len(names) - 1
            if name == unquote(item.slug):
                made.append("%postname%")
            elif name == str(item.number):
                made.append("%post_id%")
            elif not is_last and unquote(name) in {unquote(it) for it in categories | above}:
                made += [] if made[-1:] == ["%category%"] else ["%category%"]
            elif name in known and known[name] not in made:
                made.append(known[name])
            elif name == self.author_slug(item.author):
                made.append("%author%")
            elif is_last and name.startswith(unquote(item.slug)):
                made.append("%postname%" + name[len(unquote(item.slug)) :])
            else:
                made.append(name)
        return tuple(made)

    def new_post(self, number: int, title: str, date: str) -> str:
        """A path for a post that the export doesn't have."""
        parts = {
            "%year%": date[:4],
            "%monthnum%": date[5:7],
            "%day%": date[8:10],
            "%post_id%": str(number),
            "%category%": "uncategorized",
            "%author%": "author",
        }
        name = slug_of(title) or str(number)
        made = [parts.get(it, it.replace("%postname%", name)) for it in self.structure]
        if not any("%postname%" in it or it == "%post_id%" for it in self.structure):
            made.append(name)
        return self.home + "/".join(made) + ("/" if self.has_slash else "")

    def new_page(self, number: int, title: str) -> str:
        return self.ended(self.home + (slug_of(title) or str(number)))

    def ended(self, path: str) -> str:
        return path.rstrip("/") + ("/" if self.has_slash else "")

    def term(self, term: Term) -> str:
        """The path of a term's list, or an empty text if it is neither a category nor a tag."""
        names = [unquote(it) for it in self.site.term_names(term)]
        if term.domain == "category":
            return self.ended(self.categories + "/".join(names))
        return self.ended(self.tags + names[-1]) if term.domain == "post_tag" else ""

    def author(self, login: str) -> str:
        return self.ended(f"{self.before}author/{self.author_slug(login)}")

    def author_slug(self, login: str) -> str:
        """The name of an author's page: the given one, or else what WordPress makes of a login."""
        made = re.sub(r"[^a-z0-9_-]", "", re.sub(r"[\s.]+", "-", login[:50].lower()))
        return self.site.author_slugs.get(login, re.sub(r"-+", "-", made).strip("-"))

    def date(self, *parts: str) -> str:
        """The path of a year's, a month's or a day's list."""
        return self.ended(self.dates + "/".join(parts))

    @staticmethod
    def part(path: str, number: int) -> str:
        """The path of a list's part."""
        if number == 1:
            return path
        return f"{path.rstrip('/')}/page/{number}" + ("/" if path.endswith("/") else "")

    @staticmethod
    def piece(path: str, number: int) -> str:
        """The path of a part of a post that its author has divided."""
        return path if number == 1 else f"{path.rstrip('/')}/{number}" + ("/" if path.endswith("/") else "")

    @staticmethod
    def feed(path: str) -> str:
        return f"{path.rstrip('/')}/feed" + ("/" if path.endswith("/") else "")


def slug_of(title: str) -> str:
    """A title as a part of a path."""
    plain = unicodedata.normalize("NFKD", re.sub(r"<[^<>]*>|&[^;\s]*;", "", title))
    kept = "".join(it for it in plain if not unicodedata.combining(it)).lower()
    return re.sub(r"[\s_-]+", "-", re.sub(r"[^\w\s-]", "", kept)).strip("-")[:80].strip("-")


def path_or_none(path: str) -> str | None:
    """A path for which a file can be written, or None: it stays in its folder, and its names are those of files."""
    if SIMPLE.fullmatch(path):
        return path
    names = path.strip("/").split("/") if path.strip("/") else []
    for name in names:
        is_named = name not in ("", ".", "..") and not name.startswith(".ht")
        if not is_named or re.search(r"[\x00-\x1f\x7f\\]", name) or len(name.encode(errors="replace")) > NAME_BYTES:
            return None
        if re.search("[\ud800-\udfff]", name):
            return None
    return "/" + "/".join(names) + ("/" if names and path.endswith("/") else "")


@lru_cache(maxsize=1_000)
def as_link(path: str) -> str:
    """A path as it is written into a page: what an address can't have is `%XX`."""
    return quote(path, safe="/~!$&'()*+,;=:@-._")
