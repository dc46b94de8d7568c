"""What an export becomes in an import: texts as WordPress shows them, the front, the menu, the words."""

import re
from collections import Counter
from collections.abc import Callable, Mapping
from datetime import datetime
from html import escape, unescape
from types import MappingProxyType
from typing import Any, NamedTuple

from geanmarbles.wordpress.addresses import Places
from geanmarbles.wordpress.export import Refused
from geanmarbles.wordpress.harmless import is_harmless, split
from geanmarbles.wordpress.items import AUTHOR_SLUGS, Item, WholeSite
from geanmarbles.wordpress.shown import Notes, Shown, trimmed
from geanmarbles.wordpress.words import month_and_year, words_of

# How deep menus and pages are nested in a list.
DEPTH = 8
# What a menu's name has if it is the one that a site shows at the top of its pages.
MAIN = ("main", "primary", "header", "haupt", "principal", "hoofd", "top")


# The number, the address and the label of each entry below one, by its number.
Entries = Callable[[int], list[tuple[int, str, str]]]


class Wishes(NamedTuple):
    """What the arguments say of an archive."""

    contact: str = ""
    menu: str = ""
    posts_page: str = ""
    # Shortcodes that a plugin of the program has.
    tags: frozenset[str] = frozenset()
    # How many posts a part of a list has, or 0 if that isn't said, and the names of authors' pages by login.
    per_page: int = 0
    authors: Mapping[str, str] = MappingProxyType({})


class Archive:
    """An export as an archive: `carried` has the IDs of the posts and pages that are carried over."""

    def __init__(self, site: WholeSite, carried: set[int], wishes: Wishes) -> None:
        self.site = site
        if unknown := [it for it in wishes.authors if it not in self.site.authors]:
            raise Refused(f"--author: the export has no author with the login {unknown[0]!r}")
        self.site.author_slugs = dict(wishes.authors)
        self.wishes, self.carried = wishes, carried
        self.words = words_of(self.site.language)
        note = self.words["form"] if not wishes.contact else self.words["write"]
        self.places = Places(self.site)
        self.shown = Shown(self.site, carried, self.places, Notes(note, wishes.contact, wishes.tags))
        self.public = {it for it in carried if self.site.items[it].is_public()}
        # (looked for once, since each link asks for it)
        self.front = self.site.front()
        self.menu_name = ""
        # The lists of links that templates can have: the menu, or if there is none the pages, and the months by name.
        pages = self.pages()
        self.lists = {"menu": self.menu() or pages, "months": self.months(), "pages": pages}

    def entry(self, entry: dict[str, Any]) -> tuple[dict[str, Any], dict[str, Counter[str]]]:
        """A post or page with its texts as WordPress shows them, and what of them isn't."""
        content = self.shown.content(entry["id"], entry["content"])
        return {**entry, "title": self.shown.title(entry["title"]), "content": content}, self.shown.left

    def per_page(self) -> int:
        """How many posts a part of a list has, or 0 if nobody says it. An export doesn't, but perhaps for a
        template of the site editor: newer versions keep the setting in its list of posts."""
        templates = "".join(it.content for it in self.site.of_kind("wp_template") if it.status == "publish")
        lists = (it for it in re.findall(r"<!-- wp:query (\{.*?\}) -->", templates) if '"inherit":true' in it)
        numbers = (re.search(r'"perPage":([1-9]\d?|100)\b', it) for it in lists)
        return self.wishes.per_page or next((int(it[1]) for it in numbers if it), 0)

    def options(self) -> dict[str, str]:
        """The options that say what the front shows, which page lists the posts beside it, and what `publish` has to
        know of addresses."""
        slugs = "\n".join(f"{login}={slug}" for login, slug in self.wishes.authors.items())
        given = {"posts_per_page": str(self.per_page() or ""), AUTHOR_SLUGS: slugs}
        made = {name: value for name, value in given.items() if value}
        if self.front is None or self.front.number not in self.public:
            return made
        made |= {"show_on_front": "page", "page_on_front": str(self.front.number)}
        posts = self.posts_page(self.front)
        return {**made, "page_for_posts": str(posts.number)} if posts else made

    def posts_page(self, front: Item) -> Item | None:
        """The page at whose address WordPress lists the posts. An export doesn't say which: it is the one that is
        named, or else the only page without a content."""
        pages = [it for it in self.site.of_kind("page") if it.number in self.public and it is not front]
        if self.wishes.posts_page:
            wanted = trimmed(self.wishes.posts_page)
            return next((it for it in pages if wanted in (trimmed(it.slug), trimmed(split(it.link).path))), None)
        empty = [it for it in pages if not it.content.strip()]
        return empty[0] if len(empty) == 1 else None

    def settings(self) -> dict[str, str]:
        """The texts that stand for {"site": NAME} in templates."""
        words = {name: escape(text, quote=False) for name, text in self.words.items()}
        tagline = plain(self.shown.title(escape(unescape(self.site.tagline), quote=False)))
        texts = {"language": escape(self.site.language or "en"), "tagline": tagline}
        return {**words, **texts}

    def months(self) -> list[str]:
        """Each month with posts, the newest first."""
        dates = {self.site.items[it].date[:7] for it in self.public if self.site.items[it].kind == "post"}
        return [
            f'<a href="/?m={it.replace("-", "")}">{self.month(it)}</a>'
            for it in sorted(dates, reverse=True)
            if re.fullmatch(r"\d{4}-\d\d", it)
        ]

    def month(self, month: str) -> str:
        return month_and_year(datetime.fromisoformat(f"{month}-01"), self.site.language)

    def pages(self) -> list[str]:
        """Each published page, siblings in WordPress's order below their parent."""
        pages = [self.site.items[it] for it in self.public if self.site.items[it].kind == "page"]
        pages.sort(key=lambda it: (it.order, it.title.lower(), it.number))
        below: dict[int, list[Item]] = {}
        for page in pages:
            below.setdefault(page.parent if page.parent in self.public else 0, []).append(page)
        return self.nested(
            0, lambda number: [(it.number, self.target(it), self.label(it)) for it in below.get(number, [])]
        )

    def nested(self, above: int, entries_of: Entries, depth: int = 0) -> list[str]:
        """The items of a list, each with the list of what is below it."""
        made = []
        for number, address, label in entries_of(above) if depth < DEPTH else ():
            below = "".join(f"<li>{it}</li>" for it in self.nested(number, entries_of, depth + 1))
            link = f'<a href="{escape(address)}">{label}</a>' if address else label
            made.append(link + (f"\n<ul>{below}</ul>" if below else ""))
        return made

    def target(self, item: Item) -> str:
        """The address that the program has for a post or page."""
        if self.front is not None and item.number == self.front.number:
            return self.places.home
        return f"/?{'p' if item.kind == 'post' else 'page_id'}={item.number}"

    def label(self, item: Item) -> str:
        return plain(self.shown.title(item.title)) or str(item.number)

    def menus(self) -> dict[str, list[Item]]:
        """The entries of each menu, in their order."""
        made: dict[str, list[Item]] = {}
        for item in self.site.of_kind("nav_menu_item"):
            for term in item.terms if item.status == "publish" else ():
                if term.domain == "nav_menu":
                    made.setdefault(term.slug, []).append(item)
        return {name: sorted(items, key=lambda it: (it.order, it.number)) for name, items in made.items()}

    def menu(self) -> list[str]:
        """The entries of the site's menu: the one that is named, or else the one that seems to be the main one."""
        menus = self.menus()
        named = self.wishes.menu.lower()
        if named:
            names = {it.slug: it.name.lower() for it in self.site.terms.values() if it.domain == "nav_menu"}
            chosen = [it for it in menus if named in (it, names.get(it))]
        else:
            chosen = sorted(menus, key=lambda it: (not any(word in it for word in MAIN), -len(menus[it]), it))
        if not chosen:
            return []
        self.menu_name = chosen[0]
        below: dict[int, list[tuple[int, str, str]]] = {}
        for item in menus[chosen[0]]:
            entry = self.menu_entry(item)
            if entry:
                parent = item.one("_menu_item_menu_item_parent").strip()
                below.setdefault(int(parent) if parent.isdigit() else 0, []).append((item.number, *entry))
        return self.nested(0, lambda number: below.get(number, []))

    def menu_entry(self, item: Item) -> tuple[str, str] | None:
        """An entry's address and its label, or None if what it leads to isn't public."""
        kind, number = item.one("_menu_item_type").strip(), item.one("_menu_item_object_id").strip()
        label = plain(self.shown.title(item.title))
        if kind == "custom":
            address = unescape(item.one("_menu_item_url").strip())
            return (self.shown.addresses.link(address), label or address) if is_harmless(address) else None
        if kind == "post_type" and number.isdigit() and int(number) in self.public:
            to = self.site.items[int(number)]
            return self.target(to), label or self.label(to)
        if kind == "taxonomy":
            domain = item.one("_menu_item_object").strip()
            term = next(
                (it for it in self.site.terms.values() if it.domain == domain and str(it.number) == number), None
            )
            path = self.places.term(term) if term else ""
            return (path, label or plain(self.shown.title(escape(term.name, quote=False)))) if term and path else None
        return None


def plain(title: str) -> str:
    """A title as a link's text: without tags, its entities spared."""
    return escape(unescape(re.sub(r"<[^<>]*>", "", title)), quote=False).strip()
