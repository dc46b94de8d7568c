"""Which pages an archive has, and where: posts, pages and lists at the addresses that the old site had for them.
"""

import re
from collections.abc import Iterator
from dataclasses import dataclass, field
from datetime import datetime
from functools import cached_property, lru_cache
from hashlib import blake2b
from html import escape, unescape
from itertools import chain, islice
from urllib.parse import parse_qsl

from geanmarbles.archive.files import Noted
from geanmarbles.archive.kept import digest_of, digest_of_each
from geanmarbles.archive.lists import Listing, Lists, Order
from geanmarbles.archive.store import Post, Store
from geanmarbles.disk_tables import DiskDict, DiskSet
from geanmarbles.wordpress.addresses import Bases, Places, as_link
from geanmarbles.wordpress.harmless import split
from geanmarbles.wordpress.items import Comment, Item, Term, WholeSite
from geanmarbles.wordpress.texts import paragraphs, quotes_of, texturize, with_characters
from geanmarbles.wordpress.words import date_format, formatted, month_and_year, words_of


@dataclass
class Settings:
    """What the arguments say of an archive."""

    bases: Bases = field(default_factory=Bases)
    # How dates are written, or an empty text for the way of the site or its language.
    date_format: str = ""
    # The scheme and host of the archive, or an empty text for those of the old site.
    address: str = ""


class Plan:
    """The addresses of one archive. What grows with its posts is in the store's database."""

    def __init__(self, site: WholeSite, store: Store, settings: Settings) -> None:
        self.site, self.store = site, store
        site.take_options(store.options)
        self.places = Places(site, settings.bases)
        self.words, self.quotes = words_of(site.language), quotes_of(site.language)
        self.form = settings.date_format or store.options.get("date_format") or date_format(site.language)
        self.name = escape(store.options.get("blogname") or site.title, quote=False)
        self.base = self.base_of(settings.address or site.address)
        front = store.front()
        self.front = front.number if front else 0
        self.order = Order(store.disk, store.published("post"))
        # Where each published post and page is, and which path was wanted by two of them.
        self.paths: DiskDict[int, str] = DiskDict(store.disk)
        self.clashes = Noted()
        # The lists of each category and tag.
        self.of_terms: dict[tuple[str, str], dict[str, list[str]]] = {}
        self.taken: DiskSet[str] = DiskSet(store.disk)
        self.posts_page = self.posts_page_of()
        # Of each published post and page all that pages show of it, beside what the export has; and what stands for
        # these of all, and for their paths alone.
        self.facts: dict[int, bytes] = {}
        self.titled, self.placed = blake2b(digest_size=16), blake2b(digest_size=16)
        for post in chain(store.published("page"), store.published("post")):
            self.give_path(post)

    @staticmethod
    def base_of(address: str) -> str:
        """The scheme and host of the site, which links that leave the page need."""
        parts = split(address)
        return f"{'http' if parts.scheme == 'http' else 'https'}://{parts.netloc}"

    def posts_page_of(self) -> int:
        """The page at whose path the posts are listed, or 0."""
        post = self.store.posts.get(self.store.page_option("page_for_posts"))
        if post is None or post.kind != "page" or not post.is_published() or not self.front:
            return 0
        return post.number if post.number != self.front else 0

    def new_path(self, post: Post) -> str:
        """A path for a post or page that has none in the export."""
        if post.kind == "post":
            path = self.places.new_post(post.number, post.title, post.date)
        else:
            path = self.places.new_page(post.number, post.title)
        is_taken = path in self.taken
        return f"{path.rstrip('/')}-{post.number}{'/' if path.endswith('/') else ''}" if is_taken else path

    def give_path(self, post: Post) -> None:
        """Gives a post or page the path that the old site had for it. No two of them have one."""
        item = self.item(post.number, post.kind)
        path = self.places.own(item) if item else ""
        if post.number == self.front:
            path = self.places.home
        elif not path or path == self.places.home:
            path = self.new_path(post)
        if path in self.taken:
            self.clashes.add(path)
            path = ""
        else:
            self.taken.add(path)
            self.paths[post.number] = path
        shown = (post.number, post.kind, path, post.date, post.title)
        self.placed.update(repr(shown[:3]).encode())
        self.titled.update(repr(shown).encode(errors="backslashreplace"))
        self.facts[post.number] = digest_of(shown, post.sum)

    def all_facts(self) -> bytes:
        """What stands for the facts of all posts and pages."""
        return digest_of_each(self.facts.items())

    def item(self, number: int, kind: str = "") -> Item | None:
        """What the export has of a post. A post that was put since may have the ID of something that wasn't carried
        over, such as a private post: nothing of that is its own."""
        item, post = self.site.items.get(number), None if kind else self.store.posts.get(number)
        kind = post.kind if post else kind
        return item if item and item.kind == kind and item.is_carried() else None

    def comments(self, number: int) -> list[Comment]:
        """The comments of a post that the export has."""
        return self.site.comments.get(number, []) if self.item(number) else []

    def is_open(self, attachment: Item) -> bool:
        """Whether an attachment belongs to no post, or to one that has a page."""
        above = self.site.items.get(attachment.parent)
        return above is None or above.kind not in ("post", "page") or above.number in self.paths

    def terms(self, number: int) -> list[tuple[str, str, str]]:
        """The domain, the path and the name of each category and tag of a post."""
        item, found = self.item(number), []
        for it in item.terms if item else ():
            term = self.site.terms.get((it.domain, it.slug), it)
            path = self.places.term(term)
            if path and it.domain in ("category", "post_tag"):
                found.append((it.domain, path, term.name))
        return found

    def author(self, number: int) -> tuple[str, str] | None:
        """The path and the name of a post's author."""
        item = self.item(number)
        if item is None or not item.author:
            return None
        return self.places.author(item.author), self.site.authors.get(item.author, item.author)

    def is_used(self, path: str) -> bool:
        """Whether a post, a page or a list has a path."""
        return path in self.taken or self.has_list(path)

    def has_list(self, path: str) -> bool:
        """Whether there is a page with a list at a path."""
        home = self.home_list()
        return path in self.lists or home is not None and path == home.path

    def home_list(self) -> Listing | None:
        """The list of all posts: at the front, or at the page that is for it."""
        count = len(self.order)
        if not self.front:
            return Listing(self.places.home, "home", "", count)
        if not self.posts_page or self.posts_page not in self.paths:
            return None
        return Listing(self.paths[self.posts_page], "home", self.store.posts[self.posts_page].title, count)

    def sticky(self, most: int) -> list[int]:
        """The posts that the first part of the list of all posts begins with, the newest first. Further parts have each
        where its date puts it, as in WordPress, so the first one can be longer than they are."""
        found = (it for it in self.order.newest() if (item := self.item(it)) and item.is_sticky and it in self.paths)
        return list(islice(found, most))

    @cached_property
    def lists(self) -> Lists:
        """All lists but that of all posts, each with its posts, the newest first; a post or page may have the path of
        one, which then has no page."""
        found = ((number, *it) for number in self.order.newest() for it in self.lists_of(number))
        lists = Lists(self.store.disk, found)
        lists.leave_out(self.taken)
        return lists

    def dates(self, kind: str, above: str = "") -> Iterator[tuple[str, str]]:
        """The path and the name of each year, month or day that has a list below a path, the newest first."""
        found = (it for it in self.lists if it.kind == kind and it.path.startswith(above))
        return ((it.path, it.heading.removeprefix(self.heading(kind, ""))) for it in found)

    def posts_of(self, listing: Listing, begin: int, count: int) -> Iterator[int]:
        """Some posts of a list from one onwards, the newest first."""
        if listing.kind == "home":
            return self.order.newest(begin, count)
        return self.lists.posts_of(listing, begin, count)

    def lists_of(self, number: int) -> Iterator[tuple[str, str, str]]:
        """The path, the kind and the heading of each list that a post is in, each path once."""
        item, date, found = self.item(number), self.store.posts[number].date, dict[str, list[str]]()
        for it in item.terms if item else ():
            if (it.domain, it.slug) not in self.of_terms:
                self.of_terms[it.domain, it.slug] = self.lists_of_term(it)
            found |= self.of_terms[it.domain, it.slug]
        if author := self.author(number):
            found.setdefault(author[0], ["author", self.heading("author", escape(author[1], quote=False))])
        for path, kind, heading in self.lists_of_day(date[:10]):
            found.setdefault(path, [kind, heading])
        return ((path, kind, heading) for path, (kind, heading) in found.items())

    def lists_of_term(self, given: Term) -> dict[str, list[str]]:
        """The lists of a category or a tag and of those above it: by path, the kind and the heading of each."""
        made: dict[str, list[str]] = {}
        term: Term | None = self.site.terms.get((given.domain, given.slug), given)
        seen: set[str] = set()
        while term and term.slug not in seen and term.domain in ("category", "post_tag"):
            seen.add(term.slug)
            heading = self.heading("category" if term.domain == "category" else "tag", self.typeset(term.name))
            made[self.places.term(term)] = [term.domain, heading]
            term = self.site.terms.get((term.domain, term.parent)) if term.parent else None
        return made

    @lru_cache(1_000)
    def lists_of_day(self, day: str) -> list[tuple[str, str, str]]:
        """The lists of a year, of a month and of a day."""
        date, parts, language = datetime.fromisoformat(day), day.split("-"), self.site.language
        headings = parts[0], month_and_year(date, language), formatted(date, self.form, language)
        kinds = ("year", "month", "day")
        paths = (self.places.date(*parts[: it + 1]) for it in range(3))
        return [(path, kind, self.heading(kind, text)) for path, kind, text in zip(paths, kinds, headings)]

    def heading(self, word: str, text: str) -> str:
        """A word of the site's language and what it is about, with a colon as that language has it."""
        return f"{self.words[word]}{self.words['colon']}{text}"

    def typeset(self, text: str) -> str:
        """A plain text as HTML, with typographic characters; nothing in it is a shortcode."""
        return with_characters(texturize(escape(text, quote=False), self.quotes)).replace("[", "&#91;")

    def excerpt(self, number: int) -> str:
        item = self.item(number)
        text = item.excerpt.strip() if item else ""
        return with_characters(paragraphs(texturize(text, self.quotes))) if text else ""

    def day(self, date: str) -> str:
        """A date as HTML in the site's format, or as it is if it is none."""
        try:
            return escape(formatted(datetime.fromisoformat(date), self.form, self.site.language), quote=False)
        except ValueError:
            return escape(date[:10])

    def date(self, number: int) -> str:
        """A post's date as HTML, with who wrote it."""
        date = self.store.posts[number].date
        made = f'<time datetime="{date.replace(" ", "T")}">{self.day(date)}</time>'
        if author := self.author(number):
            link = f'<a rel="author" href="{escape(as_link(author[0]))}">{escape(author[1], quote=False)}</a>'
            made += f" {self.words['by']} {link}"
        return made

    def target(self, address: str, base: str) -> str:
        """Where a link of a printed page leads: a plain permalink to the old address, and an address of the old host to
        the archive. `base` is the path of the list whose parts the page links to."""
        bare, hash_mark, fragment = self.places.local(address).partition("#")
        path, _, query = bare.partition("?")
        end = hash_mark + fragment
        if path not in ("/", self.places.home):
            return bare + end
        if not query:
            return as_link(self.places.home) + end
        return (self.queried(query, base) or bare) + end

    def queried(self, query: str, base: str) -> str:
        given = dict(parse_qsl(query, keep_blank_values=True))
        number = next((given[it] for it in ("p", "page_id") if it in given), "")
        if re.fullmatch(r"\d{1,10}", number) and int(number) in self.paths:
            return as_link(self.paths[int(number)])
        part = int(given["paged"]) if re.fullmatch(r"[1-9]\d{0,8}", given.get("paged", "")) else 1
        if re.fullmatch(r"\d{6}", given.get("m", "")):
            return as_link(self.places.part(self.places.date(given["m"][:4], given["m"][4:]), part))
        return as_link(self.places.part(base, part)) if set(given) == {"paged"} else ""

    def title(self, number: int) -> str:
        """A post's title as HTML. One without words has its date, so that links to it can be seen."""
        post = self.store.posts[number]
        return post.title if plain(post.title) else self.day(post.date)

    def plain_title(self, number: int) -> str:
        return plain(self.title(number))


def plain(html: str) -> str:
    return unescape(re.sub(r"<[^<>]*>", "", html)).strip()
