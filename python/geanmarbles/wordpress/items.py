"""What an export has of a site beside the texts of its posts: addresses, terms, authors, comments, menus, files.

An item is looked at as soon as it has been read. Items and comments are put into a temporary database if there is one:
then memory grows with terms and authors alone.
"""

import re
from collections.abc import Callable, Iterator, Mapping
from dataclasses import dataclass, field
from html import unescape
from pathlib import Path
from sys import intern
from typing import Any

from geanmarbles.disk_tables import DiskDict
from geanmarbles.wordpress.export import Element, Reader, Refused
from geanmarbles.wordpress.harmless import is_harmless, split

# The option that has the names of authors' pages: in each line a login, `=` and the name.
AUTHOR_SLUGS = "author_slugs"
# The custom fields that are kept; others can be long.
KEPT_FIELDS = re.compile(
    r"_thumbnail_id|_wp_attachment_(?:metadata|image_alt)|_menu_item_\w+|_wp_old_slug|_yoast_wpseo_metadesc"
    r"|rank_math_description|_aioseop?_description"
)


@dataclass(slots=True)
class Comment:
    """A comment as the export has it."""

    number: int
    author: str
    address: str
    date: str
    text: str
    parent: int


@dataclass(slots=True)
class Term:
    """A category, a tag or another term: its name is plain text."""

    number: int
    domain: str
    slug: str
    name: str
    parent: str = ""


@dataclass(slots=True)
class Item:
    """A post, page, attachment or menu entry."""

    number: int
    kind: str
    status: str
    link: str
    title: str
    slug: str
    date: str
    author: str
    parent: int
    order: int
    excerpt: str
    password: str
    file: str
    is_sticky: bool
    guid: str = ""
    # The date in Greenwich, or zeros.
    date_gmt: str = ""
    content: str = ""
    terms: list[Term] = field(default_factory=list)
    fields: dict[str, list[str]] = field(default_factory=dict)

    def one(self, name: str) -> str:
        """The value of a custom field, or an empty text."""
        return self.fields.get(name, [""])[0]

    def is_carried(self) -> bool:
        """Whether it is a post or page that the import takes, as far as its status tells."""
        return self.kind in ("post", "page") and self.status in ("publish", "draft") and not self.password

    def is_public(self) -> bool:
        """Whether WordPress shows it to everyone."""
        return self.status == "publish" and not self.password and self.kind in ("post", "page")


@dataclass(slots=True)
class WholeSite:
    """An export, but for the contents that weren't asked for."""

    address: str = ""
    # The address under which its files are, which may be another.
    files_address: str = ""
    title: str = ""
    tagline: str = ""
    language: str = "en"
    items: dict[int, Item] | DiskDict[int, Item] = field(default_factory=dict[int, Item])
    # Those of an item by its number, or none if they weren't asked for.
    comments: dict[int, list[Comment]] | DiskDict[int, list[Comment]] = field(default_factory=dict[int, list[Comment]])
    # By domain and slug.
    terms: dict[tuple[str, str], Term] = field(default_factory=dict)
    # Display names and numbers, by login.
    authors: dict[str, str] = field(default_factory=dict)
    # The names of authors' pages, by login, as far as they aren't made of it.
    author_slugs: dict[str, str] = field(default_factory=dict)
    author_numbers: dict[str, int] = field(default_factory=dict)
    # The numbers of the items of each kind.
    kinds: dict[str, list[int]] = field(default_factory=dict)

    def must_have_address(self, path: Path) -> None:
        if not split(self.address).netloc:
            raise Refused(f"{path}: this is no WordPress export: it doesn't say what the site's address is")

    def take_options(self, options: Mapping[str, str]) -> None:
        """Takes what the import has written into the site's options for the archive that is made of both."""
        lines = options.get(AUTHOR_SLUGS, "").splitlines()
        self.author_slugs = {login: slug for login, _, slug in (it.rpartition("=") for it in lines)}

    def host(self) -> str:
        return host_of(self.address)

    def of_kind(self, kind: str) -> Iterator[Item]:
        found = (self.items[number] for number in self.kinds.get(kind, ()))
        return (it for it in found if it.kind == kind)

    def add(self, item: Item) -> bool:
        """Adds an item. Of two with one number the first that is carried over is meant, as when the export is
        imported."""
        other = self.items.get(item.number)
        if other is not None and (other.is_carried() or not item.is_carried()):
            return False
        if other is None or other.kind != item.kind:
            self.kinds.setdefault(item.kind, []).append(item.number)
        self.items[item.number] = item
        return True

    def term_names(self, term: Term) -> list[str]:
        """The slugs of a term and of those above it, the topmost first."""
        names, seen = [term.slug], {term.slug}
        while term.parent and term.parent not in seen:
            above = self.terms.get((term.domain, term.parent))
            if above is None:
                break
            term = above
            seen.add(term.slug)
            names.insert(0, term.slug)
        return names

    def front(self) -> Item | None:
        """The page that the site has at its own address, if one is there."""
        home = split(self.address).path.strip("/")
        for it in self.of_kind("page"):
            at = split(it.link)
            if it.is_public() and same_address(it.link, self.address) and (at.path.strip("/"), at.query) == (home, ""):
                return it
        return None


def host_of(address: str) -> str:
    """The host of an address, without www."""
    return split(address).netloc.lower().removeprefix("www.")


def same_address(one: str, other: str) -> bool:
    """Whether two addresses are of one host, with or without www."""
    return host_of(one) == host_of(other)


def whole_number(text: str) -> int:
    text = text.strip()
    return int(text) if re.fullmatch(r"-?[0-9]{1,10}", text) else 0


def comment_of(element: Element) -> Comment | None:
    """A comment that everyone may see: approved, and no notice of another site's link."""
    if element.first("wp:comment_approved").strip() != "1":
        return None
    if element.first("wp:comment_type").strip() not in ("", "comment"):
        return None
    return Comment(
        whole_number(element.first("wp:comment_id")),
        element.first("wp:comment_author").strip(),
        element.first("wp:comment_author_url").strip(),
        element.first("wp:comment_date").strip(),
        element.first("wp:comment_content"),
        whole_number(element.first("wp:comment_parent")),
    )


def comments_of(element: Element) -> list[Comment]:
    """The comments of an item that everyone may see."""
    found = (comment_of(it) for it in element.children if it.name == "wp:comment")
    return [it for it in found if it is not None]


def item_of(element: Element, terms: dict[tuple[str, str], Term]) -> Item:
    """An item of the channel. Its terms are those of `terms`, which gets those that aren't there."""
    of = element.first
    made = Item(
        whole_number(of("wp:post_id")),
        intern(of("wp:post_type").strip()),
        intern(of("wp:status").strip()),
        of("link").strip(),
        of("title"),
        of("wp:post_name").strip(),
        of("wp:post_date").strip(),
        intern(of("dc:creator").strip()),
        whole_number(of("wp:post_parent")),
        whole_number(of("wp:menu_order")),
        of("excerpt:encoded"),
        of("wp:post_password"),
        file if is_harmless(file := of("wp:attachment_url").strip()) else "",
        of("wp:is_sticky").strip() == "1",
        of("guid").strip(),
        of("wp:post_date_gmt").strip(),
        of("content:encoded"),
    )
    for it in element.children:
        if it.name == "category" and it.attributes.get("nicename"):
            # The names of terms are stored as they are printed, with their entities.
            name = it.attributes.get("domain", ""), it.attributes["nicename"]
            made.terms.append(terms.setdefault(name, Term(0, *name, unescape(it.text))))
        elif it.name == "wp:postmeta" and KEPT_FIELDS.fullmatch(key := it.first("wp:meta_key").strip()):
            made.fields.setdefault(key, []).append(it.first("wp:meta_value"))
    return made


# The elements of the channel that are terms: their domain, and the prefix of what they have.
TERMS = {
    "wp:category": ("category", "wp:cat_name", "wp:category_nicename", "wp:category_parent"),
    "wp:tag": ("post_tag", "wp:tag_name", "wp:tag_slug", ""),
    "wp:term": ("", "wp:term_name", "wp:term_slug", "wp:term_parent"),
}


def term_of(element: Element) -> Term:
    domain, name, slug, parent = TERMS[element.name]
    return Term(
        whole_number(element.first("wp:term_id")),
        domain or element.first("wp:term_taxonomy").strip(),
        element.first(slug).strip(),
        unescape(element.first(name)),
        element.first(parent).strip() if parent else "",
    )


# What the elements of the channel that are one text say of a site.
TEXTS = {
    "title": "title",
    "description": "tagline",
    "language": "language",
    "wp:base_blog_url": "address",
    "wp:base_site_url": "files_address",
}


def taking(site: WholeSite, has_comments: bool) -> Callable[[Element], None]:
    """What puts each child of an export's channel into a site, as far as it is looked at here."""
    named: dict[tuple[str, str], Term] = {}

    def take(element: Element) -> None:
        if element.name == "item":
            item = item_of(element, named)
            if site.add(item) and has_comments and item.is_carried():
                site.comments[item.number] = comments_of(element)
        elif element.name in TERMS:
            term = term_of(element)
            site.terms[term.domain, term.slug] = term
        elif element.name == "wp:author":
            login = element.first("wp:author_login").strip()
            site.authors[login] = element.first("wp:author_display_name").strip() or login
            site.author_numbers[login] = whole_number(element.first("wp:author_id"))
        elif element.name in TEXTS:
            setattr(site, TEXTS[element.name], element.text.strip())

    return take


def read_site(path: Path, items: DiskDict[int, Item], comments: DiskDict[int, list[Comment]]) -> WholeSite:
    """Reads what an export has of a site into two dictionaries, with comments and without contents."""
    site = WholeSite(items=items, comments=comments)
    Reader(path, taking(site, True), {"content:encoded"}).read()
    site.must_have_address(path)
    return site


class Serialized:
    """Reads a value that PHP's `serialize` wrote: texts, numbers and lists of them, to a small depth."""

    def __init__(self, text: str) -> None:
        self.data, self.at = text.encode(), 0

    def value(self, depth: int = 0) -> object:
        """The value that begins here; a list is one of names and values."""
        kind = self.data[self.at : self.at + 1]
        if kind == b"N":
            self.at += 2
            return None
        if kind in (b"i", b"b", b"d"):
            number = self.until(b";")[2:]
            return int(number) if kind != b"d" else float(number)
        if kind == b"s":
            size = int(self.until(b":", 2))
            if size < 0:
                raise ValueError("a text of PHP has a length")
            found = self.data[self.at + 1 : self.at + 1 + size]
            self.at += size + 3
            return found.decode(errors="replace")
        if kind == b"a" and depth < 6:
            count = int(self.until(b":", 2))
            self.at += 1
            items: dict[Any, Any] = {}
            for _ in range(min(count, 10_000)):
                name = self.value(depth + 1)
                items[name] = self.value(depth + 1)
            self.at += 1
            return items
        raise ValueError("not a value of PHP")

    def until(self, mark: bytes, skip: int = 0) -> bytes:
        end = self.data.index(mark, self.at + skip)
        found, self.at = self.data[self.at + skip : end], end + 1
        return found


def unserialized(text: str) -> dict[Any, Any]:
    """A list that PHP's `serialize` wrote, or an empty one if the text is none."""
    try:
        value = Serialized(text).value()
    except (ValueError, IndexError, TypeError):
        return {}
    return value if isinstance(value, dict) else {}


@dataclass(slots=True)
class Picture:
    """A file that shows a picture, at one of its sizes."""

    address: str
    width: int
    height: int


def pictures_of(item: Item) -> dict[str, Picture]:
    """The sizes of an attachment by name; `full` is the file itself."""
    known = unserialized(item.one("_wp_attachment_metadata"))
    sizes = {"full": Picture(item.file, as_size(known.get("width")), as_size(known.get("height")))}
    folder = item.file.rpartition("/")[0]
    listed = known.get("sizes")
    for name, size in listed.items() if isinstance(listed, dict) else ():
        if isinstance(size, dict) and re.fullmatch(r"[^/\\]+", str(size.get("file", ""))):
            sizes[str(name)] = Picture(
                f"{folder}/{size['file']}", as_size(size.get("width")), as_size(size.get("height"))
            )
    return sizes


def as_size(value: object) -> int:
    return value if isinstance(value, int) and 0 < value < 100_000 else 0
