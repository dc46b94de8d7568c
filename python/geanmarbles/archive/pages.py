"""The pages of an archive: each is printed by the program, and gets what only an archive has.
"""

import re
from collections import defaultdict
from collections.abc import Callable, Iterable, Iterator
from datetime import datetime, timedelta
from functools import partial
from hashlib import sha256
from html import escape
from itertools import chain, islice
from typing import NamedTuple

from geanmarbles.archive.files import Files, Noted
from geanmarbles.archive.html import (
    NO_TEASER,
    after_post,
    before_last,
    region,
    shortened,
    text_of,
    with_current,
    with_head,
    with_heading,
    with_links,
    with_parts,
    with_plain_title,
    with_search,
    with_times,
    with_title,
    without_teaser,
)
from geanmarbles.archive.kept import Units
from geanmarbles.archive.lists import Listing
from geanmarbles.archive.plan import Plan
from geanmarbles.archive.search import LIST, Search
from geanmarbles.archive.store import MOST_PER_PAGE, Lister, Printer, line_of
from geanmarbles.disk_tables import DiskDict
from geanmarbles.wordpress.addresses import UPLOADS, as_link
from geanmarbles.wordpress.harmless import harmless
from geanmarbles.wordpress.items import Comment
from geanmarbles.wordpress.texts import paragraphs, texturize, with_characters

PART = "<!--nextpage-->"
DESCRIPTION = 155
# A file of the site in a page: the value of an attribute, or one of several in `srcset`.
SHOWN_FILE = re.compile(rf"[\"' ,](/[^\"'\s,<>]*{UPLOADS}[^\"'\s,<>?#]+)")
STYLE = re.compile(r"<style>([^<]*)</style>")
# How many parts of a list before one and after it that one links to.
NEAR = 4
# How many links' targets are kept from page to page.
LINKS = 2_000
# Fields in which plugins keep the description of a post.
DESCRIPTIONS = ("_yoast_wpseo_metadesc", "rank_math_description", "_aioseo_description", "_aioseop_description")
# How deep answers to comments are shown as answers.
THREAD_DEPTH = 10


class Head(NamedTuple):
    """What the head of a page says of it."""

    path: str
    title: str
    description: str = ""
    kind: str = "website"
    image: str = ""
    feed: str = ""
    # Whether search engines should list it; parts of lists and lists by date are left out.
    is_listed: bool = True
    # Whether other pages have addresses below its own.
    is_folder: bool = False


class Entry(NamedTuple):
    """A post as lists show it: its date, its date as HTML, and what the program is given of it, as JSON."""

    date: str
    shown: str
    line: bytes


class Pages:
    """Writes the pages of a plan into a folder."""

    def __init__(self, plan: Plan, files: Files, units: Units, search: Search, tell: Callable[[str], None]) -> None:
        self.plan, self.files, self.units, self.search, self.tell = plan, files, units, search, tell
        # The paths for the sitemap, with the date of a post.
        self.sitemap: DiskDict[str, str] = DiskDict(plan.store.disk)
        # What lists show of posts: each is in several. They can be long, so hardly any is at hand.
        self.entries: DiskDict[int, Entry] = DiskDict(plan.store.disk, at_hand=1)
        # Paths whose page isn't one that was found.
        self.missing = Noted()
        # Where links of the pages written last lead: most pages have the same.
        self.links: dict[str, str] = {}
        self.years = self.dates("year")
        self.count = 0

    def write(self, printer: Printer, lister: Lister) -> None:
        """Writes all pages that aren't there."""
        self.printer, self.lister = printer, lister
        with printer, lister:
            self.write_posts()
            self.write_lists()
            if self.search.path:
                self.make("search", self.plan.titled.digest(), self.write_search)
                self.search.write_index(self.units)
            self.make("404", (), self.write_404)

    def make(self, name: str, inputs: object, write: Callable[[], None]) -> None:
        """Has a unit of pages written, unless it is there."""
        made = self.units.make(name, inputs, write)
        self.count += len(made.own)
        for path, date in made.listed.items():
            self.sitemap[path] = date

    def write_404(self) -> None:
        _, page = self.printer.page("/?p=0")
        self.files.write("/404.html", self.finished(page, self.plan.places.home))

    def write_posts(self) -> None:
        """Writes the page of each post and page."""
        plan = self.plan
        for number, *near in plan.order.near(plan.paths):
            if number != plan.posts_page:
                facts = [plan.facts.get(it) for it in (number, *near)]
                self.make(f"post {number}", facts, partial(self.write_whole, number))

    def write_whole(self, number: int) -> None:
        """Writes the page of a post or page, or those of its parts."""
        plan = self.plan
        post, content = plan.store.posts[number], plan.store.content(number)
        asked = "/" if number == plan.front else f"/?{'p' if post.kind == 'post' else 'page_id'}={number}"
        is_changed = PART in content or NO_TEASER in content or post.title != plan.title(number)
        if is_changed and number != plan.front:
            self.write_parts(number, asked, content)
            return
        status, page = self.printer.page(asked)
        if status == 200:
            self.write_post(number, page, content)
        else:
            self.missing.add(plan.paths[number])
            self.files.refusals += 1

    def write_post(self, number: int, page: str, content: str, part: int = 1, parts: int = 1) -> None:
        """Writes a post's or a page's page, or one of its parts."""
        plan, post = self.plan, self.plan.store.posts[number]
        path = plan.places.piece(plan.paths[number], part)
        if post.kind == "post":
            page = with_times(page, [(post.date, plan.date(number))])
        page = with_plain_title(page, plan.title(number), plan.plain_title(number))
        page = after_post(page, self.after(number, part, parts))
        head = Head(
            path,
            escape(plan.plain_title(number), quote=False),
            self.description(number, content),
            "article" if post.kind == "post" else "website",
            self.image(content),
            plan.places.feed(plan.places.home),
            part == 1,
            parts > 1,
        )
        if number == plan.front:
            page = with_title(page, plan.name)
            if "<h1" in content:
                # A front that has a heading of its own needs none from the page's title.
                page = page.replace(f"<h1>{post.title}</h1>\n", "", 1)
        self.finish(page, head, post.date if post.kind == "post" else "")

    def write_parts(self, number: int, asked: str, content: str) -> None:
        """Writes a divided post as its author has divided it, or one of another title or content than the site's."""
        post, title = self.plan.store.posts[number], self.plan.title(number)
        first, *later = content.split(PART)
        texts = [without_teaser(first), *later]
        entry = {"id": number, "kind": post.kind, "status": "publish", "title": title, "date": post.date}
        for part, text in enumerate(texts, 1):
            _, page = self.lister.page({number: line_of({**entry, "content": text.strip("\n")})}, asked)
            self.write_post(number, page, text, part, len(texts))

    def description(self, number: int, content: str) -> str:
        item = self.plan.item(number)
        for name in DESCRIPTIONS if item else ():
            given = item.one(name).strip() if item else ""
            if given and "%%" not in given and not given.startswith("#"):
                return text_of(given, DESCRIPTION)
        return text_of(item.excerpt if item and item.excerpt.strip() else content, DESCRIPTION)

    def image(self, content: str) -> str:
        found = re.search(r"<img\b[^<>]*?\ssrc=\"(/[^\"]+)\"", content)
        return found[1] if found and not found[1].startswith("//") else ""

    def after(self, number: int, part: int, parts: int) -> str:
        """What follows a post: its parts, terms, neighbours and comments."""
        plan, made = self.plan, []
        if parts > 1:
            made.append(
                self.nav(
                    plan.words["parts"],
                    (
                        str(it) if it == part else link(plan.places.piece(plan.paths[number], it), str(it))
                        for it in range(1, parts + 1)
                    ),
                )
            )
        terms = plan.terms(number)
        if terms:
            links = ", ".join(link(path, plan.typeset(name), ' rel="tag"') for _, path, name in terms)
            made.append(f'<p class="terms">{plan.heading("filed", links)}</p>\n')
        if number in plan.order:
            made.append(self.neighbours(number))
        if comments := plan.comments(number):
            made.append(self.comments(comments))
        return "".join(made)

    @staticmethod
    def nav(label: str, items: Iterator[str]) -> str:
        listed = "".join(f"<li>{it}</li>\n" for it in items)
        return f'<nav aria-label="{escape(label)}"><ul class="links">{listed}</ul></nav>\n'

    def neighbours(self, number: int) -> str:
        plan, made = self.plan, []
        for beside, rel, word in zip(plan.order.beside(number), ("prev", "next"), ("previous", "next")):
            if beside in plan.paths:
                title = escape(plan.plain_title(beside), quote=False)
                made.append(link(plan.paths[beside], plan.heading(word, title), f' rel="{rel}"'))
        return f'<p class="near">{" ".join(f"<span>{it}</span>" for it in made)}</p>\n' if made else ""

    def comments(self, comments: list[Comment]) -> str:
        """The comments of a post, answers below what they answer."""
        known = {it.number for it in comments}
        below: dict[int, list[Comment]] = defaultdict(list)
        for it in sorted(comments, key=lambda it: (it.date, it.number)):
            below[it.parent if it.parent in known and it.parent != it.number else 0].append(it)
        count = self.plan.words["comment" if len(comments) == 1 else "comments"]
        made = self.thread(below, 0, 1)
        return f'<section class="comments" id="comments">\n<h2>{len(comments)} {count}</h2>\n{made}</section>\n'

    def thread(self, below: dict[int, list[Comment]], above: int, depth: int) -> str:
        """The answers to a comment, each with its own; very deep ones follow each other."""
        items = []
        for it in below.pop(above, []):
            items.append(
                f'<li id="comment-{it.number}">{self.comment(it)}'
                f"{self.thread(below, it.number, depth + 1) if depth < THREAD_DEPTH else ''}</li>\n"
            )
            if depth == THREAD_DEPTH:
                items.append(
                    "".join(
                        f'<li id="comment-{late.number}">{self.comment(late)}</li>\n'
                        for late in descendants(below, it.number)
                    )
                )
        return f"<ol>\n{''.join(items)}</ol>\n" if items else ""

    def comment(self, comment: Comment) -> str:
        plan = self.plan
        author = escape(comment.author, quote=False) or "?"
        if re.match(r"https?://[^\s\"'<>]+\Z", comment.address):
            author = f'<a href="{escape(comment.address)}" rel="external nofollow ugc">{author}</a>'
        date = escape(comment.date[:10])
        shown = plan.day(comment.date)
        shown_text = harmless(comment.text.strip(), "nofollow ugc")
        text = with_characters(paragraphs(texturize(shown_text, plan.quotes)))
        return f'<p class="by"><b>{author}</b>, <time datetime="{date}">{shown}</time></p>\n{text}'

    def write_search(self) -> None:
        """Writes the page of the search."""
        head = {"id": 1, "kind": "page", "status": "publish", "date": "2000-01-01 00:00:00"}
        title = escape(self.plan.words["search"], quote=False)
        _, page = self.lister.page({1: line_of({**head, "title": title, "content": LIST})}, "/?page_id=1")
        page = page if LIST in page else before_last(page, "</main>", LIST)
        # The page has an index beside it, so its address is that of a folder.
        self.finish(page, Head(self.search.path, title, is_listed=False, is_folder=True), "")

    def write_lists(self) -> None:
        """Writes all lists, by the template that the program would choose for each kind."""
        plan, templates = self.plan, self.plan.store.templates
        home = plan.home_list()
        if home:
            self.lister.list_as(
                templates.get("home") or templates.get("index"), None if plan.front else templates.get("front-page")
            )
            self.write_list(home)
        for is_dated in (False, True):
            names = ["date"] * is_dated + ["archive", "index"]
            body = next((templates[it] for it in names if it in templates), None)
            self.lister.list_as(body, None)
            for it in plan.lists:
                if (it.kind in ("year", "month", "day")) == is_dated:
                    self.write_list(it)

    def write_list(self, listing: Listing) -> None:
        """Writes the parts of a list."""
        plan = self.plan
        size = plan.store.per_page()
        parts = max(1, -(-listing.count // size))
        months = self.dates("month", listing.path) if listing.kind == "year" else ""
        posts = plan.posts_of(listing, 0, listing.count)
        for part in range(1, parts + 1):
            # (the program lists a hundred posts at most)
            sticky = plan.sticky(MOST_PER_PAGE - size) if listing.kind == "home" and part == 1 else []
            numbers = [*sticky, *(it for it in islice(posts, size) if it not in sticky)]
            facts = [plan.facts[it] for it in numbers]
            inputs = listing.path, listing.kind, listing.heading, parts, months, len(sticky), facts
            write = partial(self.write_part, listing, (part, parts), months, numbers, sticky)
            self.make(f"list {listing.path} {part}", inputs, write)

    def write_part(
        self, listing: Listing, place: tuple[int, int], months: str, numbers: list[int], sticky: list[int]
    ) -> None:
        """Writes a part of a list: which of how many, and its posts."""
        entries = {it: self.entry(it) for it in numbers}
        entries |= {it: self.made_entry(it, date) for it, date in first_dates(sticky).items()}
        _, page = self.lister.page({it: entry.line for it, entry in entries.items()}, "/")
        page = with_heading(page, listing.heading, months)
        page = with_parts(page, self.near(listing.path, *place))
        page = with_times(page, [(it.date, it.shown) for it in entries.values()])
        for it in sticky:
            # (a template may print the date in another element too)
            page = page.replace(entries[it].date, self.plan.store.posts[it].date)
        self.finish_list(page, listing, place[0])

    def near(self, path: str, part: int, parts: int) -> list[str]:
        """Links to the first part of a list, to the last and to those near one of them."""
        made, shown = [], sorted({1, parts, *range(max(1, part - NEAR), min(parts, part + NEAR) + 1)})
        for before, it in zip([0, *shown], shown if parts > 1 else []):
            made += ["…"] if it > before + 1 else []
            here = f'<span aria-current="page">{it}</span>'
            made.append(here if it == part else link(self.plan.places.part(path, it), str(it)))
        return made

    def dates(self, kind: str, above: str = "") -> str:
        """Links to the lists of all years, or of the months of a year."""
        label = self.plan.words["year" if kind == "year" else "months_label"]
        return self.nav(label, (link(*it) for it in self.plan.dates(kind, above)))

    def entry(self, number: int) -> Entry:
        """A post as lists show it, which is made for the first of them."""
        made = self.entries.get(number)
        if made is None:
            made = self.entries[number] = self.made_entry(number, self.plan.store.posts[number].date)
        return made

    def made_entry(self, number: int, date: str) -> Entry:
        """A post as a list shows it, with the date by which the program orders it."""
        plan = self.plan

        def more(text: str) -> str:
            word = text or plan.words["more"]
            # (a bracket in a title is no shortcode, and the program looks for these in attributes too)
            name = escape(word + plan.words["colon"] + plan.plain_title(number)).replace("[", "&#91;")
            to = as_link(plan.paths[number]) + (f"#more-{number}" if text or "more-" in content else "")
            return (
                f'<p><a class="more-link" href="{escape(to)}" aria-label="{name}">{escape(word, quote=False)}</a></p>'
            )

        content = plan.store.content(number)
        shown = shortened(content, plan.excerpt(number), more) if number in plan.paths else content
        given = {"id": number, "kind": "post", "status": "publish", "title": plan.title(number), "date": date}
        return Entry(date, plan.date(number), line_of({**given, "content": shown}))

    def finish_list(self, page: str, listing: Listing, part: int) -> None:
        """Writes a part of a list with its title and head."""
        plan = self.plan
        name = re.sub(r"<[^<>]*>", "", listing.heading) or ("" if listing.kind == "home" else plan.name)
        title = f"{name} – {plan.name}" if name else plan.name
        title += f" – {plan.words['part']} {part}" if part > 1 else ""
        is_listed = part == 1 and listing.kind in ("home", "category", "post_tag", "author")
        feed = plan.places.feed(listing.path if listing.has_feed else plan.places.home)
        head = Head(
            plan.places.part(listing.path, part),
            title,
            feed=feed,
            is_listed=is_listed,
            description=plan.store.options.get("blogdescription", "") if listing.kind == "home" else "",
        )
        self.finish(with_title(page, title), head, "", listing.path)

    def finish(self, page: str, head: Head, date: str, base: str = "") -> None:
        """Writes a page with its head, its links leading to the old addresses."""
        here, base = base or head.path, base or self.plan.places.home
        page = with_current(self.finished(with_head(page, self.head(head)), base), here)
        whole: str | Iterable[str] = page
        if LIST in page and head.path == self.search.path:
            # The list of the search has all posts, so it isn't made whole.
            before, _, after = page.partition(LIST)
            whole = chain([before], (self.finished(it, base) for it in self.search.listed()), [after])
        written = self.files.write(head.path, whole, is_folder=head.is_folder)
        if written and head.is_listed:
            self.units.now.listed[head.path] = date[:10]
        self.tell(head.path)

    def finished(self, page: str, base: str) -> str:
        if len(self.links) > LINKS:
            self.links.clear()
        page = with_search(page, self.search.form())
        page = region(page, "dates", self.years, is_last=True) or page
        head, mark, body = page.partition("</head>")
        page = STYLE.sub(self.style_file, head, count=1) + mark + body
        asked: set[str] = set()
        page = with_links(page, lambda it: self.plan.target(it, base), self.links, asked)
        made = self.units.now
        made.asked += asked.difference(made.asked)
        made.uploads += set(SHOWN_FILE.findall(page)).difference(made.uploads) if UPLOADS in page else ()
        return page

    def style_file(self, style: re.Match[str]) -> str:
        """A link to a file with the style of a page's head; its name changes with what is in it."""
        path = f"{self.plan.places.home}style-{sha256(style[1].encode()).hexdigest()[:8]}.css"
        self.units.share(path, style[1])
        return f'<link rel="stylesheet" href="{escape(as_link(path))}">'

    def head(self, head: Head) -> str:
        """What the head of a page gets."""
        plan = self.plan
        address = escape(plan.base + as_link(head.path))
        given = {"og:title": head.title, "og:type": head.kind, "og:url": address, "og:site_name": plan.name}
        if head.description:
            given["og:description"] = escape(head.description)
        if head.image:
            given["og:image"] = escape(plan.base + head.image)
        made = [f'<link rel="canonical" href="{address}">\n']
        if head.description:
            made.append(f'<meta name="description" content="{escape(head.description)}">\n')
        made += [
            f'<meta property="{name}" content="{text.replace(chr(34), "&quot;")}">\n' for name, text in given.items()
        ]
        if head.feed:
            made.append(f'<link rel="alternate" type="application/rss+xml" href="{escape(as_link(head.feed))}">\n')
        return "".join(made)


def first_dates(numbers: list[int]) -> dict[int, str]:
    """Dates that have the program, which lists posts by their dates, list some of them first and in this order."""
    last = datetime(9999, 12, 31, 23, 59, 59)
    return {number: str(last - timedelta(seconds=at)) for at, number in enumerate(numbers)}


def link(path: str, html: str, more: str = "") -> str:
    return f'<a href="{escape(as_link(path))}"{more}>{html}</a>'


def descendants(below: dict[int, list[Comment]], above: int) -> Iterator[Comment]:
    """All comments below one, those that are answered before their answers."""
    waiting = below.pop(above, [])
    while waiting:
        yield waiting[0]
        waiting = below.pop(waiting[0].number, []) + waiting[1:]
