"""The feeds, the sitemap and the robots.txt of an archive.

Feeds are of RSS 2.0, as https://www.rssboard.org/rss-specification has it.
"""

import re
from collections.abc import Iterable, Iterator
from datetime import datetime, timezone
from email.utils import format_datetime
from functools import partial
from heapq import nlargest
from html import escape, unescape
from itertools import chain, islice

from geanmarbles.archive.files import Files
from geanmarbles.archive.html import text_of
from geanmarbles.archive.kept import Units
from geanmarbles.archive.pages import DESCRIPTION
from geanmarbles.archive.plan import Plan
from geanmarbles.disk_tables import DiskDict
from geanmarbles.wordpress.addresses import as_link
from geanmarbles.wordpress.items import Comment

ITEMS = 10
# The limit of the sitemap protocol.
SITEMAP_URLS = 50_000


def moment(date: str) -> str:
    """A date as a feed has it, or an empty text if it is none."""
    try:
        return format_datetime(datetime.fromisoformat(date).replace(tzinfo=timezone.utc))
    except ValueError:
        return ""


class Feeds:
    """Writes the feeds of a plan."""

    def __init__(self, plan: Plan, files: Files, units: Units) -> None:
        self.plan, self.files, self.units = plan, files, units
        self.count = 0

    def write(self) -> None:
        plan, home = self.plan, self.plan.places.home
        self.write_posts(home, unescape(plan.name), [*plan.order.newest(0, ITEMS)])
        for it in plan.lists:
            if it.has_feed:
                title = unescape(re.sub(r"<[^<>]*>", "", it.heading))
                self.write_posts(it.path, f"{title} – {unescape(plan.name)}", [*plan.posts_of(it, 0, ITEMS)])
        made = self.units.make("feed of comments", plan.titled.digest(), lambda: self.write_comments(home))
        self.count += len(made.own)

    def write_posts(self, path: str, title: str, numbers: list[int]) -> None:
        """Writes the feed of some posts."""
        inputs = path, title, [self.plan.facts[it] for it in numbers]
        write = partial(self.write_feed, path, title, map(self.post, numbers))
        self.count += len(self.units.make(f"feed of {path}", inputs, write).own)

    def write_feed(self, path: str, title: str, items: Iterable[str]) -> None:
        feed = self.plan.places.feed(path)
        tagline = self.plan.store.options.get("blogdescription", "")
        text = (
            '<?xml version="1.0" encoding="UTF-8"?>\n<rss version="2.0" xmlns:atom="http://www.w3.org/2005/Atom"'
            ' xmlns:dc="http://purl.org/dc/elements/1.1/">\n<channel>\n'
            f"<title>{xml(title)}</title>\n<link>{xml(self.plan.base + as_link(path))}</link>\n"
            f"<description>{as_html(unescape(tagline))}</description>\n"
            f"<language>{xml(self.plan.site.language)}</language>\n"
            f'<atom:link href="{xml(self.plan.base + as_link(feed))}" rel="self" type="application/rss+xml"/>\n'
            f"{''.join(items)}</channel>\n</rss>\n"
        )
        self.files.write(feed, text, "index.xml")

    def post(self, number: int) -> str:
        """A post as an item of a feed. Its identity stays that of the old feed, so that readers know it again."""
        plan, item = self.plan, self.plan.item(number)
        address = plan.base + as_link(plan.paths.get(number, "/"))
        date = item.date_gmt if item and not item.date_gmt.startswith("0000") else plan.store.posts[number].date
        guid = item.guid if item and item.guid else address
        made = [f"<title>{xml(plan.plain_title(number))}</title>", f"<link>{xml(address)}</link>"]
        made += [f'<guid isPermaLink="{"true" if guid == address else "false"}">{xml(guid)}</guid>']
        made += [f"<pubDate>{moment(date)}</pubDate>"] if moment(date) else []
        if author := plan.author(number):
            made.append(f"<dc:creator>{xml(author[1])}</dc:creator>")
        made += [f"<category>{xml(name)}</category>" for _, _, name in plan.terms(number)]
        text = item.excerpt if item and item.excerpt.strip() else plan.store.content(number)
        made.append(f"<description>{as_html(text_of(text, 2 * DESCRIPTION))}</description>")
        return "<item>" + "".join(made) + "</item>\n"

    def write_comments(self, home: str) -> None:
        """The newest comments of the whole site."""
        plan, items = self.plan, []
        found: Iterator[tuple[Comment, int]] = ((it, number) for number in plan.paths for it in plan.comments(number))
        for comment, number in nlargest(ITEMS, found, key=lambda it: (it[0].date, it[0].number)):
            address = f"{plan.base}{as_link(plan.paths[number])}#comment-{comment.number}"
            title = f"{plan.words['comments_on']} {plan.plain_title(number)}: {comment.author}"
            items.append(
                f"<item><title>{xml(title)}</title><link>{xml(address)}</link><guid>{xml(address)}</guid>"
                f"<pubDate>{moment(comment.date)}</pubDate>"
                f"<description>{as_html(text_of(comment.text, 2 * DESCRIPTION))}</description></item>\n"
            )
        path = f"{home}comments" + ("/" if plan.places.has_slash else "")
        self.write_feed(path, f"{plan.words['comments_of']} {unescape(plan.name)}", items)


def xml(text: str) -> str:
    """A text in XML, without the characters that XML forbids."""
    return escape(re.sub(r"[\x00-\x08\x0b\x0c\x0e-\x1f\ufffe\uffff]", " ", text))


def as_html(text: str) -> str:
    """A plain text as a description, which is HTML to those who read a feed."""
    return xml(escape(text, quote=False))


def write_sitemap(plan: Plan, files: Files, listed: DiskDict[str, str]) -> None:
    """Writes sitemap.xml, in several files if one would be too long, and robots.txt."""
    home = plan.places.home
    namespace = 'xmlns="http://www.sitemaps.org/schemas/sitemap/0.9"'
    head = '<?xml version="1.0" encoding="UTF-8"?>\n'
    urls = (
        f"<url><loc>{xml(plan.base + as_link(path))}</loc>{f'<lastmod>{date}</lastmod>' if date else ''}</url>\n"
        for path, date in listed.items()
    )
    count = max(1, -(-len(listed) // SITEMAP_URLS))
    names = [f"{home}sitemap{f'-{it}' if count > 1 else ''}.xml" for it in range(1, count + 1)]
    for name in names:
        piece = islice(urls, SITEMAP_URLS)
        files.write(name, chain([f"{head}<urlset {namespace}>\n"], piece, ["</urlset>\n"]))
        # (what a file that couldn't be written would have had isn't in the next one)
        for _ in piece:
            pass
    if len(names) > 1:
        maps = "".join(f"<sitemap><loc>{xml(plan.base + it)}</loc></sitemap>\n" for it in names)
        files.write(f"{home}sitemap.xml", f"{head}<sitemapindex {namespace}>\n{maps}</sitemapindex>\n")
    files.write("/robots.txt", f"User-agent: *\nDisallow:\n\nSitemap: {plan.base}{home}sitemap.xml\n")
