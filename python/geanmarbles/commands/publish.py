"""Writes a site that came from WordPress as files for any web server, at the addresses that it had there.

    geanmarbles publish [--program PATH] [--snippets] [--uploads FROM] [--address URL] [--date-format FORMAT]
                        [--category-base NAME] [--tag-base NAME] [--check] EXPORT.xml SITE.db DIR

For example:

    geanmarbles publish --uploads uploads.zip --check export.xml site.db archive

SITE.db is the site in a file that `geanmarbles import wordpress EXPORT.xml` and the program have made, with all edits
since, by --snippets if it was begun with that option. EXPORT.xml is the same export: it has the old addresses, and what
the program doesn't keep, such as terms, authors, comments and excerpts.

DIR/public is what a web server serves. Each page in it is printed by the program, over the site's own templates and
plugins: posts and pages at their permalinks, divided posts in their parts, the list of all posts, lists by category,
tag, author, year, month and day, and 404.html. Dates, terms, comments, neighbours, canonical links, descriptions and
titles of lists are put into the printed pages, and a form that leads to a search, which needs no server. Beside them
are feeds, sitemap.xml and robots.txt. DIR/nginx.conf serves the folder, and sends on addresses that moved, such as
/?p=7; .htaccess files and _redirects in DIR/public do the same on Apache and Netlify.

FROM is a copy of wp-content/uploads, a folder or a zip or tar archive of it; what the pages and attachments need is
copied. URL is where the archive will be, if it isn't where the old site was: such as https://www.example.org, with
the scheme. FORMAT is one of PHP's `date`, such as `j. F Y`; otherwise it is the site's option date_format, or that of
its language. A NAME is what the addresses of categories or tags began with, if it wasn't `category` or `tag`.

Drafts, and posts that were private or had a password, are in no page, list or feed. Run again after edits, it prints
what they reach, writes what has changed and removes what is gone, so that a copy by rsync sends little; what it knows
of the last run is in DIR/kept.db. With --check every link of the pages
is followed too. Standard error says how far it is, and at the end what the old site had and this hasn't. The exit
status is 0, 1 if the site can't be read or --check found links that lead nowhere, and 2 if the arguments are bad.
"""

import argparse
import sqlite3
import sys
import time
from itertools import chain
from pathlib import Path
from typing import Any
from urllib.parse import unquote, urlsplit

from geanmarbles.archive.check import check
from geanmarbles.archive.feeds import Feeds, write_sitemap
from geanmarbles.archive.files import Files, Noted, copy_uploads
from geanmarbles.archive.kept import Kept, Units, digest_of, digest_of_each, sum_of
from geanmarbles.archive.moved import Moved, write_moved
from geanmarbles.archive.pages import Pages
from geanmarbles.archive.plan import Plan, Settings
from geanmarbles.archive.search import Search
from geanmarbles.archive.store import Lister, NotRead, Printer, read_store
from geanmarbles.arguments import Parser
from geanmarbles.client.program import add_program_option, check_program, end_by_signals
from geanmarbles.client.replies import Ended, NoReply
from geanmarbles.disk_tables import Disk, DiskSet
from geanmarbles.wordpress.addresses import Bases
from geanmarbles.wordpress.export import Refused
from geanmarbles.wordpress.harmless import split

# How often standard error says how far the work is, in seconds.
EVERY = 5
# Kinds of items that never have a page of their own.
WITHOUT_PAGE = {
    "nav_menu_item",
    "attachment",
    "revision",
    "custom_css",
    "customize_changeset",
    "oembed_cache",
    "wp_block",
    "wp_template",
    "wp_template_part",
    "wp_global_styles",
    "wp_navigation",
    "user_request",
}


class Progress:
    """Says now and then how many pages are written."""

    def __init__(self) -> None:
        self.count, self.last = 0, time.monotonic()

    def __call__(self, path: str) -> None:
        self.count += 1
        if time.monotonic() - self.last >= EVERY:
            self.last = time.monotonic()
            say(f"{self.count:,} pages, the last of them {path}")


def say(text: str) -> None:
    print(f"publish: {text}", file=sys.stderr, flush=True)


def fetched(plan: Plan, units: Units, files: Files, source: Path | None) -> Noted:
    """Copies the files that pages and attachments need, and returns those that aren't there."""
    attachments = (it for it in plan.site.of_kind("attachment") if it.file and plan.is_open(it))
    attached = DiskSet(plan.store.disk, (unquote(split(it.file).path) for it in attachments))
    needed = DiskSet(plan.store.disk, chain(attached, map(unquote, units.uploads)))
    if source is None:
        return Noted(it for it in needed if not (files.root / it.lstrip("/")).is_file())
    return Noted(copy_uploads(source, files, needed, attached))


def tell_missing(plan: Plan, pages: Pages, files: Files, lacking: Noted) -> None:
    """Says which addresses and files the old site had, and this hasn't."""
    kinds = plan.site.kinds
    lost = (plan.site.items[it] for kind in ("post", "page") for it in kinds.get(kind, ()) if it not in plan.facts)
    if gone := Noted(plan.places.own(it) or it.link for it in lost if it.is_public()):
        say(f"not in the site any more, or not published there: {gone}")
    others = kinds.keys() - {"post", "page", *WITHOUT_PAGE}
    counts = {it: sum(item.status == "publish" for item in plan.site.of_kind(it)) for it in sorted(others)}
    if any(counts.values()):
        named = ", ".join(f"{count:,} {kind}" for kind, count in counts.items() if count)
        say(f"of types that aren't carried over, without an address here: {named}")
    if pages.missing:
        say(f"not found by the program: {pages.missing}")
    if plan.clashes:
        say(f"addresses of several posts, of which one has it: {plan.clashes}")
    for path, reason in files.refused.items():
        say(f"not written: {path}: {reason}")
    if lacking:
        say(f"{len(lacking):,} uploads aren't there: {lacking}")
    if not pages.search.path:
        say("there is no search: other pages have the addresses that it can have")
    say("without an address here: feeds of single posts, which lead to these")


def follow_links(plan: Plan, moved: Moved, files: Files) -> bool:
    """Follows every link, and says which lead nowhere."""
    found = check(files.root, plan.site.host(), moved.target, plan.store.disk)
    say(f"{found.links:,} links in {found.pages:,} pages followed, {len(found.where):,} addresses lead nowhere")
    for it in found.dead():
        say(f"  {it.address}, from {it.pages:,} pages, first {it.first}")
    return not found.where


def published(arguments: argparse.Namespace) -> bool:
    """Writes the whole site, and returns whether all is well."""
    begun = time.monotonic()
    # What grows with the site is there, so that memory doesn't.
    disk, kept = Disk(), Kept(arguments.folder)
    site, export = kept.site(arguments.export)
    store = read_store(arguments.program, arguments.database, disk)
    bases = Bases(arguments.category_base, arguments.tag_base)
    settings = Settings(bases, arguments.date_format, arguments.address or "")
    plan = Plan(site, store, settings)
    files = Files(arguments.folder, disk)
    search = Search(plan, files)
    seed = digest_of(export, sum_of(Path(arguments.program[0])), arguments.program[1:], settings, store.settings)
    seed = digest_of(seed, plan.front, plan.posts_page, [*plan.dates("year")], search.path)
    units = Units(kept, files, seed, lambda it: plan.target(it, "/"))
    progress = Progress()
    pages = Pages(plan, files, units, search, progress)
    pages.write(Printer(arguments.program, arguments.database), Lister(arguments.program, store))
    feeds = Feeds(plan, files, units)
    feeds.write()
    units.make("sitemap", digest_of_each(pages.sitemap.items()), lambda: write_sitemap(plan, files, pages.sitemap))
    lists = digest_of_each((it.path, it.kind) for it in plan.lists)
    units.make("moved", (plan.placed.digest(), lists), lambda: write_moved(Moved(plan, search.path), files))
    lacking = fetched(plan, units, files, arguments.uploads)
    units.end()
    files.end()
    store.close()
    tell_missing(plan, pages, files, lacking)
    is_well = follow_links(plan, Moved(plan, search.path), files) if arguments.check else True
    kept.end()
    say(
        f"{pages.count:,} pages, {progress.count:,} of them printed, and {feeds.count:,} feeds in {files.root}: "
        f"{files.written:,} files written, {files.unchanged:,} unchanged, {files.removed:,} removed, "
        f"in {time.monotonic() - begun:.1f} s"
    )
    return is_well


def address(text: str) -> str:
    parts = urlsplit(text)
    if parts.scheme not in ("http", "https") or not parts.netloc or parts.path.strip("/"):
        raise argparse.ArgumentTypeError(f"an address is like https://www.example.org, not {text}")
    return text


def read_arguments() -> argparse.Namespace:
    parser = Parser(__doc__)
    add_program_option(parser)
    parser.add_argument(
        "--uploads", metavar="FROM", type=Path, help="a copy of wp-content/uploads, or an archive of it"
    )
    how: dict[str, Any] = {"metavar": "URL", "type": address}
    parser.add_argument("--address", help="where the archive will be, if not where the old site was", **how)
    parser.add_argument("--date-format", metavar="FORMAT", default="", help="how dates are written, as in PHP's `date`")
    parser.add_argument(
        "--category-base", metavar="NAME", default=Bases().category, help="`category` if it is left out"
    )
    parser.add_argument("--tag-base", metavar="NAME", default=Bases().tag, help="`tag` if it is left out")
    parser.add_argument("--check", action="store_true", help="follow every link of the pages")
    parser.add_argument("export", metavar="EXPORT.xml", type=Path, help="what Tools > Export of WordPress wrote")
    parser.add_argument("database", metavar="SITE.db", help="the site in a file")
    parser.add_argument("folder", metavar="DIR", type=Path, help="the folder for the archive")
    return parser.parse_args()


def main() -> int:
    arguments = read_arguments()
    check_program(arguments.program)
    if not Path(arguments.database).is_file():
        sys.exit(f"publish: there is no file {arguments.database}")
    end_by_signals()
    try:
        return 0 if published(arguments) else 1
    except (NotRead, Refused, OSError, sqlite3.Error) as fault:
        sys.exit(f"publish: {fault}")
    except (Ended, NoReply):
        sys.exit("publish: the program ended before it had replied")
    except KeyboardInterrupt:
        sys.exit("publish: stopped; what is written stays, and the next run goes on")
