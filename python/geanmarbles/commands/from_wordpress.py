"""Turns WordPress's own export file into commands for the program `site`.

    geanmarbles import wordpress [--all] [--templates FILE] [--contact ADDRESS] [--menu NAME] [--posts-page NAME]
                                 [--posts-per-page N] [--author LOGIN=SLUG ..] [--plugin-tags NAMES] [--files FILE]
                                 [--fetch FROM DIR] EXPORT.xml > COMMANDS.jsonl

For example:

    geanmarbles import wordpress export.xml | geanmarbles site --database site.db

EXPORT.xml is what Tools > Export of WordPress writes (WXR 1.2). The commands are imports: posts and pages, published
and drafts, with the site's title and tagline and the templates of FILE, an object of template names and trees. If FILE
isn't given, it is archive-templates.json of examples. The program limits a line's length and an import's posts, so a
large site takes several imports.

Titles and contents are written as WordPress shows them: with paragraphs, curly quotes, captions, galleries, players,
and links and files at the site's own paths. Featured images come before the text, tags of page builders are gone with
what they show kept, and a form becomes a note, or with --contact an address to write to. The front is the page that the
site had there, and --posts-page names the page that listed the posts. --plugin-tags has the shortcodes, with commas
between them, that a plugin of the program has, whose texts stay as they are.

N is how many posts a part of a list had, 10 if it isn't known: the option posts_per_page, 1 to 100. SLUG is the name
that an author's page had in its address, if it isn't made of the login. Neither is in an export.

In the templates a node {"links": NAME} becomes a list of links, for which the program has no tag: `menu` the site's
menu, the main one, or the one that --menu names, or if there is none the tree of pages; `pages` that tree; `months`
those that have posts; `parts` those of the front. {"site": "language"} and {"site": "tagline"} are
texts of the site.

FILE of --files gets a line for each file below /wp-content/uploads/ that posts and pages need: in contents, galleries
and as featured images. --fetch copies these from FROM, a copy of wp-content/uploads, as a folder or a zip or tar
archive of it, to the same paths below DIR, such as DIR/wp-content/uploads/2016/05/a.jpg, and standard error says which
of them FROM doesn't have. `geanmarbles publish` writes such a site as files, and takes uploads from FROM or from DIR.

Standard error says what is left out and what isn't shown as in WordPress, by kinds, with the first posts of each; with
--all each item of the export that is concerned has a line there, with its place. docs/FROM-WORDPRESS.md says what is
carried over. The exit status is 0 if a post or page could be carried over, 1 if none could (nothing is written then),
and 2 if the arguments or the files are at fault. A document type is such a fault: it could define entities, and no
export has one.
"""

import argparse
import json
import re
import sys
from collections import Counter
from collections.abc import Iterable, Mapping
from datetime import datetime
from pathlib import Path
from typing import Any
from urllib.parse import unquote

from geanmarbles.archive.files import Copies, Noted, copy_uploads
from geanmarbles.arguments import Parser
from geanmarbles.output import quiet_output
from geanmarbles.paths import EXAMPLES
from geanmarbles.wordpress.archive import Archive, Wishes
from geanmarbles.wordpress.export import CARRIED, SITE_OPTIONS, Export, Holder, Refused, read_export, shown
from geanmarbles.wordpress.items import WholeSite, taking

TEMPLATES = EXAMPLES / "archive-templates.json"
TEMPLATE_NAMES = "index home front-page single page singular date archive 404 header footer content".split()

# Limits of the program (docs/BEHAVIOUR.md, Limits).
LINE_BYTES = 1_048_576
IMPORT_POSTS = 10_000
TITLE_BYTES = 65_536
CONTENT_BYTES = 524_288
OPTION_BYTES = 65_536
LARGEST_ID = 2_147_483_647
# How many posts a part of a list has if the option posts_per_page isn't set, and at most.
PER_PAGE, MOST_PER_PAGE = 10, 100
# The longest list of links. A template has at most 262,144 bytes of text.
LINKS_BYTES = 50_000
LINKS = ("menu", "months", "pages", "parts")
LINKS_NODE = re.compile(rb'\{"links":("[^"]*"|[^}]*)\}')
SITE_NODE = re.compile(rb'\{"site":("[^"]*"|[^}]*)\}')
# An entry of an import, what of it isn't shown as in WordPress, and why an item isn't carried over: a word and a
# reason.
Entry = dict[str, Any]
Left = Mapping[str, Counter[str]]
Against = tuple[str, str]
# How many items of a kind the report names.
NAMED = 3


def read_templates(path: Path) -> dict[str, Any]:
    """Reads a file of templates. Their trees are for the program to judge."""
    try:
        templates = json.loads(path.read_text(encoding="utf-8"))
        compact(templates)
    except OSError as error:
        raise Refused(f"{path}: {error.strerror}") from error
    except (ValueError, RecursionError) as error:
        raise Refused(f"{path}: this is no JSON: {error}") from error
    if not isinstance(templates, dict):
        raise Refused(f"{path}: this is no object of template names and trees")
    for name, tree in templates.items():
        if name not in TEMPLATE_NAMES:
            raise Refused(f"{path}: {shown(name)} is no template name: those are {', '.join(TEMPLATE_NAMES)}")
        if not isinstance(tree, list):
            raise Refused(f"{path}: the template {name} is no list of nodes")
    for node in LINKS_NODE.finditer(compact(templates)):
        if node[1].decode().strip('"') not in LINKS:
            raise Refused(f"{path}: there are no links {node[1].decode()}: those are {', '.join(LINKS)}")
    if len(import_line({"templates": templates}, [])) > LINE_BYTES:
        raise Refused(f"{path}: these templates are longer than a line's {LINE_BYTES:,} bytes")
    return templates


def compact(value: object) -> bytes:
    """A value's JSON in UTF-8, as short as can be: the limit on a line counts its bytes."""
    return json.dumps(value, ensure_ascii=False, allow_nan=False, separators=(",", ":")).encode()


def size(text: str) -> int:
    return len(text.encode())


def is_date(text: str) -> bool:
    """Whether the program takes a text as a date. WordPress's date of zeros isn't one."""
    if not re.fullmatch(r"[0-9]{4}-[0-9]{2}-[0-9]{2} [0-9]{2}:[0-9]{2}:[0-9]{2}", text):
        return False
    try:
        year, month, day, hour, minute, second = map(int, re.split("[- :]", text))
        datetime(year, month, day, hour, minute, second)
    except ValueError:
        return False
    return True


def reason_against(item: Holder, taken: Mapping[int, int]) -> Against | None:
    """Why an item can't be carried over: a word for the sum and a reason, or None. `taken` has the line of each ID."""
    missing = [name for name in CARRIED if name not in item.texts]
    if item.fault or missing:
        return "form", item.fault or f"it has no element {missing[0]}"
    kind, status, number, date, title, content = (item.texts[name] for name in CARRIED)
    if kind.strip() not in ("post", "page"):
        return "type", f"its type {shown(kind)} is neither post nor page"
    if status.strip() not in ("publish", "draft"):
        return "status", f"its status {shown(status)} is neither publish nor draft"
    if item.texts.get("wp:post_password"):
        return "password", "it has a password, and the program would show it without"
    if not re.fullmatch("[1-9][0-9]{0,9}", number.strip()) or int(number) > LARGEST_ID:
        return "ID", f"its ID {shown(number)} isn't one from 1 to {LARGEST_ID:,}"
    if int(number) in taken:
        return "repeated ID", f"its ID is that of the item in line {taken[int(number)]}"
    if against := reason_of_size(title, content):
        return against
    if not is_date(date.strip()):
        return "date", f"its date {shown(date)} isn't one"
    return None


def reason_of_size(title: str, content: str) -> Against | None:
    """Why the texts of an item can't be carried over, or None."""
    if size(title) > TITLE_BYTES:
        return "size", f"its title has {size(title):,} bytes, and {TITLE_BYTES:,} is the maximum"
    if size(content) > CONTENT_BYTES:
        return "size", f"its content has {size(content):,} bytes, and {CONTENT_BYTES:,} is the maximum"
    return None


def entry_of(item: Holder) -> Entry:
    """A post or page as an entry of an import."""
    kind, status, number, date, title, content = (item.texts[name] for name in CARRIED)
    head = {"id": int(number), "kind": kind.strip(), "status": status.strip()}
    return {**head, "title": title, "content": content, "date": date.strip()}


def plural(count: int, what: str) -> str:
    """A count in words: 2 comments, 1 category."""
    odd = {
        "category": "categories",
        "text outside its elements": "texts outside their elements",
        "image of another host": "images of another host",
        "file of another host": "files of another host",
        "link that leads nowhere": "links that lead nowhere",
    }
    return f"{count:,} {what if count == 1 else odd.get(what, what + 's')}"


def listed(counts: Mapping[str, int]) -> str:
    return ", ".join(plural(count, what) for what, count in counts.items())


class Group:
    """Items of one kind: how many, how often each name occurs in them, and which came first."""

    def __init__(self) -> None:
        self.count, self.line = 0, 0
        self.names: Counter[str] = Counter()
        self.first: list[str] = []

    def add(self, line: int, called: str, names: Iterable[str] = ()) -> None:
        self.count += 1
        self.names += Counter(names)
        self.line = self.line or line
        if len(self.first) < NAMED:
            self.first.append(called)

    def items(self) -> str:
        more = self.count - len(self.first)
        return ", ".join(self.first) + (f" and {more:,} more" if more else "")


class Report:
    """Says on standard error what is left out and what isn't shown as in WordPress, and counts it."""

    def __init__(self, path: Path, names_all: bool) -> None:
        self.path, self.names_all = path, names_all
        self.carried: Counter[str] = Counter()
        self.lost: Counter[str] = Counter()
        self.left_out: dict[str, Group] = {}
        self.differing: dict[str, Group] = {}
        self.controls = Group()
        # Contents with a heading that skips a level, which stays as it is.
        self.skipping = Group()
        self.control_count = self.mended = 0
        self.unlinked: Counter[str] = Counter()
        self.told: list[str] = []

    def say(self, line: int, text: str) -> None:
        print(f"{self.path}:{line}: {text}" if line else f"{self.path}: {text}", file=sys.stderr)

    def say_each(self, line: int, text: str) -> None:
        if self.names_all:
            self.say(line, text)

    def leave_out(self, item: Holder, word: str, reason: str) -> None:
        self.left_out.setdefault(word, Group()).add(item.line, item.called())
        self.say_each(item.line, f"{item.called()} is left out: {reason}")

    def carry(self, item: Holder, entry: Entry, left: Left) -> None:
        """Counts an item that is carried over, of which `left` isn't as in WordPress."""
        self.carried[("draft " if entry["status"] == "draft" else "") + entry["kind"]] += 1
        self.lose(item.line, item.called(), item.lost())
        if skips_levels(entry["content"]):
            self.skipping.add(item.line, item.called())
            self.say_each(item.line, f"{item.called()} has a heading that skips a level")
        for kind, names in left.items():
            self.differing.setdefault(kind, Group()).add(item.line, item.called(), names)
        if left:
            said = ", ".join(self.kind_of(kind, names) for kind, names in left.items())
            self.say_each(item.line, f"{item.called()} isn't shown as in WordPress: {said}")

    def lose(self, line: int, what: str, lost: Counter[str]) -> None:
        self.lost += lost
        if lost:
            self.say_each(line, f"{what} is carried over without {listed(lost)}")

    def replace_controls(self, controls: Iterable[tuple[Holder, int]], site: Holder) -> None:
        """Counts control characters, which became spaces."""
        for holder, count in controls:
            what = "the site" if holder is site else holder.called()
            self.control_count += count
            self.controls.add(holder.line, what)
            self.say_each(holder.line, f"{what}: {self.spaces(count)}")

    @staticmethod
    def spaces(count: int) -> str:
        became = "became a space" if count == 1 else "became spaces"
        return f"{plural(count, 'control character')}, which XML forbids, {became}"

    @staticmethod
    def kind_of(kind: str, names: Counter[str]) -> str:
        """How often something occurs, and under which names."""
        named = ", ".join(f"{count:,} {name}" for name, count in names.most_common(8) if name)
        more = ", .." if len(names) > 8 else ""
        return plural(sum(names.values()), kind) + (f" ({named}{more})" if named else "")

    def tell_archive(self, archive: Archive, files: Path | None) -> None:
        """Says what an archive needs and has been made of, and writes the list of its files."""
        needed = sorted(archive.shown.files)
        if files:
            files.write_text("".join(f"{it}\n" for it in needed), encoding="utf-8")
        where = f": they are listed in {files}" if files else ": --files FILE lists them"
        self.told.append(f"{plural(len(needed), 'file')} of the old host are needed by posts and pages{where}")
        menu = f"the menu {archive.menu_name!r}" if archive.menu_name else "the tree of pages, since there is no menu"
        self.told.append(f"the links at the top of each page are {menu}")
        options = archive.options()
        if "page_on_front" in options and "page_for_posts" not in options:
            self.told.append("the front is a page, and none is known that lists the posts: --posts-page NAME names it")
        self.tell_addresses(archive)

    def tell_addresses(self, archive: Archive) -> None:
        """Says which addresses depend on what isn't in an export."""
        number = archive.per_page()
        if number and not archive.wishes.per_page:
            guess = f"a template of the site has {number}: --posts-per-page N says otherwise"
            self.told.append(f"how many posts a part of a list had isn't in an export, but {guess}")
        elif not number and self.carried["post"] > 1:
            told = f"how many posts a part of a list had isn't in an export, and {PER_PAGE} are taken"
            lost = "parts such as /page/2/ have other posts, and the last may be missing"
            self.told.append(f"{told}: --posts-per-page N says it, or {lost}")
        logins = (it for it in archive.site.authors if it not in archive.wishes.authors)
        if odd := [f"{archive.places.author(it)} of {it!r}" for it in logins if archive.places.author_slug(it) != it]:
            told = "addresses of authors that are made of logins, and may have been others"
            self.told.append(f"{told}: {Noted(odd)}: --author LOGIN=SLUG says them")

    def tell_fetched(self, source: Path, copies: Copies, missing: list[str]) -> None:
        """Says which files were fetched, and which weren't."""
        counts = f"{copies.written:,} copied, {copies.unchanged:,} there already"
        self.told.append(f"files from {source} in {copies.root}: {counts}")
        for path in missing:
            self.say_each(0, f"{source} doesn't have {path}, or not as a file to be served")
        if missing:
            self.told.append(f"{plural(len(missing), 'needed file')} not found in {source}: {Noted(missing)}")

    def sum_up(self, count: int) -> None:
        """Says what was counted; what is carried over comes last."""
        if self.control_count:
            self.say(self.controls.line, f"{self.spaces(self.control_count)}: in {self.controls.items()}")
        if self.mended:
            self.say(0, f"{self.mended:,} &, which WordPress hadn't escaped, became &amp;")
        reasons = ", ".join(f"{it.count:,} for the {word}" for word, it in self.left_out.items())
        total = sum(it.count for it in self.left_out.values())
        self.say(0, f"left out whole: {total:,}{f' ({reasons})' if reasons else ''}")
        for word, it in self.left_out.items():
            self.say(it.line, f"left out for the {word}: {it.items()}")
        for kind, it in self.differing.items():
            self.say(it.line, f"not shown as in WordPress: {self.kind_of(kind, it.names)}: in {it.items()}")
        if self.skipping.count:
            text = f"{plural(self.skipping.count, 'content')} with a heading that skips a level, which isn't moved"
            self.say(self.skipping.line, f"{text}: {self.skipping.items()}")
        for links, number in self.unlinked.items():
            self.say(0, f"the list of {links} ends after {LINKS_BYTES:,} bytes: {number:,} more have no link")
        self.say(0, f"left out of what is carried over: {listed(self.lost) or 'nothing else'}")
        self.say(0, "of a post or page its type, status, ID, date, title and content are carried over, and no more")
        for text in self.told:
            self.say(0, text)
        if not self.names_all and (self.left_out or self.differing or self.lost or self.control_count):
            self.say(0, "--all gives each of them a line of its own, with the reason")
        self.say(0, f"carried over: {listed(self.carried) or 'nothing'}, in {count:,} line{'' if count == 1 else 's'}")


def skips_levels(content: str) -> bool:
    """Whether a heading of a content is more than one level below the one before it; the title's is the first."""
    levels = [1, *(int(it) for it in re.findall(r"<h([1-6])\b", content, re.I))]
    return any(below > above + 1 for above, below in zip(levels, levels[1:]))


def carried_numbers(export: Export) -> set[int]:
    """The IDs of the posts and pages that can be carried over, as far as the export tells."""
    taken: dict[int, int] = {}
    for item in export.items:
        if not reason_against(item, taken):
            taken[int(item.texts["wp:post_id"])] = item.line
    return set(taken)


def carried_posts(export: Export, report: Report, archive: Archive) -> list[bytes]:
    """The JSON of each post and page that can be carried over; all others are reported."""
    entries: list[bytes] = []
    taken: dict[int, int] = {}
    room = LINE_BYTES - len(import_line({}, []))
    for item in export.items:
        against = reason_against(item, taken)
        kept, left = archive.entry(entry_of(item)) if not against else ({}, {})
        entry = compact(kept)
        against = against or reason_of_size(kept["title"], kept["content"])
        if not against and len(entry) > room:
            against = "size", f"its command would be longer than a line's {LINE_BYTES:,} bytes"
        if against:
            report.leave_out(item, *against)
        else:
            taken[int(item.texts["wp:post_id"])] = item.line
            entries.append(entry)
            report.carry(item, kept, left)
    return entries


def links_to_parts(posts: int, per_page: int) -> list[str]:
    """A list item for each part of a front of some posts, if there are several."""
    count = -(-posts // per_page)
    paths = ["/", *(f"/?paged={part}" for part in range(2, count + 1))]
    return [f'<a href="{path}">{part}</a>' for part, path in enumerate(paths, 1)] if count > 1 else []


def with_links(line: bytes, report: Report, archive: Archive) -> bytes:
    """An import whose nodes of links, and of the site's texts, became texts."""
    for name, text in archive.settings().items():
        line = line.replace(compact({"site": name}), compact(text))
    if unknown := SITE_NODE.search(line):
        raise Refused(f"the templates: there is no text {unknown[1].decode()} of the site")
    lists = {**archive.lists, "parts": links_to_parts(report.carried["post"], archive.per_page() or PER_PAGE)}
    for name in LINKS:
        node = compact({"links": name})
        if node not in line:
            continue
        text, items = "", lists[name]
        for number, item in enumerate(items):
            if size(text) + size(item) > LINKS_BYTES:
                report.unlinked[name] = len(items) - number
                break
            text += f"<li>{item}</li>\n"
        line = line.replace(node, compact(text))
    return line


def site_options(site: Holder, report: Report) -> dict[str, str]:
    """The options that the site's own texts become; one that is too long is reported."""
    options = {}
    for name, option in SITE_OPTIONS.items():
        text = site.texts.get(name, "")
        if size(text) > OPTION_BYTES:
            site.counts[f"{option} of more than {OPTION_BYTES:,} bytes"] += 1
        elif text:
            options[option] = text
    report.lose(site.line, "the site", site.lost())
    return options


def import_line(settings: bytes | dict[str, Any], entries: Iterable[bytes]) -> bytes:
    """An import of some settings and of posts, given as JSON; the settings are those of an import too, or an object."""
    head = settings if isinstance(settings, bytes) else import_head(settings)
    return head + b",".join(entries) + b"]}}"


def import_head(settings: dict[str, Any]) -> bytes:
    """The beginning of an import, up to its posts."""
    return compact({"cmd": "import", "site": {"version": 1, **settings, "posts": []}})[: -len(b"]}}")]


def import_lines(head: bytes, entries: Iterable[bytes]) -> list[bytes]:
    """Imports of all entries, the first of which begins as is given, each as long as the limits on a line and on an
    import let it be."""
    lines: list[bytes] = []
    held: list[bytes] = []
    used = len(import_line(head, []))
    for entry in entries:
        if used + len(entry) + bool(held) > LINE_BYTES or len(held) == IMPORT_POSTS:
            lines.append(import_line(head, held))
            head, held = import_head({}), []
            used = len(import_line(head, []))
        used += len(entry) + bool(held)
        held.append(entry)
    return [*lines, import_line(head, held)]


def tag_names(text: str) -> frozenset[str]:
    """The names of some shortcodes, in small letters."""
    names = text.lower().split(",")
    for it in names:
        if not re.fullmatch(r"[a-z][\w-]*", it, re.ASCII):
            raise argparse.ArgumentTypeError(f"names of shortcodes with commas between them, not {text}")
    return frozenset(names)


def per_page(text: str) -> int:
    if not re.fullmatch("[1-9][0-9]{0,2}", text) or int(text) > MOST_PER_PAGE:
        raise argparse.ArgumentTypeError(f"a number from 1 to {MOST_PER_PAGE}, not {text}")
    return int(text)


def author(text: str) -> tuple[str, str]:
    """A login and the name of its author's page."""
    login, _, slug = text.rpartition("=")
    if not login or not re.fullmatch(r"[\w%-]+", slug):
        raise argparse.ArgumentTypeError(f"a login, = and what the address of its author's page ends with, not {text}")
    return login, slug


def read_arguments() -> argparse.Namespace:
    parser = Parser(__doc__)
    parser.add_argument("--all", action="store_true", help="name each item that is left out or shown otherwise")
    templates = "the templates, in JSON, archive-templates.json if it is left out"
    parser.add_argument("--templates", metavar="FILE", type=Path, default=TEMPLATES, help=templates)
    contact = "an address to write to, in place of forms"
    parser.add_argument("--contact", metavar="ADDRESS", default="", help=contact)
    parser.add_argument("--menu", metavar="NAME", default="", help="the menu to show")
    parser.add_argument("--posts-page", metavar="NAME", default="", help="the page that lists posts")
    how: dict[str, Any] = {"metavar": "N", "type": per_page, "default": 0}
    parser.add_argument("--posts-per-page", help="how many posts a part of a list had", **how)
    how = {"metavar": "LOGIN=SLUG", "type": author, "action": "append", "default": []}
    parser.add_argument("--author", help="what the address of an author's page ends with", **how)
    how = {"metavar": "NAMES", "type": tag_names, "default": frozenset()}
    parser.add_argument("--plugin-tags", help="shortcodes that a plugin of the program has", **how)
    parser.add_argument("--files", metavar="FILE", type=Path, help="write which uploads are needed")
    how = {"metavar": ("FROM", "DIR"), "nargs": 2, "type": Path}
    parser.add_argument("--fetch", help="copy the needed uploads from a copy of them to DIR", **how)
    parser.add_argument("export", metavar="EXPORT.xml", type=Path, help="what Tools > Export of WordPress writes")
    return parser.parse_args()


def fetch(source: Path, folder: Path, archive: Archive, report: Report) -> None:
    """Copies the uploads that posts and pages need into a folder."""
    copies = Copies(folder)
    try:
        missing = list(copy_uploads(source, copies, sorted({*map(unquote, archive.shown.files)})))
    except OSError as fault:
        raise Refused(f"--fetch: {fault}") from fault
    report.tell_fetched(source, copies, missing)


def converted(arguments: argparse.Namespace, report: Report) -> list[bytes]:
    """The imports of an export."""
    templates = read_templates(arguments.templates)
    site = WholeSite()
    export, controls = read_export(arguments.export, taking(site, False))
    report.replace_controls(controls, export.site)
    report.mended = export.mended
    options = site_options(export.site, report)
    texts = arguments.contact, arguments.menu, arguments.posts_page
    wishes = Wishes(*texts, arguments.plugin_tags, arguments.posts_per_page, dict(arguments.author))
    site.must_have_address(arguments.export)
    archive = Archive(site, carried_numbers(export), wishes)
    entries = carried_posts(export, report, archive)
    if not entries:
        return []
    report.tell_archive(archive, arguments.files)
    head = import_head({"options": options | archive.options(), "templates": templates})
    head = with_links(head, report, archive)
    if len(import_line(head, [])) > LINE_BYTES:
        raise Refused(f"{arguments.templates}: these templates and their links are longer than {LINE_BYTES:,} bytes")
    if arguments.fetch:
        source, folder = arguments.fetch
        fetch(source, folder, archive, report)
    return import_lines(head, entries)


@quiet_output()
def main() -> int:
    arguments = read_arguments()
    report = Report(arguments.export, arguments.all)
    try:
        lines = converted(arguments, report)
    except Refused as fault:
        print(f"import wordpress: {fault}", file=sys.stderr)
        return 2
    report.sum_up(len(lines))
    sys.stdout.buffer.writelines(line + b"\n" for line in lines)
    return 0 if lines else 1
