"""Checks of `from_wordpress` and `publish` against what WordPress itself made of the same sites.

It is a module, and runs nothing by itself. whole/NAME.xml is the export of a site that WordPress's own code has made,
and whole/NAME.json what WordPress showed of it: the lines of text of each post and page, and each public address.
`record` makes them anew.
"""

import contextlib
import http.client
import json
import os
import random
import re
import shutil
import subprocess
import tempfile
import time
import zipfile
from collections.abc import Callable, Iterator
from difflib import SequenceMatcher
from pathlib import Path
from typing import Any, NamedTuple
from urllib.parse import quote, unquote, urlsplit

from geanmarbles.archive.check import file_of
from geanmarbles.archive.html import shortened
from geanmarbles.archive.search import file_number, words_in
from geanmarbles.checks.cluster.processes import free_port, listens, wait_for
from geanmarbles.checks.from_wordpress.page_lines import lines_of, outline_of
from geanmarbles.checks.from_wordpress.text_cases import by_wordpress, cases
from geanmarbles.checks.judging import Skipped, must
from geanmarbles.checks.parts import PATH
from geanmarbles.client.program import pipe
from geanmarbles.client.replies import Wrong
from geanmarbles.paths import EXAMPLES, GEANMARBLES, TESTS
from geanmarbles.wordpress.addresses import path_or_none, slug_of
from geanmarbles.wordpress.harmless import harmless
from geanmarbles.wordpress.items import unserialized
from geanmarbles.wordpress.texts import QUOTES, paragraphs, texturize, with_characters
from geanmarbles.wordpress.words import formatted

HERE = TESTS / "from_wordpress"
IMPORT = [GEANMARBLES, "import", "wordpress"]
SECONDS = 120
SITES = ("pottery", "fournil")
WHOLE = HERE / "whole"
TEXTS = WHOLE / "texts.json"
# What nobody may see, in the exports: texts of drafts and of private and protected posts, addresses of commenters.
HIDDEN = ("HIDDENWORD", "reader@mail.example", "192.0.2.7")
# Lines that differ, by what is wanted and what comes instead: docs/FROM-WORDPRESS.md names each of these departures.
DEPARTURES = {
    ("Your name", "The form that was here is closed."),
    ("Your name", "Le formulaire qui se trouvait ici est fermé."),
}


class Recorded(NamedTuple):
    """What WordPress showed of a site."""

    export: Path
    posts: list[dict[str, Any]]
    # The status of each address, and where it leads if it is moved.
    addresses: list[tuple[str, int, str]]


def recorded(name: str) -> Recorded:
    said = json.loads((WHOLE / f"{name}.json").read_text(encoding="utf-8"))
    return Recorded(WHOLE / f"{name}.xml", said["posts"], [(it[0], it[1], "".join(it[2:])) for it in said["addresses"]])


def shown_lines(title: str, parts: list[str]) -> list[str]:
    """The lines of a post as a page has them: its title, and its parts one after the other."""
    return lines_of(f"<h1>{title}</h1>" + "".join(f"<div>{it}</div>" for it in parts))


def imported(export: Path, *arguments: str) -> tuple[list[dict[str, Any]], str]:
    """The commands of an export, and the report."""
    words = [*IMPORT, *arguments, str(export)]
    ran = subprocess.run(words, capture_output=True, timeout=SECONDS, check=False)
    must(ran.returncode == 0, f"it ended with status {ran.returncode}: {ran.stderr.decode()[-400:]}")
    return [json.loads(it) for it in ran.stdout.splitlines()], ran.stderr.decode()


def check_texts(wanted: list[tuple[str, str, str]]) -> None:
    """Typography is WordPress's to the byte, and paragraphs begin where WordPress begins them."""
    for function, text, made in wanted:
        if function == "wptexturize":
            came = texturize(text)
            must(came == made, f"{text!r} becomes {came!r}, wanted {made!r}")
        else:
            one, other = outline_of(made), outline_of(paragraphs(text))
            must(one == other, f"{text!r} becomes {other}, wanted {one}")


def check_recorded_texts() -> None:
    """Texts that were recorded become what WordPress's own functions made of them."""
    wanted = json.loads(TEXTS.read_text(encoding="utf-8"))
    must(len(wanted) > 300, f"only {len(wanted)} texts are recorded")
    check_texts(wanted)


def check_random_texts(wordpress: Path, count: int) -> None:
    """Random texts become what WordPress's own functions make of them now."""
    asked = list(cases(random.Random(), count))
    check_texts([(*it, made) for it, made in zip(asked, by_wordpress(wordpress, asked))])


def check_quotes() -> None:
    """Other languages have their own marks, and characters come in place of entities."""
    shown = {name: with_characters(texturize("\"a\" 'b' l'eau", quotes)) for name, quotes in QUOTES.items()}
    must(shown["de"] == "„a“ ‚b‘ l’eau" and shown["fr"] == "«&nbsp;a&nbsp;» ‘b’ l’eau", f"the quotes are {shown}")


def check_shown(site: Recorded) -> None:
    """Each post and page has the lines of text that WordPress shows, but for the departures."""
    commands, _ = imported(site.export)
    posts = {it["id"]: it for command in commands for it in command["site"]["posts"]}
    lines = same = whole = 0
    for post in site.posts:
        entry = posts[post["id"]]
        came = shown_lines(entry["title"], [entry["content"]])
        matched = SequenceMatcher(None, post["lines"], came, autojunk=False)
        same += sum(it.size for it in matched.get_matching_blocks())
        lines, whole = lines + len(post["lines"]), whole + (came == post["lines"])
        for kind, a, b, c, d in matched.get_opcodes():
            pairs = set(zip(post["lines"][a:b], came[c:d]))
            is_known = kind == "replace" and b - a == d - c and pairs <= DEPARTURES
            must(kind == "equal" or is_known, f"{post['path']}: wanted {post['lines'][a:b]}, came {came[c:d]}")
        images = len(re.findall("<img ", entry["content"])) - entry["content"].startswith(
            '<figure class="post-thumbnail">'
        )
        must(images == post["images"], f"{post['path']} has {images} images, wanted {post['images']}")
    must(same >= 0.99 * lines, f"{same} of {lines} lines are as in WordPress")
    must(whole >= 0.95 * len(site.posts), f"{whole} of {len(site.posts)} posts are whole as in WordPress")


def check_import(site: Recorded) -> None:
    """No draft's text is lost, nothing is made of private posts, and links within the site are the program's own."""
    with tempfile.TemporaryDirectory() as folder:
        listed = Path(folder, "files.txt")
        commands, report = imported(site.export, "--files", str(listed))
        files = listed.read_text(encoding="utf-8").splitlines()
    text = json.dumps(commands, ensure_ascii=False)
    public = json.dumps([it for command in commands for it in command["site"]["posts"] if it["status"] == "publish"])
    must(not any(it in public for it in HIDDEN), "what nobody may see is in a published post")
    must('"status": "draft"' in text, "there is no draft")
    must(f"{len(files)} files of the old host" in report, f"the report doesn't count the files: {report[-500:]}")
    must(files and all(it.startswith("/wp-content/uploads/") for it in files), f"the files are {files}")
    host = urlsplit(json.loads((WHOLE / f"{site.export.stem}.json").read_text(encoding="utf-8"))["address"]).netloc
    left = re.findall(rf'(?:href|src)=\\"https?://(?:www\.)?{re.escape(host.removeprefix("www."))}[^"]*', public)
    must(not left, f"links to the old host are left: {left[:3]}")


class Archive:
    """A site in a file, and its archive, in a folder that is gone after the `with` block."""

    def __init__(self, program: Path, site: Recorded, *more: str) -> None:
        self.program, self.site, self.more = program, site, more

    def __enter__(self) -> "Archive":
        self.room = tempfile.TemporaryDirectory()
        self.database, self.folder = Path(self.room.name, "site.db"), Path(self.room.name, "archive")
        self.root = self.folder / "public"
        commands, _ = imported(self.site.export)
        self.edit(*commands)
        return self

    def __exit__(self, *_: object) -> None:
        self.room.cleanup()

    def edit(self, *commands: dict[str, Any]) -> None:
        given = "".join(json.dumps(it) + "\n" for it in commands).encode()
        words: list[str | Path] = [self.program, "--database", self.database]
        ran = subprocess.run(words, input=given, capture_output=True, timeout=SECONDS, check=False)
        must(
            ran.returncode == 0 and b"refused" not in ran.stdout,
            f"the program: {ran.stdout[-200:]!r} {ran.stderr[-200:]!r}",
        )

    def publish(self, *arguments: str, status: int = 0) -> str:
        """Writes the archive, and returns what was said."""
        words: list[str | Path] = [
            GEANMARBLES,
            "publish",
            "--program",
            self.program,
            *self.more,
            *arguments,
            self.site.export,
            self.database,
            self.folder,
        ]
        ran = subprocess.run(words, capture_output=True, text=True, timeout=SECONDS, check=False)
        must(ran.returncode == status, f"publish ended with status {ran.returncode}: {ran.stderr[-600:]}")
        return ran.stderr

    def publish_and_check(self) -> None:
        """Writes the archive; each of its links must lead somewhere, but to uploads, which aren't here."""
        said = self.publish("--check", status=1)
        dead = re.findall(r"^publish:   (\S+), from", said, re.M)
        must(all("/wp-content/uploads/" in it for it in dead), f"links lead nowhere: {dead}")

    def files(self) -> dict[str, bytes]:
        return {
            it.relative_to(self.folder).as_posix(): it.read_bytes() for it in self.folder.rglob("*") if it.is_file()
        }

    def page(self, path: str) -> str:
        file = file_of(self.root, path)
        if file is None:
            raise Wrong(f"there is no page at {path}")
        return file.read_text(encoding="utf-8")


def moved_by(root: Path) -> dict[tuple[str, str], str]:
    """The moved addresses, by path and query, as Netlify's form has them."""
    made = {}
    for line in (root / "_redirects").read_text(encoding="utf-8").splitlines():
        words = line.split()
        made[unquote(words[0]), words[1] if len(words) == 4 else ""] = words[-2]
    return made


def check_addresses(program: Path, site: Recorded) -> None:
    """Each public address of the old site is a page or is moved; feeds of single posts lead to these."""
    with Archive(program, site) as archive:
        archive.publish()
        moved = moved_by(archive.root)
        for address, *_ in site.addresses:
            parts = urlsplit(address)
            to = moved.get((unquote(parts.path), parts.query), "" if parts.query else parts.path)
            is_there: object = to and ("/wp-content/uploads/" in to or file_of(archive.root, urlsplit(to).path))
            if not is_there and parts.path.endswith("/feed/"):
                post = parts.path.removesuffix("feed/")
                is_there = file_of(archive.root, post) or (unquote(post), "") in moved
            must(is_there, f"{address} leads to {to or 'nothing'}, which isn't there")


def found_by(archive: Archive, text: str) -> set[int]:
    """The posts that the index of the search has for some words, each of which begins a word of theirs."""
    found = []
    for word in words_in(text):
        file = archive.root / "search" / f"words-{file_number(word)}.json"
        known = json.loads(file.read_text(encoding="utf-8")) if file.is_file() else {}
        found.append({number for it, numbers in known.items() if it.startswith(word) for number in numbers})
    return set.intersection(*found)


def check_search(program: Path, site: Recorded) -> None:
    """The search lists each post and page, and its index has the words of each; a page that has its name keeps it."""
    with Archive(program, site) as archive:
        archive.publish_and_check()
        page = archive.page("/search/")
        for post in site.posts:
            number, words = post["id"], words_in(" ".join(post["lines"]))
            entry = re.search(rf'<li id="post-{number}"><a href="([^"]*)"', page)
            if not post["lines"][1:] and entry is None:
                continue
            must(entry and unquote(entry[1]) == post["path"], f"the search has {entry and entry[0]} of {post['path']}")
            lacking = [it for it in words if number not in found_by(archive, it)]
            must(len(lacking) <= 2, f"of {post['path']} the search doesn't know {lacking}")
        form = '<form role="search" class="search" action="/search/">'
        must(all(form in archive.page(it["path"]) for it in site.posts), "a page has no form that leads to the search")
        must(moved_by(archive.root)["/", "s=:s"] == "/search/?s=:s", "the old address of the search isn't sent on")
        head = {"cmd": "put", "kind": "page", "date": "2024-02-03 04:05:06", "content": "x"}
        archive.edit({**head, "title": "Search"})
        archive.publish_and_check()
        here = [it for it in ("/search/", "/search-archive/") if 'id="search-list"' in archive.page(it)]
        must(here == ["/search-archive/"], f"the search is at {here}, and a page is at /search/")
        archive.edit({**head, "title": "Search archive"})
        must("there is no search" in archive.publish(), "it isn't said that there is no search")
        must("<form" not in archive.page("/search/"), "a form leads to no search")


def check_sticky(program: Path) -> None:
    """Sticky posts come first on the first part of the list of all posts, with their dates, and keep their places."""
    site, sticky = recorded("pottery"), "/2013/11/a-gallery-of-raku/"
    with Archive(program, site) as archive:
        archive.publish()
        places = ("", "page/2/", "page/3/", "page/4/")
        parts = [re.findall(r'<h2><a href="([^"]*)"', archive.page(f"/news/{it}")) for it in places]
        must(parts[0][0] == sticky and len(parts[0]) == 11, f"the first part has {parts[0]}")
        must(sum(it.count(sticky) for it in parts[1:]) == 1, f"the other parts have {parts[1:]}")
        page = archive.page("/news/")
        must('<time datetime="2013-11-15T10:15:00">November 15, 2013</time>' in page, "its date is another")
        must("9999" not in page, "a date that was made up is shown")
        lists = re.findall(r'<h2><a href="([^"]*)"', archive.page("/category/glazes-firing/"))
        must(sticky not in lists[:1], "it comes first in another list too")


def check_archive(program: Path, site: Recorded) -> None:
    """Pages have what WordPress shows; nothing of hidden posts is anywhere; every link leads somewhere."""
    with Archive(program, site) as archive:
        archive.publish_and_check()
        for name, data in archive.files().items():
            # (the index of the search has small letters)
            must(not any(it.lower().encode() in data.lower() for it in HIDDEN), f"{name} has what nobody may see")
        for post in site.posts:
            if not post["lines"][1:]:
                continue
            parts = post["parts"]
            pages = [archive.page(post["path"] if it == 1 else f"{post['path']}{it}/") for it in range(1, parts + 1)]
            came = [line for page in pages for line in lines_of(page)]
            known = {one: other for one, other in DEPARTURES if other in came}
            wanted = post["lines"][1:] if post["path"] == "/" else post["lines"]
            lacking = [it for it in wanted if it not in came and known.get(it) not in came]
            must(not lacking, f"{post['path']} lacks {lacking}")
            must(
                '<link rel="canonical" href="http' in pages[0] and "<html lang=" in pages[0],
                f"{post['path']} lacks its head",
            )


def new_post(title: str) -> dict[str, Any]:
    head = {"cmd": "put", "kind": "post", "status": "publish", "date": "2024-02-03 04:05:06"}
    return {**head, "title": title, "content": "NEWWORD"}


def check_old_host(program: Path) -> None:
    """Links of comments and excerpts to the old host stay within the archive, one that is no address is named, and a
    post whose author wants no teaser begins at its mark."""
    site = recorded("fournil")
    with tempfile.TemporaryDirectory() as folder:
        text = site.export.read_text(encoding="utf-8")
        links = '<a href="https://www.fournil.example/?p=18">x</a> <a href="http://[">y</a>'
        text = text.replace('[C\'est "super" !]', f"[{links}]", 1)
        at = text.index("<excerpt:encoded><![CDATA[]", text.index("recette-le-levain")) + len(
            "<excerpt:encoded><![CDATA["
        )
        text = text[:at] + '<a href="http://fournil.example/a-propos/">z</a>' + text[at:]
        export = Path(folder, "old.xml")
        export.write_text(text.replace("recette-->", "recette--><!--noteaser-->"), encoding="utf-8")
        with Archive(program, site._replace(export=export), "--address", "https://pain.example") as archive:
            said = archive.publish("--check", status=1)
            post, listed = archive.page("/pains-brioches/le-pain-gris/"), archive.page("/2015/06/12/")
            own = archive.page("/pains-brioches/seigle/recette-le-levain/")
            pages = [data for name, data in archive.files().items() if name.endswith("index.html")]
    to = '<a href="/pains-brioches/seigle/recette-le-levain/" rel="nofollow ugc">x</a>'
    must(to in post and '<a href="/a-propos/">z</a>' in listed, "a comment or an excerpt leads to the old host")
    must(not any(b'="http://fournil.example' in it for it in pages), "a page leads to the old host")
    must("publish:   http://[, from 1 pages, first /pains-brioches/le-pain-gris/\n" in said, f"it says {said[-600:]}")
    must("Il faut" not in own and "C’est parti</h2>" in own, f"the post has its teaser: {own[-3000:]}")


def check_menu() -> None:
    """The links at the top are the menu, nested, without what isn't public, or if there is none the tree of pages."""
    commands, _ = imported(WHOLE / "pottery.xml")
    header = "".join(it for it in commands[0]["site"]["templates"]["header"] if isinstance(it, str))
    wanted = (
        '<li><a href="/">Start</a></li>',
        '<li><a href="/?page_id=23">About us</a>\n<ul><li><a href="/?page_id=24">Tom</a></li></ul></li>',
        '<li><a href="/category/glazes-firing/">Glazes &amp; Firing</a></li>',
        '<li><a href="https://friends.example/?a=1&amp;b=2">Friends &lt;3</a></li>',
        "Pots &amp; plates, “hand-made”",
    )
    must(all(it in header for it in wanted), f"the menu is {header[-900:]}")
    options = commands[0]["site"]["options"]
    must(options["page_on_front"] == "31" and options["page_for_posts"] == "30", f"the front is {options}")
    commands, report = imported(WHOLE / "fournil.xml")
    header = "".join(it for it in commands[0]["site"]["templates"]["header"] if isinstance(it, str))
    titles = re.findall(r"<a href=\"/\?page_id=\d+\">([^<]*)</a>", header)
    must(titles == ["Accès", "À propos", "Heures d’ouverture", "Mentions légales"], f"the pages are {titles}")
    must("tree of pages" in report and "show_on_front" not in commands[0]["site"]["options"], report)


def check_arguments() -> None:
    """Forms become an address to write to; names that are none, and unknown texts, are refused."""
    commands, _ = imported(WHOLE / "pottery.xml", "--contact", "a&b@mail.example", "--posts-page", "gallery")
    text = json.dumps(commands)
    must('<a href=\\"mailto:a&amp;b@mail.example\\">a&amp;b@mail.example</a>' in text, "no form became an address")
    must(commands[0]["site"]["options"]["page_for_posts"] == "27", "the page of posts isn't the one that was named")
    commands, report = imported(WHOLE / "pottery.xml", "--plugin-tags", "show,Unknown_Thing")
    must('[unknown_thing a=\\"1\\"]Text within[/unknown_thing]' in json.dumps(commands), "a plugin's tag is changed")
    must("unknown_thing" not in report, "the report says that nobody has a plugin's tag")
    with tempfile.TemporaryDirectory() as folder:
        templates = Path(folder, "templates.json")
        templates.write_text('{"index":[{"site":"no_such_text"}]}', encoding="utf-8")
        for words in (["--plugin-tags", "a, b"], ["--plugin-tags", ""], ["--templates", str(templates)]):
            ran = subprocess.run([*IMPORT, *words, WHOLE / "pottery.xml"], capture_output=True)
            must((ran.returncode, ran.stdout) == (2, b""), f"{words} isn't refused: {ran.stderr[-200:]!r}")


def check_other_templates(program: Path) -> None:
    """An archive over templates without marks has headings, parts, dates, neighbours and comments too."""
    site = recorded("fournil")
    with Archive(program, site) as archive:
        archive.database.unlink()
        archive.database.with_name("site.db-wal").unlink()
        marked = (EXAMPLES / "archive-templates.json").read_text(encoding="utf-8")
        bare = Path(archive.room.name, "bare.json")
        bare.write_text(re.sub("<!--/?archive:[a-z]+-->", "", marked), encoding="utf-8")
        commands, _ = imported(site.export, "--templates", str(bare))
        archive.edit(*commands)
        archive.publish_and_check()
        page = archive.page("/category/pains-brioches/page/2/")
        for part in (
            "<main>\n<h1>Catégorie\u00a0: Pains &amp; brioches</h1>",
            '<span aria-current="page">2</span>',
            "</time> par <a",
        ):
            must(part in page, f"a list lacks {part!r}")
        page = archive.page("/pains-brioches/le-pain-gris/")
        must('<section class="comments"' in page and 'rel="next"' in page, "a post lacks what follows it")


def check_untitled(program: Path) -> None:
    """A post without a title has its date in the window's title, as its heading and in lists."""
    with Archive(program, recorded("pottery")) as archive:
        archive.edit(new_post(""), new_post("<b> </b>"))
        archive.publish_and_check()
        lists = re.findall(r'<h2><a href="([^"]*)">February 3, 2024</a></h2>', archive.page("/2024/02/"))
        must(len(lists) == 2, f"the month has {lists}")
        for page in map(archive.page, lists):
            shown = re.findall(r"<title>[^<]*|.*</title>|<h1>.*</h1>", page)
            wanted = ["<title>February 3, 2024 - Hollow Oak", "<h1>February 3, 2024</h1>"]
            must(len(shown) == 3 and (shown[0].startswith(wanted[0]), shown[2]) == (True, wanted[1]), f"it has {shown}")


def check_frame(program: Path) -> None:
    """What is around a page is small, whatever the number of posts: years and parts of a list lead to all others."""
    with Archive(program, recorded("pottery")) as archive:
        archive.edit(
            *({**new_post("x"), "date": f"{2000 + it // 12}-{it % 12 + 1:02}-01 00:00:00"} for it in range(200))
        )
        archive.edit({"cmd": "option", "name": "posts_per_page", "value": "2"})
        archive.publish_and_check()
        pages = {it: archive.page(it) for it in ("/", "/news/page/60/", "/2013/", "/about-us/tom/")}
        for path, page in pages.items():
            foot = page.partition("<footer>")[2]
            must(len(foot) < 2_000 and foot.count("<li>") == 19, f"{path} has the foot {foot[:2_500]}")
            styles = re.findall('<link rel="stylesheet" href="(/style-[0-9a-f]{8}.css)">', page)
            must(len(styles) == 1 and "<style" not in page, f"{path} has the styles {styles}")
            must("body {" in archive.page(styles[0]), f"{path} has another style")
        months = re.findall(r'<li><a href="(/2013/\d\d/)">', pages["/2013/"])
        must(months == sorted(months, reverse=True) and len(months) == 12, f"a year has the months {months}")
        parts = re.findall(
            r"<li>(?:<[^<>]*>)?(…|\d+)(?:<[^<>]*>)?</li>\n", pages["/news/page/60/"].partition("<footer>")[0]
        )
        must(parts == ["1", "…", *(str(it) for it in range(56, 65)), "…", parts[-1]], f"a list has the parts {parts}")
        marked = {path: re.findall(r'<a href="([^"]*)" aria-current="page">', page) for path, page in pages.items()}
        must(marked["/"] == ["/"] and marked["/about-us/tom/"] == ["/about-us/tom/"], f"the menus mark {marked}")


def check_uploads(program: Path) -> None:
    """Uploads come from a folder, a zip or a tar archive; what no web server should hand out is left."""
    site = recorded("fournil")
    for kind in ("folder", "zip", "gztar"):
        with tempfile.TemporaryDirectory() as room:
            source = Path(room, "wp-content", "uploads")
            for name in ("pain-1.jpg", "pain-1-300x225.jpg", "pain-1-99x99.jpg", "other.jpg", "shell.php", ".env"):
                (source / "2017" / "06").mkdir(parents=True, exist_ok=True)
                (source / "2017" / "06" / name).write_text(name, encoding="utf-8")
            given = source if kind == "folder" else shutil.make_archive(f"{room}/packed", kind, room, "wp-content")
            with Archive(program, site, "--uploads", str(given)) as archive:
                said = archive.publish()
                names = sorted(it.name for it in (archive.root / "wp-content").rglob("*") if it.is_file())
                must(names == ["pain-1-300x225.jpg", "pain-1-99x99.jpg", "pain-1.jpg"], f"{kind}: {names} are there")
                must("uploads aren't there: " in said, f"{kind}: nothing is said of those that lack")
                must(" 0 files written" in archive.publish(), f"{kind}: a second run copies again")


def check_fetch() -> None:
    """--fetch copies what posts and pages need from a folder, a zip or a tar archive, and says what isn't there."""
    export = recorded("fournil").export
    with tempfile.TemporaryDirectory() as room:
        listed, source = Path(room, "files.txt"), Path(room, "wp-content", "uploads")
        plain = imported(export, "--files", str(listed))
        needed = [unquote(it) for it in listed.read_text(encoding="utf-8").splitlines()]
        lacking, there = needed[0], needed[1:]
        for path in (*there, "/wp-content/uploads/2017/06/other.jpg", "/wp-content/uploads/.env"):
            file = Path(room, path.lstrip("/"))
            file.parent.mkdir(parents=True, exist_ok=True)
            file.write_text(path, encoding="utf-8")
        packed = [Path(shutil.make_archive(f"{room}/packed", kind, room, "wp-content")) for kind in ("zip", "gztar")]
        for given in (source, *packed):
            folder = Path(room, f"fetched{given.suffix}")
            commands, report = imported(export, "--fetch", str(given), str(folder))
            came = {f"/{it.relative_to(folder).as_posix()}": it.read_text() for it in folder.rglob("*") if it.is_file()}
            must(came == {it: it for it in there}, f"{given}: {sorted(came)} are there")
            must(commands == plain[0], f"{given}: the commands are others")
            must(f": {len(there)} copied, 0 there already\n" in report, f"{given}: {report[-600:]}")
            must(f"1 needed file not found in {given}: {lacking}\n" in report, f"{given}: {report[-600:]}")
            _, report = imported(export, "--all", "--fetch", str(given), str(folder))
            must(f": 0 copied, {len(there)} there already\n" in report, f"{given}, again: {report[-600:]}")
            must(f"{given} doesn't have {lacking}, or " in report, f"{given}: --all doesn't name what lacks")


def check_fetch_faults() -> None:
    """What can't be read as uploads ends --fetch with a reason, and no commands."""
    export = recorded("fournil").export
    with tempfile.TemporaryDirectory() as room:
        other, damaged = Path(room, "other.zip"), Path(room, "damaged.zip")
        other.write_bytes(b"no archive")
        with zipfile.ZipFile(damaged, "w") as file:
            file.writestr("uploads/2015/01/pain-3.jpg", b"a picture")
        damaged.write_bytes(damaged.read_bytes().replace(b"a picture", b"A PICTURE"))
        given: list[list[str | Path]] = [
            ["--fetch", it, f"{room}/dir"] for it in (other, damaged, Path(room, "nothing"))
        ]
        given += [["--fetch", room]]
        for words in given:
            ran = subprocess.run([*IMPORT, *words, export], capture_output=True, check=False)
            must(ran.returncode == 2 and not ran.stdout, f"{words}: status {ran.returncode}, {ran.stderr[-300:]!r}")
            must(b"\nimport wordpress: " in b"\n" + ran.stderr, f"{words}: {ran.stderr[-300:]!r}")
            left = [it for it in Path(room, "dir").rglob("*") if it.is_file()]
            must(not left, f"{words}: {left} are there")


def check_faults(program: Path) -> None:
    """A site that isn't there, is served, or isn't one ends with a reason."""
    with Archive(program, recorded("fournil")) as archive:
        with subprocess.Popen([program, "--database", archive.database], stdin=subprocess.PIPE) as server:
            pipe(server.stdin).write(b"")
            for _ in range(100):
                if "in use" in (said := archive.publish(status=1)):
                    break
            must("in use" in said, f"a site that is served: {said}")
            pipe(server.stdin).close()
        archive.database.write_bytes(b"no site")
        must("publish: " in archive.publish(status=1), "a file that is no site has no reason")
        archive.database.unlink()
        must("there is no file" in archive.publish(status=1), "a file that isn't there has no reason")


# A configuration of each server that has that of an archive, and what starts the server with it.
NGINX = """daemon off;
pid {folder}/nginx.pid;
error_log {folder}/nginx.log;
events {{}}
http {{
    types {{ text/html html; text/xml xml; }}
    access_log off;
    client_body_temp_path {folder}/body;
    proxy_temp_path {folder}/proxy;
    fastcgi_temp_path {folder}/fastcgi;
    uwsgi_temp_path {folder}/uwsgi;
    scgi_temp_path {folder}/scgi;
    include {folder}/archive.conf;
}}
"""
APACHE = """Listen 127.0.0.1:{port}
ServerName 127.0.0.1
PidFile {folder}/apache.pid
ErrorLog {folder}/apache.log
DefaultRuntimeDir {folder}
Mutex file:{folder}
TypesConfig /dev/null
AddType text/html html
AddType text/xml xml
DocumentRoot {root}
<Directory {root}>
    AllowOverride All
    Options FollowSymLinks
</Directory>
"""
MODULES = "".join(
    f"LoadModule {it}_module /usr/lib/apache2/modules/mod_{it}.so\n"
    for it in ("mpm_event", "authz_core", "dir", "autoindex", "mime", "alias", "rewrite")
)
SERVERS = {"nginx": (NGINX, "-c"), "apache2": (MODULES + APACHE, "-DFOREGROUND", "-f")}


def asked(port: int, path: str) -> tuple[int, str, str]:
    """The status, the kind and the target of what a server replies."""
    connection = http.client.HTTPConnection("127.0.0.1", port, timeout=SECONDS)
    connection.request("GET", quote(path, safe="/?=&%"))
    reply = connection.getresponse()
    page, to = reply.read(), (reply.getheader("Location") or "").removeprefix(f"http://127.0.0.1:{port}")
    connection.close()
    must(reply.status < 400 or b"<main>" in page, f"{path} gives a page of the server's own")
    return reply.status, reply.getheader("Content-Type") or "", to


@contextlib.contextmanager
def served(archive: Archive, server: str) -> Iterator[int]:
    """An archive served by a server with the configuration that was written for it: its port."""
    with tempfile.TemporaryDirectory() as folder:
        port, (text, *words) = free_port(), SERVERS[server]
        own = (archive.folder / "nginx.conf").read_text(encoding="utf-8")
        Path(folder, "archive.conf").write_text(own.replace("listen 8080;", f"listen 127.0.0.1:{port};"))
        if os.getuid() == 0:
            text = ("user root;\n" if server == "nginx" else "User nobody\nGroup nogroup\n") + text
            os.chmod(archive.room.name, 0o755)
        file = Path(folder, "server.conf")
        file.write_text(text.format(folder=folder, port=port, root=archive.root))
        with subprocess.Popen([str(shutil.which(server, path=PATH)), *words, file], stderr=subprocess.PIPE) as process:
            try:
                wait_for(lambda: process.poll() is not None or listens(port), SECONDS, f"{server} listens")
                must(process.poll() is None, f"{server}: {process.stderr.read()[-300:] if process.stderr else ''}")
                yield port
            finally:
                process.terminate()


def check_served(program: Path, site: Recorded, server: str) -> None:
    """A server has each public address, or sends it on to one, from the files and the configuration as they are."""
    with Archive(program, site) as archive:
        archive.publish()
        with served(archive, server) as port:
            for address, wanted, to in site.addresses:
                status, _, target = asked(port, address)
                is_same = target == to or "/wp-content/uploads/" in target
                must(wanted == 200 or is_same, f"{address} leads to {target}, and in WordPress to {to}")
                must(status in (200, 301), f"{address} gives {status}")
                must(wanted == 200 or status == 301, f"{address} gives {status}, and WordPress sends it on")
                while status == 301 and "/wp-content/uploads/" not in target:
                    status, _, target = asked(port, target)
                    must(status in (200, 301), f"{address} leads to {target or 'a page'} with {status}")
            must(asked(port, "/.htaccess")[0] in (403, 404), "the file for Apache is served")
            found = asked(port, "/?s=a%20b&x=1")
            must((found[0], found[2]) == (301, "/search/?s=a%20b"), f"the old address of the search gives {found}")
            must(asked(port, "/search/?s=a%20b")[0] == 200, "the search isn't served")
            must(asked(port, "/feed/")[1].startswith("text/xml"), f"the feed is {asked(port, '/feed/')}")


def check_moved(program: Path, server: str) -> None:
    """What a query asks for is found in each form that a browser sends, and all else gets the archive's page of 404."""
    site, tea = recorded("fournil"), "%d1%87%d0%b0%d0%b9"
    with Archive(program, site) as archive, tempfile.TemporaryDirectory() as folder:
        archive.site = site._replace(export=Path(folder, "tea.xml"))
        text = site.export.read_text(encoding="utf-8").replace("saison", tea)
        archive.site.export.write_text(text.replace("/pain-3.jpg", "/%0aOptions%20Indexes"), encoding="utf-8")
        archive.publish()
        rules = [it.read_text(encoding="utf-8") for it in archive.root.glob("*/**/.htaccess")]
        must(rules and all(re.fullmatch("(RedirectMatch .*\n)+", it) for it in rules), f"Apache's rules are {rules}")
        must((archive.root / ".htaccess").stat().st_size < 2_000, "the file that Apache reads at each request is long")
        moved = {f"/?tag={tea}": f"/tag/{tea}/", f"/?x=1&tag={tea.upper()}": f"/tag/{tea}/"}
        moved |= {"/?m=2015": "/2015/", "/?m=201501": "/2015/01/", "/index.php?p=7": "/?p=7", "/2015": "/2015/"}
        moved |= {"/tag/sucre/feed/rdf/": "/tag/sucre/feed/", "/page/1/": "/", "/wp-sitemap-a.xml": "/sitemap.xml"}
        nowhere = ["/?p=99999", "/?p=1", "/?m=1999", "/?m=20150199", "/?tag=none", "/?cat=99", "/?author=99"]
        with served(archive, server) as port:
            for path, to in moved.items():
                status, _, target = asked(port, path)
                must((status, unquote(target)) == (301, unquote(to)), f"{path} leads to {target} with {status}")
            for path in (*nowhere, "/category/", "/2015/none/", "/_moved/", "/no/such/page/"):
                must(asked(port, path)[0] == 404, f"{path} gives {asked(port, path)}")


# Texts that are repeated many times: time must grow with the length, not with its square.
REPEATED = (
    "<a\"<a'",
    "<!--",
    "<!-- wp:x {",
    "<!--more",
    "[caption ",
    "[button url='x']",
    "1'",
    "<p>",
    "<pre>",
    "<a ",
    "[embed]",
)


def check_growth() -> None:
    """Texts that nobody writes take no time in the square of their length."""
    makes: tuple[Callable[[str], object], ...] = (
        texturize,
        paragraphs,
        harmless,
        lambda it: shortened(it, "", str),
    )
    for text in REPEATED:
        for make in makes:
            few, many = (seconds_of(make, text * (count // len(text))) for count in (20_000, 200_000))
            must(many < 40 * few + 0.5, f"{text!r}: 20 kB take {few:.2f} s, 200 kB {many:.2f} s")


def seconds_of(make: Callable[[str], object], text: str) -> float:
    begun = time.process_time()
    make(text)
    return time.process_time() - begun


HOSTILE = [
    ("../../etc/passwd", None),
    ("/a/../b/", None),
    ("/a/%00", "/a/%00"),
    ("/a\x00b", None),
    ("/.htaccess", None),
    ("/" + "x" * 256, None),
    ("/a//b", None),
    ("/a/./b", None),
    ("/été/", "/été/"),
    ("/a\\b", None),
    ("/", "/"),
]


def check_safety() -> None:
    """Paths can't leave the folder, comments keep harmless elements alone, and odd values of PHP are no fault."""
    for path, wanted in HOSTILE:
        must(path_or_none(path) == wanted, f"{path!r} becomes {path_or_none(path)!r}")
    shown = harmless('<script>x</script><a href="javascript:x" onclick="y">z</a><b>open <img src=x onerror=y> & <i>')
    must("<script" not in shown and "javascript" not in shown and "<img" not in shown, f"a comment is {shown!r}")
    must(shown.endswith("</i></b>") and "&amp;" in shown, f"a comment isn't closed: {shown!r}")
    for text in ("", "a:1:{", 's:9:"x";', "i:x;", "a:99999999:{}", 'O:1:"X":0:{}', "a:1:{i:0;" * 50):
        must(unserialized(text) == {}, f"{text!r} is read as {unserialized(text)!r}")
    cut = shortened('<div><p>a</p>\n<p><span id="more-7"></span></p>\n<p>b</p></div>', "", lambda it: "[more]")
    must(cut == "<div><p>a</p></div>[more]", f"a list shows {cut!r}")
    must(slug_of("Été & <b>Co.</b>") == "ete-co", f"a name is {slug_of('Été & <b>Co.</b>')!r}")


def check_dates() -> None:
    """Dates are written as PHP's `date` writes them."""
    from datetime import datetime

    date = datetime(2024, 2, 3, 4, 5, 6)
    for form, language, wanted in (
        ("F j, Y", "en", "February 3, 2024"),
        ("j. F Y", "de-DE", "3. Februar 2024"),
        (r"l jS \o\f F, g:i a", "en-GB", "Saturday 3rd of February, 4:05 am"),
        ("d.m.y H:i", "xx", "03.02.24 04:05"),
    ):
        must(formatted(date, form, language) == wanted, f"{form!r} gives {formatted(date, form, language)!r}")


def checks(program: Path) -> Iterator[tuple[Any, ...]]:
    """What each check shows, and the check with its arguments."""
    yield "texts as WordPress recorded them", check_recorded_texts
    yield "quotes of other languages", check_quotes
    yield "paths, comments and values that aren't trusted", check_safety
    yield "texts that nobody writes", check_growth
    yield "dates in a site's format", check_dates
    yield "the menu, the front and the pages", check_menu
    yield "options of from_wordpress", check_arguments
    yield "templates without marks", check_other_templates, program
    yield "sticky posts", check_sticky, program
    yield "posts without a title", check_untitled, program
    yield "what is around a page", check_frame, program
    yield "links to the old host, and teasers", check_old_host, program
    yield "uploads from a folder and from archives", check_uploads, program
    yield "uploads fetched beside an import", check_fetch
    yield "uploads that can't be fetched", check_fetch_faults
    yield "sites that can't be read", check_faults, program
    for site in map(recorded, SITES):
        name = site.export.stem
        yield f"{name}: lines as in WordPress", check_shown, site
        yield f"{name}: the import", check_import, site
        yield f"{name}: addresses", check_addresses, program, site
        yield f"{name}: pages of the archive", check_archive, program, site
        yield f"{name}: the search", check_search, program, site


def checks_beside(wordpress: Path) -> Iterator[tuple[Any, ...]]:
    """The check that needs PHP and WordPress."""
    must_be_here(
        shutil.which("php") and (wordpress / "wp-includes" / "formatting.php").is_file(), "PHP or no WordPress"
    )
    yield "random texts beside WordPress's functions", check_random_texts, wordpress, 2_000


def checks_served(program: Path) -> Iterator[tuple[Any, ...]]:
    """The checks that need servers."""
    for server in SERVERS:
        if not shutil.which(server, path=PATH):
            yield f"served by {server}", must_be_here, None, server
            continue
        yield f"addresses that moved, by {server}", check_moved, program, server
        for site in map(recorded, SITES):
            yield f"{site.export.stem}: served by {server}", check_served, program, site, server


def must_be_here(found: object, what: str) -> None:
    if not found:
        raise Skipped(f"there is no {what} here")
