"""Checks of what `publish` writes after edits, and again.

It is a module, and runs nothing by itself."""

import re
import tempfile
from collections.abc import Iterator
from pathlib import Path
from random import Random, randrange
from typing import Any

from geanmarbles.archive.check import file_of
from geanmarbles.checks.from_wordpress.archive_checks import HIDDEN, SITES, Archive, Recorded, new_post, recorded
from geanmarbles.checks.judging import must

# How often some edits are made and published.
ROUNDS = 8


def check_again(program: Path, site: Recorded) -> None:
    """A second run prints nothing; an edit's prints its pages alone; what is deleted or becomes a draft is gone."""
    with Archive(program, site) as archive:
        archive.publish()
        before = public_files(archive)
        said = archive.publish()
        must(" 0 files written" in said and " 0 removed" in said, f"a second run writes files: {said[-200:]}")
        must(", 0 of them printed," in said, f"a second run prints pages: {said[-200:]}")
        must(public_files(archive) == before, "a second run changes a file")
        gone, hidden, edited = [it for it in site.posts if it["kind"] == "post"][3:6]
        archive.edit({"cmd": "edit", "id": edited["id"], "title": "EDITEDWORD"})
        count = printed(archive.publish())
        must(3 < count < 40, f"after one edit {count} pages are printed")
        archive.edit({"cmd": "delete", "id": gone["id"]}, {"cmd": "edit", "id": hidden["id"], "status": "draft"})
        archive.publish()
        after = public_files(archive)
        for post in (gone, hidden):
            must(file_of(archive.root, post["path"]) is None, f"{post['path']} is still there")
        must("EDITEDWORD" in archive.page(edited["path"]), "the edit isn't in its page")
        same = sum(after.get(name) == it for name, it in before.items())
        must(same > len(before) / 3, f"{same} of {len(before)} files are as before")


def printed(said: str) -> int:
    """How many pages a run says that it has printed."""
    found = re.search(r"pages, ([\d,]+) of them printed", said)
    must(found, f"it isn't said how many pages are printed: {said[-300:]}")
    return int(found[1].replace(",", "")) if found else 0


def public_files(archive: Archive) -> dict[str, bytes]:
    """The files that an archive has for web servers."""
    files = archive.files()
    folder = str(archive.root.resolve()).encode()
    return {name: data.replace(folder, b"ROOT") for name, data in files.items() if name != "kept.db"}


def must_be_as_anew(archive: Archive, what: str) -> None:
    """An archive is byte for byte what a run into an empty folder makes of the same site."""
    now = public_files(archive)
    with tempfile.TemporaryDirectory() as folder:
        kept, archive.folder, archive.root = archive.folder, Path(folder, "new"), Path(folder, "new", "public")
        archive.publish()
        wanted = public_files(archive)
        archive.folder, archive.root = kept, kept / "public"
    odd = sorted(it for it in {*now, *wanted} if now.get(it) != wanted.get(it))
    must(not odd, f"{what}: {odd[:5]} of {len(odd)} aren't as in a run from nothing")


def random_edit(random: Random, posts: list[dict[str, Any]]) -> dict[str, Any]:
    """An edit of one post or of the whole site."""
    number, other = (random.choice(posts)["id"] for _ in range(2))
    date = f"20{random.randint(14, 21)}-0{random.randint(1, 9)}-1{random.randint(0, 9)} 08:00:00"
    content = random.choice(("<p>short</p>", f'<p><a href="/?p={other}">To it</a> word{number}</p>', "<p>a</p>"))
    content += random.choice(("", "\n<!--nextpage-->\n<p>later</p>", '\n<span id="more-1"></span>\n<p>more</p>'))
    head = {"kind": random.choice(("post", "page")), "title": f"New {number}", "date": date, "content": content}
    return random.choice(
        (
            {"cmd": "edit", "id": number, "title": random.choice(("", "Other & <b>title</b>"))},
            {"cmd": "edit", "id": number, "content": content},
            {"cmd": "edit", "id": number, "date": date},
            {"cmd": "edit", "id": number, "status": random.choice(("draft", "publish"))},
            {"cmd": "put", **head},
            {"cmd": "delete", "id": number},
            {"cmd": "option", "name": "posts_per_page", "value": str(random.randint(3, 9))},
        )
    )


def check_as_anew(program: Path) -> None:
    """After any edits an archive is what a run into an empty folder makes of the same site."""
    seed = randrange(1 << 32)
    random, posts = Random(seed), list(recorded("fournil").posts)
    with Archive(program, recorded("fournil")) as archive:
        archive.publish()
        edits: list[dict[str, Any]] = []
        for _ in range(ROUNDS):
            given = [random_edit(random, posts) for _ in range(random.choice((1, 1, 2, 4)))]
            gone = {it["id"] for it in given if it["cmd"] == "delete"}
            posts = [it for it in posts if it["id"] not in gone]
            # (an edit of a post that is deleted would be refused)
            edits = [it for it in given if it["cmd"] == "delete" or it.get("id") not in gone]
            archive.edit(*{str(it): it for it in edits}.values())
            archive.publish()
            must_be_as_anew(archive, f"seed {seed}, after {edits}")


def check_evidence(program: Path) -> None:
    """What is kept counts only as long as the files, the export and the arguments are those of the last run."""
    site = recorded("fournil")
    with Archive(program, site) as archive, tempfile.TemporaryDirectory() as folder:
        archive.publish()
        before = public_files(archive)
        (archive.root / "index.html").write_bytes(b"other")
        (archive.root / "feed" / "index.xml").unlink()
        said = archive.publish()
        must(public_files(archive) == before and printed(said) == 1, f"changed files aren't mended: {said[-300:]}")
        (archive.folder / "kept.db").write_bytes(b"no database")
        must(printed(archive.publish()) > 100, "a damaged record is believed")
        archive.more = ("--date-format", "Y")
        must(printed(archive.publish()) > 100, "other arguments print nothing")
        must_be_as_anew(archive, "with other arguments")
        text = site.export.read_text(encoding="utf-8").replace("Hannah Oake", "Another name")
        archive.site = site._replace(export=Path(folder, "other.xml"))
        archive.site.export.write_text(text, encoding="utf-8")
        archive.publish()
        must("Another name" in archive.page("/author/hannah/"), "another export isn't read")
        must_be_as_anew(archive, "with another export")


def check_new_posts(program: Path, site: Recorded) -> None:
    """Posts that were put since have pages of their own, and nothing of what had their IDs in WordPress."""
    with Archive(program, site) as archive:
        archive.edit(*(new_post(f"A new & <b>bold</b> post {it}") for it in range(8)))
        archive.publish()
        for name, data in archive.files().items():
            is_clean = "hiddenword" not in name.lower() and not any(it.encode() in data for it in HIDDEN)
            must(is_clean, f"{name} has what nobody may see")
        for number in range(8):
            names = [it for it in archive.files() if f"a-new-bold-post-{number}/index.html" in it]
            must(len(names) == 1, f"the new post {number} has the files {names}")


def checks(program: Path) -> Iterator[tuple[Any, ...]]:
    """What each check shows, and the check with its arguments."""
    yield "after edits as from nothing", check_as_anew, program
    yield "what is kept beside an archive", check_evidence, program
    for site in map(recorded, SITES):
        name = site.export.stem
        yield f"{name}: a second run, and edits", check_again, program, site
        yield f"{name}: new posts", check_new_posts, program, site
