"""Turns exports into commands by `geanmarbles import wordpress`, runs the program over them, and writes archives.

    tests/from_wordpress/run [--part NAME ..] [--wordpress DIR] [PROGRAM]

PROGRAM is the one that is here, built or shipped, if it is left out. For each NAME.xml, the report on standard error
must be NAME.report, and the commands must be NAME.jsonl, or none if there is no such file; if there is NAME.all, it is
the report with --all. @N*TEXT@ in these files stands for N times TEXT. Then the program must accept each command, serve
the title and the content of each published post and page, and nothing of a draft. The same holds for an export that
takes several imports, made here. From the front of wordpress.xml, which has the form that WordPress 6.1 writes, links
lead to each published post and to nothing that isn't found. Further exports are packed, or nested deeply, which may
take no time in the square of the depth. Last come arguments and templates that must be refused.

The exports in whole/ are those of sites that WordPress's own code has made. Each must give the lines of text that
WordPress showed, and `geanmarbles publish` an archive with a page or a redirect at each of its public addresses, in
which nothing of a draft, a private or a protected post is found, and every link leads somewhere; a second run must
print nothing, and edits only what they reach: after random ones an archive is, to the byte, what a run from nothing
makes.

Typography and paragraphs must be those that WordPress's functions made, as `record` has recorded them. If PHP and a
WordPress in DIR, /usr/share/wordpress if it is left out, are there, random texts are compared with these functions too.

Last come `geanmarbles post`, history and undo: posts of a site in a file as files, also through `geanmarbles browse`,
which serves it, and through what stands for a node of a cluster; their versions; and edits taken back.

The parts are, in this order, or some of them, each after a --part: `exports`; `archives`, of the sites in whole/;
`editors`, of `geanmarbles post`, history and undo; and, each where it is installed, `wordpress` and `nginx`, which also
has archives served by apache2, where that is.

The last line is 'N passed, M failed', over the checks. The exit status is 0 if none failed.
"""

import gzip
import json
import re
import resource
import subprocess
import tempfile
from collections.abc import Callable, Collection, Iterator
from functools import partial
from html import unescape
from html.parser import HTMLParser
from itertools import chain
from pathlib import Path
from typing import Any

from geanmarbles.checks.from_wordpress import archive_checks, editor_checks, second_runs
from geanmarbles.checks.judging import Cases, Counts, must
from geanmarbles.checks.programs import missing, parser_of
from geanmarbles.client.replies import whole_replies
from geanmarbles.disk_tables import Disk, DiskDict
from geanmarbles.paths import ROOT, TESTS
from geanmarbles.wordpress.addresses import Places
from geanmarbles.wordpress.items import WholeSite, read_site

HERE = TESTS / "from_wordpress"
SCRIPT = [str(ROOT / "geanmarbles"), "import", "wordpress"]
TEMPLATES = HERE / "templates.json"
SECONDS = 60
LINE_BYTES = 1_048_576
IMPORT_POSTS = 10_000
VOID_ELEMENTS = {"meta"}
USED_ONCE = ["html", "head", "title", "body", "main"]


def expanded(path: Path) -> bytes:
    """A file's bytes, with each @N*TEXT@ replaced by N times TEXT."""
    return re.sub(rb"@(\d+)\*([^@]+)@", lambda it: it[2] * int(it[1]), path.read_bytes())


def converted(export: tuple[str, bytes], *arguments: str | Path) -> tuple[int, bytes, str]:
    """Runs the script over an export, given by name and bytes: its status, its commands and its report."""
    with tempfile.TemporaryDirectory() as folder:
        Path(folder, export[0]).write_bytes(export[1])
        words = [*SCRIPT, *arguments, export[0]]
        ran = subprocess.run(words, cwd=folder, capture_output=True, timeout=SECONDS)
    return ran.returncode, ran.stdout, ran.stderr.decode()


def differs(what: str, wanted: str, came: str) -> None:
    """Fails with the first line in which two texts differ."""
    pairs = zip([*wanted.split("\n"), None], [*came.split("\n"), None])
    for number, (one, other) in enumerate(pairs, 1):
        must(one == other, f"{what}, line {number}: wanted {str(one)[:200]!r}, came {str(other)[:200]!r}")


def check_case(path: Path) -> None:
    """The script writes the report and the commands of an export, and ends with the status that goes with them."""
    export = path.name, expanded(path)
    status, commands, report = converted(export, "--templates", TEMPLATES)
    differs("the report", path.with_suffix(".report").read_text(encoding="utf-8"), report)
    if path.with_suffix(".all").is_file():
        whole = converted(export, "--all", "--templates", TEMPLATES)
        differs("the report with --all", path.with_suffix(".all").read_text(encoding="utf-8"), whole[2])
        must(whole[:2] == (status, commands), "--all changes the commands or the status")
    wanted = path.with_suffix(".jsonl")
    differs("the commands", expanded(wanted).decode() if wanted.is_file() else "", commands.decode())
    refused = report.startswith("import wordpress: ")
    due = 2 if refused else 0 if commands else 1
    must(status == due, f"it ended with status {status}, wanted {due}")


def replies_of(output: bytes) -> list[tuple[str, str]]:
    """The replies of an output, each as its first line and, of a page, its text."""
    parts = (reply.decode().partition("\n") for reply in whole_replies(output))
    return [(head, page.removesuffix("\n")) for head, _, page in parts]


def served(program: Path, commands: bytes, paths: Collection[str]) -> dict[str, tuple[str, str]]:
    """Runs the program over commands that it must accept, and returns its pages for some paths."""
    count = commands.count(b"\n")
    gets = "".join(json.dumps({"cmd": "get", "path": path}) + "\n" for path in paths)
    ran = subprocess.run([program], input=commands + gets.encode(), capture_output=True, timeout=SECONDS)
    must(ran.returncode == 0, f"the program ended with status {ran.returncode} and {ran.stderr!r}")
    replies = replies_of(ran.stdout)
    for number, (reply, _) in enumerate(replies[:count], 1):
        must(reply == "ok", f"the reply to command {number} was {reply!r}")
    must(len(replies) == count + len(paths), f"{len(replies)} replies came, wanted {count + len(paths)}")
    return dict(zip(paths, replies[count:]))


def path_of(post: dict[str, Any]) -> str:
    return f"/?{'p' if post['kind'] == 'post' else 'page_id'}={post['id']}"


def printed(text: str) -> str:
    """A content as a page prints it."""
    return text.replace("]]>", "]]&gt;")


def posts_of(commands: bytes) -> list[dict[str, Any]]:
    return [post for line in commands.splitlines() for post in json.loads(line)["site"]["posts"]]


def is_whole(page: str) -> bool:
    """Whether a page begins and ends as a whole HTML page does, with its elements closed in order."""
    opened: list[str] = []
    seen: list[str] = []

    class Reader(HTMLParser):
        def handle_starttag(self, tag: str, attrs: object) -> None:
            seen.append(tag)
            if tag not in VOID_ELEMENTS:
                opened.append(tag)

        def handle_endtag(self, tag: str) -> None:
            opened.append(f"/{tag}") if not opened or opened[-1] != tag else opened.pop()

    reader = Reader()
    reader.feed(page)
    reader.close()
    once = all(seen.count(tag) == 1 for tag in USED_ONCE)
    return page.startswith("<!DOCTYPE html>\n") and page.endswith("</html>\n") and once and not opened


def check_pages(program: Path, path: Path) -> None:
    """The program serves what an export publishes by the default templates, in whole pages, and nothing of a draft."""
    status, commands, report = converted((path.name, expanded(path)))
    must(status == 0, f"the script ended with status {status}: {report}")
    many = b'{"cmd":"option","name":"posts_per_page","value":"100"}\n'
    posts = posts_of(commands)
    pages = served(program, commands + many, ["/", "/?p=99", *map(path_of, posts)])
    must(pages["/?p=99"][0].startswith("page 404 "), "a post that isn't there is found")
    front = pages["/"][1]
    for post in posts:
        head, page = pages[path_of(post)]
        title, content = post["title"], printed(post["content"])
        listed = f'{path_of(post)}">{title}</a></h2>' in front and content in front
        if post["status"] == "draft":
            must(head.startswith("page 404 ") and content not in front + page, f"draft {post['id']} shows")
            must(title not in front + page, f"the title of draft {post['id']} shows")
            continue
        must(head.startswith("page 200 "), f"{path_of(post)} gives {head}")
        must(f"<h1>{title}</h1>" in page and content in page, f"{path_of(post)} lacks its title or content")
        must(listed == (post["kind"] == "post"), f"the front has {path_of(post)}: {listed}")


def check_whole(program: Path, path: Path) -> None:
    """Front, post, page and 404 are whole HTML pages, with the site's title in them."""
    _, commands, _ = converted((path.name, expanded(path)))
    paths = ["/", "/?p=1", "/?page_id=2", "/?m=202403", "/?p=99"]
    for where, (head, page) in served(program, commands, paths).items():
        must(is_whole(page), f"{where} isn't a whole page: {page}")
        must("Ben&#039;s Bakery</title>" in page, f"{where} lacks the site's title")
        must(("page 404 " in head) == (where == "/?p=99"), f"{where} gives {head}")


LINK = re.compile(r'<a href="(/(?:\?[^"]*)?)"')


def check_walk(program: Path, path: Path) -> None:
    """Links lead from the front to each post that an export publishes, and none to what isn't found."""
    _, commands, _ = converted((path.name, expanded(path)))
    seen: set[str] = set()
    ahead = {"/"}
    while ahead:
        pages = served(program, commands, sorted(ahead))
        for where, (head, _) in pages.items():
            must(head.startswith("page 200 "), f"a link leads to {where}: {head}")
        seen |= ahead
        ahead = {unescape(it) for _, page in pages.values() for it in LINK.findall(page)} - seen
    posts = {path_of(it) for it in posts_of(commands) if (it["kind"], it["status"]) == ("post", "publish")}
    must(posts <= seen, f"no link leads to {sorted(posts - seen)}")
    must({"/?paged=2", "/?m=202402"} <= seen, f"a part or a month has no link: {sorted(seen)}")


def links_of(commands: bytes, templates: dict[str, str], name: str) -> str:
    """The text that a list of links became in a template that has nothing else."""
    return str(json.loads(commands.splitlines()[0])["site"]["templates"][templates[name]][0])


def check_links() -> None:
    """Each list of links becomes a text, and one that would be too long ends early, which the report says."""
    templates = {"parts": "index", "months": "single", "pages": "page"}
    with tempfile.TemporaryDirectory() as folder:
        file = Path(folder, "links.json")
        file.write_text(json.dumps({name: [{"links": it}] for it, name in templates.items()}), encoding="utf-8")
        kinds = converted(("kinds.xml", (HERE / "kinds.xml").read_bytes()), "--templates", file)
        many = converted(long_export(), "--templates", file)
    texts = [links_of(kinds[1], templates, it) for it in ("parts", "months", "pages")]
    must(texts[0] == "" and '<li><a href="/?m=202403">March 2024</a></li>\n' in texts[1], f"the links are {texts}")
    must('<li><a href="/?page_id=2">' in texts[2] and "page_id=4" not in texts[2], f"the pages are {texts[2]}")
    pages = links_of(many[1], templates, "pages")
    left = IMPORT_POSTS + 6 - pages.count("<li>")
    must(45_000 < len(pages) <= 65_536 and left > 0, f"the list of pages has {len(pages)} bytes")
    must(f"{left:,} more have no link" in many[2], f"the report doesn't say so: {many[2][-400:]}")


def check_given() -> None:
    """Arguments say what an export doesn't have: how many posts a part has, and the names of authors' pages."""
    own = "own.xml", (HERE / "own.xml").read_bytes()
    with tempfile.TemporaryDirectory() as folder:
        file = Path(folder, "parts.json")
        file.write_text(json.dumps({"index": [{"links": "parts"}]}), encoding="utf-8")
        arguments: list[str | Path] = ["--templates", file, "--posts-per-page", "1", "--author", "Ben.B@bakery=ben"]
        _, commands, report = converted(own, *arguments)
    options = json.loads(commands)["site"]["options"]
    wanted = {"blogname": "Ben's Bakery", "posts_per_page": "1", "author_slugs": "Ben.B@bakery=ben"}
    must(options == wanted, f"the options are {options}")
    must(links_of(commands, {"parts": "index"}, "parts").count("<li>") == 2, "two posts don't make two parts")
    must("--posts-per-page" not in report and "/author/" not in report, f"the report is {report}")
    site = WholeSite(address="http://bakery.example")
    site.take_options(options)
    paths = [Places(site).author(it) for it in ("Ben.B@bakery", "Ada.B@bakery")]
    must(paths == ["/author/ben/", "/author/ada-bbakery/"], f"the authors' pages are {paths}")


def check_ampersands() -> None:
    """An & that WordPress didn't escape is one, also if the export is read for an archive."""
    comments = read_site(HERE / "ampersands.xml", DiskDict(Disk()), DiskDict(Disk())).comments[1]
    wanted = ["http://ada.example/?a=1&b=2&c=3&d=4&copy;"]
    must([it.address for it in comments] == wanted, f"the comments are {comments}")


def check_packed() -> None:
    """A packed export and an empty one are told apart from faulty XML."""
    data = (HERE / "kinds.xml").read_bytes()
    for name, packed, reason in (("a.gz", gzip.compress(data), "gzip"), ("a.zip", b"PK\x03\x04" + data, "zip")):
        status, commands, report = converted((name, packed))
        must((status, commands) == (2, b"") and f"this is a {reason} file" in report, f"{name}: {status}, {report}")


def seconds_of(depth: int) -> float:
    """The processor time that an export takes whose item nests so deep."""
    head, tail = (HERE / "no_items.xml").read_bytes().split(b"</channel>")
    deep = head + b"<item>" + b"<a>" * depth + b"</a>" * depth + b"</item></channel>" + tail
    before = resource.getrusage(resource.RUSAGE_CHILDREN).ru_utime
    status, _, report = converted(("deep.xml", deep))
    must(status == 1, f"depth {depth:,}: status {status}: {report[-200:]}")
    return resource.getrusage(resource.RUSAGE_CHILDREN).ru_utime - before


def check_depth() -> None:
    """Ten times the depth takes some ten times as long; in the square of the depth it would be a hundred."""
    few, many = seconds_of(40_000), seconds_of(400_000)
    must(many < 30 * few, f"depth 40,000 takes {few:.2f} s, 400,000 takes {many:.2f} s")


def long_export() -> tuple[str, bytes]:
    """An export that takes several imports: one post more than an import can have, then five that fill half a line."""
    head, tail = (HERE / "no_items.xml").read_text(encoding="utf-8").split("</channel>")
    item = """<item><title>{1}</title><content:encoded>{2}</content:encoded><wp:post_id>{0}</wp:post_id>
        <wp:post_date>2024-03-01 08:00:00</wp:post_date><wp:status>publish</wp:status>
        <wp:post_type>page</wp:post_type></item>\n"""
    small = [item.format(number, "", "") for number in range(1, IMPORT_POSTS + 2)]
    large = [item.format(IMPORT_POSTS + 2 + at, letter, letter * 500_000) for at, letter in enumerate("abcde")]
    return ("long.xml", "".join([head, *small, *large, "</channel>", tail]).encode())


def check_long(program: Path) -> None:
    """A long export becomes several imports, each within the limits, and no post is lost between them."""
    status, commands, report = converted(long_export(), "--templates", TEMPLATES)
    lines = commands.splitlines()
    must(status == 0 and max(map(len, lines)) <= LINE_BYTES, f"status {status}, or a line is too long")
    must([len(posts_of(line)) for line in lines] == [IMPORT_POSTS, 3, 2, 1], "the imports are cut otherwise")
    last = IMPORT_POSTS + 6
    must([post["id"] for post in posts_of(commands)] == list(range(1, last + 1)), "posts are missing")
    must(report.endswith(f"{last:,} pages, in 4 lines\n"), f"the sum is another: {report[-100:]}")
    pages = served(program, commands, [f"/?page_id={number}" for number in (1, IMPORT_POSTS + 1, last, last + 1)])
    must(
        [page for _, page in pages.values()] == ["|;", "|;", "e|<p>" + "e" * 500_000 + "</p>\n;", "none"], "other pages"
    )


# Files of templates that are refused, and words of the reason.
BAD_TEMPLATES = [
    (b"", "no JSON"),
    (b"[]", "no object"),
    (b'{"index":null}', "no list of nodes"),
    (b'{"front":[]}', "no template name"),
    (b'{"index":["\\ud800"]}', "no JSON"),
    (b'{"index":[NaN]}', "no JSON"),
    (b'{"index":["' + b"x" * LINE_BYTES + b'"]}', "longer than a line"),
    (b'{"index":[{"links":"tags"}]}', "no links"),
    (b'{"index":[{"links":7}]}', "no links"),
    (b"[" * 100_000, "no JSON"),
]


def check_names() -> None:
    """Every name that the program takes for a template is taken here."""
    names = "index home front-page single page singular date archive 404 header footer content".split()
    with tempfile.TemporaryDirectory() as folder:
        file = Path(folder, "names.json")
        file.write_text(json.dumps({name: [name] for name in names}), encoding="utf-8")
        status, commands, report = converted(("kinds.xml", (HERE / "kinds.xml").read_bytes()), "--templates", file)
    must(status == 0, f"status {status}: {report}")
    must(json.loads(commands)["site"]["templates"] == {name: [name] for name in names}, "other templates are written")


def check_refusals() -> None:
    """Bad arguments and templates end with status 2, a reason and no command."""
    good = ("kinds.xml", (HERE / "kinds.xml").read_bytes())
    runs: list[tuple[list[str | Path], str]] = [
        (["--templates", HERE / "none.json"], "No such file"),
        (["--templates"], "arguments are required"),
        (["--posts-per-page", "101"], "a number from 1 to 100"),
        (["--author", "ben"], "a login, ="),
        (["--author", "ben=b"], "no author with the login 'ben'"),
    ]
    runs.append((["a.xml", "b.xml"], "unrecognized arguments"))
    with tempfile.TemporaryDirectory() as folder:
        for number, (data, reason) in enumerate(BAD_TEMPLATES):
            path = Path(folder, f"{number}.json")
            path.write_bytes(data)
            runs.append((["--templates", path], reason))
        for arguments, reason in runs:
            status, commands, report = converted(good, *arguments)
            last = report.rstrip().split("\n")[-1]
            must((status, commands) == (2, b"") and reason in last, f"{arguments}: status {status}: {report[-300:]}")


def export_checks(program: Path) -> Iterator[tuple[Any, ...]]:
    """What each check of exports shows, and the check with its arguments."""
    cases = sorted(HERE.glob("*.xml"))
    for path in cases:
        yield f"{path.name}: report and commands", check_case, path
    yield "bad arguments and templates", check_refusals
    yield "names of templates", check_names
    yield "lists of links", check_links
    yield "what is given by arguments", check_given
    yield "an & that isn't escaped", check_ampersands
    yield "packed exports", check_packed
    yield "nested exports", check_depth
    for path in cases:
        if path.with_suffix(".jsonl").is_file():
            yield f"{path.name}: pages", check_pages, program, path
    yield "kinds.xml: whole pages", check_whole, program, HERE / "kinds.xml"
    yield "wordpress.xml: whole pages", check_whole, program, HERE / "wordpress.xml"
    yield "wordpress.xml: links to each post", check_walk, program, HERE / "wordpress.xml"
    yield "an export of several imports", check_long, program


PARTS: dict[str, Callable[[Path, Path], Iterator[tuple[Any, ...]]]] = {
    "exports": lambda program, _: export_checks(program),
    "archives": lambda program, _: chain(archive_checks.checks(program), second_runs.checks(program)),
    "editors": lambda program, _: editor_checks.checks(program),
    "wordpress": lambda _, wordpress: archive_checks.checks_beside(wordpress),
    "nginx": lambda program, _: archive_checks.checks_served(program),
}


def main() -> int:
    parser = parser_of(__doc__)
    parser.add_argument("--wordpress", metavar="DIR", type=Path, default=Path("/usr/share/wordpress"))
    some = f"some parts alone: {', '.join(PARTS)}"
    parser.add_argument("--part", metavar="NAME", action="append", choices=PARTS, help=some)
    arguments = parser.parse_args()
    program = Path(arguments.program)
    counts = Counts()
    if missing(program):
        print(f"FAILED: {missing(program)}")

    def cases(part: str) -> Cases:
        for name, check, *given in PARTS[part](program, arguments.wordpress):
            yield name, partial(check, *given)

    for part in arguments.part or PARTS:
        counts.judge_all(cases(part))
    return counts.end()
