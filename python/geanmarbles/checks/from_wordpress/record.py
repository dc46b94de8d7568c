"""Has WordPress's own code make the sites of whole/, and records what it shows of them.

    tests/from_wordpress/record [--wordpress DIR] [--check] [NAME ..]

For each site, `pottery` and `fournil` if none is named, whole/NAME.xml becomes its export, and whole/NAME.json the
lines of text of each post and page, and each public address with the status that WordPress replies and where it leads.
whole/texts.json gets what WordPress's functions make of the texts of text_cases.py. With --check nothing is written:
what WordPress shows must be what is recorded. DIR, with wp-includes, is /usr/share/wordpress if it is left out; PHP,
MariaDB and WordPress are needed, as wordpress.py says.

The exit status is 0, 1 if something differs with --check, and 2 if the arguments are bad or something is missing.
"""

import json
import random
import re
import sys
import tempfile
from pathlib import Path

from geanmarbles.arguments import Parser
from geanmarbles.checks.from_wordpress.archive_checks import SITES, TEXTS, WHOLE, shown_lines
from geanmarbles.checks.from_wordpress.text_cases import by_wordpress, cases
from geanmarbles.checks.from_wordpress.wordpress import NotThere, WordPress, missing

# How many random texts are recorded, beside each text alone.
RANDOM_TEXTS = 300


def recorded_texts(wordpress: Path) -> str:
    asked = list(cases(random.Random(1), RANDOM_TEXTS))
    rows = [[*it, made] for it, made in zip(asked, by_wordpress(wordpress, asked))]
    return "[\n" + ",\n".join(json.dumps(it, ensure_ascii=False) for it in rows) + "\n]\n"


def recorded_site(made: WordPress, address: str) -> str:
    """What WordPress shows of the site that it has made."""
    posts: list[object] = []
    for post in made.shown():
        images = sum(len(re.findall("<img ", it)) for it in post["parts"])
        lines = shown_lines(post["title"], post["parts"])
        posts.append(
            {
                "id": post["id"],
                "kind": post["kind"],
                "path": post["path"],
                "parts": len(post["parts"]),
                "images": images,
                "lines": lines,
            }
        )
    host = address.partition("//")[2]
    addresses: list[object] = [
        [path, status, *([to.removeprefix(address)] if to else [])]
        for path, status, to in made.statuses(made.addresses(), host)
    ]
    parts = [f'"address": {json.dumps(address)}']
    for name, rows in (("posts", posts), ("addresses", addresses)):
        listed = ",\n".join(json.dumps(it, ensure_ascii=False) for it in rows)
        parts.append(f'"{name}": [\n{listed}\n]')
    return "{\n" + ",\n".join(parts) + "\n}\n"


def without_remarks(export: str) -> str:
    """An export without WordPress's remarks to its reader, which come before its first element."""
    head, mark, rest = export.partition("<rss")
    return re.sub(r"<!--.*?-->\s*", "", head, flags=re.S) + mark + rest


def written(path: Path, text: str, is_check: bool) -> bool:
    """Writes a recording, or with --check says whether it is there already."""
    if not is_check:
        path.write_text(text, encoding="utf-8")
        return True
    is_same = path.is_file() and path.read_text(encoding="utf-8") == text
    if not is_same:
        print(f"record: {path.name} isn't what WordPress shows", file=sys.stderr)
    return is_same


def main() -> int:
    parser = Parser(description="Records what WordPress's own code shows of the sites of whole/.")
    parser.add_argument("--wordpress", metavar="DIR", type=Path, default=Path("/usr/share/wordpress"))
    parser.add_argument("--check", action="store_true", help="write nothing, and compare with what is recorded")
    parser.add_argument("names", metavar="NAME", nargs="*", help=f"one of {', '.join(SITES)}")
    arguments = parser.parse_args()
    if unknown := set(arguments.names) - set(SITES):
        parser.error(f"there is no site {', '.join(sorted(unknown))}")
    if lacks := missing(arguments.wordpress):
        print(f"record: {lacks}", file=sys.stderr)
        return 2
    are_well = [written(TEXTS, recorded_texts(arguments.wordpress), arguments.check)]
    try:
        with tempfile.TemporaryDirectory() as folder, WordPress(arguments.wordpress, Path(folder)) as made:
            for name in arguments.names or SITES:
                export = Path(folder, f"{name}.xml")
                made.make(name, export)
                address = re.findall("<wp:base_blog_url>([^<]*)</", export.read_text(encoding="utf-8"))[0]
                are_well.append(written(WHOLE / f"{name}.json", recorded_site(made, address), arguments.check))
                if not arguments.check:
                    text = export.read_text(encoding="utf-8")
                    (WHOLE / f"{name}.xml").write_text(without_remarks(text), encoding="utf-8")
    except NotThere as fault:
        print(f"record: {fault}", file=sys.stderr)
        return 2
    return 0 if all(are_well) else 1
