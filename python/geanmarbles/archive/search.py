"""The search of an archive: a page that lists every post and page, an index of words, and a script that joins them.

No server has a part in it, and nothing of another host: the script reads the few files of the index that have the words
that were asked for, and hides what of the list hasn't all of them. A word is found by its beginning, in small or
capital letters, with or without accents. Without JavaScript the list is shown whole.
"""

import json
import re
import tempfile
import unicodedata
from collections.abc import Iterator
from html import escape, unescape
from itertools import chain

from geanmarbles.archive.files import Files
from geanmarbles.archive.kept import Units
from geanmarbles.archive.plan import Plan
from geanmarbles.wordpress.addresses import as_link

# The names that the page can have: WordPress has the first one for what it finds.
NAMES = ("search", "search-archive")
# How many posts may have changed if the index of the last run is mended, and the name of the index in records.
SOME, INDEX = 200, "search index"
# How many files the index has: a word is in the one that its first two characters say.
FILES = 64
# The shortest word that is noted, and how many characters of a long one are.
SHORTEST, LONGEST = 2, 40
HIDDEN = re.compile(r"<(script|style)\b.*?</\1>|<!--.*?-->|<[^<>]*>?", re.S | re.I)
LIST = "<!--archive:search-list-->"
SCRIPT = """// Shows those posts of the list that have all the words of the address. words-N.json has the words
// of whose first two characters N is made, each with the posts that it is in.
"use strict";
(async () => {
  const here = document.currentScript.src, list = document.getElementById("search-list");
  const said = document.getElementById("search-said");
  const asked = new URLSearchParams(location.search).get("s") ?? "";
  const plain = asked.toLowerCase().normalize("NFKD").replace(/\\p{M}/gu, "");
  const words = (plain.match(/[\\p{L}\\p{N}]{2,}/gu) ?? []).map(it => [...it].slice(0, LONGEST).join(""));
  for (const it of document.querySelectorAll("form[role=search] input[name=s]")) it.value = asked;
  if (!words.length || !list) return;

  async function postsWith(word) {
    const [first, second] = [...word].map(it => it.codePointAt(0));
    const reply = await fetch(new URL(`words-${(31 * first + second) % FILES}.json`, here));
    const known = reply.ok ? await reply.json() : {};
    return new Set(Object.keys(known).filter(it => it.startsWith(word)).flatMap(it => known[it]));
  }
  const sets = await Promise.all(words.map(postsWith));
  let count = 0;
  for (const item of list.children) {
    const number = Number(item.id.slice("post-".length));
    item.hidden = !sets.every(it => it.has(number));
    count += !item.hidden;
  }
  said.textContent = said.dataset.found + count;
})();
"""


def words_in(text: str) -> set[str]:
    """The words of a text as the index has them. The script makes the same of what it is asked for."""
    plain = unicodedata.normalize("NFKD", text.lower())
    for it in set(plain):
        if not it.isascii() and unicodedata.category(it).startswith("M"):
            plain = plain.replace(it, "")
    return {it[:LONGEST] for it in re.findall(r"[^\W_]+", plain) if len(it) >= SHORTEST}


def file_number(word: str) -> int:
    """The file of the index that has a word."""
    return (31 * ord(word[0]) + ord(word[1])) % FILES


class Search:
    """The search of a plan."""

    def __init__(self, plan: Plan, files: Files) -> None:
        self.plan, self.files = plan, files
        home, taken = plan.places.home, plan.taken
        paths = (plan.places.ended(f"{home}{it}") for it in NAMES)
        # Where the page is, or an empty text if other pages have both its names.
        self.path = next((it for it in paths if it not in taken and it.rstrip("/") not in taken), "")
        self.folder = f"{self.path.rstrip('/')}/"

    def form(self) -> str:
        """The form that leads to the search, for each page."""
        if not self.path:
            return ""
        word = escape(self.plan.words["search"])
        return (
            f'<form role="search" class="search" action="{escape(as_link(self.path))}">\n<label><span class="unseen">'
            f'{word}</span> <input type="search" name="s"></label>\n<button>{word}</button>\n</form>\n'
        )

    def listed(self) -> Iterator[str]:
        """Every post and page, the newest first, in pieces of HTML."""
        plan, words = self.plan, self.plan.words
        found, everything = escape(words["found"] + words["colon"]), escape(words["everything"])
        yield f'<p id="search-said" role="status" data-found="{found}">{everything}</p>\n<ul id="search-list">\n'
        pages = (it for it in plan.paths if it not in plan.order)
        for it in chain(plan.order.newest(), pages):
            if it in plan.paths and it != plan.posts_page:
                yield f'<li id="post-{it}">{self.entry(it)}</li>\n'
        yield f'</ul>\n<script defer src="{escape(as_link(self.folder))}search.js"></script>\n'

    def entry(self, number: int) -> str:
        plan, title = self.plan, escape(self.plan.plain_title(number), quote=False)
        date = f" <small>{plan.day(plan.store.posts[number].date)}</small>" if number in plan.order else ""
        return f'<a href="{escape(as_link(plan.paths[number]))}">{title}</a>{date}'

    def write_index(self, units: Units) -> None:
        """Writes the script and the words."""
        script = SCRIPT.replace("FILES", str(FILES)).replace("LONGEST", str(LONGEST))
        facts, before = self.plan.facts, units.before(INDEX)
        changed = units.changed(facts)
        if before is not None and len(changed) < SOME:
            pages = self.with_words_of(changed)
        else:
            pages = self.of_all_words()

        def write() -> None:
            self.files.write(f"{self.folder}search.js", script)
            for at, known in pages:
                if known:
                    listed = (f"{json.dumps(it)}:[{','.join(map(str, known[it]))}]" for it in sorted(known))
                    self.files.write(self.file_of(at), f"{{{f',{chr(10)}'.join(listed)}}}\n")

        units.make(INDEX, self.plan.all_facts(), write)

    def file_of(self, at: int) -> str:
        return f"{self.folder}words-{at}.json"

    def words_of(self, number: int) -> set[str]:
        """The words of a post or page that has one of its own."""
        plan = self.plan
        if number not in plan.paths or number == plan.posts_page:
            return set()
        return words_in(f"{plan.plain_title(number)} {unescape(HIDDEN.sub(' ', plan.store.content(number)))}")

    def of_all_words(self) -> Iterator[tuple[int, dict[str, list[int]]]]:
        """The files of the index: each word with the posts that it is in. They are made of notes in temporary files, so
        only one of them is in memory at a time."""
        notes = [tempfile.TemporaryFile() for _ in range(FILES)]
        for number in sorted(self.plan.facts):
            for word in self.words_of(number):
                notes[file_number(word)].write(f"{word} {number}\n".encode())
        for at, file in enumerate(notes):
            known: dict[str, list[int]] = {}
            file.seek(0)
            for line in file:
                word, _, place = line.decode().partition(" ")
                known.setdefault(word, []).append(int(place))
            file.close()
            yield at, known

    def with_words_of(self, changed: list[int]) -> Iterator[tuple[int, dict[str, list[int]]]]:
        """The files of the index as the last run has left them, with other words of some posts."""
        words: dict[int, dict[str, list[int]]] = {}
        for number in sorted(changed):
            for word in self.words_of(number):
                words.setdefault(file_number(word), {}).setdefault(word, []).append(number)
        gone = set(changed)
        for at in range(FILES):
            file, added = self.files.root / self.file_of(at).lstrip("/"), words.get(at, {})
            known: dict[str, list[int]] = json.loads(file.read_bytes()) if file.is_file() else {}
            for word in [it for it, numbers in known.items() if not gone.isdisjoint(numbers)] + [*added]:
                left = [it for it in known.pop(word, []) if it not in gone]
                if left or word in added:
                    known[word] = sorted({*left, *added.get(word, [])})
            yield at, known
