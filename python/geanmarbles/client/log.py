"""The log of `site --trace`, read as the pages that it tells of, and each page as a tree of passes.

A page makes passes, a pass runs callbacks, and a callback may ask for further passes. The log has one line for each
invocation, in order; this puts them back into that shape.
"""

from __future__ import annotations

import html
import json
from collections.abc import Iterable, Iterator
from typing import TYPE_CHECKING, Any, NamedTuple, Union

if TYPE_CHECKING:
    from geanmarbles.client.notes import Notes

# A line of the log, and a part of a page: a pass, or the run of a shortcode's handler.
Told = dict[str, Any]
Part = Union["Pass", "Run"]

# The filters that a page itself runs. Every other pass of a page is an action; of a pass that was asked for, and of the
# filter on a shortcode's text, the kind is known.
PAGE_FILTERS = ("the_title", "the_content")
SHORTCODE_FILTER = "do_shortcode_tag"
# The asks that are answered by a pass or by replacing shortcodes, one level deeper.
DEEPER = ("apply_filters", "do_action", "do_shortcode")
# How many characters of a text are shown, unless all are wanted.
SHOWN = 60

# How trees look in a browser; `main` is what holds them where they stand below another page.
STYLE = """
body, main { color: #1b1b1b; background: #fff; font: 15px/1.5 system-ui, sans-serif; }
main { border-top: 3px solid #ccc; display: block; padding: .6em 1em; text-align: left; }
details, p { margin: 0 0 0 1.5em; }
body > details, main > details { border-top: 1px solid #ccc; margin: 0; padding: .6em 0; }
main > details { border: 0; }
body > details > summary, main > details > summary { font-weight: 600; }
summary { cursor: pointer; }
code { font: 14px/1.5 ui-monospace, monospace; overflow-wrap: anywhere; white-space: pre-wrap; }
@media (max-width: 30em) { details, p { margin-left: .8em; } code { font-size: 13px; } }
@media (prefers-color-scheme: dark) { body, main { background: #161616; color: #ddd; } }
"""


class Page:
    """A page: the lines of its invocations, and the line of its end, if it has ended."""

    def __init__(self, path: Any, number: int | None) -> None:
        self.path, self.number = path, number
        self.lines: list[Told] = []
        self.end: Told | None = None

    def has_gone_past(self, told: Told) -> bool:
        """Whether a line is of a later page: it comes before what this one has told, whose end then was left out."""
        made = told["count"] - 1 if "count" in told else told["invocations"]
        return bool(self.lines) and made < self.lines[-1]["count"]


class Pass:
    """A pass over a hook: the runs of its callbacks. `asked` is the ask that it answers, if one does."""

    def __init__(self, line: Told, asked: Told | None) -> None:
        self.hook: str = line["hook"]
        self.asked = asked
        self.item, self.post, self.depth = line.get("item"), line.get("post"), line["depth"]
        self.runs: list[Run] = []
        # Whether it was made to its end.
        self.is_over = True

    def has(self, line: Told) -> bool:
        """Whether the run that begins with this line may be the next one: an item of a page makes one pass."""
        return (self.hook, self.item) == (line["hook"], line.get("item"))

    def is_filter(self) -> bool:
        if self.asked is not None:
            return "apply_filters" in self.asked
        return self.hook in PAGE_FILTERS or self.hook == SHORTCODE_FILTER


class Run:
    """A callback at work: its invocations, one more for each of its asks, and what was done for each of them."""

    def __init__(self, line: Told) -> None:
        self.lines = [line]
        # What was done for the ask of each invocation; for core's own callback, the shortcodes that it replaced.
        self.nested: list[list[Part]] = [[]]

    def first(self) -> Told:
        return self.lines[0]

    def answer(self) -> Any:
        """What it answered in the end, or None if it never did, as core's own callback."""
        return self.lines[-1].get("answer")


def read_pages(lines: Iterable[bytes]) -> tuple[list[Page], int]:
    """The pages of a log, in the order in which they first appear, and how many lines are no lines of a log."""
    pages: list[Page] = []
    under_way: dict[int | None, Page] = {}
    others = 0
    for line in lines:
        told = told_by(line)
        if told is None:
            others += 1
            continue
        # Open pages are told apart by their numbers, and of the others one ends before the next begins.
        number = told.get("open")
        page = under_way.get(number)
        if page is None or page.has_gone_past(told):
            page = under_way[number] = Page(told.get("page"), number)
            pages.append(page)
        if "invocations" in told:
            page.end = told
            del under_way[number]
        else:
            page.lines.append(told)
    return pages, others


def told_by(line: bytes) -> Told | None:
    """What a line of a log tells, or None if it is another line."""
    try:
        told = json.loads(line)
    except ValueError:
        return None
    is_of_page = isinstance(told, dict) and ("page" in told or "open" in told)
    return told if is_of_page and ("count" in told or "invocations" in told) else None


class Reader:
    """Reads the lines of a page as passes. A line that is missing, since memory ran out for it, is tolerated."""

    def __init__(self, lines: list[Told]) -> None:
        self.lines, self.at = lines, 0

    def next_begins_at(self, depth: int) -> bool:
        """Whether a callback begins at this depth or deeper, and not one goes on whose ask is answered."""
        if self.at == len(self.lines):
            return False
        line = self.lines[self.at]
        return line["depth"] > depth or line["depth"] == depth and "answers" not in line

    def take(self) -> Told:
        self.at += 1
        return self.lines[self.at - 1]

    def continues(self, run: Run) -> bool:
        """Whether the next line is the same callback, called again with one answer more."""
        if self.at == len(self.lines):
            return False
        last, line = run.lines[-1], self.lines[self.at]
        is_same = (last["depth"], last["callback"]) == (line["depth"], line["callback"])
        return is_same and len(line.get("answers", [])) == len(last.get("answers", [])) + 1

    def level(self, depth: int, asked: Told | None = None) -> list[Part]:
        """The passes and the runs of shortcodes' handlers from here on, at this depth or deeper."""
        found: list[Part] = []
        while self.next_begins_at(depth):
            line = self.lines[self.at]
            run = self.run()
            if "tag" in line:
                found.append(run)
                continue
            last = found[-1] if found else None
            if not (isinstance(last, Pass) and last.has(line)):
                last = Pass(line, asked)
                found.append(last)
            last.runs.append(run)
        return found

    def run(self) -> Run:
        """The run of a callback that begins here."""
        run = Run(self.take())
        depth = run.first()["depth"]
        if "ask" not in run.first() and "answer" not in run.first():
            run.nested[-1] = self.level(depth + 1)
        while "ask" in run.lines[-1]:
            ask = run.lines[-1]["ask"]
            if any(name in ask for name in DEEPER):
                run.nested[-1] = self.level(depth + 1, ask)
            if not self.continues(run):
                break
            run.lines.append(self.take())
            run.nested.append([])
        return run


def passes_of(page: Page) -> list[Part]:
    """The passes of a page, in order."""
    reader = Reader(page.lines)
    found: list[Part] = []
    while reader.at < len(reader.lines):
        # A line that continues nothing that is known begins anew.
        found += reader.level(0) or [reader.run()]
    is_cut_off = page.end is None or "refused" in page.end
    if is_cut_off and found and isinstance(found[-1], Pass):
        found[-1].is_over = False
    return found


class Node(NamedTuple):
    """A line of a tree, and what is below it."""

    text: str
    below: list[Node]


class Teller:
    """Tells passes as a tree of lines. With `whole`, texts are shown as the log has them, and `notes` adds what else
    follows from it."""

    def __init__(self, whole: bool = False, notes: Notes | None = None) -> None:
        self.whole, self.notes = whole, notes

    def text(self, value: Any) -> str:
        """A text of the log, or another answer of the engine's, for a reader."""
        if value is None:
            return "nothing"
        if isinstance(value, (bool, int)):
            return json.dumps(value)
        cut = value["cut"] if isinstance(value, dict) else value
        short = cut if self.whole or len(cut) <= SHOWN else cut[:SHOWN]
        if short == value:
            return json.dumps(value, ensure_ascii=False)
        size = value["bytes"] if isinstance(value, dict) else len(value.encode())
        return f"{json.dumps(short, ensure_ascii=False)}.. ({size} bytes)"

    def call(self, named: Told) -> str:
        """A change or an ask, as the call of its function."""
        [(name, given)] = named.items()
        parts = []
        for key, value in given.items():
            if key == "args":
                parts += [self.text(argument) for argument in value]
            else:
                parts.append(self.text(value) if key not in ("hook", "tag", "name") else f"{value}")
        return f"{name}({', '.join(parts)})"

    def shortcode(self, line: Told) -> str:
        """A shortcode, as its handler received it."""
        named = "".join(f" {name}={self.text(value)}" for name, value in line["atts"]["named"])
        given = "".join(f" {self.text(value)}" for value in line["atts"]["positional"])
        content = f" {self.text(line['content'])}" if line["content"] else ""
        return f"[{line['tag']}{named}{given}]{content}"

    def received(self, line: Told, is_filter: bool) -> str:
        """What a callback received."""
        args = [self.text(argument) for argument in line["args"]]
        if not args:
            return "nothing"
        further = ", ".join(args[1:])
        return f"{args[0]} ({further})" if is_filter and further else ", ".join(args)

    def run(self, run: Run, is_filter: bool = True, is_first: bool = True) -> Node:
        """The line of a callback's run, with what it printed, changed and asked below it."""
        line, answer = run.first(), run.answer()
        who = f"{line['plugin']}/{line['callback']}"
        head = f"{self.shortcode(line)}  {who}" if "tag" in line else f"{line['priority']}  {who}"
        if "hook" in line:
            head += f"  {self.received(line, is_filter)}"
        if line["callback"] == 0:
            head += " → its shortcodes replaced"
        elif answer is not None and (is_filter or "tag" in line):
            head += f" → {self.text(answer)}"
        below = [below for at in range(len(run.lines)) for below in self.done(run, at)]
        noted = self.notes.of_core(run, is_first) if self.notes and line["callback"] == 0 else []
        return Node(head, [*below, *(Node(it, []) for it in noted)])

    def done(self, run: Run, at: int) -> list[Node]:
        """What an invocation of a run printed, changed and asked."""
        line = run.lines[at]
        below = [Node(f"printed {self.text(line['echo'])}", [])] if "echo" in line else []
        below += [Node(f"changed {self.call(change)}", []) for change in line.get("changes", [])]
        nested = [self.part(part) for part in run.nested[at]]
        if "ask" not in line:
            return below + nested
        later = run.lines[at + 1] if at + 1 < len(run.lines) else None
        answered = f" → {self.text(later['answers'][-1])}" if later else ""
        if self.notes and "do_shortcode" in line["ask"]:
            nested += [Node(it, []) for it in self.notes.of_text(line["ask"]["do_shortcode"]["text"], run.nested[at])]
        return [*below, Node(f"asked {self.call(line['ask'])}{answered}", nested)]

    def part(self, part: Part) -> Node:
        return self.run(part) if isinstance(part, Run) else self.pass_over(part)

    def pass_over(self, part: Pass) -> Node:
        """The line of a pass, with its callbacks below it."""
        is_filter = part.is_filter()
        about = f" of post {part.post}" if part.post is not None and part.depth == 0 else ""
        head = f"{part.hook}{about}"
        first, last = part.runs[0].first(), part.runs[-1]
        if is_filter and first["args"]:
            head += f": {self.text(first['args'][0])}"
            if last.answer() is not None and part.is_over:
                head += f" → {self.text(last.answer())}"
        if self.notes and self.notes.is_unchanged(part):
            head += ", unchanged"
        return Node(head, [self.run(run, is_filter, run is part.runs[0]) for run in part.runs])

    def page(self, page: Page, parts: list[Part]) -> Node:
        """The line of a page, with its passes below it."""
        opened = f" (open page {page.number})" if page.number is not None else ""
        path = "a page" if page.path is None else page.path if isinstance(page.path, str) else f"{page.path['cut']}.."
        return Node(f"{path}{opened}: {end_of(page)}", [self.part(part) for part in parts])


def end_of(page: Page) -> str:
    """How a page ended."""
    end = page.end
    if end is None:
        return f"not ended, {len(page.lines)} invocations so far"
    if "refused" in end:
        return f"refused {end['refused']} {end['name']}, {end['invocations']} invocations"
    return f"{end['status']}, {end['bytes']} bytes, {end['invocations']} invocations"


def parts_over(parts: Iterable[Part], hook: str) -> list[Part]:
    """Of some passes and what is nested in them, those over a hook."""
    found: list[Part] = []
    for part in parts:
        if isinstance(part, Pass) and part.hook == hook:
            found.append(part)
            continue
        runs = [part] if isinstance(part, Run) else part.runs
        found += [it for run in runs for nested in run.nested for it in parts_over(nested, hook)]
    return found


def tree_of(
    page: Page, hook: str | None = None, post: int | None = None, whole: bool = False, notes: Notes | None = None
) -> Node | None:
    """The tree of a page: of all its passes, or of those over a hook or about a post, if there are any."""
    parts = passes_of(page)
    if post is not None:
        parts = [part for part in parts if isinstance(part, Pass) and part.post == post]
    if hook is not None:
        parts = parts_over(parts, hook)
    if not parts and (hook is not None or post is not None):
        return None
    return Teller(whole, notes).page(page, parts)


def printed(node: Node, depth: int = 0) -> Iterator[str]:
    """The lines of a tree, indented."""
    yield f"{'  ' * depth}{node.text}"
    for below in node.below:
        yield from printed(below, depth + 1)


def as_html(node: Node, depth: int = 0) -> Iterator[str]:
    """A tree as nested elements that a browser opens and closes by itself. Pages and passes are open at first."""
    text = f"<code>{html.escape(node.text)}</code>"
    if not node.below:
        yield f"<p>{text}</p>\n"
        return
    yield f"<details{' open' if depth < 3 else ''}><summary>{text}</summary>\n"
    for below in node.below:
        yield from as_html(below, depth + 1)
    yield "</details>\n"
