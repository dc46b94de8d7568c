"""Logs of `--trace`, read as pages and trees of passes."""

import json
from random import Random
from typing import Any

from geanmarbles.checks.units.drawn import each
from geanmarbles.client.log import Page, Part, Pass, Run, Told, passes_of, printed, read_pages, told_by, tree_of

# A run, as the callback with what was done for each of its asks; a pass, as its hook and item with its runs.
Shape = tuple[Any, ...]
ASKS: dict[str, Told] = {
    "apply_filters": {"hook": "h", "args": []},
    "do_action": {"hook": "h", "args": []},
    "do_shortcode": {"text": "t"},
    "get_option": {"name": "n"},
}


class Made:
    """A page made by a random generator: its lines, and the shape that they have to be read as."""

    def __init__(self, random: Random, deepest: int = 2) -> None:
        self.random, self.deepest = random, deepest
        self.lines: list[Told] = []
        self.shape = [self.a_pass(0, f"hook{at}", None, at) for at in range(random.randint(0, 3))]

    def a_pass(self, depth: int, hook: str, asked: str | None, item: int | None = None) -> Shape:
        head: Told = {"hook": hook, "args": ["x"], "priority": 10, **({} if item is None else {"item": item})}
        return (hook, item, asked, [self.a_run(depth, head) for _ in range(self.random.randint(1, 3))])

    def a_run(self, depth: int, head: Told) -> Shape:
        callback = self.random.randint(1, 3)
        first = {"depth": depth, "plugin": "p", "callback": callback, **head}
        asks = [self.random.choice(sorted(ASKS)) for _ in range(self.random.randint(0, 2))]
        done: list[list[Shape]] = []
        answers: list[str] = []
        for ask in asks:
            self.lines.append({**first, **({"answers": list(answers)} if answers else {}), "ask": {ask: ASKS[ask]}})
            done.append(self.below(depth + 1, ask))
            answers.append("a")
        self.lines.append({**first, **({"answers": list(answers)} if answers else {}), "answer": "made"})
        return (callback, [*done, []])

    def below(self, depth: int, ask: str) -> list[Shape]:
        """What an ask makes at the next depth."""
        if ask == "get_option" or depth > self.deepest or self.random.random() < 0.3:
            return []
        if ask != "do_shortcode":
            return [self.a_pass(depth, "h", ask)]
        head = {"tag": "b", "atts": {"named": [], "positional": []}, "content": ""}
        return [self.a_run(depth, head) for _ in range(self.random.randint(1, 2))]


def shape_of(part: Part) -> Shape:
    if isinstance(part, Run):
        return (part.first()["callback"], [[shape_of(it) for it in nested] for nested in part.nested])
    asked = next(iter(part.asked)) if part.asked else None
    return (part.hook, part.item, asked, [shape_of(it) for it in part.runs])


def log_of(path: str, lines: list[Told], number: int | None = None) -> list[bytes]:
    """The lines of a page's log, with that of its end."""
    name: Told = {"page": path} | ({} if number is None else {"open": number})
    told = [{**name, "count": count, **line} for count, line in enumerate(lines, 1)]
    told.append({**name, "status": 200, "bytes": 5, "invocations": len(lines)})
    return [json.dumps(it).encode() for it in told]


def test_a_log_is_read_as_the_tree_that_it_was_made_of() -> None:
    def check(random: Random) -> None:
        made = Made(random)
        [page], others = read_pages(log_of("/", made.lines))
        assert others == 0 and [shape_of(it) for it in passes_of(page)] == made.shape
        tree = tree_of(page)
        assert tree is not None and len(list(printed(tree))) >= 1 + len(made.shape)

    each(check)


def test_open_pages_are_told_apart_in_any_order() -> None:
    def check(random: Random) -> None:
        made = [Made(random, 1) for _ in range(random.randint(1, 3))]
        left = [(number, log_of(f"/?p={number}", it.lines, number)) for number, it in enumerate(made, 1)]
        wanted = {number: [json.loads(it) for it in lines[:-1]] for number, lines in left}
        mixed: list[bytes] = []
        while left:
            at = random.randrange(len(left))
            mixed.append(left[at][1].pop(0))
            if random.random() < 0.1:
                mixed.append(b"site: something else")
            if not left[at][1]:
                left.pop(at)
        pages, others = read_pages(mixed)
        assert {it.number: it.lines for it in pages} == wanted and all(it.end for it in pages)
        assert others == mixed.count(b"site: something else")

    each(check)


def test_a_line_that_is_lost_loses_no_page() -> None:
    def check(random: Random) -> None:
        made = Made(random)
        lines = log_of("/a", made.lines) + log_of("/b", made.lines)
        lost = random.randrange(len(lines))
        pages, _ = read_pages(lines[:lost] + lines[lost + 1 :])
        for page in pages:
            passes_of(page)
        # A page of whose only line nothing is left isn't known.
        assert [it.path for it in pages] == (["/a", "/b"] if made.lines else ["/b"] if lost == 0 else ["/a"])

    each(check)


def test_a_callback_whose_second_line_is_lost_is_not_the_next_one() -> None:
    first: Told = {"depth": 0, "hook": "init", "callback": 1, "args": []}
    page = Page("/", None)
    page.lines = [{**first, "ask": {"get_option": {"name": "n"}}}, {**first, "answer": ""}]
    (found,) = passes_of(page)
    assert isinstance(found, Pass) and len(found.runs) == 2


def test_lines_of_other_kinds_are_none_of_a_log() -> None:
    for line in (b"", b"x", b"[]", b"5", b"{}", b'{"page":"/"}', b'{"count":1}', b'"page"', b'{"invocations":0}'):
        assert told_by(line) is None, line
    assert told_by(b'{"open":1,"invocations":0}') == {"open": 1, "invocations": 0}


def test_a_page_that_was_refused_ends_in_mid_pass() -> None:
    page = Page("/", None)
    page.lines = [{"depth": 0, "hook": "init", "callback": 1, "count": 1, "answer": "", "args": []}]
    page.end = {"refused": 9, "name": "TooManyCalls", "invocations": 1}
    (found,) = passes_of(page)
    assert isinstance(found, Pass) and not found.is_over
    page.end = {"status": 200, "bytes": 0, "invocations": 1}
    (found,) = passes_of(page)
    assert isinstance(found, Pass) and found.is_over
