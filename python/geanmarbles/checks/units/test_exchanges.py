"""Exchanges that are repeated."""

from geanmarbles.client.exchanges import Exchange, apart, done, get
from geanmarbles.client.replies import read_replies

TIMES = 300


def test_lines_that_differ_mean_the_same() -> None:
    line = get("/?p=1").lines.strip()
    others = [apart(line, number) for number in range(TIMES)]
    assert len(set(others)) == TIMES
    assert {it.strip() for it in others} == {line}


def test_repeated_requests_differ_and_edits_do_not() -> None:
    edit = done("option", name="blogname", value="Site")
    asked = edit + get("/", "page")
    lines = (asked * TIMES).lines.splitlines()
    assert lines[::2] == [edit.lines.strip()] * TIMES
    assert len(set(lines[1::2])) == TIMES
    assert (asked * TIMES).replies == asked.replies * TIMES
    assert len(read_replies((asked * TIMES).replies.encode())[0]) == 2 * TIMES
    assert asked.again(2).lines == asked.lines * 2
    assert (Exchange() * TIMES).lines == ""
