"""How checks are counted, and the line that ends a run."""

import contextlib
import io
from collections.abc import Iterator

from geanmarbles.checks.judging import Check, Counted, Counts, Skipped, counted_in, must
from geanmarbles.client.replies import Wrong


def fails(fault: Exception) -> None:
    raise fault


def test_a_run_ends_with_a_line_that_is_read_again() -> None:
    for counted in (Counted(), Counted(3, 1), Counted(0, 0, 2), Counted(12_345, 0, 1)):
        assert counted_in(f"what was said\n{counted}\n") == counted
    assert str(Counted(2, 1)) == "2 passed, 1 failed"
    assert str(Counted(2, 1, 3)) == "2 passed, 1 failed, 3 skipped"
    for output in ("", "\n", "2 passed", "2 passed, 1 failed, and more", "2 passed, 1 failed\nKilled"):
        assert counted_in(output) is None


def test_each_check_is_counted_once() -> None:
    """A check that is many counts as many; whatever it raises, the next one is made."""

    def cases() -> Iterator[tuple[str, Check]]:
        yield "fine", lambda: None
        yield "many", lambda: Counted(5, 2, 1)
        yield "wrong", lambda: must(False, "this is wrong")
        yield "skipped", lambda: fails(Skipped("for want of it"))
        yield "late", lambda: fails(TimeoutError("late"))
        yield "a mistake", lambda: fails(TypeError("of the check's own"))
        raise Wrong("no more")

    counts, said = Counts(), io.StringIO()
    with contextlib.redirect_stdout(said):
        assert counts.judge_all(cases()) == 1 + 7 + 1 + 0 + 1 + 1 + 1
        assert counts.end() == 1
    assert (counts.passed, counts.failed, counts.skipped) == (6, 6, 2)
    lines = said.getvalue().splitlines()
    assert lines[:3] == [
        "FAILED: wrong: this is wrong",
        "skipped: skipped: for want of it",
        "FAILED: late: TimeoutError('late')",
    ]
    assert lines[3].startswith("FAILED: a mistake: TypeError") and "Traceback" in lines[4]
    assert lines[-2:] == ["FAILED: the next check can't be made: no more", "6 passed, 6 failed, 2 skipped"]


def test_a_run_without_a_failure_ends_well() -> None:
    with contextlib.redirect_stdout(io.StringIO()):
        counts = Counts()
        counts.judge("fine", lambda: None)
        assert counts.end() == 0
