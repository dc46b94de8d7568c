"""How ./prove counts what its parts say."""

import contextlib
import io

from geanmarbles.checks.judging import Counted
from geanmarbles.checks.prove import Kinds


def test_what_parts_count_is_added_by_kinds() -> None:
    kinds, out = Kinds(), io.StringIO()
    with contextlib.redirect_stderr(out):
        kinds.add_part("proofs", "rt ci", 0, "rt: ok\n79 passed, 0 failed\n")
        kinds.add_part("wrong bodies", "tried", 0, "2 passed, 0 failed\n")
        kinds.add_part("wrong bodies", "self-test", 0, "5 passed, 0 failed, 1 skipped\n")
        kinds.add_test(
            0, "rows: 3 passed, 0 failed, 2 skipped\nchecks of scripts and program: 4 passed, 0 failed\nx: y\n"
        )
    assert kinds.found == {
        "proofs": Counted(79),
        "wrong bodies": Counted(7, 0, 1),
        "rows": Counted(3, 0, 2),
        "checks of scripts and program": Counted(4),
    }
    assert kinds.closing() == "93 passed, 0 failed, 3 skipped" and not out.getvalue()


def test_parts_that_end_badly_are_failures() -> None:
    for status, said, failed in (
        (0, "", 1),
        (0, "Killed\n", 1),
        (1, "9 passed, 0 failed\n", 1),
        (1, "9 passed, 2 failed\n", 2),
        (0, "rows: 9 passed, 0 failed\n", 1),
    ):
        kinds = Kinds()
        with contextlib.redirect_stderr(io.StringIO()):
            kinds.add_part("proofs", "rt ci", status, said)
        assert kinds.found["proofs"].failed == failed, said
    for status, said, failed in (
        (0, "9 passed, 0 failed\n", 1),
        (1, "rows: 9 passed, 0 failed\n9 passed, 0 failed\n", 1),
        (1, "rows: 9 passed, 3 failed\n9 passed, 3 failed\n", 3),
    ):
        kinds = Kinds()
        kinds.add_test(status, said)
        assert sum(it.failed for it in kinds.found.values()) == failed, said
