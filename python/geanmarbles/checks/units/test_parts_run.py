"""The runner of ./test, over parts that are small scripts: what it counts, what it skips, and how it ends."""

import contextlib
import io
import json
import subprocess
import sys
import tempfile
from collections import Counter
from collections.abc import Sequence
from itertools import pairwise
from pathlib import Path

from geanmarbles.checks import bench
from geanmarbles.checks.database import kills
from geanmarbles.checks.database import run as database
from geanmarbles.checks.from_wordpress import run as from_wordpress
from geanmarbles.checks.judging import Counted
from geanmarbles.checks.parts import NEEDS, Part, all_parts, parts_of
from geanmarbles.checks.parts_run import Runs, Tally, allowed, run_all
from geanmarbles.checks.programs import LANES
from geanmarbles.checks.pump import run as pump

NOT_HERE = "valgrind"


def part(text: str, *needs: str, kind: str = "checks", seconds: float = 1) -> Part:
    """A part that is a line of Python."""
    return Part(kind, seconds, needs, (sys.executable, "-c", text))


def ran(parts: Sequence[Part], may_skip: Sequence[str] = (), is_strict: bool = False) -> tuple[Tally, str]:
    """What parts count, and what is said, if nothing is here of what they need."""
    tally, said = Tally(dict(map(allowed, may_skip)), is_strict), io.StringIO()
    was = dict(NEEDS)
    try:
        NEEDS.update({it: lambda: "it isn't here" for it in NEEDS})
        with contextlib.redirect_stdout(said):
            run_all(parts, tally, Runs(Path("/the/program"), 3), 2)
    finally:
        NEEDS.update(was)
    return tally, said.getvalue()


def test_parts_are_counted_by_their_kinds() -> None:
    tally, said = ran(
        [part("print('2 passed, 0 failed')", kind="rows"), part("print('3 passed, 0 failed, 1 skipped')")]
    )
    assert tally.of_kind == {"rows": Counted(2), "checks": Counted(3, 0, 1)} and tally.whole() == Counted(5, 0, 1)
    assert "rows: 2 passed, 0 failed\nchecks of scripts and program: 3 passed, 0 failed, 1 skipped\nbase: 0 s\n" in said


def test_a_part_that_fails_is_named_at_the_end() -> None:
    wrong = part("print('FAILED: this'); print('1 passed, 2 failed'); raise SystemExit(1)")
    tally, said = ran([wrong, part("print('1 passed, 0 failed')")])
    assert tally.whole() == Counted(2, 2) and said.count(f"failed: {wrong}\n") == 1 and "FAILED: this\n" in said


def test_a_part_without_a_closing_line_is_a_failure() -> None:
    for text in ("print('1 passed')", "raise SystemExit(0)", "print('9 passed, 0 failed'); print('Killed')"):
        tally, said = ran([part(text)])
        assert tally.whole() == Counted(failed=1) and "without a line 'N passed, M failed'" in said


def test_a_bad_status_without_a_failure_is_one() -> None:
    tally, said = ran([part("print('4 passed, 0 failed'); raise SystemExit(2)")])
    assert tally.whole() == Counted(4, 1) and "reported no failure but ended with status 2" in said
    tally, _ = ran([part("import os; print('4 passed, 0 failed', flush=True); os.kill(os.getpid(), 9)")])
    assert tally.whole() == Counted(4, 1)


def test_what_is_not_here_is_skipped_by_name() -> None:
    needy = part("print('1 passed, 0 failed')", NOT_HERE, "etcd")
    tally, said = ran([needy])
    assert tally.whole() == Counted(skipped=1) and said.startswith(f"skipped: {needy}: it isn't here; it isn't here\n")
    tally, said = ran([part("print('0 passed, 0 failed')")])
    assert tally.whole() == Counted(skipped=1) and "it checked nothing" in said


def test_in_ci_what_is_skipped_has_a_reason_or_fails() -> None:
    needy = part("print('1 passed, 0 failed')", NOT_HERE)
    for parts in ([needy], [part("print('0 passed, 0 failed')")]):
        tally, said = ran(parts, is_strict=True)
        assert tally.whole() == Counted(failed=1) and f"failed: {parts[0]}" in said
        for name in (*parts[0].needs, "print"):
            tally, said = ran(parts, [f"{name}=not before the next release"], is_strict=True)
            assert tally.whole() == Counted(skipped=1) and "(not before the next release)" in said
        tally, _ = ran(parts, ["wordpress=another"], is_strict=True)
        assert tally.whole() == Counted(failed=1)


def test_parts_are_given_the_program_and_their_share() -> None:
    shows = part(f"import os, sys; print(sys.argv[1:], os.environ['{LANES}']); print('1 passed, 0 failed')")
    tally, said = ran([shows._replace(words=(*shows.words, "{site}", "{other}"))])
    assert "['/the/program', '{other}'] 3\n" in said and tally.whole() == Counted(1)


def test_what_takes_longest_begins_and_what_is_alone_ends() -> None:
    times = []
    with tempfile.TemporaryDirectory() as folder:

        def notes(name: str, *needs: str, seconds: float) -> Part:
            file = json.dumps(str(Path(folder, name)))
            text = f"import time; begin = time.time(); time.sleep(0.3); out = open({file}, 'w')"
            text += "; out.write(f'{begin} {time.time()}')"
            return part(f"{text}; print('1 passed, 0 failed')", *needs, seconds=seconds)

        parts = [
            notes("c", "alone", seconds=9),
            notes("b", seconds=1),
            notes("a", seconds=2),
            notes("d", "alone", seconds=8),
        ]
        tally, _ = ran(parts)
        for name in "abcd":
            begin, end = map(float, Path(folder, name).read_text(encoding="ascii").split())
            times.append((begin, end))
    (a, a_end), (b, b_end), (c, c_end), (d, _) = times
    assert tally.whole() == Counted(4) and a < b_end and b < a_end and c > max(a_end, b_end) and d > c_end


def test_the_listed_parts_are_read() -> None:
    parts = all_parts()
    assert any(it.kind == "rows" and it.is_base() for it in parts) and not all(it.is_base() for it in parts)
    assert all(it.words[0].startswith("tests/") and it.seconds > 0 for it in parts)
    for line in ("checks 1 -", "tests 1 - tests/x/run", "checks 1 nothing tests/x/run", "checks x - tests/x/run"):
        try:
            parts_of(line)
        except ValueError:
            continue
        raise AssertionError(line)


def test_a_part_is_chosen_by_whole_words() -> None:
    rows, piece = parts_of("rows 1 - tests/rows/run {site}\nchecks 1 - tests/browse/run --part file {site}")
    assert str(rows) == "tests/rows/run" and rows.has("rows") and rows.has("tests/rows/run") and not rows.has("site")
    assert piece.has("--part file") and piece.has("browse") and not piece.has("rows") and not piece.has("part fil")


def test_the_pieces_of_a_script_are_all_of_it() -> None:
    for script, names in {
        "tests/bench/run": {bench.PROGRAM, *bench.NEEDS.values()},
        "tests/database/run": set(database.PARTS),
        "tests/from_wordpress/run": set(from_wordpress.PARTS),
        "tests/pump/run": set(pump.PARTS),
    }.items():
        pairs = [it for part in all_parts() if part.words[0] == script for it in pairwise(part.words)]
        listed = Counter(name for option, name in pairs if option in ("--part", "--needs"))
        rounds = [int(count) for option, count in pairs if option == "--rounds"]
        assert listed.keys() == names and sum(rounds) in (0, kills.ROUNDS)
        assert [it for it, count in listed.items() if count != (len(rounds) if it == "kills" else 1)] == []


def test_an_unknown_part_and_a_missing_program_are_refused() -> None:
    words = [sys.executable, "-B", str(Path(__file__).parents[3]), "test", "test"]
    for more, status, says in (
        (["no/such/part"], 2, "no part has 'no/such/part'"),
        (["--may-skip", "etcd"], 2, "NAME=REASON"),
        (["--program", "/no/program"], 1, "there is no program at /no/program"),
    ):
        done = subprocess.run([*words, *more], capture_output=True, text=True, check=False)
        assert done.returncode == status and says in done.stdout + done.stderr, done
