"""What a build that is measured writes into the page of builds."""

from geanmarbles.checks.units.test_etcd import raised
from geanmarbles.repository.runs import HEADING, PAGE, column_of, with_column

TOOK = {"wall": 2273.2, "seconds": 6567.4, "largest": 7_300_000_000, "disk": 11_200_000_000}


def test_a_build_has_a_column_of_its_own() -> None:
    """The page's table of builds gets one more column, and nothing else changes."""
    page = PAGE.read_text(encoding="utf-8")
    made = with_column(page, column_of(TOOK, 0.361))
    head, _, table = page.partition(HEADING)
    rows = [line for line in table.splitlines() if line.startswith("|")]
    wide = [line for line in made.partition(HEADING)[2].splitlines() if line.startswith("|")]
    assert made.startswith(head + HEADING) and len(rows) == len(wide) == 8
    for before, after in zip(rows, wide):
        assert after.startswith(before) and after.count("|") == before.count("|") + 1
    last = {it.split("|")[1].strip(): it.split("|")[-2].strip() for it in wide}
    assert last["Wall time"] == "37 min 53 s" and last["Processor seconds"] == "6,567 s"
    assert last["Largest process"] == "7.3 GB" and last["Disk"] == "11 GB" and last["---"] == "---"
    raised(AssertionError, lambda: with_column(head, column_of(TOOK, 0.361)))
