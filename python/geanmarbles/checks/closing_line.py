"""What pytest needs to know of the checks here: which functions they are, beside those that it finds by itself, and the
line that ends a run. `python/conftest.py` hands it on."""

from importlib import import_module
from typing import Any

from geanmarbles.checks.judging import Counted, Skipped
from geanmarbles.checks.runner import is_check

COUNTS = {"passed": 0, "failed": 0, "skipped": 0}


def pytest_pycollect_makeitem(collector: Any, name: str, obj: object) -> Any:
    """Makes an item of a function that is in its module's list of checks."""
    module = getattr(collector, "obj", None)
    if name.startswith("test_") or not is_check(module, name, obj):  # type: ignore[arg-type]
        return None
    return import_module("pytest").Function.from_parent(collector, name=name, callobj=obj)


def pytest_runtest_call(item: Any) -> None:
    """Has a check that can't be made here count as skipped, and one that is many count as these."""
    check = item.obj

    def run() -> None:
        try:
            found = check()
        except Skipped as why:
            import_module("pytest").skip(str(why))
        if isinstance(found, Counted):
            item.user_properties += found._asdict().items()
            assert not found.failed, str(found)

    item.obj = run


def pytest_runtest_logreport(report: Any) -> None:
    if report.when == "call" or report.outcome != "passed":
        for outcome, count in report.user_properties or [(report.outcome, 1)]:
            COUNTS[outcome] += count


def pytest_collectreport(report: Any) -> None:
    if report.failed:
        COUNTS["failed"] += 1


def pytest_unconfigure() -> None:
    print(Counted(**COUNTS), flush=True)
