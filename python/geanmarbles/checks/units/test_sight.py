"""What a node tells of requests: lines of JSON as long as somebody reads them, and figures where their library is."""

import contextlib
import importlib
import io
import json
from typing import Any
from unittest import mock

from geanmarbles.checks.units.test_etcd import raised
from geanmarbles.cluster.sight import Figures, NoFigures, Seen, Sight

SEEN = Seen("127.0.0.1", None, "GET", "/?x=\u00e9\n", 200, 12, 0.0123456789, revision=7)


def test_a_request_is_one_line_of_what_is_known() -> None:
    said = io.StringIO()
    with contextlib.redirect_stdout(said):
        Sight().note(SEEN)
        Sight(has_lines=True).note(SEEN)
    (line,) = said.getvalue().splitlines()
    told = json.loads(line)
    assert told.pop("time").endswith("Z")
    assert told.pop("seconds") == 0.012346
    assert told == {name: it for name, it in SEEN._asdict().items() if it is not None and name != "seconds"}


def test_lines_that_nobody_reads_refuse_no_request() -> None:
    class Gone(io.StringIO):
        def flush(self) -> None:
            raise BrokenPipeError

    sight = Sight(has_lines=True)
    with contextlib.redirect_stdout(Gone()):
        sight.note(SEEN)
    assert not sight.has_lines


def test_figures_without_their_library_are_refused_by_name() -> None:
    node: Any = None
    with mock.patch.object(importlib, "import_module", side_effect=ImportError):
        fault = raised(NoFigures, lambda: Figures(node, ("127.0.0.1", 0)))
    assert "python3-prometheus-client" in str(fault)
