"""What the log of a gate that may still be running says."""

import re
import threading
import time
from pathlib import Path

# A crate is kept if an earlier run on this machine proved the same files.
PROVED = re.compile(r"^rt: (\w+) (proved|is kept|NOT PROVED)\b", re.M)
# What ./test writes after the output, however the run ended.
ENDED = re.compile(r"^rt ci has ended$", re.M)


class Log:
    """The output of `rt ci` in a file, to which it may still be writing."""

    def __init__(self, path: Path) -> None:
        self.path = path
        self.lock = threading.Lock()

    def state(self) -> tuple[dict[str, bool], bool]:
        """Whether each crate that is spoken of was proved, and whether the run has ended."""
        with self.lock:
            try:
                text = self.path.read_text(encoding="utf-8", errors="replace")
            except OSError:
                text = ""
        return {name: word != "NOT PROVED" for name, word in PROVED.findall(text)}, bool(ENDED.search(text))

    def wait_for(self, names: list[str]) -> str | None:
        """Waits until all these crates are proved. The result names the first that failed, or is None."""
        while True:
            proved, ended = self.state()
            failed = [it for it in names if proved.get(it) is False or ended and it not in proved]
            if failed:
                return failed[0]
            if all(it in proved for it in names):
                return None
            time.sleep(2)
