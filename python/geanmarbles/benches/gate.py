"""Says what the whole proof costs: seconds of a processor by crate, the longest chain, and the dearest functions.

    geanmarbles dev bench gate [--anew] LOG
    geanmarbles dev bench gate --build [FOLDER]

If there is no file LOG, it runs ./prove (or ./prove --anew), watches the processes of the prover that it starts, and
writes what each took to LOG, a JSON object a line; else it reads LOG. A process is seen four times a second, so the
last moments of each are missing. The seconds of a fixed loop say how fast the machine was.

With --build it builds the program from nothing, by ./build in a new clone of the last commit, in a folder of its own or
in FOLDER, which it leaves. It puts what that took into the table of builds in bench/gate/README.md, as its last column,
and the processor seconds of each crate into bench/gate/seconds.txt. The machine must have no work of another checkout.

The ten dearest functions are those of which the prover makes most, in megabytes of what the last checks of each crate
kept in out/incremental, since LOG has no times within a crate: one megabyte takes about a second.
"""

import argparse
import json
import os
import re
import subprocess
import sys
import tempfile
import time
from collections import Counter, defaultdict
from collections.abc import Mapping, Sequence
from pathlib import Path
from typing import Any

from geanmarbles.arguments import Parser
from geanmarbles.output import quiet_output
from geanmarbles.paths import ROOT
from geanmarbles.repository.build import SECONDS, read_seconds
from geanmarbles.repository.crates import below, read_crates
from geanmarbles.repository.runs import PAGE, column_of, with_column

TICKS = os.sysconf("SC_CLK_TCK")
KINDS = ("proof", "tests", "compiled", "must-fail", "wrong bodies")


def fixed_loop() -> float:
    """Seconds of a processor that a fixed loop takes."""
    begin, total = time.process_time(), 0
    for number in range(3_000_000):
        total += number * number
    return time.process_time() - begin


def kind_of(words: Sequence[str], folder: str) -> str:
    if "rt-edit-" in folder:
        return "must-fail"
    if "wrong-body-" in folder:
        return "wrong bodies"
    if "--crate-checked" in words:
        return "compiled"
    return "tests" if "--test" in words else "proof"


def words_of(pid: int | str) -> list[str]:
    return Path(f"/proc/{pid}/cmdline").read_bytes().decode(errors="replace").split("\0")


def fields_of(pid: int | str) -> list[str]:
    """What the system says of a process after its name: its parent is at 1, its times and its children's at 11..14."""
    return Path(f"/proc/{pid}/stat").read_text(encoding="utf-8").rpartition(")")[2].split()


def is_below(pid: int, top: int) -> bool:
    while pid > 1 and pid != top:
        pid = int(fields_of(pid)[1])
    return pid == top


def seen(pid: str, top: int) -> tuple[str, str, float] | None:
    """Crate, kind and processor seconds of a process of the prover below another, or None if it isn't one."""
    try:
        words, fields = words_of(pid), fields_of(pid)
        if not words[0].endswith("/rattle") or "--crate-name" not in words or not is_below(int(pid), top):
            return None
        # The forked copies of a process have its words; their time is counted as that of the children it waited for.
        if words_of(fields[1])[0].endswith("/rattle"):
            return None
        folder = os.readlink(f"/proc/{pid}/cwd")
    except OSError:
        return None
    seconds = sum(int(it) for it in fields[11:15]) / TICKS
    return words[words.index("--crate-name") + 1], kind_of(words, folder), seconds


def watch(log: Path, words: Sequence[str]) -> None:
    """Runs ./prove and writes what each process of the prover took."""
    found: dict[str, dict[str, Any]] = {}
    begin, loop = time.monotonic(), fixed_loop()
    child = subprocess.Popen([str(ROOT / "prove"), *words])
    while child.poll() is None:
        for pid in filter(str.isdigit, os.listdir("/proc")):
            what = seen(pid, child.pid)
            if what:
                crate, kind, seconds = what
                at = time.monotonic() - begin
                first = found.get(pid, {}).get("begin", at) if found.get(pid, {}).get("crate") == crate else at
                found[pid] = {"crate": crate, "kind": kind, "seconds": seconds, "begin": first, "end": at}
        time.sleep(0.25)
    with log.open("w", encoding="utf-8") as file:
        whole = {"wall": time.monotonic() - begin, "loop": [loop, fixed_loop()], "status": child.returncode}
        for line in (whole, *found.values()):
            file.write(json.dumps(line) + "\n")


def longest_chain(crates: Mapping[str, list[str]], spent: Mapping[str, Counter[str]]) -> tuple[float, list[str]]:
    """The crates that wait for one another longest, each with its proof, and what follows the last."""
    best: dict[str, tuple[float, list[str]]] = {}
    for name in sorted(crates, key=lambda it: len(below(crates, it))):
        nothing: tuple[float, list[str]] = (0, [])
        under = max((best[it] for it in crates[name]), default=nothing)
        best[name] = under[0] + spent[name]["proof"], [*under[1], name]

    def whole(name: str) -> float:
        of = spent[name]
        return best[name][0] + max(of["tests"], of["must-fail"], of["compiled"])

    last = max(crates, key=whole)
    return whole(last), best[last][1]


def dearest() -> list[tuple[float, str]]:
    """The functions of which most was kept, as pairs of megabytes and name."""
    sizes: Counter[str] = Counter()
    for path in ROOT.glob("crates/*/out/incremental/*/*.oantt"):
        made = re.match(r"Rattle-(\w+)-proofs\.(.+)\.\w+\.oantt$", path.name)
        if made and "TheLinks" not in path.name:
            sizes[f"{made[1]}: {made[2]}"] += path.stat().st_size
    return [(size / 1e6, name) for name, size in sizes.most_common(10)]


def report(log: Path) -> None:
    whole, *lines = [json.loads(it) for it in log.read_text(encoding="utf-8").splitlines()]
    spent: defaultdict[str, Counter[str]] = defaultdict(Counter)
    for it in lines:
        spent[it["crate"]][it["kind"]] += it["seconds"]
    crates = read_crates()
    print(f"{'seconds of a processor':<24}" + "".join(f"{it:>14}" for it in (*KINDS, "all")))
    for name, of in sorted(spent.items(), key=lambda it: -sum(it[1].values())):
        row = [of[it] for it in KINDS] + [sum(of.values())]
        print(f"{name:<24}" + "".join(f"{it:>14.0f}" for it in row))
    row = [sum(of[it] for of in spent.values()) for it in KINDS]
    print(f"{'all':<24}" + "".join(f"{it:>14.0f}" for it in (*row, sum(row))))
    seconds, names = longest_chain(crates, spent)
    print(f"\nlongest chain: {seconds:.0f} s: {' > '.join(names)}")
    gate = max((it["end"] for it in lines if it["kind"] != "wrong bodies"), default=0)
    print(f"wall time: {whole['wall'] / 60:.1f} min, of which rt ci {gate / 60:.1f}; status {whole['status']}")
    print(f"a fixed loop took {whole['loop'][0]:.2f} s before and {whole['loop'][1]:.2f} s after")
    print("\nthe dearest functions, in megabytes of what is made of each")
    for size, name in dearest():
        print(f"{size:8.1f}  {name}")


def measure_build(folder: Path) -> None:
    """Builds the program in a new clone, and puts what it took where it's quoted from."""
    loop = fixed_loop()
    subprocess.run(["git", "clone", "-q", ROOT, folder], check=True)
    subprocess.run([folder / "build"], check=True)
    if not (folder / "out" / "build.json").is_file():
        sys.exit("gate: work was used that another checkout of this machine kept, so this was no build from nothing")
    took = json.loads((folder / "out" / "build.json").read_text(encoding="utf-8"))
    PAGE.write_text(with_column(PAGE.read_text(encoding="utf-8"), column_of(took, loop)), encoding="utf-8")
    seconds = read_seconds() | took["crates"]
    about = [it for it in SECONDS.read_text(encoding="utf-8").splitlines() if it.startswith("#")]
    lines = [*about, *(f"{name} {seconds[name]:.0f}" for name in sorted(seconds))]
    SECONDS.write_text("\n".join(lines) + "\n", encoding="utf-8")


def read_arguments() -> argparse.Namespace:
    parser = Parser(__doc__)
    parser.add_argument("--anew", action="store_true", help="run ./prove --anew, which does everything again")
    parser.add_argument("--build", action="store_true", help="build the program from nothing, and note what it takes")
    parser.add_argument("log", metavar="LOG", type=Path, nargs="?", help="the file to write, or to read if it is there")
    options = parser.parse_args()
    if not options.build and options.log is None:
        parser.error("LOG is needed, or --build")
    if (options.anew or options.build) and options.log and options.log.exists():
        parser.error(f"{options.log} is there already")
    if options.log and not options.log.exists() and not os.access(options.log.absolute().parent, os.W_OK):
        parser.error(f"{options.log} can't be written")
    return options


@quiet_output()
def main() -> None:
    options = read_arguments()
    if options.build:
        with tempfile.TemporaryDirectory() as room:
            measure_build(options.log.absolute() if options.log else Path(room, "clone"))
        return
    if not options.log.exists():
        watch(options.log, ["--anew"] if options.anew else [])
    report(options.log)
