"""Times starts of sites in a file, and edits that are committed one by one and in a pipe.

    geanmarbles dev bench database [--smoke] [--million] [PROGRAM]

The starts are over histories of no edit, 10,000 edits and, with --million, 1,000,000, of up to 1,000 posts; each is
timed once more after --compact. Printed are the size of both files, what a start takes of a processor, and the
program's own peak memory (from /proc). Then starts over drafts of which each is edited once: in its title, or in its
status, which the index of dates has too. Then edits a second: of a client that waits for each reply, by the clock,
beside the writes of 4 KB that the same disk syncs in a second; and of a pipe by the clock, beside the same lines in
memory. The files are in the system's folder for temporary files, or where TMPDIR says. bench/README.md says how all is
measured, and what can follow.
"""

import argparse
import os
import subprocess
import sys
import tempfile
import time
from collections.abc import Callable, Iterable
from pathlib import Path
from typing import IO

from geanmarbles.benches.measured import Bench, Run, Spent, parser_of
from geanmarbles.client.exchanges import Exchange, done, joined, put
from geanmarbles.client.program import pipe
from geanmarbles.output import quiet_output

# How many edits histories have, and of how many posts; how many are made one by one, and how many in a pipe.
SIZES, MILLION, POSTS = (0, 10_000), 1_000_000, 1_000
WAITED, PIPED = 1_000, 20_000
SMALL, FEW = (0, 200), 20
# How many drafts histories have of which each is edited once.
DRAFTS, FEW_DRAFTS = (1_000, 2_000, 4_000), (10, 20)
CONTENT = "Some words of a post, as they are edited. " * 5
PAGE = bytes(4_096)


def edit(at: int) -> Exchange:
    """An edit of a site by its place: up to 1,000 posts are stored, and then edited in turns."""
    if at < POSTS:
        return put(at + 1, CONTENT, f"Post {at + 1}")
    return done("edit", id=1 + at % POSTS, content=f"{CONTENT}{at}")


def edits(count: int) -> Exchange:
    return joined(edit(at) for at in range(count))


def seconds_of(work: Callable[[], object]) -> float:
    begin = time.perf_counter()
    work()
    return time.perf_counter() - begin


class Files:
    """Sites in a folder of their own, and the runs of the program over them."""

    def __init__(self, bench: Bench, folder: Path) -> None:
        self.bench, self.folder = bench, folder

    def words(self, file: Path, *more: str) -> tuple[str, ...]:
        return (*self.bench.words, "--database", str(file), *more)

    def serve(self, file: Path, lines: IO[bytes], replies: bytes) -> None:
        """Gives a site the lines of a file; the replies must be as expected."""
        lines.seek(0)
        ran = subprocess.run(self.words(file), stdin=lines, capture_output=True)
        if ran.returncode or ran.stdout != replies:
            said = ran.stderr.decode()
            sys.exit(f"{self.bench.program} ended with status {ran.returncode}, or replied wrongly: {said}")

    def made(self, count: int) -> Path:
        """A site whose history has that many edits, of which not all are held in memory."""
        file = self.folder / f"{count}.db"
        replies: list[str] = []
        with tempfile.TemporaryFile(dir=self.folder) as lines:
            for at in range(count):
                made = edit(at)
                lines.write(made.lines.encode())
                replies.append(made.replies)
            self.serve(file, lines, "".join(replies).encode())
        return file

    def compact(self, file: Path) -> None:
        subprocess.run(self.words(file, "--compact"), check=True)

    def start(self, file: Path) -> Spent:
        """What a start takes, and its peak memory. The program gets no line."""
        return self.bench.best([Run(self.words(file), b"", b"")])[0]


def megabytes(file: Path) -> float:
    log = Path(f"{file}-wal")
    return (file.stat().st_size + (log.stat().st_size if log.exists() else 0)) / 1e6


def show_starts(files: Files, sizes: Iterable[int]) -> None:
    """A row for each history, as it is and after --compact."""
    print("history                           files, MB   start, ms   peak, MB")
    for count in sizes:
        file = files.made(count)
        for name in ("", ", after --compact"):
            if name:
                files.compact(file)
            taken = files.start(file)
            figures = f"{megabytes(file):>9.1f} {taken.seconds * 1e3:>11.1f} {taken.kilobytes / 1024:>10.1f}"
            print(f"{f'{count:,} edits{name}':<33} {figures}", flush=True)


def show_published(files: Files, sizes: Iterable[int]) -> None:
    """A row for each number of drafts that are edited once, and then published."""
    print("\ndrafts, each edited once   of its title, ms   of its status, ms")
    for count in sizes:
        drafts = joined(put(at + 1, f"Draft {at}", status="draft") for at in range(count))
        taken: list[float] = []
        for name, keys in (("titles", {"title": "T"}), ("statuses", {"status": "publish"})):
            lines = drafts + joined(done("edit", id=at + 1, **keys) for at in range(count))
            file = files.folder / f"{count}_{name}.db"
            with tempfile.TemporaryFile(dir=files.folder) as given:
                given.write(lines.lines.encode())
                files.serve(file, given, lines.replies.encode())
            taken.append(files.start(file).seconds * 1e3)
        print(f"{count:>25,} {taken[0]:>18.1f} {taken[1]:>19.1f}", flush=True)


def waited(files: Files, file: Path, exchange: Exchange) -> float:
    """Seconds that a client takes which waits for the reply to each line."""
    child = subprocess.Popen(files.words(file), stdin=subprocess.PIPE, stdout=subprocess.PIPE, bufsize=0)
    given, replies = pipe(child.stdin), open(pipe(child.stdout).fileno(), "rb", closefd=False)

    def ask(line: bytes, reply: bytes) -> None:
        given.write(line)
        if replies.readline() != reply:
            sys.exit(f"{files.bench.program} replied wrongly")

    pairs = list(zip(exchange.lines.encode().splitlines(True), exchange.replies.encode().splitlines(True)))
    ask(*pairs[0])

    def ask_all() -> None:
        for pair in pairs[1:]:
            ask(*pair)

    spent = seconds_of(ask_all)
    given.close()
    child.wait()
    return spent / (len(pairs) - 1)


def synced(folder: Path, count: int) -> float:
    """Seconds that the disk takes to write a page at the end of a file and to sync it."""
    with open(folder / "pages", "wb", buffering=0) as file:

        def write() -> None:
            file.write(PAGE)
            os.fdatasync(file.fileno())

        def write_all() -> None:
            for _ in range(count):
                write()

        write()
        return seconds_of(write_all) / count


def show_edits(files: Files, count: int, piped: int) -> None:
    """What edits take one by one and in a pipe."""
    rounds = range(1 if files.bench.smoke else 5)
    alone = min(waited(files, files.folder / f"alone{at}.db", edits(count)) for at in rounds)
    disk = min(synced(files.folder, count) for _ in rounds)
    lines = edits(piped)
    with tempfile.TemporaryFile(dir=files.folder) as given:
        given.write(lines.lines.encode())
        replies = lines.replies.encode()
        clock = min(seconds_of(lambda: files.serve(files.folder / f"pipe{at}.db", given, replies)) for at in rounds)
    [in_memory] = files.bench.best([files.bench.run(lines)])
    print(f"\n{1 / alone:>9,.0f} edits a second one by one; the disk syncs {1 / disk:,.0f} pages a second")
    print(f"{piped / clock:>9,.0f} edits a second in a pipe of {piped:,}, by the clock")
    print(f"{piped / in_memory.seconds:>9,.0f} edits a second in memory, of a processor")


def read_arguments() -> argparse.Namespace:
    parser = parser_of(__doc__)
    parser.add_argument("--million", action="store_true", help="also time 1,000,000 edits, for some minutes")
    return parser.parse_args()


@quiet_output()
def main() -> None:
    given = read_arguments()
    bench = Bench(given)
    sizes = SMALL if bench.smoke else (*SIZES, MILLION) if given.million else SIZES
    with tempfile.TemporaryDirectory() as folder:
        files = Files(bench, Path(folder))
        show_starts(files, sizes)
        show_published(files, FEW_DRAFTS if bench.smoke else DRAFTS)
        show_edits(files, FEW if bench.smoke else WAITED, 10 * FEW if bench.smoke else PIPED)
