"""Runs the program under hostile conditions, and checks how it ends and what it has written.

    tests/hostile/run [PROGRAM]

PROGRAM is the one that is here, built or shipped, if it is left out. The parts, in this order:

- ends: standard input, output and error that are closed, of the wrong kind, endless, full or that don't wait, and
  readers that go away in mid-page;
- signals: SIGTERM and others in mid-line and in mid-import, and a stop that is continued;
- memory: limits on the address space, from the smallest with which the program serves no line at all up to the smallest
  with which all replies to a list of hostile lines are whole; and how much is kept of many pages, and of many posts;
- stack: lines that nest and pages that go as deep as they may, under limits on the stack.

The first two are made over an empty site, and again with pages left open, over which what is asked for are pages by
turns. Each run must end with the status and the line on standard error of its fault, and must have written whole
replies to its lines, and of the last reply a prefix at most. Under a limit on memory each reply is the one without the
limit, or `refused 11 OutOfMemory`, and then the other replies are those to the lines without the refused ones; only a
refused `turns` may have closed its page. What the program does if single reads, writes and allocations fail is tested
in tests/ends and tests/memory. The last line is 'N passed, M failed', over the runs, and the exit status is 0 if none
failed.
"""

from geanmarbles.checks.hostile import endings, limits
from geanmarbles.checks.judging import Counts
from geanmarbles.checks.programs import missing, parser_of


def main() -> int:
    program = parser_of(__doc__).parse_args().program
    if missing(program):
        print(f"FAILED: {missing(program)}\n0 passed, 1 failed")
        return 1
    counts = Counts()
    for part in (endings, limits):
        made = counts.judge_all(part.cases(program))
        print(f"{(part.__doc__ or '').splitlines()[0]} {made} runs or measurements", flush=True)
    return counts.end()
