"""Serves many clients: the program over frames, and `geanmarbles serve`, which moves them.

    tests/pump/run [--part NAME ..] [PROGRAM]

PROGRAM is the one that is here, built or shipped, if it is left out. The parts are

    frames     each exchange of tests/http between others on one stream, cut into frames and writes in many ways; what
               each of several clients gets; numbers, limits, kills, and commits that fail
    clients    the same exchanges through `geanmarbles serve`; clients that are slow, stall, are reset, send nothing
               more, or are many: hundreds and, where there may be so many files, 10,000 that are idle
    endings    programs that are killed, stop, or can't be started; the end by a signal; where it listens
    front      requests that two servers may read in two ways
    nginx, haproxy, curl, h11
               what these get, or have their clients get, each where it is installed

The last line is 'N passed, M failed', with ', K skipped' if something isn't installed. The exit status is 0 if nothing
failed.
"""

import tempfile
from pathlib import Path

from geanmarbles.checks.judging import Cases, Counts
from geanmarbles.checks.over_http import Program
from geanmarbles.checks.programs import parser_of
from geanmarbles.checks.pump import clients, endings, front, over_frames

PARTS = ("frames", "clients", "endings", "front", *front.OTHERS)


def main() -> int:
    parser = parser_of(__doc__)
    some = f"some parts alone: {', '.join(PARTS)}"
    parser.add_argument("--part", metavar="NAME", action="append", choices=PARTS, help=some)
    args = parser.parse_args()
    counts = Counts()
    with tempfile.TemporaryDirectory() as folder:
        of: dict[str, Cases] = {
            "frames": over_frames.cases(Program(args.program, Path(folder))),
            "clients": clients.cases(args.program),
            "endings": endings.cases(args.program),
            "front": front.cases(args.program),
            **{name: front.others(args.program, name) for name in front.OTHERS},
        }
        for part in args.part or PARTS:
            counts.judge_all(of[part])
    return counts.end()
