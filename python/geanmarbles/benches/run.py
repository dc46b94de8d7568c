"""Times cases of lines, pages, imports and texts, one by one or all of them.

    geanmarbles dev bench cases [--smoke] [--only NAME ..] [PROGRAM]

The cases are those of cases.py: serve, tables, queries, import, scan, hooks, turns, hostile; bench/cases/README.md says
what each has. Of each row it prints what it takes of a processor, of which it may consist of so many parts and take so
much for each; how often a second that can be; how many times as long it takes as the first row of its name; and the
program's peak memory (from /proc), and how much more that is than the first row's. bench/README.md says how all is
measured.
"""

from itertools import groupby

from geanmarbles.benches.cases import CASES, Row
from geanmarbles.benches.measured import Bench, Spent, difference, parser_of
from geanmarbles.output import quiet_output

HEAD = f"{'µs':>12} {'ns a part':>11} {'a second':>11} {'times the first':>15} {'peak MB':>8} {'more':>7}"


def figures_of(bench: Bench, rows: list[Row]) -> list[Spent]:
    """What each of some rows takes, whose runs take turns."""
    costs = iter(bench.costs([case for row in rows for case in (row.case, row.less) if case]))
    found: list[Spent] = []
    for row in rows:
        taken = next(costs)
        found.append(Spent(difference(taken.seconds, next(costs).seconds), taken.kilobytes) if row.less else taken)
    return found


def show(rows: list[Row], figures: list[Spent]) -> None:
    first = figures[0]
    for row, (seconds, peak) in zip(rows, figures):
        each = f"{seconds / row.parts * 1e9:.1f}" if row.parts else ""
        cells = f"{seconds * 1e6:>12.2f} {each:>11} {1 / seconds:>11,.0f} {seconds / first.seconds:>15.2f}"
        more = (peak - first.kilobytes) / 1024
        print(f"{row.name:<52} {row.what:<30} {cells} {peak / 1024:>8.1f} {more:>7.1f}", flush=True)


@quiet_output()
def main() -> None:
    parser = parser_of(__doc__)
    parser.add_argument("--only", action="append", metavar="NAME", choices=CASES, help=f"of {', '.join(CASES)}")
    given = parser.parse_args()
    bench = Bench(given)
    for name in given.only or CASES:
        print(f"{name:<83} {HEAD}")
        for _, rows in groupby(CASES[name](bench), key=lambda row: row.name):
            listed = list(rows)
            show(listed, figures_of(bench, listed))
