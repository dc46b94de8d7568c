"""Compares what `geanmarbles refusals` says of lines with the program's own replies.

    tests/refusals/run [--lists N] [PROGRAM]

PROGRAM is the one that is here, built or shipped, if it is left out. Here are

- reasons.json: for lists of lines, the very words that the script has for the last one, or that it has none; the
  program must refuse it with the same number, or do it;
- the examples, and N lists of random lines, 200 if N is left out, made as those of tests/fuzz. With the program's
  replies the script must find each refusal that the rules have and no other: it compares them itself. Without them it
  must name each line that is refused with a number that it knows, with that number, and no line that isn't; `begin` and
  `turns` may be left open once a page may have ended. Over random lines it is forked from a Python that is warm;
- lists of which the first half was carried out before, by two runs of the program over a site in a file. With --after
  the lines of these runs, or what the program exports of the file, the script must find each refusal of the second
  half, as above;
- each line of the examples with keys more that nothing reads: the program's replies are the same, and with --notes the
  script names these keys and nothing else.

The last line is 'N passed, M failed'. The exit status is 0 if nothing failed.
"""

import json
import re
import subprocess
import tempfile
from collections.abc import Callable, Iterable, Iterator, Sequence
from concurrent.futures import ThreadPoolExecutor
from functools import partial
from pathlib import Path
from random import Random
from typing import Any

from geanmarbles.checks.fuzz.lines import Lines
from geanmarbles.checks.fuzz.shorter import Shorter
from geanmarbles.checks.fuzz.values import command_of
from geanmarbles.checks.programs import lanes, missing, parser_of
from geanmarbles.checks.warm import Warm
from geanmarbles.client.replies import REFUSALS, Wrong, refusal_of, shown, whole_replies
from geanmarbles.paths import EXAMPLES, GEANMARBLES, TESTS

HERE = TESTS / "refusals"
SECONDS = 120
SHORTER = Shorter()
LISTS = 200
CALLS = "1000"
# The refusals that only the program knows of.
TOLD = (9, 10, 11, 12)
SAID = re.compile(r"(\d+): refused (\d+) (\w+): \S")


def run(words: Iterable[object], given: bytes = b"") -> subprocess.CompletedProcess[bytes]:
    return subprocess.run([*map(str, words)], input=given, capture_output=True, timeout=SECONDS)


def replies_of(program: str, lines: Sequence[bytes], *options: str) -> tuple[bytes, list[bytes]]:
    """What the program writes for some lines, and its replies."""
    ran = run([program, "--calls", CALLS, *options], joined(lines))
    replies = whole_replies(ran.stdout)
    if ran.returncode or len(replies) != len(lines):
        raise Wrong(f"the program ended with status {ran.returncode}, after {len(replies)} of {len(lines)} replies")
    return ran.stdout, replies


def said_of(
    lines: Sequence[bytes], output: bytes | None = None, *options: object, warm: Warm | None = None
) -> list[str]:
    """What the script says of lines, with the program's output or without it, as lines of text."""
    with tempfile.NamedTemporaryFile(suffix=".jsonl") as file:
        file.write(joined(lines))
        file.flush()
        words = [GEANMARBLES, "refusals", *options, file.name, *["-"] * (output is not None)]
        ran = warm.run([*map(str, words)], output or b"", SECONDS) if warm else run(words, output or b"")
    if ran.returncode:
        raise Wrong(f"geanmarbles refusals ended with status {ran.returncode}: {shown(ran.stdout + ran.stderr, 600)}")
    return ran.stdout.decode().splitlines()


def joined(lines: Iterable[bytes]) -> bytes:
    return b"".join(line + b"\n" for line in lines)


def numbers_in(said: Iterable[str]) -> dict[int, int]:
    """The refusals that the script names, by the line's number."""
    found = {}
    for line in said:
        read = SAID.match(line)
        if not read or REFUSALS.get(int(read[2])) != read[3]:
            raise Wrong(f"this names no refusal: {line[:200]}")
        found[int(read[1])] = int(read[2])
    return found


def check_list(program: str, lines: Sequence[bytes], warm: Warm | None = None) -> None:
    """The script against the program's replies, with them and without."""
    check_said(lines, *replies_of(program, lines), warm=warm)


def check_random(program: str, warm: Warm, number: int) -> None:
    """The script over a list of random lines, which is made shorter if it fails."""
    check = partial(check_list, program, warm=warm)
    SHORTER.judge(f"refusals {number}", check, Lines(Random(f"1/{number}")).list())


def check_random_after(program: str, warm: Warm, number: int) -> None:
    """The same of a list whose first half was carried out before."""
    lines = Lines(Random(f"2/{number}")).list()
    SHORTER.judge(f"refusals after {number}", partial(check_after, program, warm), lines)


def check_after(program: str, warm: Warm, listed: list[bytes]) -> None:
    """The script against the program's replies over a site in a file: to the second half of a list, after the first."""
    before, lines = listed[: len(listed) // 2], listed[len(listed) // 2 :]
    with tempfile.TemporaryDirectory() as name:
        site, first, second, exported = (Path(name, it) for it in ("site.db", "1.jsonl", "2.jsonl", "site.jsonl"))
        kept = ["--database", str(site)]
        for path, part in ((first, before[::2]), (second, before[1::2])):
            replies_of(program, part, *kept)
            path.write_bytes(joined(part))
        exported.write_bytes(run([program, *kept, "--export"]).stdout)
        output, replies = replies_of(program, lines, *kept)
        check_said(lines, output, replies, "--after", first, "--after", second, warm=warm)
        check_said(lines, output, replies, "--after", exported, warm=warm)


def check_said(
    lines: Sequence[bytes], output: bytes, replies: Sequence[bytes], *options: object, warm: Warm | None = None
) -> None:
    """What the script says of lines against the program's replies, with them and without."""
    refused = {number: refusal_of(it) for number, it in enumerate(replies, 1) if refusal_of(it)}
    found = numbers_in(said_of(lines, output, *options, warm=warm))
    if found != refused:
        raise Wrong(f"with the replies it names {sorted(found.items() ^ refused.items())[:4]} otherwise than they do")
    alone = numbers_in(said_of(lines, None, *options, warm=warm))
    other = [it for it in alone.items() if refused.get(it[0]) != it[1]]
    if other:
        raise Wrong(f"without the replies it says {other[:4]}, as lines and refusals, and the program doesn't")
    known = {at: of for at, of in refused.items() if of not in TOLD and not (of in (14, 15) and at not in alone)}
    left_out = [(at, of) for at, of in known.items() if at not in alone]
    if left_out:
        raise Wrong(f"without the replies it doesn't name {left_out[:4]}, as lines and refusals")
    after_turns = [at for at, line in enumerate(lines, 1) if command_of(line).get("cmd") == "turns"]
    early = [
        at for at, of in refused.items() if of in (14, 15) and at not in alone and at <= min(after_turns, default=0)
    ]
    if early:
        raise Wrong(f"it doesn't name lines {early[:4]}, before which no page can have ended")


def written_out(line: str) -> bytes:
    """A line of reasons.json, with what stands for letters and brackets written out."""
    return re.sub(r"\{([][]?)(\d+)\}", lambda found: (found[1] or "n") * int(found[2]), line).encode()


def check_reason(program: str, row: dict[str, Any]) -> None:
    lines = [written_out(it) for it in row["lines"]]
    _, replies = replies_of(program, lines)
    said, says = said_of(lines), row["says"]
    if said != ([f"{len(lines)}: {says}"] if says else []):
        raise Wrong(f"it says {said}")
    if refusal_of(replies[-1]) != (int(says.split()[1]) if says else 0):
        raise Wrong(f"the program replies {shown(replies[-1])}")


def with_key(line: bytes, key: str) -> bytes:
    """A line with a key more, if it is an object with other keys."""
    return line.replace(b"{", f'{{"{key}":[],'.encode(), 1) if re.match(rb'\{"', line) else line


def check_notes(program: str, lines: list[bytes]) -> None:
    """Keys that nothing reads change no reply, and are noted."""
    longer = [with_key(it, "contnet") for it in lines]
    output, replies = replies_of(program, lines)
    if (output, replies) != replies_of(program, longer):
        raise Wrong("a key that nothing reads changes replies")
    noted = said_of(longer, output, "--notes")
    own = said_of(lines, output, "--notes")
    more = [it for it in noted if " note: contnet: nothing reads this key; " in it]
    pairs = enumerate(zip(lines, longer), 1)
    changed = [at for at, (line, other) in pairs if line != other and "cmd" in command_of(line)]
    known = [at for at in changed if not any(it.startswith(f"{at}: refused 1 BadCommand: cmd:") for it in own)]
    if [it for it in noted if it not in more] != own or [int(it.split(":")[0]) for it in more] != known:
        raise Wrong(f"it notes {more[:4]}, as to lines {known[:8]}")
    if [it for it in own if " note: " not in it] != said_of(lines, output):
        raise Wrong("--notes changes what is said of refusals")


def check_note(row: dict[str, Any]) -> None:
    said = [it for it in said_of([row["line"].encode()], None, "--notes") if not it.startswith("1: refused ")]
    if said != [f"1: note: {it}" for it in row["notes"]]:
        raise Wrong(f"it says {said}")


def check_bad(program: str) -> None:
    """A site in a file isn't read as commands, and standard input is read once."""
    with tempfile.TemporaryDirectory() as name:
        site = Path(name, "site.db")
        replies_of(program, [b"{}"], "--database", str(site))
        bad: list[list[object]] = [["--after", site, "-"], ["--after", "-", "-"], ["--after", "-", site, "-"]]
        for words in bad:
            ran = run([GEANMARBLES, "refusals", *words])
            if ran.returncode != 1 or ran.stdout or not ran.stderr.startswith(b"refusals: "):
                raise Wrong(f"with {words} it ended with status {ran.returncode} and {shown(ran.stdout + ran.stderr)}")


def checks_of(program: str, lists: int) -> Iterator[tuple[str, Callable[[], None]]]:
    """Each check with its name, as a function without arguments."""
    read = json.loads((HERE / "reasons.json").read_text(encoding="utf-8"))
    for row in read["notes"]:
        yield f"note: {row['line'][:80]}", partial(check_note, row)
    yield "a site in a file as a file of commands", lambda: check_bad(program)
    for row in read["rows"]:
        yield f"reason: {(row['says'] or 'none')[:80]}", partial(check_reason, program, row)
    for path in sorted(EXAMPLES.glob("*.jsonl")):
        lines = path.read_bytes().split(b"\n")[:-1]
        yield f"example: {path.name}", partial(check_list, program, lines)
        yield f"notes: {path.name}", partial(check_notes, program, lines)
    warm = Warm("geanmarbles.commands.refusals")
    for number in range(lists):
        yield f"random lines {number}", partial(check_random, program, warm, number)
    for number in range(lists // 4):
        yield f"lines after others {number}", partial(check_random_after, program, warm, number)


def main() -> int:
    parser = parser_of(__doc__)
    parser.add_argument("--lists", metavar="N", type=int, default=LISTS, help="how many lists of random lines")
    arguments = parser.parse_args()
    fault = missing(arguments.program)
    if fault:
        print(f"FAILED: {fault}\n0 passed, 1 failed")
        return 1

    def judged(named: tuple[str, Callable[[], None]]) -> tuple[str, str | None]:
        name, check = named
        try:
            return name, check()
        except (Wrong, OSError, subprocess.SubprocessError) as wrong:
            return name, str(wrong)

    passed = failed = 0
    with ThreadPoolExecutor(lanes()) as pool:
        for name, fault in pool.map(judged, checks_of(arguments.program, arguments.lists)):
            passed, failed = passed + (not fault), failed + bool(fault)
            if fault:
                print(f"FAILED: {name}: {fault}")
    print(f"{passed} passed, {failed} failed")
    return 1 if failed else 0
