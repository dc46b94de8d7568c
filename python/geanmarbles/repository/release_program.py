"""Renews the program that the repository ships from the one that ./build or ./prove has built here.

    geanmarbles dev release-program [--check]

Writes release/x86_64-linux/site.xz, release/manifest.json, which says what the program was built from and what proved
it, and release/NOTICE, with the licences of the libraries of the toolchain that are linked in. This belongs into the
last commit of a change to the program: nothing is written, and the status is 1, if the program isn't built or a source
has changed since, if no run that proved these sources is known, if a file of crates/ differs from the commit, or if the
program of these sources is shipped already.

With --check nothing is written: the status is 0 if what is shipped has the sum that the manifest says, and if all blobs
that release/ has had in the history are below 30 MB together.
"""

import hashlib
import json
import lzma
import re
import subprocess
import sys
import textwrap
from pathlib import Path
from typing import Any

from geanmarbles.arguments import Parser
from geanmarbles.output import quiet_output
from geanmarbles.paths import BUILT_PROGRAM, CRATES, ROOT
from geanmarbles.repository.built import crates_of_program, is_built, is_current
from geanmarbles.repository.crates import SOURCES, sum_of
from geanmarbles.repository.runs import line_of_proof
from geanmarbles.repository.sources import sum_of_sources
from geanmarbles.repository.toolchain import load
from geanmarbles.repository.shipped import (
    MANIFEST,
    PACKED,
    RELEASE,
    Manifest,
    NotShipped,
    differing,
    program_in,
    put,
    read_manifest,
)

# All blobs of release/ in the history.
LARGEST_HISTORY = 30_000_000
# What the toolchain compiles for.
PROCESSOR = "x86-64-v2"
# The heading of a version in CHANGELOG.md.
RELEASED = re.compile(r"^## \[(\d+\.\d+\.\d+)\]", re.M)
NOTICE = """\
The program in this folder is licensed as the repository is: MIT or Apache 2.0, at your choice. It is linked with
libraries of the Rattle toolchain, of which these are ports of others' work:

{ports}

Their licences follow.
"""


class NotRenewed(Exception):
    """Why the program isn't renewed, for the reader."""


def git(*words: str, given: str = "") -> str:
    ran = subprocess.run(["git", *words], cwd=ROOT, capture_output=True, text=True, input=given)
    if ran.returncode:
        raise NotRenewed(f"git {words[0]} fails: {ran.stderr.strip()}")
    return ran.stdout


def version_of_changelog() -> str:
    """The newest version that CHANGELOG.md has."""
    found = RELEASED.search((ROOT / "CHANGELOG.md").read_text(encoding="utf-8"))
    if not found:
        raise NotRenewed("CHANGELOG.md has no version")
    return found[1]


def c_library_of(program: bytes) -> str:
    """The oldest version of the GNU C library that has all symbols that a program names."""
    found = {(int(it[1]), int(it[2])) for it in re.finditer(rb"GLIBC_(\d+)\.(\d+)", program)}
    return ".".join(map(str, max(found)))


def linked_libraries(rt: Any) -> list[str]:
    """The toolchain's libraries that the program is linked with."""
    named = {name for it in rt.rtlib.crates_below(str(CRATES / "site")) for name in it.of_kit}
    built = Path(rt.rtlib.__file__).parents[1] / "rlibs"
    return sorted(named | {it.name for name in named for it in built.glob(f"{name}.rlib/below/*")})


def licences_of(folder: Path) -> list[Path]:
    """The licences of a library that is a port: of two to choose from, MIT."""
    found = sorted(folder.glob("LICENSE*"))
    is_dual = any("MIT" in it.name for it in found)
    return [it for it in found if not (is_dual and "APACHE" in it.name)]


def notice(rt: Any) -> str:
    """The licences of what is linked in, each text once."""
    texts: dict[str, list[str]] = {}
    for name in linked_libraries(rt):
        for path in licences_of(Path(rt.rtlib.__file__).parents[1] / "rattle" / name):
            texts.setdefault(path.read_text(encoding="utf-8").strip(), []).append(name)
    ports = textwrap.fill(", ".join(sorted({it for names in texts.values() for it in names})), 120)
    parts = [f"{'-' * 80}\n{', '.join(names)}\n\n{text}\n" for text, names in texts.items()]
    return "\n".join([NOTICE.format(ports=ports), *parts])


def manifest_of(program: bytes, proved: str) -> Manifest:
    crates = crates_of_program()
    version = subprocess.run(["rt", "version"], check=True, capture_output=True, text=True).stdout
    return Manifest(
        sum=hashlib.sha256(program).hexdigest(),
        version=version_of_changelog(),
        commit=git("rev-parse", "HEAD").strip(),
        toolchain=version.splitlines()[0].strip(),
        proved=proved,
        processor=PROCESSOR,
        c_library=c_library_of(program),
        files={it: sum_of(CRATES / it, SOURCES) for it in crates},
        sources={it: sum_of_sources(str(CRATES / it)) for it in crates},
    )


def check_state() -> str:
    """The last line of the run that proved the program, if what is built here may be shipped."""
    if not is_built() or not is_current():
        raise NotRenewed("the program isn't built, or a source has changed since: ./build builds it")
    proved = line_of_proof()
    if not proved:
        raise NotRenewed("no run of ./build or ./prove is known here that proved these sources")
    sources = [f"crates/{crate}/{part}" for crate in crates_of_program() for part in SOURCES]
    if changed := git("status", "--porcelain", "--", "crates.txt", *sources).splitlines():
        raise NotRenewed(f"files differ from the commit, {changed[0][3:]} among them: commit them first")
    if MANIFEST.is_file() and not differing(read_manifest()):
        raise NotRenewed("the program of these sources is shipped already")
    return proved


def renew() -> None:
    proved = check_state()
    program = BUILT_PROGRAM.read_bytes()
    manifest = manifest_of(program, proved)
    put(PACKED, lzma.compress(program, preset=9 | lzma.PRESET_EXTREME))
    put(MANIFEST, (json.dumps(manifest._asdict(), indent=1) + "\n").encode())
    put(RELEASE / "NOTICE", notice(load()).encode())
    print(
        f"{manifest.sum}  the program of {manifest.version}, {len(program):,} bytes, {PACKED.stat().st_size:,} packed"
    )


def bytes_of_history() -> int:
    """How many bytes all blobs have that release/ has had in the history, as git keeps them."""
    objects = git("rev-list", "--objects", "HEAD", "--", "release")
    said = git("cat-file", "--batch-check=%(objecttype) %(objectsize:disk)", given=re.sub(r"(?m) .*$", "", objects))
    return sum(int(it.split()[1]) for it in said.splitlines() if it.startswith("blob "))


def check() -> None:
    """Refuses a shipped program that isn't the manifest's, and a history that has grown too large."""
    program_in(PACKED, read_manifest())
    size = bytes_of_history()
    if size >= LARGEST_HISTORY:
        raise NotRenewed(f"all blobs of release/ in the history have {size:,} bytes; at most {LARGEST_HISTORY:,}")
    print(f"release/ is as its manifest says; all its blobs in the history have {size:,} bytes")


@quiet_output()
def main() -> int:
    parser = Parser(__doc__)
    parser.add_argument("--check", action="store_true", help="look at what is shipped, and write nothing")
    try:
        check() if parser.parse_args().check else renew()
    except (NotRenewed, NotShipped) as fault:
        print(f"release-program: {fault}", file=sys.stderr)
        return 1
    return 0
