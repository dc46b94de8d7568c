"""The program that is there: the one that was built here if it is of the sources that are here, else the one that the
repository ships, which needs no toolchain.

`release/manifest.json` says what is shipped: the version, the sum of the program, the commit and the sums of the
sources that it was built from, the toolchain that proved it and what that run said last, and what a machine has to
have. It is unpacked once, into `out/shipped/SUM/`, or if nothing can be written there into the user's cache folder.
Whether the sources of the checkout are those of the manifest is found then, and by what asks for it; the script `site`
repeats what was found, from the file `differs` beside the program, so that it starts without Python.
"""

import functools
import hashlib
import json
import lzma
import os
import platform
import re
import shutil
import subprocess
import tempfile
from pathlib import Path
from typing import Any, NamedTuple

from geanmarbles.paths import BUILT_PROGRAM, CRATES, IS_CHECKOUT, ROOT
from geanmarbles.repository.built import crates_of_program, is_built, is_current
from geanmarbles.repository.crates import SOURCES, sum_of
from geanmarbles.repository.sources import sum_of_sources

RELEASE = ROOT / "release"
MANIFEST = RELEASE / "manifest.json"
PACKED = RELEASE / "x86_64-linux" / "site.xz"
UNPACKED = ROOT / "out" / "shipped"
# What runs a program of the GNU C library.
LOADER = Path("/lib64/ld-linux-x86-64.so.2")
# What a processor has to have, of the levels of the x86-64 ABI: the shipped program is compiled for the second.
LEVELS = {"x86-64-v2": {"cx16", "lahf_lm", "popcnt", "sse4_1", "sse4_2", "ssse3"}}


class NotShipped(Exception):
    """Why the shipped program can't be run here, in a line."""


class Manifest(NamedTuple):
    """What is shipped. Of each crate `files` has the sum of its files, and `sources` that of its code: without layout
    and comments, as the record of wrong bodies takes it."""

    sum: str
    version: str
    commit: str
    toolchain: str
    proved: str
    processor: str
    c_library: str
    files: dict[str, str]
    sources: dict[str, str]


def read_manifest() -> Manifest:
    try:
        found: dict[str, Any] = json.loads(MANIFEST.read_text(encoding="utf-8"))
        return Manifest(**{it: found[it] for it in Manifest._fields})
    except OSError as fault:
        raise NotShipped(f"{MANIFEST}: {fault.strerror}") from fault
    except (ValueError, KeyError, TypeError) as fault:
        raise NotShipped(f"{MANIFEST} is damaged: it isn't read as a manifest") from fault


def differing(manifest: Manifest) -> list[str]:
    """The crates of the program whose sources here aren't those of the shipped one. An installed package has none."""
    here = crates_of_program() if IS_CHECKOUT else []
    found = [it for it in here if manifest.files.get(it) != sum_of(CRATES / it, SOURCES)]
    # Of the others it's looked at whether more than layout and comments differ, which takes longer.
    found = [it for it in found if manifest.sources.get(it) != sum_of_sources(str(CRATES / it))]
    return sorted({*found, *(set(manifest.sources) - set(here))}) if IS_CHECKOUT else []


def line_of(manifest: Manifest, differs: list[str]) -> str:
    """What is said when the program of other sources is run, or nothing if they are the same."""
    crates = f"{len(differs)} {'crate' if len(differs) == 1 else 'crates'}"
    said = f"the proved program of {manifest.version} ({manifest.commit[:8]}); sources of {crates} differ"
    return said if differs else ""


def lacking(manifest: Manifest) -> str | None:
    """What this machine lacks for the shipped program, or None if it has all."""
    wanted = f"the shipped program needs Linux, {manifest.processor} and GLIBC {manifest.c_library}"
    kind = f"{platform.system()} on {platform.machine()}"
    if kind != "Linux on x86_64":
        return f"{wanted}; this is {kind}"
    flags = re.search(r"^flags\s*:(.*)$", Path("/proc/cpuinfo").read_text(encoding="ascii", errors="replace"), re.M)
    if not LEVELS.get(manifest.processor, {manifest.processor}) <= set(flags[1].split() if flags else ()):
        return f"{wanted}; this processor is of a lower level"
    if not LOADER.exists():
        return f"{wanted}; there is no {LOADER}"
    has = re.fullmatch(r"glibc (\d+)\.(\d+).*", os.confstr("CS_GNU_LIBC_VERSION") or "")
    if not has or (int(has[1]), int(has[2])) < tuple(map(int, manifest.c_library.split("."))):
        return f"{wanted}; this C library is {has[0] if has else 'another'}"
    return None


def program_in(packed: Path, manifest: Manifest) -> bytes:
    """The program that is packed in a file, which has the sum that the manifest says."""
    try:
        if shutil.which("xz"):
            data = subprocess.run(["xz", "-dc", packed], check=True, capture_output=True).stdout
        else:
            data = lzma.decompress(packed.read_bytes())
    except OSError as fault:
        raise NotShipped(f"{packed}: {fault.strerror}") from fault
    except (lzma.LZMAError, subprocess.CalledProcessError) as fault:
        raise NotShipped(f"{packed} is damaged: it can't be unpacked") from fault
    if hashlib.sha256(data).hexdigest() != manifest.sum:
        raise NotShipped(f"{packed} is damaged: its program's sum isn't that of {MANIFEST}")
    return data


def put(path: Path, data: bytes, mode: int = 0o644) -> None:
    """Writes a file so that nobody sees a part of it."""
    path.parent.mkdir(parents=True, exist_ok=True)
    with tempfile.NamedTemporaryFile(dir=path.parent, delete=False) as file:
        file.write(data)
        file.flush()
        os.fsync(file.fileno())
    os.chmod(file.name, mode)
    os.replace(file.name, path)


def cache_folder() -> Path:
    return Path(os.environ.get("XDG_CACHE_HOME") or Path.home() / ".cache") / "geanmarbles"


class Place(NamedTuple):
    """Where the program is unpacked, and where it's noted how the checkout's sources differ."""

    program: Path
    note: Path


def places(manifest: Manifest) -> list[Place]:
    """In the checkout, and in the cache folder, which several checkouts share, and installed packages use alone."""
    own, shared = UNPACKED / manifest.sum, cache_folder() / manifest.sum
    found = [Place(own / "site", own / "differs"), Place(shared / "site", shared / "of" / str(ROOT)[1:] / "differs")]
    return found if IS_CHECKOUT else found[1:]


def note(manifest: Manifest, place: Place) -> list[str]:
    """Looks which sources differ, and notes it beside the program."""
    differs = differing(manifest)
    said = (line_of(manifest, differs) + "\n").encode()
    if not place.note.is_file() or place.note.read_bytes() != said:
        put(place.note, said)
    return differs


def unpack(manifest: Manifest) -> Place:
    """Unpacks the program, once the note on its sources is there."""
    said = lacking(manifest)
    if said:
        raise NotShipped(said)
    data = program_in(PACKED, manifest)
    for place in places(manifest):
        try:
            note(manifest, place)
            put(place.program, data, 0o755)
            return place
        except OSError as fault:
            why = fault
    raise NotShipped(f"{PACKED} can't be unpacked: {why.filename}: {why.strerror}")


def unpacked(manifest: Manifest) -> Place:
    """Where the program is unpacked, which is done now if need be."""
    there = [it for it in places(manifest) if it.program.is_file() and it.note.is_file()]
    return there[0] if there else unpack(manifest)


def look_again(manifest: Manifest) -> list[str]:
    """Which sources differ as they are now. The program is unpacked again if its bytes aren't those of the manifest."""
    place = unpacked(manifest)
    if hashlib.sha256(place.program.read_bytes()).hexdigest() != manifest.sum:
        place = unpack(manifest)
    return note(manifest, place)


@functools.cache
def program() -> Path:
    """The program that scripts run if none is named. There may be none at the path that this returns."""
    if is_built() and is_current():
        return BUILT_PROGRAM
    try:
        return unpacked(read_manifest()).program
    except NotShipped:
        return BUILT_PROGRAM


def told(path: Path) -> str:
    """Which program this is, for a reader, and whether the checkout's sources are those that it was built from."""
    total = hashlib.sha256(path.read_bytes()).hexdigest()
    if path == BUILT_PROGRAM:
        return f"{path}, sum {total[:12]}, built here" + ("" if is_current() else "; a source has changed since")
    try:
        manifest = read_manifest()
    except NotShipped:
        manifest = None
    if manifest is None or manifest.sum != total:
        return f"{path}, sum {total[:12]}; of which sources it was built isn't known"
    said = f"the shipped program {manifest.version} ({manifest.commit[:8]}), sum {total[:12]}"
    differs = look_again(manifest)
    return f"{said}, of the sources here" if not differs else f"{said}; the sources differ of {', '.join(differs)}"
