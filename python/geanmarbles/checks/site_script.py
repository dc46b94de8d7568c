"""What tests/scripts/run tries of ./site, ./build and `geanmarbles dev release-program`: which program runs, what is
said of it, and what is refused. They are tried in a small checkout made for it, where the program and the toolchain are
scripts."""

from __future__ import annotations

import hashlib
import json
import lzma
import os
import shutil
import subprocess
import sys
import tempfile
from pathlib import Path
from typing import Any, Self

from geanmarbles.checks.judging import Skipped, must
from geanmarbles.checks.programs import with_toolchain, without_toolchain
from geanmarbles.paths import EXAMPLES, ROOT
from geanmarbles.repository.crates import SOURCES, sum_of
from geanmarbles.repository.sources import sum_of_sources

SECONDS = 60
# A checkout of three crates, of which the program has one below it.
CRATES = "low:\nsite: low\naside: low\n"
NEEDED = ["site", "build", "geanmarbles", "bench/gate/seconds.txt"]
# The program: it says how it was called, and what it read.
PROGRAM = '#!/bin/sh\necho "{name} $*"\ncat\n'
# The command that proves and builds: it notes that it was called, and writes the program.
BUILD = """#!/bin/sh
[ "$1" = version ] && echo 'kit-0 logic 0' && exit
echo "$*" >>'{root}/asked'
mkdir -p '{root}/crates/site/out'
cp '{root}/program' '{root}/crates/site/out/site'
"""
# What runs in place of the sources: it ends with status 1 if it reads `bad`.
TRIED = '#!/bin/sh\necho "got $*"; read x; echo "$x"; exec test "$x" != bad\n'
OLD, NEW = 1_000_000_000, 2_000_000_000
COMMIT = "1234567890" * 4
# Whose commits the tests make.
MAKER = {f"GIT_{who}_{what}": "a" for who in ("AUTHOR", "COMMITTER") for what in ("NAME", "EMAIL")}
DIFFERS = "site: the proved program of 0.2.0 (12345678); sources of 1 crate differ"


def copy_package(folder: Path) -> None:
    """Copies what the scripts are made of."""
    shutil.copytree(ROOT / "python", folder / "python", ignore=shutil.ignore_patterns("__pycache__"))


class Checkout:
    """A small checkout that ships a program: a folder that is gone after the `with` block."""

    def __enter__(self) -> Self:
        self.room = tempfile.TemporaryDirectory()
        self.root = Path(self.room.name, "here")
        for name in NEEDED:
            self.write(name, (ROOT / name).read_text(encoding="utf-8"), 0o755)
        copy_package(self.root)
        self.write("crates.txt", CRATES)
        for crate in ("low", "site", "aside"):
            self.write(f"crates/{crate}/src/{'main' if crate == 'site' else 'lib'}.rt", "// what it does\nuse a;\n")
        self.write("CHANGELOG.md", "## [Unreleased]\n## [0.2.0] - 2026-12-01\n")
        self.write("program", PROGRAM.format(name="built"), 0o755)
        self.write("bin/rt", BUILD.format(root=self.root), 0o755)
        self.age(OLD)
        self.ship(PROGRAM.format(name="shipped"))
        (self.root / "commands").mkdir()
        self.cache = Path(self.room.name, "cache")
        self.env = {**without_toolchain(self.root / "commands"), "XDG_CACHE_HOME": str(self.cache)}
        return self

    def __exit__(self, *_: object) -> None:
        self.room.cleanup()

    def write(self, name: str, text: str, mode: int = 0o644) -> Path:
        path = self.root / name
        path.parent.mkdir(parents=True, exist_ok=True)
        path.write_text(text, encoding="utf-8")
        path.chmod(mode)
        return path

    def change(self, crate: str, text: str, seconds: int = NEW) -> None:
        """Gives a crate a source of another text, and that a time."""
        os.utime(self.write(f"crates/{crate}/src/lib.rt", text), (seconds, seconds))

    def age(self, seconds: int) -> None:
        """Gives each source this time."""
        for path in self.root.glob("crates/*/src/*"):
            os.utime(path, (seconds, seconds))

    def ship(self, program: str, **says: str) -> str:
        """Ships a program, with a manifest that says of it what it is but for what is given. The result is its sum."""
        packed = self.root / "release/x86_64-linux/site.xz"
        packed.parent.mkdir(parents=True, exist_ok=True)
        packed.write_bytes(lzma.compress(program.encode()))
        folders = {it: self.root / "crates" / it for it in ("low", "site")}
        manifest: dict[str, Any] = {
            "sum": hashlib.sha256(program.encode()).hexdigest(),
            "version": "0.2.0",
            "commit": COMMIT,
            "toolchain": "kit-0 logic 0",
            "proved": "./build: 2 passed, 0 failed",
            "processor": "x86-64-v2",
            "c_library": "2.0",
            "files": {name: sum_of(it, SOURCES) for name, it in folders.items()},
            "sources": {name: sum_of_sources(str(it)) for name, it in folders.items()},
            **says,
        }
        self.write("release/manifest.json", json.dumps(manifest, indent=1) + "\n")
        return str(manifest["sum"])

    def ran(
        self, *words: str, toolchain: bool = False, script: Path | None = None, given: bytes = b"line\n"
    ) -> subprocess.CompletedProcess[str]:
        env = {**self.env, "PATH": f"{self.root / 'bin'}:{self.env['PATH']}"} if toolchain else self.env
        how: dict[str, Any] = {"capture_output": True, "timeout": SECONDS, "env": env, "cwd": self.room.name}
        ran = subprocess.run([str(script or self.root / "site"), *words], input=given, **how)
        return subprocess.CompletedProcess(ran.args, ran.returncode, ran.stdout.decode(), ran.stderr.decode())

    def runs(self, which: str, says: str, *words: str, **how: Any) -> None:
        """Runs ./site, which must run the shipped or the built program and say this."""
        ran = self.ran(*words, **how)
        wanted = (0, f"{which} {' '.join(words)}\nline\n", says + "\n" if says else "")
        must((ran.returncode, ran.stdout, ran.stderr) == wanted, f"{words}: {ran}, wanted {wanted}")

    def refuses(self, says: str, *words: str, **how: Any) -> None:
        """Runs ./site, which must run nothing and say why in a line."""
        ran = self.ran(*words, **how)
        is_line = ran.stderr.startswith("site: ") and ran.stderr.count("\n") == 1
        must((ran.returncode, ran.stdout) == (3, "") and is_line and says in ran.stderr, f"{ran}, wanted {says!r}")

    def without_python(self) -> None:
        """Takes Python from the PATH."""
        (self.root / "commands/python3").unlink()

    def asked(self) -> list[str]:
        """What was asked of the toolchain since the last call."""
        log = self.root / "asked"
        lines = log.read_text(encoding="utf-8").splitlines() if log.exists() else []
        log.unlink(missing_ok=True)
        return lines


def shipped_program_runs() -> None:
    """./site unpacks the shipped program once, and then runs it without Python, silently if the sources are the same"""
    with Checkout() as checkout:
        checkout.runs("shipped", "")
        checkout.runs("shipped", "", "--calls", "7")
        checkout.without_python()
        checkout.runs("shipped", "")
        checkout.runs("shipped", "", "--database", "a b")


def other_sources_are_told() -> None:
    """./site says that sources differ from the shipped program's, of code but not of comments; --exact refuses them"""
    with Checkout() as checkout:
        checkout.change("aside", "use b;\n")
        checkout.change("low", "// a comment\n\n  use a ; // another\n")
        must(checkout.ran("--exact", "x").stdout == "shipped x\nline\n", "--exact isn't taken, or refuses comments")
        checkout.change("low", "use b;\n")
        # What was found when it was unpacked is repeated, until somebody asks.
        checkout.runs("shipped", "")
        checkout.refuses(DIFFERS, "--exact", "--calls", "7")
        checkout.runs("shipped", DIFFERS)
        checkout.runs("shipped", f"{DIFFERS}; ./build proves and builds these", toolchain=True)
        checkout.without_python()
        checkout.runs("shipped", DIFFERS)


def version_is_told() -> None:
    """./site --version has the version, the commit and the sum, and of which sources the program is"""
    with Checkout() as checkout:
        total = checkout.ship(PROGRAM.format(name="shipped"))
        said = checkout.ran("--version").stdout
        must(said.startswith(f"Geanmarbles 0.2.0, commit {COMMIT}, sum {total}\n"), said)
        must("of the sources here" in said, said)
        checkout.change("low", "use b;\n")
        said = checkout.ran("--version").stdout
        must("the sources differ of low" in said, said)
        checkout.runs("shipped", DIFFERS)


def current_builds_run() -> None:
    """./site runs what was built of these sources, else what is shipped, and builds nothing"""
    with Checkout() as checkout:
        ran = checkout.ran(toolchain=True, script=checkout.root / "build")
        must((ran.returncode, ran.stdout) == (0, "proofs: 1 passed, 0 failed\n1 passed, 0 failed\n"), str(ran))
        must(checkout.asked() == [f"run --jobs {len(os.sched_getaffinity(0))}"], "it wasn't built by `rt run`")
        for toolchain in (True, False):
            checkout.runs("built", "", "--trace", toolchain=toolchain)
        must(checkout.ran("--version").stdout.startswith("Geanmarbles, "), "--version doesn't speak of the build")
        # The times of the sources alone say nothing, as after a change of branches.
        checkout.age(NEW)
        checkout.runs("built", "", "--calls", "7", toolchain=True)
        checkout.change("aside", "use b;\n")
        checkout.runs("built", "", "--calls", "7")
        checkout.change("low", "use b;\n")
        checkout.runs("shipped", f"{DIFFERS}; ./build proves and builds these", toolchain=True)
        checkout.runs("shipped", DIFFERS)
        must(checkout.asked() == [], "./site builds something")


def damage_is_refused() -> None:
    """./site names a damaged file, and never runs a program whose sum differs"""
    with Checkout() as checkout:
        packed = checkout.root / "release/x86_64-linux/site.xz"
        whole = packed.read_bytes()
        for data in (whole[:-9], whole[:40] + bytes([whole[40] ^ 1]) + whole[41:], b"", lzma.compress(b"#!/bin/sh\n")):
            packed.write_bytes(data)
            checkout.refuses(f"{packed} is damaged")
        packed.unlink()
        checkout.refuses(f"{packed}: No such file")
        packed.write_bytes(whole)
        manifest = checkout.root / "release/manifest.json"
        text = manifest.read_text(encoding="utf-8")
        for damaged in (text[:90], "[]", "{}"):
            manifest.write_text(damaged, encoding="utf-8")
            checkout.refuses(f"{manifest} is damaged")
        manifest.write_text(text, encoding="utf-8")
        checkout.runs("shipped", "")
        (program,) = (checkout.root / "out/shipped").glob("*/site")
        program.write_text("#!/bin/sh\necho other\n", encoding="utf-8")
        must(checkout.ran("--exact").stdout == "shipped \nline\n", "--exact runs a program of another sum")


def machines_that_lack_something() -> None:
    """./site says what the shipped program needs, if the processor or the C library hasn't it"""
    with Checkout() as checkout:
        checkout.ship(PROGRAM.format(name="a"), c_library="99.1")
        checkout.refuses("the shipped program needs Linux, x86-64-v2 and GLIBC 99.1; this C library is glibc")
        checkout.ship(PROGRAM.format(name="b"), processor="x86-64-v9")
        checkout.refuses("needs Linux, x86-64-v9 and GLIBC 2.0; this processor is of a lower level")


def cache_is_used() -> None:
    """./site unpacks into the user's cache folder if the checkout can't be written, and notes there what differs"""
    with Checkout() as checkout:
        # (a file in the folder's place, since whoever tests may be allowed to write anywhere)
        checkout.write("out", "")
        checkout.runs("shipped", "")
        must(len(list(checkout.cache.glob("geanmarbles/*/site"))) == 1, "it isn't in the cache folder")
        checkout.change("low", "use b;\n")
        checkout.refuses(DIFFERS, "--exact")
        checkout.runs("shipped", DIFFERS)
        (checkout.cache / "geanmarbles").rename(checkout.cache / "moved")
        (checkout.cache / "geanmarbles").write_text("", encoding="utf-8")
        checkout.refuses("can't be unpacked")
        (checkout.cache / "geanmarbles").unlink()
        (checkout.cache / "moved").rename(checkout.cache / "geanmarbles")
        checkout.without_python()
        checkout.runs("shipped", DIFFERS)


def works_through_links() -> None:
    """./site works through a symbolic link, also one of a folder or to a link, from any folder"""
    with Checkout() as checkout:
        room = Path(checkout.room.name)
        link, folder, further = room / "link", room / "a folder", room / "further"
        link.symlink_to(checkout.root / "site")
        folder.symlink_to(checkout.root, target_is_directory=True)
        further.symlink_to("link")
        for script in (link, folder / "site", further, link):
            checkout.runs("shipped", "", script=script)
        checkout.without_python()
        for script in (link, folder / "site", further):
            checkout.runs("shipped", "", script=script)


def failed_builds_are_told() -> None:
    """./build says that a build failed, and keeps no program; bad arguments are refused before it begins"""
    with Checkout() as checkout:
        checkout.write("bin/rt", "#!/bin/sh\necho refused >&2\nexit 1\n", 0o755)
        ran = checkout.ran(toolchain=True, script=checkout.root / "build")
        must(
            ran.returncode == 1 and ran.stdout.endswith("\n0 passed, 1 failed\n") and "refused" in ran.stderr, str(ran)
        )
        for words in (["nowhere"], ["low"], ["--calls", "7"], ["--cache"], ["x.jsonl"]):
            ran = checkout.ran(*words, toolchain=True, script=checkout.root / "build")
            must((ran.returncode, ran.stdout) == (2, ""), f"{words}: {ran}")


def quick_runs_the_sources() -> None:
    """./build --quick hands standard input to one run, and several files to one compile"""
    with Checkout() as checkout, tempfile.TemporaryDirectory() as folder:
        env = with_toolchain(folder, checkout.write("tried", TRIED, 0o755))
        for name, text in (("one.jsonl", "first\n"), ("two.jsonl", "second\n"), ("bad.jsonl", "bad\n")):
            Path(folder, name).write_text(text, encoding="utf-8")

        def ran(*words: str, given: bytes = b"") -> subprocess.CompletedProcess[bytes]:
            how: dict[str, Any] = {"capture_output": True, "env": env, "cwd": folder, "timeout": SECONDS}
            return subprocess.run([checkout.root / "build", "--quick", *words], input=given, **how)

        one = ran("--calls", "5", given=b"mine\n")
        must((one.returncode, one.stdout) == (0, b"got --calls 5\nmine\n"), f"standard input: {one}")
        several = ran("one.jsonl", "two.jsonl", "--cache=3")
        wanted = b"== one.jsonl\ngot --cache 3\nfirst\n== two.jsonl\ngot --cache 3\nsecond\n"
        must((several.returncode, several.stdout) == (0, wanted), f"two files: {several}")
        bad = ran("one.jsonl", "bad.jsonl")
        must(bad.returncode == 1 and b"bad.jsonl: the program ended with status 1" in bad.stderr, f"a bad run: {bad}")
        must(b"build: bad.jsonl, line 1: this is no JSON object" in bad.stderr, f"a line that is none: {bad}")
        must(ran("nowhere.jsonl").returncode == 2, "a file that isn't there")
        runs = Path(folder, "rt.log").read_text(encoding="utf-8").splitlines()
        must(len(runs) == 3, f"it compiled {len(runs)} times")


def releases_are_renewed() -> None:
    """`geanmarbles dev release-program` ships what was built and proved of the commit's sources, and nothing else"""
    with Checkout() as checkout:
        script, words = checkout.root / "geanmarbles", ("dev", "release-program")

        def git(*words: str) -> None:
            env = {**os.environ, **MAKER}
            subprocess.run(["git", *words], capture_output=True, cwd=checkout.root, env=env, check=True)

        def refused(says: str, *more: str) -> None:
            ran = checkout.ran(*words, *more, script=script, toolchain=True)
            must((ran.returncode, ran.stdout) == (1, "") and says in ran.stderr, f"{ran}, wanted {says!r}")

        git("init", "-q")
        checkout.write(".gitignore", "out/\nbin/\ncommands/\nasked\n")
        refused("the program isn't built")
        checkout.ran(toolchain=True, script=checkout.root / "build")
        git("add", "-A")
        git("commit", "-q", "-m", "all")
        refused("is shipped already")
        checkout.ran(*words, script=script, toolchain=True)
        must("at most" not in checkout.ran(*words, "--check", script=script).stderr, "--check fails")
        checkout.change("low", "use b;\n", OLD)
        refused("no run of")
        checkout.ran(toolchain=True, script=checkout.root / "build")
        refused("files differ from the commit, crates/low/src/lib.rt")
        checkout.write("release/x86_64-linux/site.xz", "other")
        refused("is damaged", "--check")


def clones_print_pages() -> None:
    """a clone without the toolchain and without git prints rye's page, by the program that the repository ships"""
    with tempfile.TemporaryDirectory() as folder, tempfile.TemporaryDirectory() as commands:
        for name in ("python", "release"):
            shutil.copytree(ROOT / name, Path(folder, name), ignore=shutil.ignore_patterns("__pycache__"))
        for name in ("site", "crates.txt"):
            shutil.copy(ROOT / name, folder)
        for path in ROOT.glob("crates/*/*"):
            if path.name in SOURCES:
                shutil.copytree(path, Path(folder, "crates", path.parent.name, path.name))
        Path(commands, "python3").symlink_to(sys.executable)
        Path(commands, "sh").symlink_to("/bin/sh")
        for _ in range(2):
            how: dict[str, Any] = {"capture_output": True, "env": {"PATH": commands}, "timeout": SECONDS}
            ran = subprocess.run([Path(folder, "site")], input=(EXAMPLES / "rye.jsonl").read_bytes(), **how)
            must((ran.returncode, ran.stdout) == (0, (EXAMPLES / "rye.out").read_bytes()), str(ran))
            must(not ran.stderr or ran.stderr.startswith(b"site: the proved program of "), str(ran.stderr))


def installs() -> None:
    """`pip install .` without an index puts `geanmarbles` with the shipped program on the PATH of an environment"""
    python = "/usr/bin/python3"
    needed = subprocess.run([python, "-c", "import setuptools, pip, venv, wheel"], capture_output=True)
    if needed.returncode:
        raise Skipped(f"{python} has no pip, setuptools, wheel or venv")
    with tempfile.TemporaryDirectory() as folder:
        left = shutil.ignore_patterns("out", ".git", "crates", "docs", "tests", "__pycache__")
        source = shutil.copytree(ROOT, Path(folder, "source"), ignore=left)
        env = {"PATH": os.environ["PATH"], "XDG_CACHE_HOME": f"{folder}/cache", "HOME": folder}
        how: dict[str, Any] = {"capture_output": True, "cwd": folder, "env": env, "timeout": 300}

        def ran(*words: object, given: bytes = b"", status: int = 0) -> bytes:
            it = subprocess.run([*map(str, words)], input=given, **how)
            must(it.returncode == status, f"{words}: {it}")
            return bytes(it.stdout)

        ran(python, "-m", "venv", "--system-site-packages", "made")
        ran("made/bin/pip", "install", "--no-index", "--no-build-isolation", source)
        shutil.rmtree(source)
        command, lines = Path(folder, "made/bin/geanmarbles"), (EXAMPLES / "rye.jsonl").read_bytes()
        must(ran(command, "site", "--database", "s.db", given=lines) == (EXAMPLES / "rye.out").read_bytes(), "replies")
        must(b"Rye" in ran(command, "post", "list", "s.db"), "the post isn't listed")
        must(ran(command, "export", "s.db").count(b"\n") == 2, "the export has other lines")
        must(ran(command, "check", "s.db").startswith(b"2 edits, "), "it has other edits")
        ran(command, "new-plugin", "x", status=2)


CHECKS = [
    installs,
    shipped_program_runs,
    other_sources_are_told,
    version_is_told,
    current_builds_run,
    damage_is_refused,
    machines_that_lack_something,
    cache_is_used,
    works_through_links,
    failed_builds_are_told,
    quick_runs_the_sources,
    releases_are_renewed,
    clones_print_pages,
]
