"""Tries the scripts that begin something: what ./site runs, what ./build builds, what `geanmarbles new-plugin` makes,
that the tutorial shows the examples as they are, what `geanmarbles dev release-program` ships and refuses, that scripts
end quietly once nobody reads their output, and that each script of the repository knows --help and refuses an argument
that it doesn't know, before it does anything.

    tests/scripts/run [--plain] [NAME ..]

With names, it makes the checks whose names have one of these. Nothing is built or proved. ./site and ./build are tried
in a small checkout made for it, where the program and the toolchain's command are scripts, and `geanmarbles new-plugin`
in a copy of the crates that it reads. The checks are run by pytest if it is installed, and by a loop if it isn't, or
with --plain. The last line is 'N passed, M failed', with ', K skipped' after it if a check was skipped, over the
checks, each of which is a function below or in site_script.py. The exit status is 0 if nothing failed.
"""

from __future__ import annotations

import ast
import json
import os
import re
import shutil
import signal
import subprocess
import sys
import tempfile
from pathlib import Path
from typing import Any, Self

from geanmarbles.checks.cluster.processes import wait_for
from geanmarbles.checks.judging import Skipped, must
from geanmarbles.checks.runner import main_of
from geanmarbles.checks.site_script import Checkout
from geanmarbles.command_line import COMMANDS
from geanmarbles.paths import GEANMARBLES, ROOT
from geanmarbles.repository.new_plugin import TEMPLATE
from geanmarbles.repository.unproved import run_telling

SECONDS = 60
# The crates that docs/PLUGINS.md goes through.
TUTORIAL = ["example_exclaim", "example_notices", "example_gallery"]
# What is used of Debian's packages for Python, where it is there.
PACKAGES = {"h11", "hypothesis", "prometheus_client", "pytest"}
# What these scripts do takes no argument, or isn't theirs to say.
WITHOUT_HELP = {".ci/run"}


def usage_is_as_typed() -> None:
    """a script's usage names it as it was typed: by a path, by a link, and as it is found on the PATH"""
    with tempfile.TemporaryDirectory() as folder:
        link = Path(folder, "link")
        link.symlink_to(GEANMARBLES)
        env = {**os.environ, "PATH": f"{ROOT}:{os.environ['PATH']}"}
        for typed, shown, cwd in (
            ("./geanmarbles", "./geanmarbles", ROOT),
            ("../geanmarbles", "../geanmarbles", ROOT / "docs"),
            (link, link, "/"),
            ("geanmarbles", GEANMARBLES, "/"),
            ("./link", "./link", folder),
        ):
            how: dict[str, Any] = {"capture_output": True, "text": True, "timeout": SECONDS, "env": env, "cwd": cwd}
            ran = subprocess.run(["sh", "-c", f"exec '{typed}' explain --help"], **how)
            must(ran.returncode == 0 and ran.stdout.startswith(f"usage: {shown} explain "), f"{typed}: {ran}")


def scripts_become_python() -> None:
    """a script's process is Python's own, so signals reach it, its status is Python's, and it leaves no file behind"""
    words = [GEANMARBLES, "explain", "--hook", "x"]
    with subprocess.Popen(words, cwd=ROOT, stdin=subprocess.PIPE, stderr=subprocess.PIPE) as child:
        try:
            wait_for(lambda: "python" in os.readlink(f"/proc/{child.pid}/exe"), SECONDS, "it becomes Python")
            child.send_signal(signal.SIGTERM)
            must(child.wait(SECONDS) == -signal.SIGTERM, f"SIGTERM ends it with {child.returncode}")
        finally:
            child.kill()
    ran = subprocess.run(words, cwd=ROOT, stdin=subprocess.DEVNULL, capture_output=True, timeout=SECONDS)
    must(ran.returncode == 1 and ran.stderr.startswith(b"explain: "), f"without a log: {ran}")
    must(not list((ROOT / "python").rglob("__pycache__")), "it leaves files in python/")


def says_that_it_works() -> None:
    """what runs long before a proof says now and then that it is at work, and hands on what it wrote"""
    said: list[str] = []
    words = ["sh", "-c", "cat; echo more >&2; sleep 0.5; exit 3"]
    pipes: dict[str, Any] = {it: subprocess.PIPE for it in ("stdout", "stderr")}
    with tempfile.TemporaryFile() as given:
        given.write(b"line\n")
        given.seek(0)
        ran = run_telling(words, said.append, 0.1, stdin=given, **pipes)
    must((ran.returncode, ran.stdout, ran.stderr) == (3, b"line\n", b"more\n"), f"it hands on {ran}")
    must(said and all("s so far" in it for it in said), f"it said {said}")


class Plugins(Checkout):
    """A checkout with the crates that `geanmarbles new-plugin` reads."""

    def __enter__(self) -> Self:
        super().__enter__()
        for crate in TUTORIAL:
            left = shutil.ignore_patterns("out")
            shutil.copytree(ROOT / "crates" / crate, self.root / "crates" / crate, ignore=left)
        shutil.copy(ROOT / "crates.txt", self.root)
        return self

    def new(self, *words: str) -> tuple[int, str, str]:
        how: dict[str, Any] = {"capture_output": True, "text": True, "env": self.env, "timeout": SECONDS}
        ran = subprocess.run([self.root / "geanmarbles", "new-plugin", *words], **how)
        return ran.returncode, ran.stdout, ran.stderr

    def text_of(self, crate: str) -> str:
        """Whatever a crate's files say."""
        files = sorted(it for it in (self.root / "crates" / crate).rglob("*") if it.is_file())
        return "\n".join(f"{it.name}\n{it.read_text(encoding='utf-8')}" for it in files)


def plugins_are_made() -> None:
    """`geanmarbles new-plugin` makes both crates from each example, and --remove leaves things as they were"""
    more = " shortcode_atts page_escapes"
    for example, libraries, edits in (("exclaim", "", 3), ("notices", more, 3), ("gallery", more, 5)):
        with Plugins() as checkout:
            before = (checkout.root / "crates.txt").read_text(encoding="utf-8")
            status, said, errors = checkout.new("--from", example, "big_news")
            must((status, errors) == (0, "") and "crates/big_news_site" in said, f"{example}: {status} {said} {errors}")
            after = (checkout.root / "crates.txt").read_text(encoding="utf-8")
            lines = f"big_news: callback_store hook_changes{libraries} plain_data\n"
            lines += "big_news_site: site_main bundled_plugins big_news callback_store\n"
            must(after == before + lines, f"{example}: crates.txt ends with {after[-200:]}")
            made = checkout.text_of("big_news") + checkout.text_of("big_news_site")
            must(
                not re.search(r"(?i)exclaim|notices|gallery|PLUGINS\.md", made),
                f"{example}: a copy speaks of its example",
            )
            must("BigNews.antt" in made and "number_of" in made, f"{example}: the definitions are missing")
            must(made.count(".edit\n") == edits, f"{example}: the wrong bodies are missing")
            status, said, errors = checkout.new("--remove", "big_news")
            must((status, errors) == (0, "") and "out/removed/big_news.1" in said, f"{status} {said} {errors}")
            must((checkout.root / "crates.txt").read_text(encoding="utf-8") == before, "crates.txt has another text")
            must(not list((checkout.root / "crates").glob("big_news*")), "a crate is left")
            must((checkout.root / "out/removed/big_news.1/big_news/src/lib.rt").is_file(), "the plugin is gone")


def bad_names_are_refused() -> None:
    """`geanmarbles new-plugin` refuses words of Rust and of the definitions' language, names that are taken, and bad
    arguments"""
    names = "loop while else enum true const trait where super in main test record data unfoldable"
    names += " Shout 1st a-b example_exclaim title"
    with Plugins() as checkout:
        before = (checkout.root / "crates.txt").read_text(encoding="utf-8")
        for name in [*names.split(), "x" * 51, ""]:
            status, said, errors = checkout.new(name)
            must((status, said) == (1, "") and errors.startswith("new-plugin: "), f"{name!r}: {status} {said} {errors}")
        bad: list[list[str]] = [[], ["a", "b"], ["--form", "notices", "a"], ["--from", "site", "a"], ["--remove"]]
        for words in bad:
            must(checkout.new(*words)[:2] == (2, ""), f"{words} isn't refused")
        for name in ("example_exclaim", "site", "nowhere", "../x"):
            must(checkout.new("--remove", name)[:2] == (1, ""), f"--remove {name} isn't refused")
        must((checkout.root / "crates.txt").read_text(encoding="utf-8") == before, "crates.txt has changed")


def tutorial_shows_the_examples() -> None:
    """what docs/PLUGINS.md shows of code and definitions is in the examples, word for word"""
    remark = " docs/PLUGINS.md begins with\n//! it, and `geanmarbles new-plugin` makes a new plugin's crate from it."
    folders = [ROOT / "crates" / name / part for name in TUTORIAL for part in ("src", "specs", "proofs")]
    files = [TEMPLATE / "main.rt.txt", *(it for folder in folders for it in folder.rglob("*") if it.is_file())]
    shown = "\n".join(it.read_text(encoding="utf-8").replace(remark, "") for it in files)
    text, count = (ROOT / "docs" / "PLUGINS.md").read_text(encoding="utf-8"), 0
    for kind, block in re.findall(r"^```(\w*)\n(.*?)^```", text, re.S | re.M):
        if kind == "rust" or not kind and re.search(r"^(abbrev|unfoldable) pub", block, re.M):
            for part in re.split(r"\n\n+", block.strip("\n")):
                must(part in shown, f"this is in none of {', '.join(TUTORIAL)}: {part[:200]!r}")
                count += 1
    must(count > 50, f"only {count} parts were looked at")


def printed_to_nobody(*words: object) -> tuple[int, str]:
    """What a script says whose output has no reader, and its status."""
    reader, writer = os.pipe()
    os.close(reader)
    try:
        how: dict[str, Any] = {
            "stdout": writer,
            "stderr": subprocess.PIPE,
            "text": True,
            "timeout": SECONDS,
            "cwd": ROOT,
        }
        ran = subprocess.run([*map(str, words)], **how)
    finally:
        os.close(writer)
    return ran.returncode, ran.stderr


def ends_without_a_reader() -> None:
    """scripts end with status 1, and say nothing, if the reader of their output is gone"""
    with tempfile.TemporaryDirectory() as folder:
        site, lines = Path(folder, "site.jsonl"), []
        for number in range(1, 3_000):
            post = {"cmd": "put", "title": f"Post {number}", "content": "", "date": "2024-04-02 06:00:00"}
            lines.append(json.dumps(post, separators=(",", ":")) + "\n")
        site.write_text("".join(lines), encoding="utf-8")
        bad = Path(folder, "bad.jsonl")
        bad.write_text("[]\n" * 3_000, encoding="utf-8")
        export = ROOT / "tests/from_wordpress/wordpress.xml"
        scripts: list[list[object]] = [
            ["./site", "--help"],
            ["./geanmarbles", "dev", "index"],
            ["./geanmarbles", "post", "list", site],
            ["./geanmarbles", "import", "wordpress", export],
            ["./geanmarbles", "refusals", bad],
        ]
        scripts += [["./" + name, *verbs, "--help"] for name, *verbs in commands()]
        for words in scripts:
            status, said = printed_to_nobody(*words)
            # What `import wordpress` reports is written before its commands.
            faults = [it for it in said.splitlines() if "rror" in it or "Traceback" in it]
            # argparse drops the fault of a write that isn't buffered.
            ends = {0, 1} if "--help" in words[1:] and words[0] != "./site" else {1}
            must(status in ends and not faults, f"{' '.join(map(str, words))} ended with {status}: {faults}")


def executables() -> list[str]:
    """The scripts of the repository, by their paths in it."""
    words = ["git", "ls-files", "-z", "--cached", "--others", "--exclude-standard"]
    listed = subprocess.run(words, cwd=ROOT, capture_output=True, check=True, text=True).stdout.split("\0")
    return sorted(it for it in set(listed) if it and os.access(ROOT / it, os.X_OK) and (ROOT / it).is_file())


def commands() -> list[list[str]]:
    """The words that run each script of the repository, and each command of `geanmarbles`."""
    scripts = [[it] for it in executables() if it not in WITHOUT_HELP]
    return scripts + [["geanmarbles", *it.split()] for it in COMMANDS if it != "site"]


def scripts_know_help() -> None:
    """each script answers --help with what it is for, and refuses an unknown option, both at once"""
    for name, *verbs in commands():
        for option, status in (("--help", 0), ("--no-such-option", 2)):
            words = [str(ROOT / name), *verbs, option]
            ran = subprocess.run(words, capture_output=True, text=True, timeout=SECONDS, cwd="/")
            said = ran.stdout if status == 0 else ran.stderr
            must(ran.returncode == status and said, f"{words}: status {ran.returncode}, {ran.stderr[-300:]}")
            must(status or " ".join([Path(name).name, *verbs]) in said, f"{words} says nothing of it: {said[:200]}")
            must(not status or not ran.stdout, f"{words} begins with {ran.stdout[:200]!r}")
            must(not verbs or not status or said.count("\n") == 1, f"{words} says more than a line: {said}")


def package_is_sound() -> None:
    """the package is laid out by black, and flake8 and mypy find nothing, as far as they are installed"""
    missing: list[str] = []
    for words in (["black", "--quiet", "--check", "python"], ["flake8", "python"], ["mypy"]):
        if shutil.which(words[0]) is None:
            missing.append(words[0])
            continue
        with tempfile.TemporaryDirectory() as folder:
            env = {**os.environ, "MYPY_CACHE_DIR": folder, "BLACK_CACHE_DIR": folder}
            ran = subprocess.run(words, cwd=ROOT, capture_output=True, text=True, env=env)
        must(ran.returncode == 0, f"{words[0]}: {ran.stdout[-2_000:]}{ran.stderr[-2_000:]}")
    if missing:
        raise Skipped(f"there is no {', '.join(missing)} to look at python/ by")


def packages_stand_on_lower_ones() -> None:
    """no package of python/ imports one that python/README.md lists after it, and no command another"""
    listed = re.findall(
        r"\]\(geanmarbles/(\w+)(?:\.py)?\)", (ROOT / "python" / "README.md").read_text(encoding="utf-8")
    )
    there = {it.stem for it in (ROOT / "python" / "geanmarbles").iterdir()} - {"__init__", "__pycache__"}
    must(set(listed) == there, f"python/README.md lists {listed}, and there are {sorted(there)}")
    for path in sorted((ROOT / "python" / "geanmarbles").rglob("*.py")):
        own = path.relative_to(ROOT / "python" / "geanmarbles").parts[0].removesuffix(".py")
        text = path.read_text(encoding="utf-8")
        for name, inner in re.findall(r"^ *from geanmarbles\.(\w+)(?:\.(\w+))? import", text, re.M):
            is_lower = own != "__init__" and listed.index(name) <= listed.index(own)
            must(is_lower and name != "commands", f"{path.name} of {own} imports {name}.{inner}")
        must(not re.search(r"^ *sys\.path\b", text, re.M), f"{path} changes Python's path")


def needs_python_alone() -> None:
    """no module of python/ imports anything but Python's own library; the few that use a package of Debian's, as
    docs/DECISIONS.md says, ask for it only where it is used"""
    decisions, used = (ROOT / "docs" / "DECISIONS.md").read_text(encoding="utf-8"), set()
    for path in sorted((ROOT / "python").rglob("*.py")):
        text, names = path.read_text(encoding="utf-8"), set()
        for node in ast.walk(ast.parse(text)):
            if isinstance(node, ast.Import):
                names |= {it.name.partition(".")[0] for it in node.names}
            elif isinstance(node, ast.ImportFrom):
                names.add((node.module or "").partition(".")[0])
        foreign = names - sys.stdlib_module_names - {"geanmarbles"}
        must(not foreign, f"{path} imports {', '.join(sorted(foreign))}")
        used |= set(re.findall(r'import_module\("(\w+)', text))
    must(used == PACKAGES, f"these are asked for: {sorted(used)}")
    for name in PACKAGES:
        package = f"`python3-{name.replace('_', '-')}`"
        must(package in decisions, f"docs/DECISIONS.md doesn't say that {package} is used")


CHECKS = [
    usage_is_as_typed,
    scripts_become_python,
    says_that_it_works,
    plugins_are_made,
    bad_names_are_refused,
    tutorial_shows_the_examples,
    ends_without_a_reader,
    scripts_know_help,
    packages_stand_on_lower_ones,
    needs_python_alone,
    package_is_sound,
]


def main() -> int:
    return main_of(__doc__, ["geanmarbles.checks.scripts", "geanmarbles.checks.site_script"])
