"""The toolchain's own library, which its command `rt` is made of: for what no single command of `rt` does."""

import importlib.machinery
import importlib.util
import os
import shutil
import sys
from collections.abc import Iterable
from typing import IO, Any, Protocol


class ToolchainFault(Exception):
    """The toolchain isn't there, or stopped without a verdict."""


class Crate(Protocol):
    """A crate as the toolchain's library has it."""

    name: str
    folder: str
    # What it uses of the kit.
    of_kit: list[str]
    # Where what is said of its build goes.
    out: IO[str]

    def below(self) -> list["Crate"]:
        """The repository's libraries below it, each after those that it uses."""

    def words(self, flags: Iterable[str], *, keeps: bool = True) -> list[str]:
        """The words of the prover's command that say what the crate is made of."""

    def count(self, pattern: bytes) -> int:
        """How often its sources have something."""

    def build_rlib(self, flags: Iterable[str], anew: bool) -> int:
        """Proves and builds it as a library. The result is 0 if it is proved."""


def load() -> Any:
    """The module of the command `rt`, of which `rtlib` is the library below. Only the main thread may call it."""
    command = shutil.which("rt")
    if not command:
        raise ToolchainFault("the command 'rt' of the Rattle toolchain isn't on the PATH")
    writes = sys.dont_write_bytecode
    loader = importlib.machinery.SourceFileLoader("rt", os.path.realpath(command))
    spec = importlib.util.spec_from_loader("rt", loader)
    assert spec is not None
    rt = importlib.util.module_from_spec(spec)
    try:
        loader.exec_module(rt)
        # Its first call sets a signal's handler, which only the main thread may.
        rt.rtlib.guarded()
    except Exception as fault:
        raise ToolchainFault(f"the command 'rt' has another form than is known here ({fault!r})") from fault
    finally:
        sys.dont_write_bytecode = writes
    return rt


def processors() -> int:
    return len(os.sched_getaffinity(0))
