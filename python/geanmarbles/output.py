"""How a script ends if the reader of its output is gone, as `head -1` is once it has read a line."""

import contextlib
import os
import select
import sys
from collections.abc import Iterator


@contextlib.contextmanager
def quiet_output() -> Iterator[None]:
    """Runs a block that writes to standard output. If the output's reader is gone, the script ends with status 1, and
    says nothing of it."""
    try:
        try:
            yield
        finally:
            # There is none if the script was begun without one.
            if sys.stdout:
                sys.stdout.flush()
    except BrokenPipeError:
        if not is_gone():
            raise
        # What is left to be written goes nowhere, so the interpreter has nothing to complain of at its end.
        os.dup2(os.open(os.devnull, os.O_WRONLY), sys.stdout.fileno())
        sys.exit(1)


def is_gone() -> bool:
    """Whether nobody reads standard output: the broken pipe may be that of a program that the script has started."""
    poll = select.poll()
    poll.register(sys.stdout, select.POLLOUT)
    return any(events & (select.POLLERR | select.POLLHUP) for _, events in poll.poll(0))
