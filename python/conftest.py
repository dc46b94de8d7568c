"""Has pytest know the checks of this package, and end a run with their line."""

from geanmarbles.checks.closing_line import *  # noqa: F401, F403
