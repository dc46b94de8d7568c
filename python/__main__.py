"""Runs a command of the repository: its scripts run this folder with the command's name, the script as it was typed,
and the arguments."""

import sys

from geanmarbles.command_line import run

_, name, *sys.argv = sys.argv
run(name)
