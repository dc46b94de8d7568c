"""Lists, reads and sets the options of a site, and lists, activates and deactivates its plugins.

    geanmarbles option list [--program PATH] [--snippets] [--token-file FILE] SITE
    geanmarbles option get [--program PATH] [--snippets] [--token-file FILE] SITE NAME
    geanmarbles option set [--program PATH] [--snippets] [--token-file FILE] SITE NAME VALUE
    geanmarbles plugin list [--program PATH] [--snippets] [--token-file FILE] SITE
    geanmarbles plugin activate [--program PATH] [--snippets] [--token-file FILE] SITE NAME
    geanmarbles plugin deactivate [--program PATH] [--snippets] [--token-file FILE] SITE NAME

For example:

    geanmarbles option set site.db blogname Rye; geanmarbles plugin activate site.db bold

`option list` prints each option that was set, by its name, with its value as a text of JSON. `option get` prints the
value as it is, and a newline after it. `option set` reads the value from standard input if it is `-`. `plugin list`
prints the names of the active plugins, in the order in which they were activated.

SITE is what it is for `geanmarbles post`, whose --help says so: a site in a file, a file of lines, what serves a site,
or, for an edit, `-`.

The exit status is 0, 1 if nothing was done, with the reason, and 2 if the arguments are bad.
"""

import argparse
import json
import sys
from collections.abc import Callable
from functools import partial

from geanmarbles.archive.store import NotRead, Store
from geanmarbles.arguments import Parser
from geanmarbles.client.program import end_by_signals
from geanmarbles.archive.sites import add_site_arguments, edit, store_of
from geanmarbles.output import quiet_output
from geanmarbles.supervisor.kept import NotKept

STANDARD_INPUT = "-"
Verbs = dict[str, tuple[str, tuple[str, ...], Callable[[argparse.Namespace], str]]]


def active_in(store: Store) -> list[str]:
    """The names of the active plugins, in the order in which they were activated."""
    active: dict[str, None] = {}
    for line in store.settings:
        command = json.loads(line)
        if command["cmd"] == "import":
            active |= dict.fromkeys(command["site"].get("active", []))
        elif command["cmd"] == "activate":
            active[command["plugin"]] = None
        elif command["cmd"] == "deactivate":
            active.pop(command["plugin"], None)
    return list(active)


def list_options(arguments: argparse.Namespace) -> str:
    options = store_of(arguments).options
    return "".join(f"{name}\t{json.dumps(options[name], ensure_ascii=False)}\n" for name in sorted(options))


def get_option(arguments: argparse.Namespace) -> str:
    value = store_of(arguments).options.get(arguments.name)
    if value is None:
        raise NotKept(f"the option {arguments.name} isn't set")
    return f"{value}\n"


def set_option(arguments: argparse.Namespace) -> str:
    value = sys.stdin.read() if arguments.value == STANDARD_INPUT else arguments.value
    return edit(arguments, {"cmd": "option", "name": arguments.name, "value": value})


def list_plugins(arguments: argparse.Namespace) -> str:
    return "".join(f"{name}\n" for name in active_in(store_of(arguments)))


def switch_plugin(command: str, arguments: argparse.Namespace) -> str:
    return edit(arguments, {"cmd": command, "plugin": arguments.name})


OPTION: Verbs = {
    "list": ("print the options that were set", (), list_options),
    "get": ("print the value of one", ("name",), get_option),
    "set": ("set one", ("name", "value"), set_option),
}
PLUGIN: Verbs = {
    "list": ("print the names of the active plugins", (), list_plugins),
    "activate": ("activate one", ("name",), partial(switch_plugin, "activate")),
    "deactivate": ("deactivate one", ("name",), partial(switch_plugin, "deactivate")),
}


@quiet_output()
def run(noun: str, verbs: Verbs) -> int:
    parser = Parser(__doc__)
    commands = parser.add_subparsers(dest="verb", required=True, metavar="|".join(verbs))
    for verb, (what, names, _) in verbs.items():
        one = commands.add_parser(verb, help=what, description=__doc__)
        add_site_arguments(one)
        for name in names:
            one.add_argument(name, metavar=name.upper())
    arguments = parser.parse_args()
    end_by_signals()
    try:
        said = verbs[arguments.verb][2](arguments)
    except (NotKept, NotRead, OSError, ValueError) as fault:
        sys.exit(f"{noun}: {fault}")
    except KeyboardInterrupt:
        sys.exit(f"{noun}: stopped; if an edit was asked for, it isn't known whether it was made")
    sys.stdout.write(said if said.endswith("\n") or not said else f"{said}\n")
    return 0


def option() -> int:
    return run("option", OPTION)


def plugin() -> int:
    return run("plugin", PLUGIN)
