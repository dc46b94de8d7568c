"""What is stored after some lines, told by their replies alone: the commands that were done, one after another."""

import json
from collections.abc import Iterable
from typing import Any, Self

from geanmarbles.checks.fuzz.lines import PLUGINS, TEMPLATES
from geanmarbles.checks.fuzz.values import Keys, command_of
from geanmarbles.client.replies import Wrong, shown

DATE = "2024-05-01 10:00:00"


def line_of(**keys: object) -> bytes:
    return json.dumps(keys, ensure_ascii=False).encode()


class Stored:
    """Posts by ID, options, templates, active plugins, and the largest ID ever given."""

    def __init__(self) -> None:
        self.posts: dict[int, Keys] = {}
        self.options: dict[str, str] = {}
        self.templates: dict[str, Any] = {}
        self.active: set[str] = set()
        self.largest = 0

    def after(self, lines: Iterable[bytes], replies: Iterable[bytes]) -> Self:
        for line, reply in zip(lines, replies):
            command = command_of(line)
            if command.get("cmd") in ("edit", "delete") and reply in (b"ok\n", b"refused 3 NoSuchPost\n"):
                if (command["id"] in self.posts) != (reply == b"ok\n"):
                    raise Wrong(f"the reply to {shown(line)} is {shown(reply)}, and the replies before tell otherwise")
            try:
                if reply.startswith(b"ok"):
                    self.carry_out(command, reply)
            except (IndexError, KeyError, TypeError):
                raise Wrong(f"the reply to {shown(line)} is {shown(reply)}, which can't be") from None
        return self

    def carry_out(self, command: Keys, reply: bytes) -> None:
        """Carries out a command whose reply was `ok`, or `ok` and a number."""
        match command["cmd"]:
            case "put":
                every = {"kind": "post", "status": "publish", "title": "", "content": ""}
                if int(reply.split()[1]) != self.largest + 1:
                    raise Wrong(f"the reply to a put is {shown(reply)}, and {self.largest} was the largest ID")
                self.add({**every, **command, "id": self.largest + 1})
            case "edit":
                given = {key: it for key, it in command.items() if key in ("status", "title", "content", "date")}
                self.posts[command["id"]].update(given)
            case "delete":
                del self.posts[command["id"]]
            case "option":
                self.options[command["name"]] = command["value"]
            case "activate":
                self.active.add(command["plugin"])
            case "deactivate":
                self.active.discard(command["plugin"])
            case "template":
                self.set_template(command["name"], command["body"])
            case "import":
                self.carry_in(command["site"])

    def add(self, post: Keys) -> None:
        self.posts[post["id"]] = {key: post[key] for key in ("id", "kind", "status", "title", "content", "date")}
        self.largest = max(self.largest, post["id"])

    def set_template(self, name: str, body: Any) -> None:
        self.templates[name] = body
        if body is None:
            del self.templates[name]

    def carry_in(self, site: Keys) -> None:
        for post in site.get("posts", []):
            self.add(post)
        self.options.update(site.get("options", {}))
        if site["version"] == 2 and "front" in site:
            self.options["show_on_front"] = site["front"]["show"]
            if site["front"]["show"] == "page":
                self.options["page_on_front"] = str(site["front"]["page"])
        self.templates.update(site.get("templates", {}))
        self.active.update(site.get("active", []))

    def lines(self) -> list[bytes]:
        """Lines that make an empty site this one; the reply to each is `ok`."""
        gone = [] if self.largest in self.posts or not self.largest else [self.largest]
        holder: Keys = {"kind": "post", "status": "draft", "title": "", "content": "", "date": DATE}
        sites: list[Keys] = [
            {"posts": [post]} for post in [*self.posts.values(), *({"id": it, **holder} for it in gone)]
        ]
        sites += [{"options": {name: value}} for name, value in self.options.items()]
        sites += [{"templates": {name: body}} for name, body in self.templates.items()]
        sites.append({"active": sorted(self.active)})
        imports = [line_of(cmd="import", site={"version": 1, **site}) for site in sites]
        return imports + [line_of(cmd="delete", id=it) for it in gone]

    def toggled(self, plugin: str) -> list[bytes]:
        """Two lines that leave the active plugins as they are, with the plugin turned round between them."""
        words = ("deactivate", "activate") if plugin in self.active else ("activate", "deactivate")
        return [line_of(cmd=word, plugin=plugin) for word in words]


def bared(ids: Iterable[int]) -> list[bytes]:
    """Lines after which no plugin is active, no template is stored, and the posts of these IDs are published."""
    lines = [line_of(cmd="deactivate", plugin=plugin) for plugin in PLUGINS]
    lines += [line_of(cmd="template", name=name, body=None) for name in TEMPLATES]
    return lines + [line_of(cmd="edit", id=it, status="publish") for it in ids]
