"""Where addresses of the old site that aren't pages of the archive lead to, in the forms of several web servers.

Plain permalinks such as `/?p=7`, attachments' pages, other forms of feeds and names that posts once had are moved for
good (301). All forms are made of one table, and of a few patterns.
"""

import re
from collections.abc import Iterable, Iterator
from itertools import groupby
from pathlib import Path
from urllib.parse import quote, unquote

from geanmarbles.archive.files import Files
from geanmarbles.archive.plan import Plan
from geanmarbles.disk_tables import DiskDict, DiskSet
from geanmarbles.wordpress.addresses import as_link, path_or_none
from geanmarbles.wordpress.harmless import split
from geanmarbles.wordpress.items import Item

# Query parameters of plain permalinks, the first that is given decides, and by which of them the table has each.
ASKED = {"p": "p", "page_id": "p", "attachment_id": "p"} | {it: it for it in ("cat", "tag", "author", "m", "feed")}
# Those whose values are numbers.
NUMBERS = ("p", "cat", "author", "m")
# The file for nginx, from the folder that it serves.
NGINX = "../nginx.conf"
# The longest keys and values that are written into maps.
LINE = 2_000


class Moved:
    """The moved addresses of an archive."""

    def __init__(self, plan: Plan, search: str = "") -> None:
        self.plan, self.home = plan, plan.places.home
        # The path of the search, to which `/?s=WORDS` leads.
        self.search = as_link(search)
        # Where each leads: a path, or a parameter of the query such as ?p=7.
        self.table: DiskDict[str, str] = DiskDict(plan.store.disk)
        ending = "/" if plan.places.has_slash else ""
        # Regular expressions of paths, and where these lead.
        self.patterns = [
            (r"^(\S*)/feed/(?:rss2?|rdf|atom)/?$", f"$1/feed{ending}"),
            (r"^(\S*)/page/1/?$", "$1/"),
            (rf"^{re.escape(self.home)}wp-sitemap[^/]*\.xml$", f"{self.home}sitemap.xml"),
        ]
        for number, path in plan.paths.items():
            self.table[f"?p={number}"] = as_link(path)
            self.take_old_names(plan.item(number), path)
        for item in filter(plan.is_open, plan.site.of_kind("attachment")):
            self.take_attachment(item)
        self.take_front()
        self.take_lists()
        self.take_feeds()

    def move(self, path: str, to: str) -> None:
        if path_or_none(path) == path and len(path) + len(to) < LINE and not self.plan.is_used(path):
            self.table.setdefault(path, to)

    def take_old_names(self, item: Item | None, path: str) -> None:
        """The names that a post had before its author changed them."""
        slug = unquote(item.slug) if item else ""
        head, _, last = path.rstrip("/").rpartition("/")
        for name in item.fields.get("_wp_old_slug", []) if item else ():
            if slug and last == slug and name.strip():
                self.move(f"{head}/{unquote(name.strip())}" + ("/" if path.endswith("/") else ""), as_link(path))

    def take_front(self) -> None:
        """The page that the front shows has an address of its own too, by its name."""
        item = self.plan.item(self.plan.front) if self.plan.front else None
        if item and item.slug and not item.parent:
            self.move(self.plan.places.ended(self.home + unquote(item.slug)), as_link(self.home))

    def take_attachment(self, item: Item) -> None:
        """An attachment's page leads to its file."""
        parts = split(self.plan.places.local(item.file))
        if parts.netloc or not parts.path.startswith("/"):
            return
        file = as_link(unquote(parts.path))
        self.table.setdefault(f"?p={item.number}", file)
        path = self.plan.places.own(item)
        if path:
            self.move(path, file)

    def take_lists(self) -> None:
        """Plain permalinks of terms, authors and dates lead to their lists."""
        plan, site = self.plan, self.plan.site
        for term in site.terms.values():
            path = plan.places.term(term)
            if term.domain == "category" and term.number and plan.has_list(path):
                self.table[f"?cat={term.number}"] = as_link(path)
            elif term.domain == "post_tag" and plan.has_list(path):
                self.table[f"?tag={unquote(term.slug)}"] = as_link(path)
        for login, number in site.author_numbers.items():
            if number and plan.has_list(plan.places.author(login)):
                self.table[f"?author={number}"] = as_link(plan.places.author(login))
        for it in plan.lists:
            if it.kind in ("year", "month", "day"):
                self.table[f"?m={it.path.removeprefix(plan.places.dates).replace('/', '')}"] = as_link(it.path)

    def take_feeds(self) -> None:
        """Other forms of the main feeds' addresses lead to these. (Those of lists are left to the pattern.)"""
        places = self.plan.places
        home, comments = places.feed(self.home), places.feed(f"{self.home}comments/")
        for form in ("rss", "rss2", "rdf", "atom", "feed"):
            self.table[f"?feed={form}"] = as_link(home)
            for feed in (home, comments):
                self.move(f"{feed.rstrip('/')}/{form}" + ("/" if feed.endswith("/") else ""), as_link(feed))
        self.table["?feed=comments-rss2"] = as_link(comments)

    def target(self, path: str, query: dict[str, str]) -> str:
        """Where an address leads, or an empty text if it isn't moved."""
        if path in (self.home, f"{self.home}index.php"):
            for name, kind in ASKED.items():
                if query.get(name):
                    return self.table.get(f"?{kind}={query[name]}", "")
            if self.search and "s" in query:
                return self.search
            if path != self.home:
                return self.home
        made = (re.sub(it, to.replace("$", "\\"), path) for it, to in self.patterns if re.match(it, path))
        return self.table.get(path, "") or next(made, "")


NGINX_HEAD = """# Serves the archive. Include it within `http { .. }`, and set the port, the name and the certificates.

map_hash_max_size 1048576;
map_hash_bucket_size 4096;
types_hash_max_size 4096;

"""
NGINX_SERVER = """
server {{
    listen 8080;
    server_name _;
    root {root};
    index index.html index.xml;
    charset utf-8;
    absolute_redirect off;
    error_page 404 /404.html;

    if ($archive_path) {{ return 301 $archive_path; }}
{slash}
    location = {home} {{
        set $archive_asked "";
{asked}        if ($archive_query) {{ return 301 $archive_query; }}
        if ($archive_asked) {{ return 404; }}
        try_files $uri/index.html =404;
    }}
    location = {home}index.php {{ return 301 {home}$is_args$args; }}
    location / {{ try_files $uri $uri/index.html $uri/index.xml =404; }}
    location ~ ^(?<post>/\\S+)/feed/?$ {{ try_files $uri/index.xml @post; }}
    location @post {{ return 301 $post{ending}; }}
    location ~ /\\. {{ return 404; }}
    location = /404.html {{ internal; }}
}}
"""


def quoted(text: str) -> str:
    """A text for nginx's configuration: in quotes, its own escaped."""
    return '"' + text.replace("\\", "\\\\").replace('"', '\\"') + '"'


def for_nginx(moved: Moved, root: Path) -> Iterator[str]:
    """The configuration of nginx that serves the archive, in pieces. Its maps have queries as browsers send them; `%D0`
    and `%d0` are one there."""
    yield NGINX_HEAD
    for given, made, begin in (("$uri", "$archive_path", "/"), ("$archive_asked", "$archive_query", "?")):
        yield f'map {given} {made} {{\n    default "";\n'
        for key, to in moved.table.items():
            if key.startswith(begin):
                shown = key if begin == "/" else quote(key, safe="?=")
                yield f"    {quoted(shown)} {quoted(to.replace('$', '%24'))};\n"
        yield from (f"    {quoted('~' + it)} {quoted(to)};\n" for it, to in moved.patterns if begin == "/")
        yield "}\n"
    # (the last one that is set counts)
    names = [f'if ($arg_{it}) {{ set $archive_asked "?{kind}=$arg_{it}"; }}' for it, kind in ASKED.items()][::-1]
    if moved.search:
        names.append(f'if ($arg_s) {{ return 301 {quoted(moved.search.replace("$", "%24") + "?s=$arg_s")}; }}')
    has_slash = moved.plan.places.has_slash
    yield NGINX_SERVER.format(
        root=quoted(str(root)),
        home=moved.home,
        asked="".join(f"        {it}\n" for it in names),
        slash="    if (-f $request_filename/index.html) { rewrite ^(\\S*[^/])$ $1/ permanent; }\n" * has_slash,
        ending="/" * has_slash,
    )


# What Apache reads at each request, so nothing in it grows with the site.
APACHE = """# Sends old addresses on. Apache needs mod_rewrite, mod_alias, mod_dir and `AllowOverride All`.
DirectoryIndex index.html index.xml
ErrorDocument 403 /404.html
ErrorDocument 404 /404.html
Options -Indexes
AddDefaultCharset utf-8
<Files ".ht*">
Require all denied
</Files>
RewriteEngine On
RewriteRule "^{front}index\\.php$" "{home}" [R=301,L]
RewriteCond %{{QUERY_STRING}} (?:^|&)(?:p|page_id|attachment_id)=(\\d*?)(\\d\\d?)(?:&|$)
RewriteRule "^{front}$" "/_moved/p0%1/%2" [L,QSD]
RewriteCond %{{QUERY_STRING}} (?:^|&)(cat|author|m)=(\\d*?)(\\d\\d?)(?:&|$)
RewriteRule "^{front}$" "/_moved/%10%2/%3" [L,QSD]
RewriteCond %{{QUERY_STRING}} (?:^|&)(tag|feed)=([^&]+)
RewriteRule "^{front}$" "/_moved/%1/%2" [L,QSD]
RewriteCond %{{REQUEST_FILENAME}} -d
RewriteCond %{{REQUEST_FILENAME}}/index.html !-f
RewriteCond %{{REQUEST_FILENAME}}/index.xml !-f
RewriteCond %{{REQUEST_FILENAME}}/.htaccess !-f
RewriteRule ^ - [R=404]
RewriteCond %{{REQUEST_FILENAME}} !-f
RewriteCond %{{REQUEST_FILENAME}} !-d
RewriteRule "^(.+)/feed/?$" "/$1{ending}" [R=301,L,NE]
"""


def for_apache(moved: Moved) -> Iterator[tuple[str, Iterable[str]]]:
    """The folders that get rules of Apache, and these. The one at the front leads what is asked for in a query to a
    path below /_moved, and has a few patterns; what becomes of a path is in the folder above it, or in one of its own
    if that is read at each request."""
    places, lines = moved.plan.places, DiskSet[str](moved.plan.store.disk)
    front, ending = re.escape(moved.home[1:]), "/" if places.has_slash else ""
    rules = APACHE.format(front=front, home=moved.home, ending=ending)
    if moved.search:
        rules += "RewriteCond %{QUERY_STRING} (?:^|&)s=([^&]*)\n"
        rules += f'RewriteRule "^{front}$" "{moved.search}?s=%1" [R=301,L,NE]\n'
    yield "/", [rules, *(redirect(*it) for it in moved.patterns)]
    for key, to in moved.table.items():
        name, _, value = key[1:].partition("=")
        path, to = key, unquote(to)
        if key.startswith("?"):
            path = f"/_moved/{name}0{value[:-2]}/{value[-2:]}" if name in NUMBERS else f"/_moved/{name}/{value}"
        above = path.rstrip("/").rpartition("/")[0] + "/"
        folder = path.rstrip("/") + "/" if above in ("/", moved.home, places.before) else above
        # (neither may end the line or have a variable of the server, and a page that is a file has nothing below it)
        is_fit = path_or_none(path) and path_or_none(to) and "${" not in to
        if is_fit and not re.search(r"\.[A-Za-z0-9]{1,5}/.", path):
            lines.add(f"{folder}\n" + redirect(f"^{escaped(path.rstrip('/'))}/?$", to.replace("$", "\\$")))
    for folder, found in groupby(lines, lambda it: it.partition("\n")[0]):
        yield folder, (it.partition("\n")[2] for it in found)


def redirect(pattern: str, to: str) -> str:
    return f"RedirectMatch 301 {quoted(pattern)} {quoted(to)}\n"


def escaped(path: str) -> str:
    """A path as a regular expression of Apache."""
    return "".join(it if it.isalnum() or it in "-_/" else "\\" + it for it in path)


def for_netlify(moved: Moved) -> Iterator[str]:
    for key, to in moved.table.items():
        name, _, value = key.partition("=")
        names = [it for it, kind in ASKED.items() if name == f"?{kind}"]
        yield from (f"{moved.home} {it}={as_link(value)} {to} 301!\n" for it in names)
        if not names:
            yield f"{as_link(key)} {to} 301!\n"
    if moved.search:
        yield f"{moved.home} s=:s {moved.search}?s=:s 301!\n"
    yield f"{moved.home}index.php {moved.home} 301!\n{moved.home}wp-sitemap.xml {moved.home}sitemap.xml 301!\n"
    # A file that is there comes first.
    yield "/*/feed/ /:splat/ 301\n"


def write_moved(moved: Moved, files: Files) -> None:
    """Writes the moved addresses for nginx beside the pages, and for Apache and Netlify among them."""
    with (files.root / NGINX).open("w", encoding="utf-8") as file:
        file.writelines(for_nginx(moved, files.root.resolve()))
    files.names.append(NGINX)
    files.current.add(NGINX)
    for folder, rules in for_apache(moved):
        files.write(folder, rules, ".htaccess", is_folder=True)
    files.write("/", for_netlify(moved), "_redirects", is_folder=True)
