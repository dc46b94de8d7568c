"""A whole WordPress for the tests of this folder: it makes a site by its own code, exports it and shows it.

It is a module, and runs nothing by itself. PHP with its extensions mysqli, gd and xml, MariaDB's server and WordPress
are needed, which are Debian's packages:

    apt-get install php-cli php-mysql php-gd php-xml mariadb-server
    apt-get download wordpress wordpress-l10n; for it in wordpress*.deb; do dpkg -x $it FOLDER; done

All that is made lies in a folder of its own, a database server with a socket and no port among it, and is gone at the
end.
"""

import http.client
import json
import os
import shutil
import signal
import subprocess
from collections.abc import Iterator
from pathlib import Path
from typing import Any

from geanmarbles.checks.cluster.processes import free_port, listens, wait_for
from geanmarbles.paths import TESTS

HERE = TESTS / "from_wordpress"
SECONDS = 300
# Tables of the database are made anew for each site.
DATABASE = "site"
CONFIG = """<?php
define('DB_NAME', '{name}');
define('DB_USER', 'root');
define('DB_PASSWORD', '');
define('DB_HOST', 'localhost:{socket}');
define('DB_CHARSET', 'utf8mb4');
define('WP_HTTP_BLOCK_EXTERNAL', true);
define('DISABLE_WP_CRON', true);
define('WP_LANG_DIR', '{languages}');
$table_prefix = 'wp_';
if (!defined('ABSPATH')) {{ define('ABSPATH', __DIR__ . '/'); }}
{more}
require_once ABSPATH . 'wp-settings.php';
"""
# Answers requests as Apache with WordPress's own rules does: files as they are, all else by WordPress.
ROUTER = """<?php
$path = parse_url($_SERVER['REQUEST_URI'], PHP_URL_PATH);
if ($path !== '/' && is_file(__DIR__ . urldecode($path))) { return false; }
$_SERVER['SCRIPT_NAME'] = $_SERVER['PHP_SELF'] = '/index.php';
require __DIR__ . '/index.php';
"""


class NotThere(Exception):
    """What is missing of a whole WordPress."""


def database_server() -> str | None:
    return shutil.which("mariadbd") or shutil.which("mysqld")


def missing(wordpress: Path) -> str | None:
    """What is missing to make a site by WordPress's own code, or None."""
    if not shutil.which("php"):
        return "there is no PHP"
    modules = subprocess.run(["php", "-m"], capture_output=True, text=True, check=False).stdout.lower().split()
    lacking = [it for it in ("mysqli", "gd", "xml") if it not in modules]
    if lacking:
        return f"PHP lacks {', '.join(lacking)}"
    if database_server() is None:
        return "there is no MariaDB"
    return None if (wordpress / "wp-includes" / "version.php").is_file() else f"there is no WordPress at {wordpress}"


class WordPress:
    """A WordPress in a folder, with a database server of its own; both end with the `with` block."""

    def __init__(self, source: Path, folder: Path) -> None:
        self.source, self.folder, self.root = source, folder, folder / "wordpress"
        self.socket = folder / "sql.sock"
        self.server: subprocess.Popen[bytes] | None = None

    def __enter__(self) -> "WordPress":
        left = shutil.ignore_patterns("wp-config.php", ".htaccess", "languages")
        shutil.copytree(self.source, self.root, ignore=left, symlinks=False, ignore_dangling_symlinks=True)
        shutil.copytree(HERE / "whole" / "plain", self.root / "wp-content" / "themes" / "plain")
        for file in (HERE / "whole").glob("*.php"):
            shutil.copy(file, self.root)
        (self.root / "router.php").write_text(ROUTER, encoding="utf-8")
        self.start_database()
        return self

    def __exit__(self, *_: object) -> None:
        if self.server is not None:
            self.server.terminate()
            try:
                self.server.wait(30)
            except subprocess.TimeoutExpired:
                self.server.kill()
                self.server.wait()

    def start_database(self) -> None:
        data = self.folder / "sql"
        as_root = ["--user=root"] if os.getuid() == 0 else []
        made = [
            "mariadb-install-db",
            *as_root,
            f"--datadir={data}",
            "--auth-root-authentication-method=normal",
            "--skip-test-db",
        ]
        subprocess.run(made, check=True, capture_output=True, timeout=SECONDS)
        server = database_server()
        if server is None:
            raise NotThere("there is no MariaDB")
        words = [server, "--no-defaults", *as_root, f"--datadir={data}", f"--socket={self.socket}", "--skip-networking"]
        words += [f"--pid-file={self.folder / 'sql.pid'}", "--innodb-flush-log-at-trx-commit=0"]
        log = (self.folder / "sql.log").open("wb")
        self.server = subprocess.Popen(words, stdout=log, stderr=log)
        try:
            wait_for(self.socket.exists, 30, "MariaDB starts")
        except TimeoutError as fault:
            raise NotThere(str(fault)) from fault

    def configure(self, address: str = "") -> None:
        more = f"define('WP_HOME', '{address}'); define('WP_SITEURL', '{address}');" if address else ""
        languages = self.source / "wp-content" / "languages"
        text = CONFIG.format(name=DATABASE, socket=self.socket, languages=languages, more=more)
        (self.root / "wp-config.php").write_text(text, encoding="utf-8")

    def make(self, profile: str, export: Path) -> None:
        """Makes a site in an empty database, and writes its export."""
        self.configure()
        words = [
            "php",
            "-r",
            f"$it = new mysqli('localhost', 'root', '', '', 0, '{self.socket}');"
            f"$it->query('DROP DATABASE IF EXISTS {DATABASE}'); $it->query('CREATE DATABASE {DATABASE}');",
        ]
        subprocess.run(words, check=True, capture_output=True, timeout=SECONDS)
        shutil.rmtree(self.root / "wp-content" / "uploads", ignore_errors=True)
        self.run("make", profile)
        export.write_text(self.run("export"), encoding="utf-8")

    def run(self, *words: str) -> str:
        ran = subprocess.run(
            ["php", "site.php", *words], cwd=self.root, capture_output=True, timeout=SECONDS, check=False
        )
        if ran.returncode:
            raise NotThere(f"site.php {words[0]} ended with status {ran.returncode}: {ran.stderr.decode()[-500:]}")
        return ran.stdout.decode()

    def shown(self) -> list[dict[str, Any]]:
        """Each published post and page as WordPress shows it."""
        return [json.loads(line) for line in self.run("shown").splitlines()]

    def addresses(self) -> list[str]:
        return list(dict.fromkeys(self.run("addresses").split()))

    def uploads(self) -> Path:
        return self.root / "wp-content" / "uploads"

    def statuses(self, paths: list[str], host: str) -> Iterator[tuple[str, int, str]]:
        """The status of each path, and where it leads if it is moved."""
        port = free_port()
        words = ["php", "-S", f"127.0.0.1:{port}", "router.php"]
        env = {**os.environ, "PHP_CLI_SERVER_WORKERS": "2"}
        with subprocess.Popen(
            words, cwd=self.root, stdout=subprocess.DEVNULL, stderr=subprocess.DEVNULL, env=env, start_new_session=True
        ) as server:
            try:
                wait_for(lambda: listens(port), 30, "PHP listens")
                for path in paths:
                    asked = http.client.HTTPConnection("127.0.0.1", port, timeout=60)
                    asked.request("GET", path, headers={"Host": host})
                    reply = asked.getresponse()
                    reply.read()
                    yield path, reply.status, reply.getheader("Location") or ""
                    asked.close()
            finally:
                # Its workers don't end with it.
                os.killpg(server.pid, signal.SIGTERM)
