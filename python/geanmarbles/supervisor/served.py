"""A site that is served, edited and read through what serves it: a node of a cluster, `geanmarbles browse`, or for
edits alone `geanmarbles serve`.

docs/CLUSTER.md has what a node takes and replies, and web.edit_requests what `geanmarbles browse` takes besides.
"""

import contextlib
import http.client
import secrets
import time
import urllib.error
import urllib.request
from pathlib import Path

from geanmarbles.client.program import check_program
from geanmarbles.supervisor.kept import NotKept, history

# How often a node of a cluster is asked for an edit whose outcome isn't known, how long each time, and how long until
# the next time.
TRIES, SECONDS, PAUSE_SECONDS = 4, 30, 1
# Statuses that don't say whether an edit was made.
UNKNOWN = (502, 503, 504)
# What each page of a node has, and no page of another server.
OF_A_NODE = "X-Site-Revision"
NO_HISTORY = (
    "prints pages, and hands out no edits: `geanmarbles node --export` writes the lines of a cluster's site for a file"
    " as SITE, and `geanmarbles browse --token-file` hands out the edits of the site that it serves"
)


def is_address(site: str) -> bool:
    return site.startswith(("http://", "https://"))


def token_in(file: Path | None) -> str:
    """The token of what serves a site, from the file that has it."""
    if file is None:
        raise NotKept("what serves a site takes edits, and hands them out, with its token alone: --token-file names it")
    return file.read_text(encoding="ascii").strip()


def history_at(address: str, token: str) -> list[bytes]:
    """The edits of a site that `geanmarbles browse` serves, the oldest first: every line that was done, byte for
    byte."""
    head = {"Authorization": f"Bearer {token}"}
    asked = urllib.request.Request(f"{address.rstrip('/')}/history", headers=head)
    try:
        with urllib.request.urlopen(asked, timeout=SECONDS) as response:
            if response.headers.get_content_type() != "text/plain":
                raise NotKept(f"{address} {NO_HISTORY}")
            # (a line may end with a carriage return, which is a part of it)
            body: bytes = response.read()
            return body.split(b"\n")[:-1]
    except urllib.error.HTTPError as error:
        said = error.read().decode(errors="replace").strip()[:200]
        is_page = error.headers.get_content_type() != "text/plain"
        raise NotKept(f"{address} {NO_HISTORY if is_page else f'refuses with {error.code}: {said}'}") from None
    except (urllib.error.URLError, http.client.HTTPException, OSError) as error:
        raise NotKept(f"{address}: {getattr(error, 'reason', error) or type(error).__name__}") from None


def history_of(program: list[str], site: str, token_file: Path | None) -> list[bytes]:
    """The edits of a site in a file that nothing serves, or of one at an address."""
    if is_address(site):
        return history_at(site, token_in(token_file))
    check_program(program)
    return history(program, Path(site))


def keeps_keys(address: str) -> bool:
    """Whether a cluster serves a site. It knows the key of an edit again, also after the end of a node; geanmarbles
    browse forgets it at its end, and the program over HTTP has none."""
    with contextlib.suppress(urllib.error.URLError, http.client.HTTPException, OSError):
        asked = urllib.request.Request(f"{address.rstrip('/')}/", method="HEAD")
        try:
            with urllib.request.urlopen(asked, timeout=SECONDS) as response:
                return OF_A_NODE in response.headers
        except urllib.error.HTTPError as error:
            return OF_A_NODE in error.headers
    return False


def edited(address: str, token: str, line: bytes) -> str:
    """The reply of what serves a site to one edit. It is sent once, but to a cluster, where an edit with a key is made
    once however often it is asked for."""
    head = {"Authorization": f"Bearer {token}", "Idempotency-Key": secrets.token_hex(16)}
    asked = urllib.request.Request(f"{address.rstrip('/')}/command", data=line, headers=head, method="POST")
    said = ""
    for attempt in range(TRIES):
        if attempt:
            time.sleep(PAUSE_SECONDS)
            if not keeps_keys(address):
                continue
        try:
            with urllib.request.urlopen(asked, timeout=SECONDS) as response:
                said = response.read().decode().strip()
                return said
        except urllib.error.HTTPError as error:
            said = f"{error.code}: {error.read().decode(errors='replace').strip()[:200]}"
            if error.code not in UNKNOWN:
                raise NotKept(f"{address} refuses the edit with {said}") from None
        except (urllib.error.URLError, http.client.HTTPException, OSError) as error:
            said = str(getattr(error, "reason", error) or type(error).__name__)
    raise NotKept(f"whether the edit was made isn't known: {address}: {said}")
