"""An etcd that asks for certificates, and for a user and a password."""

import argparse
import shutil
import ssl
import subprocess
import tempfile
import time
from collections.abc import Sequence
from pathlib import Path

from geanmarbles.checks.cluster.clients import Load, Record, joined, line_of
from geanmarbles.checks.cluster.etcd import Members
from geanmarbles.checks.cluster.judged import judge_at_rest
from geanmarbles.checks.cluster.nodes import Cluster
from geanmarbles.checks.cluster.processes import wait_for
from geanmarbles.checks.judging import Cases, Skipped, must

# The user of the nodes, who may read and write the keys of one site; and etcd's own, who may do all.
USER, PASSWORD, ROOT = "nodes", "a password of the test's own", "root:another password"
NEW_KEY = ("-newkey", "ec", "-pkeyopt", "ec_paramgen_curve:prime256v1", "-nodes", "-days", "2")
USES = "subjectAltName=IP:127.0.0.1\nextendedKeyUsage=serverAuth,clientAuth\n"
SECONDS = 20


class Certificates:
    """An authority, and a certificate of it that members and nodes show each other."""

    def __init__(self, folder: str | Path, name: str) -> None:
        self.authority, self.certificate, self.key = (Path(folder, f"{name}{it}") for it in (".ca", ".crt", ".key"))
        request, authority_key, uses = (Path(folder, f"{name}{it}") for it in (".csr", ".ca-key", ".ext"))
        uses.write_text(USES, encoding="utf-8")
        self.run("req", "-x509", *NEW_KEY, "-keyout", authority_key, "-out", self.authority, "-subj", f"/CN={name}")
        self.run("req", *NEW_KEY, "-keyout", self.key, "-out", request, "-subj", "/CN=")
        by: tuple[str | Path, ...] = (
            "-CA",
            self.authority,
            "-CAkey",
            authority_key,
            "-CAcreateserial",
            "-days",
            "2",
            "-extfile",
            uses,
        )
        self.run("x509", "-req", "-in", request, "-out", self.certificate, *by)

    @staticmethod
    def run(*words: str | Path) -> None:
        subprocess.run(["openssl", *map(str, words)], capture_output=True, check=True, timeout=60)

    def of_members(self) -> Sequence[str]:
        words = ("--trusted-ca-file", self.authority, "--cert-file", self.certificate, "--key-file", self.key)
        return (*map(str, words), "--client-cert-auth")

    def of_clients(self, before: str, authority: Path | None = None) -> list[str]:
        """The options of etcd's own client, or of nodes, whose names begin otherwise."""
        names = ("cacert", "cert", "key") if before == "--" else ("ca", "cert", "key")
        files = (authority or self.authority, self.certificate, self.key)
        return [it for name, file in zip(names, files) for it in (f"{before}{name}", str(file))]

    def context(self) -> ssl.SSLContext:
        context = ssl.create_default_context(cafile=str(self.authority))
        context.load_cert_chain(self.certificate, self.key)
        return context


def add_users(members: Members) -> None:
    """Adds the users, and has etcd ask for one from then on."""
    at = ("--endpoints", members.urls[0])
    name, password = ROOT.split(":")
    members.ctl("user", "add", ROOT, *at)
    members.ctl("user", "grant-role", name, "root", *at)
    members.ctl("role", "add", "site", *at)
    members.ctl("role", "grant-permission", "site", "readwrite", "--prefix", "site/", *at)
    members.ctl("user", "add", f"{USER}:{PASSWORD}", *at)
    members.ctl("user", "grant-role", USER, "site", *at)
    members.ctl("auth", "enable", *at)
    members.store.token = members.store.call("/v3/auth/authenticate", name=name, password=password)["token"]


class Secured:
    """A cluster whose etcd asks for certificates and a user."""

    def __init__(self, cluster: Cluster, tls: Certificates, other: Certificates, password: Path, seed: object) -> None:
        self.cluster, self.tls, self.other, self.password, self.seed = cluster, tls, other, password, seed
        self.record = Record()

    def serves(self) -> None:
        """nodes with a certificate, a user and a password serve and take edits"""
        with Load(self.cluster.nodes, self.record, f"{self.seed}.secured", 5):
            time.sleep(3)
        judge_at_rest(self.cluster, self.record)

    def makes_snapshots(self) -> None:
        """such a node makes a snapshot, and another starts from it"""
        store, nodes = self.cluster.members.store, list(self.cluster.nodes)
        history = store.edits("site")
        must(history, "there are no edits")
        for name, options in (("maker", ("--snapshot-every", "20")), ("late", ())):
            nodes.append(self.cluster.new_node(name, (*self.cluster.options, *options)))
            nodes[-1].start()
            wait_for(lambda: not store.edits("site"), SECONDS, "a snapshot takes the place of the edits")
        judge_at_rest(self.cluster, self.record, lambda: history, nodes)

    def refused(self, options: Sequence[str], *reasons: str) -> None:
        """A node that etcd doesn't let in names the reason, and gives no page."""
        node = self.cluster.new_node("stranger", options)
        node.start()
        try:
            node.wait_for_reason(*reasons, seconds=SECONDS)
            for answer in (node.get("/"), node.post(joined([line_of(cmd="put", title="t", n="stranger")]))):
                must(answer.status == 503 and answer.body, f"it answered {answer.shown()}")
        finally:
            node.process.end()

    def user(self, password: Path | None = None, name: str = USER) -> tuple[str, ...]:
        return ("--etcd-user", name, "--etcd-password-file", str(password or self.password))

    def knows_no_authority(self) -> None:
        """a node that doesn't trust etcd's authority"""
        self.refused((*self.tls.of_clients("--etcd-", self.other.authority), *self.user()), "etcd-unreachable")

    def has_no_certificate(self) -> None:
        """a node without a certificate"""
        self.refused(("--etcd-ca", str(self.tls.authority), *self.user()), "etcd-unreachable")

    def has_another_certificate(self) -> None:
        """a node whose certificate is of another authority"""
        self.refused((*self.other.of_clients("--etcd-", self.tls.authority), *self.user()), "etcd-unreachable")

    def has_no_user(self) -> None:
        """a node without a user"""
        self.refused(self.tls.of_clients("--etcd-"), "etcd-refuses")

    def has_another_password(self) -> None:
        """a node with a wrong password"""
        wrong = self.cluster.folder / "wrong"
        wrong.write_text("wrong\n", encoding="utf-8")
        self.refused((*self.tls.of_clients("--etcd-"), *self.user(wrong)), "etcd-refuses")

    def is_of_another_site(self) -> None:
        """a node of a site whose keys its user may not read"""
        self.refused((*self.tls.of_clients("--etcd-"), *self.user(), "--name", "other"), "etcd-refuses")


def cases(arguments: argparse.Namespace) -> Cases:
    if not shutil.which("openssl"):
        yield "certificates", skips
        return
    with tempfile.TemporaryDirectory() as folder:
        tls, other, password = Certificates(folder, "one"), Certificates(folder, "other"), Path(folder, "password")
        password.write_text(PASSWORD + "\n", encoding="utf-8")
        options = (*tls.of_clients("--etcd-"), "--etcd-user", USER, "--etcd-password-file", str(password))
        with Cluster(arguments.program, options=options, tls=tls, prepare=add_users) as cluster:
            secured = Secured(cluster, tls, other, password, arguments.seed)
            for judged in (
                secured.serves,
                secured.knows_no_authority,
                secured.has_no_certificate,
                secured.has_another_certificate,
                secured.has_no_user,
                secured.has_another_password,
                secured.is_of_another_site,
                secured.makes_snapshots,
            ):
                yield judged.__doc__, judged


def skips() -> None:
    raise Skipped("there is no `openssl` here")
