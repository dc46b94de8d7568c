"""The files of an archive: written only if they changed, and removed once nothing writes them any more.

An archive's folder has `public`, which a web server serves, and beside it `written.txt`, the list of what was written
there.
"""

import contextlib
import io
import os
import re
import shutil
import tarfile
import tempfile
import zipfile
from collections.abc import Container, Iterable, Iterator
from pathlib import Path, PurePosixPath
from typing import IO

from geanmarbles.disk_tables import Disk, DiskDict, DiskSet
from geanmarbles.wordpress.addresses import UPLOADS, path_or_none
from geanmarbles.wordpress.export import Refused


PUBLIC, WRITTEN = "public", "written.txt"
# What an uploads folder may have that no web server should hand out, or run.
UNSERVED = re.compile(r"\.(?:php\d?|phtml|phar|cgi|pl|py|sh|asp|jsp|sql|log|bak|htaccess|ini|env)\Z|(?:^|/)\.", re.I)
# What WordPress adds to the name of a picture that it has made smaller, turned or edited.
SIZE = re.compile(r"(?:-\d+x\d+|-scaled|-rotated|-e\d{10,})*(\.[^./]*)\Z")
COPY_BYTES = 1 << 16
# A character that comes before those of names: paths that have it between their names are in the order of these.
BETWEEN = "\x01"
# How many paths a report names.
NAMED = 5
# How an archive that is damaged or encrypted, or of an unknown form, is refused by Python's modules.
BROKEN: tuple[type[Exception], ...] = (zipfile.BadZipFile, tarfile.TarError, EOFError, RuntimeError)
# (not every Python has these; without them no archive of theirs is read)
with contextlib.suppress(ImportError):
    import lzma
    import zlib

    BROKEN += (lzma.LZMAError, zlib.error)


class Noted:
    """Some paths in words: the first ones, and how many more there are."""

    def __init__(self, paths: Iterable[str] = ()) -> None:
        self.first: list[str] = []
        self.count = 0
        for it in paths:
            self.add(it)

    def add(self, path: str) -> None:
        self.count += 1
        if self.count <= NAMED:
            self.first.append(path)

    def __len__(self) -> int:
        return self.count

    def __str__(self) -> str:
        more = f" and {self.count - NAMED:,} more" if self.count > NAMED else ""
        return ", ".join(self.first) + more


class Copies:
    """A folder into which files are copied: how many were written there, and how many were as they should be."""

    def __init__(self, root: Path) -> None:
        self.root = root
        self.written = self.unchanged = 0

    def keep(self, name: str) -> None:
        """Notes a file that is there and belongs to the folder."""


class Files(Copies):
    """The folder `public` of an archive, and which of its files this run has written or found as they should be."""

    def __init__(self, folder: Path, disk: Disk) -> None:
        super().__init__(folder / PUBLIC)
        self.folder, self.disk = folder, disk
        self.current: DiskSet[str] = DiskSet(disk)
        # The files that were written last, until somebody takes these names, and how many writes were refused.
        self.names: list[str] = []
        self.refusals = 0
        # Paths that couldn't be written, and why.
        self.refused: DiskDict[str, str] = DiskDict(disk)
        self.removed = 0
        self.root.mkdir(parents=True, exist_ok=True)
        self.before: DiskSet[str] = DiskSet(disk, self.read_list())

    def read_list(self) -> Iterator[str]:
        """The files that an earlier run has written."""
        with contextlib.suppress(FileNotFoundError), (self.folder / WRITTEN).open(encoding="utf-8") as listed:
            for line in listed:
                for it in line.splitlines():
                    path = "/" + it.removesuffix(".htaccess")
                    if path_or_none(path) == path:
                        yield it

    def name_of(self, path: str, index: str, is_folder: bool) -> str:
        """The file for a path: a folder's index, unless the path itself has an ending and nothing is below it."""
        name = path.strip("/")
        has_ending = not is_folder and not path.endswith("/") and re.search(r"\.[A-Za-z0-9]{1,5}\Z", name)
        return name if has_ending else f"{name}/{index}".lstrip("/")

    def write(
        self, path: str, text: str | bytes | Iterable[str], index: str = "index.html", is_folder: bool = False
    ) -> bool:
        """Writes the file of a path, whole or of pieces, and returns whether it could be: nothing is written twice in
        one run."""
        if path_or_none(path) is None:
            return self.refuse(path, "no file can have this name")
        name = self.name_of(path, index, is_folder)
        if name in self.current:
            return self.refuse(path, "another page has this address")
        file = self.root / name
        with made_of(text) as data:
            try:
                size = data.seek(0, io.SEEK_END)
                data.seek(0)
                is_there = not file.is_symlink() and file.is_file() and file.stat().st_size == size
                if is_there and same_bytes(file, data):
                    self.unchanged += 1
                else:
                    self.put(file, data)
                    self.written += 1
            except (NotADirectoryError, IsADirectoryError, FileExistsError):
                return self.refuse(path, "its file would be a folder of another page, or the other way around")
        self.names.append(name)
        self.current.add(name)
        return True

    def refuse(self, path: str, reason: str) -> bool:
        self.refused[path] = reason
        self.refusals += 1
        return False

    def hold(self, names: Iterable[str]) -> None:
        """Notes files that are there as they should be."""
        for it in names:
            self.current.add(it)
            self.unchanged += 1

    @staticmethod
    def put(file: Path, data: IO[bytes]) -> None:
        """Puts a file in place at once, so that a server never sees half of it."""
        file.parent.mkdir(parents=True, exist_ok=True)
        if file.is_dir():
            raise IsADirectoryError(file)
        new = file.with_name(f".new-{os.getpid()}")
        data.seek(0)
        with new.open("wb") as to:
            shutil.copyfileobj(data, to, COPY_BYTES)
        os.replace(new, file)

    def keep(self, name: str) -> None:
        """Notes a file that is there and belongs to the archive."""
        self.current.add(name)

    def end(self) -> None:
        """Removes what an earlier run has written and this one hasn't, and writes the list."""
        for name in self.before.without(self.current):
            file = self.root / name
            if file.is_file() and not file.is_symlink():
                file.unlink()
                self.removed += 1
            for above in PurePosixPath(name).parents:
                try:
                    (self.root / above).rmdir()
                except OSError:
                    break
        with (self.folder / WRITTEN).open("w", encoding="utf-8") as listed:
            listed.writelines(f"{it}\n" for it in self.current)


def names_below(folder: str, above: str = "") -> Iterator[str]:
    """The paths of the files below a folder, from there, with a character of its own between names."""
    with contextlib.suppress(PermissionError), os.scandir(folder) as entries:
        for it in entries:
            if BETWEEN in it.name:
                continue
            if it.is_dir(follow_symlinks=False):
                yield from names_below(it.path, above + it.name + BETWEEN)
            elif it.is_file(follow_symlinks=False) or os.path.isfile(it.path):
                yield above + it.name


def files_below(folder: Path, disk: Disk) -> Iterator[str]:
    """The paths of the files below a folder, from there, in the order of their names, without all of them in memory."""
    # (a name that isn't UTF-8 is no text in a database)
    found: DiskSet[bytes] = DiskSet(disk, map(os.fsencode, names_below(str(folder))))
    return (os.fsdecode(it).replace(BETWEEN, "/") for it in found)


class Uploads:
    """Where the files below wp-content/uploads come from: a folder or an archive of it."""

    def __init__(self, source: Path, disk: Disk) -> None:
        self.source = source
        self.zip: zipfile.ZipFile | None = None
        self.tar: tarfile.TarFile | None = None
        # The names that the source has, by the path below the uploads folder.
        self.names: DiskDict[str, str] = DiskDict(disk)
        # The names of a file's sizes, by the name without a size.
        self.stems: DiskDict[str, list[str]] = DiskDict(disk)
        if source.is_dir():
            self.take((it, str(source / it)) for it in files_below(source, disk))
        elif zipfile.is_zipfile(source):
            self.zip = zipfile.ZipFile(source)
            self.take((it.filename, it.filename) for it in self.zip.infolist() if not it.is_dir())
        else:
            try:
                self.tar = tarfile.open(source)
            except BROKEN:
                raise Refused(f"{source}: this is no folder, and no zip or tar archive") from None
            self.take((it.name.removeprefix("./"), it.name) for it in self.tar.getmembers() if it.isfile())

    def take(self, names: Iterable[tuple[str, str]]) -> None:
        """Takes the names of the source, each with what it is opened by."""
        for name, to_open in names:
            name = below_uploads(name)
            # (what can't be a file of an archive is in no page)
            if path_or_none(f"/{name}") is None:
                continue
            if name not in self.names:
                stem = SIZE.sub(r"\1", name)
                self.stems[stem] = [*self.stems.get(stem, []), name]
            self.names[name] = to_open

    def open(self, name: str) -> IO[bytes]:
        """A file of the source, to be read."""
        if self.zip is not None:
            return self.zip.open(self.names[name])
        if self.tar is None:
            return open(self.names[name], "rb")
        found = self.tar.extractfile(self.names[name])
        if found is None:
            raise FileNotFoundError(name)
        return found

    def copy(self, name: str, files: Copies, path: str) -> bool:
        """Copies a file of the source to a path of the archive, if it isn't there already."""
        if name not in self.names or UNSERVED.search(name) or path_or_none(path) is None:
            return False
        to = files.root / path.strip("/")
        with self.open(name) as source:
            if to.is_file() and same_bytes(to, source):
                files.unchanged += 1
                files.keep(path.strip("/"))
                return True
        to.parent.mkdir(parents=True, exist_ok=True)
        new = to.with_name(f".new-{os.getpid()}")
        try:
            with self.open(name) as source, new.open("wb") as file:
                shutil.copyfileobj(source, file, COPY_BYTES)
            os.replace(new, to)
        finally:
            new.unlink(missing_ok=True)
        files.written += 1
        files.keep(path.strip("/"))
        return True

    def sizes_of(self, name: str) -> list[str]:
        """A file's name and those of its smaller sizes, as WordPress names them."""
        return self.stems.get(SIZE.sub(r"\1", name), [])

    def close(self) -> None:
        for it in (self.zip, self.tar):
            if it is not None:
                it.close()


def copy_uploads(source: Path, files: Copies, paths: Iterable[str], whole: Container[str] = ()) -> Iterator[str]:
    """Copies the uploads at some paths from a folder or an archive, those among `whole` with all their sizes, and
    yields the paths of those that aren't there."""
    uploads = Uploads(source, Disk())
    try:
        for path in paths:
            before, _, name = path.partition(UPLOADS)
            names = [name, *(it for it in uploads.sizes_of(name) if path in whole and it != name)]
            copied = [uploads.copy(it, files, f"{before}{UPLOADS}{it}") for it in names]
            if not copied[0]:
                yield path
    except BROKEN as fault:
        raise Refused(f"{source}: {path}: this can't be read: {fault}") from fault
    finally:
        uploads.close()


def made_of(text: str | bytes | Iterable[str]) -> IO[bytes]:
    """A text as a file to be read: one of pieces, which can be long, isn't in memory."""
    if isinstance(text, (str, bytes)):
        return io.BytesIO(text if isinstance(text, bytes) else text.encode())
    data = tempfile.TemporaryFile()
    data.writelines(it.encode() for it in text)
    return data


def below_uploads(name: str) -> str:
    """A file's path below the uploads folder, whichever folder above it the source begins with."""
    name = name.lstrip("/")
    for before in (UPLOADS, "uploads/"):
        at = ("/" + name).rfind("/" + before)
        if at >= 0:
            return name[at + len(before) :]
    return name


def same_bytes(file: Path, source: IO[bytes]) -> bool:
    with file.open("rb") as other:
        while True:
            one, two = source.read(COPY_BYTES), other.read(COPY_BYTES)
            if one != two:
                return False
            if not one:
                return True
