"""Folders of packages, in the form of dpbn-formats(5): which packages are in one, and which files these have."""
from __future__ import annotations

import hashlib
import os
import re
import stat
from typing import BinaryIO, Dict, Iterator, List, Optional, Tuple

from dpbn_tools.paths import FILE_NAME, is_path

CHUNK = 1 << 20


class Refused(Exception):
    """What is in the folder can't be packages, and why."""


def opened(path: str) -> BinaryIO:
    """Opens a regular file to be read. Nothing is waited for, whatever has come to be there."""
    number = os.open(path, os.O_RDONLY | os.O_NONBLOCK | os.O_CLOEXEC)
    if not stat.S_ISREG(os.fstat(number).st_mode):
        os.close(number)
        raise Refused(f"{ascii(path)}: it isn't a file")
    return os.fdopen(number, "rb", buffering=0)


def chunks(file: BinaryIO) -> Iterator[bytes]:
    return iter(lambda: file.read(CHUNK), b"")


class File:
    """A file of a package: the name that the build has for it, if it is, its size, and its bytes if they aren't its own."""

    def __init__(self, folder: str, name: str, size: int) -> None:
        self.name, self.place, self.size = name, f"{folder}/{name}", size
        self.bytes: Optional[bytes] = None
        # what it was before it gave way to its digest
        self.full_size = size
        self.digest: Optional[str] = None

    def other_name(self) -> str:
        return self.name + ".sha256"

    def other_text(self, digest: str) -> str:
        return f"SHA256 ({self.name}) = {digest}\nSIZE ({self.name}) = {self.size}\n"

    def gain(self) -> int:
        """How many bytes a record saves if the file gives way to its digest."""
        return in_record(self.name, self.size) - in_record(self.other_name(), len(self.other_text("0" * 64)))

    def give_way(self) -> None:
        """Gives way to a file that has its name, SHA-256 and size."""
        digest, size = hashlib.sha256(), 0
        with opened(self.place) as file:
            for part in chunks(file):
                digest.update(part)
                size += len(part)
        self.check_size(size)
        self.digest = digest.hexdigest()
        self.bytes = self.other_text(self.digest).encode()
        self.name, self.size = self.other_name(), len(self.bytes)

    def contents(self) -> bytes:
        if self.bytes is not None:
            return self.bytes
        with opened(self.place) as file:
            read = b"".join(chunks(file))
        self.check_size(len(read))
        return read

    def check_size(self, size: int) -> None:
        if size != self.size:
            raise Refused(f"{self.place}: it changes while it is read")


Packages = Dict[str, List[File]]


def in_record(name: str, size: int) -> int:
    """How many bytes a record has for a file: its three lines, and its contents."""
    return len(f"{name}\n@sha {'0' * 64}\n@size {size}\n") + size


def entries(folder: str) -> List[os.DirEntry[str]]:
    """What is in the folder, by name. A link is refused."""
    with os.scandir(folder) as found:
        listed = sorted(found, key=lambda entry: os.fsencode(entry.name))
    for entry in listed:
        if entry.is_symlink():
            raise Refused(f"{ascii(entry.path)}: it is a symbolic link")
    return listed


def files_below(folder: str) -> Iterator[Tuple[str, int]]:
    """The names and sizes of the files in the folder and in those below it."""
    left = [("", folder)]
    while left:
        front, place = left.pop()
        below = []
        for entry in entries(place):
            name = front + entry.name
            if entry.is_dir():
                # no file below it can have a name that is short enough
                if len(name) > 253:
                    raise Refused(f"{shortened(entry.path)}: no record takes a file of this name")
                below.append((name + "/", entry.path))
            elif not entry.is_file():
                raise Refused(f"{ascii(entry.path)}: it isn't a file")
            elif not FILE_NAME.fullmatch(os.fsencode(name)) or name.startswith("@"):
                raise Refused(f"{shortened(entry.path)}: no record takes a file of this name")
            else:
                yield name, entry.stat().st_size
        left += reversed(below)


def shortened(path: str) -> str:
    """A path that is fit for a line."""
    return ascii(path if len(path) <= 400 else f"{path[:200]}..{path[-100:]}")


def packages_in(folder: str) -> Packages:
    """The files of each package in the folder, by its path. Entries that aren't folders are left out."""
    packages = {}
    for entry in entries(folder):
        if entry.is_dir():
            path = entry.name.replace(":", "/")
            if not is_path(os.fsencode(path)):
                raise Refused(f"{ascii(entry.path)}: its name isn't a package path, with : for each /, flavors in order")
            packages[path] = sorted((File(entry.path, name, size) for name, size in files_below(entry.path)), key=lambda file: file.name)
    return packages


def may_give_way(files: List[File]) -> List[File]:
    """The files of a package that have room for their other name, and that get shorter."""
    taken = {file.name for file in files}
    taken |= {file.name[:slash.start()] for file in files for slash in re.finditer("/", file.name)}
    return [file for file in files if file.other_name() not in taken and len(file.other_name()) <= 255 and file.gain() > 0]
