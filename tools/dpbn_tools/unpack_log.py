"""Writes out the packages that the node of a log holds: unpack-log(1)."""
from __future__ import annotations

import argparse
import heapq
import os
import re
import shutil
import signal
import sys
from typing import Dict, List, NamedTuple, Optional, Set, Tuple

from dpbn_tools.log import HELD, WHOLE_RECORD, BadLog, LogFile, PackedFile, Record, digest_of, read_header
from dpbn_tools.paths import folder_name
from dpbn_tools.scratch import SIGNALS, Scratch
from dpbn_tools.version import add_version

LIST, PATHS = b"list", b"held"


class Refused(Exception):
    """Why the packages can't be laid out as it was asked."""


class OneNote(LogFile):
    """A log of which the note that was read last stays in memory, so that what is written is what was hashed."""

    def __init__(self, path: str) -> None:
        super().__init__(path)
        self.start, self.kept = 0, b""

    def read(self, place: int, size: int) -> bytes:
        if not self.start <= place <= place + size <= self.start + len(self.kept):
            self.start, self.kept = place, super().read(place, size)
        return self.kept[place - self.start:place - self.start + size]


class Package(NamedTuple):
    """What the list says of a package."""

    path: bytes
    signature: bytes
    built: Tuple[bytes, ...]


class Places:
    """The place of each file of a package: in a folder of the package, or all into one."""

    def __init__(self, folder: str, is_flat: bool) -> None:
        self.folder, self.is_flat = folder, is_flat
        # in one folder: whose each file is, and whose files are in a folder below it
        self.files: Dict[bytes, str] = {LIST: "unpack-log itself", PATHS: "unpack-log itself"}
        self.folders: Dict[bytes, str] = {}

    def begin(self, record: Record) -> None:
        if not self.is_flat:
            os.mkdir(f"{self.folder}/{folder_name(record.path)}")
            return
        for name in self.names(record):
            self.take(name, record.path.decode())

    def names(self, record: Record) -> List[bytes]:
        """The names that a package has in a folder of all packages."""
        if record.inner:
            return [self.whole_name(record)]
        return [file.name for file in record.files] + [large.name for large in record.large]

    @staticmethod
    def whole_name(record: Record) -> bytes:
        return WHOLE_RECORD + b"." + folder_name(record.path).encode()

    def take(self, name: bytes, path: str) -> None:
        """Takes a name for a package. It may be no other package's, and none of its folders may be another's file."""
        above = [name[:slash.start()] for slash in re.finditer(b"/", name)]
        other = self.files.get(name) or self.folders.get(name) or next((self.files[it] for it in above if it in self.files), None)
        if other:
            raise Refused(f"{other} and {path} both have a file {name.decode()}: they can't be in one folder")
        self.files[name] = path
        self.folders.update(dict.fromkeys(above, path))

    def of(self, record: Record, name: bytes) -> str:
        if self.is_flat:
            return f"{self.folder}/{(self.whole_name(record) if name == WHOLE_RECORD else name).decode()}"
        return f"{self.folder}/{folder_name(record.path)}/{name.decode()}"


class Store:
    """The folder of the files that went by their digests."""

    def __init__(self, folder: str, is_linked: bool) -> None:
        self.folder, self.is_linked = folder, is_linked

    def lay(self, digest: str, target: str) -> bool:
        """Puts a file there, and answers whether the store has it."""
        source = os.path.realpath(f"{self.folder}/{digest}")
        if not os.path.isfile(source):
            return False
        if self.is_linked and digest_of(source) == digest and is_linked(source, target):
            return True
        shutil.copyfile(source, target)
        if digest_of(target) == digest:
            return True
        os.unlink(target)
        return False


def is_linked(source: str, target: str) -> bool:
    """Makes a second name for a file, and answers whether that could be done: not on another file system."""
    try:
        os.link(source, target)
    except OSError:
        return False
    return True


class Unpacked:
    """What was unpacked so far, of which nothing but the lines of the list stays in memory."""

    def __init__(self, log: LogFile, places: Places, store: Optional[Store]) -> None:
        self.log, self.places, self.store = log, places, store
        self.units: Dict[bytes, List[Package]] = {}
        self.paths: Set[bytes] = set()
        self.lines: List[str] = []
        # each signature once, of however many packages it is one that they were built on
        self.signatures: Dict[bytes, bytes] = {}

    def take(self, unit: bytes, records: List[Record]) -> None:
        """Writes the packages of a unit. Of several notes that hold it the first counts."""
        if unit in self.units:
            return
        for record in records:
            if record.path in self.paths:
                raise BadLog(self.log.at, "two units have one path")
            self.paths.add(record.path)
            self.write(record)
        self.units[unit] = [self.package(record) for record in records]

    def package(self, record: Record) -> Package:
        built = tuple(self.signatures.setdefault(line, line) for line in record.built)
        return Package(record.path, self.signatures.setdefault(record.signature(), record.signature()), built)

    def write(self, record: Record) -> None:
        """Writes the package's files, or its record if they can't all be in one folder."""
        self.places.begin(record)
        for file in [record.whole] if record.inner else record.files:
            self.write_file(record, file)
        if record.inner:
            self.lines.append(f"{record.path.decode()} has only its record, as @record: the folder of {record.inner.decode()} is a file")
        for large in record.large if self.store else []:
            self.make_whole(record, large.name, large.digest)

    def write_file(self, record: Record, file: PackedFile) -> None:
        target = self.places.of(record, file.name)
        os.makedirs(os.path.dirname(target), exist_ok=True)
        with open(target, "xb") as out:
            out.write(self.log.read_file(file))

    def make_whole(self, record: Record, name: bytes, digest: str) -> None:
        """Puts a file that went by its digest in place of what replaces it, if the store has it."""
        assert self.store
        target = self.places.of(record, name)
        if self.store.lay(digest, target):
            os.unlink(target + ".sha256")
        else:
            self.lines.append(f"{record.path.decode()} lacks {name.decode()}: {self.store.folder} has no file {digest}")


def in_order(units: List[List[Package]]) -> Tuple[List[List[Package]], List[Tuple[bytes, bytes]]]:
    """The units, each after all that it was built on and otherwise in the order of before; and which path was built on a package
    that isn't held."""
    place_of = {package.signature: place for place, packages in enumerate(units) for package in packages}
    waits = [len(packages[0].built) for packages in units]
    needed_by: List[List[int]] = [[] for _ in units]
    lacks = []
    for place, packages in enumerate(units):
        for line in packages[0].built:
            if line in place_of:
                needed_by[place_of[line]].append(place)
            else:
                lacks.append((packages[0].path, line))
    ready, ordered = [place for place, count in enumerate(waits) if count == 0], []
    while ready:
        place = heapq.heappop(ready)
        ordered.append(units[place])
        for other in needed_by[place]:
            waits[other] -= 1
            if waits[other] == 0:
                heapq.heappush(ready, other)
    return ordered, lacks


def unpack(log: LogFile, folder: str, store: Optional[Store], is_flat: bool) -> List[str]:
    """Writes all of it into the folder, note by note. Returns lines on what is unlike elsewhere."""
    read_header(log.read(0, 64))
    unpacked = Unpacked(log, Places(folder, is_flat), store)
    for note in log.notes():
        if note.kind == HELD:
            unpacked.take(note.unit, note.records)
    units = list(unpacked.units.values())
    ordered, lacks = in_order(units)
    with open(f"{folder}/{LIST.decode()}", "xb") as out:
        for packages in ordered:
            for package in packages:
                out.write(b"package " + package.signature + b"\n" + b"".join(b"built " + line + b"\n" for line in package.built))
    with open(f"{folder}/{PATHS.decode()}", "xb") as out:
        out.writelines(package.path + b"\n" for packages in units for package in packages)
    return unpacked.lines + lines_on(units, ordered, lacks)


def lines_on(units: List[List[Package]], ordered: List[List[Package]], lacks: List[Tuple[bytes, bytes]]) -> List[str]:
    """What there is to say of the list, in which some packages may not be."""
    lines = [f"{path.decode()} was built on {line.decode()}, which this node doesn't hold" for path, line in lacks]
    listed = {package.path for packages in ordered for package in packages}
    left_out = [package.path.decode() for packages in units for package in packages if package.path not in listed]
    return lines + [f"not in the list: {', '.join(left_out)}"] if left_out else lines


def end_cleanly() -> None:
    """A signal ends the program as an error does, so that what was made is removed. One that the caller ignores is ignored."""
    def ended(number: int, _: object) -> None:
        for other in SIGNALS:
            signal.signal(other, signal.SIG_IGN)
        sys.exit(128 + number)

    for number in SIGNALS:
        if signal.getsignal(number) != signal.SIG_IGN:
            signal.signal(number, ended)


def options() -> argparse.Namespace:
    words = argparse.ArgumentParser(prog="unpack-log", description="Writes out the packages that the node of a log holds.",
                                    allow_abbrev=False)
    add_version(words)
    words.add_argument("--store", metavar="STORE", help="has the files that went as name, size and SHA-256, each named by that")
    words.add_argument("--link", action="store_true", help="such files get a second name in place of a copy, if the file system allows it")
    words.add_argument("--flat", action="store_true", help="all files are put into DIR itself, as in a folder of packages for pkg_add(1)")
    words.add_argument("log", metavar="LOG", help="the log of a node")
    words.add_argument("folder", metavar="DIR", help="what is made: a folder for each package, list and held")
    asked = words.parse_args()
    if asked.link and not asked.store:
        words.error("--link needs --store")
    return asked


def run(asked: argparse.Namespace) -> List[str]:
    store = Store(asked.store, asked.link) if asked.store else None
    with OneNote(asked.log) as log:
        # no signal comes between the folder and who removes it
        signal.pthread_sigmask(signal.SIG_BLOCK, SIGNALS)
        with Scratch(asked.folder, "unpack-log") as made:
            signal.pthread_sigmask(signal.SIG_UNBLOCK, SIGNALS)
            lines = unpack(log, made.path, store, asked.flat)
            made.put()
    return lines


def main() -> None:
    asked = options()
    if os.path.lexists(asked.folder):
        sys.exit(f"unpack-log: {asked.folder} exists already")
    end_cleanly()
    try:
        lines = run(asked)
    except (BadLog, Refused) as bad:
        sys.exit(f"unpack-log: {asked.log}: {bad}")
    except MemoryError:
        sys.exit(f"unpack-log: {asked.log}: there is no memory for it")
    except OSError as error:
        sys.exit(f"unpack-log: {error}")
    for line in lines:
        print(f"unpack-log: {line}", file=sys.stderr)
