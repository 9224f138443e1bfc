"""Reads the logs of nodes, by the page dpbn-formats(5) and with code of its own: it shares none with the nodes, nor with the driver.

A log that was read has what the node holds, by unit; what it voted for; and what is wrong with the log itself."""
from __future__ import annotations

import hashlib
import os
from typing import BinaryIO, Dict, Iterator, List, NamedTuple, Optional, Tuple

OPENED, PROMISED, VOTED, HELD = 1, 2, 3, 4
Claim = Tuple[int, int]
# a file of a package whose bytes are kept has at most this many
SMALL = 4096


class Malformed(Exception):
    """What a log has that no log may have, and where."""


class Package(NamedTuple):
    """A package as its record describes it."""

    path: str
    name: str
    digest: str
    host: int
    claim: str
    # the signatures of what it was built on, and the paths that it needs to run
    built: Tuple[str, ...]
    run: Tuple[str, ...]
    # the bytes of its small files by name
    files: Dict[str, bytes]

    def signature(self) -> str:
        return f"{self.path} {self.name} {self.digest}"


class Build(NamedTuple):
    """A build that is held: the digest of its whole text, and its packages."""

    digest: str
    packages: List[Package]


class Log:
    """What a log says. Builds that were read in other logs are `known` by the digest of their text, and aren't read again."""

    def __init__(self, path: str, known: Optional[Dict[str, Build]] = None) -> None:
        self.path, self.size = path, os.path.getsize(path)
        self.known: Dict[str, Build] = {} if known is None else known
        self.members = self.own = 0
        self.weights: Tuple[int, ...] = ()
        self.held: Dict[str, Build] = {}
        self.votes: Dict[str, Dict[Claim, str]] = {}
        self.promised: Dict[str, Claim] = {}
        self.notes = {OPENED: 0, PROMISED: 0, VOTED: 0, HELD: 0}
        # how many bytes the texts of builds have that are held
        self.texts = 0
        self.problems: List[str] = []
        # the last text that was voted for and its digest, since votes are often repeated
        self.last = (b"", "")
        with open(path, "rb") as file:
            for kind, unit, rest in notes_of(file, self.read_header(file)):
                self.take(kind, unit, rest)

    def read_header(self, file: BinaryIO) -> int:
        """Reads whose log it is, and returns the place of the first note's gate."""
        head = file.read(43)
        magic = head[1:9]
        if head[:1] != b"\1" or magic not in (b"DPBLOG01", b"DPBLOG02"):
            raise Malformed(f"{self.path} has no header")
        self.members, self.own = head[41], head[42]
        self.weights = tuple(file.read(self.members)) if magic == b"DPBLOG02" else (1,) * self.members
        return file.tell()

    def take(self, kind: int, unit: str, rest: bytes) -> None:
        """Takes a note. After a promise of a claim there is no promise or vote for a lesser one, and what is held never changes."""
        self.notes[kind] += 1
        if kind in (PROMISED, VOTED):
            claim = int.from_bytes(rest[:8], "big"), rest[8]
            if claim < self.promised.get(unit, claim):
                self.problems.append(f"{self.path}: {unit}: {claim} after a promise of {self.promised[unit]}")
            self.promised[unit] = claim
            if kind == VOTED:
                digest = self.digest_of(text_in(rest[9:]))
                if self.votes.setdefault(unit, {}).setdefault(claim, digest) != digest:
                    self.problems.append(f"{self.path}: {unit}: two votes under {claim}")
        elif kind == HELD:
            text = text_in(rest)
            build = self.build_of(text)
            if self.held.setdefault(unit, build).digest != build.digest:
                self.problems.append(f"{self.path}: {unit} is held twice, with two builds")
            self.texts += len(text)

    def build_of(self, text: bytes) -> Build:
        digest = hashlib.sha256(text).hexdigest()
        if digest not in self.known:
            self.known[digest] = Build(digest, packages_of(text))
        return self.known[digest]

    def digest_of(self, text: bytes) -> str:
        if text != self.last[0]:
            self.last = text, hashlib.sha256(text).hexdigest()
        return self.last[1]


def notes_of(file: BinaryIO, place: int) -> Iterator[Tuple[int, str, bytes]]:
    """The notes from a gate on, up to the first closed one: the kind, the unit, and what follows."""
    while True:
        file.seek(place)
        head = file.read(5)
        if head[:1] != b"\1":
            if not head:
                raise Malformed(f"{file.name} ends without a gate at {place}")
            return
        length = int.from_bytes(head[1:5], "big")
        note = file.read(length)
        if len(note) < length or length < 4 or note[0] not in (OPENED, PROMISED, VOTED, HELD):
            raise Malformed(f"{file.name} has a bad note at {place}")
        size = int.from_bytes(note[1:3], "big")
        yield note[0], note[3:3 + size].decode(), note[3 + size:]
        place += 5 + length


def text_in(rest: bytes) -> bytes:
    """The text of a build after its length."""
    if int.from_bytes(rest[:4], "big") != len(rest) - 4:
        raise Malformed("a build hasn't its length")
    return rest[4:]


def packages_of(text: bytes) -> List[Package]:
    """The packages of a build's text."""
    place = 0
    if text.startswith(b"@dpb 2\n"):
        place = text.index(b"\n", len(b"@dpb 2\n")) + 1
    found = []
    while place < len(text):
        package, place = package_at(text, place)
        found.append(package)
    return found


def package_at(text: bytes, start: int) -> Tuple[Package, int]:
    """The package whose record begins there, and the place after it."""
    end = text.index(b"\n\n", start) + 2
    lines = text[start:end - 2].decode().split("\n")
    fields: Dict[str, List[str]] = {}
    heads = []
    for number, line in enumerate(lines):
        if not line.startswith("@"):
            heads.append((line, int(lines[number + 2].partition(" ")[2])))
        else:
            word, _, value = line.partition(" ")
            fields.setdefault(word, []).append(value)
    files: Dict[str, bytes] = {}
    for name, size in heads:
        if size <= SMALL:
            files[name] = text[end:end + size]
        end += size
    path = fields["@comment"][0].partition("=")[2]
    package = Package(path, fields["@name"][0], hashlib.sha256(text[start:end]).hexdigest(), int(fields["@host"][0]), fields["@claim"][0],
                      tuple(fields.get("@built", ())), tuple(fields.get("@run", ())), files)
    return package, end


class Follower:
    """Reads which units a log holds, as far as it has grown."""

    def __init__(self, path: str) -> None:
        self.path = path
        self.at: Optional[int] = None
        self.held: Dict[str, int] = {}

    def look(self) -> int:
        """How many units are held by now."""
        try:
            with open(self.path, "rb") as file:
                self.read(file)
        except FileNotFoundError:
            self.at = None
            self.held.clear()
        return len(self.held)

    def read(self, file: BinaryIO) -> None:
        if self.at is None:
            head = file.read(43)
            if len(head) < 43 or head[:1] != b"\1":
                return
            self.at = 43 + (head[41] if head[1:9] == b"DPBLOG02" else 0)
        while True:
            file.seek(self.at)
            front = file.read(8)
            if len(front) < 8 or front[0] != 1:
                return
            if front[5] == HELD:
                self.held.setdefault(file.read(int.from_bytes(front[6:8], "big")).decode(), self.at)
            self.at += 5 + int.from_bytes(front[1:5], "big")
