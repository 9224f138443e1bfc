"""Reads the log of a node, note by note, also while the node writes it. The form is that of dpbn-formats(5).

    with LogFile(path) as log:
        for note in log.notes():
            ..

`notes()` ends at the closed gate, and called again goes on with what was written since. `held(note)` is for those who want
what a node holds. Nothing but one note is in memory at a time. What is malformed raises BadLog, with its place in the file,
counted from 0."""
from __future__ import annotations

import hashlib
import os
import re
from typing import BinaryIO, Callable, Container, Iterator, List, NamedTuple, Optional, Sequence, Tuple

from dpbn_tools.paths import DIGEST, NUMBER, group_of, is_file_name, is_name, is_path, is_signature

MAX_BUILD, MAX_ROUND, MAX_MEMBERS, MAX_PACKAGES = 4_194_304, 2**63 - 1, 9, 16_384
# a note has a build, and next to it a kind, a path, a claim and some lengths
MAX_NOTE = MAX_BUILD + 1024
OPENED, PROMISED, VOTED, HELD = 1, 2, 3, 4
# no file of a package has this name
WHOLE_RECORD = b"@record"


class BadLog(Exception):
    """What is malformed, and where."""

    def __init__(self, place: int, what: str) -> None:
        super().__init__(f"{what} at {place}")
        self.place = place


class Reader:
    """Takes fields off the front of some bytes, which begin at `base` in their file."""

    def __init__(self, data: bytes, base: int = 0) -> None:
        self.data, self.base, self.at = data, base, 0

    @property
    def place(self) -> int:
        """The position of the next field in the file."""
        return self.base + self.at

    @property
    def is_at_end(self) -> bool:
        return self.at == len(self.data)

    def take(self, count: int, what: str) -> bytes:
        if len(self.data) - self.at < count:
            raise BadLog(self.place, f"{what} isn't whole")
        self.at += count
        return self.data[self.at - count:self.at]

    def number(self, count: int, least: int, greatest: int, what: str) -> int:
        value = int.from_bytes(self.take(count, what), "big")
        if not least <= value <= greatest:
            raise BadLog(self.place - count, f"{what} is {value}")
        return value

    def line(self, what: str) -> bytes:
        """The next line, without its end."""
        end = self.data.find(b"\n", self.at)
        if end < 0:
            raise BadLog(self.place, f"{what}: a line isn't whole")
        text, self.at = self.data[self.at:end], end + 1
        return text

    def peek(self, word: bytes) -> bool:
        return self.data.startswith(word, self.at)

    def field(self, word: bytes, is_right: Callable[[bytes], object]) -> bytes:
        """What follows the word that begins the next line of a record."""
        place, text = self.place, self.line("a record")
        if not text.startswith(word) or not is_right(text[len(word):]):
            raise BadLog(place, f"a record's line is not '{word.decode().strip()} ..'")
        return text[len(word):]


class Header(NamedTuple):
    """Whose log it is."""

    tree: str
    members: int
    own: int
    weights: Tuple[int, ...]
    # where the first note's gate is
    end: int


class PackedFile(NamedTuple):
    """A file in a record: its name, its place in the log, its size and its SHA-256."""

    name: bytes
    place: int
    size: int
    digest: str


class Large(NamedTuple):
    """A file that went by its digest."""

    name: bytes
    digest: str
    size: int


class Record:
    """What was built of one path."""

    def __init__(self, reader: Reader) -> None:
        start = reader.at
        place = reader.place
        reader.field(b"@dpb 1", lambda rest: rest == b"")
        self.name = reader.field(b"@name ", is_name)
        self.path = reader.field(b"@comment pkgpath=", is_path)
        self.host = reader.field(b"@host ", lambda rest: NUMBER.fullmatch(rest) and len(rest) < 6 and int(rest) < 2**16)
        self.claim = reader.field(b"@claim ", is_claim)
        self.built = ascending(reader, b"@built ", is_signature)
        self.run = ascending(reader, b"@run ", is_path)
        self.files = packed_files(reader, file_heads(reader))
        text = reader.data[start:reader.at]
        self.digest = hashlib.sha256(text).hexdigest()
        self.whole = PackedFile(WHOLE_RECORD, place, len(text), self.digest)
        # the first file whose folder is itself a file of the record: they can't be laid out in one folder
        self.inner = inner_of([file.name for file in self.files])
        # the files that went by their digests, in the order of what replaces them
        self.large = [] if self.inner else large_files(self.files, lambda file: reader.data[file.place - reader.base:][:file.size])

    def signature(self) -> bytes:
        return b" ".join((self.path, self.name, self.digest.encode()))


def ascending(reader: Reader, word: bytes, is_right: Callable[[bytes], object]) -> List[bytes]:
    """The lines that begin with the word, ascending by path."""
    lines: List[bytes] = []
    while reader.peek(word):
        place = reader.place
        lines.append(reader.field(word, is_right))
        if len(lines) > 1 and lines[-2].split(b" ")[0] >= lines[-1].split(b" ")[0]:
            raise BadLog(place, "a record's paths don't ascend")
    return lines


def file_heads(reader: Reader) -> List[Tuple[bytes, bytes, int]]:
    """The files' names, digests and sizes, up to the empty line."""
    heads: List[Tuple[bytes, bytes, int]] = []
    names = set()
    while True:
        place, name = reader.place, reader.line("a record")
        if not name:
            return heads
        if not is_file_name(name) or name in names:
            raise BadLog(place, "a record's file has a bad name")
        names.add(name)
        digest = reader.field(b"@sha ", DIGEST.fullmatch)
        size = int(reader.field(b"@size ", lambda rest: NUMBER.fullmatch(rest) and len(rest) < 8))
        heads.append((name, digest, size))


def packed_files(reader: Reader, heads: Sequence[Tuple[bytes, bytes, int]]) -> List[PackedFile]:
    files = []
    for name, digest, size in heads:
        place = reader.place
        if hashlib.sha256(reader.take(size, "a record's file")).hexdigest().encode() != digest:
            raise BadLog(place, f"the file {name.decode()} hasn't its digest")
        files.append(PackedFile(name, place, size, digest.decode()))
    return files


def inner_of(names: Sequence[bytes]) -> Optional[bytes]:
    """The first name that is in a folder which is itself a file, if there is one."""
    files = set(names)
    return next((name for name in names if any(name[:slash.start()] in files for slash in re.finditer(b"/", name))), None)


# what is in NAME.sha256 for a file that went by its digest
LARGE = re.compile(rb"SHA256 \((.*)\) = ([0-9a-f]{64})\nSIZE \((.*)\) = (0|[1-9][0-9]*)\n")
MAX_LARGE_TEXT = 1024


def large_of(name: bytes, text: bytes) -> Optional[Large]:
    """The file that one with this name and text replaces, if it replaces one."""
    found = LARGE.fullmatch(text)
    if found and found[1] == found[3] and name == found[1] + b".sha256" and is_file_name(found[1]):
        return Large(found[1], found[2].decode(), int(found[4]))
    return None


def large_files(files: Sequence[PackedFile], contents: Callable[[PackedFile], bytes]) -> List[Large]:
    """The files that went by their digests, and have room under their own names."""
    names = [file.name for file in files]
    found = [large_of(file.name, contents(file)) for file in files if file.name.endswith(b".sha256") and file.size <= MAX_LARGE_TEXT]
    return [large for large in found if large and large.name not in names and not inner_of([*names, large.name])]


def is_claim(text: bytes) -> bool:
    number, _, member = text.partition(b".")
    is_round = NUMBER.fullmatch(number) and len(number) < 20 and 1 <= int(number) <= MAX_ROUND
    return bool(is_round and re.fullmatch(b"[0-8]", member))


def build(reader: Reader, unit: bytes) -> List[Record]:
    """The records of a build of the unit, which is all that is left to be read."""
    start = reader.place
    size = reader.number(4, 1, MAX_BUILD, "a build's length")
    if len(reader.data) - reader.at != size:
        raise BadLog(start, "a build hasn't its length")
    count = 1
    if reader.peek(b"@dpb 2\n"):
        reader.line("a build")
        count = int(reader.field(b"@packages ", lambda rest: NUMBER.fullmatch(rest) and len(rest) < 6 and 2 <= int(rest) <= MAX_PACKAGES))
    records: List[Record] = []
    for _ in range(count):
        place = reader.place
        records.append(Record(reader))
        if len(records) > 1 and not (records[-2].path < records[-1].path and are_alike(records[0], records[-1])):
            raise BadLog(place, "a record doesn't fit those before it")
    if not reader.is_at_end:
        raise BadLog(reader.place, "something follows a build")
    if unit != (records[0].path if count == 1 else group_of(records[0].path)):
        raise BadLog(start, "a build is of another unit")
    return records


def are_alike(one: Record, other: Record) -> bool:
    """Whether one build can have made both."""
    return (group_of(one.path), one.host, one.claim, one.built) == (group_of(other.path), other.host, other.claim, other.built)


class Note(NamedTuple):
    """A note: what kind it is, of which unit, the claim (0 and None if the kind has none), and the build's records."""

    kind: int
    unit: bytes
    round: int
    member: Optional[int]
    records: List[Record]


def read_note(reader: Reader) -> Note:
    """The note that is all there is to be read."""
    kind = reader.number(1, OPENED, HELD, "a note's kind")
    place, unit = reader.place, reader.take(reader.number(2, 1, 255, "a path's length"), "a path")
    if not is_path(unit):
        raise BadLog(place + 2, "a note is on no path")
    number = reader.number(8, 1, MAX_ROUND, "a round") if kind != HELD else 0
    member = reader.number(1, 0, MAX_MEMBERS - 1, "a member") if kind in (PROMISED, VOTED) else None
    records = build(reader, unit) if kind in (VOTED, HELD) else []
    if not reader.is_at_end:
        raise BadLog(reader.place, "something follows a note")
    return Note(kind, unit, number, member, records)


def read_header(data: bytes) -> Header:
    """The header in the first bytes of a log; 64 are enough."""
    reader = Reader(data)
    if reader.take(1, "a log") != b"\1":
        raise BadLog(0, "no log, or none yet: the gate is closed")
    magic = reader.take(8, "a log")
    if magic not in (b"DPBLOG01", b"DPBLOG02"):
        raise BadLog(1, "no log: another magic")
    tree = reader.take(32, "a log").hex()
    members = reader.number(1, 1, MAX_MEMBERS, "how many members there are")
    own = reader.number(1, 0, members - 1, "the own number")
    weights = tuple(reader.number(1, 1, 100, "a weight") for _ in range(members if magic == b"DPBLOG02" else 0))
    if weights and set(weights) == {1}:
        raise BadLog(43, "the weights are all 1")
    return Header(tree, members, own, weights or (1,) * members, reader.at)


class LogFile:
    """A log that is open, and how far it was read."""

    def __init__(self, path: str) -> None:
        self.path = path
        self.file: BinaryIO = open(path, "rb", buffering=0)
        self.header: Optional[Header] = None
        # where the next gate is
        self.at = 0

    def __enter__(self) -> LogFile:
        return self

    def __exit__(self, *_: object) -> None:
        self.file.close()

    def read(self, place: int, size: int) -> bytes:
        """These bytes, or fewer at the end of the file."""
        parts = []
        while size > 0:
            part = os.pread(self.file.fileno(), size, place)
            if not part:
                break
            parts.append(part)
            place, size = place + len(part), size - len(part)
        return b"".join(parts)

    def read_file(self, file: PackedFile) -> bytes:
        data = self.read(file.place, file.size)
        if len(data) < file.size:
            raise BadLog(file.place + len(data), "the log became shorter")
        return data

    def has_header(self) -> bool:
        """Whether the header is there. A log that a node has begun a moment ago may lack it; a file that isn't a log raises BadLog."""
        if not self.header:
            head = self.read(0, 64)
            if head[:1] != b"\1":
                return False
            self.header = read_header(head)
            self.at = self.header.end
        return True

    def notes(self, kinds: Container[int] = (OPENED, PROMISED, VOTED, HELD)) -> Iterator[Note]:
        """The notes that weren't read yet, up to the closed gate. A note that was yielded counts as read once the next one is asked
        for, so that a reader who fails gets it again. Notes of other kinds than these are skipped, and what is in them isn't read."""
        while self.has_header():
            head = self.read(self.at, 6)
            if head[:1] != b"\1":
                if not head:
                    raise BadLog(self.at, "a gate isn't whole")
                return
            size = int.from_bytes(head[1:5], "big")
            if len(head) >= 5 and size > MAX_NOTE:
                raise BadLog(self.at + 1, f"a note's length is {size}")
            if len(head) == 6 and size > 0 and head[5] in (OPENED, PROMISED, VOTED, HELD) and head[5] not in kinds:
                self.at += 5 + size
                continue
            # the note and the gate that follows it
            data = self.read(self.at + 5, size + 1) if len(head) >= 5 else b""
            if len(data) <= size or len(head) < 5:
                raise BadLog(self.at, "a note isn't whole")
            yield read_note(Reader(data[:size], self.at + 5))
            self.at += 5 + size


def digest_of(path: str) -> str:
    """The SHA-256 of a file."""
    digest = hashlib.sha256()
    with open(path, "rb") as file:
        for part in iter(lambda: file.read(1 << 20), b""):
            digest.update(part)
    return digest.hexdigest()
