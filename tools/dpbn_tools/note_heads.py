"""The notes of a log that grows, without the files in them: of each note its unit, its claim, and who built what is held. A look reads
the notes that were added since the last one."""
from __future__ import annotations

import os
import re
from typing import Iterator, NamedTuple, Optional, Tuple

OPENED, PROMISED, VOTED, HELD = 1, 2, 3, 4
MAGICS = (b"DPBLOG01", b"DPBLOG02")
MOST_MEMBERS, MOST_WEIGHT = 9, 100
# the header without weights and without the gate of the first note
HEADER = 43
# how many bytes of a note are looked at: its own fields, and of its first record the lines up to its claim
HEAD = 2048
# how many bytes are read at once
WINDOW = 1 << 18
# how many bytes before the place that was reached have to be the same in a file that took the log's name
SAME = 4096
BUILDER = re.compile(rb"(?:@dpb 2\n@packages [0-9]+\n)?@dpb 1\n@name [^\n]+\n@comment pkgpath=[^\n]+\n"
                     rb"@host ([0-9]{1,5})\n@claim ([0-9]{1,19})\.([0-8])\n")


class Bad(Exception):
    """What is wrong with a log, and at which byte."""

    def __init__(self, place: int, what: str) -> None:
        super().__init__(f"{what} at {place}")


class Header(NamedTuple):
    """Whose log it is: the listing's digest, what each member weighs, and the member's number."""

    tree: bytes
    weights: Tuple[int, ...]
    member: int
    size: int


class Note(NamedTuple):
    """A note of a unit. Of an opened claim, its member is the log's own; of a unit that is held, the claim and the host are those of the
    build."""

    kind: int
    unit: str
    round: int
    member: int
    host: int


def header_of(text: bytes) -> Optional[Header]:
    """The header, or None if it isn't there yet."""
    if len(text) < HEADER + 1 or text[0] != 1:
        return None
    members, own = text[41], text[42]
    if text[1:9] not in MAGICS:
        raise Bad(1, "no log: another magic")
    if not 1 <= members <= MOST_MEMBERS or own >= members:
        raise Bad(41, "no log: bad members")
    has_weights = text[1:9] == MAGICS[1]
    if has_weights and len(text) < HEADER + members + 1:
        return None
    weights = tuple(text[HEADER:HEADER + members]) if has_weights else (1,) * members
    if not all(1 <= weight <= MOST_WEIGHT for weight in weights):
        raise Bad(HEADER, "no log: a bad weight")
    return Header(text[9:41], weights, own, HEADER + (members if has_weights else 0))


def note_of(text: bytes, own: int, at: int) -> Note:
    """The note that begins with these bytes; `at` is its place in the log."""
    kind, length = text[0], int.from_bytes(text[1:3], "big")
    unit, rest = text[3:3 + length].decode("latin-1"), text[3 + length:]
    if not OPENED <= kind <= HELD or not 1 <= length <= 255 or len(unit) < length:
        raise Bad(at, "a note's kind or path is wrong")
    if kind == HELD:
        found = BUILDER.match(rest, 4)
        if not found:
            raise Bad(at, "a note holds no build")
        return Note(kind, unit, int(found[2]), int(found[3]), int(found[1]))
    if len(rest) < (8 if kind == OPENED else 9):
        raise Bad(at, "a note's claim is not whole")
    member = own if kind == OPENED else rest[8]
    if member >= MOST_MEMBERS:
        raise Bad(at, f"a note's member is {member}")
    return Note(kind, unit, int.from_bytes(rest[:8], "big"), member, member)


class Log:
    """A log that is only read, also while its node writes it."""

    def __init__(self, path: str) -> None:
        self.path = path
        self.header: Optional[Header] = None
        self.file: Optional[int] = None
        # the position of the next note's gate, what was read last, and its position
        self.at, self.window, self.start = 0, b"", 0
        # the bytes before `at`, by which a copy of the log is known
        self.before = b""
        # the place of a note that isn't whole, as in a copy that is being made
        self.cut: Optional[int] = None
        # rises whenever the file is read anew from its beginning
        self.age = 0
        self.touched: Optional[float] = None

    def look(self) -> Iterator[Note]:
        """The notes that came since the last look. A log that isn't there has none."""
        if not self.is_open():
            return
        if self.header is None:
            self.header = self.header_there()
            self.at = self.header.size if self.header else 0
        if self.header is None:
            return
        try:
            yield from self.notes(self.header.member)
        finally:
            start = max(0, self.at - SAME)
            self.before = self.bytes_at(start, self.at - start)
            # a closed gate that was read now may be open at the next look
            self.window = b""

    def is_open(self) -> bool:
        """Opens the file that has the log's name now, if that is another one than before."""
        try:
            stat = os.stat(self.path)
            self.touched = stat.st_mtime
            if self.file is not None and os.path.samestat(stat, os.fstat(self.file)) and stat.st_size >= self.at:
                return True
            self.close()
            self.file = os.open(self.path, os.O_RDONLY | os.O_NONBLOCK)
        except FileNotFoundError:
            self.forget()
            return False
        if self.header and not self.is_copy():
            self.forget_notes()
        return True

    def is_copy(self) -> bool:
        """Whether another file has what was read so far, as if the log was copied anew."""
        start = max(0, self.at - SAME)
        try:
            return self.header == self.header_there() and self.bytes_at(start, self.at - start) == self.before
        except Bad:
            return False

    def header_there(self) -> Optional[Header]:
        return header_of(self.bytes_at(0, HEADER + MOST_MEMBERS + 1))

    def close(self) -> None:
        self.window = b""
        if self.file is not None:
            os.close(self.file)
            self.file = None

    def forget(self) -> None:
        """The log is gone."""
        self.close()
        self.touched = None
        if self.header:
            self.forget_notes()

    def forget_notes(self) -> None:
        self.header, self.at, self.before, self.window = None, 0, b"", b""
        self.age += 1

    def bytes_at(self, at: int, size: int) -> bytes:
        """What the file has there, as far as it goes, through a window."""
        if self.file is None:
            return b""
        if not self.start <= at <= at + size <= self.start + len(self.window):
            self.start, self.window = at, os.pread(self.file, max(size, WINDOW), at)
        return self.window[at - self.start:at - self.start + size]

    def length(self) -> int:
        return os.fstat(self.file).st_size if self.file is not None else 0

    def notes(self, own: int) -> Iterator[Note]:
        """Goes on from gate to gate."""
        self.cut, end = None, self.length()
        while True:
            head = self.bytes_at(self.at, 5 + HEAD)
            if not head or head[0] != 1:
                return
            size = int.from_bytes(head[1:5], "big")
            if self.at + 5 + size >= end:
                end = self.length()
            if len(head) < 5 or self.at + 5 + size >= end:
                self.cut = self.at
                return
            note = note_of(head[5:5 + size], own, self.at + 5)
            self.at += 5 + size
            yield note
