"""Copies of a node's log, which are brought up to date while the node writes the log. Of a log all that is before its first closed gate
counts (dpbn-formats(5)), so a copy ends with a gate that is closed."""
from __future__ import annotations

import hashlib
import os
from typing import BinaryIO, Optional

from dpbn_tools.log import MAX_NOTE, BadLog, read_header
from dpbn_tools.whole_files import new_name, sync

# how many bytes before the end of a copy say whether it is one of this log
COMPARED = 65_536
CHUNK = 1 << 20


def first_closed_gate(file: BinaryIO) -> int:
    """The position of the first closed gate. A log without a header has it at 0."""
    number = file.fileno()
    head = os.pread(number, 64, 0)
    if head[:1] != b"\1":
        return 0
    at = read_header(head).end
    while True:
        gate = os.pread(number, 5, at)
        if gate[:1] != b"\1":
            return at
        size = int.from_bytes(gate[1:], "big")
        if len(gate) < 5 or size > MAX_NOTE:
            raise BadLog(at, "a note isn't whole")
        at += 5 + size


def digest_before(file: BinaryIO, place: int) -> str:
    """The SHA-256 of the log's first bytes and of those before this place."""
    number, start = file.fileno(), max(0, place - COMPARED)
    return hashlib.sha256(os.pread(number, min(place, 64), 0) + os.pread(number, place - start, start)).hexdigest()


class LogPart:
    """The bytes of a log from a place on up to its first closed gate, and that gate; from 0 on if what is before isn't what it was."""

    def __init__(self, path: str, start: int, digest: str) -> None:
        self.file: BinaryIO = open(path, "rb", buffering=0)
        self.end = first_closed_gate(self.file)
        self.start = start if 0 < start <= self.end and digest_before(self.file, start) == digest else 0
        self.at, self.size = self.start, self.end + 1 - self.start

    def __enter__(self) -> LogPart:
        return self

    def __exit__(self, *_: object) -> None:
        self.file.close()

    def read(self, most: int) -> bytes:
        """As many bytes as are asked for, unless they end before."""
        parts, left = [], most
        while left > 0 and self.at < self.end:
            part = os.pread(self.file.fileno(), min(left, CHUNK, self.end - self.at), self.at)
            if not part:
                raise BadLog(self.at, "the log became shorter")
            parts.append(part)
            self.at, left = self.at + len(part), left - len(part)
        if left > 0 and self.at == self.end:
            # the gate may be open by now, and what follows it isn't in the copy
            parts.append(b"\0")
            self.at += 1
        return b"".join(parts)


class Copy:
    """A copy on this host."""

    def __init__(self, path: str) -> None:
        self.path = path

    def place(self) -> "tuple[int, str]":
        """Up to where the copy has the log, and what is before that."""
        try:
            with open(self.path, "rb", buffering=0) as file:
                end = first_closed_gate(file)
                return end, digest_before(file, end)
        except (FileNotFoundError, BadLog):
            return 0, ""

    def take(self, start: int, source: BinaryIO, size: int) -> None:
        """Takes the log's bytes from a place on. What was copied before stays whole, whatever breaks off."""
        if not start:
            self.begin(source)
            return
        with open(self.path, "r+b", buffering=0) as file:
            gate: Optional[bytes] = source.read(1)
            file.truncate(start + 1)
            file.seek(start + 1)
            written = 1 + copy(source, file)
            if written < size or not gate:
                raise BadLog(start, "the log's bytes didn't all come")
            os.fsync(file.fileno())
            os.pwrite(file.fileno(), gate, start)
            os.fsync(file.fileno())

    def begin(self, source: BinaryIO) -> None:
        new = new_name(self.path)
        try:
            with open(new, "x+b", buffering=0) as file:
                copy(source, file)
                os.fsync(file.fileno())
                first_closed_gate(file)
            os.rename(new, self.path)
        finally:
            if os.path.lexists(new):
                os.unlink(new)
        sync(os.path.dirname(self.path))


def copy(source: BinaryIO, target: BinaryIO) -> int:
    written = 0
    for part in iter(lambda: source.read(CHUNK), b""):
        left = memoryview(part)
        while left:
            left = left[target.write(left) or 0:]
        written += len(part)
    return written
