"""How long, how silent and how large a build may be, for all units and for some by name."""
from __future__ import annotations

import os
import re
from typing import Dict, Iterable, Optional, Tuple

from dpbn_tools.paths import canonical, is_path
from dpbn_tools.driver.job import Job

WORDS = ("limit", "silent", "log-bytes", "out-bytes", "free")
LINE = re.compile(rb"(\S+)[ \t]+(\S+)[ \t]+([0-9]{1,18})")


class BadLimits(Exception):
    """What of a file of limits can't be read, and in which line."""


def read_limits(path: str) -> Dict[Tuple[bytes, str], int]:
    """The limits in a file, by path and word."""
    found = {}
    with open(path, "rb") as file:
        for number, line in enumerate(file, 1):
            text = line.partition(b"#")[0].strip()
            if not text:
                continue
            fields = LINE.fullmatch(text)
            if not fields or fields[2].decode("ascii", "replace") not in WORDS:
                raise BadLimits(f"{path}: line {number} isn't `PATH WORD NUMBER`, with a word of {', '.join(WORDS)}")
            if not is_path(canonical(fields[1])):
                raise BadLimits(f"{path}: line {number} names no package path")
            found[canonical(fields[1]), fields[2].decode()] = int(fields[3])
    return found


class Limits:
    """The limits that hold for all, and those of a file, which is read again when it was changed."""

    def __init__(self, common: Dict[str, Optional[int]], path: Optional[str]) -> None:
        self.common, self.path = common, path
        self.named: Dict[Tuple[bytes, str], int] = read_limits(path) if path else {}
        self.seen = self.touched()

    def touched(self) -> Tuple[int, int]:
        if not self.path:
            return 0, 0
        it = os.stat(self.path)
        return it.st_mtime_ns, it.st_size

    def look(self) -> None:
        """Reads the file again if it was changed. One that can't be read any more leaves the limits as they are, and is reported."""
        touched = self.touched()
        if touched != self.seen:
            self.seen = touched
            self.named = read_limits(self.path or "")

    def of(self, job: Job, word: str) -> Optional[int]:
        """The limit of a job: that of its unit's name, of one of its packages' paths, of its directory, or of all."""
        for name in self.names(job):
            if (name, word) in self.named:
                return self.named[name, word]
        return self.common.get(word)

    @staticmethod
    def names(job: Job) -> Iterable[bytes]:
        yield job.unit
        yield from job.packages
        yield job.unit.partition(b",")[0]
