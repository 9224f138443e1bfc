"""What the node holds: the records in its log, of which each look reads what is new."""
from __future__ import annotations

import contextlib
import os
import time
from typing import Dict, List, Optional, Set

from dpbn_tools.log import HELD, LogFile, Record

# how long a look reads at most, in seconds, so that a long log doesn't keep the loop from the rest
LONGEST_LOOK = 0.1


class Held:
    """The records by path, and the units that have them."""

    def __init__(self, path: str) -> None:
        self.path = path
        self.log: Optional[LogFile] = None
        # whether all was read that there was
        self.is_read = False
        self.forget()

    def forget(self) -> None:
        self.records: Dict[bytes, Record] = {}
        self.units: Set[bytes] = set()
        # which hosts built something on a package, so that they had its files
        self.users: Dict[bytes, Set[int]] = {}
        # how many units other hosts built
        self.others = 0
        self.is_read = False

    def reopen(self) -> None:
        if self.log:
            self.log.file.close()
        self.log = None
        self.forget()

    def look(self) -> None:
        """Reads the notes that came. A log that isn't there yet has none, and another file of its name is read from the start."""
        try:
            stat = os.stat(self.path)
        except FileNotFoundError:
            self.reopen()
            self.is_read = True
            return
        # a file that is open keeps its number, and no log becomes shorter
        if not self.log or stat.st_size < self.log.at or not os.path.samestat(stat, os.fstat(self.log.file.fileno())):
            self.reopen()
            self.log = LogFile(self.path)
        self.read(self.log)

    def read(self, log: LogFile) -> None:
        end, taken = time.monotonic() + LONGEST_LOOK, 0
        for note in log.notes((HELD,)):
            # a note counts as read once the next one is asked for
            if taken and time.monotonic() > end:
                return
            taken += 1
            if note.unit not in self.units:
                self.units.add(note.unit)
                self.others += log.header is not None and int(note.records[0].host) != log.header.own
                for record in note.records:
                    self.take(record)
        self.is_read = True

    def take(self, record: Record) -> None:
        self.records[record.path] = record
        for line in record.built:
            self.users.setdefault(line.split(b" ")[0], set()).add(int(record.host))

    def needed(self, signatures: List[bytes]) -> Optional[List[Record]]:
        """The records that have these signatures, and those of all that they need to run; or None if one of them isn't held."""
        waiting = [line.split(b" ")[0] for line in signatures]
        if any(path not in self.records or self.records[path].signature() != line for path, line in zip(waiting, signatures)):
            return None
        found: Dict[bytes, Record] = {}
        while waiting:
            path = waiting.pop()
            if path not in self.records:
                return None
            if path not in found:
                found[path] = self.records[path]
                waiting += found[path].run
        return list(found.values())

    def holders(self, record: Record) -> List[int]:
        """The hosts that may have the files of a package: the one that built it, those that built on it, all others."""
        first = int(record.host)
        users = sorted(self.users.get(record.path, set()) - {first})
        members = self.log.header.members if self.log and self.log.header else 0
        return [first, *users, *(host for host in range(members) if host != first and host not in users)]

    def members(self) -> int:
        return self.log.header.members if self.log and self.log.header else 0

    def write(self, record: Record, folder: str) -> None:
        """Writes the record's files into a folder that it makes."""
        assert self.log
        os.mkdir(folder)
        for file in [record.whole] if record.inner else record.files:
            target = f"{folder}/{file.name.decode()}"
            with contextlib.suppress(FileExistsError):
                os.makedirs(os.path.dirname(target))
            with open(target, "xb") as out:
                out.write(self.log.read_file(file))
