"""When a job is posted in a work folder, or an answer handed in: by inotify(7), so that what is to happen right after happens at once."""
from __future__ import annotations

import ctypes
import os
import struct
from typing import Dict, List, NamedTuple

from soak_parts.alone import LIBC

POSTED, HANDED = "a job is posted", "an answer is handed in"
MOVED_TO = 0x80
NONBLOCK, CLOEXEC = os.O_NONBLOCK, os.O_CLOEXEC


class Moment(NamedTuple):
    """What happened, and at which host."""

    kind: str
    host: int


class Moments:
    """The moments of some work folders."""

    def __init__(self, works: Dict[int, str]) -> None:
        self.number = int(LIBC.inotify_init1(NONBLOCK | CLOEXEC))
        if self.number < 0:
            raise OSError(ctypes.get_errno(), "inotify_init1")
        self.watched: Dict[int, Moment] = {}
        for host, work in works.items():
            for part, kind in (("jobs", POSTED), ("done", HANDED)):
                watch = LIBC.inotify_add_watch(self.number, f"{work}/{part}".encode(), MOVED_TO)
                if watch < 0:
                    raise OSError(ctypes.get_errno(), f"inotify_add_watch {work}/{part}")
                self.watched[watch] = Moment(kind, host)

    def came(self) -> List[Moment]:
        """What happened since this was last asked, in order."""
        found = []
        try:
            data = os.read(self.number, 65_536)
        except BlockingIOError:
            return []
        while data:
            watch, _, _, length = struct.unpack_from("iIII", data)
            name = data[16:16 + length].rstrip(b"\0")
            if watch in self.watched and not name.startswith(b"."):
                found.append(self.watched[watch])
            data = data[16 + length:]
        return found

    def close(self) -> None:
        os.close(self.number)
