"""A folder that comes into place whole and synced, or not at all, also if who makes it is killed."""
from __future__ import annotations

import contextlib
import os
import secrets
import shutil
import signal
from types import TracebackType
from typing import Optional, Type

SIGNALS = (signal.SIGHUP, signal.SIGINT, signal.SIGTERM)


class Scratch:
    """A folder next to its place, in which it is made. A second process waits for the end of the first, and then removes what is left,
    since nobody who is killed can."""

    def __init__(self, target: str, front: str) -> None:
        self.target = os.path.abspath(target)
        self.parent = os.path.dirname(self.target)
        self.path = f"{self.parent}/.{front}.{secrets.token_hex(8)}"
        self.watcher = self.end = -1

    def __enter__(self) -> "Scratch":
        reader, self.end = os.pipe()
        self.watcher = os.fork()
        if not self.watcher:
            watch(reader, self.end, self.path)
        os.close(reader)
        os.mkdir(self.path)
        return self

    def __exit__(self, kind: Optional[Type[BaseException]], error: Optional[BaseException], trace: Optional[TracebackType]) -> None:
        """Removes the folder, unless it came into place."""
        shutil.rmtree(self.path, ignore_errors=True)
        with contextlib.suppress(OSError):
            os.write(self.end, b"x")
        os.close(self.end)
        os.waitpid(self.watcher, 0)

    def put(self) -> None:
        """Gives the folder its name, once all of it is on the disk."""
        for folder, _, names in os.walk(self.path, topdown=False):
            for name in names:
                sync(os.path.join(folder, name))
            sync(folder)
        os.rename(self.path, self.target)
        sync(self.parent)


def watch(reader: int, writer: int, path: str) -> None:
    """Waits until the other process says that it is over, or is gone; then what it left goes. Ends this process."""
    try:
        os.setsid()
        for each in SIGNALS:
            signal.signal(each, signal.SIG_IGN)
        os.close(writer)
        # nobody who reads what the other one writes waits for this one
        nothing = os.open(os.devnull, os.O_RDWR)
        for number in range(3):
            os.dup2(nothing, number)
        if not os.read(reader, 1):
            shutil.rmtree(path, ignore_errors=True)
    finally:
        os._exit(0)


def sync(path: str) -> None:
    """Brings a file, or the names in a folder, to the disk."""
    number = os.open(path, os.O_RDONLY | os.O_CLOEXEC)
    try:
        os.fsync(number)
    finally:
        os.close(number)
