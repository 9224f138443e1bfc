"""Large files, each named by its SHA-256. Other hosts and other work folders may have the same store."""
from __future__ import annotations

import contextlib
import enum
import hashlib
import os
import shutil
import stat
import time
from typing import Callable, Dict, List, Optional, Tuple

from dpbn_tools.folders import CHUNK, Refused, chunks, opened
from dpbn_tools.log import Large
from dpbn_tools.driver.tasks import Tasks
from dpbn_tools.driver.workfolder import OWN, sync

# how often a file that isn't there is looked for, in seconds, and how many files are hashed at a time
LOOK_AGAIN, MAX_CHECKS = 1, 2
# a file that isn't whole is removed when nobody has written to it for this long, in seconds
ABANDONED = 3600

Touched = Tuple[int, int, int]


class State(enum.Enum):
    """What is known of a file."""

    PRESENT = 1
    CHECKING = 2
    MISSING = 3


def digest_of(path: str) -> Tuple[str, int]:
    """The SHA-256 and the size of a regular file; what is none raises Refused."""
    digest, size = hashlib.sha256(), 0
    with opened(path) as file:
        for part in chunks(file):
            digest.update(part)
            size += len(part)
    return digest.hexdigest(), size


def copy(source: str, target: str) -> None:
    """Copies a file; long runs of zeros take no room in the copy."""
    zeros = bytes(CHUNK)
    with opened(source) as file, open(target, "xb") as out:
        for part in chunks(file):
            if part == zeros:
                out.seek(len(part), os.SEEK_CUR)
            else:
                out.write(part)
        out.truncate(out.tell())


class Store:
    """The folder, and what is known of its files."""

    def __init__(self, folder: str, token: str, tasks: Tasks, tell: Callable[[str], None]) -> None:
        self.folder, self.tasks, self.tell = folder, tasks, tell
        # which files that aren't whole are of this work folder, and which of them of this run
        self.mine, self.own = f".{token}", f".{token}{OWN}"
        self.seen: Dict[str, Touched] = {}
        self.states: Dict[str, Tuple[State, float]] = {}
        self.checks: List[Large] = []
        self.checking = 0
        self.is_copy_told = False
        # changes whenever more is known of a file
        self.version = 0

    def path(self, digest: str) -> str:
        return f"{self.folder}/{digest}"

    def new(self, digest: str, how: str) -> str:
        """Where a file is that isn't whole. No other process writes there."""
        return f"{self.folder}/.{digest}.{how}{self.own}"

    # ---- what is there

    def state(self, large: Large) -> State:
        """Whether the file is there. It is hashed when it is first seen, and whenever it was touched since; that is done next to the
        loop."""
        known, until = self.states.get(large.digest, (State.MISSING, 0.0))
        if known is State.CHECKING or known is State.MISSING and time.monotonic() < until:
            return known
        touched = self.touched(large)
        if touched is None:
            self.states[large.digest] = State.MISSING, time.monotonic() + LOOK_AGAIN
            return State.MISSING
        if self.seen.get(large.digest) == touched:
            self.states.pop(large.digest, None)
            return State.PRESENT
        self.states[large.digest] = State.CHECKING, 0.0
        self.checks.append(large)
        return State.CHECKING

    def touched(self, large: Large) -> Optional[Touched]:
        """What changes if the file is written to; None if it isn't there, or somebody may be about to put it there."""
        try:
            it = os.stat(self.path(large.digest))
        except FileNotFoundError:
            return None
        return (it.st_size, it.st_mtime_ns, it.st_ino) if it.st_size >= large.size and stat.S_ISREG(it.st_mode) else None

    def has(self, large: Large) -> bool:
        """Whether the file is there and was hashed, as of now."""
        touched = self.touched(large)
        return touched is not None and self.seen.get(large.digest) == touched

    def look(self) -> None:
        """Has files hashed that are to be."""
        while self.checks and self.checking < MAX_CHECKS:
            self.checking += 1
            self.begin_check(self.checks.pop(0))

    def begin_check(self, large: Large) -> None:
        self.tasks.start(lambda: self.check(large), lambda touched, error: self.checked(large, touched, error))

    def check(self, large: Large) -> Optional[Touched]:
        """Hashes the file. Returns what it was when it was right. One that is wrong is read twice, and then set aside: it may be the
        only copy, and this host be the one that reads it wrong."""
        for _ in range(2):
            touched = self.touched(large)
            if touched is None:
                return None
            if digest_of(self.path(large.digest))[0] == large.digest:
                return touched if self.touched(large) == touched else None
        self.set_aside(self.path(large.digest), large.digest, f"{large.name.decode()}, {large.digest}, has other bytes in {self.folder}")
        return None

    def checked(self, large: Large, touched: Optional[Touched], error: Optional[Exception]) -> None:
        self.checking -= 1
        self.version += 1
        self.states.pop(large.digest, None)
        if touched:
            self.seen[large.digest] = touched
        else:
            self.states[large.digest] = State.MISSING, time.monotonic() + LOOK_AGAIN
            if error:
                self.tell(f"? {self.path(large.digest)} can't be read: {error}")

    def set_aside(self, path: str, name: str, why: str) -> None:
        """Moves a file with wrong bytes into the folder `wrong`, where the last one of its name stays."""
        os.makedirs(f"{self.folder}/wrong", exist_ok=True)
        os.rename(path, f"{self.folder}/wrong/{name}")
        self.tell(f"? {why}: it is set aside as {self.folder}/wrong/{name}")

    # ---- what comes

    def keep(self, source: str, large: Large) -> None:
        """Takes a file that has this digest: as another name of it if that can be, and else as a copy, which is hashed again."""
        if self.has(large):
            return
        os.makedirs(self.folder, exist_ok=True)
        new = self.new(large.digest, "kept")
        with contextlib.suppress(FileNotFoundError):
            os.unlink(new)
        try:
            if not self.is_linked(source, new):
                copy(source, new)
                if digest_of(new) != (large.digest, large.size):
                    raise Refused(f"{source}: it changes while it is read")
            self.add(new, large.digest)
        except BaseException:
            with contextlib.suppress(OSError):
                os.unlink(new)
            raise

    @staticmethod
    def is_linked(source: str, new: str) -> bool:
        """Makes another name of the file, if it is this user's and has no other one already."""
        it = os.lstat(source)
        if not stat.S_ISREG(it.st_mode) or it.st_uid != os.geteuid() or it.st_nlink != 1:
            return False
        try:
            os.link(source, new)
        except OSError:
            return False
        return True

    def add(self, new: str, digest: str) -> None:
        """Gives a file that has this digest its name, once it is on the disk."""
        with open(new, "rb") as file:
            os.fsync(file.fileno())
        os.rename(new, self.path(digest))
        os.chmod(self.path(digest), 0o444)
        sync(self.folder)
        it = os.stat(self.path(digest))
        self.seen[digest] = it.st_size, it.st_mtime_ns, it.st_ino
        self.states.pop(digest, None)
        self.version += 1

    # ---- what is taken

    def lay(self, large: Large, folder: str) -> bool:
        """Puts the file into a package's folder, in place of what replaces it. Returns whether it had to be copied."""
        source, target = self.path(large.digest), f"{folder}/{large.name.decode()}"
        is_copied = False
        try:
            os.link(source, target)
        except OSError:
            copy(source, target)
            is_copied = True
        os.unlink(target + ".sha256")
        return is_copied

    def clear(self) -> None:
        """Removes files of this work folder that aren't whole, and that nobody has written to for long."""
        if not os.path.isdir(self.folder):
            return
        for name in os.listdir(self.folder):
            if name.startswith(".") and self.mine in name and not name.endswith(self.own):
                path = f"{self.folder}/{name}"
                with contextlib.suppress(OSError):
                    if time.time() - os.lstat(path).st_mtime > ABANDONED:
                        if os.path.isdir(path) and not os.path.islink(path):
                            shutil.rmtree(path, ignore_errors=True)
                        else:
                            os.unlink(path)
