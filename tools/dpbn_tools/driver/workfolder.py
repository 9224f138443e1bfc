"""The work folder that the driver shares with its node, in the form of dpbn-formats(5)."""
from __future__ import annotations

import contextlib
import errno
import fcntl
import os
import secrets
import socket
import time
from typing import Dict, Iterable, List, Optional, Set, Tuple

# how the names of files end that the driver writes before they are whole, and which of them are this process's own
HALF = ".build-jobs"
OWN = f".{secrets.token_hex(4)}{HALF}"
PARTS = ("jobs", "done", "failed", "build", "begun")
# how often the lock is touched, and for how long a lock counts that was touched, in seconds
HEARTBEAT, FRESH = 10, 25
# how much the clock by which files are dated may go on at a time, in seconds
COARSE = 0.1
# how long the work folder has to be another one before that is believed
GONE = 2
# how long a lock is tried, and how long is waited between, in seconds: a node that looks whether anybody holds it has it for a moment, and
# so has a process that a driver was about to start when it was killed; on a busy machine that may be longer
LONGEST_MOMENT, MOMENT = 2, 0.02
# errors of file systems that have no locks
NO_LOCKS = {errno.ENOLCK, errno.ENOSYS, errno.EINVAL, errno.EOPNOTSUPP, errno.ENOTSUP}


class Replaced(Exception):
    """The work folder isn't the one any more that was locked."""


def sync(folder: str) -> None:
    """Brings the names in the folder to the disk."""
    number = os.open(folder, os.O_RDONLY)
    try:
        os.fsync(number)
    finally:
        os.close(number)


def put(folder: str, name: str, parts: Iterable[str]) -> None:
    """Writes a file that is on the disk before it has its name. Nothing is left of one that couldn't be written."""
    new = f"{folder}/.{name}{OWN}"
    try:
        with open(new, "wb") as file:
            for part in parts:
                file.write(os.fsencode(part))
            file.flush()
            os.fsync(file.fileno())
        os.rename(new, f"{folder}/{name}")
    except BaseException:
        with contextlib.suppress(OSError):
            os.unlink(new)
        raise
    sync(folder)


def lock(number: int) -> None:
    """Locks the open file. Raises BlockingIOError if somebody else holds its lock."""
    end = time.monotonic() + LONGEST_MOMENT
    while True:
        try:
            fcntl.flock(number, fcntl.LOCK_EX | fcntl.LOCK_NB)
            return
        except BlockingIOError:
            if time.monotonic() >= end:
                raise
        time.sleep(MOMENT)


class Names:
    """The names in a folder, which are read again when the folder changed, and at least once a second."""

    def __init__(self, folder: str) -> None:
        self.folder = folder
        self.names: Set[str] = set()
        self.seen: Optional[Tuple[int, int]] = None
        self.due = 0.0

    def look(self) -> Set[str]:
        stat = os.stat(self.folder)
        now = time.monotonic()
        if (stat.st_mtime_ns, stat.st_ino) != self.seen or now >= self.due:
            # a change that comes as soon after this one as the clock of files goes on isn't seen by the time
            is_new = time.time() - stat.st_mtime < COARSE
            self.seen, self.due = None if is_new else (stat.st_mtime_ns, stat.st_ino), now + 1
            self.names = {name for name in os.listdir(self.folder) if not name.startswith(".")}
        return self.names


class WorkFolder:
    """The folder's files, its lock, and the files that report on this host to the node."""

    def __init__(self, path: str) -> None:
        self.path = path
        for part in PARTS:
            os.makedirs(f"{path}/{part}", exist_ok=True)
        self.names: Dict[str, Names] = {part: Names(f"{path}/{part}") for part in ("jobs", "done", "failed")}
        self.locked: Optional[int] = None
        self.beat, self.missing_since = 0.0, 0.0

    # ---- the lock

    def lock(self) -> str:
        """Locks the folder. Returns why that can't be, or nothing."""
        self.locked = os.open(f"{self.path}/lock", os.O_RDWR | os.O_CREAT | os.O_CLOEXEC, 0o666)
        try:
            lock(self.locked)
        except BlockingIOError:
            return f"another one works on {self.path}"
        except OSError as error:
            if error.errno not in NO_LOCKS:
                raise
            if self.is_touched():
                return f"another one works on {self.path}"
        text = f"{socket.gethostname()} {os.getpid()}\n".encode()
        os.ftruncate(self.locked, 0)
        os.pwrite(self.locked, text, 0)
        return ""

    def is_touched(self) -> bool:
        """Whether somebody touches the lock, as drivers do. It is for file systems that have no locks."""
        first = os.stat(f"{self.path}/lock").st_mtime_ns
        end = time.monotonic() + FRESH
        while time.monotonic() < end:
            time.sleep(0.5)
            if os.stat(f"{self.path}/lock").st_mtime_ns != first:
                return True
        return False

    def check(self) -> None:
        """Raises Replaced if the folder has been another one for some time. An error says nothing of that, and is raised."""
        assert self.locked is not None
        try:
            is_same = os.path.samestat(os.stat(f"{self.path}/lock"), os.fstat(self.locked))
        except FileNotFoundError:
            is_same = False
        now = time.monotonic()
        if is_same:
            self.missing_since = 0.0
            if now >= self.beat:
                self.beat = now + HEARTBEAT
                os.utime(f"{self.path}/lock")
            return
        self.missing_since = self.missing_since or now
        if now - self.missing_since >= GONE:
            raise Replaced

    def token(self) -> str:
        """What distinguishes this folder's files in a store from those of others, also if their hosts have one name."""
        path = f"{self.path}/id"
        with contextlib.suppress(FileNotFoundError):
            with open(path, encoding="ascii") as file:
                found = file.read(33).strip()
            if len(found) == 16:
                return found
        put(self.path, "id", [f"{secrets.token_hex(8)}\n"])
        with open(path, encoding="ascii") as file:
            return file.read(16)

    def clear(self, running: Set[str]) -> None:
        """Removes what an earlier driver left half written, and the files that show jobs as begun that don't run any more."""
        for part in ("done", "failed"):
            for name in os.listdir(f"{self.path}/{part}"):
                if name.startswith(".") and name.endswith(HALF):
                    self.remove(f"{part}/{name}")
        for name in self.begun():
            if name not in running:
                self.end(name)

    # ---- what is posted and answered

    def answered(self) -> Set[str]:
        """The names of jobs that have an answer."""
        return self.names["done"].look() | self.names["failed"].look()

    def has_answer(self, name: str) -> bool:
        return any(os.path.lexists(f"{self.path}/{part}/{name}") for part in ("done", "failed"))

    def jobs(self) -> Set[str]:
        return self.names["jobs"].look()

    def remove(self, *names: str) -> None:
        for name in names:
            with contextlib.suppress(FileNotFoundError):
                os.unlink(f"{self.path}/{name}")

    def begin(self, name: str) -> int:
        """Shows that the job has begun, before its command does. Returns the file, which is locked as long as it is open: a build may
        outlive its driver."""
        number = os.open(f"{self.path}/begun/{name}", os.O_RDWR | os.O_CREAT | os.O_CLOEXEC, 0o666)
        try:
            try:
                lock(number)
            except OSError as error:
                if error.errno not in NO_LOCKS:
                    raise
            os.fsync(number)
            sync(f"{self.path}/begun")
        except BaseException:
            os.close(number)
            raise
        return number

    def end(self, name: str) -> None:
        """Shows that the job's build is over."""
        self.remove(f"begun/{name}")

    def begun(self) -> List[str]:
        return os.listdir(f"{self.path}/begun")

    def is_stopped(self) -> bool:
        return os.path.lexists(f"{self.path}/stop")

    def is_away(self) -> bool:
        return os.path.lexists(f"{self.path}/away")

    def set_away(self, why: str) -> None:
        put(self.path, "away", [f"{why}\n"])

    def end_away(self) -> None:
        self.remove("away")
