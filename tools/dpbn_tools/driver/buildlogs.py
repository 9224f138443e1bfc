"""The logs of builds: one a try, the last ones kept, those of tries that failed in a folder of their own."""
from __future__ import annotations

import contextlib
import os

from dpbn_tools.paths import short_name
from dpbn_tools.driver.job import Job

# how long a log may be that is appended to, in bytes, before it is begun anew
MAX_COMMON = 10_000_000


def shift(path: str, keep: int) -> None:
    """Makes room for a file of this name: PATH becomes PATH.1, PATH.1 becomes PATH.2, and so on; the oldest one goes."""
    names = [path, *(f"{path}.{number}" for number in range(1, keep))]
    with contextlib.suppress(FileNotFoundError):
        os.unlink(names[-1])
    for old, new in zip(names[-2::-1], names[:0:-1]):
        with contextlib.suppress(FileNotFoundError):
            os.rename(old, new)


class BuildLogs:
    """The folder of logs."""

    def __init__(self, folder: str, keep: int) -> None:
        self.folder, self.keep = folder, keep
        os.makedirs(f"{folder}/failed", exist_ok=True)

    def path(self, job: Job) -> str:
        return f"{self.folder}/{short_name(job.unit)}.log"

    def failed_path(self, job: Job) -> str:
        return f"{self.folder}/failed/{short_name(job.unit)}.log"

    def begin(self, job: Job) -> int:
        """Opens the log of a new try."""
        shift(self.path(job), self.keep)
        flags = os.O_WRONLY | os.O_CREAT | os.O_APPEND | os.O_CLOEXEC
        return os.open(self.path(job), flags, 0o666)

    def has_failed(self, job: Job) -> str:
        """Moves the log of a try that failed to the others that did. Returns its place."""
        if not os.path.exists(self.path(job)):
            return self.failed_path(job) if os.path.exists(self.failed_path(job)) else self.path(job)
        shift(self.failed_path(job), self.keep)
        os.rename(self.path(job), self.failed_path(job))
        return self.failed_path(job)

    def cut(self, job: Job, most: int) -> None:
        """Cuts a log that became too long."""
        with open(self.path(job), "r+b") as file:
            file.truncate(most)
            file.seek(0, os.SEEK_END)
            file.write(b"\n## the log is cut here\n")

    def size(self, job: Job) -> int:
        return os.stat(self.path(job)).st_size

    def common(self, name: str) -> str:
        """The path of a log that is appended to."""
        path = f"{self.folder}/{name}"
        with contextlib.suppress(FileNotFoundError):
            if os.stat(path).st_size > MAX_COMMON:
                shift(path, self.keep)
        return path
