"""The process group of a command whose supervisor is gone. Nobody can see any more how the command ends, so it is ended."""
from __future__ import annotations

import fcntl
import os
import re
import signal
import subprocess
import time
from typing import List, NamedTuple, Optional

from dpbn_tools.driver.supervisor import since_boot

NOTED = re.compile(r"([0-9]+) ([0-9]+\.[0-9])\n")
# how much the age that the system reports of a process may differ from the one by its note, in seconds
COARSE = 5
# how often is looked for what is left of a group, in seconds
EACH = 0.3


class Process(NamedTuple):
    """A process of the system: its number, that of its group, and how old it is, in seconds."""

    number: int
    group: int
    age: float


def age_of(text: str) -> float:
    """The seconds of [[DAYS-]HOURS:]MINUTES:SECONDS, as ps(1) prints them."""
    days, _, rest = text.rpartition("-")
    seconds = 0
    for part in rest.split(":"):
        seconds = 60 * seconds + int(part)
    return 86_400 * int(days or 0) + seconds


def processes() -> Optional[List[Process]]:
    """All processes that run; None if ps(1) doesn't say. One that has ended, and that its parent hasn't taken note of, doesn't run."""
    try:
        done = subprocess.run(["ps", "-A", "-o", "pid=", "-o", "pgid=", "-o", "stat=", "-o", "etime="], stdin=subprocess.DEVNULL,
                              stdout=subprocess.PIPE, stderr=subprocess.DEVNULL, check=True)
        rows = [line.split() for line in done.stdout.decode("ascii", "replace").splitlines()]
        return [Process(int(number), int(group), age_of(age)) for number, group, state, age in rows if not state.startswith("Z")]
    except (OSError, ValueError, subprocess.CalledProcessError):
        return None


def is_locked(path: str) -> bool:
    """Whether somebody holds the lock of the file."""
    try:
        number = os.open(path, os.O_RDWR | os.O_CLOEXEC)
    except OSError:
        return False
    try:
        fcntl.flock(number, fcntl.LOCK_EX | fcntl.LOCK_NB)
        return False
    except BlockingIOError:
        return True
    except OSError:
        # a file system without locks
        return False
    finally:
        os.close(number)


class Group:
    """A group by its number, which may be another group's by now. It is the build's if its first process began when that was noted; or,
    if that one has ended, if the file is locked that the build's processes have open. Of one that this driver began that is known."""

    def __init__(self, note: str, lock: str, is_own: bool) -> None:
        found = NOTED.match(note)
        self.number, self.began = (int(found[1]), float(found[2])) if found else (0, 0.0)
        self.lock, self.is_own = lock, is_own
        self.deadline: Optional[float] = None
        self.due, self.is_left = 0.0, True

    def is_there(self) -> bool:
        """Whether anything of it runs."""
        if self.number < 2 or not self.send(0):
            return False
        found = processes()
        if found is None:
            return self.is_own or is_locked(self.lock)
        its = [process for process in found if process.group == self.number]
        ages = [process.age for process in its if process.number == self.number]
        if not its or self.is_own:
            return bool(its)
        return abs(since_boot() - self.began - ages[0]) <= COARSE if ages else is_locked(self.lock)

    def send(self, number: int) -> bool:
        """Sends a signal to it. Returns whether there is anything of it."""
        try:
            os.killpg(self.number, number)
        except ProcessLookupError:
            return False
        except PermissionError:
            # it runs as another user
            pass
        return True

    def has_ended(self, grace: float) -> bool:
        """Whether nothing of it runs any more. What does gets SIGTERM, and SIGKILL once the grace is over."""
        now = time.monotonic()
        if self.is_left and now >= self.due:
            self.due, self.is_left = now + EACH, self.is_there()
            if self.is_left and self.deadline is None:
                self.deadline = now + grace
                self.send(signal.SIGTERM)
            elif self.is_left and self.deadline is not None and now >= self.deadline:
                self.send(signal.SIGKILL)
        return not self.is_left
