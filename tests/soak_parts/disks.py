"""Bad disks: the file system of a log or of a work folder is full, read-only or broken for a while, at one host."""
from __future__ import annotations

import argparse
import errno
import os
import shutil
import subprocess
import time
from typing import Dict, List, Optional, Tuple, Type

from soak_parts import shims, trees
from soak_parts.figures import Figures
from soak_parts.hosts import DRIVER, NODE, Host
from soak_parts.logs import Follower
from soak_parts.runs import Run

# how large the file systems are that get full, by what is on them
ROOM = {"log": "32m", "work": "64m"}
# the status of a node whose device failed, and the fault that it prints; see dpbn(1)
DOWN, DEVICE = 3, "1001"
# how long a node may take to notice that its log's device is bad, in seconds
LONGEST_NOTICE = 180


class Disk:
    """What is bad at a host, before it begins and while it lasts: nothing."""

    def __init__(self, host: Host, part: str) -> None:
        self.host, self.part = host, part
        self.folder = host.logs if part == "log" else host.work
        self.lay()

    def lay(self) -> None:
        """What has to be done before the host starts."""

    def begin(self) -> None:
        """The disk gets bad."""

    def end(self) -> None:
        """The disk is good again."""


class Full(Disk):
    """A small file system, which something else fills."""

    def lay(self) -> None:
        subprocess.run(["mount", "-t", "tmpfs", "-o", f"size={ROOM[self.part]},mode=755", "tmpfs", self.folder], check=True)
        if self.part == "work":
            os.mkdir(f"{self.folder}/jobs")
            os.mkdir(f"{self.folder}/done")

    def begin(self) -> None:
        with open(f"{self.folder}/ballast", "wb", buffering=0) as file:
            for size in (1 << 16, 1 << 12):
                try:
                    while True:
                        file.write(bytes(size))
                except OSError as error:
                    if error.errno != errno.ENOSPC:
                        raise

    def end(self) -> None:
        os.unlink(f"{self.folder}/ballast")


class Shimmed(Disk):
    """Changes fail with an error, by a library that is loaded before the node; and before the driver, if it is about the work folder."""

    number = errno.EIO

    def lay(self) -> None:
        self.bad = f"{self.host.run.folder}/bad-{self.host.me}"
        library = shims.built("disk", self.host.run.asked.inside)
        for part in (NODE, DRIVER) if self.part == "work" else (NODE,):
            self.host.environment[part].update(LD_PRELOAD=library, DISK=self.folder, BAD=self.bad)

    def begin(self) -> None:
        trees.put(f"{self.bad}.new", str(int(self.number)))
        os.rename(f"{self.bad}.new", self.bad)

    def end(self) -> None:
        os.unlink(self.bad)


class ReadOnly(Shimmed):
    number = errno.EROFS


class Aborted(Disk):
    """An ext4 on a loop device, which becomes read-only as after an error of the disk; then it is checked and mounted again."""

    def lay(self) -> None:
        self.image = f"{self.host.run.folder}/disk-{self.host.me}"
        with open(self.image, "wb") as file:
            file.truncate(64 << 20)
        subprocess.run(["mkfs.ext4", "-q", "-F", self.image], check=True)
        self.mount()

    def mount(self) -> None:
        subprocess.run(["mount", "-o", "loop", self.image, self.folder], check=True)

    def begin(self) -> None:
        subprocess.run(["mount", "-o", "remount,abort", self.folder], stderr=subprocess.DEVNULL, check=False)

    def end(self) -> None:
        # the driver reads the log, so that it can't be unmounted
        self.host.kill(DRIVER)
        subprocess.run(["umount", self.folder], check=True)
        subprocess.run(["fsck.ext4", "-y", self.image], stdout=subprocess.DEVNULL, stderr=subprocess.DEVNULL, check=False)
        self.mount()


CASES: Dict[str, Tuple[Type[Disk], str]] = {
    "a full disk of the log": (Full, "log"), "a full disk of the work folder": (Full, "work"),
    "a log read-only": (ReadOnly, "log"), "a work folder read-only": (ReadOnly, "work"),
    "EIO of the log": (Shimmed, "log"), "EIO of the work folder": (Shimmed, "work"),
    "an ext4 of the log that gives up": (Aborted, "log"),
}


def run(asked: argparse.Namespace) -> Figures:
    figures = Figures("disks", vars(asked))
    tree = trees.chosen(asked)
    for name, (kind, part) in CASES.items():
        if asked.cases and name not in asked.cases:
            continue
        if kind is Aborted and (os.geteuid() or not shutil.which("mkfs.ext4")):
            figures.say(f"{name} is left out: it needs root and mkfs.ext4")
            continue
        one(asked, figures, tree, name, kind, part)
    return figures


def one(asked: argparse.Namespace, figures: Figures, tree: trees.Tree, name: str, kind: Type[Disk], part: str) -> None:
    """A run in which the disk of host 0 is bad for a while, once a quarter is built."""
    run = Run(asked, tree, figures, name, asked.nodes)
    figures.say(f"{run.name}: {run.wanted} units at {run.members} nodes, {asked.away:.0f} s")
    host = run.hosts[0]
    disk = kind(host, part)
    try:
        run.start()
        run.wait(lambda: run.held_by_some() >= run.wanted // 4)
        held = run.counts()
        since = time.monotonic()
        disk.begin()
        lasts(run, host, part, asked.away)
        # a busy machine may take longer to build something
        run.wait(lambda: max(run.counts()[1:]) > max(held[1:]) or run.all_held())
        gained = max(run.counts()[1:]) - max(held[1:])
        figures.add(f"{name}, held by the others meanwhile", gained, "units", f"{time.monotonic() - since:.0f} s")
        figures.expect(gained > 0 or run.all_held(), f"{name}: the others obtained nothing")
        disk.end()
        began, most = time.monotonic(), run.held_by_some()
        start_again(host)
        run.wait(lambda: host.follower.look() >= most)
        figures.add(f"{name}, until the host holds what any held", time.monotonic() - began, "s")
        run.finish()
    finally:
        run.may_end.add(f"{NODE} {host.me}")
        run.end()
    run.tell(run.check(allowed=["2", DEVICE]), run.by_listing() + asked.away, "list scheduler and the time of the bad disk")
    figures.add(f"{name}, faults that its node printed", sum(host.faults().values()), "faults", told(host.faults()))


def told(faults: Dict[str, int]) -> str:
    return ", ".join(f"{number}: {count}" for number, count in sorted(faults.items()))


def lasts(run: Run, host: Host, part: str, seconds: float) -> None:
    """The time with a bad disk. A node whose log's device failed ends with 3, and is started again once while that lasts; one whose work
    folder failed goes on, and so does the driver."""
    began = time.monotonic()
    if part == "log":
        run.may_end.add(f"{NODE} {host.me}")
        statuses = [status_of(run, host), None]
        if statuses[0] is not None:
            host.start(NODE)
            statuses[1] = status_of(run, host)
        right = statuses[0] == DOWN and statuses[1] in (1, DOWN) and DEVICE in host.faults()
        run.figures.expect(right, f"{run.name}: its node ended with {statuses}, and printed {host.faults()}, in place of {DEVICE}")
    run.wait(lambda: time.monotonic() > began + seconds)


def status_of(run: Run, host: Host) -> Optional[int]:
    """Waits until the host's node has ended, and returns its status."""
    process = host.processes[NODE]
    run.wait(lambda: process.poll() is not None, LONGEST_NOTICE)
    return process.poll()


def start_again(host: Host) -> None:
    """What an operator does once the disk is good: start what has ended, and have tried again what failed."""
    # what was read of a log and not on the disk may be gone
    host.follower = Follower(host.log)
    for part in (NODE, DRIVER):
        process = host.processes.get(part)
        if process is None or process.poll() is not None:
            host.start(part)
    retry(host)


def retry(host: Host) -> List[str]:
    """Removes the marks of builds that failed, and returns their names."""
    folder = f"{host.work}/failed"
    names = os.listdir(folder) if os.path.isdir(folder) else []
    for name in names:
        os.unlink(f"{folder}/{name}")
    return names
