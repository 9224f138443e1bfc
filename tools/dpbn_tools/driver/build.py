"""A build: its folder, which outlives the driver, and the command that runs in it."""
from __future__ import annotations

import contextlib
import enum
import errno
import json
import os
import re
import shutil
import stat
import subprocess
import tempfile
import time
from typing import Dict, List, NamedTuple, Optional

from dpbn_tools.folders import Packages
from dpbn_tools.log import Record
from dpbn_tools.paths import short_name
from dpbn_tools.driver.command import Command
from dpbn_tools.driver.groups import Group
from dpbn_tools.driver.job import Job

# how many bytes PACKAGES may have in the environment
MAX_PACKAGES = 100_000
# how long the files are that the supervisor writes, as they are made when the build begins
BLANK = b" " * 127 + b"\n"
ENDED = re.compile(r"(exit|signal|refused) ([0-9]+) ([0-9]+\.[0-9]) (synced|unsynced)\n")


class State(enum.Enum):
    """How far a build is."""

    # its folder is laid out
    LAYING = 1
    RUNNING = 2
    # it was asked to end
    ENDING = 3
    # it has ended, and what it made is looked at and handed in
    OVER = 4
    # nobody waits for it, and its folder is removed
    GONE = 5


class Ended(NamedTuple):
    """How a command ended: `exit`, `signal` or `refused`, with a number; how long it ran; and whether what it made is on the disk."""

    how: str
    number: int
    seconds: float
    is_synced: bool


def ended_by(text: str) -> Optional[Ended]:
    found = ENDED.match(text)
    return Ended(found[1], int(found[2]), float(found[3]), found[4] == "synced") if found else None


def printed_by(*words: str) -> bytes:
    """What a command of the system prints; nothing if there is no such command."""
    found = shutil.which(words[0], path=f"{os.environ.get('PATH', os.defpath)}:/sbin:/usr/sbin")
    if not found:
        return b""
    null = subprocess.DEVNULL
    return subprocess.run([found, *words[1:]], stdin=null, stdout=subprocess.PIPE, stderr=null, check=False).stdout


def mounted() -> Optional[List[bytes]]:
    """Where something is mounted, by Linux; None if it is another system."""
    try:
        with open("/proc/self/mountinfo", "rb") as file:
            places = [line.split(b" ")[4] for line in file]
    except (OSError, IndexError):
        return None
    return [re.sub(rb"\\([0-7]{3})", lambda found: bytes([int(found[1], 8)]), place) for place in places]


def has_mounts(folder: str) -> bool:
    """Whether something is mounted on the folder or below it, as a build may have left it."""
    place, places = os.fsencode(os.path.realpath(folder)), mounted()
    if places is not None:
        return any(it == place or it.startswith(place + b"/") for it in places)
    printed = printed_by("mount")
    return any(b" on " + place + end in printed for end in (b" ", b"/"))


def remove_folder(folder: str) -> bool:
    """Removes a folder with all that is in it, however deep it is, and also if its folders may not be changed. Returns whether that could
    be done. Files stay as they are: some are the store's, by another name; and so does what is mounted there."""
    if has_mounts(folder):
        return False
    remove = ["rm", "-rf", "--", folder]
    for words in (remove, ["find", folder, "-type", "d", "-exec", "chmod", "u+rwx", "{}", ";"], remove):
        if os.path.lexists(folder):
            subprocess.run(words, stdin=subprocess.DEVNULL, stdout=subprocess.DEVNULL, stderr=subprocess.DEVNULL, check=False)
    return not os.path.lexists(folder)


class Build:
    """A build of a job. The folder has:

    deps, out, obj   what the command finds; see build-jobs(1)
    job, about       the job's text; the unit, the place and when it began, as JSON
    control          a FIFO that the supervisor reads as long as it runs
    status           how the command ended, by the supervisor
    group            the command's process group, by its first process; all of them have the file open and locked
    names, packages, signatures  the files whose names the command gets
    """

    def __init__(self, job: Job, slot: int) -> None:
        self.job, self.slot, self.state = job, slot, State.LAYING
        self.folder = ""
        self.command: Optional[Command] = None
        # the end of `control` by which its own driver asks the supervisor, and what may be left if that was killed
        self.control = -1
        self.group: Optional[Group] = None
        self.began, self.over = time.time(), 0.0
        self.ended: Optional[Ended] = None
        # why it is ended: the reason of its failure, or why nobody waits for it
        self.failed, self.dropped = "", ""
        self.is_told_stuck, self.end_due = False, 0.0
        # how many pauses after failures there had been when it began
        self.pauses = 0
        # how much it printed, since when it is that, and how much is before that in the log
        self.printed, self.silent_since, self.header = -1, time.monotonic(), 0
        # what was made, once it was looked at, and the text to hand in
        self.made: Optional[Packages] = None
        self.text: Optional[List[str]] = None
        self.is_busy, self.due, self.is_reused = False, 0.0, False
        # whether it is due once a file of it was pushed
        self.awaits_push = False
        # when its limits are looked at again
        self.limits_due = 0.0
        # what is in DEPS, which of a build of an earlier run isn't known yet; and the key under which it is kept
        self.needed: Optional[List[Record]] = None
        self.key = ""

    def holds_place(self) -> bool:
        """Whether its command runs, or will in a moment."""
        return self.state in (State.LAYING, State.RUNNING, State.ENDING)

    def file(self, name: str) -> str:
        return f"{self.folder}/{name}"

    def make(self, parent: str) -> None:
        """Makes the folder, and what is in it before the packages."""
        self.folder = tempfile.mkdtemp(prefix=f"{short_name(self.job.unit)}.", dir=parent)
        os.chmod(self.folder, 0o755)
        for name in ("deps", "out", "obj"):
            os.mkdir(self.file(name))
        self.write("job", self.job.text)
        self.write("packages", b"".join(path + b"\n" for path in self.job.packages))
        self.write("about", json.dumps({"job": self.job.name, "slot": self.slot, "began": self.began, "key": self.key}).encode())
        for name in ("status", "group"):
            self.write(name, BLANK)
        os.mkfifo(self.file("control"), 0o600)

    def write(self, name: str, text: bytes) -> None:
        with open(self.file(name), "xb") as file:
            file.write(text)

    def tell_names(self, names: Dict[bytes, bytes], needed: List[Record]) -> None:
        """Writes the files of the packages' names: those to be made, and those that are in `deps`."""
        self.write("names", b"".join(b"%s %s\n" % pair for pair in sorted(names.items())))
        self.write("signatures", b"".join(record.signature() + b"\n" for record in sorted(needed, key=lambda record: record.path)))

    def environment(self, job_file: str, has_names: bool) -> Dict[str, str]:
        job, env = self.job, dict(os.environ)
        for name in ("PACKAGES", "NAMES"):
            env.pop(name, None)
        packages = b" ".join(job.packages).decode()
        if len(packages) <= MAX_PACKAGES:
            env["PACKAGES"] = packages
        if has_names:
            env["NAMES"] = self.file("names")
        env.update(PKGPATH=str(job), PACKAGES_FILE=self.file("packages"), SIGNATURES=self.file("signatures"), SLOT=str(self.slot),
                   HOST=job.host, JOB=job_file, DEPS=self.file("deps"), OUT=self.file("out"))
        return env

    def start(self, words: List[str], log: int, grace: float, env: Dict[str, str], begun: int) -> None:
        """Starts the command. Somebody reads the FIFO from before it runs until its supervisor ends, which has `begun` open so long."""
        watched = os.open(self.file("control"), os.O_RDONLY | os.O_NONBLOCK | os.O_CLOEXEC)
        control = os.open(self.file("control"), os.O_WRONLY | os.O_NONBLOCK | os.O_CLOEXEC)
        try:
            command = Command(words, "build", watched, grace, self.folder, log, env, self.file("obj"), lambda: os.close(control), (begun,))
        except BaseException:
            os.close(control)
            raise
        finally:
            os.close(watched)
        command.wait_for_start()
        self.command, self.control = command, control

    # ---- once it runs

    def is_alive(self) -> bool:
        """Whether its supervisor runs."""
        return is_read(self.file("control"))

    def ask_end(self) -> None:
        """Asks its supervisor to end it."""
        with contextlib.suppress(OSError):
            if self.command:
                if not self.command.is_gone():
                    os.write(self.control, b"e")
                return
            number = os.open(self.file("control"), os.O_WRONLY | os.O_NONBLOCK | os.O_CLOEXEC)
            try:
                os.write(number, b"e")
            finally:
                os.close(number)

    def poll(self, grace: float) -> bool:
        """Whether the command has ended. If its supervisor was killed, what is left of it is ended."""
        if self.command:
            if not self.command.poll():
                return False
            self.ended = ended_by(self.command.result() + "\n")
        elif self.is_alive():
            return False
        self.ended = self.ended or self.status()
        if self.ended or self.is_noted():
            return True
        self.group = self.group or Group(self.noted_group(), self.file("group"), self.command is not None)
        return self.group.has_ended(grace)

    def is_gone(self) -> bool:
        """Whether its supervisor is gone, too."""
        return self.command is None or self.command.is_gone()

    def read(self, name: str) -> str:
        """What a file has that the supervisor writes; nothing if it is gone."""
        try:
            with open(self.file(name), "rb") as file:
                return file.read(len(BLANK)).decode("ascii", "replace")
        except OSError:
            return ""

    def status(self) -> Optional[Ended]:
        """How it ended, by its file; None if nobody saw how, or it was ended on request."""
        return ended_by(self.read("status"))

    def is_noted(self) -> bool:
        """Whether its supervisor saw its end."""
        return bool(self.read("status").strip())

    def noted_group(self) -> str:
        """Which group it has, and since when."""
        noted = self.read("group")
        if not noted.strip() and self.command:
            # the folder was taken away
            return f"{self.command.group()} 0.0\n"
        return noted

    def seconds(self) -> float:
        return self.ended.seconds if self.ended else max(0.0, time.time() - self.began)

    def empty(self) -> None:
        """Removes what it made."""
        for name in ("deps", "out", "obj"):
            remove_folder(self.file(name))


def is_read(fifo: str) -> bool:
    """Whether somebody reads the FIFO. That of a build on NFS is local to its host, as the build is."""
    try:
        number = os.open(fifo, os.O_WRONLY | os.O_NONBLOCK | os.O_CLOEXEC)
    except OSError as error:
        # an error that says nothing of readers leaves the build alone
        return error.errno not in (errno.ENXIO, errno.ENOENT, errno.ENOTDIR)
    is_fifo = stat.S_ISFIFO(os.fstat(number).st_mode)
    os.close(number)
    return is_fifo


def adopted(folder: str) -> Optional[Build]:
    """A build that an earlier driver began; None if the folder has none that is whole."""
    try:
        with open(f"{folder}/about", "rb") as file:
            about = json.loads(file.read(4096))
        with open(f"{folder}/job", "rb") as file:
            build = Build(Job(str(about["job"]), file.read()), int(about["slot"]))
    except Exception:
        # a folder that wasn't laid out in full has no command
        return None
    build.folder, build.began, build.state = folder, float(about["began"]), State.RUNNING
    build.key = str(about.get("key", ""))
    return build
