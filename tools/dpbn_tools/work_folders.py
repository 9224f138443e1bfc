"""What a work folder shows of its host: jobs that are posted, builds that run, builds that failed, and what their logs say."""
from __future__ import annotations

import contextlib
import os
import re
import stat
from typing import Dict, Iterator, List, NamedTuple, Optional, Tuple

from dpbn_tools import build_times
from dpbn_tools.paths import short_name

BUILDS, QUEUED, HANDED_IN = "builds", "queued", "handed in"
NAME = re.compile("[0-9a-f]{64}")
CLAIM = re.compile(r"^@claim ([0-9]{1,19})\.([0-8])$", re.MULTILINE)
UNIT = re.compile(r"^@unit (\S+)$", re.MULTILINE)
# how much is read of a job's text at its front and at its end, of a mark, and of a log at its end
FRONT, END, MARK, TAIL = 4096, 1024, 4096, 65_536
# how many lines of a log are shown
LINES = 40


class Job(NamedTuple):
    """A job that is posted: its unit, the member that posted it, and since when it has been there."""

    unit: str
    member: Optional[int]
    since: float


class Mark(NamedTuple):
    """A build that failed: the unit if it is known, the reason, the name of its log if it is named, and since when it has been there."""

    unit: Optional[str]
    reason: str
    log: Optional[str]
    since: float


def place_of(unit: str) -> str:
    """What files and folders of a unit are named (build-jobs(1))."""
    return short_name(unit.encode("latin-1"))


def parts_of(path: str, front: int, end: int) -> Tuple[str, str]:
    """The beginning and the end of a regular file. Anything else, as a FIFO, has none, and nobody is waited for."""
    number = os.open(path, os.O_RDONLY | os.O_NONBLOCK)
    try:
        about = os.fstat(number)
        if not stat.S_ISREG(about.st_mode):
            return "", ""
        return os.pread(number, front, 0).decode("latin-1"), os.pread(number, end, max(0, about.st_size - end)).decode("latin-1")
    finally:
        os.close(number)


def text_of(raw: bytes) -> str:
    """Text that can be shown anywhere: bytes of no character, and characters that control a terminal, are replaced."""
    text = raw.decode("utf-8", "replace").replace("\r\n", "\n").replace("\t", "    ")
    return re.sub("[\x00-\x09\x0b-\x1f\x7f-\x9f\ud800-\udfff]", "\ufffd", text)


def tail_of(path: str) -> bytes:
    """The last bytes of a regular file, from the beginning of a line on; of any other, nothing."""
    try:
        number = os.open(path, os.O_RDONLY | os.O_NONBLOCK)
    except OSError:
        return b""
    try:
        about = os.fstat(number)
        if not stat.S_ISREG(about.st_mode):
            return b""
        text = os.pread(number, TAIL, max(0, about.st_size - TAIL))
        return text if about.st_size <= TAIL else text.partition(b"\n")[2] or text
    except OSError:
        return b""
    finally:
        os.close(number)


class Folder:
    """The files of one folder, of which each is read once, and anew if it was touched."""

    def __init__(self, path: str) -> None:
        self.path = path
        self.seen: Dict[str, Tuple[int, int]] = {}

    def changes(self) -> Tuple[List[Tuple[str, float]], List[str]]:
        """The names of files that came or were touched, with the times of that, and of those that are gone."""
        there = {}
        try:
            with os.scandir(self.path) as entries:
                for entry in entries:
                    if NAME.fullmatch(entry.name):
                        with contextlib.suppress(FileNotFoundError):
                            about = entry.stat()
                            there[entry.name] = about.st_mtime_ns, about.st_size
        except (FileNotFoundError, NotADirectoryError):
            pass
        gone = [name for name in self.seen if name not in there]
        new = [(name, touched[0] / 1e9) for name, touched in there.items() if self.seen.get(name) != touched]
        self.seen = there
        return new, gone


class Work:
    """A work folder, which is only read."""

    def __init__(self, path: str, units: Dict[str, str], logs: Optional[str] = None) -> None:
        # `units` has each unit by what its files are named
        self.path, self.units, self.logs = path, units, logs or f"{path}/logs"
        self.names = set(units.values())
        self.folders = {part: Folder(f"{path}/{part}") for part in ("jobs", "done", "failed", "begun")}
        self.jobs: Dict[str, Job] = {}
        self.marks: Dict[str, Mark] = {}
        self.times = build_times.Growing(f"{path}/times")
        self.running: Dict[str, float] = {}
        self.member: Optional[int] = None
        self.is_draining = False
        # why the host can't build now, if it can't
        self.away: Optional[str] = None

    def look(self) -> None:
        """One look at all of it. What the system refuses is raised, and may be tried again."""
        new, gone = self.folders["jobs"].changes()
        for name in gone:
            self.jobs.pop(name, None)
        for name, since in new:
            with contextlib.suppress(FileNotFoundError):
                self.take_job(name, since)
        new, gone = self.folders["failed"].changes()
        for name in gone:
            self.marks.pop(name, None)
        for name, since in new:
            with contextlib.suppress(FileNotFoundError):
                self.marks[name] = self.mark(name, since)
        for part in ("done", "begun"):
            self.folders[part].changes()
        self.times.look()
        self.running = self.begun() if os.path.isdir(f"{self.path}/begun") else self.builds()
        self.is_draining = os.path.lexists(f"{self.path}/stop")
        self.away = self.reason("away")

    def reason(self, name: str) -> Optional[str]:
        """What the first line of a file says, if the file is there."""
        try:
            text, _ = parts_of(f"{self.path}/{name}", MARK, 0)
        except OSError:
            return None
        return text_of(text.partition("\n")[0].encode("latin-1")).strip()

    def take_job(self, name: str, since: float) -> None:
        front, end = parts_of(f"{self.path}/jobs/{name}", FRONT, END)
        unit, claims = UNIT.search(front), CLAIM.findall(end)
        if unit:
            earlier = self.jobs.get(name)
            member = int(claims[-1][1]) if claims else None
            self.jobs[name] = Job(unit[1], member, earlier.since if earlier else since)
            self.member = member if member is not None else self.member

    def mark(self, name: str, since: float) -> Mark:
        """What a mark says: `UNIT: REASON`, and in a second line where the log is; or any reason in one line."""
        front, _ = parts_of(f"{self.path}/failed/{name}", MARK, 0)
        first, _, rest = front.partition("\n")
        unit, colon, reason = first.partition(": ")
        log = os.path.basename(rest.partition("\n")[0]) or None
        job = self.jobs.get(name)
        if not colon or unit not in self.names:
            unit, reason = job.unit if job else "", first
        return Mark(unit or None, text_of(reason.encode("latin-1")).strip() or "no reason is given", log, since)

    def open_jobs(self) -> Dict[str, Job]:
        """The jobs that have no answer."""
        answered = {*self.folders["failed"].seen, *self.folders["done"].seen}
        return {name: job for name, job in self.jobs.items() if name not in answered}

    def begun(self) -> Dict[str, float]:
        """The units of which a build runs, and since when: each of these jobs has a file that says so."""
        seen = self.folders["begun"].seen
        return {job.unit: seen[name][0] / 1e9 for name, job in self.open_jobs().items() if name in seen}

    def builds(self) -> Dict[str, float]:
        """The same by the folders of builds, if the driver writes no such files."""
        found: Dict[str, float] = {}
        wanted = {job.unit for job in self.open_jobs().values()}
        try:
            with os.scandir(f"{self.path}/build") as entries:
                for entry in entries:
                    unit = self.units.get(entry.name.rpartition(".")[0])
                    if unit in wanted:
                        with contextlib.suppress(FileNotFoundError):
                            found[unit] = os.stat(f"{entry.path}/lock").st_mtime
        except (FileNotFoundError, NotADirectoryError):
            pass
        return found

    def states(self) -> Iterator[Tuple[str, str, float]]:
        """The units that are about to be built here, are built or were, in which state they are, and since when."""
        for name, job in self.jobs.items():
            if name in self.folders["failed"].seen:
                continue
            if name in self.folders["done"].seen:
                yield job.unit, HANDED_IN, job.since
            elif job.unit in self.running:
                yield job.unit, BUILDS, self.running[job.unit]
            else:
                yield job.unit, QUEUED, job.since

    def log_of(self, unit: str) -> Optional[str]:
        """The path of the log of the last build."""
        return self.first_log(f"{place_of(unit)}.log")

    def failed_log(self, unit: str, named: Optional[str]) -> Optional[str]:
        """The path of the log of a build that failed: by the name that the mark has for it, or by the unit's."""
        names = [name for name in (named, f"{place_of(unit)}.log") if name]
        return self.first_log(*(f"failed/{name}" for name in names), *names)

    def first_log(self, *names: str) -> Optional[str]:
        return next((f"{self.logs}/{name}" for name in names if os.path.isfile(f"{self.logs}/{name}")), None)
