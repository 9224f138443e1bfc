"""Keeps the node and the driver of one host running: what ends for no good reason is started again."""
from __future__ import annotations

import contextlib
import fcntl
import json
import os
import shutil
import signal
import subprocess
import time
from typing import Any, BinaryIO, Callable, Dict, List, Optional

from dpbn_tools import host_ends
from dpbn_tools.host_ends import AGAIN, GIVEN_UP, RESTS, STOPPED, End
from dpbn_tools.host_folder import DRIVER, NODE, BadFolder, Folder, tail_of
from dpbn_tools.host_words import driver_words, environment, node_words
from dpbn_tools.whole_files import put

SIGNALS = (signal.SIGHUP, signal.SIGINT, signal.SIGTERM)
PAUSE = 0.25
# the first and the longest wait before a part is started again, and how long it has to run for the first one to hold again, in seconds
FIRST_WAIT, LONGEST_WAIT = 1, 60
# how long a part may take to end, in seconds: a driver hands in what is over and ends its builds
DRIVER_ENDS, NODE_ENDS = 120, 20
# an output that is longer is cut to its last part
MAX_OUTPUT, KEPT_OUTPUT = 1 << 26, 1 << 22
STATUS_OF_REST, STATUS_GIVEN_UP = 3, 1


class Part:
    """The node or the driver."""

    def __init__(self, folder: Folder, name: str) -> None:
        self.folder, self.name = folder, name
        self.process: Optional[subprocess.Popen[bytes]] = None
        self.began, self.starts, self.output_began = 0.0, 0, 0
        self.wait, self.due = float(FIRST_WAIT), 0.0
        self.end: Optional[End] = None

    @property
    def is_over(self) -> bool:
        return self.end is not None and self.end.what != AGAIN

    def start(self, words: List[str]) -> bool:
        """Starts it, unless one that an earlier keeper started still runs. It holds its lock as long as it runs."""
        seen = environment(self.folder)
        if not shutil.which(words[0], path=seen["PATH"]):
            self.began = time.time()
            self.ended(End(AGAIN, f"there is no {words[0]} in {seen['PATH']}"))
            return True
        lock = os.open(self.folder.at(f"{self.name}.lock"), os.O_RDWR | os.O_CREAT | os.O_CLOEXEC, 0o644)
        try:
            fcntl.flock(lock, fcntl.LOCK_EX | fcntl.LOCK_NB)
        except BlockingIOError:
            os.close(lock)
            return False
        out = os.open(self.folder.output(self.name), os.O_WRONLY | os.O_APPEND | os.O_CREAT | os.O_CLOEXEC, 0o644)

        def mark() -> None:
            os.ftruncate(lock, 0)
            os.pwrite(lock, b"%d\n" % os.getpid(), 0)

        try:
            self.output_began = os.fstat(out).st_size
            self.starts += 1
            self.began = time.time()
            self.process = subprocess.Popen(words, cwd=self.folder.path, env=seen, stdin=subprocess.DEVNULL, stdout=out, stderr=out,
                                            pass_fds=[lock], start_new_session=True, preexec_fn=mark)
            self.end = None
        except OSError as error:
            self.ended(End(AGAIN, str(error)))
        finally:
            os.close(out)
            os.close(lock)
        return True

    def look(self) -> None:
        """Sees whether it ended."""
        if self.process and self.process.poll() is not None:
            status, self.process = self.process.returncode, None
            output = tail_of(self.folder.output(self.name), self.output_began)
            self.ended((host_ends.of_node if self.name == NODE else host_ends.of_driver)(status, output))

    def ended(self, end: End) -> None:
        self.end = end
        if time.time() - self.began > LONGEST_WAIT:
            self.wait = FIRST_WAIT
        self.due = time.monotonic() + self.wait
        self.wait = min(2 * self.wait, LONGEST_WAIT)
        tell(f"the {self.name} {'' if end.what == RESTS else 'ended: '}{end.why}"
             + (f"; it is started again in {self.due - time.monotonic():.0f} s" if end.what == AGAIN else ""))

    def stop(self, seconds: float) -> None:
        """Ends it, whoever started it."""
        if not self.runs():
            return
        pid = self.process.pid if self.process else self.folder.holder(self.name)
        if not end_process(pid, seconds, self.runs):
            tell(f"the {self.name} doesn't end")
        self.process, self.end = None, End(STOPPED, "it was stopped")

    def runs(self) -> bool:
        if self.process:
            return self.process.poll() is None
        return self.folder.holder(self.name) is not None

    def told(self) -> Dict[str, Any]:
        return {"since": self.began, "starts": self.starts, "end": self.end.why if self.end else None,
                "what": self.end.what if self.end else None}


def end_process(pid: Optional[int], seconds: float, runs: Callable[[], bool]) -> bool:
    """Asks a process to end, and ends it if it still runs after some time. Returns whether it has ended."""
    for number, wait in ((signal.SIGTERM, seconds), (signal.SIGKILL, 5.0)):
        with contextlib.suppress(ProcessLookupError, PermissionError):
            if pid:
                os.kill(pid, number)
        end = time.monotonic() + wait
        while runs() and time.monotonic() < end:
            time.sleep(PAUSE / 5)
        if not runs():
            return True
    return False


class Keeper:
    """Both parts, or one of them."""

    def __init__(self, folder: Folder, only: Optional[str], is_new: bool) -> None:
        self.folder, self.is_new = folder, is_new
        self.file = folder.file()
        self.host = folder.host(self.file)
        self.parts = [Part(folder, name) for name in (NODE, DRIVER) if only in (None, name)]
        self.signal = 0
        self.written: Dict[str, Any] = {}

    def words(self, part: Part) -> List[str]:
        if part.name == DRIVER:
            return driver_words(self.folder, self.file, self.host)
        # a node that ran left a file, and a folder that was emptied since must not make it a new member
        self.is_new = self.is_new and not self.folder.has_begun()
        return node_words(self.folder, self.file, self.host, self.is_new)

    def came(self, number: int, _: object) -> None:
        self.signal = self.signal or number

    def run(self) -> int:
        """Keeps them running. Returns the program's status."""
        for number in SIGNALS:
            signal.signal(number, self.came)
        tell(f"begins, as {self.host.name}")
        node = self.parts[0] if self.parts[0].name == NODE else None
        while not self.signal and not (node and node.is_over):
            for part in self.parts:
                self.keep(part)
            self.write()
            time.sleep(PAUSE)
        self.stop()
        tell("ends")
        self.write(is_over=True)
        if self.signal:
            return 0
        end = node.end if node else None
        return STATUS_GIVEN_UP if not end or end.what == GIVEN_UP else 0 if end.holds_all else STATUS_OF_REST

    def keep(self, part: Part) -> None:
        part.look()
        cut(self.folder.output(part.name))
        if not part.process and not part.is_over and time.monotonic() >= part.due and not part.start(self.words(part)):
            part.due = time.monotonic() + FIRST_WAIT

    def stop(self) -> None:
        """The driver first: what is over is handed in to the node."""
        for part in reversed(self.parts):
            part.stop(DRIVER_ENDS if part.name == DRIVER else NODE_ENDS)

    def write(self, is_over: bool = False) -> None:
        state: Dict[str, Any] = {"pid": os.getpid(), "is_over": is_over, "signal": self.signal}
        state.update({part.name: part.told() for part in self.parts})
        if state != self.written:
            with contextlib.suppress(OSError):
                put(self.folder.at("state.json"), json.dumps(state).encode())
                self.written = state


def cut(path: str) -> None:
    """Keeps an output short. Those who write to it append."""
    with contextlib.suppress(OSError):
        if os.path.getsize(path) <= MAX_OUTPUT:
            return
        with open(path, "r+b") as file:
            file.seek(-KEPT_OUTPUT, os.SEEK_END)
            last = file.read(KEPT_OUTPUT)
            file.truncate(0)
        with open(path, "ab") as file:
            file.write(b".. " + last)


def tell(text: str) -> None:
    print(f"{time.strftime('%F %T')} dpbn-host: {text}", flush=True)


def keep(folder: Folder, only: Optional[str], is_new: bool) -> int:
    """Holds the keeper's lock, and keeps the parts running."""
    with open(folder.at("keeper.lock"), "a+b") as lock:
        if not has_locked(lock):
            raise BadFolder(f"{folder.path}: it runs already")
        os.ftruncate(lock.fileno(), 0)
        os.write(lock.fileno(), b"%d\n" % os.getpid())
        return Keeper(folder, only, is_new).run()


def has_locked(lock: BinaryIO) -> bool:
    """Locks it. Those who check the lock hold it for a moment, too."""
    end = time.monotonic() + FIRST_WAIT
    while True:
        try:
            fcntl.flock(lock, fcntl.LOCK_EX | fcntl.LOCK_NB)
            return True
        except BlockingIOError:
            if time.monotonic() > end:
                return False
            time.sleep(PAUSE / 5)
