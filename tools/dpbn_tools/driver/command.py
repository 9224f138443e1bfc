"""Commands that run next to the driver, each under a supervisor of its own (supervisor.py)."""
from __future__ import annotations

import array
import contextlib
import errno
import os
import select
import socket
import subprocess
import sys
import threading
import time
from typing import Callable, Dict, List, Optional, Sequence, Tuple

from dpbn_tools.driver.supervisor import text_of

SUPERVISOR = os.path.join(os.path.dirname(os.path.realpath(__file__)), "supervisor.py")
# how long the fork server may take to end once it isn't needed any more, in seconds
LONGEST_END = 1


class ForkServer:
    """The process that forks supervisors. It is started once, since an interpreter takes long for that, and again if it was killed."""

    def __init__(self) -> None:
        self.lock = threading.Lock()
        self.process: Optional["subprocess.Popen[bytes]"] = None
        self.requests: Optional[socket.socket] = None

    def start(self) -> socket.socket:
        """Starts the server if it doesn't run."""
        if not self.requests or not self.process or self.process.poll() is not None:
            self.close()
            own, other = socket.socketpair()
            with other:
                try:
                    self.process = subprocess.Popen([sys.executable or "python3", "-I", "-S", SUPERVISOR, str(other.fileno())],
                                                    stdin=subprocess.DEVNULL, stdout=subprocess.DEVNULL, stderr=subprocess.DEVNULL,
                                                    start_new_session=True, pass_fds=(other.fileno(),))
                except BaseException:
                    own.close()
                    raise
            self.requests = own
        return self.requests

    def prepare(self) -> None:
        """Starts the server before it is needed. If that can't be now, it is done then."""
        with contextlib.suppress(OSError), self.lock:
            self.start()

    def send(self, numbers: Sequence[int]) -> None:
        """Sends a request by its descriptors."""
        rights = [(socket.SOL_SOCKET, socket.SCM_RIGHTS, array.array("i", numbers))]
        with self.lock:
            try:
                self.start().sendmsg([b"x"], rights)
            except (BrokenPipeError, ConnectionResetError):
                # it was killed just now
                self.close()
                self.start().sendmsg([b"x"], rights)

    def close(self) -> None:
        """Has the server end. Supervisors go on."""
        if self.requests:
            self.requests.close()
        if self.process:
            with contextlib.suppress(subprocess.TimeoutExpired):
                self.process.wait(LONGEST_END)
        self.requests = self.process = None


SERVER = ForkServer()


class Command:
    """A command that runs, or has run. What it reports comes by a pipe, which has an end once its supervisor is gone. The supervisor
    watches one descriptor, and keeps others open as long as it runs."""

    def __init__(self, words: Sequence[str], kind: str, watched: int, grace: float, folder: str, out: int, env: Dict[str, str],
                 where: str = "", close: Callable[[], None] = lambda: None, kept: Tuple[int, ...] = ()) -> None:
        self.began, self.text, self.close_end, self.kind = time.monotonic(), b"", close, kind
        self.reads, report = os.pipe()
        os.set_blocking(self.reads, False)
        text, writes = os.pipe()
        try:
            SERVER.send((text, watched, report, out, *kept))
            os.close(text)
            text = -1
            with open(writes, "wb", closefd=False) as file:
                file.write(text_of(kind, grace, folder, where, list(words), env))
        except BaseException:
            os.close(self.reads)
            raise
        finally:
            for number in (text, writes, report):
                if number >= 0:
                    os.close(number)

    def wait_for_start(self) -> None:
        """Waits until the command is started. An OSError says that nothing could be started."""
        while not self.is_gone() and not self.group():
            select.select([self.reads], [], [])
        if not self.group():
            raise OSError(errno.EAGAIN, "no process can be started for it now")

    def poll(self) -> bool:
        """Whether the command has ended. Of a build that is known before its supervisor is gone, which still syncs what was made."""
        return self.is_gone() or self.kind == "build" and bool(self.result())

    def is_gone(self) -> bool:
        """Whether its supervisor is gone; then what it reported is complete."""
        while self.reads >= 0:
            try:
                part = os.read(self.reads, 4096)
            except BlockingIOError:
                return False
            self.text += part
            if not part:
                os.close(self.reads)
                self.reads = -1
                self.end()
        return True

    def group(self) -> int:
        """The number of the command's process group, if it was reported."""
        line = self.text.split(b"\n")[0]
        return int(line[6:]) if line.startswith(b"group ") else 0

    def result(self) -> str:
        """How it ended: `exit N`, `signal N`, `refused ERRNO`, with more after these; nothing if nobody saw how."""
        lines = self.text.decode().split("\n")
        return lines[1] if len(lines) > 2 else ""

    def has_succeeded(self) -> bool:
        return self.result() == "exit 0"

    def end(self) -> None:
        """Asks a helper's supervisor to end it. It does that by itself when the driver is gone."""
        self.close_end()
        self.close_end = nothing


def nothing() -> None:
    """What is to be closed once it is closed."""


def helper(words: Sequence[str], log: Optional[str], env: Dict[str, str], grace: float = 2, out: Optional[int] = None) -> Command:
    """Runs a command that ends when the driver does, or is asked to. What it prints is appended to a log, or goes to `out`."""
    life, held = os.pipe()
    numbers = [life]
    try:
        if out is None:
            out = os.open(log or os.devnull, os.O_WRONLY | os.O_APPEND | os.O_CREAT | os.O_CLOEXEC, 0o666)
            numbers.append(out)
        return Command(words, "helper", life, grace, "-", out, env, close=lambda: os.close(held))
    except BaseException:
        os.close(held)
        raise
    finally:
        for number in numbers:
            os.close(number)


def shell(command: str) -> List[str]:
    return ["/bin/sh", "-c", command]
