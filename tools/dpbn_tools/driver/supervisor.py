"""Starts commands for the driver, and supervises each, by a process of its own that outlives the
driver if need be.

    supervisor.py SOCKET

This is a fork server: it waits for requests, forks a supervisor for each, and ends with its driver.
A request is a byte in the socket with these descriptors: the request's text, what the supervisor
watches, where it reports, what the command prints to, and those that the supervisor keeps open. The
text has these fields, each with a zero byte after it:

    COUNT of the other fields, KIND, GRACE, FOLDER, working folder, NUMBER of words, WORD ..,
    NAME=VALUE ..

KIND is `build` or `helper`. The command runs in a process group of its own. When it ends, what is
left of that group is killed. It doesn't get what its supervisor has open, so it can't close that.

A build goes on without its driver. Its supervisor watches the FIFO `control` in FOLDER: as long as
it runs somebody reads there, and a byte that is written there asks it to end the build. It keeps
the file open that shows the job as begun, which is locked. After a build that ended with 0, the
files below FOLDER/out are synced. How it ended is written into FOLDER/status, or `asked` if it was
asked to end.

FOLDER/group has the number of the command's group, and how long the system ran when it began. The
command has that file open and locked. So what is left of a build is known whose supervisor was
killed. The driver made both files as long as they have to be: no full disk keeps anybody from
writing them.

A helper ends with its driver: its supervisor watches the end of a pipe that the driver holds.

To end a group, it gets SIGTERM, and SIGKILL if there is anything left of it GRACE seconds later.
The report is a line `group N` once the command is started, and a line like that of the status when
it has ended, before anything is synced; nothing if it was ended on request."""
from __future__ import annotations

import array
import errno
import fcntl
import os
import select
import signal
import socket
import sys
import time
from typing import Dict, List, NamedTuple

# how often is looked for what is left of a group that is to end, in seconds
PAUSE = 0.02
# from which number on the command has the file of its group open: scripts use the small ones
KEPT = 100
# the most descriptors of a request
MOST_NUMBERS = 8


class Request(NamedTuple):
    """What is to be run, and how."""

    kind: str
    grace: float
    folder: str
    where: bytes
    command: List[bytes]
    env: Dict[bytes, bytes]


def text_of(kind: str, grace: float, folder: str, where: str, command: List[str], env: Dict[str, str]) -> bytes:
    """The text of a request."""
    words = [kind, str(grace), folder, where, str(len(command)), *command, *(f"{name}={value}" for name, value in env.items())]
    return b"".join(os.fsencode(field) + b"\0" for field in (str(len(words)), *words))


def request_of(text: bytes) -> Request | None:
    """The request that has this text; None if it isn't whole, since the driver was killed meanwhile."""
    count, *fields = text.split(b"\0")
    if not fields or fields.pop() or len(fields) != int(count):
        return None
    kind, grace, folder, where, words = fields[:5]
    most = 5 + int(words)
    env = {name: value for name, _, value in (field.partition(b"=") for field in fields[most:])}
    return Request(kind.decode(), float(grace), os.fsdecode(folder), where, fields[5:most], env)


def start(request: Request) -> tuple[int, int]:
    """Starts the command in a group of its own. Returns its number, and that of the error if it couldn't be started."""
    reads, writes = os.pipe()
    child = os.fork()
    if child == 0:
        try:
            os.setpgid(0, 0)
            for number in (signal.SIGPIPE, signal.SIGCHLD, signal.SIGHUP, signal.SIGINT, signal.SIGTERM):
                signal.signal(number, signal.SIG_DFL)
            if hasattr(signal, "SIGXFSZ"):
                signal.signal(signal.SIGXFSZ, signal.SIG_DFL)
            if request.kind == "build":
                note_group(f"{request.folder}/group")
            os.execvpe(request.command[0], request.command, request.env)
        except OSError as error:
            os.write(writes, str(error.errno).encode())
        finally:
            os._exit(127)
    os.close(writes)
    try:
        os.setpgid(child, child)
    except OSError:
        # it has done so itself, or is gone
        pass
    told = os.read(reads, 16)
    os.close(reads)
    return child, int(told) if told else 0


def since_boot() -> float:
    """The seconds since the system was started, with those of its sleep if the system has a clock for that."""
    return time.clock_gettime(getattr(time, "CLOCK_BOOTTIME", time.CLOCK_MONOTONIC))


def note_group(path: str) -> None:
    """Writes down which group this process leads, and since when. It and all that it begins keep the file open and locked."""
    number = os.open(path, os.O_RDWR | os.O_CLOEXEC)
    os.pwrite(number, f"{os.getpid()} {since_boot():.1f}\n".encode(), 0)
    try:
        fcntl.flock(number, fcntl.LOCK_EX | fcntl.LOCK_NB)
        fcntl.fcntl(number, fcntl.F_DUPFD, KEPT)
    except OSError:
        # there are no locks there, or no such numbers here: the group is known by its first process alone
        pass
    os.close(number)


def send(group: int, number: int) -> bool:
    """Sends a signal to a group. Returns whether there is anything of it."""
    try:
        os.killpg(group, number)
    except ProcessLookupError:
        return False
    except PermissionError:
        # it runs as another user
        pass
    return True


def has_ended(child: int) -> int | None:
    """The status of a child that has ended, else None."""
    pid, status = os.waitpid(child, os.WNOHANG)
    return status if pid else None


def waited(child: int) -> int | None:
    """The same, and what is left of its group is killed. That is done before its number is free, if the system allows it; else right
    after that: a group keeps its number as long as anything of it runs."""
    if hasattr(os, "waitid") and not os.waitid(os.P_PID, child, os.WEXITED | os.WNOHANG | os.WNOWAIT):
        return None
    if hasattr(os, "waitid"):
        send(child, signal.SIGKILL)
    status = has_ended(child)
    if status is not None:
        send(child, signal.SIGKILL)
    return status


def sync(path: str) -> None:
    number = os.open(path, os.O_RDONLY | os.O_NONBLOCK | os.O_NOFOLLOW)
    try:
        os.fsync(number)
    finally:
        os.close(number)


def raised(error: OSError) -> None:
    raise error


def sync_below(folder: str) -> bool:
    """Brings all files in the folder to the disk. Returns whether that could be done."""
    try:
        for where, _, files in os.walk(folder, onerror=raised):
            for name in files:
                path = os.path.join(where, name)
                if os.path.isfile(path) and not os.path.islink(path):
                    sync(path)
            sync(where)
    except (OSError, RecursionError):
        return False
    return True


class Supervisor:
    """One command, and what was asked of it."""

    def __init__(self, request: Request, watched: int, report: int) -> None:
        self.request, self.watched, self.report = request, watched, report
        self.child, self.began = 0, time.monotonic()
        self.status: int | None = None
        self.is_asked = False
        self.wake, writes = os.pipe()
        os.set_blocking(writes, False)
        os.set_blocking(self.wake, False)
        signal.set_wakeup_fd(writes, warn_on_full_buffer=False)
        for number in (signal.SIGTERM, signal.SIGHUP, signal.SIGINT):
            signal.signal(number, self.asked)
        signal.signal(signal.SIGCHLD, lambda *_: None)
        if request.kind == "build":
            # with a writer of its own the FIFO never looks as if it had ended
            self.own_end = os.open(f"{request.folder}/control", os.O_WRONLY | os.O_NONBLOCK)

    def asked(self, *_: object) -> None:
        self.is_asked = True

    def tell(self, text: str) -> None:
        try:
            os.write(self.report, text.encode())
        except OSError:
            # the driver is gone, or doesn't read
            pass

    def run(self) -> None:
        self.child, refused = start(self.request)
        self.tell(f"group {self.child}\n")
        if refused:
            os.waitpid(self.child, 0)
            self.finish(f"refused {refused}")
            return
        while self.status is None and not self.is_asked:
            self.listen()
            self.status = waited(self.child)
        if self.status is None:
            self.end()
            self.note("asked")
        elif os.WIFSIGNALED(self.status):
            self.finish(f"signal {os.WTERMSIG(self.status)}")
        else:
            self.finish(f"exit {os.WEXITSTATUS(self.status)}")

    def listen(self) -> None:
        """Waits for a signal, or for what the driver says."""
        ready, _, _ = select.select([self.wake, self.watched], [], [])
        if self.wake in ready:
            try:
                os.read(self.wake, 4096)
            except OSError:
                pass
        if self.watched in ready:
            try:
                os.read(self.watched, 4096)
            except OSError:
                pass
            # a byte in the FIFO, or the end of the driver's pipe
            self.is_asked = True
            if self.request.kind == "helper":
                self.watched = self.wake

    def end(self) -> None:
        """Ends the group. The command may clean up, and what it began, too; nobody looks at how it ends."""
        send(self.child, signal.SIGTERM)
        deadline, is_killed = time.monotonic() + self.request.grace, False
        status: int | None = None
        while True:
            if status is None:
                status = has_ended(self.child)
            if status is not None and not send(self.child, 0):
                return
            if time.monotonic() >= deadline:
                # what can't be killed, since it runs as another user, is waited for
                if not send(self.child, signal.SIGKILL) and status is not None:
                    return
                if is_killed and status is not None:
                    return
                is_killed = True
            select.select([], [], [], PAUSE if not is_killed else 10 * PAUSE)

    def finish(self, how: str) -> None:
        took = time.monotonic() - self.began
        if self.request.kind == "build":
            # the driver goes on with what was made, while it is brought to the disk for one that comes after a stop
            self.tell(f"{how} {took:.1f} unsynced\n")
            kept = how != "exit 0" or sync_below(f"{self.request.folder}/out")
            self.note(f"{how} {took:.1f} {'synced' if kept else 'unsynced'}")
        else:
            self.tell(f"{how}\n")

    def note(self, how: str) -> None:
        """Writes down how a build ended, for a driver that comes later."""
        path = f"{self.request.folder}/status"
        try:
            if self.request.kind == "build":
                number = os.open(path, os.O_WRONLY)
                os.pwrite(number, f"{how}\n".encode(), 0)
                os.fsync(number)
                os.close(number)
        except OSError as error:
            if error.errno != errno.ENOENT:
                os.write(2, os.fsencode(f"supervisor: {path}: {error}\n"))


def supervise(numbers: list[int]) -> None:
    """Reads a request, and runs its command. The driver goes on as soon as the report has an end."""
    text, watched, report, out = numbers[:4]
    with open(text, "rb") as file:
        request = request_of(file.read())
    if not request:
        return
    os.setsid()
    if request.where:
        os.chdir(request.where)
    for number in (1, 2):
        os.dup2(out, number)
    os.close(out)
    Supervisor(request, watched, report).run()


class ForkServer:
    """What waits for requests."""

    def __init__(self, number: int) -> None:
        self.requests = socket.socket(fileno=number)
        signal.signal(signal.SIGCHLD, self.reap)

    @staticmethod
    def reap(*_: object) -> None:
        """Takes note of supervisors that have ended."""
        try:
            while os.waitpid(-1, os.WNOHANG)[0]:
                pass
        except ChildProcessError:
            pass

    def numbers(self) -> list[int] | None:
        """The descriptors of the next request; None if the driver is gone."""
        numbers = array.array("i")
        text, more, _, _ = self.requests.recvmsg(1, socket.CMSG_SPACE(MOST_NUMBERS * numbers.itemsize))
        for level, kind, data in more:
            if (level, kind) == (socket.SOL_SOCKET, socket.SCM_RIGHTS):
                numbers.frombytes(data[:len(data) - len(data) % numbers.itemsize])
        for number in numbers:
            os.set_inheritable(number, False)
        return list(numbers) if text else None

    def run(self) -> None:
        while True:
            numbers = self.numbers()
            if numbers is None:
                return
            try:
                child = os.fork()
            except OSError:
                # the driver sees that the report has an end before its begin
                child = -1
            if child == 0:
                try:
                    self.requests.close()
                    supervise(numbers)
                finally:
                    os._exit(0)
            for number in numbers:
                os.close(number)


if __name__ == "__main__":
    ForkServer(int(sys.argv[1])).run()
