"""Runs a Python program without the calls that only Linux has, or that Python on OpenBSD may lack: it is in place of python3.

    without-linux.py PYTHON [-I] [-S] [-B] [-c TEXT | -m MODULE | FILE] [ARGUMENT ..]

PYTHON is what the program finds as sys.executable, so that what it starts runs without these calls, too."""
import errno
import fcntl
import os
import runpy
import select
import shutil
import signal
import socket
import sys
import tempfile
from typing import Any, Callable, Tuple

GONE = {
    os: ("waitid", "sendfile", "copy_file_range", "splice", "memfd_create", "eventfd", "pidfd_open", "posix_fallocate", "posix_fadvise", "fdatasync",
         "sched_getaffinity", "sched_setaffinity", "getxattr", "setxattr", "listxattr", "removexattr", "getrandom", "setresuid", "O_TMPFILE", "O_PATH",
         "O_NOATIME", "O_DIRECT", "setns", "unshare", "P_PIDFD", "WNOWAIT", "WEXITED"),
    select: ("epoll",),
    signal: ("pidfd_send_signal", "sigwaitinfo", "sigtimedwait"),
    fcntl: ("F_OFD_SETLK", "F_OFD_GETLK", "F_OFD_SETLKW", "F_SETPIPE_SZ", "F_GETPIPE_SZ", "F_ADD_SEALS"),
    socket: ("SO_PEERCRED", "AF_NETLINK", "AF_PACKET", "AF_ALG", "SO_BINDTODEVICE"),
}
FOLDERS = ("/proc", "/sys")


def check(path: object) -> None:
    """OpenBSD has neither /proc nor /sys."""
    if isinstance(path, (str, bytes)):
        name = os.fsdecode(path)
        if name in FOLDERS or name.startswith(tuple(f"{it}/" for it in FOLDERS)):
            raise FileNotFoundError(errno.ENOENT, "there is no such folder on OpenBSD", name)


def without_folders(event: str, args: Tuple[object, ...]) -> None:
    if event in ("open", "os.listdir", "os.scandir") and args:
        check(args[0])


def checked(call: Callable[..., Any]) -> Callable[..., Any]:
    """The call, which doesn't find these folders."""
    def with_check(path: object, *args: object, **more: object) -> Any:
        check(path)
        return call(path, *args, **more)
    return with_check


def without_flock(number: object, operation: int) -> None:
    raise OSError(errno.ENOLCK, "No locks available")


def take_away() -> None:
    for module, names in GONE.items():
        for name in names:
            if hasattr(module, name):
                delattr(module, name)
    for name in ("_USE_CP_SENDFILE", "_HAS_FCOPYFILE", "_USE_CP_COPY_FILE_RANGE"):
        if hasattr(shutil, name):
            setattr(shutil, name, False)
    # these modules look for what there is when they are imported
    setattr(tempfile, "_O_TMPFILE_WORKS", False)
    setattr(shutil, "_copyxattr", lambda *_, **__: None)
    if os.environ.get("NO_FLOCK"):
        fcntl.flock = without_flock  # type: ignore[assignment]
    for name in ("stat", "lstat", "readlink"):
        setattr(os, name, checked(getattr(os, name)))
    # calls of Linux that Python has no name for are made by this one
    sys.modules["ctypes"] = None  # type: ignore[assignment]
    sys.addaudithook(without_folders)


def main() -> None:
    python, words = sys.argv[1], sys.argv[2:]
    isolated = False
    while words and words[0] in ("-I", "-S", "-B", "-u", "-E", "-s"):
        isolated = isolated or words[0] == "-I"
        words = words[1:]
    sys.executable = python
    take_away()
    if not words:
        sys.exit("without-linux.py: no program is named")
    if words[0] == "-c":
        sys.argv, sys.path[0] = ["-c", *words[2:]], ""
        exec(compile(words[1], "<string>", "exec"), {"__name__": "__main__"})  # pylint: disable=exec-used
    elif words[0] == "-m":
        sys.argv, sys.path[0] = words[1:], os.getcwd()
        runpy.run_module(words[1], run_name="__main__", alter_sys=True)
    else:
        sys.argv = words
        if isolated:
            del sys.path[0]
        else:
            sys.path[0] = os.path.dirname(os.path.realpath(words[0]))
        # as a program, so that what it pickles or imports finds it as __main__
        with open(words[0], "rb") as file:
            text = file.read()
        names = sys.modules["__main__"].__dict__
        names.update(__file__=words[0], __name__="__main__", __doc__=None)
        exec(compile(text, words[0], "exec"), names)  # pylint: disable=exec-used


main()
