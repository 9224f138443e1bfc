"""Runs a program in namespaces of its own: of processes, mounts and the network. What it starts, mounts and sets up there is gone when it
ends, however that happens, and the rest of the machine sees nothing of it."""
from __future__ import annotations

import ctypes
import os
import shutil
import signal
import subprocess
import sys
import tempfile
from types import FrameType
from typing import List, Optional

# set in the environment of the program inside, to the folder that it works in
INSIDE = "SOAK_INSIDE"
DIE_WITH_PARENT = 1
# what is done inside before the program starts. The shell stays, as the first process, and waits for orphans.
RUN = """ip link set lo up && mount -t tmpfs tmpfs /run && mkdir -p /run/netns "$SOAK_INSIDE" || exit 2
"$@"
exit $?
"""
# the folder in memory: it is on a file system that only those inside see
IN_MEMORY = "/run/soak"
SIGNALS = (signal.SIGTERM, signal.SIGHUP, signal.SIGINT)
LIBC = ctypes.CDLL(None, use_errno=True)


def die_with_parent() -> None:
    """Has the system kill this process when the one that started it ends. It is called in a new process before its program runs."""
    LIBC.prctl(DIE_WITH_PARENT, signal.SIGKILL)


def is_inside() -> bool:
    return INSIDE in os.environ


def folder() -> str:
    """The folder in which everything is kept."""
    return os.environ[INSIDE]


def lacking() -> str:
    """What this machine lacks for namespaces, if anything."""
    for name in ("unshare", "nsenter", "ip", "mount"):
        if not shutil.which(name):
            return f"there is no {name} here (Debian: util-linux, iproute2)"
    words = [*unsharing(), "true"]
    done = subprocess.run(words, stdin=subprocess.DEVNULL, capture_output=True, check=False)
    return "" if done.returncode == 0 else f"`{' '.join(words)}` ended with {done.returncode}: {done.stderr.decode().strip()}"


def unsharing() -> List[str]:
    """The words before a command that runs in namespaces of its own. A user who isn't root gets one of users, too."""
    words = ["unshare", "--mount", "--pid", "--net", "--fork", "--kill-child", "--mount-proc"]
    return words if os.geteuid() == 0 else [*words, "--map-root-user"]


def run_inside(words: List[str], on_disk: Optional[str], keep: bool) -> int:
    """Runs these words inside, and returns their status. The folder is in memory, or a new one in `on_disk`; it is removed afterwards,
    unless it is to be kept."""
    where = tempfile.mkdtemp(prefix="soak-", dir=on_disk) if on_disk else IN_MEMORY
    environment = {**os.environ, INSIDE: where}
    process = subprocess.Popen([*unsharing(), "sh", "-c", RUN, "soak", *words], env=environment, preexec_fn=die_with_parent)

    def end(number: int, _: Optional[FrameType]) -> None:
        # one is enough: another must not disturb the end
        for it in SIGNALS:
            signal.signal(it, signal.SIG_IGN)
        raise SystemExit(128 + number)

    for number in SIGNALS:
        signal.signal(number, end)
    try:
        return process.wait()
    finally:
        end_inside(process)
        if on_disk and keep:
            print(f"{os.path.basename(sys.argv[0])}: kept in {where}", flush=True)
        elif on_disk:
            shutil.rmtree(where, ignore_errors=True)


def end_inside(process: subprocess.Popen[bytes]) -> None:
    """Kills the first process inside, if it runs, and waits until all inside have ended. Their mounts are gone by then: a folder must not
    be removed on which something is mounted elsewhere, since a loop device there may stay for ever."""
    try:
        with open(f"/proc/{process.pid}/task/{process.pid}/children", encoding="utf-8") as file:
            for child in file.read().split():
                os.kill(int(child), signal.SIGKILL)
    except (FileNotFoundError, ProcessLookupError):
        process.kill()
    process.wait()
