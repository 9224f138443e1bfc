"""Wakes the loop when a name comes into a folder or goes, if the system has a way for that: inotify of Linux, or kqueue of the BSDs. What
other hosts do in a folder on NFS isn't seen by either, so whoever uses this looks from time to time as well."""
from __future__ import annotations

import errno
import os
import select
import sys
from typing import Any, Callable

# of inotify(7)
IN_MOVED_FROM, IN_MOVED_TO, IN_CREATE, IN_DELETE, IN_ONLYDIR = 0x40, 0x80, 0x100, 0x200, 0x1000000
# the most events that are read at a time, and their bytes for the longest names
MOST_EVENTS, MOST_BYTES = 64, 65536


class Changes:
    """A descriptor that can be read once something changed; -1 if the system has no way."""

    def __init__(self, folder: str) -> None:
        self.number = -1
        self.read: Callable[[], object] = lambda: None
        try:
            if hasattr(select, "kqueue"):
                self.begin_kqueue(folder, select)
            elif sys.platform.startswith("linux"):
                self.begin_inotify(folder)
        except (ImportError, AttributeError, OSError):
            self.end()

    def begin_inotify(self, folder: str) -> None:
        # only here, since it isn't everywhere
        import ctypes
        calls = ctypes.CDLL(None, use_errno=True)
        number = calls.inotify_init1(os.O_NONBLOCK | os.O_CLOEXEC)
        if number < 0:
            raise OSError(ctypes.get_errno(), "inotify_init1")
        # it is closed once nobody reads it any more
        file = os.fdopen(number, "rb", buffering=0)
        wanted = IN_MOVED_FROM | IN_MOVED_TO | IN_CREATE | IN_DELETE | IN_ONLYDIR
        if calls.inotify_add_watch(number, os.fsencode(folder), ctypes.c_uint32(wanted)) < 0:
            raise OSError(ctypes.get_errno(), "inotify_add_watch")
        self.number, self.read = number, lambda: file.read(MOST_BYTES)

    def begin_kqueue(self, folder: str, system: Any) -> None:
        # the folder is open as long as it is watched
        queue, watched = system.kqueue(), os.open(folder, os.O_RDONLY | os.O_CLOEXEC)
        changed = system.KQ_NOTE_WRITE | system.KQ_NOTE_EXTEND
        queue.control([system.kevent(watched, system.KQ_FILTER_VNODE, system.KQ_EV_ADD | system.KQ_EV_CLEAR, changed)], 0, 0)
        self.number, self.read = queue.fileno(), lambda: queue.control(None, MOST_EVENTS, 0)

    def look(self) -> None:
        """Takes note of what changed."""
        try:
            self.read()
        except OSError as error:
            if error.errno not in (errno.EAGAIN, errno.EINTR):
                self.end()

    def end(self) -> None:
        """Gives up: from now on nothing wakes the loop."""
        self.number, self.read = -1, lambda: None
