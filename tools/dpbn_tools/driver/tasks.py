"""Work that takes long, in threads next to the driver's loop: hashing, copying, laying out and removing folders."""
from __future__ import annotations

import collections
import os
import threading
from typing import Callable, Deque, Optional, Tuple, TypeVar

Result = TypeVar("Result")
# what is called with the result, or with the error that the work raised
Then = Callable[[object, Optional[Exception]], None]


class Tasks:
    """Threads, and what is to be done in the loop when one of them has ended. The loop is woken by a byte in a pipe."""

    def __init__(self) -> None:
        # those for which there was no thread yet
        self.waiting: Deque[Tuple[Callable[[], object], Callable[..., None]]] = collections.deque()
        self.over: Deque[Tuple[Then, object, Optional[Exception]]] = collections.deque()
        self.reads, self.writes = os.pipe()
        os.set_blocking(self.reads, False)
        os.set_blocking(self.writes, False)
        self.running = 0

    def start(self, work: Callable[[], Result], then: Callable[[Optional[Result], Optional[Exception]], None]) -> None:
        """Does the work in a thread, and then calls `then` in the loop. If the system has no thread for it now, it waits for one."""
        self.running += 1
        self.waiting.append((work, then))
        self.begin()

    def begin(self) -> None:
        """Begins what waits for a thread, as far as there are any."""
        while self.waiting:
            # a thread whose file system doesn't answer must not keep the driver from ending
            thread = threading.Thread(target=self.run, args=self.waiting[0], daemon=True)
            try:
                thread.start()
            except (RuntimeError, MemoryError):
                return
            self.waiting.popleft()

    def run(self, work: Callable[[], object], then: Then) -> None:
        result: object = None
        failure: Optional[Exception] = None
        try:
            result = work()
        except Exception as error:
            failure = error
        self.over.append((then, result, failure))
        self.wake()

    def wake(self) -> None:
        try:
            os.write(self.writes, b"x")
        except BlockingIOError:
            # there is a byte already
            pass

    def look(self) -> None:
        """Calls what is to be called for those that have ended, and begins what waits."""
        self.begin()
        try:
            os.read(self.reads, 65536)
        except BlockingIOError:
            pass
        while self.over:
            then, result, failure = self.over.popleft()
            self.running -= 1
            then(result, failure)
