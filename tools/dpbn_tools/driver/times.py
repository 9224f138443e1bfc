"""The file work/times: how long builds took, in the form of dpbn-formats(5)."""
from __future__ import annotations

import os

from dpbn_tools.driver.job import Job


class Times:
    """Appends a line for each build."""

    def __init__(self, path: str) -> None:
        self.path = path

    def add(self, job: Job, seconds: float, size: int) -> None:
        line = b"%s %.1f %d %s\n" % (min(job.packages or [job.unit]), seconds, size, job.host.encode())
        number = os.open(self.path, os.O_RDWR | os.O_CREAT | os.O_CLOEXEC, 0o666)
        try:
            end = whole_lines(number)
            if os.pwrite(number, line, end) < len(line):
                os.ftruncate(number, end)
        finally:
            os.close(number)


def whole_lines(number: int) -> int:
    """Cuts off what follows the last whole line, as a host that stopped may have left it. Returns how long the file is then."""
    size = os.fstat(number).st_size
    tail = os.pread(number, 4096, max(0, size - 4096))
    end = size - len(tail) + tail.rfind(b"\n") + 1
    if end < size:
        os.ftruncate(number, end)
    return end
