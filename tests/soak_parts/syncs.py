"""How long a bare sync takes: what a node's notes are to be measured by."""
from __future__ import annotations

import os
import tempfile
import time

COUNT, LONGEST = 200, 5.0
# as many bytes as the note of a promise has
BYTES = b"x" * 40


def seconds_each(folder: str) -> float:
    """How long it takes to write some bytes at the end of a file in this folder and to have them on the disk, on average."""
    with tempfile.TemporaryFile(dir=folder, buffering=0) as file:
        began = time.monotonic()
        for number in range(1, COUNT + 1):
            file.write(BYTES)
            os.fsync(file.fileno())
            if time.monotonic() > began + LONGEST:
                break
        return (time.monotonic() - began) / number
