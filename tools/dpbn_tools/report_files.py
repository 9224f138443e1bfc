"""The files of a report: each comes into place whole, and the logs of failures that are mended go."""
from __future__ import annotations

import contextlib
import json
import os
import re
from typing import Any, Dict

# the copy of a log that a report made
COPY = re.compile(r"[0-9]+\..+\.txt")


def write(path: str, text: bytes) -> None:
    """Writes a file that has its name once it is whole and on the disk."""
    folder, name = os.path.split(path)
    new = os.path.join(folder, f".{name[:200]}.{os.getpid()}.new")
    try:
        with open(new, "wb") as file:
            file.write(text)
            file.flush()
            os.fsync(file.fileno())
        os.replace(new, path)
    except OSError:
        with contextlib.suppress(OSError):
            os.unlink(new)
        raise


class Folder:
    """The folder of a report."""

    def __init__(self, path: str) -> None:
        self.path = path
        self.copies: Dict[str, bytes] = {}

    def make(self) -> None:
        os.makedirs(f"{self.path}/logs", exist_ok=True)

    def put(self, status: Dict[str, Any], copies: Dict[str, bytes], words: str, page: str) -> None:
        """Writes all of it: first what the status names."""
        self.put_copies(copies)
        text = json.dumps(status, separators=(",", ":"), ensure_ascii=True)
        write(f"{self.path}/status.json", text.encode() + b"\n")
        # a page that was opened as a file may read no other file, but run it
        write(f"{self.path}/status.js", b"take(" + text.encode() + b");\n")
        write(f"{self.path}/status.txt", words.encode())
        write(f"{self.path}/index.html", page.encode())

    def put_copies(self, copies: Dict[str, bytes]) -> None:
        """Writes the ends of logs that are new or have changed, and removes those that no failure names."""
        for name, text in copies.items():
            if self.copies.get(name) != text:
                write(f"{self.path}/{name}", text)
        wanted = {os.path.basename(name) for name in copies}
        for name in os.listdir(f"{self.path}/logs"):
            if COPY.fullmatch(name) and name not in wanted:
                with contextlib.suppress(FileNotFoundError):
                    os.unlink(f"{self.path}/logs/{name}")
        self.copies = dict(copies)
