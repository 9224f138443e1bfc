"""Files that come into place whole: they are on the disk before they have their names."""
from __future__ import annotations

import os
import secrets


def sync(folder: str) -> None:
    """Brings the names in the folder to the disk."""
    number = os.open(folder or ".", os.O_RDONLY)
    try:
        os.fsync(number)
    finally:
        os.close(number)


def new_name(path: str) -> str:
    """A name next to the path, for what isn't whole yet."""
    folder, name = os.path.split(path)
    return os.path.join(folder, f".{name[:200]}.{secrets.token_hex(4)}.new")


def put(path: str, data: bytes, mode: int = 0o644) -> None:
    new = new_name(path)
    number = os.open(new, os.O_WRONLY | os.O_CREAT | os.O_EXCL, mode)
    try:
        with os.fdopen(number, "wb") as file:
            file.write(data)
            file.flush()
            os.fsync(file.fileno())
        os.rename(new, path)
    except BaseException:
        if os.path.lexists(new):
            os.unlink(new)
        raise
    sync(os.path.dirname(path))
