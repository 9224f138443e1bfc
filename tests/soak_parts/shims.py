"""Libraries that are loaded before a program, so that the system seems bad to it: their sources are in tests/."""
from __future__ import annotations

import os
import subprocess

from soak_parts import places


def built(name: str, folder: str) -> str:
    """Compiles tests/NAME.c into the folder, unless it is there, and returns the library's path."""
    path = f"{folder}/{name}.so"
    if not os.path.exists(path):
        subprocess.run(["cc", "-O1", "-shared", "-fPIC", "-o", path, f"{places.TESTS}/{name}.c"], check=True)
    return path
