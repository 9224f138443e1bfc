"""The record of the wrong bodies that the gate doesn't try (tests/wrong-bodies). For each crate it has the sources and the kit with which
they were tried, how many there were, and how many were refused."""
import contextlib
import fcntl
import os
import re
import subprocess
from typing import Dict, Iterator, List, Tuple

import sources

WRONG_BODIES = f"{sources.TOP}/tests/wrong-bodies"
TRIED = f"{WRONG_BODIES}/tried"
HEAD = """# Written by tests/try-wrong-bodies. For each crate it has digests of its sources, with those of all crates below, and of its edits
# here; how many of these were tried, and how many refused; and the kit. `tests/run documents` names the crates whose edits were not
# tried on the current sources.
"""


def edits_in(folder: str) -> List[str]:
    """The names of the edits of a folder, if it exists."""
    return sorted(it for it in os.listdir(folder) if it.endswith(".edit")) if os.path.isdir(folder) else []


def crates() -> List[str]:
    """The crates that have edits here."""
    return sorted(it for it in os.listdir(WRONG_BODIES) if edits_in(f"{WRONG_BODIES}/{it}"))


def kit() -> str:
    """The kit's line."""
    return subprocess.run(["rt", "version"], stdout=subprocess.PIPE, text=True, check=True).stdout.strip()


def as_it_stands(crate: str) -> Tuple[str, str]:
    """The current digests of the crate's sources and of its edits."""
    folder = f"{WRONG_BODIES}/{crate}"
    return sources.digest_of_sources(crate), sources.digest((it, f"{folder}/{it}") for it in edits_in(folder))


def line_of(crate: str, digests: Tuple[str, str], count: int, kit_line: str) -> str:
    """The line that says that all of the crate's edits were tried and refused."""
    return f"{crate} sources={digests[0]} edits={digests[1]} tried={count} refused={count} kit={kit_line}"


def read() -> Dict[str, str]:
    """The lines that are written down, by crate."""
    if not os.path.exists(TRIED):
        return {}
    with open(TRIED) as file:
        return {line.split()[0]: line.strip() for line in file if line.strip() and not line.startswith("#")}


def write(lines: Dict[str, str]) -> None:
    """Writes the lines down, in the order of the crates' names."""
    with open(f"{TRIED}.new", "w") as file:
        file.write(HEAD + "".join(f"{lines[crate]}\n" for crate in sorted(lines)))
    os.replace(f"{TRIED}.new", TRIED)


@contextlib.contextmanager
def locked(path: str) -> Iterator[None]:
    """Another process that wants to change this file, or one beside it, waits meanwhile."""
    folder = os.open(os.path.dirname(path), os.O_RDONLY)
    try:
        fcntl.flock(folder, fcntl.LOCK_EX)
        yield
    finally:
        os.close(folder)


@contextlib.contextmanager
def changing() -> Iterator[Dict[str, str]]:
    """The lines that are written down, by crate. The caller may change them, and then they are written down again."""
    with locked(TRIED):
        lines = read()
        before = dict(lines)
        yield lines
        if lines != before:
            write(lines)


def is_tried(crate: str, line: str) -> bool:
    """Whether the line says that the crate's edits were tried, and refused, on the current sources."""
    found = re.match(r"\w+ sources=(\w+) edits=(\w+) tried=(\d+) refused=(\d+) kit=", line)
    if not found or found.groups()[:2] != as_it_stands(crate):
        return False
    return found[3] == found[4] == str(len(edits_in(f"{WRONG_BODIES}/{crate}")))


def untried() -> List[str]:
    """The crates whose edits were not tried on the current sources."""
    lines = read()
    return [crate for crate in crates() if not is_tried(crate, lines.get(crate, ""))]
