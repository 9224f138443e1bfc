"""The text of builds, in the form of dpbn-formats(5), and whether a build can have this many bytes."""
from __future__ import annotations

from typing import Dict, List, Optional

from dpbn_tools.folders import Packages, Refused, in_record, may_give_way
from dpbn_tools.paths import group_of

# the most bytes of a build's text, and how many of them are left for the lines that a folder doesn't say
MAX_BUILD, SPARE = 4_194_304, 1_048_576
# how many bytes a record has next to its path and its files, if its name and its claim are as short as any, and nothing is needed
LEAST = len("@dpb 1\n@name a-1\n@comment pkgpath=\n@host 0\n@claim 1.0\n\n")


def least_size(packages: Packages) -> int:
    """The least bytes that a build of these packages can have."""
    size = len(f"@dpb 2\n@packages {len(packages)}\n") if len(packages) > 1 else 0
    for path, files in packages.items():
        size += LEAST + len(path) + sum(in_record(file.name, file.size) for file in files)
    return size


def give_way_above(packages: Packages, most: int) -> None:
    """Has each file of more bytes give way to its digest."""
    for files in packages.values():
        for file in may_give_way(files):
            if file.size > most:
                file.give_way()


def shortened(packages: Packages, size: int) -> int:
    """The size of the build of these packages after the largest files gave way as far as they have to."""
    files = [file for files in packages.values() for file in may_give_way(files)]
    for file in sorted(files, key=lambda file: -file.size):
        if size <= MAX_BUILD - SPARE:
            break
        size -= file.gain()
        file.give_way()
    return size


def units_of(packages: Packages, single: bool) -> Dict[str, Packages]:
    """The packages that one build makes, by the path without the subpackage."""
    units: Dict[str, Packages] = {}
    for path, files in packages.items():
        units.setdefault(path if single else group_of(path.encode()).decode(), {})[path] = files
    return units


def fit(packages: Packages, digests: Optional[int], single: bool) -> List[str]:
    """Shortens each build so that it may fit, if files go by their digests. Returns lines on those builds that fit or not by what the
    folder doesn't say. What can be no build is refused."""
    lines = []
    for unit, its in units_of(packages, single).items():
        name = unit if len(its) > 1 else next(iter(its))
        if digests is not None:
            give_way_above(its, digests)
        size = least_size(its)
        if digests is not None:
            size = shortened(its, size)
        if size > MAX_BUILD:
            raise Refused(f"{name}: a build of it has at least {size} bytes, and may have {MAX_BUILD}"
                          + ("" if digests is not None else "; with --digests large files give way"))
        if size > MAX_BUILD - SPARE:
            lines.append(f"{name}: {MAX_BUILD - size} bytes are left for its names and for what it needs")
    return lines


def quoted(text: str) -> str:
    """The text, of printable bytes, as JSON has it."""
    return '"' + text.replace("\\", "\\\\").replace('"', '\\"') + '"'


def text_of(packages: Packages) -> List[str]:
    """The text, in parts, one a package."""
    parts = []
    for path, files in sorted(packages.items()):
        texts = [f'{{"hex":"{file.contents().hex()}","name":{quoted(file.name)}}}' for file in files]
        parts.append(f"{quoted(path)}:[{','.join(texts)}]")
    return parts
