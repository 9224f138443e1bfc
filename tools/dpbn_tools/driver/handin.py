"""Looks at what a build made: whether it is what was asked for, and the text that hands it in."""
from __future__ import annotations

import os
from typing import Dict, List, Optional, Set

from dpbn_tools.builds import fit, text_of
from dpbn_tools.folders import Packages, Refused, opened, packages_in
from dpbn_tools.log import Large, Record, large_of
from dpbn_tools.paths import DIGEST, is_name
from dpbn_tools.driver.build import Build
from dpbn_tools.driver.names import BadNames, read_pairs
from dpbn_tools.driver.store import Store

# files next to the folders of packages
NAMES, BEFORE, AFTER = "NAMES", "SEEN-BEFORE", "SEEN-AFTER"
# the most bytes of one of them
MAX_SEEN = 16_777_216


class Failed(Exception):
    """Why what a build made isn't handed in."""


def made_by(build: Build, out_bytes: Optional[int]) -> Packages:
    """The files of the unit's packages, or why the build failed."""
    try:
        made = packages_in(build.file("out"))
    except Refused as refused:
        raise Failed(str(refused).replace(f"{build.folder}/", "")) from refused
    except (OSError, RecursionError) as error:
        raise Failed(f"what it made can't be read: {error}") from error
    wanted = [path.decode() for path in build.job.packages]
    lacking = [path for path in wanted if path not in made]
    if lacking:
        raise Failed(f"it made no {' '.join(lacking[:20])}{' ..' if len(lacking) > 20 else ''}")
    packages = {path: made[path] for path in wanted}
    size = size_of(packages)
    if out_bytes is not None and size > out_bytes:
        raise Failed(f"it made {size} bytes, and may make {out_bytes}")
    return packages


def size_of(packages: Packages) -> int:
    """How many bytes the files have, before any gave way to its digest."""
    return sum(file.full_size for files in packages.values() for file in files)


def check_names(build: Build, listed: Dict[bytes, bytes]) -> None:
    """Compares the names in OUT/NAMES, if it is there, with the listed ones."""
    path = f"{build.file('out')}/{NAMES}"
    if not os.path.lexists(path):
        return
    try:
        told = read_pairs(path)
    except (BadNames, OSError) as error:
        raise Failed(f"OUT/NAMES: {error}") from error
    for package, name in sorted(told.items()):
        if package in build.job.packages and listed.get(package, name) != name:
            raise Failed(f"{package.decode()} is {name.decode()}, and {listed[package].decode()} is listed")


def check_seen(build: Build, needed: List[Record]) -> None:
    """Compares what was installed before and after the build, if COMMAND wrote that, with DEPS."""
    for name, when in ((BEFORE, "before"), (AFTER, "after")):
        path = f"{build.file('out')}/{name}"
        if os.path.lexists(path):
            compare_seen(read_seen(path, name), needed, when)


def read_seen(path: str, name: str) -> Dict[bytes, Set[bytes]]:
    """The names of what was installed, each with the digests that are next to it."""
    seen: Dict[bytes, Set[bytes]] = {}
    try:
        with opened(path) as file:
            text = file.read(MAX_SEEN) or b""
    except (OSError, Refused) as error:
        raise Failed(f"OUT/{name} can't be read: {error}") from error
    for number, line in enumerate(text.split(b"\n"), 1):
        fields = line.split()
        if not fields:
            continue
        if len(fields) > 2 or not is_name(fields[0]) or len(fields) == 2 and not DIGEST.fullmatch(fields[1]):
            raise Failed(f"OUT/{name}: line {number} isn't `NAME` or `NAME SHA256`")
        seen.setdefault(fields[0], set()).update(fields[1:])
    return seen


def compare_seen(seen: Dict[bytes, Set[bytes]], needed: List[Record], when: str) -> None:
    """Fails if something was installed that isn't in DEPS, or has other bytes there; or if something of DEPS wasn't."""
    by_name = {record.name: record for record in needed}
    for name, digests in sorted(seen.items()):
        if name not in by_name:
            raise Failed(f"{name.decode()} was installed {when} the build, and isn't in DEPS")
        if not digests <= digests_of(by_name[name]):
            raise Failed(f"{name.decode()} was installed {when} the build with other bytes than in DEPS")
    lacking = sorted(set(by_name) - set(seen))
    if lacking:
        raise Failed(f"{lacking[0].decode()} is in DEPS, and wasn't installed {when} the build")


def digests_of(record: Record) -> Set[bytes]:
    """The digests of a package's files, as they are in DEPS."""
    return {digest.encode() for digest in files_of(record).values()}


def files_of(record: Record) -> Dict[bytes, str]:
    """The digests of a package's files, by name: those that went by their digests are counted as themselves."""
    large = {it.name + b".sha256": it for it in record.large}
    files = {file.name: file.digest for file in record.files if file.name not in large}
    return {**files, **{it.name: it.digest for it in record.large}}


def text_for(packages: Packages, digests: Optional[int]) -> List[str]:
    """The text that hands the packages in, in parts. Files that are too large give way to their digests."""
    try:
        fit(packages, digests, False)
        return ["{", ",".join(text_of(packages)), "}\n"]
    except Refused as refused:
        raise Failed(str(refused)) from refused


def large_in(packages: Packages) -> Dict[str, Large]:
    """The files that gave way, by where they are."""
    found = {}
    for files in packages.values():
        for file in files:
            if file.bytes is not None:
                large = large_of(file.name.encode(), file.bytes)
                assert large
                found[file.place] = large
    return found


def keep(packages: Packages, store: Store) -> None:
    """Keeps the files that gave way in the store, before anybody hears of them."""
    for place, large in large_in(packages).items():
        try:
            store.keep(place, large)
        except Refused as refused:
            raise Failed(str(refused)) from refused
