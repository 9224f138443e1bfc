"""Listings, in the form of dpbn-formats(5), as far as their paths, units and dependencies go: package names and specifications are not
read, and each path keeps the text of its lines."""
from __future__ import annotations

import re
from typing import Dict, Iterator, List, NamedTuple, Set, Tuple

from dpbn_tools.paths import canonical, group_of, is_path

VARIABLES = {b"FULLPKGNAME", b"BUILD_DEPENDS", b"LIB_DEPENDS", b"RUN_DEPENDS", b"IGNORE"}
BUILD, RUN = (b"BUILD_DEPENDS", b"LIB_DEPENDS"), (b"LIB_DEPENDS", b"RUN_DEPENDS")


class BadLine(Exception):
    """A line that no listing has."""


class Unit(NamedTuple):
    """What one build makes: the paths of a group that aren't ignored."""

    name: bytes
    paths: List[bytes]


def paths_in(text: bytes) -> Iterator[bytes]:
    """The paths, in canonical form, that the dependencies of a value name."""
    for word in text.split():
        for field in word.split(b":"):
            if b"/" in field:
                yield canonical(re.split(b"[<>=]", field, maxsplit=1)[0])
                break


class Path:
    """What the listing says of a path: the text of its lines, and the values by variable."""

    def __init__(self) -> None:
        self.lines: List[bytes] = []
        self.values: Dict[bytes, bytes] = {}

    def needs(self) -> Dict[bytes, List[bytes]]:
        """The paths that it needs, by variable."""
        return {name: list(paths_in(value)) for name, value in self.values.items() if name.endswith(b"_DEPENDS")}


class Listing:
    """The paths of a listing, in its order, and their groups."""

    def __init__(self, text: bytes, single: bool = False) -> None:
        self.paths: Dict[bytes, Path] = {}
        self.groups: Dict[bytes, List[bytes]] = {}
        for number, line in enumerate(text.split(b"\n"), 1):
            if line and not line.startswith(b"===>"):
                self.read_line(number, line)
        for path in self.paths:
            self.groups.setdefault(path if single else group_of(path), []).append(path)
        self.needs = {path: it.needs() for path, it in self.paths.items()}
        self.ignored = self.find_ignored()

    def read_line(self, number: int, line: bytes) -> None:
        left, equals, value = line.partition(b"=")
        text, dot, variable = left.rpartition(b".")
        if not equals or not dot:
            raise BadLine(f"line {number} isn't PATH.VARIABLE=value")
        path = canonical(text)
        if variable not in VARIABLES:
            if path in self.paths:
                self.paths[path].lines.append(line)
            return
        if not is_path(path):
            raise BadLine(f"line {number} begins with no package path")
        here = self.paths.setdefault(path, Path())
        here.lines.append(line)
        if here.values.setdefault(variable, value.strip(b" \t")) != value.strip(b" \t"):
            raise BadLine(f"line {number} sets a variable to another value than an earlier one")

    def needed(self, path: bytes, variables: Tuple[bytes, ...]) -> List[bytes]:
        return [need for variable in variables for need in self.needs[path].get(variable, [])]

    def build_needs(self, path: bytes) -> List[bytes]:
        return self.needed(path, BUILD)

    def run_needs(self, path: bytes) -> List[bytes]:
        return self.needed(path, RUN)

    def find_ignored(self) -> Set[bytes]:
        """The paths that are ignored: by IGNORE, by a dependency that isn't listed, or by one that is ignored."""
        users: Dict[bytes, List[bytes]] = {}
        found = {path for path, it in self.paths.items() if it.values.get(b"IGNORE")}
        for path, needs in self.needs.items():
            for need in (need for its in needs.values() for need in its):
                users.setdefault(need, []).append(path)
                if need not in self.paths:
                    found.add(path)
        waiting = list(found)
        while waiting:
            more = [user for user in users.get(waiting.pop(), []) if user not in found]
            found.update(more)
            waiting += more
        return found

    def units(self) -> List[Unit]:
        """A unit for each group, in the order of the listing; one of an ignored group has no paths."""
        return [Unit(name, [path for path in paths if path not in self.ignored]) for name, paths in self.groups.items()]
