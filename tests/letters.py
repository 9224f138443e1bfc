#!/usr/bin/env python3
"""Prints what `dpbr status LISTING /dev/null` has to print: the letters of all paths of which nothing is held. It was written from the
pages dpbn-formats(5) and dpbr(1), apart from the program.

    letters.py LISTING
"""
import re
import sys
from typing import Dict, List, NamedTuple, Optional, Set, Tuple

FORBIDDEN = set("/:|,!*<>=")
VARIABLES = ("FULLPKGNAME", "BUILD_DEPENDS", "LIB_DEPENDS", "RUN_DEPENDS", "IGNORE")
MOST_PATHS, MOST_NEEDS, MOST_OF_A_NAME, MOST_OF_A_SPEC = 16384, 512, 255, 1024
# what a part of a version ends with, from the lowest; nothing is 4, and any other text 6
MARKS = {"alpha": 0, "beta": 1, "pre": 2, "rc": 3, "pl": 5}


class Refused(Exception):
    """The listing is malformed."""


def expect(holds: bool, what: str) -> None:
    if not holds:
        raise Refused(what)


def is_word(text: str) -> bool:
    return text != "" and all("!" <= byte <= "~" and byte not in FORBIDDEN for byte in text)


def canonical(text: str) -> str:
    """A package path in its canonical form."""
    place, *parts = text.split(",")
    flavors, subpackages, empty = sorted({it for it in parts if it and it[0] != "-"}), [it for it in parts if it[:1] == "-"], parts.count("")
    expect(len(text) <= 255 and all("!" <= byte <= "~" and byte not in ":=<>" for byte in text), f"path {text!r}")
    expect("/" in place and all(it not in ("", ".", "..") for it in place.split("/")), f"path {text!r}")
    expect("-" not in parts and not any("/" in it for it in parts) and len(subpackages) <= 1 and empty <= 1, f"path {text!r}")
    return ",".join([place, *flavors, *([""] if empty and not flavors else []), *subpackages])


def group_of(path: str) -> str:
    return re.sub(",-[^,]*$", "", path)


class Name(NamedTuple):
    stem: str
    version: str
    flavors: List[str]


def read_name(text: str) -> Name:
    """A package name: stem-version[-flavor...]."""
    found = re.match("(.[^-]*(?:-(?![0-9])[^-]*)*)-([0-9][^-]*)(.*)", text)
    expect(found is not None and len(text) <= MOST_OF_A_NAME, f"name {text!r}")
    assert found
    name = Name(found[1], found[2], found[3].split("-")[1:])
    expect(all(map(is_word, (name.stem, name.version, *name.flavors))), f"name {text!r}")
    return name


def key_of_part(text: str) -> Tuple[int, int, int, str]:
    found = re.fullmatch("([0-9]*)(.*)", text, re.DOTALL)
    assert found
    number, rest = int(found[1] or 0), found[2]
    mark = re.fullmatch("(alpha|beta|pre|rc|pl)([0-9]*)", rest)
    if mark:
        return number, MARKS[mark[1]], int(mark[2] or 0), ""
    return (number, 4, 0, "") if not rest else (number, 6, 0, rest)


def key_of(version: str) -> Tuple[int, List[Tuple[int, int, int, str]], int]:
    """What versions compare by: the number after v, what is between dots, the number after p."""
    ends = {}
    for letter in "vp":
        found = re.fullmatch(f"(.*){letter}([0-9]+)", version)
        ends[letter] = int(found[2]) if found else -1
        version = found[1] if found else version
    return ends["v"], [key_of_part(it) for it in version.split(".")], ends["p"]


def meets_bound(version: str, bound: str) -> bool:
    if bound == "*":
        return True
    found = re.fullmatch("(>=|>|<=|<|=|)([0-9].*)", bound)
    expect(found is not None and is_word(found[2]), f"bound {bound!r}")
    assert found
    one, other = key_of(version), key_of(found[2])
    return {">=": one >= other, ">": one > other, "<=": one <= other, "<": one < other}.get(found[1], one == other)


def meets(name: Name, text: str) -> bool:
    """Whether a name matches a specification. All of it is read."""
    expect(len(text) <= MOST_OF_A_SPEC, "a specification too long")
    return any([meets_alternative(name, it) for it in text.split("|")])


def meets_alternative(name: Name, text: str) -> bool:
    found = re.match("(.[^-]*(?:-(?![0-9*<>=])[^-]*)*)-([0-9*<>=][^-]*)(.*)", text)
    stem, bounds, rest = (found[1], found[2].split(","), found[3]) if found else (text, ["*"], "")
    expect(is_word(stem), f"stem {stem!r}")
    flavors = rest.split("-")[1:]
    expect(all(is_word(it[1:] if it[:1] == "!" else it) for it in flavors), f"flavors {rest!r}")
    matched = [meets_bound(name.version, it) for it in bounds] + [it[1:] not in name.flavors if it[0] == "!" else it in name.flavors for it in flavors]
    return stem in ("STEM", name.stem) and all(matched)


class Need(NamedTuple):
    """A dependency: its path, and the specifications that its name has to match."""

    path: str
    specs: List[str]


def read_need(word: str) -> Need:
    fields = word.split(":")
    places = [place for place, it in enumerate(fields) if "/" in it]
    expect(len(places) == 1 and places[0] <= 1 and len(fields) - places[0] <= 2, f"dependency {word!r}")
    found = re.fullmatch("([^<>=]*)(.*)", fields[places[0]])
    assert found
    specs = [it for it in (fields[0] if places[0] else "", f"STEM-{found[2]}" if found[2] else "") if it]
    for spec in specs:
        meets(Name("x", "0", []), spec)
    return Need(canonical(found[1]), specs)


class Path:
    """What a listing says of a path."""

    def __init__(self) -> None:
        self.values: Dict[str, str] = {}
        self.build: List[Need] = []
        self.run: List[Need] = []


def read_listing(text: str) -> Dict[str, Path]:
    paths: Dict[str, Path] = {}
    for line in text.split("\n"):
        if not line or line.startswith("===>"):
            continue
        left, equals, value = line.partition("=")
        key, dot, variable = left.rpartition(".")
        expect(bool(equals and dot), f"line {line!r}")
        if variable in VARIABLES:
            path = paths.setdefault(canonical(key), Path())
            expect(len(paths) <= MOST_PATHS, "too many paths")
            set_value(path, variable, value.strip(" \t"))
    expect(all("FULLPKGNAME" in path.values for path in paths.values()), "a path without a name")
    return paths


def set_value(path: Path, variable: str, value: str) -> None:
    if variable in path.values:
        expect(path.values[variable] == value, f"{variable} is set again")
        return
    path.values[variable] = value
    if variable == "FULLPKGNAME":
        read_name(value)
    elif variable != "IGNORE":
        words = re.split("[ \t]+", value) if value else []
        expect(len(words) <= MOST_NEEDS, "too many dependencies")
        needs = [read_need(word) for word in words]
        path.build += needs if variable != "RUN_DEPENDS" else []
        path.run += needs if variable != "BUILD_DEPENDS" else []


def ignored(paths: Dict[str, Path]) -> Set[str]:
    """The paths that are ignored, by what the listing says of them or of what they need."""
    users: Dict[str, Set[str]] = {}
    found = set()
    for text, path in paths.items():
        for need in path.build + path.run:
            users.setdefault(need.path, set()).add(text)
            other: Optional[Path] = paths.get(need.path)
            if not other or not all(meets(read_name(other.values["FULLPKGNAME"]), spec) for spec in need.specs):
                found.add(text)
        if path.values.get("IGNORE"):
            found.add(text)
    waiting = list(found)
    while waiting:
        more = users.get(waiting.pop(), set()) - found
        found |= more
        waiting += more
    return found


def letters(text: str) -> Dict[str, str]:
    """The letter of each path of a listing, if nothing is held."""
    paths = read_listing(text)
    bad = ignored(paths)
    groups: Dict[str, List[str]] = {}
    for path in paths:
        if path not in bad:
            groups.setdefault(group_of(path), []).append(path)
    found = {path: "!" for path in bad}
    for group in groups.values():
        needed = {need.path for path in group for need in paths[path].build} - (set(group) if len(group) > 1 else set())
        found.update((path, "T" if needed else "Q") for path in group)
    return {path: found[path] for path in paths}


def printed(text: str) -> str:
    """What the program prints."""
    found, paths = letters(text), read_listing(text)
    lines = [f"{letter} {path} {paths[path].values['FULLPKGNAME']}" for path, letter in found.items()]
    counts = " ".join(f"{letter}={sum(1 for it in found.values() if it == letter)}" for letter in "IBQT!")
    return "\n".join([*lines, counts, ""])


def main() -> None:
    with open(sys.argv[1], encoding="latin-1") as file:
        try:
            sys.stdout.write(printed(file.read()))
        except Refused as refused:
            sys.exit(f"letters.py: {refused}")


if __name__ == "__main__":
    main()
