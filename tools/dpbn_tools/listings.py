"""A listing as dpbr(1) reads it: its paths and what each of them needs, its digest, and the number and line of what is wrong with it."""
from __future__ import annotations

import hashlib
import re
from typing import Dict, List, NamedTuple, Optional, Set, Tuple

from dpbn_tools import pkgnames

MOST_PATHS, MOST_DEPENDENCIES, LONGEST_PATH = 16_384, 512, 255
WORD = re.compile(r"[!-+\--.0-9;?-~]+")
BLANKS = re.compile(r"[ \t]+")
BOUNDS = re.compile(r"[<>=]")
BAD_LINE, BAD_PATH, TWICE_SET, TOO_MANY, NO_NAME = 401, 402, 403, 404, 405
BUILD, LIB, RUN, NAME, IGNORE = "BUILD_DEPENDS", "LIB_DEPENDS", "RUN_DEPENDS", "FULLPKGNAME", "IGNORE"
DEPENDS = (BUILD, LIB, RUN)
VARIABLES = (*DEPENDS, NAME, IGNORE)


class Fault(Exception):
    """A fault of a listing, by the number and the line that dpbr(1) prints."""

    def __init__(self, number: int, line: int) -> None:
        super().__init__(f"fault {number} at {line}")
        self.number, self.line = number, line


class Dependency(NamedTuple):
    """A path that is needed, and the specifications that its listed name has to match."""

    text: str
    path: str
    specs: Tuple[pkgnames.Spec, ...]


def canonical(text: str) -> Optional[str]:
    """The one spelling of a package path, or None if the text isn't a path."""
    directory, *parts = text.split(",")
    words = directory.split("/")
    if len(text) > LONGEST_PATH or len(words) < 2 or any(word in ("", ".", "..") for word in words):
        return None
    subpackages = [part for part in parts if part.startswith("-")]
    flavors = {part for part in parts if part and not part.startswith("-")}
    if len(subpackages) > 1 or parts.count("") > 1:
        return None
    if not all(map(WORD.fullmatch, [*words, *flavors, *(part[1:] for part in subpackages)])):
        return None
    mark = [""] if "" in parts and not flavors else []
    return ",".join([directory, *mark, *sorted(flavors), *subpackages])


def group_of(path: str) -> str:
    """The path without its subpackage, if it has one."""
    front, _, last = path.rpartition(",")
    return front if last.startswith("-") else path


class Tree:
    """The paths of a listing, each known by its place in order of first appearance, and what each of them needs."""

    def __init__(self, is_single: bool) -> None:
        self.is_single = is_single
        self.paths: List[str] = []
        self.names: List[str] = []
        self.place: Dict[str, int] = {}
        self.build: List[List[int]] = []
        self.run: List[List[int]] = []
        # why a path is ignored by itself, by its place
        self.marked: Dict[int, str] = {}

    def group(self, place: int) -> str:
        """What is equal for paths that one build makes."""
        return self.paths[place] if self.is_single else group_of(self.paths[place])

    def groups(self) -> Dict[str, List[int]]:
        """The places of each group, groups in the order of their first paths."""
        found: Dict[str, List[int]] = {}
        for place in range(len(self.paths)):
            found.setdefault(self.group(place), []).append(place)
        return found

    def digest(self) -> bytes:
        """The digest by which logs and jobs name the listing."""
        lines = []
        for place, path in enumerate(self.paths):
            lines += [f"P {path}", f"N {self.names[place]}"]
            lines += ["X"] if place in self.marked else []
            lines += [f"B {self.paths[it]}" for it in self.build[place]]
            lines += [f"R {self.paths[it]}" for it in self.run[place]]
        if not self.is_single:
            lines += [f"G {group}" for group, places in self.groups().items() if len(places) > 1]
        return hashlib.sha256("".join(line + "\n" for line in lines).encode("latin-1")).digest()


class Reader:
    """Reads the lines of a listing in turn."""

    def __init__(self) -> None:
        self.settings: Dict[str, Dict[str, str]] = {}
        self.first_line: Dict[str, int] = {}
        self.spelled: Dict[str, Optional[str]] = {}
        self.words: Dict[str, Dependency] = {}

    def path(self, text: str, line: int) -> str:
        if text not in self.spelled:
            self.spelled[text] = canonical(text)
        found = self.spelled[text]
        if found is None:
            raise Fault(BAD_PATH, line)
        return found

    def take(self, text: str, line: int) -> None:
        """Takes one line, which is neither empty nor a message of make."""
        key, equals, value = text.partition("=")
        left, dot, variable = key.rpartition(".")
        if not equals or not dot:
            raise Fault(BAD_LINE, line)
        if variable not in VARIABLES:
            return
        path, value = self.path(left, line), value.strip(" \t")
        if path not in self.settings and len(self.settings) == MOST_PATHS:
            raise Fault(TOO_MANY, line)
        self.test_value(variable, value, line)
        if self.settings.setdefault(path, {}).setdefault(variable, value) != value:
            raise Fault(TWICE_SET, line)
        self.first_line.setdefault(path, line)

    def test_value(self, variable: str, value: str, line: int) -> None:
        if variable == NAME and not pkgnames.name(value):
            raise Fault(BAD_LINE, line)
        if variable in DEPENDS:
            self.dependencies(value, line)

    def dependencies(self, value: str, line: int = 0) -> List[Dependency]:
        found = []
        for count, word in enumerate(BLANKS.split(value) if value else []):
            if count == MOST_DEPENDENCIES:
                raise Fault(TOO_MANY, line)
            if word not in self.words:
                self.words[word] = self.dependency(word, line)
            found.append(self.words[word])
        return found

    def dependency(self, word: str, line: int) -> Dependency:
        """[pkgspec:]pkgpath[bounds][:target]"""
        fields = word.split(":")
        where = [place for place, field in enumerate(fields) if "/" in field]
        if len(where) != 1 or where[0] > 1 or len(fields) - where[0] > 2:
            raise Fault(BAD_LINE, line)
        field = fields[where[0]]
        cut = BOUNDS.search(field)
        path, bounds = (field[:cut.start()], field[cut.start():]) if cut else (field, "")
        texts = [text for text in fields[:where[0]] if text] + ([f"{pkgnames.ANY_STEM}-{bounds}"] if bounds else [])
        specs = [pkgnames.spec(text) for text in texts]
        if None in specs:
            raise Fault(BAD_LINE, line)
        return Dependency(word, self.path(path, line), tuple(it for it in specs if it))

    def tree(self, is_single: bool) -> Tree:
        """The tree of all lines."""
        nameless = [line for path, line in self.first_line.items() if NAME not in self.settings[path]]
        if nameless:
            raise Fault(NO_NAME, min(nameless))
        tree = Tree(is_single)
        tree.paths = list(self.settings)
        tree.names = [self.settings[path][NAME] for path in tree.paths]
        tree.place = {path: place for place, path in enumerate(tree.paths)}
        names = [pkgnames.name(text) for text in tree.names]
        for place, path in enumerate(tree.paths):
            self.add_needs(tree, place, self.settings[path], names)
        return tree

    def add_needs(self, tree: Tree, place: int, settings: Dict[str, str], names: List[Optional[pkgnames.Name]]) -> None:
        """What a path needs to be built and to run, and why it is ignored by itself, if it is."""
        needs: Dict[str, Set[int]] = {variable: set() for variable in DEPENDS}
        why = f"IGNORE: {settings[IGNORE]}" if settings.get(IGNORE) else ""
        for variable in DEPENDS:
            for asked in self.dependencies(settings.get(variable, "")):
                at = tree.place.get(asked.path)
                if at is None:
                    why = why or f"{variable}: {asked.path} is not listed"
                    continue
                needs[variable].add(at)
                package = names[at]
                if package and not all(pkgnames.matches(spec, package) for spec in asked.specs):
                    why = why or f"{variable}: {tree.names[at]} does not match {asked.text}"
        tree.build.append(sorted(needs[BUILD] | needs[LIB]))
        tree.run.append(sorted(needs[LIB] | needs[RUN]))
        if why:
            tree.marked[place] = why


def read(text: bytes, is_single: bool = False) -> Tree:
    """The tree of a listing's text."""
    reader = Reader()
    for number, line in enumerate(text.decode("latin-1").split("\n"), 1):
        if line and not line.startswith("===>"):
            reader.take(line, number)
    return reader.tree(is_single)
