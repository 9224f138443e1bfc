"""Wrong bodies: that each of them still fits the sources, those of the gate and those in tests/wrong-bodies."""
import glob
import os
from typing import Dict, List

from topics.tally import TESTS, TOP, Tally, contents

# how a line of an edit begins
FILE, OLD, NEW = "file: ", "old: ", "new:"


def problems(lines: List[str], sources: Dict[str, str]) -> List[str]:
    """What is wrong with an edit, by the sources of its crate. Each old text is in its file once, after the edit's earlier changes, and
    the new one differs."""
    found: List[str] = []
    changed, name, old = dict(sources), "", ""
    for line in lines:
        if line.startswith(FILE):
            name = line.removeprefix(FILE)
            if name not in sources:
                found.append(f"there is no file {name}")
        elif line.startswith(OLD):
            old = line.removeprefix(OLD)
        elif line.startswith(NEW):
            new, text = line.removeprefix(NEW).removeprefix(" "), changed.get(name, "")
            if text.count(old) != 1:
                found.append(f"{name} has the old text {text.count(old)} times")
            elif new == old:
                found.append("it changes nothing")
            changed[name] = text.replace(old, new)
        elif line:
            found.append(f"{line!r} is no line of an edit")
    return found or ([] if changed != sources else ["it changes nothing"])


def sources_of(crate: str) -> Dict[str, str]:
    """The code and the definitions of a crate, by their files."""
    top = f"{TOP}/crates/{crate}"
    paths = [*glob.glob(f"{top}/src/**/*.rt", recursive=True), *glob.glob(f"{top}/specs/**/*.antt", recursive=True)]
    return {os.path.relpath(path, top): contents(path).decode() for path in paths}


def crate_of(path: str) -> str:
    """The crate of an edit: that of its folder, or of the one above, if that is must-fail."""
    folder = os.path.dirname(path).removesuffix("/must-fail")
    return os.path.basename(folder)


def run(tally: Tally) -> None:
    sources: Dict[str, Dict[str, str]] = {}
    for path in sorted([*glob.glob(f"{TOP}/crates/*/must-fail/*.edit"), *glob.glob(f"{TESTS}/wrong-bodies/*/*.edit")]):
        crate = crate_of(path)
        if crate not in sources:
            sources[crate] = sources_of(crate)
        tally.add(os.path.relpath(path, TOP), "; ".join(problems(contents(path).decode().split("\n"), sources[crate])))
    sample = {"src/a.rt": "one two\ntwo three\n"}
    for name, lines, is_right in (
            ("fits", ["file: src/a.rt", "old: one two", "new: one one"], True),
            ("fits after its first change", ["file: src/a.rt", "old: one two", "new: one", "file: src/a.rt", "old: two", "new:", ""], True),
            ("is ambiguous", ["file: src/a.rt", "old: two", "new: one"], False),
            ("is of another text", ["file: src/a.rt", "old: four", "new: one"], False),
            ("is of another file", ["file: src/b.rt", "old: one two", "new: one"], False),
            ("changes nothing", ["file: src/a.rt", "old: one two", "new: one two"], False),
            ("has a line too many", ["file: src/a.rt", "old: one two", "new: one", "two"], False)):
        found = problems(lines, sample)
        tally.add(f"tests/run documents, a wrong body that {name}", "" if bool(found) != is_right else f"{found} is wrong with it")
