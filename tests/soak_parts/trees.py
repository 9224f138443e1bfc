"""What is built: a listing, its units, how long their builds take, and the command that builds them, by sleeping or by real Makefiles."""
from __future__ import annotations

import argparse
import lzma
import os
import subprocess
from typing import Dict, List, Set

from soak_parts import places
from schedules import Units, Work, group_of, paths_named
from made import listing as made_listing

# What begins each build's command. Each line of the file of a host is what happened, the unit and the process: a build is `begun`, then
# `done`, `failed`, or `ended` on request; one that was killed has no second line.
NOTES = """#!/bin/sh
note() { echo "$1 $PKGPATH $$" >> "$SOAK/builds-$HOST"; }
note begun
trap 'note ended; exit 143' TERM
colons() { IFS=/; set -- $1; IFS=:; echo "$*"; unset IFS; }
case " $FAILING " in *" $HOST "*) sleep 0.2; note failed; exit 1;; esac
"""
# Each package says which process made it, and the digest of what was there when it was built.
SLEEPS = r"""
read -r seconds bytes < "$SOAK/takes/$(colons "$PKGPATH")"
sleep "$seconds"
saw=$(sha256sum < "$SIGNATURES") || exit 1
while read -r path; do
    folder=$OUT/$(colons "$path")
    mkdir "$folder" && echo "${saw%% *}" > "$folder/saw" && echo "$HOST $$" > "$folder/made" || exit 1
    [ "$bytes" = 0 ] || head -c "$bytes" /dev/urandom > "$folder/file" || exit 1
done < "$PACKAGES_FILE"
note done
"""
MAKES = """
bmake -f "$SOAK/tree/${PKGPATH%%,*}/Makefile" package || { note failed; exit 1; }
note done
"""

# a made listing has some paths more than units
PATHS_A_UNIT = 2


class Tree:
    """A listing and the builds of its units, in files of a folder."""

    def __init__(self, lines: List[str], work: Work, command: str, bytes_each: int = 0) -> None:
        self.lines, self.work, self.units = lines, work, work.units
        self.command, self.bytes_each = NOTES + command, bytes_each

    def lay(self, folder: str) -> None:
        """Writes the listing, the lengths of the builds and the command that builds."""
        put(f"{folder}/listing", "\n".join(self.lines) + "\n")
        os.mkdir(f"{folder}/takes")
        for unit, seconds in self.work.takes.items():
            put(f"{folder}/takes/{unit.replace('/', ':')}", f"{seconds} {self.bytes_each}\n")
        put(f"{folder}/build", self.command)
        os.chmod(f"{folder}/build", 0o755)

    def longest(self) -> float:
        """How long the longest build takes."""
        return max(self.work.takes.values())


def put(path: str, text: str) -> None:
    with open(path, "w", encoding="utf-8") as file:
        file.write(text)


def listing_of(path: str) -> List[str]:
    """The lines of a listing's file, which may be packed with xz."""
    if path.endswith(".xz"):
        with lzma.open(path, "rt", encoding="utf-8") as packed:
            return packed.read().split("\n")
    with open(path, encoding="utf-8") as file:
        return file.read().split("\n")


def lines_by_path(lines: List[str]) -> Dict[str, List[str]]:
    """The lines of each path, in the listing's order."""
    found: Dict[str, List[str]] = {}
    for line in lines:
        if line and not line.startswith("===>"):
            found.setdefault(line.partition("=")[0].rpartition(".")[0], []).append(line)
    return found


def needs_of(lines: List[str]) -> Set[str]:
    """All paths that these lines of a path name, to build it or to run."""
    named: Set[str] = set()
    for line in lines:
        head, _, value = line.partition("=")
        if head.endswith("_DEPENDS"):
            named |= paths_named(value)
    return named


def is_ignored(lines: List[str]) -> bool:
    return any(line.partition("=")[0].endswith(".IGNORE") and line.partition("=")[2].strip() for line in lines)


def cut(lines: List[str], count: int) -> List[str]:
    """The first units of a listing, about this many (0: all), each with all that it needs. What is ignored is left out, and so is what
    needs it or needs what isn't listed."""
    by_path = lines_by_path(lines)
    needs = all_needs(by_path)
    bad = unbuilt(by_path, needs)
    chosen: Set[str] = set()
    groups: Set[str] = set()
    for first in by_path:
        if count and len(groups) >= count:
            break
        waiting = [] if first in bad else [first]
        while waiting:
            path = waiting.pop()
            if path not in chosen:
                chosen.add(path)
                groups.add(group_of(path))
                waiting += needs[path]
    return [line for path, own in by_path.items() if path in chosen for line in own]


def all_needs(by_path: Dict[str, List[str]]) -> Dict[str, Set[str]]:
    """By path all that it needs, and those that are built with it."""
    mates: Dict[str, List[str]] = {}
    for path in by_path:
        mates.setdefault(group_of(path), []).append(path)
    return {path: needs_of(lines) | set(mates[group_of(path)]) for path, lines in by_path.items()}


def unbuilt(by_path: Dict[str, List[str]], needs: Dict[str, Set[str]]) -> Set[str]:
    """The paths that are ignored, or need what isn't listed, and all that need these."""
    users: Dict[str, List[str]] = {}
    for path, needed in needs.items():
        for it in needed:
            users.setdefault(it, []).append(path)
    found: Set[str] = set()
    waiting = [path for path, lines in by_path.items() if is_ignored(lines) or any(it not in by_path for it in needs[path])]
    while waiting:
        path = waiting.pop()
        if path not in found:
            found.add(path)
            waiting += users.get(path, [])
    return found


def sleeping(lines: List[str], median: float, spread: float, seed: int, bytes_each: int = 0) -> Tree:
    """Builds that sleep, for times with this median."""
    return Tree(lines, Work(Units(lines), median, spread, seed), SLEEPS, bytes_each)


def made(paths: int) -> List[str]:
    """A listing of this many paths, the same in every run."""
    return made_listing(paths, some_ignored=False)[0].split("\n")


class Makefiles(Tree):
    """A tree of real Makefiles, which bmake(1) builds."""

    def __init__(self, folder: str, ports: int, seed: int, least: float, most: float) -> None:
        self.made_in = f"{folder}/tree"
        words = [f"{places.TESTS}/live/make-tree", self.made_in, "--ports", str(ports), "--seed", str(seed)]
        subprocess.run([*words, "--least", str(least), "--most", str(most)], check=True)
        dump = f"{folder}/dump"
        with open(f"{self.made_in}/order", encoding="utf-8") as order, open(dump, "wb") as out:
            for port in order.read().split():
                subprocess.run(["bmake", "dump-vars"], cwd=f"{self.made_in}/{port}", stdout=out, check=True)
        listing = subprocess.run([f"{places.TOP}/tools/expand-listing", dump], stdout=subprocess.PIPE, check=True).stdout
        lines = [line for own in lines_by_path(listing.decode().split("\n")).values() for line in own]
        work = Work(Units(lines), 1, 0, seed)
        for unit in work.takes:
            work.takes[unit] = self.seconds(unit.partition(",")[0])
        work.chains = work.longest_chains()
        super().__init__(lines, work, MAKES)

    def lay(self, folder: str) -> None:
        super().lay(folder)
        os.symlink(self.made_in, f"{folder}/tree")

    def seconds(self, port: str) -> float:
        """How long the port waits, by its Makefile."""
        with open(f"{self.made_in}/{port}/Makefile", encoding="utf-8") as file:
            words = dict(line.split(" = ", 1) for line in file.read().split("\n") if " = " in line)
        return float(words["SECONDS"])


def chosen(asked: argparse.Namespace) -> Tree:
    """The tree that the options of a part ask for."""
    if asked.makefiles:
        return Makefiles(asked.inside, asked.units, asked.seed, asked.median / 2, asked.median * 2)
    lines = listing_of(asked.listing) if asked.listing else made(PATHS_A_UNIT * asked.units)
    return sleeping(cut(lines, asked.units), asked.median, asked.spread, asked.seed, asked.bytes)
