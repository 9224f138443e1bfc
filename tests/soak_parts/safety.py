"""What must hold of the logs of a run, whatever happened: one package a path, an allowed list, and packages that were built on what was
published and on nothing else. And how many builds began."""
from __future__ import annotations

import collections
import hashlib
import os
import subprocess
from typing import Container, Dict, Iterable, List, NamedTuple, Set, Tuple

from soak_parts import places
from soak_parts.logs import Build, Log, Malformed, Package
from schedules import Units

# of each kind of problem, how many are printed
MOST_TOLD = 3


def read(paths: Iterable[str]) -> Tuple[List[Log], List[str]]:
    """The logs, and what is wrong with each by itself."""
    logs, problems = [], []
    known: Dict[str, Build] = {}
    for path in paths:
        try:
            logs.append(Log(path, known))
            problems += logs[-1].problems
        except (Malformed, ValueError, KeyError, IndexError) as error:
            problems.append(f"{path} can't be read: {error!r}")
    return logs, problems


def problems_of(logs: List[Log], units: Units, lost: int = 0, handed: Container[str] = ()) -> List[str]:
    """What is wrong with what these logs say together. `lost` members' logs aren't there; what was `handed` in is of another run."""
    found: List[str] = []
    packages, twice = published(logs)
    for problems in (twice, unvoted(logs, lost), not_allowed(packages, units), saw_other(packages, handed)):
        found += problems[:MOST_TOLD]
        if len(problems) > MOST_TOLD:
            found.append(f".. and {len(problems) - MOST_TOLD} more of these")
    return found


def published(logs: List[Log]) -> Tuple[Dict[str, Package], List[str]]:
    """The packages by path, and the paths that have several."""
    packages: Dict[str, Package] = {}
    problems = []
    for log in logs:
        for build in log.held.values():
            for package in build.packages:
                other = packages.setdefault(package.path, package)
                if other.signature() != package.signature():
                    problems.append(f"TWO PACKAGES FOR ONE PATH: {other.signature()} and, at {log.path}, {package.signature()}")
    return packages, problems


def unvoted(logs: List[Log], lost: int) -> List[str]:
    """The units that are held without the votes of a majority under one claim. Members whose logs are lost may have voted."""
    if not logs:
        return []
    weights = logs[0].weights
    needed = sum(weights) // 2 + 1 - lost * max(weights)
    held: Dict[str, Build] = {}
    for log in logs:
        held.update(log.held)
    problems = []
    for unit, build in held.items():
        votes: Dict[Tuple[int, int], int] = collections.Counter()
        for log in logs:
            for claim, digest in log.votes.get(unit, {}).items():
                votes[claim] += weights[log.own] if digest == build.digest else 0
        if max(votes.values(), default=0) < needed:
            problems.append(f"{unit} is held, and no claim of it has the votes of a majority: {dict(votes)}")
    return problems


def not_allowed(packages: Dict[str, Package], units: Units) -> List[str]:
    """The packages that may not be in a list, by the reasons of an audit in dpbr(1)."""
    problems = []
    for path, package in packages.items():
        if path not in units.unit_of:
            problems.append(f"{path} isn't listed, or is ignored")
            continue
        if package.name != units.name_of[path]:
            problems.append(f"{path} has the name {package.name}, and not {units.name_of[path]}")
        if set(built_paths(package)) != needed_to_build(units, path) or len(set(package.built)) != len(package.built):
            problems.append(f"{path} was built on {list(built_paths(package))}, and not on what it needs")
        for signature in package.built:
            other = packages.get(signature.split(" ")[0])
            if other is None or other.signature() != signature:
                problems.append(f"BUILT ON WHAT NOBODY PUBLISHED: {path} on {signature}")
    return problems


def built_paths(package: Package) -> Tuple[str, ...]:
    return tuple(signature.split(" ")[0] for signature in package.built)


def needed_to_build(units: Units, path: str) -> Set[str]:
    """The paths that the path's build is on: what any package of its unit needs to be built, other than themselves."""
    own = units.packages[units.unit_of[path]]
    needed = {it for mate in own for it in units.to_build[mate]}
    return needed - set(own) if len(own) > 1 else needed


def saw_other(packages: Dict[str, Package], handed: Container[str] = ()) -> List[str]:
    """The packages whose build saw other packages than its record says: those, and all that they need to run."""
    problems = []
    for path, package in packages.items():
        if path in handed:
            continue
        there = closure(package, packages)
        lines = sorted((packages[it].signature() for it in there), key=lambda line: line.split(" ")[0].encode())
        text = "".join(f"{line}\n" for line in lines).encode()
        if "saw" in package.files:
            right = package.files["saw"].decode().strip() == hashlib.sha256(text).hexdigest()
        elif "built-on" in package.files:
            right = set(package.files["built-on"].decode().split("\n")) == {*lines, ""}
        else:
            right = True
        if not right:
            problems.append(f"{path} was built next to other packages than its record says")
    return problems


def closure(package: Package, packages: Dict[str, Package]) -> Set[str]:
    """What is there while a package is built, as far as it is published."""
    found: Set[str] = set()
    waiting = list(built_paths(package))
    while waiting:
        path = waiting.pop()
        if path in packages and path not in found:
            found.add(path)
            waiting += packages[path].run
    return found


def audited(log: Log, folder: str) -> str:
    """What `dpbr audit` says of what a log holds, if it isn't yes; it says nothing if the program isn't built."""
    if not os.path.exists(places.AUDITS):
        return ""
    packages = [package for build in log.held.values() for package in build.packages]
    path = f"{folder}/list-{log.own}"
    with open(path, "w", encoding="utf-8") as file:
        for package in in_order(packages):
            file.write(f"package {package.signature()}\n" + "".join(f"built {line}\n" for line in package.built))
    done = subprocess.run([places.AUDITS, "audit", f"{folder}/listing", path], capture_output=True, check=False)
    said = (done.stdout + done.stderr).decode().strip()
    return "" if said == "yes" else f"dpbr audit of {log.path} says {said!r}"


def in_order(packages: List[Package]) -> List[Package]:
    """The packages, each after those that it was built on, as far as these are among them."""
    by_signature = {package.signature(): package for package in packages}
    found: Dict[str, Package] = {}
    waiting = list(reversed(packages))
    while waiting:
        package = waiting[-1]
        before = [it for it in package.built if it in by_signature and it not in found]
        if package.signature() in found or not before:
            found.setdefault(package.signature(), waiting.pop())
        else:
            waiting += [by_signature[it] for it in before]
    return list(found.values())


class Counted(NamedTuple):
    """Builds: how many began, how many of these because a kill or a failure had ended another one of the unit, and of how many units."""

    begun: int
    excused: int
    units: int

    def share(self) -> float:
        """The builds begun for each unit, without those that are excused."""
        return (self.begun - self.excused) / max(1, self.units)


def counted(files: Iterable[str], lost: Iterable[str] = ()) -> Counted:
    """Counts the builds by the files that their commands wrote. A build is over without a result if it failed, or if nothing says how it
    ended, since it was killed; the next one of its unit is excused then. So is the one after a build at a host that was lost."""
    begun: Dict[str, int] = collections.Counter()
    void: Dict[str, int] = collections.Counter()
    gone = set(lost)
    for path in {*files, *gone}:
        ends: Dict[Tuple[str, str], str] = {}
        for line in lines_of(path):
            what, unit, process = line.split(" ")
            begun[unit] += what == "begun"
            if what == "begun" and ends.get((unit, process)) is not None:
                void[unit] += ends[unit, process] in ("begun", "failed")
            ends[unit, process] = what
        for (unit, _), what in ends.items():
            void[unit] += what in ("begun", "failed") or path in gone
    excused = sum(min(void[unit], count - 1) for unit, count in begun.items())
    return Counted(sum(begun.values()), excused, len(begun))


def lines_of(path: str) -> List[str]:
    """The whole lines of a file that may not be there."""
    try:
        with open(path, encoding="utf-8") as file:
            return [line for line in file.read().split("\n") if line.count(" ") == 2]
    except FileNotFoundError:
        return []
