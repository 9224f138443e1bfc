"""The units of a listing, how long their builds take, and how soon an ideal scheduler would have built them all.

A unit is what one build makes: the paths of a group that are built together. It waits for all that its packages need to be built, and for
all that those need to run. Durations are drawn from a log-normal distribution, the same for the same seed.
"""
import heapq
import math
import random
import re
from typing import Callable, Dict, List, Set, Tuple

Key = Callable[[str], Tuple[float, int]]


def group_of(path: str) -> str:
    """A package path without its subpackage."""
    return ",".join(part for number, part in enumerate(path.split(",")) if number == 0 or not part.startswith("-"))


def paths_named(value: str) -> Set[str]:
    """The package paths that the value of a variable with dependencies names."""
    fields = ([field for field in word.split(":") if "/" in field] for word in value.split())
    return {re.split("[<>=]", named[0])[0] for named in fields if named}


class Units:
    """The units of a listing, and what each waits for."""

    def __init__(self, lines: List[str]) -> None:
        self.paths: List[str] = []
        self.to_build: Dict[str, Set[str]] = {}
        self.to_run: Dict[str, Set[str]] = {}
        self.ignored: Set[str] = set()
        self.name_of: Dict[str, str] = {}
        self.read(lines)
        groups: Dict[str, List[str]] = {}
        for path in self.paths:
            if path not in self.ignored:
                groups.setdefault(group_of(path), []).append(path)
        # the only path of a group is a unit of its own name
        self.packages = {group if len(paths) > 1 else paths[0]: paths for group, paths in groups.items()}
        self.unit_of = {path: unit for unit, paths in self.packages.items() for path in paths}
        self.names = list(self.packages)
        place_of = {path: place for place, path in enumerate(self.paths)}
        self.place = {unit: min(place_of[path] for path in paths) for unit, paths in self.packages.items()}
        self.needs = {unit: self.needed(unit) for unit in self.names}
        self.users: Dict[str, List[str]] = {unit: [] for unit in self.names}
        for unit, needs in self.needs.items():
            for needed in needs:
                self.users[needed].append(unit)

    def read(self, lines: List[str]) -> None:
        for line in lines:
            if not line or line.startswith("===>"):
                continue
            head, _, value = line.partition("=")
            path, _, variable = head.rpartition(".")
            if path not in self.to_build:
                self.paths.append(path)
                self.to_build[path], self.to_run[path] = set(), set()
            if variable == "FULLPKGNAME":
                self.name_of[path] = value.strip()
            if variable in ("BUILD_DEPENDS", "LIB_DEPENDS"):
                self.to_build[path] |= paths_named(value)
            if variable in ("RUN_DEPENDS", "LIB_DEPENDS"):
                self.to_run[path] |= paths_named(value)
            if variable == "IGNORE" and value.strip():
                self.ignored.add(path)

    def needed(self, unit: str) -> Set[str]:
        """The units for which this one waits."""
        own = set(self.packages[unit])
        found: Set[str] = set()
        left = [needed for path in own for needed in self.to_build[path] if needed not in own]
        while left:
            path = left.pop()
            if path in self.unit_of and path not in found:
                found.add(path)
                left.extend(self.to_run[path])
        return {self.unit_of[path] for path in found} - {unit}


class Work:
    """The units with the durations of their builds."""

    def __init__(self, units: Units, median: float, spread: float, seed: int) -> None:
        dice = random.Random(seed)
        self.units = units
        self.takes = {unit: round(median * math.exp(spread * dice.gauss(0, 1)), 3) for unit in sorted(units.names)}
        self.chains = self.longest_chains()

    def in_order(self) -> List[str]:
        """The units, each after those for which it waits."""
        left = {unit: len(needs) for unit, needs in self.units.needs.items()}
        ready = [unit for unit in self.units.names if not left[unit]]
        for unit in ready:
            for user in self.units.users[unit]:
                left[user] -= 1
                if not left[user]:
                    ready.append(user)
        return ready

    def longest_chains(self) -> Dict[str, float]:
        """By unit, how long the longest chain of builds takes that begins with its own."""
        chains: Dict[str, float] = {}
        for unit in reversed(self.in_order()):
            chains[unit] = self.takes[unit] + max((chains[user] for user in self.units.users[unit]), default=0)
        return chains

    def total(self) -> float:
        return sum(self.takes.values())

    def longest_chain(self) -> float:
        return max(self.chains.values())

    def by_listing(self, unit: str) -> Tuple[float, int]:
        return 0, self.units.place[unit]

    def by_chain(self, unit: str) -> Tuple[float, int]:
        return -self.chains[unit], self.units.place[unit]

    def list_schedule(self, places: int, key: Key) -> float:
        """How long a list scheduler takes that knows all, costs nothing, and begins the least unit by this key at each free place."""
        left = {unit: len(needs) for unit, needs in self.units.needs.items()}
        ready = [(key(unit), unit) for unit in self.units.names if not left[unit]]
        heapq.heapify(ready)
        now = 0.0
        running: List[Tuple[float, str]] = []
        while ready or running:
            while ready and len(running) < places:
                unit = heapq.heappop(ready)[1]
                heapq.heappush(running, (now + self.takes[unit], unit))
            now, unit = heapq.heappop(running)
            for user in self.units.users[unit]:
                left[user] -= 1
                if not left[user]:
                    heapq.heappush(ready, (key(user), user))
        return now
