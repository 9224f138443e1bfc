"""How long builds took: lines `UNIT SECONDS BYTES HOST`, as build-jobs(1) appends them to WORK/times."""
from __future__ import annotations

import os
import re
import statistics
from typing import Dict, List, NamedTuple, Optional

LINE = re.compile(r"(\S+) ([0-9]{1,12}(?:\.[0-9]{1,9})?) ([0-9]{1,18}) (\S+)")
# a unit of which no time is known takes the median of its category, if there are this many times of that
LEAST_OF_CATEGORY = 3


class Bad(Exception):
    """A line of another form."""

    def __init__(self, line: int) -> None:
        super().__init__(f"line {line} isn't 'UNIT SECONDS BYTES HOST'")


class Took(NamedTuple):
    """A build that is over."""

    unit: str
    seconds: float
    size: int
    host: str


def took(line: str) -> Optional[Took]:
    found = LINE.fullmatch(line)
    return Took(found[1], float(found[2]), int(found[3]), found[4]) if found else None


def read(text: bytes) -> List[Took]:
    """All builds of a whole file of times."""
    builds = []
    for number, line in enumerate(text.decode("latin-1").split("\n"), 1):
        one = took(line)
        if one is None and line:
            raise Bad(number)
        if one:
            builds.append(one)
    return builds


class Growing:
    """A file of times to which lines are appended. A line of another form is passed over, and counted."""

    def __init__(self, path: str) -> None:
        self.path, self.at, self.bad = path, 0, 0
        self.builds: List[Took] = []

    def look(self) -> None:
        try:
            with open(self.path, "rb", opener=lambda name, how: os.open(name, how | os.O_NONBLOCK)) as file:
                if os.fstat(file.fileno()).st_size < self.at:
                    self.at, self.bad, self.builds = 0, 0, []
                file.seek(self.at)
                text = file.read()
        except FileNotFoundError:
            return
        whole = text.rpartition(b"\n")[0]
        self.at += len(whole) + 1 if whole else 0
        for line in whole.decode("latin-1").split("\n") if whole else []:
            one = took(line)
            if one:
                self.builds.append(one)
            elif line:
                self.bad += 1


class Usual:
    """How long a unit usually takes: as the last time that is known; or else the median of its category, or of all."""

    def __init__(self, builds: List[Took]) -> None:
        self.known = {one.unit: one.seconds for one in builds}
        categories: Dict[str, List[float]] = {}
        for unit, seconds in self.known.items():
            categories.setdefault(unit.partition("/")[0], []).append(seconds)
        self.medians = {name: statistics.median(its) for name, its in categories.items() if len(its) >= LEAST_OF_CATEGORY}
        self.median = statistics.median(self.known.values()) if self.known else None

    def of(self, unit: str) -> Optional[float]:
        """None if no times are known at all."""
        return self.known.get(unit, self.medians.get(unit.partition("/")[0], self.median))
