"""Builds that failed here in a row. A host at which each build fails would go on taking units that others can build, so it pauses after
some failures."""
from __future__ import annotations

import time
from typing import Callable, Set

# the first and the longest pause, in seconds
FIRST, LONGEST = 5, 60


class Failures:
    """The builds that failed since one succeeded, and the pause after some of them. In a pause nothing begins, and the node gives back
    what hasn't begun; units that failed are marked all the same."""

    def __init__(self, most: int, members: Callable[[], int], others: Callable[[], int], tell: Callable[[str], None]) -> None:
        # how many different units fail before the first pause, with 0 for never
        self.most, self.tell = most, tell
        # how many members the log's header names, and how many units that the log holds were built by others
        self.members, self.others = members, others
        # the units that failed in this row since the last pause, and how many builds did in all of the row
        self.units: Set[str] = set()
        self.count = 0
        # how many pauses began, and how many of them in this row
        self.pauses, self.times = 0, 0
        # why there is a pause, or nothing; since when and until when; and what others had built when the last one began
        self.why, self.since, self.until = "", 0.0, 0.0
        self.others_then = 0

    def failed(self, unit: str, pauses: int, why: str) -> None:
        """A build failed that began when there had been so many pauses."""
        if not self.most or pauses < self.pauses:
            # that it ran when a pause began says nothing of the time after that
            return
        self.count += 1
        self.units.add(unit)
        if self.is_enough():
            what = f"{self.count} builds in a row failed, the last" if self.count > 1 else "a build failed"
            self.begin(f"{what}: {unit}, {why}".replace("\n", " "))

    def is_enough(self) -> bool:
        """Whether a pause begins. After the first one a failure is enough, if another host built something since that began: otherwise all
        hosts may fail at these units, and would all wait."""
        if self.members() < 2:
            return False
        return self.others() > self.others_then if self.times else len(self.units) >= self.most

    def begin(self, why: str) -> None:
        wait = min(FIRST * 2 ** self.times, LONGEST)
        self.times, self.pauses = self.times + 1, self.pauses + 1
        self.units.clear()
        self.why, self.since = why, time.monotonic()
        self.until, self.others_then = self.since + wait, self.others()
        self.tell(f"~ this host begins nothing for {wait} s: {why}")

    def succeeded(self) -> None:
        """A build succeeded, which ends the row, and a pause."""
        self.units.clear()
        self.count, self.times, self.until = 0, 0, 0.0

    def is_over(self) -> bool:
        """Whether there is a pause that is to end now."""
        return bool(self.why) and time.monotonic() >= self.until

    def end(self) -> float:
        """Ends the pause, and returns how long it was, in seconds."""
        self.why = ""
        return time.monotonic() - self.since
