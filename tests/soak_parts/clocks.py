"""Bad clocks, at one host at a time: they jump an hour ahead and back, or run at half speed. The machine's own clock stays as it is."""
from __future__ import annotations

import argparse
import mmap
import struct
import time
from typing import Callable, Dict, List, Tuple

from soak_parts import shims, trees
from soak_parts.figures import Figures
from soak_parts.hosts import DRIVER, NODE, Host
from soak_parts.runs import Run

# the clock of the day, and those that only go forward, as tests/clock.c has them
DAY, FORWARD = 1, 4
CLOCKS = {DAY: time.CLOCK_REALTIME, FORWARD: time.CLOCK_MONOTONIC}
NUMBERS = "9q"
HOUR = 3600
SECOND = 10**9


class Clock:
    """What tests/clock.c reads: since when, what is shown then, and how fast each clock runs."""

    def __init__(self, path: str) -> None:
        self.path, self.count = path, 0
        self.values: Dict[int, List[int]] = {which: [self.now(which), self.now(which), 1000] for which in CLOCKS}
        # where a clock begins that only goes forward means nothing; it must not come to be negative
        self.values[FORWARD][1] += 24 * HOUR * SECOND
        with open(path, "wb") as file:
            file.write(bytes(struct.calcsize(NUMBERS)))
        with open(path, "r+b") as file:
            self.page = mmap.mmap(file.fileno(), 0)
        self.write()

    @staticmethod
    def now(which: int) -> int:
        return time.clock_gettime_ns(CLOCKS[which])

    def shown(self, which: int) -> int:
        """What the host reads now, in nanoseconds."""
        since, shown, speed = self.values[which]
        return shown + (self.now(which) - since) * speed // 1000

    def set(self, which: int, ahead: float = 0.0, speed: float = 1.0) -> None:
        """From now on a clock goes on this many seconds ahead of what it shows, at this speed."""
        self.values[which] = [self.now(which), self.shown(which) + int(ahead * SECOND), int(1000 * speed)]
        self.write()

    def write(self) -> None:
        """The count is odd while the other numbers change."""
        self.count += 2
        self.page[:8] = struct.pack("q", self.count - 1)
        self.page[8:] = struct.pack("8q", *self.values[DAY], *self.values[FORWARD], 0, 0)
        self.page[:8] = struct.pack("q", self.count)


Step = Callable[[Clock], None]


def both(ahead: float = 0.0, speed: float = 1.0) -> Step:
    def step(clock: Clock) -> None:
        for which in CLOCKS:
            clock.set(which, ahead, speed)
    return step


def one_of(which: int, ahead: float) -> Step:
    return lambda clock: clock.set(which, ahead)


# what happens to the clocks of a host when a quarter of all is held, and when three quarters are
CASES: Dict[str, Tuple[Step, Step]] = {
    "both an hour ahead and back": (both(HOUR), both(-HOUR)),
    "the clock of the day an hour ahead and back": (one_of(DAY, HOUR), one_of(DAY, -HOUR)),
    "the clock that goes forward an hour ahead and back": (one_of(FORWARD, HOUR), one_of(FORWARD, -HOUR)),
    "both an hour back and ahead": (both(-HOUR), both(HOUR)),
    "half speed": (both(speed=0.5), both(speed=1.0)),
    "double speed": (both(speed=2.0), both(speed=1.0)),
}


def run(asked: argparse.Namespace) -> Figures:
    figures = Figures("clocks", vars(asked))
    tree = trees.chosen(asked)
    for number, (name, (first, second)) in enumerate(CASES.items()):
        if not asked.cases or name in asked.cases:
            one(asked, figures, tree, name, number % asked.nodes, first, second)
    return figures


def one(asked: argparse.Namespace, figures: Figures, tree: trees.Tree, name: str, me: int, first: Step, second: Step) -> None:
    """A run in which the clocks of a host are wrong in the middle."""
    run = Run(asked, tree, figures, name, asked.nodes)
    figures.say(f"{run.name}, at host {me}: {run.wanted} units at {run.members} nodes")
    clock = set_up(run, run.hosts[me])
    try:
        run.start()
        run.wait(lambda: run.held_by_some() >= run.wanted // 4)
        first(clock)
        run.wait(lambda: run.held_by_some() >= 3 * run.wanted // 4)
        second(clock)
        run.finish()
    finally:
        run.end()
    counted = run.check()
    run.tell(counted, run.by_listing(), "list scheduler")


def set_up(run: Run, host: Host) -> Clock:
    """Has node and driver of a host read clocks that can be set."""
    clock = Clock(f"{run.folder}/clock-{host.me}")
    for part in (NODE, DRIVER):
        host.environment[part].update(LD_PRELOAD=shims.built("clock", run.asked.inside), CLOCK=clock.path)
    return clock
