"""A thousand kills of nodes, drivers and both: at random, right after a job is posted, and right after an answer is handed in."""
from __future__ import annotations

import argparse
import collections
import heapq
import random
import time
from typing import Dict, List, Tuple

from soak_parts import trees
from soak_parts.figures import Figures
from soak_parts.hosts import DRIVER, NODE, Host
from soak_parts.moments import HANDED, POSTED, Moments
from soak_parts.runs import Run

RANDOM = "at random"
KINDS = (RANDOM, POSTED, HANDED)
PARTS = ((NODE,), (DRIVER,), (NODE, DRIVER))
# how long a host is down, at most, and how long a kill waits for its moment before it comes at random, in seconds
LONGEST_DOWN, LONGEST_WAIT = 0.5, 20


class Killer:
    """Kills parts of hosts, and starts them again. Kills are spread over the run by how much is held, so that each finds it at work."""

    def __init__(self, run: Run, kills: int) -> None:
        self.run, self.dice, self.kills = run, random.Random(run.asked.seed), kills
        self.kinds = [KINDS[number % len(KINDS)] for number in range(kills)]
        self.dice.shuffle(self.kinds)
        self.moments = Moments({host.me: host.work for host in run.hosts})
        self.done: Dict[Tuple[str, Tuple[str, ...]], int] = collections.Counter()
        # kills whose turn has come: their kinds, and since when each waits
        self.due: List[Tuple[str, float]] = []
        self.down: List[Tuple[float, int, Tuple[str, ...]]] = []
        self.given = 0

    def step(self) -> None:
        """Starts what was down for long enough, and kills what is to be killed now."""
        while self.down and self.down[0][0] <= time.monotonic():
            _, host, parts = heapq.heappop(self.down)
            self.run.hosts[host].start(*parts)
        self.come_due()
        for moment in self.moments.came():
            self.kill_if_due(moment.kind, self.run.hosts[moment.host])
        now = time.monotonic()
        for kind, since in list(self.due):
            if kind == RANDOM or now > since + LONGEST_WAIT:
                self.kill_if_due(kind, self.dice.choice(self.run.hosts), RANDOM)

    def come_due(self) -> None:
        """As many kills are due or done as the run is far. A random one waits for some time that hangs on nothing."""
        share = self.run.held_by_some() / self.run.wanted
        while self.given < min(self.kills, share * self.kills + 1):
            kind = self.kinds[self.given]
            self.due.append((kind, time.monotonic()))
            self.given += 1

    def kill_if_due(self, kind: str, host: Host, told: str = "") -> None:
        """Kills at a host that is up, if a kill of this kind is due."""
        waiting = next((it for it in self.due if it[0] == kind), None)
        if waiting is None or not host.is_up():
            return
        self.due.remove(waiting)
        parts = self.dice.choice(PARTS)
        host.kill(*parts)
        self.done[told or kind, parts] += 1
        heapq.heappush(self.down, (time.monotonic() + self.dice.uniform(0, LONGEST_DOWN), host.me, parts))

    def end(self) -> None:
        """Starts all that is down."""
        for _, host, parts in self.down:
            self.run.hosts[host].start(*parts)
        self.down.clear()
        self.moments.close()

    def told(self) -> str:
        """How many kills there were of what, and when."""
        kinds = {kind: sum(count for key, count in self.done.items() if key[0] == kind) for kind in KINDS}
        parts = {"+".join(it): sum(count for key, count in self.done.items() if key[1] == it) for it in PARTS}
        return "; ".join(", ".join(f"{count} {name}" for name, count in counts.items()) for counts in (kinds, parts))


def killed(run: Run, kills: int) -> Killer:
    """Runs a bulk build to its end while parts of it are killed, with all hosts up at the end."""
    killer = Killer(run, kills)
    try:
        run.start()
        run.finish(step=killer.step, numbers=[killer.moments.number])
    finally:
        killer.end()
    return killer


def run(asked: argparse.Namespace) -> Figures:
    figures = Figures("kills", vars(asked))
    tree = trees.chosen(asked)
    run = Run(asked, tree, figures, f"{asked.kills} kills", asked.nodes)
    figures.say(f"{run.wanted} units at {asked.nodes} nodes of {run.jobs} jobs, {asked.kills} kills; "
                f"a list scheduler takes {run.by_listing():.0f} s")
    try:
        killer = killed(run, asked.kills)
        # those that were down when the last unit was held have to hold all, too
        run.finish()
    finally:
        run.end()
    counted = run.check()
    run.tell(counted, run.by_listing(), "list scheduler")
    figures.add("kills", sum(killer.done.values()), "kills", killer.told())
    figures.expect(sum(killer.done.values()) >= 0.9 * asked.kills, f"only {sum(killer.done.values())} of {asked.kills} kills were done")
    figures.expect(counted.share() <= asked.begun, f"{counted.share():.3f} builds begun for a unit; {asked.begun} are allowed")
    run.tell_costs()
    return figures
