"""Bad lines: lost, late, repeated and reordered datagrams; a host that is cut off and comes back; two halves that can't hear each other."""
from __future__ import annotations

import argparse
import time
from typing import Callable, Dict, List, Tuple

from soak_parts import trees
from soak_parts.bad_line import Line
from soak_parts.carried import Carried
from soak_parts.figures import Figures
from soak_parts.runs import Run

# how long what is on the way or in work may still be held after a cut, in seconds
SETTLES = 5.0
LINES: Dict[str, Line] = {
    "plain": Line(),
    "1 % lost": Line(loss=0.01),
    "5 % lost": Line(loss=0.05),
    "50 ms late": Line(delay=0.05),
    "reordered and repeated": Line(jitter=0.05, twice=0.1),
    "all of it": Line(loss=0.05, delay=0.025, jitter=0.05, twice=0.1),
}


def halves(members: int) -> Tuple[Tuple[int, ...], ...]:
    return tuple(range(members // 2)), tuple(range(members // 2, members))


def one_away(members: int) -> Tuple[Tuple[int, ...], ...]:
    return (0,), tuple(range(1, members))


CUTS: Dict[str, Callable[[int], Tuple[Tuple[int, ...], ...]]] = {"a host cut off": one_away, "two halves": halves}


def run(asked: argparse.Namespace) -> Figures:
    figures = Figures("lines", vars(asked))
    tree = trees.chosen(asked)
    for kind in asked.carriers:
        plain = 0.0
        for name, line in LINES.items():
            if not asked.cases or name in asked.cases:
                took = steady(asked, figures, tree, kind, name, line, plain)
                plain = plain or took
        for name, groups in CUTS.items():
            if not asked.cases or name in asked.cases:
                cut(asked, figures, tree, kind, name, groups(asked.nodes))
    return figures


def steady(asked: argparse.Namespace, figures: Figures, tree: trees.Tree, kind: str, name: str, line: Line, plain: float) -> float:
    """A whole run over a line that is always like this; returns how long it took."""
    run = Run(asked, tree, figures, f"{kind}, {name}", asked.nodes)
    figures.say(f"{run.name}: {run.wanted} units at {run.members} nodes")
    carried = Carried(run, kind)
    try:
        carried.set(line)
        run.start()
        run.finish()
        counts = carried.order("counts")
    finally:
        run.end()
        carried.end()
    run.tell(run.check(), run.by_listing(), f"over a plain line {plain:.1f} s; list scheduler" if plain else "list scheduler")
    figures.add(f"{run.name}, {kind} sent", counts["came"], kind, f"{counts['lost']} lost")
    return run.took


class Cut:
    """A cut of a line in the middle of a run, and its end."""

    def __init__(self, run: Run, carried: Carried, groups: Tuple[Tuple[int, ...], ...]) -> None:
        self.run, self.carried, self.groups = run, carried, groups
        self.needed = sum(1 for _ in run.hosts) // 2 + 1

    def lasts(self, seconds: float) -> Tuple[List[int], List[int]]:
        """Cuts the line for this long. Returns what each host holds when the cut has settled, and at its end."""
        self.carried.set(Line(groups=self.groups))
        end = time.monotonic() + seconds
        self.run.wait(lambda: time.monotonic() > end - seconds + min(SETTLES, seconds / 4))
        settled = self.run.counts()
        self.run.wait(lambda: time.monotonic() > end)
        return settled, self.run.counts()

    def problems(self, before: List[int], after: List[int]) -> List[str]:
        """What hosts obtained that didn't hear a majority, and groups with one that obtained nothing."""
        found = []
        for group in self.groups:
            gained = max(after[me] - before[me] for me in group)
            if len(group) < self.needed and gained:
                found.append(f"the hosts {group} obtained {gained} units without a majority")
            if len(group) >= self.needed and not gained and max(after) < self.run.wanted:
                found.append(f"the hosts {group} are a majority, and obtained nothing")
        return found

    def back(self) -> float:
        """Ends the cut, and returns how long it takes until each host holds what any of them held."""
        self.carried.set(Line())
        began, most = time.monotonic(), self.run.held_by_some()
        self.run.wait(lambda: min(self.run.counts()) >= most)
        return time.monotonic() - began


def cut(asked: argparse.Namespace, figures: Figures, tree: trees.Tree, kind: str, name: str, groups: Tuple[Tuple[int, ...], ...]) -> None:
    """A run in which groups of hosts can't hear each other for a while, once a quarter of it is built."""
    run = Run(asked, tree, figures, f"{kind}, {name}", asked.nodes)
    figures.say(f"{run.name}: {run.wanted} units at {run.members} nodes, {asked.away:.0f} s")
    carried = Carried(run, kind)
    try:
        run.start()
        run.wait(lambda: run.held_by_some() >= run.wanted // 4)
        it = Cut(run, carried, groups)
        before, after = it.lasts(asked.away)
        for problem in it.problems(before, after):
            figures.fail(f"{run.name}: {problem}")
        gained = [one - other for one, other in zip(after, before)]
        figures.add(f"{run.name}, held meanwhile", max(gained), "units", f"by host: {' '.join(map(str, gained))}")
        lacked = max(after) - min(after)
        figures.add(f"{run.name}, until each holds what any held", it.back(), "s", f"{lacked} units were lacking")
        run.finish()
    finally:
        run.end()
        carried.end()
    run.tell(run.check(), run.by_listing() + asked.away, "list scheduler and the cut")
