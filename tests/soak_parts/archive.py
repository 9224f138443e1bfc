"""A whole archive: all units of a large listing at three nodes and at nine, with builds that sleep."""
from __future__ import annotations

import argparse
import os
import time
from typing import List

from soak_parts import logs, syncs, trees
from soak_parts.figures import Figures
from soak_parts.hosts import Host
from soak_parts.runs import Run

# how many paths the made listing has, if none is given and no number of units: as many as a listing may have
MOST_PATHS = 16_384
# of a sample of restarts the median counts
RESTARTS = 3


def run(asked: argparse.Namespace) -> Figures:
    figures = Figures("archive", vars(asked))
    lines = trees.listing_of(asked.listing) if asked.listing else trees.made(trees.PATHS_A_UNIT * asked.units or MOST_PATHS)
    lines = trees.cut(lines, asked.units)
    for nodes in asked.sizes:
        one(asked, figures, lines, nodes)
    return figures


def scaled(asked: argparse.Namespace, lines: List[str], places: int) -> trees.Tree:
    """Builds of such times that a list scheduler takes as long as is asked for."""
    tree = trees.sleeping(lines, asked.median, asked.spread, asked.seed, asked.bytes)
    if not asked.minutes:
        return tree
    takes = tree.work.list_schedule(places, tree.work.by_listing)
    return trees.sleeping(lines, asked.median * asked.minutes * 60 / takes, asked.spread, asked.seed, asked.bytes)


def one(asked: argparse.Namespace, figures: Figures, lines: List[str], nodes: int) -> None:
    """The archive at this many nodes."""
    places = nodes * asked.jobs
    tree = scaled(asked, lines, places)
    run = Run(asked, tree, figures, f"archive at {nodes} nodes", nodes)
    ideal = run.by_listing()
    figures.say(f"{len(tree.units.paths)} packages of {run.wanted} units at {nodes} nodes of {run.jobs} jobs; "
                f"a list scheduler takes {ideal:.0f} s")
    told = [time.monotonic()]

    def step() -> None:
        if time.monotonic() > told[0] + 60:
            told[0] = time.monotonic()
            figures.say(f"after {run.passed():.0f} s {min(run.counts())} to {run.held_by_some()} of {run.wanted} units are held")

    try:
        run.start()
        run.finish(step=step)
    finally:
        run.end()
    counted = run.check()
    run.tell(counted, ideal, "list scheduler")
    figures.expect(run.took <= asked.ratio * ideal, f"{run.name}: {run.took / ideal:.2f} times the list scheduler; {asked.ratio} allowed")
    figures.expect(counted.share() <= asked.begun, f"{counted.share():.3f} builds begun for a unit; {asked.begun} are allowed")
    run.tell_costs()
    tell_log(run, figures)
    tell_restart(run, figures)


def tell_log(run: Run, figures: Figures) -> None:
    """The bytes of a log, next to those of the builds in it; and how long as many bare syncs take."""
    host = max(run.hosts, key=Host.log_bytes)
    log = logs.Log(host.log)
    figures.add(f"{run.name}, the largest log", log.size / 1e6, "MB", f"twice the builds in it: {2 * log.texts / 1e6:.1f} MB")
    notes = sum(log.notes.values())
    bare = syncs.seconds_each(host.logs)
    figures.add(f"{run.name}, notes in that log", notes, "notes", f"two bare syncs for each take {2 * notes * bare:.1f} s there")


def tell_restart(run: Run, figures: Figures) -> None:
    """How long a node takes to start on the whole log: it is run for no turn at all."""
    host = run.hosts[0]
    took = []
    for _ in range(RESTARTS):
        began = time.monotonic()
        done = host.opened()
        took.append(time.monotonic() - began)
        right = done.returncode == 0 and f"I={len(run.tree.units.paths)} ".encode() in done.stdout
        figures.expect(right, f"{run.name}: a restart on the whole log ended with {done.returncode}: {done.stdout!r} {done.stderr!r}")
    began = time.monotonic()
    with open(host.log, "rb") as file:
        while file.read(1 << 20):
            pass
    bare = time.monotonic() - began
    figures.add(f"{run.name}, restart with the whole log", sorted(took)[len(took) // 2], "s",
                f"{os.path.getsize(host.log) / 1e6:.1f} MB, which are read in {bare:.2f} s")
