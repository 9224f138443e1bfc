"""A million datagrams of noise, with bits flipped, cut short, or of another run, next to a thousand kills, under a key."""
from __future__ import annotations

import argparse
import re
from typing import Dict

from soak_parts import trees
from soak_parts.carried import DATAGRAMS, Carried
from soak_parts.figures import Figures
from soak_parts.hosts import NODE, Host
from soak_parts.kills import killed
from soak_parts.runs import Run

TALLY = re.compile(r"^dpbn: member (\d): heard (\d+)(?:, last \d+ s ago)?, sealed otherwise (\d+), asked again \d+, unsent \d+$")
# how many units the other run has, whose datagrams are sent again
UNITS_OF_THE_OTHER = 30


def run(asked: argparse.Namespace) -> Figures:
    figures = Figures("forged", vars(asked))
    strange = f"{asked.inside}/strange"
    overhear(asked, figures, strange)
    run = Run(asked, trees.chosen(asked), figures, f"{asked.kills} kills next to {asked.datagrams} forged datagrams", asked.nodes)
    figures.say(f"{run.wanted} units at {asked.nodes} nodes, {asked.kills} kills, {asked.datagrams:,} datagrams; "
                f"a list scheduler takes {run.by_listing():.0f} s")
    carried = Carried(run, DATAGRAMS)
    try:
        carried.order(f"strange {strange}")
        carried.order(f"flood {asked.datagrams}")
        killer = killed(run, asked.kills)
        run.finish()
        run.wait(lambda: int(carried.order("counts")["left"]) == 0)
        counts = carried.order("counts")
    finally:
        run.end()
        carried.end()
    counted = run.check(allowed=["1202"])
    run.tell(counted, run.by_listing(), "list scheduler")
    figures.expect(counted.share() <= asked.begun, f"{counted.share():.3f} builds begun for a unit; {asked.begun} are allowed")
    figures.add("kills", sum(killer.done.values()), "kills", killer.told())
    tell(run, figures, counts["forged"])
    return figures


def overhear(asked: argparse.Namespace, figures: Figures, path: str) -> None:
    """Another run with the same listing and another key, whose datagrams are kept."""
    words = argparse.Namespace(**{**vars(asked), "units": UNITS_OF_THE_OTHER, "median": 0.1, "bytes": 0})
    run = Run(words, trees.chosen(words), figures, "another run", asked.nodes)
    carried = Carried(run, DATAGRAMS)
    try:
        run.start()
        run.finish()
        carried.order(f"keep {path}")
    finally:
        run.end()
        carried.end()


def tell(run: Run, figures: Figures, forged: int) -> None:
    """What nodes said of the datagrams that came from members' addresses."""
    tallies = [tally_of(host) for host in run.hosts]
    heard, otherwise = (sum(it[which] for it in tallies) for which in ("heard", "otherwise"))
    figures.add("forged datagrams", forged, "datagrams", f"nodes said that they dropped {otherwise}, and heard {heard} of members")
    figures.expect(otherwise > 0, "no node read a forged datagram")


def tally_of(host: Host) -> Dict[str, int]:
    """What a node counted, over all its lives: of each life the last lines count."""
    found = {"heard": 0, "otherwise": 0}
    last: Dict[str, re.Match[str]] = {}
    for line in host.lines(NODE):
        match = TALLY.match(line)
        if match:
            if match[1] in last and int(last[match[1]][2]) > int(match[2]):
                add(found, last.pop(match[1]))
            last[match[1]] = match
    for match in last.values():
        add(found, match)
    return found


def add(found: Dict[str, int], match: re.Match[str]) -> None:
    found["heard"] += int(match[2])
    found["otherwise"] += int(match[3])
