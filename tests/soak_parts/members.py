"""Members that are lost for good, that come late, whose builds all fail, or whose driver is dead."""
from __future__ import annotations

import argparse
import shutil
import time
from typing import Callable, Dict, List

from soak_parts import trees
from soak_parts.figures import Figures
from soak_parts.hosts import DRIVER, Host
from soak_parts.runs import Run

Case = Callable[[Run], None]


def lose(host: Host) -> None:
    """A host is gone: its processes, its builds and its disks."""
    host.kill()
    host.end_builds()
    host.is_wanted, host.is_lost = False, True
    shutil.rmtree(host.logs, ignore_errors=True)
    shutil.rmtree(f"{host.work}/jobs", ignore_errors=True)


def lost(run: Run, *members: int) -> None:
    """Members that are lost once a quarter is held, one after the other."""
    run.start()
    for number, me in enumerate(members, 1):
        run.wait(lambda: run.held_by_some() >= number * run.wanted // 4)
        lose(run.hosts[me])
        run.figures.say(f"{run.name}: host {me} is lost after {run.passed():.0f} s")


def one_lost(run: Run) -> None:
    lost(run, 0)


def two_lost(run: Run) -> None:
    lost(run, 0, run.members - 1)


def late(run: Run) -> None:
    """The last host starts when half is held, and how long it takes to hold as much as the others did."""
    *early, last = run.hosts
    run.start(early)
    last.is_wanted = False
    run.wait(lambda: run.held_by_some() >= run.wanted // 2)
    last.is_wanted, most, began = True, run.held_by_some(), time.monotonic()
    run.start([last])
    run.wait(lambda: last.follower.look() >= most)
    run.figures.add(f"{run.name}, until it holds what others held", time.monotonic() - began, "s", f"{most} units")


def failing(run: Run) -> None:
    """All builds fail at the first host."""
    run.failing = "0"
    run.start()


def no_driver(run: Run) -> None:
    """The driver of the first host dies when a quarter is held, and isn't started again."""
    run.start()
    run.wait(lambda: run.held_by_some() >= run.wanted // 4)
    run.hosts[0].kill(DRIVER)


def whole_host(run: Run) -> None:
    """A host loses power when a quarter is held: node, driver and builds are gone, and all start again a little later."""
    run.start()
    run.wait(lambda: run.held_by_some() >= run.wanted // 4)
    host = run.hosts[0]
    host.kill()
    host.kill_builds()
    time.sleep(2)
    run.start([host])


CASES: Dict[str, Case] = {"one lost": one_lost, "two lost": two_lost, "one late": late, "one at which all fails": failing,
                          "one without a driver": no_driver, "one without power for a while": whole_host}
# how many hosts build in the end, fewer than there are
FEWER = {"one lost": 1, "two lost": 2, "one at which all fails": 1, "one without a driver": 1}


def run(asked: argparse.Namespace) -> Figures:
    figures = Figures("members", vars(asked))
    tree = trees.chosen(asked)
    for name, case in CASES.items():
        if not asked.cases or name in asked.cases:
            one(asked, figures, tree, name, case)
    return figures


def one(asked: argparse.Namespace, figures: Figures, tree: trees.Tree, name: str, case: Case) -> None:
    run = Run(asked, tree, figures, name, asked.nodes)
    figures.say(f"{run.name}: {run.wanted} units at {run.members} nodes")
    try:
        case(run)
        run.finish()
    finally:
        run.end()
    builders = run.members - FEWER.get(name, 0)
    run.tell(run.check(), run.by_listing(builders * run.jobs), f"list scheduler at {builders} hosts")
    marks: List[int] = [host.marks() for host in run.hosts]
    if any(marks):
        figures.add(f"{name}, marks of failed builds", sum(marks), "marks", f"by host: {' '.join(map(str, marks))}")
    figures.expect(not any(marks[1:]), f"{name}: builds are marked as failed and none failed there: {marks}")
