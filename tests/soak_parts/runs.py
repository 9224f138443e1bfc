"""A bulk build: hosts that build a tree together, until all is held."""
from __future__ import annotations

import argparse
import os
import random
import re
import select
import signal
import socket
import subprocess
import time
from typing import Callable, Container, List, Optional, Sequence, Set

from soak_parts import safety
from soak_parts.figures import Figures
from soak_parts.hosts import DRIVER, NODE, Host
from soak_parts.trees import Tree

# how often is looked at logs and processes, in seconds
PAUSE = 0.02
PORT = 7000
# a line of a driver, after date and time, on something that the system or the node refused
COMPLAINT = re.compile(r"\S+ \S+ \? ")
# faults that are wrong unless a part has caused them: all but 1202, bytes that mean nothing to the node
WRONG = ("1", "2", "906", "907", "1001", "1002", "1305")


class Run:
    """Hosts, their files in a folder of the run, and what went wrong."""

    def __init__(self, asked: argparse.Namespace, tree: Tree, figures: Figures, name: str, members: int, jobs: int = 0) -> None:
        self.asked, self.tree, self.figures, self.name = asked, tree, figures, name
        self.members, self.jobs = members, jobs or asked.jobs
        self.folder = f"{asked.inside}/{name.replace(' ', '-')}"
        os.mkdir(self.folder)
        tree.lay(self.folder)
        self.failing, self.more = "", asked.more.split()
        self.takeover = asked.takeover or int(5 + 2 * tree.longest())
        self.wanted = len(tree.units.names)
        self.base = free_ports(members)
        # which words say where the members listen: `--base` and no key, unless something else is between the nodes
        self.peers: Callable[[int], List[str]] = lambda _: ["--base", str(self.base)]
        self.hosts = [Host(self, me) for me in range(members)]
        self.began = self.took = 0.0
        # which processes may end on their own
        self.may_end: Set[str] = set()
        self.dice = random.Random(asked.seed)

    def by_listing(self, places: int = 0) -> float:
        """How long a list scheduler takes on as many places."""
        work = self.tree.work
        return work.list_schedule(places or self.members * self.jobs, work.by_listing)

    def key(self) -> List[str]:
        """Makes the run's key, and returns the words that name it."""
        path = f"{self.folder}/run.key"
        subprocess.run([self.asked.program, "key", path], check=True)
        return ["--key", path]

    def counts(self) -> List[int]:
        """How many units each host holds."""
        return [host.follower.look() for host in self.hosts]

    def start(self, hosts: Optional[Sequence[Host]] = None) -> None:
        self.began = self.began or time.monotonic()
        for host in self.hosts if hosts is None else hosts:
            host.start()

    def passed(self) -> float:
        return time.monotonic() - self.began

    def all_held(self) -> bool:
        return all(host.follower.look() >= self.wanted for host in self.hosts if host.is_wanted)

    def held_by_some(self) -> int:
        """How many units are held by the host that holds most."""
        return max(self.counts())

    def wait(self, holds: Callable[[], bool], limit: float = 0, step: Callable[[], None] = lambda: None,
             numbers: Sequence[int] = ()) -> bool:
        """Looks until something holds, and returns whether it does within the limit. `step` is done at each look, and sooner if there is
        something to read from one of the numbers."""
        end = time.monotonic() + (limit or self.asked.limit)
        while not holds():
            if time.monotonic() > end or not self.is_alive():
                return False
            step()
            select.select(numbers, [], [], PAUSE)
        return True

    def is_alive(self) -> bool:
        """Whether all runs that should. What ended is noted as wrong, unless it may end, and is not looked at any more."""
        alive = True
        for host in self.hosts:
            for part, status in host.ended():
                if f"{part} {host.me}" not in self.may_end:
                    alive = False
                    last = " / ".join(host.lines(part)[-3:])
                    self.figures.fail(f"{self.name}: {part} {host.me} ended by itself with {status}: {last}")
                    host.processes.pop(part)
        return alive

    def finish(self, limit: float = 0, step: Callable[[], None] = lambda: None, numbers: Sequence[int] = ()) -> bool:
        """Waits until each host that takes part holds all."""
        done = self.wait(self.all_held, limit, step, numbers)
        self.took = self.passed()
        if not done:
            self.figures.fail(f"{self.name}: not all is held after {self.took:.0f} s: {self.counts()} of {self.wanted} units")
            for host in self.hosts:
                for part in (NODE, DRIVER):
                    self.figures.say(f"{part} {host.me} printed last: {' / '.join(host.lines(part)[-4:])}")
        return done

    def end(self) -> None:
        """Ends all processes, and the builds that outlived their drivers."""
        for host in self.hosts:
            try:
                host.end(signal.SIGTERM, DRIVER, NODE)
            except subprocess.TimeoutExpired:
                self.figures.fail(f"{self.name}: a process of host {host.me} doesn't end on SIGTERM")
                host.kill()
            host.end_builds()

    # ---- after its end

    def check(self, allowed: Sequence[str] = (), handed: Container[str] = (), is_whole: bool = True) -> safety.Counted:
        """Reads the logs of all members that have one, and says what is wrong. Returns how many builds began. Faults with `allowed`
        numbers are right, paths that were `handed` in were built in another run, and if the run isn't whole not all has to be held."""
        logs, problems = safety.read(host.log for host in self.hosts if not host.is_lost and os.path.exists(host.log))
        problems += safety.problems_of(logs, self.tree.units, sum(host.is_lost for host in self.hosts), handed)
        problems += [said for said in (safety.audited(log, self.folder) for log in logs) if said]
        for log in logs:
            short = self.wanted - len(log.held)
            if short and is_whole and self.hosts[log.own].is_wanted:
                problems.append(f"host {log.own} lacks {short} of {self.wanted} units")
        for host in self.hosts:
            strange = {number: count for number, count in host.faults().items() if number in WRONG and number not in allowed}
            if strange:
                problems.append(f"node {host.me} printed faults: {strange}")
        for problem in problems:
            self.figures.fail(f"{self.name}: {problem}")
        files = [host.builds_file() for host in self.hosts]
        return safety.counted(files, (host.builds_file() for host in self.hosts if host.is_lost))

    def tell(self, counted: safety.Counted, ideal: float, beside: str) -> None:
        """The figures that each run has."""
        add = self.figures.add
        add(f"{self.name}, time", self.took, "s", f"{beside}: {ideal:.1f} s, {self.took / ideal:.2f} times")
        again = f"{counted.excused} begun again after a kill or a failure"
        add(f"{self.name}, builds begun", counted.begun, "builds", f"{self.wanted} units, {again}")
        complaints = [line for host in self.hosts for line in host.lines(DRIVER) if COMPLAINT.match(line)]
        if complaints:
            add(f"{self.name}, lines of drivers on what was refused", len(complaints), "lines", f"the first: {complaints[0][20:120]}")

    def tell_costs(self) -> None:
        """What nodes and drivers took."""
        for part in (NODE, DRIVER):
            seconds, memory = [host.seconds[part] for host in self.hosts], [host.memory[part] for host in self.hosts]
            by_host = f"by host: {' '.join(f'{it:.1f}' for it in seconds)}; {self.took:.0f} s passed"
            self.figures.add(f"{self.name}, a {part}'s processor time, at most", max(seconds), "s", by_host)
            by_host = f"by host: {' '.join(f'{it:.1f}' for it in memory)}"
            self.figures.add(f"{self.name}, a {part}'s memory, at most", max(memory), "MiB", by_host)


def free_ports(count: int) -> int:
    """The first of this many ports that nobody has, one after the other."""
    for base in [PORT, *random.SystemRandom().sample(range(20_000, 32_000, 10), 100)]:
        sockets = [socket.socket(socket.AF_INET, socket.SOCK_DGRAM) for _ in range(count)]
        try:
            for number, it in enumerate(sockets):
                it.bind(("127.0.0.1", base + number))
            return base
        except OSError:
            continue
        finally:
            for it in sockets:
                it.close()
    raise OSError("no ports are free")
