"""Logs that get full: what happens from nine tenths on and at 2 GiB, and the way on into a new run, step by step as the pages have it."""
from __future__ import annotations

import argparse
import hashlib
import os
import re
import subprocess
import time
from typing import List, Set

from soak_parts import logs, trees
from soak_parts.figures import Figures
from soak_parts.hosts import DRIVER, NODE, Host, peak_memory
from soak_parts.runs import Run

MOST, NEARLY = 2**31, 2**31 // 10 * 9
NO_ROOM = "1002"
NEARLY_FULL = re.compile(r"dpbn: the log has (\d+) of (\d+) bytes")
# how many bytes a build has with which logs are filled beforehand
FILLER = 4_000_000
# how long nothing has to be held anywhere until that counts as the end, in seconds
QUIET = 20


def run(asked: argparse.Namespace) -> Figures:
    figures = Figures("full-log", vars(asked))
    lines = trees.cut(trees.listing_of(asked.listing) if asked.listing else trees.made(trees.PATHS_A_UNIT * asked.units), asked.units)
    tree = trees.sleeping(lines, asked.median, asked.spread, asked.seed, asked.bytes)
    run = Run(asked, tree, figures, "full logs", asked.nodes)
    figures.say(f"{run.wanted} units of {asked.bytes:,} bytes at {run.members} nodes, whose logs are filled to {asked.filled:.0%} before")
    try:
        if asked.filled:
            fill(run, asked.filled)
        run.start()
        until_full(run)
        tell_full(run)
    finally:
        run.end()
    run.check(allowed=[NO_ROOM], is_whole=False)
    new_run(asked, figures, tree, run)
    return figures


def fill(run: Run, share: float) -> None:
    """Fills all logs with votes for one build of the first unit that needs nothing. Its bytes are zeros, which take no room on the disk."""
    units = run.tree.units
    unit = next(it for it in units.names if not units.needs[it] and units.packages[it] == [it])
    head = vote_head(unit, units.name_of[unit], sorted(units.to_run[unit]))
    for host in run.hosts:
        host.opened()
        with open(host.log, "r+b") as file:
            file.seek(-1, os.SEEK_END)
            while file.tell() + len(head) + FILLER < share * MOST:
                file.write(head)
                file.seek(FILLER, os.SEEK_CUR)
            file.write(b"\0")


def vote_head(unit: str, name: str, needs: List[str]) -> bytes:
    """A vote for a build whose one file is zeros, up to the file: after an open gate, as in dpbn-formats(5)."""
    lines = ["@dpb 1", f"@name {name}", f"@comment pkgpath={unit}", "@host 0", "@claim 1.0", *(f"@run {path}" for path in needs),
             "file", f"@sha {hashlib.sha256(bytes(FILLER)).hexdigest()}", f"@size {FILLER}", "", ""]
    record = "\n".join(lines).encode()
    path = unit.encode()
    note = bytes([logs.VOTED]) + len(path).to_bytes(2, "big") + path + (1).to_bytes(8, "big") + b"\0"
    note += (len(record) + FILLER).to_bytes(4, "big") + record
    return b"\1" + (len(note) + FILLER).to_bytes(4, "big") + note


def until_full(run: Run) -> None:
    """Waits until all nodes have read their logs, and then until nothing is held any more for a while."""
    run.wait(lambda: all(any(line.startswith("node ") for line in host.lines(NODE)) for host in run.hosts))
    run.figures.add("full logs, until all nodes are up", run.passed(), "s", f"{run.hosts[0].log_bytes() / 1e6:.0f} MB each")
    seen = [time.monotonic(), 0.0]

    def is_quiet() -> bool:
        held = sum(run.counts())
        if held != seen[1]:
            seen[:] = [time.monotonic(), held]
        return time.monotonic() > seen[0] + QUIET + run.tree.longest()

    run.wait(is_quiet)
    run.took = run.passed()


def tell_full(run: Run) -> None:
    """What the nodes print and do when their logs are full; and that they start again on such a log."""
    add, expect = run.figures.add, run.figures.expect
    sizes = [host.log_bytes() for host in run.hosts]
    add("full logs, the largest", max(sizes), "bytes", f"{MOST:,} are allowed")
    add("full logs, units held", max(run.counts()), "units", f"{run.wanted} units, {run.took:.0f} s")
    expect(max(sizes) <= MOST, f"a log has {max(sizes)} bytes")
    for host in run.hosts:
        warned = [line for line in host.lines(NODE) if NEARLY_FULL.match(line)]
        expect(len(warned) == 1, f"node {host.me} printed {warned} of its log, which has {host.log_bytes()} bytes")
        for line in warned:
            found = NEARLY_FULL.match(line)
            expect(bool(found) and int(found[1]) >= NEARLY, f"node {host.me} printed {line}")  # type: ignore[index]
    full = [host.me for host in run.hosts if host.faults().get(NO_ROOM)]
    add("full logs, nodes that printed 1002", len(full), "nodes", f"{len(run.hosts)} nodes")
    expect(bool(full), f"no node printed {NO_ROOM}: {[host.faults() for host in run.hosts]}")
    expect(run.is_alive(), "a node ended when the logs were full")
    restart(run, run.hosts[full[0] if full else 0])


def restart(run: Run, host: Host) -> None:
    """Starts a node again on its full log: it goes on to hold what it held, and says again how full the log is."""
    held, lines = host.follower.look(), len(host.lines(NODE))
    host.end(15, NODE)
    began = time.monotonic()
    host.start(NODE)
    run.wait(lambda: any(line.startswith("node ") for line in host.lines(NODE)[lines:]))
    took = time.monotonic() - began
    found = [re.match(r"node \d+: I=(\d+) B=(\d+)", line) for line in host.lines(NODE)[lines:]]
    shown = [int(it[1]) + int(it[2]) for it in found if it]
    packages = sum(len(run.tree.units.packages[unit]) for unit in host.follower.held)
    run.figures.add("full logs, a restart until the first line", took, "s", "a line each 2 s")
    run.figures.add("full logs, a node's memory after that", peak_memory(host.processes[NODE].pid), "MiB")
    run.figures.expect(bool(shown) and shown[0] == packages, f"a restarted node shows {shown[:1]} held paths, and not {packages}")
    run.figures.expect(host.follower.look() == held, "a restarted node holds other units")


# ---- the way on

def new_run(asked: argparse.Namespace, figures: Figures, tree: trees.Tree, old: Run) -> None:
    """A new run as docs/GUIDE.md has it: a new key, empty folders on all hosts, and a `dpbn node` that hands in what is published."""
    best = max(old.hosts, key=lambda host: host.follower.look())
    began, packages = time.monotonic(), f"{old.folder}/packages"
    for words, out in ((["unpack-log", best.log, packages], "unpacked"), (["make-builds", packages], "builds")):
        with open(f"{old.folder}/{out}", "wb") as file:
            done = subprocess.run([f"{asked.tools}/{words[0]}", *words[1:]], stdout=file, stderr=subprocess.PIPE, check=False)
        figures.expect(done.returncode == 0, f"{words[0]} ended with {done.returncode}: {done.stderr.decode()[:300]}")
    builds = os.path.getsize(f"{old.folder}/builds")
    figures.add("a new run, packages to hand in", builds / 1e6, "MB", f"{time.monotonic() - began:.1f} s to unpack and to write")
    run = Run(asked, tree, figures, "a new run", asked.nodes)
    key = run.key()
    run.peers = lambda _: ["--base", str(run.base), *key]
    try:
        handed = hand_in(run, f"{old.folder}/builds", set(best.follower.held))
        run.finish()
    finally:
        run.end()
    counted = run.check(handed=handed)
    run.tell(counted, run.by_listing(), "list scheduler of all units")
    published = len(best.follower.held)
    figures.add("a new run, units handed in and not built again", run.wanted - counted.units, "units", f"{published} were published")
    figures.expect(counted.units <= run.wanted - published, f"{counted.units} units were built in the new run")


def hand_in(run: Run, builds: str, units: Set[str]) -> Set[str]:
    """Starts the hosts, and at the first a node of `dpbn node` until these units are held everywhere; then that host builds, too. Returns
    the paths that were handed in."""
    first, *others = run.hosts
    words = [*first.node_words("node"), "--builds", builds, "--turns", "1000000"]
    with open(first.out(NODE), "ab") as out:
        node = subprocess.Popen(words, stdin=subprocess.DEVNULL, stdout=out, stderr=out)
    try:
        began = run.began = time.monotonic()
        for host in others:
            host.start(NODE)
        done = run.wait(lambda: all(units <= set(held_of(host)) for host in run.hosts))
        lacking = f"what was published isn't held in a new run: {run.counts()} of {len(units)} units"
        run.figures.expect(done and node.poll() is None, lacking)
        run.figures.add("a new run, until it holds what was published", time.monotonic() - began, "s", f"{len(units)} units")
        if node.poll() is None:
            size = f"{os.path.getsize(builds) / 1e6:.0f} MB of builds"
            run.figures.add("a new run, memory of the node that hands in", peak_memory(node.pid), "MiB", size)
    finally:
        node.terminate()
        node.wait(60)
    first.start()
    for host in others:
        host.start(DRIVER)
    return {path for unit in units for path in run.tree.units.packages[unit]}


def held_of(host: Host) -> List[str]:
    host.follower.look()
    return list(host.follower.held)
