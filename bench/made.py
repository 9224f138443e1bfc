"""Listings that are made up, the same in every run, and how long a program takes on them.

The listings have layers, as a ports tree has. A path depends on paths of lower layers, often on a few hubs (a compiler, a make,
a large library) and seldom far down. Most paths have few dependencies, and a few have sixty. Some are subpackages, some have
flavors, and some are ignored.
"""
import os
import statistics
import subprocess
import sys
from typing import List, Tuple

TOP = os.path.dirname(os.path.dirname(os.path.abspath(__file__)))
PROGRAM = f"{TOP}/crates/dpbr/out/dpbr"
CATEGORIES = ["archivers", "audio", "databases", "devel", "editors", "games", "graphics", "lang", "mail", "math", "multimedia",
              "net", "print", "security", "sysutils", "textproc", "www", "x11"]
LAYERS = 12
HUBS = 40
SMALL = b"x"


class Numbers:
    """A small generator of numbers, the same on every machine."""

    def __init__(self, seed):
        self.state = seed

    def below(self, limit):
        self.state = (self.state * 6364136223846793005 + 1442695040888963407) % 2**64
        return (self.state >> 33) % limit


def path_of(numbers, n):
    path = f"{CATEGORIES[numbers.below(len(CATEGORIES))]}/port{n}"
    kind = numbers.below(10)
    if kind == 0:
        path += ",no_x11"
    if kind < 3:
        path += ",-main"
    return path


def listing(paths: int, some_ignored: bool = True) -> Tuple[str, List[str], List[Tuple[str, List[int]]]]:
    """The listing's lines, its paths in order, and for each its name and the places of its build dependencies."""
    numbers = Numbers(paths)
    names = [path_of(numbers, n) for n in range(paths)]
    lines, packages = [], []
    for n, path in enumerate(names):
        layer = n * LAYERS // paths
        lines.append(f"===> {path}")
        name = f"port{n}-{numbers.below(20)}.{numbers.below(20)}p{numbers.below(4)}"
        lines.append(f"{path}.FULLPKGNAME={name}")
        lines.append(f"{path}.COMMENT=port number {n} of a tree that nobody has")
        lines.append(f"{path}.HOMEPAGE=https://ports.example/port{n}/?a=b")
        start = layer * paths // LAYERS
        if start == 0:
            packages.append((name, []))
            continue
        count = 60 if numbers.below(100) == 0 else 1 + numbers.below(24)
        found = [numbers.below(min(HUBS, start)) if numbers.below(3) else numbers.below(start) for _ in range(count)]
        specs = [f"STEM->=0.0,<{30 + numbers.below(5)}:{names[it]}" if numbers.below(8) == 0 else names[it] for it in found]
        cuts = sorted((numbers.below(count + 1), numbers.below(count + 1)))
        for variable, words in zip(("BUILD_DEPENDS", "LIB_DEPENDS", "RUN_DEPENDS"), (specs[: cuts[0]], specs[cuts[0] : cuts[1]], specs[cuts[1] :])):
            if words:
                lines.append(f"{path}.{variable}={' '.join(words)}")
        packages.append((name, sorted(set(found[: cuts[1]]))))
        if some_ignored and n > paths * 9 // 10 and numbers.below(40) == 0:
            lines.append(f"{path}.IGNORE=is marked as broken: does not build")
    return "\n".join(lines) + "\n", names, packages


def run_chain(paths):
    """A listing in which each path needs one other to run, all in one chain, whose places are shuffled; and its paths."""
    numbers = Numbers(paths)
    order = list(range(paths))
    for n in range(paths - 1, 0, -1):
        other = numbers.below(n + 1)
        order[n], order[other] = order[other], order[n]
    needed = dict(zip(order, order[1:]))
    lines = []
    for n in range(paths):
        lines.append(f"devel/link{n}.FULLPKGNAME=link{n}-1.0")
        if n in needed:
            lines.append(f"devel/link{n}.RUN_DEPENDS=devel/link{needed[n]}")
    return "\n".join(lines) + "\n", [f"devel/link{n}" for n in range(paths)]


def deliver(datagram, *nodes):
    return [{"datagram": datagram, "event": "deliver", "node": node} for node in nodes]


def life(path, first, pieces, file):
    """The events of a unit whose datagrams begin with this number, and how many datagrams it sends."""
    proposed, voted = first + 3, first + 3 + pieces
    events = [claim(path)]
    events += deliver(first, 0, 1) + deliver(first + 1, 0) + deliver(first + 2, 0)
    events.append({"event": "built", "files": [{"hex": file.hex(), "name": "x"}], "node": 0, "path": path})
    for piece in range(pieces):
        events += deliver(proposed + piece, 0, 1)
    events += deliver(voted, 0) + deliver(voted + 1, 0)
    for piece in range(pieces):
        events += deliver(voted + 2 + piece, 1, 2)
    return events, 5 + 2 * pieces


def lives(names):
    """The events of these units, one after the other."""
    events, first = [], 0
    for path in names:
        more, sent = life(path, first, 1, SMALL)
        events += more
        first += sent
    return events


def claim(path):
    return {"above": 0, "event": "claim", "host": 3, "node": 0, "path": path}


# Runs the words, and prints on standard error the seconds, the peak memory in KiB and the status. What the system says of a
# process's peak is never less than what the process had that started it, so that a small one has to.
RUN = """
import os, subprocess, sys, time
began = time.perf_counter()
child = subprocess.Popen(sys.argv[1:])
_, status, usage = os.wait4(child.pid, 0)
print(time.perf_counter() - began, usage.ru_maxrss, os.waitstatus_to_exitcode(status), file=sys.stderr)
"""


def once(words, folder):
    """The seconds of one run, and its peak memory in KiB, which is at least the 11 MiB or so of the process that starts it. What
    it wrote is in the folder's file `answer`."""
    with open(f"{folder}/answer", "wb") as out:
        told = subprocess.run([sys.executable, "-I", "-S", "-c", RUN, *words], stdout=out, stderr=subprocess.PIPE, cwd=folder)
    seconds, memory, status = told.stderr.decode().split()[-3:]
    if status != "0":
        sys.exit(f"{sys.argv[0]}: {words} ended with {status}")
    return float(seconds), int(memory)


def measured(words, folder):
    """The median of the seconds of some runs, and the peak memory in KiB of the last."""
    times = []
    for _ in range(5):
        seconds, memory = once(words, folder)
        times.append(seconds)
        if seconds > 5:
            break
    return statistics.median(times), memory


def sorted_and_digested(file):
    """What the reading of a file is held against."""
    return ["sh", "-c", f"LC_ALL=C sort {file} | sha256sum"]


def beside(words, reference, folder):
    """The least seconds of some runs and of the reference, taken by turns, so that a machine that is slow for a while is slow for
    both; and the peak memory in KiB. What the words' last run wrote is in the folder's file `answer`."""
    times, references = [], []
    for _ in range(9):
        references.append(once(reference, folder)[0])
        seconds, memory = once(words, folder)
        times.append(seconds)
        if seconds > 5:
            break
    return min(times), min(references), memory
