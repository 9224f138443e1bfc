"""Parts of tests/soak with a small tree, for some minutes. These are bulk builds with kills, over bad lines, on bad disks and with
bad clocks; with members that are lost or late, and next to forged datagrams. The part `full-log` runs by hand: a node that starts with a
log of 2 GiB takes 4 GiB of memory, and three of them run."""
import functools
import json
import os
import re
import subprocess
import sys
import time

from topics.nodes import beside
from topics.tally import TESTS, say

sys.path.insert(0, TESTS)

from soak_parts import alone  # noqa: E402

# how long a part may take, and how many run at a time
LONGEST, AT_ONCE = 1200, 2
SMALL = ["--units", "40", "--median", "0.3", "--limit", "500"]
# the parts, those that take longest first. How long they take isn't judged here: other topics may run at the same time.
PARTS = {
    "lines": [*SMALL, "--away", "24", "--carriers", "datagrams", "--cases", "all of it", "two halves"],
    "disks": [*SMALL, "--away", "6", "--cases", "a full disk of the log", "EIO of the work folder"],
    "members": [*SMALL, "--cases", "one lost", "one late"],
    "kills": [*SMALL, "--kills", "40", "--begun", "1.5"],
    "forged": [*SMALL, "--kills", "20", "--begun", "1.5", "--datagrams", "50000"],
    "clocks": [*SMALL, "--cases", "both an hour ahead and back"],
    "archive": [*SMALL, "--sizes", "3", "--minutes", "0", "--begun", "1.5", "--ratio", "100"],
}


# what a part says that may be so only since a process came to run late
LATE = re.compile(r"builds begun for a unit; |only \d+ of \d+ kills were done|times the list scheduler; | are a majority, and obtained nothing")


def part(name):
    """Runs a part, and returns what it printed, its status and how long it took. One that takes too long is ended, and has no status."""
    began = time.monotonic()
    process = subprocess.Popen([f"{TESTS}/soak", name, *PARTS[name]], stdin=subprocess.DEVNULL, stdout=subprocess.PIPE,
                               stderr=subprocess.STDOUT, text=True)
    try:
        said, _ = process.communicate(timeout=LONGEST)
        status = process.returncode
    except subprocess.TimeoutExpired:
        process.terminate()
        said, status = process.communicate()[0], None
    return said, status, time.monotonic() - began


def wrong_of(said, status):
    """What was wrong, by the line of JSON at the end, or the last lines if it broke off."""
    last = said.rstrip("\n").rpartition("\n")[2]
    try:
        return json.loads(last)["wrong"]
    except (ValueError, KeyError):
        return [f"it ended with {status}, and said last", *said[-1500:].split("\n")]


def one(tally, name):
    """One part. What it says that may be so on a busy machine is a check by itself."""
    said, status, took = part(name)
    tally.add(f"soak, {name}, its end", "" if status is not None else f"none after {LONGEST} s: {said[-1500:]}", timed=True)
    if status is not None:
        wrong = wrong_of(said, status) if status else []
        late = [it for it in wrong if LATE.search(it)]
        others = [it for it in wrong if it not in late] or ([] if late or not status else [f"it ended with {status}"])
        tally.add(f"soak, {name}", "\n    ".join(others))
        tally.add(f"soak, {name}, how soon", "\n    ".join(late), timed=True)
    say(f"tests/run: soak, {name}: {took:.0f} s")


def run(tally):
    lacking = alone.lacking()
    if lacking:
        tally.skip("the soak", lacking)
        return
    began = time.monotonic()
    os.environ.pop(alone.INSIDE, None)
    beside(tally, [functools.partial(one, name=name) for name in PARTS], AT_ONCE)
    print(f"tests/run: the soak took {time.monotonic() - began:.0f} s", flush=True)
