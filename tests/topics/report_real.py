"""dpbn-report next to three real nodes and their drivers, which build a tree of Makefiles by bmake(1)."""
import json
import os
import re
import shutil
import signal
import subprocess
import time

from topics import live, packages
from topics.report_page import browse, browser, shown
from topics.report_played import LIMIT, TOOL, check, letters_by_dpbr, letters_in
from topics.report_schema import misfits, table
from topics.tally import PROGRAM, contents

LETTERS = re.compile(rb"node \d: I=(\d+) B=(\d+) Q=(\d+) T=(\d+) !=(\d+)")


class Seen:
    """A report next to three hosts that build, each second; and what it said at several moments."""

    def __init__(self, run):
        self.run, self.folder = run, f"{run.folder}/report"
        self.moments = []

    def words(self, *more):
        words = ["--listing", f"{self.run.folder}/listing", "--out", self.folder, "--rest", "5", *more]
        return [*words, *(word for host in self.run.hosts for word in ("--log", host.log, "--work", host.work))]

    def start(self):
        self.tool = subprocess.Popen([TOOL, *self.words("--every", "1", "--at-end", f"cat > {self.folder}/mail")], stderr=subprocess.PIPE)

    def look(self, is_last=False):
        """Keeps a whole copy of the report if its letters are others than at the last look, or if it is the last one."""
        copy = f"{self.folder}-{len(self.moments)}"
        if not os.path.exists(f"{self.folder}/index.html"):
            return
        os.mkdir(copy)
        for name in ("status.js", "index.html"):
            shutil.copy(f"{self.folder}/{name}", copy)
        found = json.loads(contents(f"{copy}/status.js")[len("take("):-len(");\n")])
        if not is_last and self.moments and self.moments[-1][1]["counts"] == found["counts"]:
            shutil.rmtree(copy)
        else:
            self.moments.append((copy, found))

    def end(self):
        self.tool.send_signal(signal.SIGTERM)
        said = self.tool.communicate(timeout=LIMIT)[1]
        return said, self.tool.returncode


def real(tally):
    """Three real nodes build a tree in which two ports are broken. At each moment that is looked at page, JSON and `dpbr status` agree;
    so do at the end what the nodes print, what unpack-log finds, and the builds that the drivers began."""
    if not shutil.which("bmake") or not all(map(os.path.exists, (PROGRAM, live.NODES))):
        tally.skip("dpbn-report next to real nodes", "there is no bmake here, or dpbr and dpbn aren't built")
        return
    with live.laid(ports=24, seed=8, broken=2, ignored=1, least=0.2, most=1.2) as run:
        seen = Seen(run)
        run.start("--takeover", "2", "--rest", "20")
        seen.start()
        try:
            end = time.monotonic() + live.LIMIT
            while any(host.node.poll() is None for host in run.hosts) and time.monotonic() < end:
                seen.look()
                time.sleep(0.2)
            check(tally, "three nodes, how they end", run.ends() == [3] * 3, run.told())
            ended = live.until(lambda: os.path.exists(f"{seen.folder}/mail") and size(f"{seen.folder}/mail"), LIMIT)
            check(tally, "three nodes, the command at the end", ended)
            # the nodes did something after that, and then ended
            live.until(lambda: json.loads(contents(f"{seen.folder}/status.json"))["state"] == "stopped", LIMIT)
            seen.look(is_last=True)
        finally:
            said = seen.end()
        check(tally, "three nodes, the report", said == (b"", 143), said)
        moments(tally, run, seen)
        at_rest(tally, run, seen.moments[-1][1])


def size(path):
    return os.path.getsize(path)


def moments(tally, run, seen):
    """What the report said while the nodes built."""
    fields, optional = table()
    check(tally, "three nodes, moments that were looked at", len(seen.moments) > 4, len(seen.moments), timed=True)
    wrong = [place for place, (_, found) in enumerate(seen.moments) if letters_by_dpbr(run.folder, found) != letters_in(found)]
    check(tally, "three nodes, letters at each moment", not wrong, wrong, len(seen.moments))
    wrong = [one for _, found in seen.moments for one in misfits(fields, optional, found, seen=set())]
    check(tally, "three nodes, status.json at each moment", not wrong, wrong[:5])
    began = {host.me: contents(host.out("driver")).decode() for host in run.hosts}
    built = [(one["unit"], one["host"]) for _, found in seen.moments for one in found["running"] if one["state"] == "builds"]
    wrong = [(unit, host) for unit, host in built if not re.search(f"> {re.escape(unit)}[, ]", began[host])]
    check(tally, "three nodes, who builds what", built and not wrong, built, wrong)
    if browser():
        for copy, found in (seen.moments[len(seen.moments) // 2], seen.moments[-1]):
            text, console = browse(f"file://{copy}/index.html", "--dump-dom")
            shown(tally, "three nodes, the page", text, console, found)


def at_rest(tally, run, found):
    """What the report says once all nodes came to rest."""
    told = [match for host in run.hosts for match in LETTERS.findall(contents(host.out("node")))[-1:]]
    own = [tuple(b"%d" % one["counts"][letter] for letter in "IBQT!") for one in found["hosts"]]
    check(tally, "three nodes, their own letters", told == own, told, own)
    bad = run.set_broken(mended=False)
    failed = {one["unit"].partition(",")[0] for one in found["failures"]}
    check(tally, "three nodes, what failed", failed == set(bad), failed, bad)
    blocked = sum(len(one["packages"]) for one in found["list"] if "blocked" in one)
    told = blocked, found["state"]
    check(tally, "three nodes, what is blocked", told == (found["counts"]["T"], "stopped"), told, found["counts"])
    logs = all(one["tail"] and one["log"] for one in found["failures"])
    check(tally, "three nodes, logs of what failed", logs, found["failures"])
    held_by_log = {path for host in run.hosts for path in held_paths(run, host)}
    held_here = {path for one in found["list"] for path, letter in one["packages"].items() if letter in "IB"}
    check(tally, "three nodes, what is held", held_by_log == held_here, held_by_log ^ held_here)
    began = {host.me: contents(host.out("driver")).decode() for host in run.hosts}
    held = [(one["unit"], one["host"]) for one in found["list"] if "host" in one]
    wrong = [(unit, host) for unit, host in held if not re.search(f"> {re.escape(unit)}[, ]", began[host])]
    check(tally, "three nodes, who built what is held", not wrong, wrong)


def held_paths(run, host):
    """The paths that a host's log holds, by unpack-log."""
    to = f"{run.folder}/unpacked-{host.me}"
    packages.tool("unpack-log", host.log, to)
    return contents(f"{to}/held").decode().split()
