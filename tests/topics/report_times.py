"""When a bulk will be over, and how it came along, by dpbn-report; and how long a look at a full tree takes."""
import os
import random
import subprocess
import sys
import tempfile
import time

from topics import packages
from topics.report_played import LIMIT, Played, check, held, promised, put
from topics.tally import TOP

sys.path.insert(0, f"{TOP}/tools")

from dpbn_tools import build_times, listings, progress, report, units  # noqa: E402


class Clock:
    """Reports of one run at times that the test says."""

    def __init__(self, run, earlier=(), rest=60):
        asked = report.asked_for(run.words("--rest", str(rest)))
        self.reporter = report.reporter_of(asked)
        self.reporter.earlier, self.reporter.usual = list(earlier), build_times.Usual(list(earlier))

    def at(self, now):
        return self.reporter.look(now)


def ends(tally):
    """By earlier times: the longest chain, or all that is left on the places that were seen. Without them: by the rate."""
    listing = "".join(f"a/{name}.FULLPKGNAME={name}-1\n" for name in "bcdefgh") + "a/c.BUILD_DEPENDS=a/b\na/d.BUILD_DEPENDS=a/c\n"
    took = [build_times.Took(f"a/{name}", seconds, 1, "1") for name, seconds in zip("bcdefgh", (100, 200, 300, 50, 50, 50, 50))]
    with tempfile.TemporaryDirectory() as folder:
        run = Played(folder, listing)
        run.log(0, [promised("a/b", 1, 0), promised("a/e", 1, 1)])
        clock = Clock(run, took)
        clock.reporter.bulk.log_paths = [f"{folder}/logs/node-0.log"]
        clock.reporter.bulk.reset()
        now = float(int(time.time()))
        found = clock.at(now)
        # b, c and d one after the other; on two places all takes 800/2
        wanted = {"seconds": 600, "end": progress.stamp(now + 600), "by": "times", "places": 2}
        check(tally, "the end by the longest chain", found["estimate"] == wanted, found["estimate"])
        check(tally, "the longest chain in seconds", found["chain"] == {"units": ["a/b", "a/c", "a/d"], "seconds": 600}, found["chain"])
        found = clock.at(now + 30)
        check(tally, "the end, 30 seconds later", found["estimate"]["seconds"] == 570, found["estimate"])
        clock.reporter.places = 1
        for unit in "bc":
            run.append(0, held(f"a/{unit}", f"{unit}-1", 0))
        clock.reporter.places = 0
        found = clock.at(now + 40)
        # d 300, and e, which was begun 40 seconds ago, 10, f, g and h 50 each, on one place
        told = found["estimate"]["seconds"], found["estimate"]["places"]
        check(tally, "the end by all that is left", told == (460, 1), told)
    with tempfile.TemporaryDirectory() as folder:
        run = Played(folder, "".join(f"a/p{number}.FULLPKGNAME=p{number}-1\n" for number in range(100)))
        run.log(0, [])
        clock = Clock(run)
        clock.reporter.bulk.log_paths = [f"{folder}/logs/node-0.log"]
        clock.reporter.bulk.reset()
        now = float(int(time.time()))
        check(tally, "the end of what began a moment ago", clock.at(now)["estimate"] is None)
        for number in range(20):
            run.append(0, held(f"a/p{number}", f"p{number}-1", 0))
            found = clock.at(now + 10 * number + 10)
        # twenty in two hundred seconds, so eighty in eight hundred
        check(tally, "the end by the rate", (found["estimate"]["seconds"], found["estimate"]["by"]) == (800, "rate"), found["estimate"])
        for minute in range(2000):
            found = clock.at(now + 200 + 60 * minute)
        check(tally, "a history stays short", len(found["history"]) < 30, len(found["history"]))
        wanted = progress.stamp(now + 200)
        check(tally, "since when nothing happened", found["changed"] == wanted, found["changed"], wanted)
        for number in range(20, 100):
            run.append(0, held(f"a/p{number}", f"p{number}-1", 0))
            for step in range(9):
                found = clock.at(now + 200_000 + 900 * number + 100 * step)
        check(tally, "a history of many changes", 100 < len(found["history"]) <= progress.MOST_SAMPLES, len(found["history"]))


def remembered(tally):
    """A report that is started again knows what the one before saw; of another run it takes nothing."""
    listing = "".join(f"a/{name}.FULLPKGNAME={name}-1\n" for name in "bcde")
    with tempfile.TemporaryDirectory() as folder:
        run = Played(folder, listing)
        run.log(0, [held("a/b", "b-1", 0), promised("a/c", 1, 1), promised("a/d", 1, 1)])
        name = run.fail(0, "a/e", "status 1", time.time() - 50)
        _, first = run.run(logs=(0,), works=(0,))
        os.unlink(f"{folder}/work-0/failed/{name}")
        for note in (promised("a/d", 2, 1), held("a/d", "d-1", 1, "2.1")):
            run.append(0, note)
        time.sleep(1.1)
        _, second = run.run(logs=(0,), works=(0,))
        one, other = ({it["unit"]: it for it in found["list"]} for found in (first, second))
        check(tally, "started again, a claim", one["a/c"]["claim"] == other["a/c"]["claim"], one["a/c"], other["a/c"])
        told = "since" in other["a/b"], other["a/d"].get("since"), other["a/e"]["tries"], other["a/e"]["failed"] == one["a/e"]["failed"]
        check(tally, "started again, what is held and what failed", told == (False, second["time"], 1, True), told, second["time"])
        times = [it["time"] for it in second["history"]]
        check(tally, "started again, the history", times[:1] == [first["time"]] and len(times) == 2, times)
        run.log(0, [held("a/c", "c-1", 0)])
        _, third = run.run(logs=(0,), works=(0,))
        check(tally, "another run, the history", [it["time"] for it in third["history"]] == [third["time"]], third["history"])


def morning(tally):
    """A report that looks for the first time when all is over knows by the logs how the bulk came along."""
    with tempfile.TemporaryDirectory() as folder:
        run = Played(folder, "".join(f"a/p{number}.FULLPKGNAME=p{number}-1\n" for number in range(12)))
        run.log(0, [held(f"a/p{number}", f"p{number}-1", 0) for number in range(11)])
        start = (time.time() // 3600 - 10) * 3600
        for number in range(11):
            put(f"{folder}/work-0/logs/a:p{number}.log", "", start + number * 1800)
        _, found = run.run(logs=(0,), works=(0,))
        hours_of = [(one["hour"], one["units"]) for one in found["hours"]]
        wanted = [(progress.stamp(start + hour * 3600), 2 if hour < 5 else 1) for hour in range(6)]
        check(tally, "the hours before anybody looked", hours_of == wanted, hours_of, wanted)
        held_at = [one["units"] for one in found["history"]]
        check(tally, "the history before anybody looked", held_at[:12] == list(range(12)), held_at)


def made_listing(count, dice):
    """A listing of this many paths, of which most need some others."""
    lines, paths = [], []
    while len(paths) < count:
        number, size = len(paths), min(dice.choice((1, 1, 1, 2, 3)), count - len(paths))
        name = f"cat{number % 40}/port{number}"
        new = [name] if size == 1 else [f"{name},-sub{part}" for part in range(size)]
        for part, path in enumerate(new):
            lines.append(f"{path}.FULLPKGNAME=port{number}-sub{part}-1.{number}\n")
            near = [paths[max(0, number - 1 - int(dice.expovariate(1 / 400)))] for _ in range(dice.randrange(7))] if paths else []
            lines += [f"{path}.LIB_DEPENDS={' '.join(near)}\n"] if near else []
        paths += new
    return "".join(lines)


def full(tally):
    """Of 16,384 paths and a log of 100 MB at each of three nodes a look after the first takes under a second, and all of it under
    200 MiB."""
    dice = random.Random(4)
    listing = made_listing(listings.MOST_PATHS, dice)
    with tempfile.TemporaryDirectory() as folder:
        run = Played(folder, listing)
        division = units.Division(listings.read(listing.encode()))
        pad, notes, size = os.urandom(30_000), [], 0
        for number, unit in enumerate(division.units):
            about = {"host": number % 3, "claim": f"1.{number % 3}"}
            records = [packages.record(division.tree.paths[it], division.tree.names[it], [("x.tgz", pad)], **about) for it in unit.places]
            notes += [promised(unit.name, 1, number % 3), packages.note(4, unit.name, packages.build(*records))]
            size += len(notes[-1])
            if size > 100_000_000:
                break
        for me in range(3):
            run.log(me, notes)
        rest = [unit for unit in division.units[number + 1:] if not unit.needs or len(unit.needs) < 3]
        for place, unit in enumerate(rest[:40]):
            run.fail(place % 2, unit.name, "status 1") if place % 2 else run.begin(0, unit.name)
        code = (f"import sys, time, resource; sys.path.insert(0, {TOP + '/tools'!r})\nfrom dpbn_tools import report\n"
                "asked = report.asked_for(sys.argv[1:])\nit = report.Report(asked, report.reporter_of(asked))\nit.begin()\nit.look()\n"
                "took = []\nfor _ in range(5):\n    began = time.process_time(); it.look(); took.append(time.process_time() - began)\n"
                # what a process had before it began this program counts in its ru_maxrss
                "most = [resource.getrusage(resource.RUSAGE_SELF).ru_maxrss]\n"
                "if sys.platform == 'linux':\n"
                "    most = [int(line.split()[1]) for line in open('/proc/self/status') if line.startswith('VmHWM')]\n"
                "print(min(took), most[0] // 1024, len(it.reporter.division.tree.paths))")
        done = subprocess.run([sys.executable, "-c", code, *run.words()], capture_output=True, timeout=LIMIT)
        told = done.stdout.split()
        check(tally, "a look at a full tree", len(told) == 3 and int(told[1]) < 200, done.stdout, done.stderr)
        if len(told) == 3:
            check(tally, "a look at a full tree, how long it takes", float(told[0]) < 1, told, timed=True)
            print(f"tests/run: a look at {int(told[2]):,} paths and three logs of {size // 1_000_000} MB: {float(told[0]):.2f} s, "
                  f"{int(told[1])} MiB", flush=True)
