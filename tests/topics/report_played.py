"""A bulk build that is played for dpbn-report: a listing, logs and work folders as nodes and drivers leave them."""
import contextlib
import hashlib
import json
import os
import subprocess
import sys
import tempfile
import time

from topics import packages
from topics.tally import PROGRAM, TOP, contents, seen

sys.path.insert(0, f"{TOP}/tools")

from dpbn_tools import listings  # noqa: E402

TOOL = f"{TOP}/tools/dpbn-report"
# how long a call may take on a machine that does other things, too
LIMIT = 700


LISTING = """base/a.FULLPKGNAME=a-1
base/b.FULLPKGNAME=b-1
base/b.BUILD_DEPENDS=base/a
lib/c.FULLPKGNAME=c-1
lib/c.LIB_DEPENDS=base/a
lib/d.FULLPKGNAME=d-1
lib/d.LIB_DEPENDS=lib/c
app/e,-main.FULLPKGNAME=e-1
app/e,-main.LIB_DEPENDS=lib/d
app/e,-docs.FULLPKGNAME=e-docs-1
app/f.FULLPKGNAME=f-1
app/f.BUILD_DEPENDS=base/b
app/f.RUN_DEPENDS=lib/c
app/g.FULLPKGNAME=g-1
app/g.BUILD_DEPENDS=app/f
tool/h.FULLPKGNAME=h-1
tool/h.BUILD_DEPENDS=base/a
tool/i.FULLPKGNAME=i-1
tool/i.BUILD_DEPENDS=tool/h lib/d
tool/j.FULLPKGNAME=j-1
tool/j.BUILD_DEPENDS=tool/i
x/k.FULLPKGNAME=k-1
x/l.FULLPKGNAME=l-1
x/l.IGNORE=only for <vax>
x/m.FULLPKGNAME=m-1
x/m.BUILD_DEPENDS=x/l
x/n.FULLPKGNAME=n-1
x/o.FULLPKGNAME=o-1
x/p.FULLPKGNAME=p-1
x/p.BUILD_DEPENDS=x/n
"""
# what each failed unit blocks, and how many paths that are built it keeps from being installed, counted by hand:
#   lib/c   lib/d; app/e,-main and app/e,-docs, which one build makes on lib/d; app/g, whose app/f needs lib/c to run; tool/i, on
#           lib/d; tool/j, on tool/i: six. app/f is held and lacks lib/c
#   tool/h  tool/i and tool/j
#   x/k     nothing
BLOCKS = {"lib/c": (6, 1), "tool/h": (2, 0), "x/k": (0, 0)}
# base/a and base/b are held with all they need, app/f without lib/c; five units of a path each can be built: lib/c, tool/h, x/k, x/n
# and x/o; seven paths wait: those that lib/c blocks, and x/p for x/n; x/l says that it is ignored, and x/m needs it
COUNTS = {"I": 2, "B": 1, "Q": 5, "T": 7, "!": 2}
UNITS = {"all": 14, "held": 3, "failed": 3, "blocked": 5, "never": 0, "left": 3}


def check(tally, name, right, *told, timed=False):
    tally.add(name, "" if right else seen(*told) or "it isn't so", timed)


# ---- a run that is played

def log_of(tree, notes, me, weights=(1, 1, 1)):
    """A log of a member of a listing's run."""
    text = packages.log(notes, weights, me)
    return text[:9] + tree + text[41:]


def held(path, name, host, claim="1.0", files=()):
    return packages.note(4, path, packages.build(packages.record(path, name, files, host=host, claim=claim)))


def promised(unit, number, member):
    return packages.note(2, unit, packages.claim(number, member))


def put(path, text, when=None):
    os.makedirs(os.path.dirname(path), exist_ok=True)
    with open(path, "wb") as file:
        file.write(text if isinstance(text, bytes) else text.encode())
    if when is not None:
        os.utime(path, (when, when))


class Played:
    """A listing, three logs and two work folders, as nodes and drivers leave them."""

    def __init__(self, folder, listing=LISTING):
        self.folder, self.tree = folder, listings.read(listing.encode()).digest()
        self.out = f"{folder}/out"
        put(f"{folder}/listing", listing)

    def log(self, me, notes, **more):
        put(f"{self.folder}/logs/node-{me}.log", log_of(self.tree, notes, me, **more))

    def append(self, me, note):
        """A note after the closed gate, which is opened then."""
        with open(f"{self.folder}/logs/node-{me}.log", "r+b") as log:
            end = log.seek(0, 2) - 1
            log.write(len(note).to_bytes(4, "big") + note + b"\0")
            log.flush()
            log.seek(end)
            log.write(b"\1")

    def job(self, work, unit, number=1):
        """Posts a job, and answers its name."""
        task = f"@tree {self.tree.hex()}\n@unit {unit}\n@package {unit}\n"
        name = hashlib.sha256(task.encode()).hexdigest()
        put(f"{self.folder}/work-{work}/jobs/{name}", f"{task}@host {work}\n@claim {number}.{work}\n")
        return name

    def begin(self, work, unit, since=None):
        """A build that runs."""
        self.job(work, unit)
        put(f"{self.folder}/work-{work}/build/{unit.replace('/', ':')}.abcd1234/lock", "", since)

    def show_begun(self, work, unit, since):
        """A build that runs, as its driver shows it by a file."""
        put(f"{self.folder}/work-{work}/begun/{self.job(work, unit)}", "", since)

    def fail(self, work, unit, why, when=None):
        name, place = self.job(work, unit), unit.replace("/", ":")
        put(f"{self.folder}/work-{work}/logs/{place}.log",
            "".join(f"cc -c part{n}.c\n" for n in range(100)) + f"error: <b>{unit}</b> & \x1b[31mmore\n")
        put(f"{self.folder}/work-{work}/failed/{name}", f"{unit}: {why}\n/elsewhere/work/logs/{place}.log\n", when)
        return name

    def words(self, *more, logs=(0, 1, 2), works=(0, 1)):
        words = ["--listing", f"{self.folder}/listing", "--out", self.out]
        words += [word for me in logs for word in ("--log", f"{self.folder}/logs/node-{me}.log")]
        return [*words, *(word for me in works for word in ("--work", f"{self.folder}/work-{me}")), *more]

    def run(self, *more, **which):
        """What a call of the tool answers, and the status that it wrote."""
        done = subprocess.run([TOOL, *self.words(*more, **which)], capture_output=True, timeout=LIMIT, env={**os.environ, "TZ": "UTC"})
        return (done.stdout, done.stderr, done.returncode), self.status()

    def status(self):
        return json.loads(contents(f"{self.out}/status.json")) if os.path.exists(f"{self.out}/status.json") else None


@contextlib.contextmanager
def played():
    """The run of LISTING: three units of it are held, three failed, one of them at two hosts, and two are built."""
    with tempfile.TemporaryDirectory() as folder:
        run = Played(folder)
        first = [held("base/a", "a-1", 0), held("base/b", "b-1", 1, "1.1")]
        run.log(0, [*first, promised("lib/c", 1, 0), promised("tool/h", 1, 1), held("app/f", "f-1", 0)])
        run.log(1, [*first, promised("tool/h", 1, 1), promised("tool/h", 2, 0), promised("x/n", 1, 1)])
        run.log(2, [first[0], promised("x/o", 3, 2)])
        for work, unit, why in ((0, "lib/c", "status 1"), (0, "tool/h", "status 2"), (1, "tool/h", "status 2"),
                                (1, "x/k", "it made no x/k")):
            run.fail(work, unit, why)
        run.begin(1, "x/n", time.time() - 4000)
        yield run


def letters_in(found):
    """The letter of each path, and the counts, as a report has them."""
    return {**{path: letter for one in found["list"] for path, letter in one["packages"].items()},
            **dict.fromkeys(found["ignored"], "!")}, found["counts"]


def letters_by_dpbr(folder, found):
    """The same as `dpbr status` has them, of the paths that the report shows as held."""
    held_paths = [path for one in found["list"] for path, letter in one["packages"].items() if letter in "IB"]
    put(f"{folder}/held", "".join(f"{path}\n" for path in held_paths))
    done = subprocess.run([PROGRAM, "status", "listing", "held"], cwd=folder, capture_output=True, timeout=LIMIT)
    *lines, counts = done.stdout.decode().rstrip("\n").split("\n")
    by_path = {line.split(" ")[1]: line.split(" ")[0] for line in lines}
    return by_path, {one.split("=")[0]: int(one.split("=")[1]) for one in counts.split(" ")}
