"""A node that is played, and tools/build-jobs next to it: the node posts jobs in its work folder, takes what is handed in, and holds it
on a log of its own. Nothing here is of one system only."""
import contextlib
import hashlib
import json
import os
import re
import shutil
import signal
import subprocess
import tempfile
import time

from topics import packages
from topics.tally import TOP, seen

# how long something is waited for, in seconds, on a machine that does other things, too: less than what never ends by itself sleeps here
LIMIT = 700
# the digest of the listing
TREE = "5a" * 32
# what each package was built with, as a file of it
WRITE = 'for p in $PACKAGES; do d="$OUT/$(echo $p | tr / :)"; mkdir "$d" && ls "$DEPS" > "$d/saw" && cat "$SIGNATURES" > "$d/on"; done; '
BUILD = WRITE + "true"
# the least that is handed in
MAKE = 'for p in $PACKAGES; do d="$OUT/$(echo $p | tr / :)"; mkdir -p "$d" && echo x > "$d/f"; done; '
# waits until the test says so
SLOW = 'echo $$ > "$TOP/pid"; until [ -e "$TOP/go" ]; do sleep 0.05; done; ' + BUILD


def name_of(task):
    return hashlib.sha256(task.encode()).hexdigest()


def digest_text(name, data):
    """The file that replaces one with these bytes."""
    return f"SHA256 ({name}) = {hashlib.sha256(data).hexdigest()}\nSIZE ({name}) = {len(data)}\n".encode()


def large_file(name, data):
    return [(f"{name}.sha256", digest_text(name, data))]


class Node:
    """A node: its work folder, and its log."""

    def __init__(self, folder, host=1):
        self.folder, self.work, self.log, self.host = folder, f"{folder}/work", f"{folder}/log", host
        for part in ("jobs", "done", "failed"):
            os.makedirs(f"{self.work}/{part}")
        self.posted, self.held = {}, {}
        # the drivers that were started for it
        self.drivers = []

    def is_left(self):
        """Whether all its drivers have ended, so that nothing is handed in any more."""
        return bool(self.drivers) and all(it.poll() is not None for it in self.drivers)

    def open(self):
        with open(self.log, "xb") as file:
            # of three members, whatever number the records have
            file.write(packages.log([], me=self.host % 3))

    def note(self, text, gate=b"\1"):
        """Appends a note, and then opens its gate."""
        with open(self.log, "r+b") as file:
            place = file.seek(-1, os.SEEK_END)
            file.write(b"\0" + len(text).to_bytes(4, "big") + text + b"\0")
            file.seek(place)
            file.write(gate)

    def post(self, unit, paths=(), built=(), run=()):
        """Posts the job of a unit, on what is held of these paths, and returns its name."""
        paths = paths or (unit,)
        task = "".join([f"@tree {TREE}\n@unit {unit}\n", *(f"@package {path}\n" for path in paths), *(f"@built {self.held[path]}\n" for path in built)])
        name = name_of(task)
        self.posted[name] = unit, paths, [self.held[path] for path in built], list(run)
        with open(f"{self.work}/jobs/.new", "w") as file:
            file.write(task + f"@host {self.host}\n@claim 1.{self.host}\n")
        os.rename(f"{self.work}/jobs/.new", f"{self.work}/jobs/{name}")
        return name

    def hold(self, unit, files, built=(), run=(), host=None, names=None):
        """Holds a build, of these files by path."""
        records, host = [], self.host if host is None else host
        for path in sorted(files):
            name = (names or {}).get(path, f"p{len(self.held)}-1")
            own = [other for other in run if other != path]
            records.append(packages.record(path, name, files[path], built=list(built), run=own, host=host, claim="1.1"))
            self.held[path] = packages.signed(path, name, records[-1])
        self.note(packages.note(4, unit, packages.build(*records)))

    def files(self, name):
        """What was handed in under a name, by path."""
        with open(f"{self.work}/done/{name}", "rb") as file:
            made = json.load(file)
        return {path: [(file["name"], bytes.fromhex(file["hex"])) for file in made[path]] for path in made}

    def take(self, name, seconds=LIMIT):
        """Waits for what is handed in under a name, and holds it."""
        if not until_left(lambda: os.path.exists(f"{self.work}/done/{name}"), self.is_left, seconds):
            return {}
        unit, _, built, run = self.posted[name]
        files = self.files(name)
        self.hold(unit, files, built, run)
        return {path: dict(its) for path, its in files.items()}

    def failed(self, name, seconds=LIMIT):
        """Waits for the mark that a build failed, and returns what it says."""
        return until_left(lambda: os.path.exists(f"{self.work}/failed/{name}"), self.is_left, seconds) and read(f"{self.work}/failed/{name}")

    def is_forgotten(self, name):
        return until(lambda: not any(os.path.exists(f"{self.work}/{part}/{name}") for part in ("jobs", "done", "failed")))


def read(path):
    with open(path, encoding="utf-8", errors="surrogateescape") as file:
        return file.read()


def until(holds, seconds=LIMIT):
    """Waits until something holds, and returns whether it does."""
    end = time.monotonic() + seconds
    while not holds() and time.monotonic() < end:
        time.sleep(0.02)
    return holds()


def until_left(holds, is_left, seconds=LIMIT):
    """Waits until something holds, or can't be any more, and returns whether it does."""
    until(lambda: holds() or is_left(), seconds)
    return holds()


def lines_of(path):
    """The whole lines of a driver's output, without the times; one that is being written isn't there yet."""
    return [re.sub("^[0-9-]{10} [0-9:]{8} ", "", line) for line in read(path).split("\n")[:-1]]


def without_seconds(lines):
    """These lines without how long builds took."""
    return [re.sub(r"\b[0-9]+ s\b", "N s", line) for line in lines]


def text_in(path):
    """What a file says that may go away at any time; nothing if it isn't there."""
    try:
        return read(path)
    except FileNotFoundError:
        return ""


def has_text(path):
    """Whether the file is there, and has a line."""
    return text_in(path).endswith("\n")


class Driver:
    """build-jobs on a node's folder, with a script for each build."""

    def __init__(self, node, script, *words, more=(), out=None, env=None):
        self.out = f"{node.folder}/driver.{time.monotonic_ns()}"
        with open(self.out, "xb") as own:
            self.process = subprocess.Popen([f"{TOP}/tools/build-jobs", *words, node.work, node.log, "--", "sh", "-c", script, *more],
                                            stdin=subprocess.DEVNULL, stdout=own if out is None else out, stderr=own,
                                            env={**os.environ, "TOP": node.folder, **(env or {})})
        node.drivers.append(self.process)

    def lines(self):
        """What it printed, without the times."""
        return lines_of(self.out)

    def tells(self, line, seconds=LIMIT):
        return until_left(lambda: any(re.fullmatch(line, told) for told in self.lines()), lambda: self.process.poll() is not None, seconds)

    def begun(self, unit=""):
        """How many builds began, or of this unit."""
        return sum(line.startswith(f"> {unit}") for line in self.lines())

    def end(self, number=signal.SIGTERM):
        if self.process.poll() is None:
            self.process.send_signal(number)
        return self.process.wait(LIMIT)


@contextlib.contextmanager
def laid(script, *words, more=(), env=None, out=None):
    """A node that opened its log a moment ago, and a driver that works for it, with more words for the script."""
    with node_alone() as node:
        driver = Driver(node, script, *words, more=more, env=env, out=out)
        try:
            yield node, driver
        finally:
            driver.end(signal.SIGKILL)
            end_builds(node)


@contextlib.contextmanager
def node_alone(folder=None):
    """A node that has just opened its log."""
    place = tempfile.mkdtemp(dir=folder)
    try:
        node = Node(place)
        node.open()
        yield node
    finally:
        # what a test killed may write there for a moment
        until(lambda: removed(place), 20)


def removed(folder):
    """Removes a folder, and returns whether it is gone."""
    shutil.rmtree(folder, ignore_errors=True)
    return not os.path.exists(folder)


def end_builds(node):
    """Asks builds that outlived their driver to end, and waits for that."""
    def running():
        found = []
        for name in os.listdir(f"{node.work}/build") if os.path.isdir(f"{node.work}/build") else ():
            with contextlib.suppress(OSError):
                found.append(os.open(f"{node.work}/build/{name}/control", os.O_WRONLY | os.O_NONBLOCK))
        return found

    left = running()
    for number in left:
        os.write(number, b"e")
        os.close(number)
    if left:
        until(lambda: not [os.close(number) for number in running()])


def is_alive(folder, word):
    """Whether the process still runs whose number a build left in this file; one that came to write none doesn't."""
    try:
        os.kill(int(read(f"{folder}/{word}")), 0)
    except (ProcessLookupError, FileNotFoundError):
        return False
    return True


def add(tally, name, right, *told, timed=False):
    tally.add(f"build-jobs, {name}", "" if right else seen(*told) or "it isn't so", timed)
