"""`dpbn build` with tools/build-jobs: hosts that build a tree of Makefiles together, nodes and drivers that are killed meanwhile,
ports that fail and are mended, a host that comes late, malformed answers, how much is sent if nothing happens, and a long
run."""
import contextlib
import errno
import fcntl
import functools
import hashlib
import json
import os
import random
import re
import shutil
import subprocess
import sys
import tempfile
import time

from topics import nodes, packages, processor, sealed
from topics.nodes import NODES, answer, beside, free_ports, logs_in, ordered, put, refused, taken
from topics.tally import PROGRAM, TESTS, TOP, Lines, built_shim, contents, difference, say, seen

LIVE = f"{TESTS}/live"
# the kinds of datagrams that offer a claim, promise it, propose a build, vote for it and ask for a unit; and how one begins that is none
# of the protocol
OFFER, PROMISE, PROPOSAL, VOTE, ASK = 1, 2, 3, 4, 6
NOTICE = b"DPBT"
LINE = re.compile(rb"node (\d): I=(\d+) B=(\d+) Q=(\d+) T=(\d+) !=(\d+)")
# how long something is waited for, in seconds: less than a unit is left to another host if nothing is said (--takeover)
LIMIT = 500
# how much more memory a long run may have at its end than after its first part, in kB: of what is kept to be used again some
# pages more may have been touched
SPARE = 64
# how often a turn looks for a datagram that waits 20 milliseconds (udp/src/patience.rt), and how often in an hour of such turns
LOOKS = 39
HOUR = LOOKS * 50 * 3600
# how many bytes a large file has
LARGE = 134_217_728
# how long is waited for such a day, in seconds, and how many hours of it there have to be by then
LONGEST_DAY, LEAST_HOURS = 60, 2
# how many bytes a log may have, and from how many on that is reported (dpbn(1))
MOST_OF_A_LOG, NEARLY_FULL = 2_147_483_648, 2_147_483_648 // 10 * 9


def until(holds, seconds=LIMIT, nap=0.02):
    """Waits until something holds, and answers whether it does."""
    end = time.monotonic() + seconds
    while not holds():
        if time.monotonic() > end:
            return False
        time.sleep(nap)
    return True


def check(tally, name, right, *told, timed=False):
    """One more test, which passed if that is right; otherwise what was seen is reported."""
    tally.add(name, "" if right else seen(*told) or "it isn't so", timed)


def size_of(path):
    return os.path.getsize(path) if os.path.exists(path) else 0


def last_of(*hosts):
    """What the nodes and drivers of these hosts printed last, and what is in their work folders, to find out why something failed."""
    return Lines(line for host in hosts for line in host.last())


# ---- hosts

class Host:
    """A node of a run, and the driver that builds for it."""

    def __init__(self, run, me):
        self.run, self.me = run, me
        self.work, self.log = f"{run.folder}/work-{me}", f"{run.folder}/logs/node-{me}.log"
        self.node = self.driver = self.environment = self.locked = None
        self.began = 0

    def out(self, part):
        return f"{self.run.folder}/{part}-{self.me}.out"

    def lock(self):
        """Holds the lock of the work folder, as a driver does: a node claims nothing if nobody has held it for a minute."""
        os.makedirs(self.work, exist_ok=True)
        self.locked = open(f"{self.work}/lock", "a")
        with contextlib.suppress(BlockingIOError):
            fcntl.flock(self.locked, fcntl.LOCK_EX | fcntl.LOCK_NB)

    def unlock(self):
        if self.locked:
            self.locked.close()
            self.locked = None

    def start_node(self, *words):
        self.began = size_of(self.out("err"))
        if isinstance(self.run, Lone) and not self.driver and not self.locked:
            self.lock()
        words = ["--listing", "listing", "--work", self.work, "--dir", "logs", "--members", str(self.run.members),
                 "--me", str(self.me), *self.run.peers, "--progress", "1", *words]
        with open(self.out("node"), "ab") as out, open(self.out("err"), "ab") as err:
            self.node = subprocess.Popen([NODES, "build", *words], cwd=self.run.folder, stdin=subprocess.DEVNULL, stdout=out,
                                         stderr=err, env=self.environment)

    def start_driver(self):
        with open(self.out("driver"), "ab") as out:
            words = ["-j", str(self.run.jobs), self.work, self.log, "--", f"{self.run.folder}/build"]
            self.driver = subprocess.Popen([f"{TOP}/tools/build-jobs", *words], cwd=self.run.folder, stdin=subprocess.DEVNULL,
                                           stdout=out, stderr=out)

    def kill(self, *parts):
        for part in parts:
            process = getattr(self, part)
            if process:
                process.kill()
                process.wait()

    def end(self):
        """Ends both, and waits for builds that outlived a driver: somebody reads their FIFOs as long as they run."""
        self.unlock()
        for process in (self.driver, self.node):
            if process and process.poll() is None:
                process.terminate()
                process.wait(LIMIT)
        until(lambda: not any(is_read(f"{self.work}/build/{name}/control") for name in names_in(f"{self.work}/build")))

    def lines(self):
        """What the node printed on standard error since it was started."""
        return contents(self.out("err"))[self.began:].split(b"\n")[:-1]

    def last(self, most=6):
        """What both printed last, and what is in the work folder."""
        for part, lines in (("node", self.lines() if self.node else []), ("driver", lines_in(self.out("driver")))):
            process = getattr(self, part)
            how = "it wasn't started" if not process else "it runs" if process.poll() is None else f"it ended with {process.returncode}"
            yield f"{part} {self.me}: {how}, it printed {len(lines)} lines{', the last:' if lines else ''}"
            yield from (f"    {line.decode(errors='backslashreplace')}" for line in lines[-most:])
        counts = [f"{part} {len(names_in(f'{self.work}/{part}'))}" for part in ("jobs", "begun", "done", "failed")]
        yield f"work folder {self.me}: {', '.join(counts)}"

    def jobs(self):
        """The names of the jobs that are posted, by unit."""
        found = {}
        for name in names_in(f"{self.work}/jobs"):
            # a job may be taken away at any time
            with contextlib.suppress(FileNotFoundError):
                unit = None if name.startswith(".") else re.search(rb"^@unit (.*)$", contents(f"{self.work}/jobs/{name}"), re.MULTILINE)
                if unit:
                    found[unit[1].decode()] = name
        return found

    def job(self, unit):
        """Waits for a unit's job, and answers its name."""
        until(lambda: unit in self.jobs())
        return self.jobs().get(unit, "none")

    def begin(self, name):
        """Shows a job as begun, as a driver does."""
        os.makedirs(f"{self.work}/begun", exist_ok=True)
        put(f"{self.work}/begun/{name}", b"")

    def hand_in(self, part, name, text):
        put(f"{self.work}/{part}/.{name}.test", text)
        os.rename(f"{self.work}/{part}/.{name}.test", f"{self.work}/{part}/{name}")

    def begun(self):
        """How many builds its drivers began."""
        return contents(self.out("driver")).count(b" > ") if os.path.exists(self.out("driver")) else 0

    def holds_all(self):
        """Whether it printed last that it holds all that isn't ignored."""
        told = [it for it in map(LINE.fullmatch, self.lines()) if it]
        return bool(told) and told[-1].groups()[1:] == self.run.all_held()


def names_in(folder):
    return sorted(os.listdir(folder)) if os.path.isdir(folder) else []


def lines_in(path):
    return contents(path).split(b"\n")[:-1] if os.path.exists(path) else []


def is_read(path):
    """Whether somebody reads the FIFO."""
    try:
        os.close(os.open(path, os.O_WRONLY | os.O_NONBLOCK))
    except OSError:
        return False
    return True


class Run:
    """A tree of Makefiles, its listing, what a serial build makes of it, and the hosts that build it."""

    def __init__(self, folder, members=3, jobs=1, ignored=0, **tree):
        self.folder, self.members, self.jobs = folder, members, jobs
        self.peers = ["--base", str(free_ports(members))]
        words = [it for word, value in {"ignored": ignored, **tree}.items() for it in (f"--{word}", str(value))]
        subprocess.run([f"{LIVE}/make-tree", f"{folder}/tree", *words], check=True, timeout=LIMIT)
        self.ports = contents(f"{folder}/tree/order").decode().split()
        with open(f"{folder}/dump", "wb") as dump:
            for port in self.ports:
                subprocess.run(["bmake", "dump-vars"], cwd=f"{folder}/tree/{port}", stdout=dump, check=True, timeout=LIMIT)
        with open(f"{folder}/listing", "wb") as listing:
            subprocess.run([f"{TOP}/tools/expand-listing", f"{folder}/dump"], stdout=listing, check=True, timeout=LIMIT)
        began = time.monotonic()
        subprocess.run([f"{LIVE}/serial-build", f"{folder}/tree", f"{folder}/serial"], stdout=subprocess.DEVNULL, check=True,
                       timeout=LIMIT)
        self.makes = time.monotonic() - began
        self.paths = sorted(name.replace(":", "/") for name in os.listdir(f"{folder}/serial"))
        listed = contents(f"{folder}/listing").decode().count(".FULLPKGNAME=")
        self.ignored, self.units = listed - len(self.paths), len({path.partition(",")[0] for path in self.paths})
        put(f"{folder}/build", f'#!/bin/sh\nexec bmake -f "{folder}/tree/${{PKGPATH%%,*}}/Makefile" package\n'.encode())
        os.chmod(f"{folder}/build", 0o755)
        os.mkdir(f"{folder}/logs")
        self.hosts = [Host(self, me) for me in range(members)]

    def alone(self):
        """How long one host takes to build the ports one after the other, in seconds, and how long the longest chain of dependent
        builds takes. What a build takes besides its wait is the average of a serial build."""
        texts = {port: contents(f"{self.folder}/tree/{port}/Makefile").decode() for port in self.ports}
        texts = {port: text for port, text in texts.items() if "IGNORE = " not in text}
        each, needs = self.makes / len(self.ports), needs_of(contents(f"{self.folder}/listing"))
        takes, chain = {}, {}
        for port, text in texts.items():
            takes[port] = each + float(re.search(r"SECONDS = (.*)", text)[1])
            named = re.search(r"NEEDS = (.*)", text)
            below = {path.partition(",")[0] for path in closed(named[1].split() if named else [], needs)} - {port}
            chain[port] = takes[port] + max((chain[it] for it in below), default=0)
        return sum(takes.values()), max(chain.values())

    def all_held(self):
        """A node's line if everything that isn't ignored is held."""
        return tuple(b"%d" % it for it in (len(self.paths), 0, 0, 0, self.ignored))

    def start(self, *words):
        for host in self.hosts:
            host.start_node(*words)
            host.start_driver()

    def ends(self):
        """Waits until all nodes have ended, and returns their statuses."""
        until(lambda: all(host.node.poll() is not None for host in self.hosts))
        return [host.node.poll() for host in self.hosts]

    def end(self):
        for host in self.hosts:
            host.end()

    def is_held(self, *hosts):
        """Waits until all is held at these hosts, or at all."""
        return until(lambda: all(host.holds_all() for host in hosts or self.hosts))

    def told(self):
        """What the hosts printed last, to find out why something failed."""
        return last_of(*self.hosts)

    def begun(self):
        return sum(host.begun() for host in self.hosts)

    def set_broken(self, mended):
        """The ports that are broken; they are mended, if they are to be."""
        found = []
        for port in self.ports:
            path = f"{self.folder}/tree/{port}/Makefile"
            text = contents(path)
            if b"BROKEN = " in text:
                found.append(port)
                if mended:
                    put(path, re.sub(rb"BROKEN = .*\n", b"", text))
        return found


@contextlib.contextmanager
def laid(**words):
    """A run, whose processes end with it."""
    with tempfile.TemporaryDirectory() as folder:
        run = Run(folder, **words)
        try:
            yield run
        finally:
            run.end()


# ---- what they hold

def needs_of(listing):
    """What each path needs to run, by the listing: what its libraries and its own lines name."""
    needs = {}
    for line in listing.decode().split("\n"):
        name, _, value = line.partition("=")
        path, _, variable = name.rpartition(".")
        if variable in ("LIB_DEPENDS", "RUN_DEPENDS"):
            needs.setdefault(path, set()).update(value.split())
    return needs


def closed(paths, needs):
    """These paths, and all that they need to run."""
    found, left = set(), set(paths)
    while left:
        path = left.pop()
        found.add(path)
        left |= needs.get(path, set()) - found
    return found


def listed(text):
    """The packages of a list: by path the signature, and the signatures of what it was built on."""
    signatures, built = {}, {}
    for line in text.decode().split("\n"):
        word, _, signature = line.partition(" ")
        if word == "package":
            path = signature.split(" ")[0]
            signatures[path], built[path] = signature, set()
        elif word == "built":
            built[path].add(signature)
    return signatures, built


def package_problem(run, folder, path, signatures, built, needs):
    """What is wrong with a package that is held, if anything: it saw what its record names, with what that needs to run, and
    nothing else; and it is what a serial build makes."""
    place = path.replace("/", ":")
    saw = set(contents(f"{folder}/{place}/built-on").decode().split("\n")) - {""}
    wanted = {signatures.get(it) for it in closed([it.split(" ")[0] for it in built], needs)}
    if not built <= saw or saw != wanted:
        return f"{path} was built on {sorted(saw)}, and its record names {sorted(built)}"
    same = contents(f"{folder}/{place}/content") == contents(f"{run.folder}/serial/{place}/content")
    return "" if same else f"{path} has another content than a serial build's"


def whole(tally, run, name):
    """What the logs hold: all of it, the same at each host, an allowed list, and packages of which each is what it should be."""
    sets, needs = [], needs_of(contents(f"{run.folder}/listing"))
    for host in run.hosts:
        to = tempfile.mkdtemp(dir=run.folder)
        os.rmdir(to)
        said = packages.tool("unpack-log", host.log, to)
        tally.add(f"{name}, the log of host {host.me}", difference(said, (b"", b"", 0)))
        if said[2]:
            continue
        audit = subprocess.run([PROGRAM, "audit", "listing", f"{to}/list"], cwd=run.folder, capture_output=True, timeout=LIMIT)
        check(tally, f"{name}, the list of host {host.me}", audit.stdout == b"yes\n", audit.stdout, audit.stderr)
        signatures, built = listed(contents(f"{to}/list"))
        problems = [package_problem(run, to, path, signatures, built[path], needs) for path in signatures]
        tally.add(f"{name}, the packages of host {host.me}", next(filter(None, problems), ""))
        sets.append(signatures)
    missed = [sorted(set(run.paths) ^ set(held)) for held in sets]
    tally.add(f"{name}, all is held", f"{missed} aren't, or were never to be built" if any(missed) else "")
    tally.add(f"{name}, the same everywhere", "" if all(held == sets[0] for held in sets) else "one path has several packages")


def tell(run, name, began):
    took, (serial, chain) = time.monotonic() - began, run.alone()
    say(f"tests/run: {name}: {len(run.ports)} ports, {len(run.paths)} packages of {run.units} units: {run.begun()} builds "
        f"begun, {took:.1f} s; one after the other {serial:.1f} s, the longest chain {chain:.1f} s")


def three_hosts(tally):
    """Three hosts share the builds of thirty ports; when all is held, each comes to rest by itself."""
    name = "three hosts"
    with laid(ports=30, ignored=1, least=0.05, most=0.4) as run:
        began = time.monotonic()
        run.start("--rest", "20")
        statuses = run.ends()
        tell(run, name, began)
        lines = [contents(host.out("node")) for host in run.hosts]
        wanted = [b"node %d: I=%s B=%s Q=%s T=%s !=%s\n" % (me, *run.all_held()) for me in range(3)]
        check(tally, f"{name}, how they end", (statuses, lines) == ([0] * 3, wanted), statuses, lines, run.told())
        check(tally, f"{name}, shared builds", run.begun() < 1.5 * run.units, run.begun(), run.units, timed=True)
        whole(tally, run, name)


def killed(run, dice, kills):
    """Kills nodes, drivers or both, one host's after another's, and starts them again; and answers how many of each."""
    counts = {("node",): 0, ("driver",): 0, ("node", "driver"): 0}
    for _ in range(kills):
        time.sleep(dice.uniform(0.05, 0.4))
        host, parts = dice.choice(run.hosts), dice.choice(list(counts))
        counts[parts] += 1
        host.kill(*parts)
        time.sleep(dice.uniform(0, 0.2))
        if "node" in parts:
            host.start_node(*run.words)
        if "driver" in parts:
            host.start_driver()
    return counts.values()


def kills(tally):
    """Three hosts whose nodes, drivers or both are killed forty times while they build."""
    name = "forty kills"
    with laid(ports=30, seed=2, least=0.1, most=0.8) as run:
        run.words = ["--takeover", "5"]
        began = time.monotonic()
        run.start(*run.words)
        counts = killed(run, random.Random(3), 40)
        held = sum(host.holds_all() for host in run.hosts)
        check(tally, f"{name}, all is held", run.is_held(), run.told())
        tell(run, f"{name} ({', '.join(map(str, counts))} of nodes, drivers and both; then {held} held all)", began)
        run.end()
        whole(tally, run, name)


def jobs(tally):
    """Three hosts that build three units at a time each."""
    name = "three jobs a host"
    with laid(ports=20, seed=4, jobs=3, least=0.8, most=2.0) as run:
        began = time.monotonic()
        run.start("--jobs", "3")
        check(tally, f"{name}, all is held", run.is_held(), run.told())
        tell(run, name, began)
        several = any(re.search(rb": [23] of 3$", contents(host.out("driver")), re.MULTILINE) for host in run.hosts)
        check(tally, f"{name}, several at a time", several, run.told(), timed=True)
        run.end()
        whole(tally, run, name)


def broken(tally):
    """Two ports are broken: each of three hosts tries them once, and comes to rest with status 3. Run again, the marks are still there;
    they are taken away and the Makefiles mended meanwhile, and all is built."""
    name = "two broken ports"
    with laid(ports=12, seed=5, broken=2, least=0.05, most=0.2) as run:
        began = time.monotonic()
        run.start("--rest", "20", "--takeover", "1", "--tries", "3")
        statuses = run.ends()
        check(tally, f"{name}, how they end", statuses == [3] * 3, statuses, run.told())
        bad = run.set_broken(mended=False)
        failed = {b"dpbn: failed " + port.encode() for port in bad}
        once = all(host.lines().count(line) == 1 for host in run.hosts for line in failed)
        check(tally, f"{name}, each failed once at each host", once, run.told())
        run.end()
        run.start("--takeover", "1", "--tries", "3")
        again = until(lambda: all(failed <= set(host.lines()) for host in run.hosts))
        check(tally, f"{name}, marks that exist", again, run.told())
        run.set_broken(mended=True)
        for host in run.hosts:
            for mark in names_in(f"{host.work}/failed"):
                os.unlink(f"{host.work}/failed/{mark}")
        check(tally, f"{name}, mended", run.is_held(), run.told())
        tell(run, name, began)
        run.end()
        whole(tally, run, name)


def settled(paths):
    """The bytes of these files, once they stay for three seconds."""
    before, now, since = None, [contents(path) for path in paths], time.monotonic()
    while time.monotonic() < since + 3:
        before, now = now, [contents(path) for path in paths]
        since = since if before == now else time.monotonic()
        time.sleep(0.05)
    return now


def late(tally):
    """A host whose node starts when two others hold all obtains all, and the others note nothing."""
    name = "a late host"
    with laid(ports=20, seed=6, least=0.02, most=0.1) as run:
        early, last = run.hosts[:2], run.hosts[2]
        began = time.monotonic()
        for host in early:
            host.start_node()
            host.start_driver()
        check(tally, f"{name}, the two others", run.is_held(*early), last_of(*early))
        logs = settled([host.log for host in early])
        since = time.monotonic()
        last.start_node("--rest", "20")
        until(lambda: last.node.poll() is not None)
        told = last.node.poll(), last.holds_all()
        say(f"tests/run: {name}: it held {run.units} units and was at rest after {time.monotonic() - since:.1f} s")
        check(tally, f"{name}, how it ends", told == (0, True), told, last_of(last))
        stayed = [contents(host.log) for host in early] == logs
        check(tally, f"{name}, the others' logs", stayed, [len(it) for it in logs], [size_of(host.log) for host in early])
        tell(run, name, began)
        run.end()
        whole(tally, run, name)


def with_a_key(tally):
    """Three hosts at three addresses under a key, one of which is killed and started again."""
    name = "hosts with a key"
    with laid(ports=10, seed=7, least=0.05, most=0.2) as run:
        tally.add(f"{name}, dpbn key", difference(answer(["key", "key"], run.folder), (b"", b"", 0)))
        port = free_ports(1)
        run.peers = ["--hosts", ",".join(f"127.0.0.{me + 1}:{port}" for me in range(3)), "--key", "key"]
        began = time.monotonic()
        run.start()
        until(lambda: run.hosts[1].begun() > 0)
        run.hosts[1].kill("node", "driver")
        run.hosts[1].start_node("--continue")
        run.hosts[1].start_driver()
        check(tally, f"{name}, all is held", run.is_held(), run.told())
        tell(run, name, began)
        told = [line for host in run.hosts for line in host.lines() if b"seals otherwise" in line or b"fault" in line]
        check(tally, f"{name}, what is reported", not told, told)
        run.end()
        whole(tally, run, name)


# ---- answers that the test hands in

UNIT = '{"a/unit,-main":[],"a/unit,-tests":[{"hex":"78","name":"x"}]}\n'
SINGLE = ("bytes", "half", "held", "long", "name", "other")
ANSWERED = "".join(f"a/{name}.FULLPKGNAME={name}-1\n" for name in SINGLE)
ANSWERED += "a/unit,-main.FULLPKGNAME=unit-1\na/unit,-tests.FULLPKGNAME=unit-tests-1\n"
# what is right for each unit, and what is malformed, with how
GOOD = {"a/unit": UNIT, **{f"a/{name}": f'{{"a/{name}":[{{"hex":"78","name":"x"}}]}}\n' for name in SINGLE}}
# what an answer has besides its unit's packages is not looked at
GOOD["a/other"] = '{"a/other":[{"hex":"78","name":"x"}],"x/y":[{"hex":"","name":"@x"}]}\n'
BAD = {"that is no text": ("a/bytes", b"{"), "of another unit": ("a/other", b'{"a/b":[]}'),
       "without a package": ("a/unit", b'{"a/unit,-main":[]}'),
       "with a bad name": ("a/name", b'{"a/name":[{"hex":"","name":"@x"}]}'),
       "that is too long": ("a/long", GOOD["a/long"].encode() + b" " * 16_777_216)}


class Lone(Host):
    """A node for which the test builds: it is in a folder with a listing, and its peers, if there are any, are the test's."""

    def __init__(self, folder, listing, weights=(1,), me=0):
        self.folder, self.members = folder, len(weights)
        base = free_ports(self.members)
        self.places = [("127.0.0.1", base + me) for me in range(self.members)]
        self.peers = ["--base", str(base), "--weights", ",".join(map(str, weights))]
        put(f"{folder}/listing", listing.encode())
        os.makedirs(f"{folder}/logs", exist_ok=True)
        super().__init__(self, me)

    def is_failed(self, unit, name):
        """Waits until the node printed that the unit failed, and marked it, and took the answer away."""
        return until(lambda: b"dpbn: failed " + unit.encode() in self.lines() and os.path.exists(f"{self.work}/failed/{name}")
                     and not os.path.exists(f"{self.work}/done/{name}"))

    def shows(self, **letters):
        """Waits until the node's line has these."""
        wanted = tuple(b"%d" % letters.get(it, 0) for it in "IBQT")
        return until(lambda: any(it and it.groups()[1:5] == wanted for it in map(LINE.fullmatch, self.lines()[-1:])))


@contextlib.contextmanager
def lone(listing, *words, weights=(1,)):
    """A lone node that runs, on files in memory, and its process ends with it."""
    with tempfile.TemporaryDirectory(dir=nodes.MEMORY) as folder:
        host = Lone(folder, listing, weights)
        try:
            host.start_node(*words)
            yield host
        finally:
            host.end()


def answers(tally):
    """Answers that make no build, are half written, or are of a unit that is held: each is reported and marked, or ignored;
    and once the marks are gone all is built."""
    with lone(ANSWERED, "--jobs", "64") as host:
        all_posted = until(lambda: set(host.jobs()) == set(GOOD))
        check(tally, "answers, all jobs are posted", all_posted, sorted(host.jobs()), last_of(host))
        names = host.jobs()
        put(f"{host.work}/done/.{names['a/half']}.test", GOOD["a/half"][:20].encode())
        for what, (unit, text) in BAD.items():
            host.hand_in("done", names[unit], text)
            failed = host.is_failed(unit, names[unit])
            check(tally, f"an answer {what}", failed, last_of(host), names_in(f"{host.work}/failed"))
        told = [line for line in host.lines() if line.startswith(b"dpbn: fault ")]
        check(tally, "answers that make no build, their faults", told == [b"dpbn: fault 1305 at 0", b"dpbn: fault 907"], told)
        late_answers(tally, host, names)
        for unit, _ in BAD.values():
            os.unlink(f"{host.work}/failed/{names[unit]}")
            host.hand_in("done", names[unit], GOOD[unit].encode())
        check(tally, "answers once the marks are gone", host.shows(I=8), last_of(host))
        host.kill("node")
        host.start_node("--rest", "1")
        until(lambda: host.node.poll() is not None)
        check(tally, "a work folder next to its log", host.node.poll() == 0, last_of(host))


def late_answers(tally, host, names):
    """An answer that is good, another one for that unit, which is held by then, and one that was half written."""
    host.hand_in("done", names["a/held"], GOOD["a/held"].encode())
    check(tally, "an answer that is good", host.shows(I=1, Q=7), last_of(host))
    before = settled([host.log])
    host.hand_in("done", names["a/held"], b'{"a/held":[]}')
    stays = settled([host.log]) == before and host.node.poll() is None
    check(tally, "an answer for a unit that is held", stays, last_of(host))
    check(tally, "an answer that is half written", host.shows(I=1, Q=7) and "a/half" in host.jobs(), last_of(host))
    host.hand_in("done", names["a/half"], GOOD["a/half"].encode())
    check(tally, "the same, whole", host.shows(I=2, Q=6), last_of(host))


TWO = "a/b.FULLPKGNAME=b-1\na/c.FULLPKGNAME=c-1\n"


def rests_behind_all_jobs(tally):
    """A node whose open claim is answered, while the other one of its two jobs is built still, comes to rest after that one. It waits longer
    than the time after which a node ends since nothing moves: a rest for each member, --takeover and 5 s."""
    name = "two jobs, and a rest"
    with lone(TWO, "--jobs", "2", "--rest", "1", "--takeover", "1") as host:
        first, second = host.job("a/b"), host.job("a/c")
        host.hand_in("done", second, b'{"a/c":[]}')
        held = host.shows(I=1, Q=1)
        time.sleep(9)
        check(tally, f"{name}, while one is built", held and host.node.poll() is None, host.node.poll(), last_of(host))
        host.hand_in("done", first, b'{"a/b":[]}')
        until(lambda: host.node.poll() is not None)
        check(tally, f"{name}, how it ends", host.node.poll() == 0, host.node.poll(), last_of(host))


def taken_away(tally):
    """A job that is taken away is posted again: that of the open claim, and one whose claim was given up for that; and no more jobs
    are out than are allowed."""
    with lone(TWO + "a/d.FULLPKGNAME=d-1\n", "--jobs", "2") as host:
        names = {unit: host.job(unit) for unit in ("a/b", "a/c")}
        for unit, name in reversed(names.items()):
            os.unlink(f"{host.work}/jobs/{name}")
            again = until(lambda: host.jobs().get(unit) == name)
            check(tally, f"the job of {unit}, taken away", again, host.jobs(), last_of(host))
        time.sleep(1)
        check(tally, "two jobs, and no third", sorted(host.jobs()) == ["a/b", "a/c"], host.jobs())
        for unit, name in names.items():
            host.hand_in("done", name, b'{"%s":[]}' % unit.encode())
        check(tally, "what was taken away, built", host.shows(I=2, Q=1), last_of(host))


def killed_while_it_builds(tally):
    """A node that is killed and run again while its job is built doesn't have it built again."""
    script = 'echo >> "$TOP/begun"; until [ -e "$TOP/go" ]; do sleep 0.05; done; mkdir "$OUT/a:b"'
    with lone("a/b.FULLPKGNAME=b-1\n") as host:
        host.unlock()
        with open(host.out("driver"), "wb") as out:
            words = [f"{TOP}/tools/build-jobs", host.work, host.log, "--", "sh", "-c", script]
            host.driver = subprocess.Popen(words, stdin=subprocess.DEVNULL, stdout=out, stderr=out,
                                           env={**os.environ, "TOP": host.folder})
        is_begun = until(lambda: size_of(f"{host.folder}/begun") > 0)
        for _ in range(3):
            host.kill("node")
            host.start_node("--rest", "1")
            host.shows(Q=1)
        put(f"{host.folder}/go", b"")
        until(lambda: host.node.poll() is not None)
        told = host.node.poll(), contents(f"{host.folder}/begun") if is_begun else b"", host.begun()
        check(tally, "a node that is killed while its job is built", told == (0, b"\n", 1), told, last_of(host))


@contextlib.contextmanager
def several(listing, *works):
    """Nodes of one run, a folder in memory, each with its work folder's name; they aren't started, and their processes end with it."""
    with tempfile.TemporaryDirectory(dir=nodes.MEMORY) as folder:
        first = Lone(folder, listing, (1,) * len(works))
        hosts = [first, *(Host(first, me) for me in range(1, len(works)))]
        for host, work in zip(hosts, works):
            host.work = f"{folder}/{work}"
        try:
            yield hosts
        finally:
            for host in hosts:
                host.end()


def one_folder(tally):
    """Two nodes of one run that share a work folder, of which one is killed and started again: what is handed in there is held by all
    three, and nothing is refused."""
    with several(TWO, "shared", "shared", "other") as hosts:
        first, second, _ = hosts
        for host in hosts:
            host.start_node("--takeover", "1")
            # a node refuses a folder that has jobs, as long as its log has no notes: so the next one, with which there is a majority,
            # starts once this one has opened it
            until(lambda: os.path.exists(f"{host.run.folder}/logs/node-{host.me}.run"))
        first.hand_in("done", first.job("a/b"), b'{"a/b":[]}')
        is_first = until(lambda: all(held(host) == 1 for host in hosts))
        second.kill("node")
        second.start_node("--takeover", "1")
        first.hand_in("done", first.job("a/c"), b'{"a/c":[]}')
        is_second = until(lambda: all(held(host) == 2 for host in hosts))
        told = [line for host in hosts for line in host.lines() if b"fault" in line]
        last = last_of(*hosts)
        check(tally, "two nodes of one work folder", is_first and is_second and not told, is_first, is_second, told, last)


def begins_all(host):
    """Shows all jobs of a host as begun, and returns whether there are any."""
    names = list(host.jobs().values())
    for name in names:
        host.begin(name)
    return bool(names)


def overtaken(tally):
    """A claim is taken over by another node while its build is under way. What was built is published all the same, once the unit is
    claimed again. The other node, for which nobody builds, holds it, too."""
    with several("a/b.FULLPKGNAME=b-1\n", "work-0", "work-1", "work-2") as hosts:
        for host in hosts[:2]:
            host.start_node("--takeover", "1")
        # whoever has the job has begun it: else the host that has it first gives it back
        is_over = until(lambda: all([begins_all(host) for host in hosts[:2]]))
        hosts[0].hand_in("done", hosts[0].job("a/b"), b'{"a/b":[{"hex":"78","name":"x"}]}')
        is_held = until(lambda: all(held(host) == 1 for host in hosts[:2]))
        last = last_of(*hosts[:2])
        check(tally, "a claim that is taken over while it is built", is_over and is_held, is_over, is_held, last)


def left_to_another(tally, takeover=4):
    """A unit that was promised to another member, which is silent then: it isn't claimed before `--takeover` is over, and soon after."""
    listing = "a/b.FULLPKGNAME=b-1\na/c.FULLPKGNAME=c-1\na/c.BUILD_DEPENDS=a/b\n"
    with lone(listing, "--takeover", str(takeover), weights=(2, 1)) as host, taken(host.places[1][1]) as mouth:
        job = host.job("a/b")
        offer = sealed.front(b"DPB1", OFFER, 1, contents(host.log)[9:41], b"a/c") + sealed.claim(1, 1)
        began = time.monotonic()
        mouth.sendto(offer, host.places[0])
        is_promised = until(lambda: PROMISE in came([mouth])[0])
        host.hand_in("done", job, b'{"a/b":[]}')
        is_claimed = is_promised and until(lambda: "a/c" in host.jobs())
        took = time.monotonic() - began
        told = f"promised: {is_promised}, claimed: {is_claimed}, after {took:.1f} s"
        check(tally, f"a unit that is left to another member for {takeover} s", is_claimed and takeover <= took, told, last_of(host))
        check(tally, "a unit that was left to another member, and soon after", took <= takeover + 10, told, last_of(host), timed=True)


def other_runs(tally):
    """A folder that has files, next to a log without notes, is that of another run, and nothing of it changes; what is half written
    doesn't count."""
    for part in ("jobs", "done", "failed"):
        for name, wanted in (("0" * 64, 1209), (f".{'0' * 64}.1", None)):
            with tempfile.TemporaryDirectory() as folder:
                host = Lone(folder, "a/b.FULLPKGNAME=b-1\n")
                os.makedirs(f"{host.work}/{part}")
                put(f"{host.work}/{part}/{name}", b"")
                host.start_node("--rest", "1")
                until(lambda: host.node.poll() is not None or host.jobs().get("a/b"))
                told = host.node.poll(), host.lines()[-1:]
                right = told == (1, [b"dpbn: fault 1209"]) if wanted else told[0] is None
                host.end()
                left = os.path.exists(f"{host.work}/{part}/{name}")
                check(tally, f"{part}/{name[:2]}.. of another run", right and left, told, names_in(f"{host.work}/{part}"))


def beside_nodes(tally):
    """A node that builds, and two of `dpbn node` that have no builds: all three hold what the first one built."""
    paths = ["a/b", "a/c", "a/d"]
    with tempfile.TemporaryDirectory(dir=nodes.MEMORY) as folder:
        host = Lone(folder, "".join(f"{path}.FULLPKGNAME=n-1\n" for path in paths), (1, 1, 1))
        put(f"{folder}/builds", b"{}\n")
        words = [*host.peers, "--turns", "60000", "--patience", "5", "--progress", "50"]
        others = []
        try:
            host.start_node("--takeover", "1")
            others = [nodes.started(folder, me, words) for me in (1, 2)]
            for path in paths:
                host.hand_in("done", host.job(path), json.dumps({path: []}).encode())
            check(tally, "a node among others that have no builds", host.shows(I=3), last_of(host))
            held = [nodes.node_line(me, i=3) in iter(it.stderr.readline, b"") for me, it in enumerate(others, 1)]
            check(tally, "the others, what they hold", all(held), held)
        finally:
            for it in others:
                nodes.ended(it)
            host.end()


# ---- hosts that stay busy

# a build that takes some seconds, notes when it began and ended, and fails at the hosts and for the units that are named
BUILD = r"""
stamp() { echo "$1 $HOST $PKGPATH $(date +%s.%N)" >> "$TOP/stamps"; }
stamp begun
sleep "$TAKES"
case " $FAILS " in *" $HOST "* | *" $PKGPATH "*) stamp failed; exit 1; esac
for path in $PACKAGES; do mkdir "$OUT/$(echo "$path" | tr / :)" || exit 1; done
stamp ended
"""


def start_building(host, folder, takes=0.0, jobs=1, fails=""):
    """Starts a driver whose builds take so long, and fail at these hosts, or for these units."""
    words = [f"{TOP}/tools/build-jobs", "-j", str(jobs), host.work, host.log, "--", "sh", "-c", BUILD]
    environment = {**os.environ, "TOP": folder, "TAKES": str(takes), "FAILS": fails}
    host.unlock()
    with open(host.out("driver"), "ab") as out:
        host.driver = subprocess.Popen(words, stdin=subprocess.DEVNULL, stdout=out, stderr=out, env=environment)


def stamps(folder):
    """What the builds noted: of each line what happened, at which host, to which unit, and when."""
    lines = contents(f"{folder}/stamps").decode().split("\n")[:-1] if os.path.exists(f"{folder}/stamps") else []
    return [(what, int(host), unit, float(when)) for what, host, unit, when in map(str.split, lines)]


def begun_in(folder):
    return [it for it in stamps(folder) if it[0] == "begun"]


def plain(count, chain=False):
    """A listing of so many paths; in a chain each is built on the one before."""
    lines = [f"a/p{number:02}.FULLPKGNAME=p{number:02}-1" for number in range(count)]
    lines += [f"a/p{number:02}.BUILD_DEPENDS=a/p{number - 1:02}" for number in range(1, count) if chain]
    return "\n".join(sorted(lines)) + "\n"


def own_units(tally, units=36):
    """Three hosts that claim their own units at the same time: no claim waits for another host's, and nothing is built twice."""
    with several(plain(units), "work-0", "work-1", "work-2") as hosts:
        began = time.monotonic()
        for host in hosts:
            host.start_node("--jobs", "4")
            start_building(host, hosts[0].folder, takes=0.2, jobs=4)
        is_held = until(lambda: all(held(host) == units for host in hosts))
        took, count = time.monotonic() - began, len(begun_in(hosts[0].folder))
        say(f"tests/run: {units} units of 0.2 s on three hosts of four jobs: {took:.1f} s, {count} builds begun")
        check(tally, "units of each host's own", is_held, count, last_of(*hosts))
        # a host that is late by more than the slot of another may claim what that has claimed
        check(tally, "units of each host's own, each begun once", count == units, count, last_of(*hosts), timed=True)
        # one claim each 250 ms in the whole cluster took 9 s
        check(tally, "units of each host's own, how soon all hold them", took < units * 0.25, took, timed=True)


def left_by_one(tally, units=12):
    """Three hosts of which one is never started: the others take its units without a wait for `--takeover`, several at a time."""
    with several(plain(units), "work-0", "work-1", "work-2") as hosts:
        for host in hosts[:2]:
            host.start_node("--jobs", "4")
            start_building(host, hosts[0].folder, takes=0.1, jobs=4)
        is_held = until(lambda: all(held(host) == units for host in hosts[:2]))
        count = len(begun_in(hosts[0].folder))
        check(tally, "units of a host that is down", is_held, count, last_of(*hosts[:2]))
        check(tally, "units of a host that is down, each begun once", count == units, count, last_of(*hosts[:2]), timed=True)


def alone(tally, units=20):
    """A lone node: it reacts at once, and while it waits for a build it leaves the processor to others."""
    with lone(plain(units)) as host:
        began = time.monotonic()
        start_building(host, host.folder)
        is_held = until(lambda: held(host) == units)
        took = time.monotonic() - began
        say(f"tests/run: a lone node, {units} units that take no time: {took:.1f} s")
        check(tally, "a lone node, that it holds all", is_held, last_of(host))
        # a second and more for each unit before
        check(tally, "a lone node, how soon it holds all", took < units, took, last_of(host), timed=True)
    with lone(plain(2)) as host:
        host.job("a/p00")
        share = processor.least_share(host.node.pid, 0.15)
        check(tally, "a lone node that waits, its share of a processor", share < 0.15, share, timed=True)


def latency(tally, units=12):
    """A chain of units whose owners are three hosts in turn: from the end of a build to the begin of the one that waits for it."""
    with several(plain(units, chain=True), "work-0", "work-1", "work-2") as hosts:
        for host in hosts:
            host.start_node()
            start_building(host, hosts[0].folder, takes=0.1)
        is_held = until(lambda: all(held(host) == units for host in hosts))
        seen = stamps(hosts[0].folder)
        ended, begun = ({unit: (host, when) for what, host, unit, when in seen if what == wanted} for wanted in ("ended", "begun"))
        names = sorted(begun)
        gaps = [begun[after][1] - ended[before][1] for before, after in zip(names, names[1:])
                if before in ended and begun[after][0] != ended[before][0]]
        median = sorted(gaps)[len(gaps) // 2] if gaps else 99
        say(f"tests/run: from a build's end to the next one's begin on another host: {median * 1000:.0f} ms in the median of {len(gaps)}")
        check(tally, "from host to host, what is held", is_held, last_of(*hosts))
        check(tally, "from host to host", median < 0.25, gaps, timed=True)


def failed_elsewhere(tally):
    """A unit whose build failed at one host is built by another at once; one that fails everywhere holds nobody up."""
    with several(plain(6), "work-0", "work-1", "work-2") as hosts:
        for host in hosts:
            host.start_node()
            start_building(host, hosts[0].folder, fails="1")
        is_held = until(lambda: all(held(host) == 6 for host in hosts))
        marks = [len(names_in(f"{host.work}/failed")) for host in hosts]
        once = len({(host, unit) for _, host, unit, _ in begun_in(hosts[0].folder)}) == len(begun_in(hosts[0].folder))
        check(tally, "what failed at one host", is_held and once, is_held, marks, last_of(*hosts))


def fails_at_six(words, units=12, rest=20):
    """Six hosts and a port that fails at each of them, until all nodes are at rest. Returns at which hosts it failed, how long after that
    the nodes were at rest, their statuses, and how much they hold."""
    with several(plain(units), *(f"work-{me}" for me in range(6))) as hosts:
        for host in hosts:
            host.start_node("--rest", str(rest), *words)
            start_building(host, hosts[0].folder, fails="a/p00")
        until(lambda: all(host.node.poll() is not None for host in hosts))
        ended = time.time()
        failed = [(host, when) for what, host, _, when in stamps(hosts[0].folder) if what == "failed"]
        took = ended - max((when for _, when in failed), default=0)
        return [host for host, _ in failed], took, [host.node.poll() for host in hosts], [held(host) for host in hosts]


def failed_everywhere(tally, rest=20):
    """What fails at two of six hosts isn't tried by the others. All else is built, and all nodes come to rest soon after that."""
    failed, took, statuses, most = fails_at_six((), rest=rest)
    say(f"tests/run: a port that fails at six hosts, and is tried at {len(failed)}: at rest {took:.1f} s after that, with --rest {rest}")
    check(tally, "what fails everywhere", (statuses, most) == ([3] * 6, [11] * 6), statuses, most, failed)
    check(tally, "what fails everywhere, at how many hosts", len(failed) == len(set(failed)) == 2, failed, timed=True)
    check(tally, "what fails everywhere, how soon all are at rest", took < rest + 8, took, timed=True)


def failed_at_four(tally):
    """With `--tries 4` it is tried at four of them, and with `--tries 9` at each."""
    for tries, count in ((4, 4), (9, 6)):
        failed, _, statuses, most = fails_at_six(("--tries", str(tries)))
        check(tally, f"what fails everywhere, --tries {tries}", (statuses, most) == ([3] * 6, [11] * 6), statuses, most, failed)
        right = len(failed) == len(set(failed)) == count
        check(tally, f"what fails everywhere, --tries {tries}, at how many hosts", right, failed, timed=True)


def tried_again(tally):
    """A unit that failed at as many hosts as may try it is built once its mark is removed at one of them."""
    with several(plain(2), "work-0", "work-1", "work-2") as hosts:
        for host in hosts:
            host.start_node("--tries", "1")
        until(lambda: any("a/p00" in host.jobs() for host in hosts))
        first = next((host for host in hosts if "a/p00" in host.jobs()), hosts[0])
        name = first.job("a/p00")
        first.hand_in("failed", name, b"on purpose")
        failed = until(lambda: b"dpbn: failed a/p00" in first.lines())
        others = [host for host in hosts if host is not first]
        answers_all(hosts, ("a/p00",), set())
        time.sleep(3)
        left = not any("a/p00" in host.jobs() for host in others)
        check(tally, "a unit that failed where it may be tried", failed, last_of(*hosts))
        check(tally, "the same, who else tries it", left, [sorted(host.jobs()) for host in hosts], timed=True)
        os.unlink(f"{first.work}/failed/{name}")
        answered = set()
        is_held = until(lambda: answers_all(hosts, (), answered) or all(held(host) == 2 for host in hosts))
        check(tally, "the same, once its mark is removed", is_held, [held(host) for host in hosts], last_of(*hosts))


def unwritten_mark(tally):
    """A mark that can't be written: the build counts as failed all the same. The node prints that once, goes on, and comes to rest."""
    with lone(TWO, "--rest", "4") as host:
        name = host.job("a/b")
        # the name under which the node writes the mark, before it renames it
        os.mkdir(f"{host.work}/failed/.{name}.0")
        host.hand_in("done", name, b"none")
        second = until(lambda: "a/c" in host.jobs(), 60)
        if second:
            host.hand_in("done", host.job("a/c"), b'{"a/c":[]}')
        until(lambda: host.node.poll() is not None, 60)
        lines, status = host.lines(), host.node.poll()
        counts = [lines.count(line) for line in (b"dpbn: failed a/b", b"dpbn: fault 2")]
        check(tally, "a mark that can't be written", (counts, status, held(host)) == ([1, 1], 3, 1), counts, status, last_of(host))


def offered_claim(ear, path):
    """Waits for an offer of a claim for this path, and returns the claim's bytes, or none."""
    found = []

    def is_offered():
        with contextlib.suppress(BlockingIOError):
            while True:
                text = ear.recv(65_536)
                if text[4] == OFFER and path in text:
                    found.append(text[text.index(path) + len(path):][:9])
        return found

    ear.setblocking(False)
    until(is_offered, 60)
    return found[-1] if found else b""


def answered_slowly(tally, rest=15, pause=9):
    """A node with a claim for which another member promises or votes now and then isn't at rest meanwhile."""
    name = "a claim that is answered slowly"
    with lone("a/b.FULLPKGNAME=b-1\n", "--rest", str(rest), weights=(1,) * 5) as host, contextlib.ExitStack() as stack:
        ears = [stack.enter_context(taken(port, address)) for address, port in host.places[1:]]
        claim, tree = offered_claim(ears[0], b"a/b"), contents(host.log)[9:41]
        for kind, rest_of_it in ((PROMISE, b"\0"), (VOTE, b"")):
            for member in (1, 2):
                time.sleep(pause)
                ears[member - 1].sendto(sealed.front(b"DPB1", kind, member, tree, b"a/b") + claim + rest_of_it, host.places[0])
            if kind == PROMISE:
                posted = until(lambda: "a/b" in host.jobs() or host.node.poll() is not None) and "a/b" in host.jobs()
                check(tally, f"{name}, by promises", posted, host.node.poll(), last_of(host))
                came(ears)
                host.hand_in("done", host.jobs().get("a/b", "none"), b'{"a/b":[]}')
                until(lambda: PROPOSAL in came(ears)[0] or host.node.poll() is not None)
        until(lambda: host.node.poll() is not None)
        check(tally, f"{name}, by votes", (host.node.poll(), held(host)) == (0, 1), host.node.poll(), last_of(host))


def own_first(tally):
    """A node that is run again claims both units that it had claimed, although one of them was another member's at first, before one that
    can be built since."""
    listing = plain(6) + "a/p03.BUILD_DEPENDS=a/p02\na/p04.BUILD_DEPENDS=a/p03\n"
    with several("".join(sorted(listing.splitlines(True))), "work-0", "work-1", "work-2") as hosts:
        first, second, third = hosts
        # the third only votes, so its unit, the second one, is left to the first host
        os.makedirs(third.work)
        put(f"{third.work}/stop", b"")
        first.start_node("--jobs", "2")
        for host in (second, third):
            host.start_node()
        own = {"a/p00", "a/p01"}
        are_posted = until(lambda: set(first.jobs()) == own and "a/p02" in second.jobs())
        first.kill("node")
        second.hand_in("done", second.job("a/p02"), b'{"a/p02":[]}')
        is_next = until(lambda: "a/p05" in second.jobs())
        first.start_node("--jobs", "2")
        until(lambda: held(first) == 1)
        time.sleep(3)
        check(tally, "a node that is run again, what it leaves for later", are_posted and is_next and set(first.jobs()) == own,
              are_posted, is_next, [sorted(host.jobs()) for host in hosts])
        answered = set()
        is_held = until(lambda: answers_all(hosts, (), answered) or all(held(host) == 6 for host in hosts))
        check(tally, "a node that is run again, what all hold", is_held, [held(host) for host in hosts], last_of(*hosts))


def restarted_last(tally):
    """A node is killed while it has the job of its own unit, and started again when the others hold all else: it takes its answer, without a
    wait for `--takeover`, which is longer than anything is waited for here."""
    with several("".join(f"a/{it}.FULLPKGNAME={it}-1\n" for it in "abc"), "work-0", "work-1", "work-2") as hosts:
        for host in hosts:
            host.start_node()
        are_posted = until(lambda: all(len(host.jobs()) == 1 for host in hosts))
        second, others = hosts[1], (hosts[0], hosts[2])
        second.kill("node")
        for host in hosts:
            for unit, job in host.jobs().items():
                host.hand_in("done", job, json.dumps({unit: []}).encode())
        are_held = until(lambda: all(held(host) == 2 for host in others))
        second.start_node("--continue")
        is_held = until(lambda: all(held(host) == 3 for host in hosts))
        told = are_posted, are_held, is_held, [held(host) for host in hosts]
        check(tally, "a node that lacks no more than its own unit", are_posted and are_held and is_held, told, [host.lines()[-3:] for host in hosts])


def one_with_two(hosts):
    """Waits until four units are posted at three hosts. Returns one that has two of them, the others, and its two units."""
    until(lambda: sum(len(host.jobs()) for host in hosts) == 4)
    first = max(hosts, key=lambda host: len(host.jobs()))
    return first, [host for host in hosts if host is not first], (sorted(first.jobs()) + ["none", "none"])[:2]


def answers_all(hosts, late, answered):
    """Hands in an empty build for each job that is posted, but those of the late units, and none twice."""
    for host in hosts:
        for unit, job in host.jobs().items():
            if unit not in late and job not in answered:
                answered.add(job)
                host.hand_in("done", job, json.dumps({unit: []}).encode())


def away(tally):
    """A host that can't build now, or is drained: it gives back what hasn't begun, keeps what has, and claims nothing more."""
    late = ("a/p04", "a/p05", "a/p06")
    listing = plain(7) + "".join(f"{path}.BUILD_DEPENDS=a/p00 a/p01 a/p02 a/p03\n" for path in late)
    for name in ("away", "stop"):
        with several("".join(sorted(listing.splitlines(True))), "work-0", "work-1", "work-2") as hosts:
            for host in hosts:
                host.start_node("--jobs", "2")
            first, others, (kept, given) = one_with_two(hosts)
            first.begin(first.jobs().get(kept, "none"))
            put(f"{first.work}/{name}", b"")
            is_given = until(lambda: given not in first.jobs() and any(given in host.jobs() for host in others))
            seen = [sorted(host.jobs()) for host in hosts]
            right = is_given and kept in first.jobs()
            check(tally, f"a host with work/{name}, what it gives back", right, seen, last_of(*hosts))
            # one of the late ones would be its own
            answered = set()
            are_taken = until(lambda: answers_all(hosts, late, answered) or set(late) <= {unit for host in others for unit in host.jobs()})
            right = are_taken and not set(first.jobs()) & set(late)
            seen = [sorted(host.jobs()) for host in hosts]
            check(tally, f"a host with work/{name}, what it claims", right, seen, last_of(*hosts))


def unattended(tally):
    """A host whose driver is gone: after a minute its node prints that, and gives back each job that hasn't begun or whose build ended."""
    with several(plain(4), "work-0", "work-1", "work-2") as hosts:
        for host in hosts:
            host.start_node("--jobs", "2")
        first, others, (kept, given) = one_with_two(hosts)
        first.begin(first.jobs().get(kept, "none"))
        with open(f"{first.work}/begun/{first.jobs().get(kept, 'none')}", "rb") as runs:
            fcntl.flock(runs, fcntl.LOCK_EX)
            first.unlock()
            began = time.monotonic()
            is_given = until(lambda: given not in first.jobs() and any(given in host.jobs() for host in others))
            took = time.monotonic() - began

            def told():
                return [line for line in first.lines() if b"work folder's lock" in line]

            until(told)
            time.sleep(1)
            line = b"dpbn: nobody has held the work folder's lock for 60 s: nothing is claimed"
            right = is_given and kept in first.jobs() and told() == [line]
            check(tally, "a host without a driver, what it gives back", right, is_given, sorted(first.jobs()), told(), last_of(*hosts))
            # its node counts from its last look before that, of which there are five a second
            check(tally, "a host without a driver, when it gives that back", took > 55, took, timed=True)
        is_given = until(lambda: kept not in first.jobs() and any(kept in host.jobs() for host in others))
        check(tally, "a host without a driver, whose build ended", is_given, [sorted(host.jobs()) for host in hosts])


def touched_lock(tally):
    """A driver whose lock the node can't see touches its file: the node goes on."""
    with lone(plain(2)) as host:
        name = host.job("a/p00")
        host.unlock()
        for _ in range(8):
            time.sleep(9)
            os.utime(f"{host.work}/lock")
        host.hand_in("done", name, b'{"a/p00":[]}')
        is_claimed = until(lambda: "a/p01" in host.jobs())
        told = [line for line in host.lines() if b"work folder's lock" in line]
        check(tally, "a lock that is touched", is_claimed and not told, is_claimed, told)


def own_again(tally):
    """A node that is run again first claims what it had claimed, and so publishes what was built for it. Lower units, which nobody claimed,
    come later."""
    with several(plain(9), "work-0", "work-1", "work-2") as hosts:
        first, answered = hosts[0], set()
        for host in hosts:
            host.start_node()
        for number in range(3):
            waiting = {}

            def has_more():
                waiting.update((unit, name) for unit, name in first.jobs().items() if unit not in answered)
                return bool(waiting)

            if not until(has_more):
                check(tally, "a node that is run again, its jobs before", False, number, answered, last_of(*hosts))
                return
            unit, name = min(waiting.items())
            answered.add(unit)
            if number == 2:
                first.kill("node")
            first.hand_in("done", name, json.dumps({unit: []}).encode())
        first.start_node()
        is_held = until(lambda: all(held(host) == 3 for host in hosts))
        check(tally, "a node that is run again, what it claims first", is_held, answered, [sorted(host.jobs()) for host in hosts],
              last_of(*hosts))


def late_claims(tally):
    """A node that starts when another host builds a unit leaves that to it, though it never heard of the claim."""
    with several("a/b.FULLPKGNAME=b-1\na/c.FULLPKGNAME=c-1\na/c.BUILD_DEPENDS=a/b\n", "work-0", "work-1", "work-2") as hosts:
        for host in hosts[:2]:
            host.start_node()
        for unit in ("a/b", "a/c"):
            posted = until(lambda: any(unit in host.jobs() for host in hosts[:2]))
            builder = next((host for host in hosts[:2] if unit in host.jobs()), hosts[0])
            if unit == "a/b":
                name = builder.job("a/b")
                builder.hand_in("done", name, b'{"a/b":[]}')
                until(lambda: all(held(host) == 1 for host in hosts[:2]))
                # as a driver does once the unit is held
                os.unlink(f"{builder.work}/jobs/{name}")
        hosts[2].start_node()
        until(lambda: held(hosts[2]) == 1)
        time.sleep(4)
        found = sorted(hosts[2].jobs())
        check(tally, "a node that starts late, what there is to leave", posted, last_of(*hosts))
        # it asks, and claims what nobody says is taken within a slot of 250 ms
        check(tally, "a node that starts late, what it leaves to others", not found, found, last_of(*hosts), timed=True)


def started_later(tally):
    """Two hosts build units of their own, and nothing is held yet, when the third one starts, which has places and nothing of its own. It
    leaves these units to them, although it never heard of their claims."""
    # the third host comes first for the second unit and the fifth one
    listing = plain(6) + "a/p01.BUILD_DEPENDS=a/p00\na/p04.BUILD_DEPENDS=a/p00\n"
    with several("".join(sorted(listing.splitlines(True))), "work-0", "work-1", "work-2") as hosts:
        early, last = hosts[:2], hosts[2]
        for host in early:
            host.start_node("--jobs", "4")
        wanted = [["a/p00", "a/p03"], ["a/p02", "a/p05"]]
        are_posted = until(lambda: [sorted(host.jobs()) for host in early] == wanted)
        last.start_node("--jobs", "4")
        is_up = until(lambda: any(map(LINE.fullmatch, last.lines())))
        # it asks for a slot's time, and claims what isn't its own after two slots more
        time.sleep(5)
        posted = [sorted(host.jobs()) for host in hosts]
        right = are_posted and is_up and posted == [*wanted, []]
        check(tally, "a node that starts before anything is held", right, are_posted, is_up, posted, last_of(*hosts))
        answered = set()
        is_held = until(lambda: answers_all(hosts, (), answered) or all(held(host) == 6 for host in hosts))
        check(tally, "a node that starts before anything is held, what all hold", is_held, [held(host) for host in hosts], last_of(*hosts))


# ---- what is sent, and memory

def came(ears):
    """The kinds of the datagrams of the protocol that wait at each of these sockets."""
    kinds = [[] for _ in ears]
    for ear, found in zip(ears, kinds):
        ear.setblocking(False)
        with contextlib.suppress(BlockingIOError):
            while True:
                text = ear.recv(65_536)
                found += [] if text.startswith(NOTICE) else [text[4]]
    return kinds


def came_within(ears, seconds):
    """The kinds of the datagrams that come at each of these sockets in this time, and not before it. And the most that may come of what is
    sent once a second, though this process or the node is late."""
    began = time.monotonic()
    came(ears)
    time.sleep(seconds)
    kinds = came(ears)
    return kinds, time.monotonic() - began + 2


def quiet(tally):
    """A node that holds all sends nothing; one that can't have a unit asks each other member for it, once a second."""
    listing = "a/b.FULLPKGNAME=b-1\na/c.FULLPKGNAME=c-1\na/c.BUILD_DEPENDS=a/b\n"
    with lone(listing, weights=(98, 1, 1)) as host, contextlib.ExitStack() as stack:
        ears = [stack.enter_context(taken(port, address)) for address, port in host.places[1:]]
        host.hand_in("done", host.job("a/b"), b'{"a/b":[]}')
        name = host.job("a/c")
        host.hand_in("failed", name, b"on purpose")
        failed = until(lambda: b"dpbn: failed a/c" in host.lines())
        came(ears)
        until(lambda: any(came(ears)))
        # now a question was asked
        kinds, most = came_within(ears, 5)
        right = failed and all(len(it) <= most and set(it) <= {ASK} for it in kinds)
        check(tally, "a node that waits, what it sends", right, kinds, last_of(host))
        check(tally, "a node that waits, how often it asks", all(len(it) >= 2 for it in kinds), kinds, last_of(host), timed=True)
        os.unlink(f"{host.work}/failed/{name}")
        host.hand_in("done", host.job("a/c"), b'{"a/c":[]}')
        held = host.shows(I=2)
        came(ears)
        time.sleep(3)
        kinds = came(ears)
        check(tally, "a node that holds all, what it sends", held and kinds == [[], []], kinds, last_of(host))


def unanswered(tally):
    """A node whose peers never answer offers its claim to each once a second, and asks as often; with --rest it ends with status 3."""
    name = "a node that nobody answers"
    with lone("a/b.FULLPKGNAME=b-1\n", "--rest", "15", weights=(1, 1, 1)) as host, contextlib.ExitStack() as stack:
        ears = [stack.enter_context(taken(port, address)) for address, port in host.places[1:]]
        claimed = until(lambda: OFFER in {kind for kinds in came(ears) for kind in kinds})
        time.sleep(0.5)
        kinds, most = came_within(ears, 4)
        right = claimed and all(it.count(OFFER) <= most and it.count(ASK) <= most and set(it) <= {OFFER, ASK} for it in kinds)
        check(tally, f"{name}, what it sends in four seconds", right, kinds, last_of(host))
        check(tally, f"{name}, how often it offers", all(it.count(OFFER) >= 2 for it in kinds), kinds, last_of(host), timed=True)
        until(lambda: host.node.poll() is not None)
        check(tally, f"{name}, how it ends", host.node.poll() == 3, host.node.poll(), last_of(host))


def voted_by_nobody(tally):
    """A node whose only peer promised, and ended before it could vote: what was built it offers once a second, and ends with status 3."""
    name = "a build that nobody votes for"
    with tempfile.TemporaryDirectory(dir=nodes.MEMORY) as folder:
        host, other = Lone(folder, "a/b.FULLPKGNAME=b-1\n", (1, 1, 1)), None
        put(f"{folder}/builds", b"{}\n")
        try:
            other = nodes.started(folder, 1, [*host.peers, "--turns", "1000000"])
            host.start_node("--rest", "20", "--takeover", "1")
            job = host.job("a/b")
            nodes.ended(other)
            with taken(host.places[1][1]) as ear:
                host.hand_in("done", job, b'{"a/b":[]}')
                until(lambda: PROPOSAL in came([ear])[0])
                time.sleep(0.5)
                (kinds,), most = came_within([ear], 2)
                check(tally, f"{name}, what it sends in two seconds", kinds.count(PROPOSAL) <= most and len(kinds) <= 2 * most, kinds)
                check(tally, f"{name}, how often it offers it", PROPOSAL in kinds, kinds, timed=True)
                until(lambda: host.node.poll() is not None)
            check(tally, f"{name}, how it ends", host.node.poll() == 3, host.node.poll(), last_of(host))
            check(tally, f"{name}, its answer", os.path.exists(f"{host.work}/done/{job}"), names_in(f"{host.work}/done"))
        finally:
            if other and other.poll() is None:
                nodes.ended(other)
            host.end()


def no_majority(tally):
    """Two nodes of five that take a unit over from each other: there is no majority, and both end with status 3 all the same."""
    name = "two nodes of five"
    with tempfile.TemporaryDirectory(dir=nodes.MEMORY) as folder:
        first = Lone(folder, "a/b.FULLPKGNAME=b-1\n", (1,) * 5)
        second = Host(first, 1)
        try:
            for host in (first, second):
                host.start_node("--rest", "3", "--takeover", "1")
            until(lambda: None not in (first.node.poll(), second.node.poll()))
            told = [(host.node.poll(), last_of(host)) for host in (first, second)]
            check(tally, f"{name}, how they end", [it for it, _ in told] == [3, 3], told)
        finally:
            second.end()
            first.end()


def memory_of(process):
    """How much memory the process has of its own, in kB: not what it maps of files, which the system takes away and brings back."""
    status = contents(f"/proc/{process.pid}/status")
    found = [re.search(rb"^%s:\s+(\d+) kB" % name, status, re.MULTILINE) for name in (b"RssAnon", b"VmSwap")]
    return sum(int(it[1]) for it in found if it)


def job_text(host, name):
    """The job's text; nothing while it isn't posted."""
    with contextlib.suppress(FileNotFoundError):
        return contents(f"{host.work}/jobs/{name}")
    return b""


def long_run(tally, first=10, rounds=30):
    """A node without patience, at which one build never ends and another one fails over and over: what it keeps doesn't grow."""
    with lone("a/b.FULLPKGNAME=b-1\na/c.FULLPKGNAME=c-1\n", "--patience", "0", "--jobs", "2") as host:
        name, seen = host.job("a/c"), []
        began, count = time.monotonic(), 0
        for number in range(first + rounds):
            job = job_text(host, name)
            host.hand_in("failed", name, b"again")
            if not until(lambda: host.lines().count(b"dpbn: failed a/c") > number, nap=0.002):
                break
            os.unlink(f"{host.work}/failed/{name}")
            # it is claimed again, and the job says so
            if not until(lambda: job_text(host, name) not in (b"", job), nap=0.002):
                break
            count += 1
            if count in (first, first + rounds):
                seen.append(memory_of(host.node))
        took = f"{count} rounds in {time.monotonic() - began:.1f} s"
        told = f"{took}, memory of {' and '.join(map(str, seen))} kB, a log of {size_of(host.log):,} bytes"
        say(f"tests/run: a long run: {told}")
        right = len(seen) == 2 and seen[1] <= seen[0] + SPARE
        check(tally, "a long run, its memory", right, told, last_of(host))


def a_day(tally):
    """A day of turns of the last of nine members, made short: one build never ends, another one failed, one waits for it, and nobody
    answers. The node has no more memory at the day's end than after its first hour."""
    listing = "".join(f"a/{it}.FULLPKGNAME={it}-1\n" for it in "bcd") + "a/d.BUILD_DEPENDS=a/c\n"
    # what is loaded may not lie in a folder in memory everywhere
    with tempfile.TemporaryDirectory() as shim, tempfile.TemporaryDirectory(dir=nodes.MEMORY) as folder:
        if not built_shim(tally, shim, "day"):
            return
        host = Lone(folder, listing, (1,) * 8 + (100,), me=8)
        host.environment = {**os.environ, "LD_PRELOAD": f"{shim}/day.so", "LOOKS": f"{folder}/looks"}
        try:
            host.start_node("--patience", "0")
            # the first that is its own
            host.hand_in("failed", host.job("a/c"), b"on purpose")
            host.job("a/b")
            day_passed(tally, host, f"{folder}/looks")
        finally:
            host.end()


def day_passed(tally, host, place):
    """Waits for a day of the node, by its looks at its socket, and compares its memory."""
    def looks():
        return int.from_bytes(contents(place), sys.byteorder)

    first, began, used = looks(), time.monotonic(), processor.seconds_of(host.node.pid)
    until(lambda: looks() >= first + HOUR, LONGEST_DAY)
    early = memory_of(host.node)
    until(lambda: looks() >= first + 24 * HOUR, began + LONGEST_DAY - time.monotonic())
    late, count, took = memory_of(host.node), looks() - first, time.monotonic() - began
    told = f"{count // LOOKS:,} turns, {count / HOUR:.1f} hours, in {took:.1f} s, {processor.seconds_of(host.node.pid) - used:.1f} s of processor"
    told += f"; memory of {early} kB after an hour, {late} kB at the end; a log of {size_of(host.log):,} bytes"
    say(f"tests/run: a day of turns: {told}")
    check(tally, "a day of turns, its memory", late <= early + SPARE, told, last_of(host))
    is_quiet = host.node.poll() is None and not any(b"fault" in line for line in host.lines())
    check(tally, "a day of turns, what it prints", is_quiet, told, last_of(host))
    check(tally, "a day of turns, how long it was", count >= LEAST_HOURS * HOUR, told, last_of(host), timed=True)


def nearly_full(tally):
    """A log that has as many bytes as it may have before it is reported, and with a note more: then it is reported, once."""
    name = "a log that is nearly full"
    with tempfile.TemporaryDirectory() as folder:
        if shutil.disk_usage(folder).free < 2 * MOST_OF_A_LOG:
            say(f"tests/run: {name}: there is no room for it here")
            return
        host = Lone(folder, "a/b.FULLPKGNAME=b-1\n")
        try:
            host.start_node("--rest", "1")
            host.hand_in("done", host.job("a/b"), b'{"a/b":[]}')
            is_built = until(lambda: host.node.poll() == 0)
            check(tally, f"{name}, its node's build", is_built, last_of(host))
            try:
                append(host.log, *votes(NEARLY_FULL - size_of(host.log)))
            except OSError as error:
                if error.errno != errno.ENOSPC:
                    raise
                say(f"tests/run: {name}: others took the room for it")
                return
            for more in ((), (behind_a_gate(packages.note(1, "a/b", (9).to_bytes(8, "big"))),)):
                append(host.log, *more)
                began, wanted = time.monotonic(), [b"dpbn: the log has %d of %d bytes" % (size_of(host.log), MOST_OF_A_LOG)] if more else []
                host.start_node("--rest", "3")
                until(lambda: host.node.poll() is not None)
                told = [line for line in host.lines() if not LINE.fullmatch(line)]
                right = host.node.poll() == 0 and told == wanted
                check(tally, f"{name}, and {len(more)} notes more", right, host.node.poll(), told, wanted)
            say(f"tests/run: {name}: read, and at rest for 3 s, in {time.monotonic() - began:.1f} s")
        finally:
            host.end()


def votes(room):
    """Votes for builds of `a/b`, in a log, that take this many bytes together."""
    size = 4_000_000
    while room > 2 * size:
        yield vote(size)
        room -= size
    yield vote(room // 2)
    yield vote(room - room // 2)


@functools.cache
def vote(size):
    """One that takes this many bytes."""
    def with_file(text):
        build = packages.build(packages.record("a/b", "b-1", [("x", text)], host=0))
        return behind_a_gate(packages.note(3, "a/b", packages.claim(1, 0) + build))

    rest = size - len(with_file(b"")) + 1
    # the record has the file's size, in as many digits as that has
    digits = next(it for it in range(1, 8) if len(str(rest - it)) == it)
    return with_file(b"x" * (rest - digits))


def behind_a_gate(note):
    """A note as it is in a log, after its open gate."""
    return b"\1" + len(note).to_bytes(4, "big") + note


def append(log, *notes):
    """Writes notes at the end of a log."""
    with open(log, "r+b") as file:
        file.seek(-1, os.SEEK_END)
        for note in notes:
            file.write(note)
        file.write(b"\0")


def posted_on_the_disk(tally):
    """What a node writes into its work folder is on the disk before it has its name, and then its folder is."""
    with tempfile.TemporaryDirectory() as shim, tempfile.TemporaryDirectory(dir=nodes.MEMORY) as folder:
        if not built_shim(tally, shim, "calls"):
            return
        host = Lone(folder, "a/b.FULLPKGNAME=b-1\n")
        host.environment = {**os.environ, "LD_PRELOAD": f"{shim}/calls.so", "CALLS": f"{folder}/calls", "RENAMES": "1"}
        try:
            host.start_node()
            # the job, and then the mark of an answer that makes no build
            name = host.job("a/b")
            host.hand_in("done", name, b"{")
            is_marked = host.is_failed("a/b", name)
        finally:
            host.end()
        calls = contents(f"{folder}/calls").decode().split("\n")[:-1]
        around = [calls[number - 1:number + 2] for number, call in enumerate(calls) if call == "rename"]
        # the run file's, the job's and the mark's
        right = is_marked and len(around) >= 3 and all(it == ["sync", "rename", "sync folder"] for it in around)
        check(tally, "what a node posts, the system's calls", right, around, calls[-8:])


# ---- large packages

def held(host):
    """How many packages the node printed last that it holds."""
    told = [it for it in map(LINE.fullmatch, host.lines()) if it]
    return sum(map(int, told[-1].groups()[1:3])) if told else 0


def start_storing(host, script):
    """Starts a driver that keeps large files in its store, and gets what it lacks from those of the others."""
    get = f'cp "{host.run.folder}/work-$HOST/store/$SHA256" "$TARGET"'
    words = [f"{TOP}/tools/build-jobs", "--digests", "1000000", "--fetch", get, host.work, host.log, "--", "sh", "-c", script]
    host.unlock()
    with open(host.out("driver"), "ab") as out:
        host.driver = subprocess.Popen(words, stdin=subprocess.DEVNULL, stdout=out, stderr=out)


def large(tally):
    """Packages of hundreds of megabytes, each built at another host on those before: their large files go by digest, are fetched from
    where they were built, and are whole in the end."""
    name, units = "large packages", ("x", "y", "z")
    listing = "".join(f"a/{it}.FULLPKGNAME={it}-1\n" for it in units) + "a/y.BUILD_DEPENDS=a/x\na/z.BUILD_DEPENDS=a/x a/y\n"
    script = f'd="$OUT/$(echo $PKGPATH | tr / :)" && mkdir "$d" && yes $PKGPATH | head -c {LARGE} > "$d/big" && '
    script += 'for it in "$DEPS"/*/big; do if [ -e "$it" ]; then sha256sum < "$it"; fi; done > "$d/saw"'
    with tempfile.TemporaryDirectory() as folder:
        first = Lone(folder, listing, (1, 1, 1))
        hosts = [first, Host(first, 1), Host(first, 2)]
        try:
            began = time.monotonic()
            for host in hosts:
                host.start_node("--takeover", "1")
            for count, host in enumerate(hosts, 1):
                start_storing(host, script)
                is_built = until(lambda: all(held(it) == count for it in hosts), 3 * LIMIT)
                check(tally, f"{name}, built at host {host.me}", is_built, last_of(*hosts))
                host.driver.terminate()
                host.driver.wait(LIMIT)
            say(f"tests/run: {name}: three of {LARGE:,} bytes, one on the other, in {time.monotonic() - began:.1f} s")
        finally:
            for host in hosts:
                host.end()
        large_ones(tally, name, folder, hosts, units)


def large_ones(tally, name, folder, hosts, units):
    """What each log holds of the large packages, and what a store with all of their files makes of it."""
    digests = [hashlib.sha256((f"a/{it}\n" * (LARGE // 4)).encode()).hexdigest() for it in units]
    lists = []
    for host in hosts:
        said = packages.tool("unpack-log", host.log, f"{folder}/small-{host.me}")
        lists.append((said, contents(f"{folder}/small-{host.me}/list")))
    check(tally, f"{name}, the same everywhere", all(it == ((b"", b"", 0), lists[0][1]) for it in lists), lists)
    os.mkdir(f"{folder}/store")
    for host in hosts:
        for it in names_in(f"{host.work}/store"):
            if not it.startswith(".") and not os.path.exists(f"{folder}/store/{it}"):
                os.link(f"{host.work}/store/{it}", f"{folder}/store/{it}")
    check(tally, f"{name}, what was stored", names_in(f"{folder}/store") == sorted(digests), names_in(f"{folder}/store"), digests)
    said = packages.tool("unpack-log", "--store", f"{folder}/store", hosts[0].log, f"{folder}/large")
    saw = [contents(f"{folder}/large/a:{it}/saw").decode().split()[::2] for it in units]
    sizes = [size_of(f"{folder}/large/a:{it}/big") for it in units]
    right = said == (b"", b"", 0) and saw == [digests[:number] for number in range(3)] and sizes == [LARGE] * 3
    check(tally, f"{name}, what they saw", right, said, saw, sizes)
    audit = subprocess.run([PROGRAM, "audit", f"{folder}/listing", f"{folder}/large/list"], capture_output=True, timeout=LIMIT)
    check(tally, f"{name}, the list", audit.stdout == b"yes\n", audit.stdout, audit.stderr)


# ---- disks that are lost, hosts that can't build

COPIES = 3
# a package of some size, with what it was built on
STORED = ('d="$OUT/$(echo $PKGPATH | tr / :)"; mkdir "$d" && { echo $PKGPATH; cat "$DEPS"/*/big 2>/dev/null | cksum; head -c 3000 /dev/zero; } > "$d/big"')


def start_copying(host):
    """Starts a driver that hands in what three stores have."""
    folder = host.run.folder
    push = f'cp "$SOURCE" "{folder}/work-$HOST/store/.$SHA256.$$" && mv "{folder}/work-$HOST/store/.$SHA256.$$" "{folder}/work-$HOST/store/$SHA256"'
    get = f'cp "{folder}/work-$HOST/store/$SHA256" "$TARGET"'
    words = [f"{TOP}/tools/build-jobs", "--digests", "0", "--copies", str(COPIES), "--push", push, "--fetch", get, host.work, host.log]
    host.unlock()
    with open(host.out("driver"), "ab") as out:
        host.driver = subprocess.Popen([*words, "--", "sh", "-c", STORED], stdin=subprocess.DEVNULL, stdout=out, stderr=out)


def lost_disks(tally):
    """The first two hosts of five that hand something in are killed right after it, with their stores: the others come to rest."""
    name, count = "hosts whose disks are lost", 6
    listing = "".join(f"a/u{it}.FULLPKGNAME=u{it}-1\n" for it in range(count))
    listing += "".join(f"a/u{it}.BUILD_DEPENDS=a/u{it - 1}\n" for it in range(1, count))
    with tempfile.TemporaryDirectory() as folder:
        first = Lone(folder, listing, (1,) * 5)
        hosts = [first, *(Host(first, me) for me in range(1, 5))]
        dead = []
        try:
            for host in hosts:
                os.makedirs(f"{host.work}/store")
                host.start_node("--takeover", "2", "--rest", "30")
                start_copying(host)
            while len(dead) < 2 and until(lambda: has_handed_in(hosts, dead)):
                host = has_handed_in(hosts, dead)
                host.kill("node", "driver")
                # the others may bring something there at the same time
                os.rename(f"{host.work}/store", f"{host.work}/lost")
                shutil.rmtree(f"{host.work}/lost", ignore_errors=True)
                dead.append(host)
            others = [host for host in hosts if host not in dead]
            until(lambda: all(host.node.poll() is not None for host in others))
            told = [host.node.poll() for host in others], [held(host) for host in others]
            right = len(dead) == 2 and told == ([0] * 3, [count] * 3)
            check(tally, name, right, len(dead), told, last_of(*others))
        finally:
            for host in hosts:
                host.end()


def has_handed_in(hosts, dead):
    """A host that handed something in, and isn't dead."""
    return next((host for host in hosts if host not in dead and b" < " in contents(host.out("driver"))), None)


def a_host_that_cannot_build(tally):
    """The command of one host of three ends with 75: nothing is marked, the others build all, and the host shows that it is away."""
    name, count = "a host that can't build", 12
    listing = "".join(f"a/u{it:02}.FULLPKGNAME=u{it}-1\n" for it in range(count))
    with tempfile.TemporaryDirectory(dir=nodes.MEMORY) as folder:
        first = Lone(folder, listing, (1, 1, 1))
        hosts = [first, Host(first, 1), Host(first, 2)]
        try:
            for host in hosts:
                host.start_node("--takeover", "3", "--jobs", "4")
                script = "exit 75" if host.me == 2 else 'mkdir "$OUT/$(echo $PKGPATH | tr / :)"; sleep 0.2'
                words = [f"{TOP}/tools/build-jobs", "-j", "4", "--ready", "false", host.work, host.log, "--", "sh", "-c", script]
                host.unlock()
                with open(host.out("driver"), "ab") as out:
                    host.driver = subprocess.Popen(words, stdin=subprocess.DEVNULL, stdout=out, stderr=out)
            all_held = until(lambda: all(held(host) == count for host in hosts))
            marks = [names_in(f"{host.work}/failed") for host in hosts]
            built = [contents(host.out("driver")).count(b" < ") for host in hosts]
            check(tally, name, all_held and marks == [[], [], []] and built[2] == 0, marks, built, last_of(*hosts))
            # unless it claimed less than three units
            is_away = contents(hosts[2].out("driver")).count(b" is given back: status 75") < 3 or until(lambda: os.path.exists(f"{hosts[2].work}/away"))
            check(tally, f"{name}, that it is away", is_away, contents(hosts[2].out("driver")))
        finally:
            for host in hosts:
                host.end()


# ---- words, and what is refused before the first turn

def wrong_words():
    """Wrong arguments of `dpbn build`."""
    needed = {"--listing": "listing", "--work": "work", "--dir": "logs", "--members": "3", "--me": "0"}
    for lacking in needed:
        yield [*(it for pair in needed.items() if pair[0] != lacking for it in pair), "--base", "7000"]
    build = [it for pair in needed.items() for it in pair]
    here, there = [*build, "--base", "7000"], [*build, "--hosts", "1.2.3.4:5"]
    yield from ([], ["--help"], build, there, [*here, "--hosts", "1.2.3.4:5"], [*here, "more"], [*here, "--work", "work"])
    yield from ([*here, b"\xff"], [*here, "--rest"], [*here, "--single=yes"], [*here, "--continue", "--continue"])
    yield from ([*there, "--key", "x", "--unsealed"], [*here, "--key", "x", "--unsealed"])
    for word, bad in (("--jobs", ("0", "65", "-1", "two", "")), ("--takeover", ("0", "1000001")),
                      ("--tries", ("0", "10", "two")), ("--rest", ("0", "1000001")),
                      ("--progress", ("0", "1000001")), ("--patience", ("60001",)), ("--base", ("1023", "65527"))):
        yield from ([*(build if word == "--base" else here), word, it] for it in bad)
        yield [*here, word, "2000", word, "2000"]
    yield from ([*here, "--turns", "1"], [*here, "--builds", "builds"], [*here, "--trace", "trace"])


def no_calls(tally):
    """Wrong arguments: clap's text on standard error, status 2, and nothing is made."""
    with tempfile.TemporaryDirectory() as folder:
        nodes.lay(folder)
        before = names_in(folder)
        for words in wrong_words():
            out, error, code = answer(["build", *words], folder)
            check(tally, f"dpbn build {words}", (out, code) == (b"", 2) and error, out, error, code)
        stays = names_in(folder) == before and not logs_in(folder)
        check(tally, "the folder after wrong arguments", stays, names_in(folder))


def faults(tally):
    """What `build` refuses before the first turn, in the order in which it is looked at."""
    with tempfile.TemporaryDirectory() as folder:
        nodes.lay(folder)
        nodes.bad_files(folder)
        base = free_ports(4)
        for name, mode in (("key", 0o600), ("open-key", 0o644), ("bad-key", 0o600)):
            put(f"{folder}/{name}", b"no key\n" if name == "bad-key" else b"ab" * 32 + b"\n")
            os.chmod(f"{folder}/{name}", mode)
        for name in ("lost", "used/jobs", "used/done", "used/failed"):
            os.makedirs(f"{folder}/{name}")
        put(f"{folder}/lost/node-3.run", b"dpbn run 1\n")
        put(f"{folder}/used/done/{'0' * 64}", b"")
        for name in ("shared", "shared-work", "open-done/done"):
            os.makedirs(f"{folder}/{name}")
            os.chmod(f"{folder}/{name}", 0o775)
        good = {"--listing": "listing", "--weights": "1,2,3,4", "--hosts": nodes.places(base, 4), "--key": "key", "--me": "3",
                "--dir": "logs", "--work": "used", "--members": "4"}
        with taken(base + 3):
            ordered(tally, folder, "build", good, (
                ("2", {"--listing": "none"}), ("401 at 1", {"--listing": "bad"}), ("801", {"--weights": "1,2"}),
                ("2", {"--key": "none"}), ("1208", {"--key": "open-key"}), ("1207", {"--key": "bad-key"}),
                ("1206 at 1", {"--hosts": "1.2.3.4"}), ("909", {"--me": "4"}), ("2", {"--dir": "none"}),
                ("1210", {"--dir": "shared"}), ("1007", {"--dir": "lost"}), ("1006 at 0", {"--dir": "bad-logs"}), ("1204", {})))
        for work, fault in (("listing", "2"), ("shared-work", "1210"), ("open-done", "1210")):
            ordered(tally, folder, "build", {**good, "--work": work}, ((fault, {}),))
            written = {name: text for name, text in logs_in(folder).items() if text}
            check(tally, f"what fault {fault} of {work} leaves of the log", not written, written)
        unkeyed = {word: it for word, it in good.items() if word not in ("--hosts", "--key")}
        ordered(tally, folder, "build", {**unkeyed, "--base": str(base), "--dir": "bad-logs"}, (("1004", {}),))
        words = ["build", *(it for pair in good.items() for it in pair)]
        # the second finds the empty log that the first made
        for is_laid, more, fault in ((True, [], 1209), (False, ["--continue"], 1008), (True, ["--continue"], 1008)):
            if is_laid:
                nodes.lay_logs(folder)
            tally.add(f"dpbn {' '.join([*words, *more])}", difference(answer([*words, *more], folder), refused(fault)))
            written = {name: text for name, text in logs_in(folder).items() if text}
            check(tally, f"what fault {fault} leaves of the log", not written, written)


# ---- what is shown

def manual_page(tally):
    """What dpbn(1) shows of hosts that build, next to what it shows before it."""
    nodes.shown_runs(tally, f"{TOP}/man/dpbn.1", ".Ss Hosts that build\n")


def readme(tally):
    """The README's three hosts: its very commands, in a folder with the files that they name, print what it says."""
    text = contents(f"{TOP}/README.md").decode()
    block = re.search(r"^Build this tree with three nodes.*?\n\n(.*?)\n\n", text, re.DOTALL | re.MULTILINE)[1]
    line = re.search(r"# each prints: node K: (.*)", block)[1]
    wanted = [f"node {me}: {line}" for me in range(3)] + [re.search(r"packages/list +# (\w+)$", block)[1]]
    with tempfile.TemporaryDirectory() as folder:
        for name, at in (("dpbn", NODES), ("dpbr", PROGRAM), ("examples", f"{TOP}/examples"), ("tools", f"{TOP}/tools")):
            os.symlink(at, f"{folder}/{name}")
        script = nodes.on_a_busy_machine(block).replace("--base 7000", f"--base {free_ports(3)}")
        check(tally, "README.md, its ports", "--base 7000" in block)
        done = subprocess.run(["sh", "-c", script], cwd=folder, capture_output=True, text=True, timeout=600)
        got = sorted(done.stdout.split("\n")[:-2]) + done.stdout.split("\n")[-2:-1]
        is_right = got == wanted and "Usage" in done.stderr
        check(tally, "README.md, three hosts", is_right, wanted, got, done.stderr)


# those that keep hosts busy with large files, and with trees of Makefiles
LARGE_ONES = (large, nearly_full, a_day)
TREES = (three_hosts, kills)
TREES_BESIDE = (jobs, broken, late, with_a_key)


def run_large(tally):
    """What needs a large disk or many builds; it runs next to the rest."""
    for one in LARGE_ONES:
        tally.case(one)
    if not shutil.which("bmake"):
        tally.skip("what is built of Makefiles", "there is no bmake here")
        return
    for one in TREES:
        tally.case(one)
    beside(tally, TREES_BESIDE)


def run(tally):
    for one in (no_calls, faults, posted_on_the_disk):
        tally.case(one)
    for one in (latency, own_units, left_by_one, alone, failed_elsewhere, failed_everywhere):
        tally.case(one)
    beside(tally, (answers, rests_behind_all_jobs, taken_away, killed_while_it_builds, one_folder, overtaken, left_to_another, other_runs,
                   beside_nodes, quiet, unanswered, voted_by_nobody, no_majority, long_run, manual_page, readme, lost_disks,
                   a_host_that_cannot_build, away, late_claims, own_again, unattended, touched_lock, restarted_last, failed_at_four,
                   tried_again, unwritten_mark, answered_slowly, own_first, started_later))
