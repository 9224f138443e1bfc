"""dpbn as it is built: stored runs of clusters, nodes that hear each other, stops and kills, devices that fail, noise, sockets,
patience, words and what is refused."""
import contextlib
import fcntl
import functools
import json
import os
import random
import re
import resource
import shutil
import signal
import socket
import struct
import subprocess
import tempfile
import threading
import time
from concurrent.futures import ThreadPoolExecutor

from topics import processor
from topics.explained import explains
from topics.programs import help_of, shown
from topics.tally import PROGRAM, TESTS, TOP, Answer, Lines, Tally, built_shim, contents, difference, say, seen, text_difference

NODES = f"{TOP}/crates/dpbn/out/dpbn"
# how long something is waited for, in seconds, on a machine that does other things, too
LIMIT = 600

LISTING = "a/b.FULLPKGNAME=b-1.0\n"
BUILDS = '{"a/b":[{"hex":"616263","name":"x"}]}\n'
SHARED = ["--listing", "listing", "--builds", "builds", "--dir", "logs"]
# what a lone member does with one package, turn by turn, and then nothing: the package is published with the last of these
ALONE = ["claim", "deliver", "deliver", "built", "deliver", "deliver"]


def node_line(me, i=0, q=0):
    """What a node prints."""
    return b"node %d: I=%d B=0 Q=%d T=0 !=0\n" % (me, i, q)


# where ports may begin, below those that systems give to who asks for any: there are ten from each on, and a run has nine at most
BASES = iter(random.sample(range(20_000, 32_000, 10), 1_200))
# sockets at the tenth, as long as this process runs, so that no other process of tests is given these ports
GIVEN = []
# how often something is tried with other ports, since somebody else may take the first ones before they are used
TRIES = 5
# a folder in memory, where the system has one
MEMORY = "/dev/shm" if os.path.isdir("/dev/shm") else None
ALL = node_line(0, i=1) + node_line(1, i=1) + node_line(2, i=1)


def answer(words, folder, **more):
    """Runs dpbn in the folder."""
    done = subprocess.run([NODES, *words], cwd=folder, stdin=subprocess.DEVNULL, capture_output=True, timeout=LIMIT, **more)
    return done.stdout, done.stderr, done.returncode


def lay(folder, listing=LISTING, builds=BUILDS):
    """Files of a listing and builds in the folder, and one for logs."""
    for name, text in (("listing", listing), ("builds", builds)):
        with open(f"{folder}/{name}", "w") as file:
            file.write(text)
    os.mkdir(f"{folder}/logs")


def lay_logs(folder):
    """A new folder for logs, in place of the one that is there."""
    shutil.rmtree(f"{folder}/logs")
    os.mkdir(f"{folder}/logs")


def logs_in(folder):
    """The bytes of the logs there, by name, and of the files next to them. A folder has none."""
    names = sorted(os.listdir(f"{folder}/logs"))
    return {name: contents(f"{folder}/logs/{name}") if os.path.isfile(f"{folder}/logs/{name}") else None for name in names}


def put(path, text):
    with open(path, "wb") as file:
        file.write(text)


def refused(fault):
    """The answer if a fault comes before the first turn."""
    return b"", f"dpbn: fault {fault}\n".encode(), 1


def places(base, count):
    """This many places on 127.0.0.1, as arguments have them."""
    return ",".join(f"127.0.0.1:{base + number}" for number in range(count))


def taken(port, address="127.0.0.1"):
    """A socket there, which nobody else has until it is closed."""
    it = socket.socket(socket.AF_INET, socket.SOCK_DGRAM)
    it.bind((address, port))
    return it


def free_ports(count):
    """The first of this many ports that nobody has, one after the other. No other test is given them as long as this process runs."""
    for base in BASES:
        with contextlib.suppress(OSError), contextlib.ExitStack() as stack:
            mark = taken(base + 9)
            for number in range(count):
                stack.enter_context(taken(base + number))
            GIVEN.append(mark)
            return base
    raise OSError("no ports are free")


def heard(ear, what, seconds=LIMIT):
    """The next datagram that arrives there. If none does, what was waited for is said."""
    ear.settimeout(seconds)
    try:
        return ear.recv(65_536)
    except socket.timeout:
        raise TimeoutError(f"nothing came for {seconds} s: {what}") from None


def told_by_run(folder, listing, trace, single=()):
    """The nodes' lines of `dpbr run` of the trace."""
    done = subprocess.run([PROGRAM, "run", *single, listing, trace], cwd=folder, capture_output=True, timeout=600)
    return b"".join(line + b"\n" for line in done.stdout.split(b"\n") if line.startswith(b"node "))


def case(tally, kind, name):
    """A stored run of a cluster: the nodes' lines, and the same lines by `dpbr run` of the trace that it writes."""
    stored = f"{TESTS}/{kind}/{name}"
    words = contents(f"{stored}/words").decode().split()
    wanted = contents(f"{stored}/stdout")
    # what stays on a disk isn't asked here, and each note of a log would wait for it
    with tempfile.TemporaryDirectory(dir=MEMORY) as folder:
        for file in ("LISTING", "BUILDS"):
            shutil.copy(f"{stored}/{file}", folder)
        os.mkdir(f"{folder}/DIR")
        got = Answer(answer([*words, "--trace", "TRACE"], folder))
        # the folder goes with the test
        got.by_hand = f"D=$(mktemp -d) && mkdir $D/DIR && cp tests/{kind}/{name}/* $D && cd $D && {NODES} {' '.join(words)} --trace TRACE"
        tally.add(f"{kind}/{name}", difference(got, (wanted, b"", 0)))
        lines = told_by_run(folder, "LISTING", "TRACE", ["--single"] if "--single" in words else [])
        tally.add(f"{kind}/{name}, its trace", "" if lines == wanted else f"dpbr run of it differs\n{text_difference(lines, wanted)}")


def wrong_words():
    """Wrong arguments."""
    node = ["node", *SHARED, "--members", "3", "--me", "0", "--turns", "1"]
    cluster = ["cluster", *SHARED, "--members", "3", "--turns", "1"]
    here = [*node, "--base", "7000"]
    yield from ([], ["--help"], ["-h"], ["help"], ["help", "node"], ["-V"], ["node", "--help"], ["cluster", "--help"])
    yield from (["node"], ["cluster"], ["nodes", *here[1:]], node, [*here, "--hosts", "1.2.3.4:5"], [*cluster, "more"], [*here, "more"])
    yield from ([b"\xff"], [*cluster, b"\xff"], [*here, "--weights", b"\xff"], ["cluster", "--listing", b"\xff", *cluster[3:]])
    yield from ([*cluster, "--single", "--single"], [*here, "--single", "--single"], [*cluster, "--single="], [*here, "--single="],
                [*cluster, "--single=yes"], ["--single", *cluster], [*cluster, "--singles"], [*cluster, "--", "--single"])
    yield from ([*cluster, "--members", "3"], [*here, "--members", "3"], [*cluster, "--members=3"], [*here, "--base", "7000"],
                [*here, "--me", "0"], [*here, "--hosts", "1.2.3.4:5", "--hosts", "1.2.3.4:5"], [*cluster, "--turns", "1"])
    yield from ([*cluster, "--weights"], [*cluster, "--trace"], [*cluster, "--progress"], [*cluster, "--base", "7000"],
                [*cluster, "--patience", "20"], [*cluster, "--me", "0"], [*here, "--trace", "x"])
    yield from ([*node, "--base", "1023"], [*node, "--base", "65527"], [*here, "--patience", "60001"], [*here, "--patience", "-1"],
                [*here, "--progress", "0"], [*here, "--progress", "1000001"], [*cluster, "--progress", "0"])
    for members, turns in (("10", "1"), ("0", "1"), ("3", "1000001"), ("-1", "1"), ("three", "1"), ("3", "")):
        yield ["cluster", *SHARED, "--members", members, "--turns", turns]
    yield ["node", *SHARED, "--members", "3", "--me", "256", "--turns", "1", "--base", "7000"]
    there = [*node, "--hosts", "1.2.3.4:5"]
    yield from (there, [*there, "--key", "x", "--unsealed"], [*here, "--key", "x", "--unsealed"], [*here, "--key"], [*here, "--key", "x", "--key", "x"],
                [*here, "--unsealed", "--unsealed"], [*here, "--continue", "--continue"], [*here, "--continue=yes"], [*here, "--key", b"\xff"])
    yield from ([*cluster, "--key", "x"], [*cluster, "--unsealed"], [*cluster, "--continue"], ["key"], ["key", "x", "y"], ["key", "--help"], ["keys", "x"],
                ["key", "x", "--key", "x"], ["key", b"\xff"])


def no_calls(tally):
    """Wrong arguments: clap's text on standard error, and status 2."""
    with tempfile.TemporaryDirectory() as folder:
        lay(folder)
        for words in wrong_words():
            out, error, code = answer(words, folder)
            tally.add(f"dpbn {words}", "" if (out, code) == (b"", 2) and error else f"{out!r:.200}, {error!r:.200}, status {code}")
        tally.add("the logs after wrong arguments", f"{logs_in(folder)}" if logs_in(folder) else "")


def helps(tally):
    """The help has what dpbn(1) has."""
    with tempfile.TemporaryDirectory() as folder:
        help_of(tally, "dpbn", lambda words: answer(words, folder))
        explains(tally, "dpbn", lambda words: answer(words, folder))


def ordered(tally, folder, command, good, bad, **more):
    """Words of which each in its turn is the first that is bad, and everything that is tested later is bad, too: its fault is reported."""
    for without, (fault, values) in enumerate(bad):
        words = dict(good)
        for _, later in reversed(bad[without:]):
            words.update(later)
        words = [command, *(it for pair in words.items() for it in pair)]
        tally.add(f"dpbn {' '.join(words)}", difference(answer(words, folder, **more), refused(fault)))


def faults(tally):
    """What `node` refuses before the first turn, in the order in which it is looked at."""
    with tempfile.TemporaryDirectory() as folder:
        lay(folder)
        bad_files(folder)
        base = free_ports(4)
        for name, mode in (("key", 0o600), ("open-key", 0o644), ("bad-key", 0o600)):
            put(f"{folder}/{name}", b"no key\n" if name == "bad-key" else b"ab" * 32 + b"\n")
            os.chmod(f"{folder}/{name}", mode)
        os.mkdir(f"{folder}/lost")
        put(f"{folder}/lost/node-3.run", b"dpbn run 1\n")
        os.mkdir(f"{folder}/shared")
        os.chmod(f"{folder}/shared", 0o775)
        good = {"--listing": "listing", "--builds": "builds", "--weights": "1,2,3,4", "--hosts": places(base, 4), "--key": "key", "--me": "3",
                "--dir": "logs", "--members": "4", "--turns": "0"}
        with taken(base + 3):
            ordered(tally, folder, "node", good, (
                ("2", {"--listing": "none"}), ("401 at 1", {"--listing": "bad"}), ("2", {"--builds": "none"}),
                ("1305 at 0", {"--builds": "bad"}), ("801", {"--weights": "1,2"}), ("2", {"--key": "none"}), ("1208", {"--key": "open-key"}),
                ("1207", {"--key": "bad-key"}), ("1206 at 1", {"--hosts": "1.2.3.4"}), ("909", {"--me": "4"}), ("2", {"--dir": "none"}),
                ("1210", {"--dir": "shared"}), ("1007", {"--dir": "lost"}), ("1006 at 0", {"--dir": "bad-logs"}), ("1204", {})))
        unkeyed = {word: it for word, it in good.items() if word not in ("--hosts", "--key")}
        ordered(tally, folder, "node", {**unkeyed, "--base": str(base), "--dir": "bad-logs"}, (("1004", {}),))
        short = ["node", *SHARED, "--members", "4", "--me", "3", "--turns", "0", "--base", str(base)]
        with taken(base + 3):
            tally.add("a socket that is taken", difference(answer(short, folder), refused(1204)))


def no_files_left():
    """What a process does before it is a cluster of three, so that no file is left for its sockets."""
    resource.setrlimit(resource.RLIMIT_NOFILE, (7, 7))


def cluster_faults(tally):
    """What `cluster` refuses before the first turn, in the order in which it is looked at; with no file left for a socket its sockets
    can't be made."""
    with tempfile.TemporaryDirectory() as folder:
        lay(folder)
        bad_files(folder)
        good = {"--listing": "listing", "--builds": "builds", "--weights": "1,2,3", "--dir": "bad-logs", "--members": "3", "--turns": "0"}
        ordered(tally, folder, "cluster", good, (
            ("2", {"--listing": "none"}), ("401 at 1", {"--listing": "bad"}), ("2", {"--builds": "none"}), ("1305 at 0", {"--builds": "bad"}),
            ("801", {"--weights": "1,2"}), ("2", {"--dir": "none"}), ("1204", {})), preexec_fn=no_files_left)
        words = ["cluster", *SHARED, "--members", "3", "--turns", "200"]
        tally.add("a cluster whose logs are refused later", difference(answer(words, folder), (ALL, b"", 0)))
        none, used = b"this isn't a log", logs_in(folder)
        # one log after the other, by number
        for first, second, wanted in ((none, used["node-1.log"], 1004), (used["node-1.log"], none, 1005), (used["node-0.log"], none, 1203),
                                      (b"", none, 1004), (b"", used["node-0.log"], 1005), (b"", used["node-1.log"], 1203)):
            put(f"{folder}/logs/node-0.log", first)
            put(f"{folder}/logs/node-1.log", second)
            tally.add(f"logs of {len(first)} and {len(second)} bytes", difference(answer(words, folder), refused(wanted)))


def bad_files(folder):
    """A malformed listing, malformed builds, and a folder of files that aren't logs."""
    put(f"{folder}/bad", b"bad\n")
    os.mkdir(f"{folder}/bad-logs")
    for me in range(4):
        put(f"{folder}/bad-logs/node-{me}.log", b"this isn't a log")


def bad_words(tally):
    """Weights and hosts that are refused, for what is wrong with them."""
    with tempfile.TemporaryDirectory() as folder:
        lay(folder)
        base = free_ports(4)
        good = ["node", *SHARED, "--members", "4", "--me", "3", "--turns", "0"]
        for weights in ("1,1,1", "1,1,1,1,1", "1,1,1,0", "1,1,1,101", "1,1,1,01", "1,1,1,+1", "1,1,1,", "", "1,1,1,1,1,1,1,1,1,1"):
            got = answer([*good, "--base", str(base), f"--weights={weights}"], folder)
            tally.add(f"the weights {weights!r}", difference(got, refused(801)))
        here = places(base, 4).split(",")
        for hosts, place in ((here[:3], 4), ([*here, here[0]], 5), ([here[0], here[0], *here[2:]], 2), ([*here[:3], "host:1"], 4),
                             ([*here[:3], "[::1]:1"], 4), ([here[0], "0.0.0.0:1", *here[2:]], 2), ([""], 1)):
            got = answer([*good, "--unsealed", f"--hosts={','.join(hosts)}"], folder)
            tally.add(f"the hosts {','.join(hosts)!r}", difference(got, refused(f"1206 at {place}")))


def stays(tally, folder, name, words, wanted, **more):
    """A call that is refused leaves the logs and the files next to them as they are, and makes none."""
    before = logs_in(folder)
    told = difference(answer(words, folder, **more), refused(wanted))
    after = logs_in(folder)
    changed = sorted(it for it in {*before, *after} if it not in before or it not in after or before[it] != after[it])
    tally.add(name, told or (f"{changed} changed" if changed else ""))


def logs_stay(tally, folder, words, wanted):
    """A call that refuses logs, named by its words, leaves them as they are."""
    stays(tally, folder, f"dpbn {' '.join(words)}, and its logs", words, wanted)


def build_words(base):
    """The words of member 0 of three, which builds."""
    return ["build", "--listing", "listing", "--dir", "logs", "--members", "3", "--work", "work", "--base", str(base), "--me", "0"]


def refused_logs(tally):
    """Logs that a call refuses stay as they are, and so do those next to them."""
    with tempfile.TemporaryDirectory() as folder:
        lay(folder)
        put(f"{folder}/other", b"a/c.FULLPKGNAME=c-1.0\n")
        three = [*SHARED, "--turns", "200", "--members", "3"]
        node = ["node", *three, "--base", str(free_ports(4)), "--me"]
        tally.add("a cluster", difference(answer(["cluster", *three], folder), (ALL, b"", 0)))
        logs_stay(tally, folder, ["cluster", *three], 1203)
        build = build_words(free_ports(4))
        # a cluster of four would make it
        put(f"{folder}/logs/node-3.log", b"")
        for words in (["cluster", *three], [*node, "0"], [*node, "2"], build):
            logs_stay(tally, folder, [*words, "--weights", "1,1,2"], 1005)
            logs_stay(tally, folder, ["4" if it == "3" else it for it in words], 1005)
            logs_stay(tally, folder, ["other" if it == "listing" else it for it in words], 1005)
        whole = logs_in(folder)
        for spoiled, wanted in ((b"this isn't a log", 1004), (whole["node-0.log"][:-1], 1004), (whole["node-2.log"], 1005)):
            put(f"{folder}/logs/node-0.log", spoiled)
            for words in (["cluster", *three], [*node, "0"], build):
                logs_stay(tally, folder, words, wanted)
        put(f"{folder}/logs/node-0.log", whole["node-0.log"][:43] + b"\0")
        logs_stay(tally, folder, ["cluster", *three], 1203)


def bad_work(folder):
    """Work folders that are refused: others may write in one, and in a part of another, and the third has an answer."""
    for name in ("shared", "open-done/done", "used/done"):
        os.makedirs(f"{folder}/{name}")
    os.chmod(f"{folder}/shared", 0o775)
    os.chmod(f"{folder}/open-done/done", 0o775)
    put(f"{folder}/used/done/{'0' * 64}", b"")


def refused_starts(tally):
    """What a start leaves that is refused after it looked at its log: with notes, with and without a run file; with a torn note; with a log
    that has no notes."""
    with tempfile.TemporaryDirectory() as folder:
        lay(folder)
        bad_work(folder)
        base = free_ports(3)
        node = ["node", *SHARED, "--members", "3", "--me", "0", "--turns", "0", "--base", str(base)]
        tally.add("a log without notes", difference(answer(node, folder), (node_line(0, q=1), b"", 0)))
        refused_start(tally, folder, "without notes", base)
        work = ["used" if it == "work" else it for it in build_words(base)]
        stays(tally, folder, "a work folder of another run, and the log", work, 1209)
        lay_logs(folder)
        tally.add("logs with notes", difference(answer(["cluster", *SHARED, "--members", "3", "--turns", "200"], folder), (ALL, b"", 0)))
        refused_start(tally, folder, "without a run file", base)
        stays(tally, folder, "a cluster that gets no sockets, and its logs", ["cluster", *SHARED, "--members", "3", "--turns", "0"], 1204,
              preexec_fn=no_files_left)
        unwritten_run(tally, folder, base)
        tally.add("a run file for it", difference(answer(node, folder), (node_line(0, i=1), b"", 0)))
        refused_start(tally, folder, "with notes", base)
        put(f"{folder}/logs/node-0.log", logs_in(folder)["node-0.log"] + b"\0\0\0\x0etorn")
        refused_start(tally, folder, "with a torn note", base)
        tally.add("the log after all refusals", difference(answer(node, folder), (node_line(0, i=1), b"", 0)))


@contextlib.contextmanager
def locked(folder):
    """The log of member 0, which this process has locked."""
    with open(f"{folder}/logs/node-0.log", "rb") as log:
        fcntl.flock(log, fcntl.LOCK_EX)
        yield


def refused_start(tally, folder, state, base):
    """Starts of member 0 by `node` and by `build`. Its port is taken, its address isn't here, or another process has locked its log. Others
    may write in the folder of the log. Its work folder is refused."""
    node = ["node", *SHARED, "--members", "3", "--me", "0", "--turns", "0", "--base", str(base)]
    away = ",".join(f"192.0.2.{member + 1}:{base}" for member in range(3))
    for name, words in (("node", node), ("build", build_words(base))):
        with taken(base):
            stays(tally, folder, f"{name} whose port is taken, and its log {state}", words, 1204)
        there = [*(it for it in words if it not in ("--base", str(base))), "--hosts", away, "--unsealed"]
        stays(tally, folder, f"{name} at an address that isn't here, and its log {state}", there, 1204)
        with locked(folder):
            stays(tally, folder, f"{name} whose log is locked, {state}", words, 2)
        os.chmod(f"{folder}/logs", 0o775)
        stays(tally, folder, f"{name} in a folder in which others may write, and its log {state}", words, 1210)
        os.chmod(f"{folder}/logs", 0o755)
    with locked(folder):
        stays(tally, folder, f"a cluster whose log is locked, {state}", ["cluster", *SHARED, "--members", "1", "--turns", "0"], 2)
    for work, fault in (("listing", 2), ("shared", 1210), ("open-done", 1210)):
        words = [work if it == "work" else it for it in build_words(base)]
        stays(tally, folder, f"build whose work folder is {work}, and its log {state}", words, fault)


def unwritten_run(tally, folder, base):
    """Starts of member 0 whose run file can't be written, since a folder has the name of the new file."""
    os.mkdir(f"{folder}/logs/node-0.run.new")
    node = ["node", *SHARED, "--members", "3", "--me", "0", "--turns", "0", "--base", str(base)]
    for name, words in (("node", node), ("build", build_words(base))):
        stays(tally, folder, f"{name} whose run file can't be written, and its log", words, 2)
    os.rmdir(f"{folder}/logs/node-0.run.new")


def alone(tally):
    """One member, twice on one folder; and what a cluster says of logs that have notes, and of a log of others."""
    with tempfile.TemporaryDirectory() as folder:
        lay(folder)
        words = ["node", *SHARED, "--members", "1", "--me", "0", "--base", str(free_ports(1)), "--turns", "12"]
        for _ in range(2):
            tally.add("dpbn node, by itself", difference(answer(words, folder), (b"node 0: I=1 B=0 Q=0 T=0 !=0\n", b"", 0)))
        one = ["cluster", *SHARED, "--members", "1", "--turns", "12"]
        tally.add("a cluster on its log", difference(answer(one, folder), (b"", b"dpbn: fault 1203\n", 1)))
        three = ["cluster", *SHARED, "--members", "3", "--turns", "12"]
        tally.add("next to the run file of a lone member", difference(answer(three, folder), (b"", b"dpbn: fault 1203\n", 1)))
        os.remove(f"{folder}/logs/node-0.run")
        tally.add("the log of a lone member", difference(answer(three, folder), (b"", b"dpbn: fault 1005\n", 1)))


def cluster(tally):
    """A cluster of three, and where its trace or its lines can't be written."""
    words = ["cluster", *SHARED, "--members", "3", "--turns", "200"]
    with tempfile.TemporaryDirectory() as folder:
        lay(folder)
        tally.add("a trace that can't be written", difference(answer([*words, "--trace", "none/x"], folder), (b"", b"dpbn: fault 2\n", 1)))
        lay_logs(folder)
        with open("/dev/full", "wb") as full:
            done = subprocess.run([NODES, *words], cwd=folder, stdout=full, stderr=subprocess.PIPE, timeout=600)
        tally.add("lines to a full device", "" if (done.stderr, done.returncode) == (b"dpbn: fault 2\n", 1) else f"{done.stderr!r}, {done.returncode}")


def exact_turns(tally):
    """A lone member takes exactly this many turns, one of them after the other, in a cluster and as a node."""
    for turns in range(len(ALONE) + 2):
        line = node_line(0, i=1) if turns >= len(ALONE) else node_line(0, q=1)
        with tempfile.TemporaryDirectory() as folder:
            lay(folder)
            words = [*SHARED, "--members", "1", "--turns", str(turns)]
            tally.add(f"a cluster of one, {turns} turns", difference(answer(["cluster", *words, "--trace", "trace"], folder), (line, b"", 0)))
            events = [it["event"] for it in json.loads(contents(f"{folder}/trace"))["events"]]
            tally.add(f"the events of {turns} turns", "" if events == ALONE[:turns] else f"{events}, not {ALONE[:turns]}")
            lay_logs(folder)
            got = answer(["node", *words, "--me", "0", "--base", str(free_ports(1))], folder)
            tally.add(f"a lone node, {turns} turns", difference(got, (line, b"", 0)))


def progress(tally):
    """The lines after every N turns, on standard error, and only the last ones on standard output."""
    one, three = ["--members", "1", "--turns"], ["--members", "3", "--turns"]
    node = ["node", "--me", "0", "--base", str(free_ports(1)), *one]
    queued, held = node_line(0, q=1), node_line(0, i=1)
    before = node_line(0, q=1) + node_line(1, q=1) + node_line(2, q=1)
    # what three members do with one package takes 16 turns, and in the first 8 nobody holds it
    for words, out, error in (([*node, "7", "--progress", "2"], held, queued + queued + held), ([*node, "5", "--progress", "5"], queued, queued),
                              ([*node, "5", "--progress", "6"], queued, b""), ([*node, "3", "--progress", "1"], queued, 3 * queued),
                              (["cluster", *one, "7", "--progress", "2"], held, queued + queued + held),
                              (["cluster", *three, "16", "--progress", "8"], ALL, before + ALL),
                              (["cluster", *three, "200", "--progress", "100"], ALL, ALL + ALL)):
        with tempfile.TemporaryDirectory() as folder:
            lay(folder)
            tally.add(f"dpbn {' '.join(words)}", difference(answer([*words, *SHARED], folder), (out, error, 0)))


def down_problem(folder, got, once):
    """What is wrong with what a cluster of three answered, and wrote as its trace, where devices of its logs failed, if anything."""
    out, error, status = got
    told = [int(it) for it in re.findall(rb"^dpbn: fault 1001 at (\d)$", error, re.MULTILINE)]
    wanted = b"".join(b"dpbn: fault 1001 at %d\n" % me for me in told)
    if not told or len(set(told)) < len(told) or (once and len(told) > 1) or (error, status) != (wanted, 0):
        return f"{error!r:.300} on standard error, status {status}"
    down = [int(it) for it in re.findall(rb"^node (\d): down$", out, re.MULTILINE)]
    lines = b"".join(b"node %d: down\n" % me if me in told else node_line(me, i=1) for me in range(3))
    if down != sorted(told) or (once and out != lines):
        return f"{told} failed, and it prints\n{out.decode()}"
    events = json.loads(contents(f"{folder}/trace"))["events"]
    stops = [(it["input"]["node"], it["left"]) for it in events if it["event"] == "stopin"]
    if stops != [(me, "none") for me in told]:
        return f"{told} failed, and its trace has the stops {stops}"
    run = told_by_run(folder, "listing", "trace")
    return "" if run == out else f"dpbr run of its trace prints\n{text_difference(run, out)}"


def called(shim, folder, words, fail):
    """The answer if this call of the logs' devices fails, on logs that are new, and how many such calls there were."""
    lay_logs(folder)
    put(f"{folder}/calls", b"")
    got = answer(words, folder, env={**os.environ, "LD_PRELOAD": f"{shim}/calls.so", "CALLS": f"{folder}/calls", "FAIL": fail})
    return got, contents(f"{folder}/calls").count(b"\n")


def failing_devices(tally, shim, folder):
    """Each call of the logs' devices of a cluster failing in turn, and each third with all later ones: where the logs are, those nodes
    are down and the others go on."""
    opening = 3 + 3 * 8  # each log's folder is brought to the disk, and then each log is made
    words = ["cluster", *SHARED, "--members", "3", "--turns", "80", "--trace", "trace"]
    got, count = called(shim, folder, words, "")
    tally.add("a cluster whose calls are counted", difference(got, (ALL, b"", 0)))
    for once in (True, False):
        problem, number = "", 1
        while number <= count and not problem:
            got, _ = called(shim, folder, words, f"{number}" if once else f"{number}..")
            problem = down_problem(folder, got, once) if number > opening else difference(got, refused(2 if number <= 3 else 1001))
            problem = problem and f"call {number} of {count}: {problem}"
            number += 1 if once else 3
        tally.add(f"devices of a cluster that fail {'once' if once else 'from a call on'}", problem)
    say(f"tests/run: a cluster of three: {count} calls of its logs' devices, each failed")


def failing_device(tally, shim, folder):
    """Each call of a lone node's log failing in turn, and a device that is full: it is down, and run again it goes on."""
    words = ["node", *SHARED, "--members", "1", "--me", "0", "--base", str(free_ports(1)), "--turns", "20"]
    down, held = (b"node 0: down\n", b"dpbn: fault 1001 at 0\n", 0), (node_line(0, i=1), b"", 0)
    got, count = called(shim, folder, words, "")
    tally.add("a node whose calls are counted", difference(got, held))
    # its folder is brought to the disk, the log is made in 8 calls, and then the run file and its name are brought there
    for number in range(1, count + 1):
        got, _ = called(shim, folder, words, str(number))
        wanted = down if number > 11 else refused(2 if number in (1, 10, 11) else 1001)
        tally.add(f"call {number} of {count} of a node's log", difference(got, wanted))
        tally.add(f"the node run again after call {number}", difference(answer(words, folder), held))
    for room in (44, 50, 100, 150):
        lay_logs(folder)
        if room < 112:  # the run file's length
            tally.add(f"a device with room for {room} bytes, and no run file", difference(answer(words, folder, preexec_fn=with_room(room)), refused(2)))
        tally.add("a start with room", difference(answer([*words[:-1], "0"], folder), (node_line(0, q=1), b"", 0)))
        tally.add(f"a device with room for {room} bytes", difference(answer(words, folder, preexec_fn=with_room(room)), down))
        tally.add(f"the device that had {room} bytes", difference(answer(words, folder), held))


def calls_of(shim, folder, words, fail=""):
    """The answer of a call, and the system's calls that change files or bring them to the disk, of which this one fails."""
    put(f"{folder}/calls", b"")
    shimmed = {"LD_PRELOAD": f"{shim}/calls.so", "CALLS": f"{folder}/calls", "FAIL": fail, "RENAMES": "1"}
    got = answer(words, folder, env={**os.environ, **shimmed})
    return got, contents(f"{folder}/calls").decode().split("\n")[:-1]


# the calls that bring a log's folder and what the log has to the disk; that make a log; that bring a run file and its name there
FOUND, NAMED = ["sync folder", "sync"], ["sync", "rename", "sync folder"]
MAKING = ["sync", "write 0 1", "sync", "write 1 43", "sync", "write 0 1", "sync"]


def calls_of_starts(tally, shim, folder):
    """A start brings the log's name to the disk before it writes there, and a run file before it has its name, and then the name. The
    text of the run file is whole when it is brought there."""
    words = ["node", *SHARED, "--members", "1", "--me", "0", "--base", str(free_ports(1)), "--turns"]
    log, run = (f"{folder}/logs/node-0.{it}" for it in ("log", "run"))
    queued, held = (node_line(0, q=1), b"", 0), (node_line(0, i=1), b"", 0)

    def called_in(name, calls, wanted=queued):
        got, seen_calls = calls_of(shim, folder, [*words, "0"])
        problem = difference(got, wanted)
        tally.add(f"the calls of a start {name}", problem or ("" if seen_calls == calls else f"{seen_calls}, not {calls}"))

    lay_logs(folder)
    called_in("on no log", FOUND + MAKING + NAMED)
    text = contents(run)
    called_in("on a log without notes", FOUND)
    os.remove(run)
    called_in("on a log without notes and no run file", FOUND + NAMED)
    os.remove(run)
    put(log, b"")
    called_in("on an empty log", FOUND + MAKING + NAMED)
    tally.add("a node that takes turns", difference(answer([*words, "20"], folder), held))
    called_in("on a log with notes", FOUND, held)
    os.remove(run)
    called_in("on a log with notes and no run file", FOUND + NAMED, held)
    for number, call in enumerate(NAMED[:2], len(FOUND) + 1):
        os.remove(run)
        got, seen_calls = calls_of(shim, folder, [*words, "0"], str(number))
        told = difference(got, refused(2)) or ("" if seen_calls[-1] == f"{call} failed" else f"{seen_calls}")
        whole = not os.path.exists(run) and contents(f"{run}.new") == text
        tally.add(f"a run file whose {call} fails", told or ("" if whole else f"{logs_in(folder)}"))
        tally.add(f"a start after the {call} that failed", difference(answer([*words, "0"], folder), held))


def failing(tally):
    """Devices that fail: in memory, if there is a folder for it, since what stays on them isn't asked here."""
    with tempfile.TemporaryDirectory() as shim, tempfile.TemporaryDirectory(dir=MEMORY) as folder:
        if built_shim(tally, shim, "calls"):
            lay(folder)
            failing_devices(tally, shim, folder)
            failing_device(tally, shim, folder)
            calls_of_starts(tally, shim, folder)


def with_room(room):
    """What a process does before it is dpbn, so that its log may grow to this many bytes: more is refused, as by a full device."""
    def full():
        signal.signal(signal.SIGXFSZ, signal.SIG_IGN)
        resource.setrlimit(resource.RLIMIT_FSIZE, (room, room))

    return full


def started(folder, me, words, room=None, files=SHARED):
    """A node of three, whose log may grow to this many bytes."""
    return subprocess.Popen([NODES, "node", *files, "--members", "3", "--me", str(me), *words], cwd=folder, stdout=subprocess.PIPE,
                            stderr=subprocess.PIPE, preexec_fn=with_room(room) if room is not None else None)


def ended(process):
    """Ends a process that runs, and gives what it printed on standard error."""
    process.kill()
    return process.communicate(timeout=LIMIT)[1]


def told_until(process, line):
    """Ends a process once it has printed this line on standard error, or after a while, and gives what it printed there."""
    limit = threading.Timer(LIMIT, process.kill)
    limit.start()
    told = b""
    while not told.endswith(line + b"\n"):
        more = process.stderr.readline()
        if not more:
            break
        told += more
    limit.cancel()
    process.kill()
    told += process.stderr.read()
    process.communicate(timeout=LIMIT)
    return told


def sockets_of(process):
    """The addresses and ports at which the process listens by UDP."""
    try:
        links = [os.readlink(f"/proc/{process.pid}/fd/{fd}") for fd in os.listdir(f"/proc/{process.pid}/fd")]
    except OSError:
        return []
    found = []
    for family in ("udp", "udp6"):
        for line in contents(f"/proc/net/{family}").decode().split("\n")[1:]:
            words = line.split()
            if words and f"socket:[{words[9]}]" in links:
                address, _, port = words[1].partition(":")
                known = socket.inet_ntoa(struct.pack("=I", int(address, 16))) if family == "udp" else address
                found.append((known, int(port, 16)))
    return sorted(found)


def listening(process, count=1):
    """These, once they are this many."""
    found, end = [], time.monotonic() + LIMIT
    while time.monotonic() < end:
        found = sockets_of(process)
        if len(found) == count or process.poll() is not None:
            break
        time.sleep(0.005)
    return found


def waiting_cluster(folder):
    """A cluster that runs: its lines fill the pipe, so that it waits in the middle until they are read."""
    return subprocess.Popen([NODES, "cluster", *SHARED, "--members", "3", "--turns", "3000", "--progress", "1", "--trace", "trace"], cwd=folder,
                            stdout=subprocess.PIPE, stderr=subprocess.PIPE)


def sockets(tally):
    """With --base and in a cluster nothing but 127.0.0.1 is listened at, and with --hosts the member's own address."""
    with tempfile.TemporaryDirectory() as folder:
        lay(folder)
        base = free_ports(3)
        where = ",".join(f"127.0.0.{me + 2}:{base}" for me in range(3))
        for me in range(3):
            for words, place in ((["--base", str(base)], ("127.0.0.1", base + me)), (["--hosts", where, "--unsealed"], (f"127.0.0.{me + 2}", base))):
                node = started(folder, me, [*words, "--turns", "1000000"])
                found = listening(node)
                ended(node)
                tally.add(f"the sockets of node {me} with {words[0]}", "" if found == [place] else f"{found}, not {[place]}")
        lay_logs(folder)
        run = waiting_cluster(folder)
        found = listening(run, 3)
        ended(run)
        right = len(set(found)) == 3 and all(address == "127.0.0.1" for address, _ in found)
        tally.add("the sockets of a cluster", "" if right else f"{found}, not three of 127.0.0.1")
        lay_logs(folder)
        for held in range(3):
            with taken(base, f"127.0.0.{held + 2}"):
                for me in range(3):
                    got = answer(["node", *SHARED, "--members", "3", "--me", str(me), "--hosts", where, "--unsealed", "--turns", "0"], folder)
                    wanted = refused(1204) if me == held else (node_line(me, q=1), nothing_seen(me), 0)
                    tally.add(f"node {me}, where address {held} is taken", difference(got, wanted))


def nothing_seen(me):
    """What a node of three whose peers have hosts prints at the end, if nothing came."""
    return b"".join(b"dpbn: member %d: heard 0, sealed otherwise 0, asked again 0, unsent 0\n" % it for it in range(3) if it != me) + b"dpbn: strangers: 0\n"


# turns that are enough for three nodes to hold a package, though one of them starts twenty seconds after another
ENOUGH = "1000"


def hosts(tally):
    """Three nodes on three addresses."""
    with tempfile.TemporaryDirectory() as folder:
        lay(folder)
        base = free_ports(1)
        where = ",".join(f"127.0.0.{k + 1}:{base}" for k in range(3))
        nodes = [started(folder, me, ["--hosts", where, "--unsealed", "--turns", ENOUGH]) for me in range(3)]
        got = [node.communicate(timeout=LIMIT) for node in nodes]
        tally.add("three nodes on three addresses", "" if b"".join(out for out, _ in got) == ALL else seen(got))


def refused_sends(tally):
    """What the system refuses to send is counted by member: to the address of all hosts of a network a socket may not send."""
    with tempfile.TemporaryDirectory() as folder:
        lay(folder)
        base = free_ports(1)
        words = ["--hosts", f"127.0.0.1:{base},127.255.255.255:{base}", "--unsealed", "--patience", "1", "--turns", "50"]
        out, error, status = answer(["node", *SHARED, "--members", "2", "--me", "0", *words], folder)
        found = re.fullmatch(rb"dpbn: member 1: heard 0, sealed otherwise 0, asked again 0, unsent ([1-9]\d*)\ndpbn: strangers: 0\n", error)
        tally.add("sends that the system refuses", "" if found and (out, status) == (node_line(0, q=1), 0) else f"{out!r}, {error!r}, {status}")


def stops(tally):
    """Three nodes on three addresses, of which one is stopped in the middle, and started again on its folder: in the end all hold all."""
    for number, how in ((1, signal.SIGKILL), (0, signal.SIGTERM)):
        is_stopped = any(stopped_in_the_middle(tally, number, how) for _ in range(20))
        tally.add(f"node {number} is stopped in the middle by {how.name}", "" if is_stopped else "this machine is too busy")


def stopped_in_the_middle(tally, number, how, packages=40):
    """Stops a node, and has it started again. Returns whether it was in the middle: on a busy machine it may hold all before."""
    listing = "".join(f"p/n{k}.FULLPKGNAME=n{k}-1\n" + (f"p/n{k}.LIB_DEPENDS=p/n{k - 1}\n" if k else "") for k in range(packages))
    builds = {f"p/n{k}": [{"hex": f"{k:02x}", "name": "x"}] for k in range(packages)}
    with tempfile.TemporaryDirectory() as folder:
        lay(folder, listing, json.dumps(builds))
        base = free_ports(1)
        words = ["--hosts", ",".join(f"127.0.0.{me + 1}:{base}" for me in range(3)), "--unsealed", "--patience", "5", "--turns"]
        nodes = [started(folder, me, [*words, "1000000", "--progress", "100"]) for me in range(3)]
        has_begun = grown(f"{folder}/logs/node-{number}.log", 400)
        nodes[number].send_signal(how)
        nodes[number].communicate(timeout=LIMIT)
        status, before = nodes[number].returncode, letters_at(folder, number, words)
        if before[0] == packages:
            for node in nodes:
                ended(node)
            return False
        tally.add(f"node {number} in the middle", "" if has_begun and status == -how and before[0] >= 0 else f"{before}, status {status}")
        nodes[number] = started(folder, number, [*words, "1000000", "--progress", "100"])
        held_by_all(tally, f"all is held after node {number} was stopped by {how.name}", nodes, packages)
        lines = [letters_at(folder, me, words)[1] for me in range(3)]
        wanted = [node_line(me, i=packages) for me in range(3)]
        tally.add(f"the logs after node {number} was stopped by {how.name}", "" if lines == wanted else f"{lines}")
        return True


def letters_at(folder, me, words):
    """How many packages are held at a node, and its line, from its log, which has to be there."""
    out, error, status = answer(["node", *SHARED, "--members", "3", "--me", str(me), "--continue", *words, "0"], folder)
    found = re.match(rb"node \d: I=(\d+) ", out)
    return (int(found[1]) if found and not status else -1), out or error


def grown(path, size, seconds=LIMIT):
    """Waits until the file has this many bytes, for this many seconds at most."""
    end = time.monotonic() + seconds
    while time.monotonic() < end:
        if os.path.exists(path) and os.path.getsize(path) >= size:
            return True
        time.sleep(0.001)
    return False


def overheard(folder):
    """A datagram that a node of another listing sends to the next one."""
    put(f"{folder}/other", b"a/c.FULLPKGNAME=c-1.0\n")
    told = []
    for number in range(TRIES):
        logs = f"more-{number}"
        os.mkdir(f"{folder}/{logs}")
        base = free_ports(3)
        with contextlib.suppress(TimeoutError), taken(base + 1) as ear:
            told.append(answer(["node", "--listing", "other", "--builds", "builds", "--dir", logs, "--members", "3", "--me", "0", "--base", str(base),
                                "--turns", "20", "--patience", "0"], folder))
            if told[-1][2] == 0:
                # it has ended, so what it sent is there
                return heard(ear, "what a node of another listing sends to the next one", 60)
    raise OSError(f"{TRIES} nodes of another listing sent nothing to the next one: {told}")


def that_listen(folder, members, words):
    """Nodes of three that run, and where each listens. If one of them can't take its port, others are tried."""
    for _ in range(TRIES):
        base = free_ports(3)
        run = [started(folder, me, ["--base", str(base), *words]) for me in members]
        where = [listening(node) for node in run]
        if all(where):
            return run, where
        told = [ended(node) for node in run]
        lay_logs(folder)
    raise OSError(f"{TRIES} times a node of {[*members]} didn't listen: {where}, {told}")


def noise(tally):
    """Bytes that no node sent, and a datagram of another listing, put into the sockets of nodes and of a cluster that run: each uses a
    turn up, and they go on."""
    with tempfile.TemporaryDirectory() as folder:
        lay(folder)
        strange = [b"", b"noise", bytes(1_000), random.Random(1).randbytes(65_507), overheard(folder)]
        told = len(strange) * b"dpbn: fault 1202\n"
        nodes, where = that_listen(folder, range(3), ["--turns", ENOUGH])
        for place in where:
            put_in(place, strange)
        got = [(*node.communicate(timeout=LIMIT), node.returncode) for node in nodes]
        for me in range(3):
            tally.add(f"node {me} with noise", difference(got[me], (node_line(me, i=1), told, 0)))
        lay_logs(folder)
        (lone,), (place,) = that_listen(folder, [0], ["--turns", ENOUGH])
        put_in(place, strange)
        tally.add("a node without others, with noise", difference((*lone.communicate(timeout=LIMIT), lone.returncode), (node_line(0, q=1), told, 0)))
        lay_logs(folder)
        run = waiting_cluster(folder)
        put_in(listening(run, 3), strange)
        out, error = run.communicate(timeout=LIMIT)
        error = b"".join(line + b"\n" for line in error.split(b"\n")[:-1] if not line.startswith(b"node "))
        tally.add("a cluster with noise", difference((out, error, run.returncode), (ALL, 3 * told, 0)))
        lines = told_by_run(folder, "listing", "trace")
        tally.add("the trace of a cluster with noise", "" if lines == ALL else f"dpbr run of it differs\n{text_difference(lines, ALL)}")


def put_in(where, strange):
    """Sends these to each place."""
    with socket.socket(socket.AF_INET, socket.SOCK_DGRAM) as mouth:
        for place in where:
            for it in strange:
                mouth.sendto(it, place)


def took(words, folder):
    """How long a call takes, in seconds; and what is wrong with its answer, if anything."""
    began = time.monotonic()
    got = answer(words, folder)
    return time.monotonic() - began, "" if got[1:] == (b"", 0) else f"{got}"


def patience(tally):
    """A turn in which nothing comes waits as long as its patience says, and half of that longer for each smaller number; a lone member
    waits for nobody. An idle node leaves the processor to others."""
    with tempfile.TemporaryDirectory() as folder:
        lay(folder, "a/b.FULLPKGNAME=b-1.0\na/b.IGNORE=broken\n")
        base = str(free_ports(3))
        for members, me, turns, ms, least, most in ((3, 0, 3, 300, 0.9, 60), (3, 1, 3, 300, 1.35, 60), (3, 2, 3, 300, 1.8, 60),
                                                    (3, 0, 50, None, 1, 60), (3, 0, 300, 0, 0, 5), (3, 2, 300, 0, 0, 5), (1, 0, 3, 3_000, 0, 5)):
            words = ["node", *SHARED, "--members", str(members), "--me", str(me), "--base", base, "--turns", str(turns)]
            words += [] if ms is None else ["--patience", str(ms)]
            lay_logs(folder)
            seconds, problem = took(words, folder)
            told = f"{turns} turns took {seconds:.2f} s"
            tally.add(f"node {me} of {members}, patience {ms}", problem or ("" if least <= seconds else told))
            tally.add(f"node {me} of {members}, patience {ms}, no longer than that", "" if seconds < most else told, timed=True)
        lay_logs(folder)
        put(f"{folder}/listing", LISTING.encode())
        for patient in ([], ["--patience", "5"]):
            node = started(folder, 0, ["--base", base, "--turns", "1000000", *patient])
            listening(node)
            share = processor.least_share(node.pid, 0.25, window=2)
            ended(node)
            tally.add(f"an idle node {patient}", "" if share < 0.25 else f"it takes {share:.0%} of a processor", timed=True)


def is_whole(path):
    """Whether a log of all weights 1 has a note, and no other one is on its way to it."""
    text, end = contents(path), 43
    while text[end:end + 1] == b"\1":
        end += 5 + int.from_bytes(text[end + 1:end + 5], "big")
    return end > 43 and text[end:] == b"\0"


def at_rest(folder, me=0, seconds=3):
    """Waits until a node whose peers are away has claimed what it can, and its log stays as it is for some seconds; and gives the logs."""
    path = f"{folder}/logs/node-{me}.log"
    grown(path, 45)
    now, since, end = logs_in(folder), time.monotonic(), time.monotonic() + LIMIT
    while time.monotonic() < min(since + seconds, end):
        time.sleep(0.1)
        before, now = now, logs_in(folder)
        if before != now or not is_whole(path):
            since = time.monotonic()
    return now


def second_start(tally):
    """A node that runs, and another start on its folder: it is refused, the log keeps its bytes, and the first one goes on."""
    with tempfile.TemporaryDirectory(dir=MEMORY) as folder:
        lay(folder)
        base, other = free_ports(3), free_ports(3)
        first = started(folder, 0, ["--base", str(base), "--turns", "1000000"])
        before = at_rest(folder)
        node = ["node", *SHARED, "--members", "3", "--me", "0", "--turns", "5", "--base"]
        for name, words in (("at another port", [*node, str(other)]), ("as a cluster", ["cluster", *SHARED, "--members", "3", "--turns", "5"])):
            tally.add(f"a second start {name}", difference(answer(words, folder), refused(2)))
        out, error, status = answer([*node, str(base)], folder)
        tally.add("a second start at the same port", "" if (out, status) == (b"", 1) and error else f"{out!r}, {error!r}, status {status}")
        tally.add("the log of the node that runs", "" if logs_in(folder)["node-0.log"] == before["node-0.log"] else "it changed")
        others = [started(folder, me, ["--base", str(base), "--turns", ENOUGH]) for me in (1, 2)]
        lines = b"".join(it.communicate(timeout=LIMIT)[0] for it in others)
        tally.add("the others next to it", "" if lines == node_line(1, i=1) + node_line(2, i=1) else f"{lines!r}")
        tally.add("the node that runs", "" if first.poll() is None else f"it ended with {first.returncode}")
        ended(first)
        got = answer([*node[:-3], "--turns", "0", "--base", str(base)], folder)
        tally.add("its log, opened again", difference(got, (node_line(0, i=1), b"", 0)))


def is_filled(log, room):
    """Whether the last note in a log of all weights 1 had no room: what is there of it goes on to the last byte, and it is longer."""
    with open(log, "rb") as file:
        text = file.read()
    end = 43
    while text[end:end + 1] == b"\1":
        end += 5 + int.from_bytes(text[end + 1:end + 5], "big")
    whole = end + 6 + int.from_bytes(text[end + 1:end + 5], "big")
    return len(text) == room > end + 1 and (len(text) < end + 5 or len(text) < whole)


class Full:
    """Which nodes have a full device, and what they printed of it."""

    def __init__(self, folder):
        self.folder = folder
        self.rooms = {}
        self.rounds = self.filled = self.told = 0
        self.strange = set()

    def ended(self, me, node):
        """Ends the node; faults that it may print are 1202, of noise, and 1001, where its device could get full. The first one whose note
        had no room is ended when it has reported that."""
        room = self.rooms.pop(me, None)
        down = b"dpbn: fault 1001 at %d" % me
        if room is not None and not self.told and is_filled(self.log(me), room):
            error = told_until(node, down)
        else:
            error = ended(node)
        lines = set(error.split(b"\n")[:-1])
        self.strange |= lines - ({b"dpbn: fault 1202"} if room is None else {b"dpbn: fault 1202", down})
        if room is not None:
            self.rounds += 1
            self.filled += is_filled(self.log(me), room)
            self.told += down in lines

    def log(self, me):
        return f"{self.folder}/logs/node-{me}.log"

    def tally(self, tally, when):
        """Whether a note finds no room is a matter of time. But if notes had none, one of their nodes has reported it."""
        seen = f"a note had no room in {self.filled}, and 1001 was reported in {self.told}"
        say(f"tests/run: {when}: {self.rounds} with a full device; {seen}")
        tally.add(f"{when}: what is reported of full devices", "" if self.told or not self.filled else f"nothing, and {self.filled} notes had no room")
        tally.add(f"{when}: other faults", f"{sorted(self.strange)}" if self.strange else "")


def held_by_all(tally, name, nodes, packages):
    """Nodes that print their lines as they go obtain all while they run. They are ended if that takes too long."""
    held, lines = [], Lines()
    limit = threading.Timer(LIMIT, lambda: [node.kill() for node in nodes])
    limit.start()
    for me, node in enumerate(nodes):
        told = []
        held.append(any(told.append(line) or line == node_line(me, i=packages) for line in iter(node.stderr.readline, b"")))
        lines += [f"node {me}: {node.poll()}, it printed {len(told)} lines, the last:", *(f"    {line!r}" for line in told[-4:])]
    limit.cancel()
    for node in nodes:
        ended(node)
    tally.add(name, "" if all(held) else seen(lines))


def kills(tally, rounds=20, seed=1, packages=60, sealing=False, look=lambda folder: None):
    """Three nodes on a listing, with a key or without one. One after the other is killed and started again, each fifth time with a
    full device, while noise is sent to their sockets. At the end `look` is given the folder with the listing and the logs."""
    dice = random.Random(seed)
    listing = "".join(f"p/n{k}.FULLPKGNAME=n{k}-1\n" + (f"p/n{k}.LIB_DEPENDS=p/n{dice.randrange(k)}\n" if k % 3 else "") for k in range(packages))
    builds = {f"p/n{k}": [{"hex": dice.randbytes(dice.choice((0, 10, 40_000))).hex(), "name": "x"}] for k in range(packages)}
    with tempfile.TemporaryDirectory() as folder:
        lay(folder, listing, json.dumps(builds))
        base = free_ports(3)
        spots = [(f"127.0.0.{me + 1}", base) if sealing else ("127.0.0.1", base + me) for me in range(3)]
        peers = ["--base", str(base)]
        if sealing:
            subprocess.run([NODES, "key", "key"], cwd=folder, check=True, timeout=LIMIT)
            peers = ["--hosts", ",".join(f"{address}:{port}" for address, port in spots), "--key", "key"]
        words = [*peers, "--turns", "1000000", "--patience", "5"]
        nodes = [started(folder, me, words) for me in range(3)]
        full = Full(folder)
        for me in range(3):
            grown(f"{folder}/logs/node-{me}.run", 1)
        noise = socket.socket(socket.AF_INET, socket.SOCK_DGRAM)
        for number in range(rounds):
            time.sleep(dice.uniform(0.01, 0.15))
            noise.sendto(dice.randbytes(dice.randrange(100)), spots[dice.randrange(3)])
            me = dice.randrange(3)
            full.ended(me, nodes[me])
            if number % 5 == 4:
                full.rooms[me] = os.path.getsize(full.log(me)) + dice.randrange(300)
            nodes[me] = started(folder, me, words, full.rooms.get(me))
            if me in full.rooms:
                grown(full.log(me), full.rooms[me], 1)
        for me, node in enumerate(nodes):
            full.ended(me, node)
        noise.close()
        name = f"{rounds} kills{' under a key' if sealing else ''}"
        full.tally(tally, name)
        agreed(tally, folder, name)
        last = [started(folder, me, [*words, "--progress", "100"]) for me in range(3)]
        held_by_all(tally, f"all is held after {name}", last, packages)
        agreed(tally, folder, f"{name}, and turns to spare")
        look(folder)


def agreed(tally, folder, when):
    """What the logs hold: one package a path, whoever holds it, and a list that is allowed."""
    held = {}
    for me in range(3):
        to = f"{folder}/held-{me}-{len(os.listdir(folder))}"
        done = subprocess.run([f"{TOP}/tools/unpack-log", f"{folder}/logs/node-{me}.log", to], capture_output=True, timeout=600)
        if done.returncode:
            tally.add(f"{when}: the log of node {me}", done.stderr.decode())
            continue
        for line in contents(f"{to}/list").decode().split("\n"):
            if line.startswith("package "):
                _, path, name, digest = line.split(" ")
                held.setdefault(path, set()).add((name, digest))
        audit = subprocess.run([PROGRAM, "audit", f"{folder}/listing", f"{to}/list"], capture_output=True, timeout=600)
        tally.add(f"{when}: the list of node {me}", "" if audit.stdout == b"yes\n" else f"{audit.stdout!r}, {audit.stderr!r}")
    several = sorted(path for path, packages in held.items() if len(packages) > 1)
    tally.add(f"{when}: one package a path", f"{several} have several" if several else "")


def on_a_busy_machine(command):
    """A command that a document shows, with more turns and a longer rest, so that nothing ends while a process has to wait for its turn."""
    return command.replace("--turns 300", "--turns 1000").replace("--rest 2\n", "--rest 20\n").replace("--rest 3\n", "--rest 20\n")


def shown_runs(tally, path, behind, until=None):
    """What a page shows after this line, and before that one: its commands run in a folder, one after the other, and print what is
    there. Files that it shows before are there, too. A copy to another host is skipped."""
    page = contents(path).decode()
    before, _, part = page.partition(behind)
    part = part.partition(until)[0] if until else part
    with tempfile.TemporaryDirectory() as folder, tempfile.TemporaryDirectory() as aside:
        with open(f"{aside}/scp", "w") as file:
            file.write("#!/bin/sh\n")
        os.chmod(f"{aside}/scp", 0o755)
        programs = f"{aside}:{os.path.dirname(NODES)}:{os.path.dirname(PROGRAM)}:{TOP}/tools:{os.environ['PATH']}"
        for line, text in [it for it in shown(before) if it[0].startswith(("cat ", "expand-listing "))] + list(shown(part)):
            if line.startswith("cat "):
                with open(f"{folder}/{line[4:]}", "w") as file:
                    file.write(text.replace("\\e", "\\"))
                continue
            more = [it for it in text.split("\n") if it.startswith("> ")]
            command = "\n".join([line, *(it[2:] for it in more)]).replace("\\e", "\\").replace("--base 7000", f"--base {free_ports(3)}")
            command = on_a_busy_machine(command)
            wanted = sorted(it for it in text.split("\n") if it and not it.startswith("> "))
            done = subprocess.run(["sh", "-c", command], cwd=folder, capture_output=True, text=True, timeout=900, env={**os.environ, "PATH": programs})
            got = sorted(done.stdout.split("\n"))
            right = [it for it in got if it] == wanted and not done.stderr
            tally.add(f"man/{os.path.basename(path)}, {line}", "" if right else f"it shows {wanted}, and {got} {done.stderr} is printed")


def manual_page(tally):
    """What dpbn(1) shows, up to hosts that build."""
    shown_runs(tally, f"{TOP}/man/dpbn.1", ".Sh EXAMPLES\n", ".Ss Hosts that build\n")


def beside(tally, several, at_a_time=None):
    """Runs these next to each other, since they wait more than they work: all of them, or this many at a time."""
    def counted(one):
        own = Tally()
        own.case(one)
        return own

    with ThreadPoolExecutor(at_a_time or len(several)) as pool:
        for own in pool.map(counted, several):
            tally.take(own)


def run(tally):
    beside(tally, [functools.partial(case, kind="nodes", name=name) for name in sorted(os.listdir(f"{TESTS}/nodes"))], 4)
    for one in (no_calls, helps, faults, cluster_faults, bad_words, refused_logs, refused_starts, alone, cluster, exact_turns, progress, failing, sockets, kills):
        tally.case(one)
    beside(tally, (hosts, refused_sends, stops, noise, patience, manual_page))
    tally.case(second_start)
