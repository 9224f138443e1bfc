"""tools/build-jobs next to a node that is played (played.py): what is built on what, what fails, what is refused, and how it ends. And
what tools/unpack-log makes of packages whose large files went another way."""
import hashlib
import os
import re
import shutil
import signal
import subprocess
import tempfile
import time

from topics import job_faults, job_files, job_health, job_limits, job_records, job_reuse, packages
from topics.nodes import beside
from topics.played import (BUILD, LIMIT, SLOW, TREE, WRITE, Driver, Node, add, has_text, is_alive, laid, name_of, read, until,
                           without_seconds)
from topics.tally import TESTS, TOP


def chain(tally):
    """Units one on the other: each build sees what it is to be built on, and what that needs to run, and its words."""
    with laid(BUILD + '; echo "$PKGPATH $PACKAGES $HOST" > "$OUT"/a:b,-main/words 2>/dev/null; ls -A > "$TOP/there"; true') as (node, driver):
        first = node.post("a/b", ("a/b,-docs", "a/b,-main"), run=["a/b,-docs"])
        made = node.take(first)
        add(tally, "a unit of two packages", made.get("a/b,-main", {}).get("words") == b"a/b a/b,-docs a/b,-main 1\n", made)
        add(tally, "an empty folder to begin in", read(f"{node.folder}/there") == "", read(f"{node.folder}/there"))
        node.take(node.post("c/d", built=["a/b,-main"], run=["a/b,-main"]))
        made = node.take(node.post("e/f", built=["c/d"]))["e/f"]
        add(tally, "what a build sees", made["saw"] == b"a:b,-docs\na:b,-main\nc:d\n", made)
        add(tally, "their signatures", sorted(made["on"].decode().splitlines()) == sorted(node.held[path] for path in ("a/b,-docs", "a/b,-main", "c/d")), made)
        add(tally, "what is held is forgotten", node.is_forgotten(first), os.listdir(f"{node.work}/done"))
        log = read(f"{node.work}/logs/c:d.log").splitlines()
        add(tally, "a log that begins with its job", log[1:5] == [f"@tree {TREE}", "@unit c/d", "@package c/d", f"@built {node.held['a/b,-main']}"], log)
        ended = driver.end()
        told = without_seconds(driver.lines())
        wanted = ["> a/b, on 0 packages: 1 of 1", "< a/b N s", "> c/d, on 2 packages: 1 of 1", "< c/d N s", "> e/f, on 3 packages: 1 of 1", "< e/f N s",
                  "3 built, 0 failed, 0 dropped"]
        add(tally, "a line a change", (told, ended) == (wanted, 128 + signal.SIGTERM), (told, ended))


def side_by_side(tally):
    """With -j 2 two builds wait for each other, and a third for its turn."""
    meet = 'touch "$TOP/$(basename $PKGPATH)"; until [ -e "$TOP/x" ] && [ -e "$TOP/y" ]; do sleep 0.05; done; ls "$TOP" > "$TOP/seen.$(basename $PKGPATH)"; '
    with laid(meet + BUILD, "-j", "2") as (node, driver):
        names = [node.post(f"a/{word}") for word in ("x", "y", "z")]
        running = [name for name in names if node.take(name)]
        begun = [line for line in driver.lines() if line.startswith(">")]
        add(tally, "two at a time", len(running) == 3 and len(begun) == 3 and sum(line.endswith("2 of 2") for line in begun) >= 1, driver.lines())


def failures(tally):
    """What fails is marked with why and its log, and built again once the mark is gone; each malformed answer fails."""
    with laid('echo told; [ -e "$TOP/mended" ] || exit 3; ' + BUILD) as (node, driver):
        name = node.post("a/b")
        why, log = node.failed(name), f"{os.path.realpath(node.work)}/logs/failed/a:b.log"
        add(tally, "a build that fails", why == f"a/b: status 3\n{log}\n", why)
        add(tally, "the same, told", driver.tells(f"! a/b failed after [0-9]+ s: status 3, see {re.escape(log)}"), driver.lines())
        add(tally, "the same, its log", read(log).endswith("told\n"), read(log))
        time.sleep(0.3)
        add(tally, "a mark that stays", len(driver.lines()) == 2 and not os.listdir(f"{node.work}/done"), driver.lines())
        with open(f"{node.folder}/mended", "w"):
            os.unlink(f"{node.work}/failed/{name}")
        add(tally, "a mark that was taken away", bool(node.take(name)), driver.lines())
    for what, script, why in (("no package", "true", "it made no a/b"), ("a name that no record takes", 'mkdir "$OUT/a:b" && touch "$OUT/a:b/@x"', "no record takes a file of this name"),
                              ("a link", 'mkdir "$OUT/a:b" && ln -s /etc/passwd "$OUT/a:b/x"', "it is a symbolic link"),
                              ("too much", 'mkdir "$OUT/a:b" && head -c 4194304 /dev/zero > "$OUT/a:b/x"', "and may have 4194304")):
        with laid(script) as (node, driver):
            told = node.failed(node.post("a/b"))
            add(tally, f"an answer with {what}", bool(told) and why in told and not os.listdir(f"{node.work}/done"), told)
    with laid('mkdir "$OUT/a:b" "$OUT/c:d" && head -c 4194304 /dev/zero > "$OUT/c:d/x"') as (node, driver):
        name = node.post("a/b")
        add(tally, "an answer with another's package", node.take(name) == {"a/b": {}}, driver.lines())


def odd_jobs(tally):
    """A job that isn't whole, or of another name, isn't taken; one waits for what it is to be built on, and for the log."""
    with tempfile.TemporaryDirectory() as folder:
        node = Node(folder)
        node.held["c/d"] = f"c/d p9-1 {'0' * 64}"
        waits = node.post("e/f", built=["c/d"])
        text = "@unit a/b\n@package a/b\n"
        for name in (f".{'0' * 64}.1", "0" * 64, name_of(text), "1" * 63, "README"):
            with open(f"{node.work}/jobs/{name}", "w") as file:
                file.write(text + "@host 1\n@claim 1.1\n")
        driver = Driver(node, BUILD)
        for what, name, why in (("of another name", "0" * 64, "its name isn't that of its text"),
                                ("without its tree", name_of(text), "it doesn't begin with its tree, or a line is lacking")):
            add(tally, f"a job {what}", driver.tells(re.escape(f"? jobs/{name} is no job: {why}")), driver.lines())
        node.open()
        node.hold("a/b", {"a/b": []})
        node.note(packages.note(4, "c/d", packages.build(packages.record("c/d", "p1-1", []))), gate=b"\0")
        time.sleep(0.3)
        told = driver.lines()
        add(tally, "a job that waits", len(told) == 2, told)
        os.unlink(node.log)
        node.open()
        node.held.clear()
        node.hold("c/d", {"c/d": []})
        is_told = driver.tells(re.escape(f"? e/f waits: {node.log} hasn't all that it is to be built on"))
        right = driver.begun() == 0 and len(driver.lines()) == 3 and not os.listdir(f"{node.work}/done")
        add(tally, "other dependencies of the same path", right, driver.lines())
        add(tally, "what it waits for", is_told, driver.lines())
        os.unlink(f"{node.work}/jobs/{waits}")
        add(tally, "a log that was made anew", bool(node.take(node.post("e/f", built=["c/d"]))), driver.lines())
        driver.end()
    with laid(BUILD) as (node, driver):
        node.note(b"\7bad")
        status = driver.process.wait(LIMIT)
        is_told = driver.tells(re.escape(f"? {node.log}: a note's kind is 7 at 48: it is read again"))
        add(tally, "a bad log", is_told and status == 1 and driver.lines()[-1] == f"build-jobs: {node.log}: a note's kind is 7 at 48", (status, driver.lines()))


# how long a driver waits for its builds when a signal ends it: it ends as soon as they have ended
PATIENT = ("--grace", "60")


def drivers_that_end(tally):
    """By a signal its builds end with it. Killed, they run on, and the next one hands in what comes of them."""
    with laid(SLOW, *PATIENT) as (node, driver):
        name = node.post("a/b")
        until(lambda: has_text(f"{node.folder}/pid"))
        second = Driver(node, BUILD)
        told = second.process.wait(LIMIT), second.lines()
        add(tally, "a second one on the folder", told == (1, [f"build-jobs: another one works on {os.path.realpath(node.work)}"]), told)
        ended = [driver.end()]
        add(tally, "a signal", ended == [143] and not is_alive(node.folder, "pid") and os.listdir(f"{node.work}/build") == [], (ended, os.listdir(f"{node.work}/build")))
        add(tally, "a signal, its job", os.listdir(f"{node.work}/jobs") == [name] and not os.listdir(f"{node.work}/failed"), os.listdir(f"{node.work}/failed"))
        os.unlink(f"{node.folder}/pid")
        killed = Driver(node, SLOW)
        until(lambda: has_text(f"{node.folder}/pid"))
        killed.end(signal.SIGKILL)
        left = os.listdir(f"{node.work}/build")
        add(tally, "a build that outlives it", is_alive(node.folder, "pid") and len(left) == 1, left)
        add(tally, "that it has begun", os.listdir(f"{node.work}/begun") == [name], os.listdir(f"{node.work}/begun"))
        for half in (f"done/.{name}.build-jobs", f"failed/.{name}.build-jobs", f"failed/.{name}.1", f"begun/{'1' * 64}"):
            with open(f"{node.work}/{half}", "w") as file:
                file.write("{")
        again = Driver(node, 'mkdir "$OUT/$(echo $PKGPATH | tr / :)"', "-j", "2")
        add(tally, "the next one says it", again.tells("= a build of a/b goes on, which an earlier run began"), again.lines())
        other = node.take(node.post("c/d")), is_alive(node.folder, "pid"), again.begun("a/b"), os.listdir(f"{node.work}/begun")
        add(tally, "a unit of which a build goes on", other[:3] == ({"c/d": {}}, True, 0) and name in other[3] and "1" * 64 not in other[3], other)
        with open(f"{node.folder}/go", "w"):
            made = node.take(name)
        add(tally, "what is handed in", made == {"a/b": {"saw": b"", "on": b""}} and node.is_forgotten(name) and again.begun("a/b") == 0, made)
        until(lambda: not os.listdir(f"{node.work}/done"))
        left = os.listdir(f"{node.work}/done"), os.listdir(f"{node.work}/failed")
        add(tally, "what was half written, and not by the node", left == ([], [f".{name}.1"]), left)
        add(tally, "what outlived is removed", until(lambda: os.listdir(f"{node.work}/build") == []), os.listdir(f"{node.work}/build"))
        add(tally, "nothing has begun", until(lambda: os.listdir(f"{node.work}/begun") == []), os.listdir(f"{node.work}/begun"))
        again.end()


def ends_of_builds(tally):
    """A build that is ended may clean up first, though its shell ends at once. One that is over is handed in before the driver ends, and
    what is mounted in its folder stays as it is."""
    clean = 'python3 -c "import os, signal, time\ndef end(*_):\n time.sleep(0.5)\n open(os.environ[\'TOP\'] + \'/cleaned\', \'w\')\n os._exit(0)\nsignal.signal(15, end)\nopen(os.environ[\'TOP\'] + \'/up\', \'w\')\ntime.sleep(1000)"; true'
    for what, end in (("a signal", lambda node, driver: driver.end()), ("a unit that is held", lambda node, driver: node.hold("a/b", {"a/b": []}))):
        with laid(clean, *PATIENT) as (node, driver):
            name = node.post("a/b")
            until(lambda: os.path.exists(f"{node.folder}/up"))
            end(node, driver)
            right = until(lambda: os.path.exists(f"{node.folder}/cleaned")) and until(lambda: os.listdir(f"{node.work}/build") == [])
            add(tally, f"{what}, what a build cleans up", right and not os.path.exists(f"{node.work}/failed/{name}"), driver.lines())
    with laid(SLOW, *PATIENT) as (node, driver):
        name = node.post("a/b")
        until(lambda: has_text(f"{node.folder}/pid"))
        os.rename(f"{node.work}/done", f"{node.folder}/done")
        with open(f"{node.work}/done", "w"), open(f"{node.folder}/go", "w"):
            driver.tells("[?] a/b waits: .*")
        os.unlink(f"{node.work}/done")
        os.rename(f"{node.folder}/done", f"{node.work}/done")
        status = driver.end()
        add(tally, "a signal, what is over", status == 143 and os.path.exists(f"{node.work}/done/{name}"), (status, driver.lines()))


def nodes_that_go_on(tally):
    """What another node built meanwhile is dropped, and so is a job that is taken away."""
    with laid(SLOW) as (node, driver):
        name = node.post("a/b")
        until(lambda: has_text(f"{node.folder}/pid"))
        node.hold("a/b", {"a/b": []})
        told = driver.tells("- a/b: another node built it")
        gone = until(lambda: not is_alive(node.folder, "pid"))
        add(tally, "a unit that is held", told and node.is_forgotten(name) and gone, driver.lines())
        os.unlink(f"{node.folder}/pid")
        name = node.post("c/d")
        until(lambda: has_text(f"{node.folder}/pid"))
        os.unlink(f"{node.work}/jobs/{name}")
        told, gone = driver.tells("- c/d: its job was taken away"), until(lambda: not is_alive(node.folder, "pid"))
        add(tally, "a job that is taken away", told and gone, driver.lines())
        driver.end()
        add(tally, "what was dropped", driver.lines()[-1] == "0 built, 0 failed, 2 dropped", driver.lines())


# folders in folders, more than a path may name
DEEP = 'if [ $PKGPATH = c/d ]; then cd "$OUT/c:d" && python3 -c "import os\nfor _ in range(1100):\n os.mkdir(\'x\' * 9)\n os.chdir(\'x\' * 9)"; fi'


def builds_that_misbehave(tally):
    """What a build leaves after ends with it; what can't be read fails it, and nothing else; and how it is named ends nothing."""
    with laid('sleep 1000 & echo $! > "$TOP/left"; ' + BUILD) as (node, driver):
        made = node.take(node.post("a/b"))
        add(tally, "what a build left running", bool(made) and until(lambda: not is_alive(node.folder, "left")), made)
        long = f"a/{'x' * 253}"
        add(tally, "a unit of a long name", list(node.take(node.post(long))) == [long], driver.lines())
        logs = os.listdir(f"{node.work}/logs")
        add(tally, "its log", any(re.fullmatch("a:x{198}[.][0-9a-f]{16}[.]log", name) for name in logs), logs)
    with laid(WRITE + DEEP) as (node, driver):
        why = node.failed(node.post("c/d"))
        add(tally, "folders too deep", bool(why) and why.startswith("c/d: ") and "no record takes a file of this name" in why, (why, driver.lines()))
        add(tally, "the next one", bool(node.take(node.post("a/b"))) and driver.process.poll() is None, driver.lines())
        add(tally, "its folder", until(lambda: os.listdir(f"{node.work}/build") == []), os.listdir(f"{node.work}/build"))


def what_the_system_refuses(tally):
    """What can't be written is reported, and tried again; a folder that was made anew ends it."""
    with laid(BUILD) as (node, driver):
        # it has to be through with its start, which refuses such a folder
        node.take(node.post("z/first"))
        os.rename(f"{node.work}/done", f"{node.work}/gone")
        with open(f"{node.work}/done", "w"):
            name = node.post("a/b")
        told = until(lambda: any(line.startswith("? ") for line in driver.lines()))
        time.sleep(0.3)
        add(tally, "a folder that isn't there", told and driver.process.poll() is None, driver.lines())
        os.unlink(f"{node.work}/done")
        os.rename(f"{node.work}/gone", f"{node.work}/done")
        add(tally, "the same once it is there", bool(node.take(name)), driver.lines())
    with laid(BUILD) as (node, driver):
        os.mkdir(f"{node.work}/elsewhere")
        node.take(node.post("z/first"))
        with open(f"{node.work}/logs/a:b.log", "w"):
            os.rename(f"{node.work}/logs", f"{node.work}/elsewhere/logs")
        name = node.post("a/b")
        told = driver.tells("[?] a/b waits: .*logs/a:b.log.*")
        # it is tried again and again
        add(tally, "a log that can't be written", told and until(lambda: os.listdir(f"{node.work}/build") == []), driver.lines())
        os.rename(f"{node.work}/elsewhere/logs", f"{node.work}/logs")
        add(tally, "the same once it can", bool(node.take(name)), driver.lines())
    with laid(SLOW, *PATIENT) as (node, driver):
        node.post("a/b")
        until(lambda: has_text(f"{node.folder}/pid"))
        os.rename(node.work, f"{node.folder}/old")
        os.mkdir(node.work)
        status = driver.process.wait(LIMIT)
        told = status, driver.lines()[-1], is_alive(node.folder, "pid")
        add(tally, "a work folder that was made anew", told == (1, f"build-jobs: {node.work} was taken away, or made anew", False), told)


def what_is_no_job(tally):
    """Something that isn't a job keeps no other job back."""
    odd = {"a name of other bytes": b"@unit a/\xff\n@package a/b\n", "a name with a zero byte": b"@unit a/b\n@package a/\0\n", "no path": b"@unit ../x\n@package ../x\n"}
    with laid(BUILD) as (node, driver):
        for what, text in (*odd.items(), ("no host", b"@unit a/c\n@package a/c\n@host x\n")):
            task = f"@tree {TREE}\n".encode() + text.partition(b"@host")[0]
            odd[what] = hashlib.sha256(task).hexdigest()
            with open(f"{node.work}/jobs/.odd", "wb") as file:
                file.write(f"@tree {TREE}\n".encode() + text + b"@host 1\n@claim 1.1\n")
            os.rename(f"{node.work}/jobs/.odd", f"{node.work}/jobs/{odd[what]}")
        os.mkdir(f"{node.work}/jobs/{'1' * 64}")
        os.mkfifo(f"{node.work}/jobs/{'2' * 64}")
        made = node.take(node.post("z/b"))
        for what, name in (*odd.items(), ("a folder", "1" * 64), ("a FIFO", "2" * 64)):
            add(tally, f"a job that is {what}", driver.tells(f"[?] jobs/{name} is no job: .*"), driver.lines())
        begun = [line for line in driver.lines() if line.startswith(">")]
        add(tally, "a job next to these", bool(made) and begun == ["> z/b, on 0 packages: 1 of 1"], driver.lines())


def where_it_stands(tally):
    """A work folder may have any name; what can't be reported, since its output is full, or nobody reads it, keeps nothing back."""
    with tempfile.TemporaryDirectory() as folder:
        os.mkdir(f"{folder}/w\udcff")
        node = Node(f"{folder}/w\udcff")
        node.open()
        driver = Driver(node, "exit 3")
        why = until(lambda: bool(os.listdir(f"{node.work}/failed"))) if node.post("a/b") else ""
        add(tally, "a work folder of other bytes", bool(why) and driver.process.poll() is None, os.listdir(f"{node.work}/failed"))
        driver.end()
    for what, number in ([("a full disk", os.open("/dev/full", os.O_WRONLY))] if os.path.exists("/dev/full") else []) + [("nobody", unread())]:
        with tempfile.TemporaryDirectory() as folder:
            node = Node(folder)
            node.open()
            process = subprocess.Popen([f"{TOP}/tools/build-jobs", node.work, node.log, "--", "sh", "-c", f"{BUILD}; test -e '{folder}/mended'"],
                                       stdin=subprocess.DEVNULL, stdout=number, stderr=subprocess.PIPE)
            os.close(number)
            name = node.post("a/b")
            why = node.failed(name)
            with open(f"{folder}/mended", "w"):
                os.unlink(f"{node.work}/failed/{name}")
            made = node.take(name)
            process.terminate()
            told = process.communicate(timeout=LIMIT)[1], process.returncode
            add(tally, f"lines for {what}", bool(why) and bool(made) and told == (b"", 143), (why, made, told))


def unread():
    """A pipe that nobody reads any more, to be written."""
    reads, writes = os.pipe()
    os.close(reads)
    return writes


def commands(tally):
    """A command is found from where build-jobs is started, and one that isn't there is reported at once."""
    with laid(BUILD + '; echo "$0 $@" > "$OUT/a:b/words"', more=("--", "x", "--", "-j", "--")) as (node, driver):
        made = node.take(node.post("a/b"))
        add(tally, "a command's words", made.get("a/b", {}).get("words") == b"-- x -- -j --\n", (made, driver.lines()))
    with tempfile.TemporaryDirectory() as folder:
        node = Node(folder)
        node.open()
        with open(f"{folder}/build", "w") as file:
            file.write(f"#!/bin/sh\n{BUILD}\n")
        os.chmod(f"{folder}/build", 0o755)
        process = subprocess.Popen([f"{TOP}/tools/build-jobs", node.work, node.log, "--", "./build"], cwd=folder, stdin=subprocess.DEVNULL,
                                   stdout=subprocess.DEVNULL, stderr=subprocess.DEVNULL)
        add(tally, "a command next to it", bool(node.take(node.post("a/b"))))
        process.kill()
        process.wait()
        process = subprocess.Popen([f"{TOP}/tools/build-jobs", node.work, node.log, "--", "sh", "-c", f"{BUILD}; exit 3"], stdin=subprocess.DEVNULL,
                                   stdout=subprocess.DEVNULL, stderr=subprocess.DEVNULL, preexec_fn=lambda: signal.signal(signal.SIGCHLD, signal.SIG_IGN))
        why = node.failed(node.post("c/d"))
        add(tally, "a caller that ignores how others end", bool(why) and why.startswith("c/d: status 3\n"), why)
        process.kill()
        process.wait()
        done = subprocess.run([f"{TOP}/tools/build-jobs", node.work, node.log, "--", "./none"], cwd=folder, capture_output=True, text=True, timeout=LIMIT)
        right = (done.returncode, done.stderr) == (1, f"build-jobs: {folder}/none: there is no such command\n")
        add(tally, "a command that isn't there", right, (done.returncode, done.stderr))


LARGE = 33_554_432


def stored(folder):
    """The files of a store, and whether each has its name for a digest."""
    names = sorted(os.listdir(folder)) if os.path.isdir(folder) else []
    return names, all(digest_of(f"{folder}/{name}") == name for name in names)


def digest_of(path):
    digest = hashlib.sha256()
    with open(path, "rb") as file:
        for part in iter(lambda: file.read(1 << 20), b""):
            digest.update(part)
    return digest.hexdigest()


def large(tally):
    """Files of hundreds of megabytes go as name, size and digest, from store to store by a command, and are hashed before they are used."""
    make = f'mkdir "$OUT/$(echo $PKGPATH | tr / :)" && cd "$OUT/$(echo $PKGPATH | tr / :)" && yes $PKGPATH | head -c {LARGE} > big && echo small > small'
    with tempfile.TemporaryDirectory() as folder:
        os.mkdir(f"{folder}/0")
        os.mkdir(f"{folder}/1")
        nodes = [Node(f"{folder}/{me}", me) for me in range(2)]
        for node in nodes:
            node.open()
        first = Driver(nodes[0], make, "--digests", "1000000")
        made = [nodes[0].take(nodes[0].post(f"a/{word}")) for word in ("x", "y")]
        names, right = stored(f"{nodes[0].work}/store")
        add(tally, "large files", [sorted(its) for it in made for its in it.values()] == [["big.sha256", "small"]] * 2 and len(names) == 2 and right, (made, names))
        text = next(iter(made[0].values()))["big.sha256"].decode()
        digest = re.findall("[0-9a-f]{64}", text)[0]
        add(tally, "a large file, what is said", text == f"SHA256 (big) = {digest}\nSIZE (big) = {LARGE}\n" and digest in names, text)
        first.end()
        for path, its in ((path, its) for it in made for path, its in it.items()):
            nodes[1].hold(path, {path: sorted(its.items())})
        fetched(tally, nodes, digest)
        unpacked(tally, nodes[0], names)


def fetched(tally, nodes, digest):
    """Another host has none of them: the first that arrives is wrong, and isn't used."""
    see = 'mkdir "$OUT/a:z" && cd "$DEPS" && ls a:x a:y > "$OUT/a:z/saw" && cat a:x/big a:y/big | wc -c > "$OUT/a:z/size"'
    get = f'echo $HOST $SIZE $NAME >> "{nodes[1].folder}/asked"; if [ -e "{nodes[1].folder}/up" ]; then cp "{nodes[0].work}/store/$SHA256" "$TARGET"; else head -c $SIZE /dev/zero > "$TARGET"; fi'
    second = Driver(nodes[1], see, "--digests", "1000000", "--fetch", get)
    name = nodes[1].post("a/z", built=["a/x", "a/y"])
    told = second.tells("[?] a/z waits for big of a/[xy], [0-9a-f]{64}, of host 1.*")
    store = f"{nodes[1].work}/store"
    aside = until(lambda: os.path.exists(f"{store}/wrong/{digest}.host1")) and os.path.getsize(f"{store}/wrong/{digest}.host1") == LARGE
    # the next one is half there till it is hashed
    whole = [it for it in os.listdir(store) if not it.startswith(".") and it != "wrong"]
    add(tally, "a file that comes wrong", told and aside and not whole, (second.lines(), whole, os.listdir(store)))
    with open(f"{nodes[1].folder}/up", "w"):
        made = nodes[1].take(name)
    add(tally, "a file that comes", made == {"a/z": {"saw": b"a:x:\nbig\nsmall\n\na:y:\nbig\nsmall\n", "size": b"%d\n" % (2 * LARGE)}}, made)
    asked = set(read(f"{nodes[1].folder}/asked").splitlines())
    add(tally, "who is asked", f"1 {LARGE} big" in asked and asked <= {f"{host} {LARGE} big" for host in range(3)}, asked)
    second.end()
    os.chmod(f"{store}/{digest}", 0o644)
    with open(f"{store}/{digest}", "r+b") as file:
        file.write(b"X")
    third = Driver(nodes[1], see, "--digests", "1000000")
    nodes[1].post("a/zz", built=["a/x", "a/y"])
    told = third.tells(re.escape(f"? a/zz waits for big of a/x, {digest}, of host 1"))
    aside = until(lambda: os.path.exists(f"{store}/wrong/{digest}")) and digest_of(f"{store}/wrong/{digest}") != digest
    add(tally, "a file of the store that was changed", told and digest not in os.listdir(store) and aside, third.lines())
    third.end()


def unpacked(tally, node, names):
    """unpack-log with the store makes whole packages; what the store has not, or has otherwise, stays as it was, and is reported."""
    store = f"{node.work}/store"
    said = packages.tool("unpack-log", "--store", store, node.log, f"{node.folder}/out")
    whole = {path: sorted(os.listdir(f"{node.folder}/out/{path}")) for path in ("a:x", "a:y")}
    sizes = {os.path.getsize(f"{node.folder}/out/{path}/big") for path in whole}
    tally.add("unpack-log with a store", "" if (said, whole, sizes) == ((b"", b"", 0), {path: ["big", "small"] for path in whole}, {LARGE}) else f"{said} {whole} {sizes}")
    os.unlink(f"{store}/{names[0]}")
    os.chmod(f"{store}/{names[1]}", 0o644)
    with open(f"{store}/{names[1]}", "ab") as file:
        file.write(b"x")
    out, lines, status = packages.tool("unpack-log", "--store", store, node.log, f"{node.folder}/other")
    left = {path: sorted(os.listdir(f"{node.folder}/other/{path}")) for path in whole}
    told = sorted(line.split(b" has no file ")[1].decode() for line in lines.splitlines())
    right = (out, status, told) == (b"", 0, names) and left == {path: ["big.sha256", "small"] for path in whole}
    tally.add("unpack-log with a store that lacks files", "" if right else f"{lines!r:.400}, status {status}, {left}")


def stand_ins(tally):
    """Only what names its own file replaces one, and only if that has a place."""
    told = {name: f"SHA256 ({name}) = {packages.digest(b'large')}\nSIZE ({name}) = 5\n".encode() for name in ("x", "w/v", "u")}
    files = [("x", b"x"), ("x.sha256", told["x"]), ("y.sha256", told["x"]), ("w/v.sha256", told["w/v"]), ("u.sha256", told["u"]), ("u/t", b"t")]
    with tempfile.TemporaryDirectory() as folder:
        os.mkdir(f"{folder}/store")
        with open(f"{folder}/store/{packages.digest(b'large')}", "wb") as file:
            file.write(b"large")
        with open(f"{folder}/log", "wb") as file:
            file.write(packages.log([packages.note(4, "a/b", packages.build(packages.record("a/b", "b-1", files)))]))
        said = packages.tool("unpack-log", "--store", f"{folder}/store", f"{folder}/log", f"{folder}/out")
        got = packages.files_in(f"{folder}/out/a:b")
    wanted = {name: text for name, text in files if name != "w/v.sha256"}
    wanted["w/v"] = b"large"
    tally.add("unpack-log of what names no file", "" if (said, got) == ((b"", b"", 0), wanted) else f"{said} {sorted(got)}")


def words(tally):
    """Wrong words are reported, and nothing is made."""
    with tempfile.TemporaryDirectory() as folder:
        for wrong in (["-j", "0"], ["-j", "65"], ["--digests", "x"], ["--failures", "1001"], ["--failures", "-1"], []):
            said = packages.tool("build-jobs", *wrong, f"{folder}/work", *([f"{folder}/log", "--", "true"] if wrong else []))
            add(tally, f"the words {' '.join(wrong)}", said[2] == 2 and os.listdir(folder) == [], said)


def installed(tally):
    """The tools find their modules once they are installed, also through a link."""
    with tempfile.TemporaryDirectory() as folder:
        os.makedirs(f"{folder}/bin")
        for name in ("build-jobs", "make-builds", "unpack-log"):
            shutil.copy(f"{TOP}/tools/{name}", f"{folder}/bin/{name}")
        shutil.copytree(f"{TOP}/tools/dpbn_tools", f"{folder}/share/dpbn/dpbn_tools", ignore=shutil.ignore_patterns("__pycache__"))
        os.symlink("bin", f"{folder}/link")
        for name in ("build-jobs", "make-builds", "unpack-log"):
            done = subprocess.run([f"{folder}/link/{name}", "--help"], cwd="/", capture_output=True, text=True, timeout=LIMIT)
            right = done.returncode == 0 and done.stdout.startswith(f"usage: {name} ")
            tally.add(f"{name}, installed", "" if right else f"{done.stdout:.300} {done.stderr:.300}")


def unit_tests(tally):
    """The parts of the tools one by one, and their types and style and those of what runs the tests, as far as the programs for that are here."""
    typed = ["--strict", "--cache-dir", os.devnull]
    style = ["--max-line-length", "140"]
    tools, lanes = f"{TOP}/tools/dpbn_tools", "topics.lanes"
    styled = [f"{TESTS}/run", *(f"{TESTS}/topics/{name}.py" for name in ("lanes", "network", "tally"))]
    for name, what, words in (("pytest", "the tools", ["-q", "-p", "no:cacheprovider", f"{TESTS}/unit"]),
                              ("mypy", "the tools", [*typed, "--python-version", "3.8", tools]),
                              ("mypy", "the tests' lanes", [*typed, "--python-version", "3.9", "--follow-imports", "silent", "-m", "topics.network", "-m", lanes]),
                              ("mypy", "tests/soak", [*typed, "--python-version", "3.8", "--follow-imports", "silent", "-p", "soak_parts"]),
                              ("flake8", "the tools", [*style, tools, f"{TOP}/tools/build-jobs", f"{TOP}/tools/make-builds"]),
                              ("flake8", "the tests' lanes", [*style, *styled]),
                              ("flake8", "tests/soak", [*style, f"{TESTS}/soak", f"{TESTS}/soak_parts"])):
        found = next((path for path in map(shutil.which, (f"/usr/bin/{name}", name, f"{name}-3")) if path), None)
        if not found:
            tally.skip(f"{name} on {what}", f"there is no {name} here")
            continue
        # where the modules of the tests are found
        more = {lanes: f"{TESTS}:{TOP}/tools", "soak_parts": f"{TESTS}:{TOP}/bench"}.get(words[-1])
        done = subprocess.run([found, *words], cwd=TOP, capture_output=True, text=True, timeout=1800, env={**os.environ, **({"MYPYPATH": more} if more else {})})
        tally.add(f"{name} on {what}", "" if done.returncode == 0 else (done.stdout + done.stderr)[-3000:])


def first(tally):
    for one in (installed, words, chain, side_by_side, failures, what_is_no_job, where_it_stands, drivers_that_end):
        tally.case(one)


def second(tally):
    for one in (ends_of_builds, nodes_that_go_on, builds_that_misbehave, what_the_system_refuses, commands):
        tally.case(one)


def third(tally):
    for one in (odd_jobs, large, stand_ins):
        tally.case(one)


def run(tally):
    # what depends on how fast it goes is by itself
    tally.case(job_files.many_that_wait)
    beside(tally, (first, second, third, job_faults.run_third, job_limits.run_second, job_records.run))
    beside(tally, (unit_tests, job_faults.run_first, job_faults.run_second, job_files.run_first, job_files.run_second, job_limits.run_first,
                   job_health.run, job_reuse.run))
