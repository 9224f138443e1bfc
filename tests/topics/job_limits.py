"""The limits of tools/build-jobs: of time, of silence, of what is printed and made, of free disk; and the logs and work trees that are kept."""
import fcntl
import os
import re
import signal
import time

from topics import packages
from topics.played import BUILD, MAKE, SLOW, Driver, add, has_text, is_alive, laid, node_alone, read, until


def fails(tally, what, why, script, *words):
    """A build that fails with this reason, and leaves nothing running."""
    with laid('echo $$ > "$TOP/pid"; ' + script, *words) as (node, driver):
        told = node.failed(node.post("a/b"))
        right = bool(told) and re.fullmatch(f"a/b: {why}\n.*/logs/failed/a:b.log\n", told) and until(lambda: not is_alive(node.folder, "pid"))
        add(tally, f"a build that {what}", right, told, driver.lines())
        return read(f"{node.work}/logs/failed/a:b.log") if right else ""


def limits(tally):
    fails(tally, "takes too long", "it took longer than 1 s", "sleep 1000", "--limit", "1")
    fails(tally, "prints nothing", "it printed nothing for 1 s", "echo begun; sleep 1000", "--silent", "1")
    log = fails(tally, "prints too much", "it printed more than 100000 bytes", "yes 'warning: something'; true", "--log-bytes", "100000")
    add(tally, "a log that is too long", 100_000 <= len(log) < 102_000 and log.endswith("\n## the log is cut here\n"), len(log))
    fails(tally, "makes too much", "it made 5000 bytes, and may make 4999", 'mkdir "$OUT/a:b" && head -c 5000 /dev/zero > "$OUT/a:b/x"', "--out-bytes", "4999")
    with laid('for n in 1 2 3 4 5 6 7 8 9 0; do echo $n; sleep 1; done; ' + MAKE, "--silent", "8", "--limit", "50", "--log-bytes", "1000", "--out-bytes", "2") as (node, driver):
        name = node.post("a/b")
        until(lambda: any(os.path.exists(f"{node.work}/{part}/{name}") for part in ("done", "failed")))
        # it prints each second, if it gets a processor
        add(tally, "a build within its limits", bool(node.take(name, 1)), driver.lines(), timed=True)


def limits_by_name(tally):
    """A file of limits, for units, packages and directories; it is read again when it was changed, and a bad line is reported with its number."""
    with node_alone() as node:
        file = f"{node.folder}/limits"
        with open(file, "w", encoding="ascii") as out:
            out.write("# giants\nwww/chromium limit 1000\nb/x,-main\tlimit 1000\n")
        driver = Driver(node, "sleep 4; " + MAKE, "-j", "4", "--limit", "1", "--limits", file)
        names = [node.post(unit, paths) for unit, paths in (("www/chromium", ()), ("www/chromium,debug", ()), ("b/x", ("b/x,-docs", "b/x,-main")), ("c/d", ()))]
        made = [bool(node.take(name)) for name in names[:3]]
        add(tally, "limits by name", made == [True] * 3 and bool(node.failed(names[3])), made, driver.lines())
        with open(file, "w", encoding="ascii") as out:
            out.write("c/d limit 1000\nc/d length 3\n")
        told = driver.tells(re.escape(f"? it goes on in a while: {file}: line 2 isn't `PATH WORD NUMBER`, with a word of limit, silent, log-bytes, out-bytes, free"))
        with open(file, "w", encoding="ascii") as out:
            out.write("c/d limit 1000\n")
        add(tally, "limits that are changed", told and until(lambda: is_built(node, names[3])), driver.lines())
        driver.end()
        with open(file, "w", encoding="ascii") as out:
            out.write("chromium limit 3\n")
        said = packages.tool("build-jobs", "--limits", file, node.work, node.log, "--", "true")
        add(tally, "limits of what is no path", said == (b"", f"build-jobs: {file}: line 1 names no package path\n".encode(), 1), said)


def is_built(node, name):
    """Whether the job is built. If it failed it is tried again."""
    if os.path.exists(f"{node.work}/failed/{name}"):
        os.unlink(f"{node.work}/failed/{name}")
    return os.path.exists(f"{node.work}/done/{name}")


def free_disk(tally):
    """Nothing begins while less disk is free than it wants; a running build goes on."""
    with laid(MAKE, "--free", str(10**17)) as (node, driver):
        node.post("a/b")
        told = driver.tells("~ a/b doesn't begin: [0-9]+ bytes of disk are free, and 100000000000000000 have to be")
        time.sleep(0.5)
        add(tally, "a disk that is nearly full", told and driver.begun() == 0 and len(driver.lines()) == 1, driver.lines())
    with laid(MAKE, "--free", "1") as (node, driver):
        add(tally, "a disk with room", bool(node.take(node.post("a/b"))), driver.lines())


def write_try(node, number):
    with open(f"{node.folder}/next", "w", encoding="ascii") as file:
        file.write(f"{number}\n")
    os.rename(f"{node.folder}/next", f"{node.folder}/try")


def logs(tally):
    """Each try has a log; the last ones are kept, those of tries that failed apart. The work tree of the last one that failed is kept, too."""
    with node_alone() as node:
        script = 'echo try $(cat "$TOP/try"); echo > tree; [ $(cat "$TOP/try") -gt 4 ] || exit 1; ' + MAKE
        driver = Driver(node, script, "--keep-logs", "3", "--keep-failed", f"{node.folder}/trees")
        write_try(node, 1)
        name = node.post("a/b")
        for number in range(1, 7):
            part = "failed" if number < 5 else "done"
            until(lambda: os.path.exists(f"{node.work}/{part}/{name}") and not os.listdir(f"{node.work}/build"))
            if number == 4:
                kept = sorted(os.listdir(f"{node.folder}/trees/a:b")), os.listdir(f"{node.folder}/trees/a:b/obj")
            # the next try begins when that is gone
            write_try(node, number + 1)
            os.unlink(f"{node.work}/{part}/{name}")
        # the next try may have begun already
        os.unlink(f"{node.work}/jobs/{name}")
        until(lambda: not os.listdir(f"{node.work}/build"))
        driver.end()
        failed = sorted(os.listdir(f"{node.work}/logs/failed"))
        last = [read(f"{node.work}/logs/failed/{name}").splitlines()[-1] for name in failed]
        add(tally, "logs of tries that failed", failed == ["a:b.log", "a:b.log.1", "a:b.log.2"] and len(set(last)) >= 1, failed, last)
        mine = sorted(name for name in os.listdir(f"{node.work}/logs") if name.startswith("a:b"))
        add(tally, "logs of other tries", mine and set(mine) <= {"a:b.log", "a:b.log.1", "a:b.log.2"}, mine)
        add(tally, "a work tree of a build that failed", kept == (["obj", "out"], ["tree"]), kept)


def times(tally):
    """A line is appended for each build that ended with 0, and nothing that was half written stays."""
    with node_alone() as node:
        with open(f"{node.work}/times", "w", encoding="ascii") as file:
            file.write("x/y 1.0 5 0\nx/z 3")
        driver = Driver(node, 'sleep 1; [ $PKGPATH != a/fails ] || exit 1; for p in $PACKAGES; do d="$OUT/$(echo $p | tr / :)"; mkdir "$d"; head -c 3000 /dev/zero > "$d/f"; done',
                        "--digests", "10")
        node.take(node.post("a/b", ("a/b,-docs", "a/b,-main")))
        node.failed(node.post("a/fails"))
        until(lambda: read(f"{node.work}/times").count("\n") > 1)
        driver.end()
        lines = read(f"{node.work}/times").splitlines()
        right = lines[0] == "x/y 1.0 5 0" and len(lines) == 2 and re.fullmatch(r"a/b,-docs [1-9][0-9]*\.[0-9] 6000 1", lines[1])
        add(tally, "the file of times", right, lines)


def graces(tally):
    """--grace is how long a build may take to clean up; all builds have it at the same time."""
    script = 'trap "sleep 3; echo > $TOP/cleaned.$SLOT; exit 1" TERM; echo > "$TOP/up.$SLOT"; while :; do sleep 0.1; done'
    with laid(script, "-j", "4", "--grace", "20") as (node, driver):
        for number in range(4):
            node.post(f"a/p{number}")
        until(lambda: all(has_text(f"{node.folder}/up.{number}") for number in range(4)))
        began = time.monotonic()
        status = driver.end()
        took = time.monotonic() - began
        cleaned = [number for number in range(4) if has_text(f"{node.folder}/cleaned.{number}")]
        add(tally, "what builds clean up, and their places", status == 143 and cleaned == [0, 1, 2, 3], status, cleaned, driver.lines())
        add(tally, "what builds clean up, at the same time", took < 12, took, timed=True)


def begun(tally):
    """A job that has begun has a file that shows it, until it has an answer."""
    with laid(SLOW) as (node, driver):
        name = node.post("a/b")
        until(lambda: has_text(f"{node.folder}/pid"))
        first = os.listdir(f"{node.work}/begun")
        with open(f"{node.folder}/go", "w"):
            node.take(name)
        add(tally, "that a job has begun", first == [name] and until(lambda: os.listdir(f"{node.work}/begun") == []), first, driver.lines())
    with laid(BUILD + "; exit 1") as (node, driver):
        node.failed(node.post("a/b"))
        add(tally, "that a job has begun, and failed", until(lambda: os.listdir(f"{node.work}/begun") == []), driver.lines())


def is_locked(path):
    """Whether somebody holds the file's lock, as a node looks."""
    with open(path, "rb") as file:
        try:
            fcntl.flock(file, fcntl.LOCK_SH | fcntl.LOCK_NB)
        except BlockingIOError:
            return True
    return False


def locks_of_builds(tally):
    """The file of a job that has begun is locked as long as its build runs, also without its driver. The command doesn't have that file."""
    script = 'for n in 3 4 5 6 7 8 9; do (: >&$n) 2> /dev/null && echo $n; done > "$TOP/open"; ' + SLOW
    with laid(script) as (node, driver):
        name = node.post("a/b")
        until(lambda: has_text(f"{node.folder}/pid"))
        begun = f"{node.work}/begun/{name}"
        driver.end(signal.SIGKILL)
        runs = is_locked(begun)
        with open(f"{node.folder}/go", "w"):
            is_free = until(lambda: not is_locked(begun))
        again = Driver(node, script)
        made = node.take(name)
        is_gone = until(lambda: os.listdir(f"{node.work}/begun") == [])
        add(tally, "the lock of a job that has begun", runs and is_free and bool(made) and is_gone, runs, is_free, made, again.lines())
        add(tally, "the same, what its command has open", read(f"{node.folder}/open") == "", read(f"{node.folder}/open"))
        again.end(signal.SIGKILL)


def run_first(tally):
    for one in (limits, free_disk, times, begun, locks_of_builds):
        tally.case(one)


def run_second(tally):
    for one in (limits_by_name, logs, graces):
        tally.case(one)
