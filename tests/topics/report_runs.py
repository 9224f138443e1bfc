"""dpbn-report that looks again and again: its commands, what appears and goes, its terminal; what it refuses, and what is odd."""
import os
import pty
import signal
import subprocess
import time

from topics import live, packages
from topics.report_played import COUNTS, LIMIT, LISTING, TOOL, check, held, log_of, played, promised, put
from topics.tally import contents, difference

OTHER = "it is the log of another listing, or of one read otherwise (--single)"


def hooks(tally):
    """Each command is run once: at the first failure, and when the bulk is over; also where the report is started again."""
    with played() as run:
        ran = f"{run.folder}/ran"
        more = ["--rest", "0", "--at-failure", f'echo "failure $STATE $FAILED" >> {ran}; cat > {ran}.text',
                "--at-end", f'echo "end $STATE" >> {ran}']
        run.run(*more)
        check(tally, "a command at the first failure", contents(ran) == b"failure runs 3\n", contents(ran))
        check(tally, "the same, what it reads", contents(f"{ran}.text") == contents(f"{run.out}/status.txt"), contents(f"{ran}.text"))
        run.run(*more)
        check(tally, "the same, again", contents(ran) == b"failure runs 3\n", contents(ran))
        for note in (held("x/n", "n-1", 1, "1.1"), held("x/o", "o-1", 2, "3.2"), held("x/p", "p-1", 2, "3.2")):
            run.append(2, note)
        _, found = run.run("--rest", "1000")
        check(tally, "what can't go on may have to rest", found["state"] == "runs", found["state"])
        run.run(*more)
        _, found = run.run(*more)
        wanted = b"failure runs 3\nend stopped\n"
        check(tally, "a command at the end", (contents(ran), found["state"]) == (wanted, "stopped"), contents(ran), found["state"])
        said = " ".join(contents(f"{run.out}/status.txt").decode().split())
        check(tally, "the same, in words", "Nothing else can be built before a failure is mended." in said, said)
        for unit in ("lib/c", "lib/d", "app/g", "tool/h", "tool/i", "tool/j", "x/k"):
            run.append(2, held(unit, f"{unit[-1]}-1", 2, "9.2"))
        both = [packages.record(f"app/e,-{name}", f"e-{name}-1", [], host=2, claim="9.2") for name in ("docs", "main")]
        run.append(2, packages.note(4, "app/e", packages.build(*both)))
        _, found = run.run(*more)
        told = found["state"], found["failures"], contents(ran), os.listdir(f"{run.out}/logs")
        check(tally, "all is built, also what failed", told == ("finished", [], wanted, []), told)
        check(tally, "the same, in words and in percent", "Bulk build: finished, 100 %" in contents(f"{run.out}/status.txt").decode())
    with played() as run:
        began = time.monotonic()
        said, _ = run.run("--at-failure", "exit 3")
        check(tally, "a command that fails", said == (b"", b"dpbn-report: a command ended with status 3\n", 0), said)
        check(tally, "a command of no use takes no time", time.monotonic() < began + LIMIT / 2, timed=True)


def started(run, *more, **which):
    """The tool, which looks each second."""
    called = [TOOL, *run.words("--every", "1", *more, **which)]
    return subprocess.Popen(called, stdout=subprocess.PIPE, stderr=subprocess.PIPE, preexec_fn=heard)


def heard():
    """No signal is ignored, whatever the caller of the tests ignores."""
    for number in (signal.SIGHUP, signal.SIGINT, signal.SIGTERM):
        signal.signal(number, signal.SIG_DFL)


def wait_for(run, holds, seconds=LIMIT):
    """Waits until a status of the run is so, and answers whether one was."""
    return live.until(lambda: bool(run.status()) and holds(run.status()), seconds, 0.1)


def again_and_again(tally):
    """A report that looks each second sees what appears, what is mended and what is broken; a signal ends it."""
    with played() as run:
        tool = started(run)
        try:
            check(tally, "a report that goes on", wait_for(run, lambda it: it["counts"] == COUNTS), run.status())
            run.append(1, held("x/n", "n-1", 1, "1.1"))
            seen = wait_for(run, lambda it: it["counts"]["I"] == 3)
            listed = {one["unit"]: one for one in run.status()["list"]}
            right = seen and "since" in listed["x/n"] and listed["x/p"]["letter"] == "Q"
            check(tally, "the same, a unit becomes held", right, listed["x/n"])
            hours_of = [(one["units"], one["paths"]) for one in run.status()["hours"]]
            check(tally, "the same, by the hour", hours_of == [(1, 1)], hours_of)
            for name in os.listdir(f"{run.folder}/work-0/failed"):
                os.unlink(f"{run.folder}/work-0/failed/{name}")
            seen = wait_for(run, lambda it: it["units"]["failed"] == 2)
            tries = {one["unit"]: one["tries"] for one in run.status()["list"]}
            right = seen and (tries["lib/c"], tries["tool/h"]) == (1, 2)
            check(tally, "the same, a mark is removed", right, run.status()["failures"], tries)
            put(f"{run.folder}/work-1/away", "no space left\n")
            put(f"{run.folder}/work-0/stop", "")
            states = ["drains", "away", "builds"]
            seen = wait_for(run, lambda it: [one["state"] for one in it["hosts"]] == states)
            check(tally, "the same, hosts that begin nothing", seen, run.status()["hosts"])
            told = live.until(lambda: b"host 1 can't build now: no space left" in contents(f"{run.out}/status.txt"), LIMIT)
            seen = wait_for(run, lambda it: it["hosts"][1]["why"] == "no space left")
            check(tally, "the same, why", told and seen, run.status()["hosts"][1])
            broken(tally, run)
            tool.send_signal(signal.SIGTERM)
            said = tool.communicate(timeout=LIMIT)
            check(tally, "the same, ended by a signal", (said, tool.returncode) == ((b"", b""), 143), said, tool.returncode)
            left = [name for name in os.listdir(run.out) if name.startswith(".")]
            check(tally, "the same, what it left", not left, left)
        finally:
            tool.kill()
            tool.wait()


def broken(tally, run):
    """A log that is gone, replaced, broken or another listing's while a report looks."""
    path, text = f"{run.folder}/logs/node-0.log", contents(f"{run.folder}/logs/node-0.log")
    put(f"{path}.new", text)
    os.replace(f"{path}.new", path)
    run.append(0, held("x/o", "o-1", 2, "3.2"))
    seen = wait_for(run, lambda it: it["counts"]["I"] == 4 and not it["problems"])
    check(tally, "a log that was copied anew", seen, run.status()["counts"])
    put(f"{path}.new", log_of(bytes(32), [], 0))
    os.replace(f"{path}.new", path)
    told = [f"{path}: {OTHER}"]
    check(tally, "a log of another listing meanwhile", wait_for(run, lambda it: it["problems"] == told), run.status()["problems"])
    check(tally, "the same, what the others hold", run.status()["counts"]["I"] == 3, run.status()["counts"])
    os.unlink(path)
    check(tally, "a log that is gone", wait_for(run, lambda it: not it["problems"]), run.status()["problems"])
    since = [one["unit"] for one in run.status()["list"] if "since" in one]
    check(tally, "the same, since when the others hold", since == ["x/n"], since)
    put(path, text[:-1] + b"\1\0\0\1\0half")
    told = [f"{path}: the note at {len(text) - 1} isn't whole, so what follows isn't read"]
    seen = wait_for(run, lambda it: it["problems"] == told and it["counts"]["B"] == 1)
    check(tally, "a log that is cut", seen, run.status()["problems"], told)
    put(path, text[:-1] + b"\1\0\0\0\4\7\0\1x\0")
    told = [f"{path}: a note's kind or path is wrong at {len(text) + 4}"]
    check(tally, "a malformed note", wait_for(run, lambda it: it["problems"] == told), run.status()["problems"], told)


def watched(tally):
    """--watch prints the text; on a terminal it fills the screen, and q ends it."""
    with played() as run:
        tool = started(run, "--watch")
        lines = [tool.stdout.readline() for _ in range(3)]
        tool.terminate()
        said = tool.communicate(timeout=LIMIT)
        right = lines[0].startswith(b"Bulk build: runs, 20 %") and (said[1], tool.returncode) == (b"", 143)
        check(tally, "--watch without a terminal", right, lines, said, tool.returncode)
        out, status = on_terminal([TOOL, *run.words("--watch")], b"q")
        right = status == 0 and b"\x1b[?1049h" in out and b"lib/c" in out and out.rstrip().endswith(b"\x1b[?1049l")
        check(tally, "--watch on a terminal", right, out, status)


def on_terminal(called, keys):
    """What a program writes on a terminal, on which these keys are pressed once it wrote something; and its status."""
    pid, terminal = pty.fork()
    if not pid:
        heard()
        os.execvp(called[0], called)
    out, end = b"", time.monotonic() + LIMIT
    while time.monotonic() < end:
        try:
            part = os.read(terminal, 65536)
        except OSError:
            break
        is_pressed = b"HOSTS" in out
        out += part
        # what it writes may come in pieces
        if b"HOSTS" in out and not is_pressed:
            os.write(terminal, keys)
    os.close(terminal)
    return out, os.WEXITSTATUS(os.waitpid(pid, 0)[1])


def refused(tally):
    """What is bad is refused by name at the first look, and nothing is written."""
    with played() as run:
        good, log = LISTING.encode(), contents(f"{run.folder}/logs/node-1.log")
        place, times = f"{run.folder}/logs/node-1.log", f"{run.folder}/times"
        put(times, "a/b 1 2 3\nnothing\n")
        cases = [("a listing with a bad line", {f"{run.folder}/listing": good + b"a/b\n"}, (), "listing: fault 401 at 31"),
                 ("a listing with a bad path", {f"{run.folder}/listing": b"vim.FULLPKGNAME=vim-9\n"}, (), "listing: fault 402 at 1"),
                 ("a listing that isn't there", {}, ("--listing", "/no/such"), "[Errno 2] No such file or directory: '/no/such'"),
                 ("malformed times", {}, ("--times", times), "times: line 2 isn't 'UNIT SECONDS BYTES HOST'"),
                 ("a log of another listing", {place: log_of(bytes(32), [], 1)}, (), f"node-1.log: {OTHER}"),
                 ("a listing that is read otherwise", {}, ("--single",), f"node-0.log: {OTHER}"),
                 ("a file that isn't a log", {place: b"\1" + b"x" * 60}, (), "node-1.log: no log: another magic at 1"),
                 ("a log of other members", {place: log_of(run.tree, [], 1, (1, 1))}, (),
                  "node-1.log: it has other members or weights than an earlier log"),
                 ("two logs of one member", {place: log_of(run.tree, [], 0)}, (), "node-1.log: member 0 has an earlier log"),
                 ("a note on no unit", {place: log_of(run.tree, [promised("a/b", 1, 0)], 1)}, (),
                  "node-1.log: a note is on a/b, which isn't a unit of the listing"),
                 ("a log that is a folder", {}, ("--log", run.folder), f"{run.folder}: Is a directory")]
        for name, files, more, told in cases:
            for path, text in files.items():
                put(path, text)
            (out, said, status_), found = run.run(*more)
            right = (out, status_, found) == (b"", 1, None) and said.startswith(b"dpbn-report: ") and said.endswith(told.encode() + b"\n")
            check(tally, f"dpbn-report of {name}", right and said.count(b"\n") == 1, said, status_)
            put(f"{run.folder}/listing", good)
            put(place, log)
        for name, more in (("no words", []), ("no listing", ["--out", "x"]), ("nothing to write", ["--listing", "x"]),
                           ("a bad number", run.words("--every", "0")), ("logs of some work folders", run.words("--logs", "x"))):
            done = subprocess.run([TOOL, *more], capture_output=True, timeout=LIMIT)
            right = (done.stdout, done.returncode) == (b"", 2) and b"usage: dpbn-report" in done.stderr
            check(tally, f"dpbn-report, {name}", right, done.stderr)


def odd(tally):
    """Marks of a node, FIFOs, strange files and an earlier status that is malformed: each is passed over or shown, and nobody is waited for."""
    with played() as run:
        work = f"{run.folder}/work-1"
        name = run.job(1, "x/o", 3)
        put(f"{work}/failed/{name}", "its text is none\n")
        os.mkfifo(f"{work}/jobs/{'1' * 64}")
        os.mkfifo(f"{work}/failed/{'2' * 64}")
        os.mkdir(f"{work}/failed/{'3' * 64}")
        put(f"{work}/failed/.{'4' * 64}.half", "x/n: no\n")
        put(f"{work}/jobs/no-job", "@unit x/n\n")
        put(f"{work}/times", "x/n 1\nbase/b 7.5 100 1\nbase/b 8")
        os.unlink(f"{work}/logs/x:k.log")
        os.mkfifo(f"{work}/logs/x:k.log")
        put(f"{run.out}/status.json", '{"listing": "' + run.tree.hex() + '", "history": [{}], "hooks": 3}')
        said, found = run.run()
        tally.add("dpbn-report of strange files", difference(said, (b"", b"", 0)))
        by_unit = {one["unit"]: one for one in found["failures"]}
        told = by_unit.get("x/o", {}).get("reason"), by_unit["x/k"]["tail"], by_unit["x/k"]["log"]
        check(tally, "the same, its failures", told == ("its text is none", [], None), told)
        wanted = [f"{work}/failed/{digit * 64}: it is the mark of no unit that is known" for digit in "23"]
        wanted = [f"{work}/times: a line isn't 'UNIT SECONDS BYTES HOST'", *wanted]
        check(tally, "the same, what is said", found["problems"] == wanted, found["problems"], wanted)
        seconds = next(one.get("seconds") for one in found["list"] if one["unit"] == "base/b")
        check(tally, "the same, a time whose next line isn't whole", seconds == 8, seconds)
    with played() as run:
        begins(tally, run)
    with played() as run:
        run.begin(1, "x/o", time.time() - 100)
        _, found = run.run(logs=(1,), works=(1,))
        hosts_of = [(one["host"], one["builds"], one["counts"] is not None) for one in found["hosts"]]
        # by log 1 the greatest claim of tool/h is that of host 0, of which nothing else is known
        states = [one["state"] for one in found["hosts"]]
        check(tally, "the same, what the hosts do", states == ["builds", "builds", "unknown"], states)
        check(tally, "one log and its work folder", hosts_of == [(0, 1, False), (1, 2, True), (2, 0, False)], hosts_of)
        _, found = run.run("--names", "oak,elm,fir", logs=(), works=(0, 1))
        named = [(one["name"], one["failed"]) for one in found["hosts"]]
        check(tally, "work folders without a log", named == [("oak", 2), ("elm", 2)], named)
        said, found = run.run(logs=(7,), works=())
        right = (said, found["counts"]["Q"], found["hosts"]) == ((b"", b"", 0), 4, [])
        check(tally, "a log that isn't there yet", right, said, found["counts"])


def begins(tally, run):
    """With a folder of files for jobs that have begun these decide what runs, and since when; logs of failed tries have a folder, too."""
    run.show_begun(1, "x/o", time.time() - 7000)
    os.makedirs(f"{run.folder}/work-0/logs/failed")
    put(f"{run.folder}/work-0/logs/failed/lib:c.log", "of the try that failed\n")
    put(f"{run.folder}/work-0/logs/lib:c.log", "of another\n")
    put(f"{run.folder}/work-0/times", "app/f 12.5 1000 0\n")
    _, found = run.run()
    by_unit = {one["unit"]: one for one in found["list"]}
    states = [(one["host"], one["state"]) for unit in ("x/o", "x/n") for one in by_unit[unit]["builders"]]
    check(tally, "jobs that have begun", states == [(1, "builds"), (2, "claimed"), (1, "queued")], states)
    check(tally, "since when they have", 7000 <= max(one["seconds"] for one in found["running"]) < 7000 + LIMIT, found["running"])
    check(tally, "the log of a try that failed", found["failures"][0]["tail"] == ["of the try that failed"], found["failures"][0])
    check(tally, "how long a build took", by_unit["app/f"]["seconds"] == 12, by_unit["app/f"])
