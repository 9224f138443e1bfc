"""tools/build-jobs when something goes wrong next to the builds: a lock that can't be looked at, lines that nobody reads, builds that can't be
ended or that close what they were given. Also what is over when a signal comes, and a log that is broken."""
import contextlib
import glob
import os
import re
import signal
import subprocess
import time

from topics import packages
from topics.played import BUILD, LIMIT, MAKE, SLOW, Driver, add, end_builds, has_text, is_alive, laid, node_alone, read, until
from topics.tally import TOP

# how long a work folder has to be out of sight before its driver ends, in seconds
GONE = 2


def lock_out_of_sight(tally):
    """The lock can't be looked at for a moment, as on a file system that doesn't answer: the driver goes on, and so do its builds."""
    for _ in range(20):
        if for_a_moment(tally):
            return
    add(tally, "a lock that can't be looked at for a moment", False, "this machine is too busy")


def for_a_moment(tally):
    """Takes the lock away for a moment. Returns whether it was one: on a busy machine it may be so long that the driver ends."""
    with laid(SLOW) as (node, driver):
        name = node.post("a/b")
        until(lambda: has_text(f"{node.folder}/pid"))
        began = time.monotonic()
        os.rename(node.work, f"{node.folder}/elsewhere")
        os.symlink("work", node.work)
        time.sleep(0.7)
        os.unlink(node.work)
        os.rename(f"{node.folder}/elsewhere", node.work)
        if time.monotonic() - began > 0.75 * GONE:
            return False
        time.sleep(0.2)
        add(tally, "a lock that can't be looked at", driver.process.poll() is None and is_alive(node.folder, "pid"), driver.lines())
        with open(f"{node.folder}/go", "w"):
            made = node.take(name)
        add(tally, "the same, what was built meanwhile", bool(made) and driver.begun() == 1, driver.lines())
        return True


# a long one, which ends while a large one is hashed: a GiB of zeros that take no room
OVER = ('d="$OUT/$(echo $PKGPATH | tr / :)"; mkdir "$d"; echo > "$TOP/began.$(basename $PKGPATH)"; until [ -e "$TOP/go" ]; do sleep 0.05; done; '
        'echo made > "$d/f"; [ $PKGPATH != a/big ] || dd if=/dev/null of="$d/core" bs=1 seek=1073741824 2>/dev/null; echo > "$TOP/over.$(basename $PKGPATH)"')


def what_is_over_at_a_signal(tally):
    """A build that ended well is handed in when a signal comes, and one whose files are still hashed by the next run: none is built again."""
    with laid(OVER, "-j", "2", "--digests", "1000000") as (node, driver):
        names = [node.post("a/long"), node.post("a/big")]
        until(lambda: all(has_text(f"{node.folder}/began.{word}") for word in ("long", "big")))
        with open(f"{node.folder}/go", "w"):
            until(lambda: all(has_text(f"{node.folder}/over.{word}") for word in ("long", "big")))
        # the last command of a script has ended, and now the script does
        until(lambda: all(map(has_status, glob.glob(f"{glob.escape(node.work)}/build/*/status"))))
        began = time.monotonic()
        status = driver.end()
        took = time.monotonic() - began
        long = os.path.exists(f"{node.work}/done/{names[0]}")
        add(tally, "a signal, and files that are hashed", status == 143, status, driver.lines())
        # a driver that ends takes three seconds for that, at most
        add(tally, "a signal, what ended before it", long, driver.lines(), timed=True)
        add(tally, "a signal while large files are hashed", took < 10, took, driver.lines(), timed=True)
        again = Driver(node, OVER, "-j", "2", "--digests", "1000000")
        made = [bool(node.take(name)) for name in names]
        begun = driver.begun() + again.begun()
        add(tally, "the same, nothing is built again", made == [True, True] and begun == 2, made, driver.lines(), again.lines())
        again.end()


def has_status(path):
    """Whether a supervisor wrote how its build ended into the file, which is blank before; or the build is through, and the file is gone."""
    try:
        return not read(path).startswith(" ")
    except FileNotFoundError:
        return True


def lines_that_nobody_reads(tally):
    """Standard output is a pipe that is full and that nobody reads: builds go on, and a signal is heard."""
    reads, writes = os.pipe()
    os.set_blocking(writes, False)
    with contextlib.suppress(BlockingIOError):
        while True:
            os.write(writes, b"x" * 4096)
    os.set_blocking(writes, True)
    with laid(MAKE, out=writes) as (node, driver):
        made = [node.take(node.post(f"a/p{number}")) for number in range(3)]
        began = time.monotonic()
        status = driver.end()
        took = time.monotonic() - began
        add(tally, "lines that nobody reads", all(made) and status == 143, made, status)
        add(tally, "lines that nobody reads, how soon the driver ends", took < 10, took, timed=True)
    os.close(reads)
    os.close(writes)


def a_large_answer(tally):
    """While a large file is hashed other jobs begin at once, and the store has them without a copy."""
    script = 'd="$OUT/$(echo $PKGPATH | tr / :)"; mkdir "$d"; if [ $PKGPATH = a/big ]; then dd if=/dev/null of="$d/core" bs=1 seek=1073741824 2>/dev/null; fi; echo > "$TOP/over.$(basename $PKGPATH)"'
    with laid(script, "-j", "2", "--digests", "1000000") as (node, driver):
        big = node.post("a/big")
        until(lambda: has_text(f"{node.folder}/over.big"))
        time.sleep(0.1)
        began = time.monotonic()
        other = node.post("a/other")
        is_begun = until(lambda: has_text(f"{node.folder}/over.other"))
        took, is_hashed = time.monotonic() - began, not os.path.exists(f"{node.work}/done/{big}")
        add(tally, "a job that is posted next to another's large file", is_begun, driver.lines())
        add(tally, "a job that is posted while another's files are hashed", is_hashed and took < 3, took, is_hashed, driver.lines(), timed=True)
        made = bool(node.take(big)), bool(node.take(other))
        room = sum(os.stat(f"{node.work}/store/{name}").st_blocks for name in os.listdir(f"{node.work}/store")) * 512
        add(tally, "a sparse file", made == (True, True) and room < 100_000_000, made, room)


def a_build_that_cannot_be_ended(tally):
    """A build whose supervisor doesn't answer: it is reported, keeps its folder and its place, and its unit isn't begun next to it."""
    with laid('echo $PPID > "$TOP/supervisor"; ' + SLOW, "-j", "2", "--grace", "0") as (node, driver):
        name = node.post("a/b")
        until(lambda: has_text(f"{node.folder}/pid"))
        supervisor = int(read(f"{node.folder}/supervisor"))
        os.kill(supervisor, signal.SIGSTOP)
        try:
            os.rename(f"{node.work}/jobs/{name}", f"{node.folder}/job")
            folder = f"{os.path.realpath(node.work)}/build/{os.listdir(f'{node.work}/build')[0]}"
            told = driver.tells(re.escape(f"= a build that can't be ended goes on in {folder}"))
            os.rename(f"{node.folder}/job", f"{node.work}/jobs/{name}")
            time.sleep(1)
            add(tally, "a build that can't be ended", told and driver.begun() == 1 and is_alive(node.folder, "pid"), driver.lines())
        finally:
            os.kill(supervisor, signal.SIGCONT)
        again = until(lambda: driver.begun() == 2)
        add(tally, "the same, once it ended", again, driver.lines())


def a_command_that_closes_its_files(tally):
    """A command that closes all that it was given, as ssh does, is still seen when its driver is killed: its unit isn't begun next to it."""
    script = ('exec python3 -c "import os, time\nos.closerange(3, 256)\nopen(os.environ[\'TOP\'] + \'/begun\', \'a\').write(\'x\\n\')\n'
              'while not os.path.exists(os.environ[\'TOP\'] + \'/go\'): time.sleep(0.05)\nos.mkdir(os.environ[\'OUT\'] + \'/a:b\')"')
    with laid(script) as (node, driver):
        name = node.post("a/b")
        until(lambda: has_text(f"{node.folder}/begun"))
        driver.end(signal.SIGKILL)
        again = Driver(node, script)
        told = again.tells("= a build of a/b goes on, which an earlier run began")
        time.sleep(1)
        add(tally, "a command that closes its files", told and read(f"{node.folder}/begun") == "x\n", again.lines())
        with open(f"{node.folder}/go", "w"):
            made = node.take(name)
        add(tally, "the same, what it built", bool(made) and read(f"{node.folder}/begun") == "x\n", again.lines())
        again.end()


def builds_that_ignore_a_signal(tally):
    """Eight builds that ignore SIGTERM, all taken away at once, end together, and another job begins meanwhile."""
    script = ('[ $PKGPATH = z/next ] && { ' + MAKE + 'exit 0; }; trap "" TERM; echo > "$TOP/up.$(basename $PKGPATH)"; while :; do sleep 0.2; done')
    with laid(script, "-j", "9", "--grace", "1") as (node, driver):
        names = [node.post(f"a/p{number}") for number in range(8)]
        until(lambda: all(has_text(f"{node.folder}/up.p{number}") for number in range(8)))
        for name in names:
            os.unlink(f"{node.work}/jobs/{name}")
        began = time.monotonic()
        made = node.take(node.post("z/next"))
        first = time.monotonic() - began
        is_over = until(lambda: sum(line.endswith(": its job was taken away") for line in driver.lines()) == 8)
        took = time.monotonic() - began
        add(tally, "eight builds that ignore SIGTERM", is_over, driver.lines())
        add(tally, "eight builds that ignore SIGTERM, how soon they end", took < 8, took, driver.lines(), timed=True)
        add(tally, "a job that is posted meanwhile", bool(made), driver.lines())
        add(tally, "a job that is posted meanwhile, how soon it is built", first < took, first, took, timed=True)


def places_after_a_kill(tally):
    """Builds that outlive a driver count: with -j 2 two run, not four."""
    script = 'echo $$ >> "$TOP/pids"; until [ -e "$TOP/go" ]; do sleep 0.05; done; ' + MAKE
    with laid(script, "-j", "2") as (node, driver):
        names = [node.post(f"a/p{number}") for number in range(4)]
        until(lambda: os.path.exists(f"{node.folder}/pids") and len(read(f"{node.folder}/pids").split()) == 2)
        driver.end(signal.SIGKILL)
        again = Driver(node, script, "-j", "2")
        until(lambda: sum(line.startswith("= a build of") for line in again.lines()) == 2)
        time.sleep(1)
        count = len(read(f"{node.folder}/pids").split())
        add(tally, "builds that outlive a driver count", count == 2, count, again.lines())
        with open(f"{node.folder}/go", "w"):
            made = [bool(node.take(name)) for name in names]
        add(tally, "the same, all is built once", all(made) and len(read(f"{node.folder}/pids").split()) == 4, made, again.lines())
        again.end()


def many_packages(tally):
    """A unit of this many packages that they don't fit into one word: PACKAGES isn't set, and PACKAGES_FILE has them all."""
    script = 'echo "${PACKAGES-unset}" > "$TOP/packages"; cd "$OUT" && sed s,/,:,g "$PACKAGES_FILE" | xargs mkdir'
    unit = "a/" + "b" * 120
    paths = [f"{unit},-s{number:05}" for number in range(1100)]
    with laid(script) as (node, driver):
        made = node.take(node.post(unit, paths))
        add(tally, "a unit of 1,100 packages", sorted(made) == paths and read(f"{node.folder}/packages") == "unset\n", len(made), driver.lines())
        made = node.take(node.post("c/d", ["c/d,-a", "c/d,-b"]))
        add(tally, "the next one", read(f"{node.folder}/packages") == "c/d,-a c/d,-b\n", read(f"{node.folder}/packages"), made)


def a_note_of_any_length(tally):
    """A note whose length is broken is reported with its place, and read again before the driver ends."""
    with laid(BUILD) as (node, driver):
        node.hold("a/b", {"a/b": []})
        made = node.take(node.post("c/d", built=["a/b"]))
        with open(node.log, "r+b") as file:
            place = file.seek(-1, os.SEEK_END)
            file.write(b"\1\xff\xff\xff\xff\4" + bytes(200))
        status = driver.process.wait(LIMIT)
        wanted = f"build-jobs: {node.log}: a note's length is 4294967295 at {place + 1}"
        add(tally, "a note of 4 GiB", bool(made) and status == 1 and driver.lines()[-1] == wanted, status, driver.lines())


def deep_folders(tally):
    """make-builds of folders in folders, deeper than Python calls may nest and more than a path may name: refused with a line."""
    for letters in (1, 9):
        with node_alone() as node:
            subprocess.run(["python3", "-c", "import os\nos.makedirs('a:b')\nos.chdir('a:b')\n"
                            f"for _ in range(1100):\n os.mkdir('x' * {letters})\n os.chdir('x' * {letters})\nopen('file', 'w').write('x')"],
                           cwd=node.folder, check=True)
            done = subprocess.run([f"{TOP}/tools/make-builds", node.folder], capture_output=True, text=True, timeout=LIMIT)
            right = done.returncode == 1 and done.stdout == "" and re.fullmatch("make-builds: .*\n", done.stderr)
            tally.add(f"make-builds of folders that are too deep, names of {letters} letters", "" if right else f"{done.stderr:.400}, status {done.returncode}")
            subprocess.run(["rm", "-rf", f"{node.folder}/a:b"], check=True)


def thresholds(tally):
    """make-builds --digests has a threshold: larger files go by their digests, though the build would fit with them."""
    with node_alone() as node:
        os.makedirs(f"{node.folder}/set/a:b")
        for name, size in (("small", 100), ("large", 5000)):
            with open(f"{node.folder}/set/a:b/{name}", "wb") as file:
                file.write(bytes(size))
        out, said, status = packages.tool("make-builds", "--digests", "1000", f"{node.folder}/set")
        right = (said, status) == (b"", 0) and b'"large.sha256"' in out and b'"small"' in out
        tally.add("make-builds --digests 1000", "" if right else f"{out!r:.300} {said!r} {status}")


def supervisors_that_are_killed(tally):
    """A build whose supervisor is killed ends with it, and is given back."""
    with laid('echo $PPID > "$TOP/supervisor"; ' + SLOW) as (node, driver):
        name = node.post("a/b")
        until(lambda: has_text(f"{node.folder}/pid"))
        os.kill(int(read(f"{node.folder}/supervisor")), signal.SIGKILL)
        told = driver.tells("~ a/b is given back: its supervisor was killed; .*")
        gone = until(lambda: not is_alive(node.folder, "pid")) and until(lambda: not os.listdir(f"{node.work}/begun"))
        left = os.listdir(f"{node.work}/failed"), os.listdir(f"{node.work}/begun"), os.listdir(f"{node.work}/jobs")
        add(tally, "a supervisor that is killed", told and gone and left == ([], [], [name]), driver.lines(), left)


# a build that notes whether another one of its unit runs next to it, and ends a while after it was asked to
ALONE = ('mkdir "$TOP/runs" || echo > "$TOP/twice"; trap \'sleep 1; rmdir "$TOP/runs"; exit 1\' TERM; echo $$ > "$TOP/pid"; '
         'until [ -e "$TOP/go" ]; do sleep 0.05; done; rmdir "$TOP/runs"; ' + MAKE)
# how it is run: as it is; by a command that closes what it was given, as ssh does; next to the first process of its group
WAYS = {"": 'eval "$ALONE"', ", and a command that closes its files": 'exec python3 -c "import os; os.closerange(3, 256); os.execvp(\'sh\', [\'sh\', \'-c\', os.environ[\'ALONE\']])"',
        ", and a first process that ends": 'sh -c "$ALONE" & wait'}


def killed_with_their_supervisors(tally):
    """A build whose driver and supervisor are killed together isn't begun again next to itself: the next driver ends it first."""
    for what, way in WAYS.items():
        script, env = f'echo $PPID > "$TOP/supervisor"; {way}', {"ALONE": ALONE}
        with laid(script, "--grace", "60", env=env) as (node, driver):
            name = node.post("a/b")
            until(lambda: has_text(f"{node.folder}/pid") and has_text(f"{node.folder}/supervisor"))
            supervisor, first = int(read(f"{node.folder}/supervisor")), int(read(f"{node.folder}/pid"))
            # neither of them sees that the other one is gone
            os.kill(supervisor, signal.SIGSTOP)
            driver.end(signal.SIGKILL)
            os.kill(supervisor, signal.SIGKILL)
            # else the next driver may still find its lock
            until(lambda: is_over(supervisor))
            if what.endswith("ends"):
                os.kill(os.getpgid(first), signal.SIGKILL)
            again = Driver(node, script, "--grace", "60", env=env)
            told = again.tells("= a build of a/b goes on without its supervisor, which an earlier run began: it is ended")
            is_begun = until(lambda: again.begun("a/b") == 1) and until(lambda: read(f"{node.folder}/pid") not in ("", f"{first}\n"))
            add(tally, f"a driver and a supervisor that are killed{what}", told and is_begun and not os.path.exists(f"{node.folder}/twice"), again.lines())
            dropped = "- a/b: its supervisor was killed" in again.lines() and not os.listdir(f"{node.work}/failed")
            with open(f"{node.folder}/go", "w"):
                made = node.take(name)
            add(tally, f"the same{what}, built again", dropped and bool(made) and not os.path.exists(f"{node.folder}/twice"), made, again.lines())
            again.end()


def is_over(process):
    """Whether a process has ended; somebody may still have to take note of it."""
    state = subprocess.run(["ps", "-o", "stat=", "-p", str(process)], stdout=subprocess.PIPE, check=False).stdout.strip()
    return not state or state.startswith(b"Z")


def parent_of(process):
    """The number of a process's parent."""
    return int(subprocess.run(["ps", "-o", "ppid=", "-p", str(process)], stdout=subprocess.PIPE, check=True).stdout)


def killed_fork_server(tally):
    """The process is killed that starts builds: what runs goes on, and the next one is started by another one."""
    script = 'echo $PPID > "$TOP/supervisor.$(basename $PKGPATH)"; [ $PKGPATH = c/d ] || until [ -e "$TOP/go" ]; do sleep 0.05; done; ' + BUILD
    with laid(script, "-j", "2") as (node, driver):
        name = node.post("a/b")
        until(lambda: has_text(f"{node.folder}/supervisor.b"))
        server = parent_of(int(read(f"{node.folder}/supervisor.b")))
        is_own = parent_of(server) == driver.process.pid
        os.kill(server, signal.SIGKILL)
        made = node.take(node.post("c/d"))
        add(tally, "a fork server that is killed", is_own and bool(made) and driver.begun("c/d") == 1, driver.lines())
        with open(f"{node.folder}/go", "w"):
            made = node.take(name)
        add(tally, "the same, what ran meanwhile", bool(made) and driver.begun("a/b") == 1 and not os.listdir(f"{node.work}/failed"), driver.lines())


def locks_that_are_not_there(tally):
    """On a file system without locks, the touched lock shows that another one works on the folder."""
    refuse = ("import errno, fcntl, sys\nfcntl.flock = lambda *_: (_ for _ in ()).throw(OSError(errno.ENOLCK, 'No locks available'))\n"
              f"sys.path.insert(0, '{TOP}/tools')\nimport os\nfor name in ('waitid', 'sendfile'):\n vars(os).pop(name, None)\n"
              "from dpbn_tools.driver import main\nmain.main()")
    with node_alone() as node:
        words = ["python3", "-c", refuse, node.work, node.log, "--", "sh", "-c", MAKE]
        with open(f"{node.folder}/out", "w") as out:
            first = subprocess.Popen(words, stdin=subprocess.DEVNULL, stdout=out, stderr=out)
            made = node.take(node.post("a/b"))
            second = subprocess.run(words, stdin=subprocess.DEVNULL, capture_output=True, text=True, timeout=LIMIT)
            first.send_signal(signal.SIGTERM)
            status = first.wait(LIMIT)
        right = bool(made) and status == 143 and (second.returncode, second.stderr) == (1, f"build-jobs: another one works on {os.path.realpath(node.work)}\n")
        add(tally, "a folder that can't be locked", right, made, status, second, read(f"{node.folder}/out"))
        end_builds(node)


def stops(tally):
    """While work/stop exists nothing begins, what runs goes on, and that nothing runs any more is reported."""
    with laid(SLOW, "-j", "2") as (node, driver):
        name = node.post("a/b")
        until(lambda: has_text(f"{node.folder}/pid"))
        with open(f"{node.work}/stop", "w") as file:
            file.write("new kernel\n")
        other = node.post("c/d")
        told = driver.tells(re.escape(f"~ nothing begins while {os.path.realpath(node.work)}/stop is there"))
        with open(f"{node.folder}/go", "w"):
            made = node.take(name)
        is_over = driver.tells("~ nothing runs here any more")
        add(tally, "a host that is stopped", told and bool(made) and is_over and driver.begun() == 1, driver.lines())
        os.unlink(f"{node.work}/stop")
        add(tally, "the same, started again", bool(node.take(other)), driver.lines())
    with laid(BUILD) as (node, driver):
        node.take(node.post("a/b"))
        with open(f"{node.work}/away", "w") as file:
            file.write("no power\n")
        other = node.post("c/d")
        told = driver.tells(re.escape(f"~ nothing begins while {os.path.realpath(node.work)}/away is there, which this driver didn't write"))
        time.sleep(1)
        count = driver.begun()
        stays = read(f"{node.work}/away") == "no power\n"
        os.unlink(f"{node.work}/away")
        add(tally, "a host that is away", told and stays and count == 1 and bool(node.take(other)), told, stays, count, driver.lines())


def run_first(tally):
    for one in (lock_out_of_sight, what_is_over_at_a_signal, a_large_answer, builds_that_ignore_a_signal, deep_folders, thresholds):
        tally.case(one)


def run_second(tally):
    for one in (lines_that_nobody_reads, a_command_that_closes_its_files, places_after_a_kill, many_packages, supervisors_that_are_killed, killed_fork_server, stops):
        tally.case(one)


def run_third(tally):
    for one in (killed_with_their_supervisors, a_build_that_cannot_be_ended, a_note_of_any_length, locks_that_are_not_there):
        tally.case(one)
