"""tools/build-over-ssh: a build on another host, by an ssh that is played (tests/played-ssh), and by a real sshd on loopback, if the machine
has one. Jobs are cancelled, drivers killed and lines broken in each step: then nothing runs on the host any more ten seconds later."""
import contextlib
import functools
import getpass
import os
import shutil
import signal
import socket
import subprocess
import tempfile
import time
from typing import Dict, Iterator, List, Optional

from topics import played
from topics.nodes import beside
from topics.tally import TESTS, TOP, contents

# how long something is waited for, in seconds: less than what never ends by itself sleeps here
LIMIT = 300
# how long something may go on running on the host, in seconds, and what a loaded machine may take in addition
MOST, MORE = 10, 10
HOSTS = ("ob1:2", "ob2:2")
# what builds there: it says what it was given, and waits as long as the file `wait` has; two builds at once at a place are noted
BUILD = r"""#!/bin/sh
mkdir "$HOME/at.$SLOT" || echo twice >> "$HOME/twice"
[ ! -e "$HOME/wait" ] || seconds=$(cat "$HOME/wait")
echo $$ >> "$HOME/pids"
[ ! -e "$HOME/deaf" ] || trap '' TERM
for word; do echo "word [$word]"; done
echo "PKGPATH [$PKGPATH] PACKAGES [$PACKAGES] HOST [$HOST] SLOT [$SLOT]"; cat "$JOB" "$NAMES"; pwd
(sleep 600 & echo $! >> "$HOME/pids")
[ ! "$seconds" ] || sleep "$seconds" &
wait $!
for path in $PACKAGES; do
	folder=$OUT/$(echo "$path" | tr / :)
	mkdir "$folder" && (cd "$DEPS" && find . -type f | LC_ALL=C sort) > "$folder/saw" && cat "$DEPS"/*/* > "$folder/all" 2> "$HOME/no"
done
rmdir "$HOME/at.$SLOT"
[ ! -e "$HOME/status" ] || . "$HOME/status"
"""


class Place:
    """A job of build-jobs, played, and the hosts that build it."""

    def __init__(self, folder: str) -> None:
        self.folder, self.hosts = folder, f"{folder}/hosts"
        for name in ("hosts/bin", "hosts/ob1", "hosts/ob2", "work/jobs", "deps/a:b", "deps/c:d,-main/sub folder", "out", "obj"):
            os.makedirs(f"{folder}/{name}")
        for name, text in (("deps/a:b/b-1.tgz", b"b" * 200_000), ("deps/a:b/.signature", b"a/b b-1 12\n"), ("deps/c:d,-main/sub folder/it's.tgz", b"\0x\n"),
                           ("deps/c:d,-main/same", b"b" * 200_000), ("work/jobs/0a1b", b"@tree 5a\n\n@unit x/y\n"), ("names", b"x/y,-main y-1\n"),
                           ("hosts/bin/build-port", BUILD.encode())):
            with open(f"{folder}/{name}", "wb") as file:
                file.write(text)
        os.chmod(f"{self.hosts}/bin/build-port", 0o755)
        self.ssh = f"{TESTS}/played-ssh"
        self.env = {"PKGPATH": "x/y's", "PACKAGES": "x/y,-main x/y,-docs", "HOST": "3", "SLOT": "2", "JOB": f"{folder}/work/jobs/0a1b", "NAMES": f"{folder}/names",
                    "DEPS": f"{folder}/deps", "OUT": f"{folder}/out", "PLAYED_HOSTS": self.hosts}
        self.process: "Optional[subprocess.Popen[bytes]]" = None

    def file(self, name: str, text: str) -> None:
        with open(f"{self.hosts}/{name}", "w", encoding="utf-8") as file:
            file.write(text)

    def words(self, *options: str) -> List[str]:
        return [f"{TOP}/tools/build-over-ssh", "--ssh", self.ssh, "--again", "1", *options, *HOSTS, "--", "build-port", "it's", "a  b", ""]

    def start(self, *options: str, **more: str) -> None:
        # each job has a folder of its own to begin in
        begins_in = tempfile.mkdtemp(dir=f"{self.folder}/obj")
        with open(f"{self.folder}/log", "ab") as log:
            self.process = subprocess.Popen(self.words(*options), cwd=begins_in, stdin=subprocess.DEVNULL, stdout=log, stderr=log,
                                            env={**os.environ, **self.env, **more}, start_new_session=True)

    def run(self, *options: str, **more: str) -> int:
        self.start(*options, **more)
        return self.ended()

    def ended(self) -> int:
        assert self.process
        try:
            return self.process.wait(LIMIT)
        finally:
            with contextlib.suppress(ProcessLookupError):
                os.killpg(self.process.pid, signal.SIGKILL)

    def log(self) -> str:
        return contents(f"{self.folder}/log").decode()

    def out(self) -> Dict[str, bytes]:
        return {os.path.relpath(f"{where}/{name}", f"{self.folder}/out"): contents(f"{where}/{name}") for where, _, names in os.walk(f"{self.folder}/out") for name in names}

    def empty_out(self) -> None:
        shutil.rmtree(f"{self.folder}/out")
        os.mkdir(f"{self.folder}/out")

    def calls(self, step: str) -> int:
        with contextlib.suppress(FileNotFoundError):
            return contents(f"{self.hosts}/calls").decode().count(f" {step} ")
        return 0

    def builds(self) -> bool:
        """Whether a build runs there, or ran."""
        return os.path.exists(f"{self.hosts}/ob2/pids")

    def running(self) -> List[str]:
        """What runs of this on the hosts: steps, builds, and what these began. Nothing of it has to do with another test's."""
        rows = subprocess.run(["ps", "-A", "-ww", "-o", "pid=", "-o", "pgid=", "-o", "stat=", "-o", "args="], capture_output=True, check=False).stdout.decode(errors="replace")
        pids = contents(f"{self.hosts}/ob2/pids").decode().split() if self.builds() else []
        place = self.place()
        found = []
        for row in rows.splitlines():
            pid, group, stat, *args = row.split(None, 3)
            if not stat.startswith("Z") and (pid in pids or group in pids or args and place and args[0].startswith("sh ../build-over-ssh") and place in args[0]):
                found.append(row)
        return found

    def place(self) -> str:
        for host in ("ob1", "ob2"):
            with contextlib.suppress(FileNotFoundError):
                for name in os.listdir(f"{self.hosts}/{host}/build-over-ssh"):
                    if name.endswith(("-0", "-1")):
                        return name
        return ""

    def becomes_quiet(self, tally, name: str, seconds: float = MOST) -> bool:
        """Whether nothing runs on the host after a while. Another check is that the while is as short as it is to be."""
        began = time.monotonic()
        while self.running() and time.monotonic() < began + LIMIT:
            time.sleep(.2)
        took, left = time.monotonic() - began, self.running()
        tally.add(f"{name}, what runs on", "\n".join(left))
        tally.add(f"{name}, how soon it ends", "" if took < seconds + MORE else f"after {took:.0f} s", timed=True)
        return not left


def until(holds, seconds: float = LIMIT) -> bool:
    end = time.monotonic() + seconds
    while not holds() and time.monotonic() < end:
        time.sleep(.05)
    return bool(holds())


def removed(folder: str) -> bool:
    shutil.rmtree(folder, ignore_errors=True)
    return not os.path.exists(folder)


@contextlib.contextmanager
def laid() -> Iterator[Place]:
    folder = tempfile.mkdtemp()
    try:
        yield Place(folder)
    finally:
        # what is ended on the host may write for some seconds
        until(lambda: removed(folder), MOST + MORE)


SAW = "./a:b/.signature\n./a:b/b-1.tgz\n./c:d,-main/same\n./c:d,-main/sub folder/it's.tgz\n"
TOLD = ["word [it's]", "word [a  b]", "word []", "PKGPATH [x/y's] PACKAGES [x/y,-main x/y,-docs] HOST [3] SLOT [0]", "@tree 5a\n\n@unit x/y\nx/y,-main y-1"]


def built(place: Place) -> str:
    """What is wrong with the packages that came back, if anything."""
    out = place.out()
    if sorted(out) != ["x:y,-docs/all", "x:y,-docs/saw", "x:y,-main/all", "x:y,-main/saw"] or out["x:y,-main/saw"].decode() != SAW:
        return f"it made {sorted(out)}; {place.log()[-600:]}"
    return f"{place.log()[-600:]}" if os.path.exists(f"{place.hosts}/ob2/twice") else ""


def a_build(tally) -> None:
    """What COMMAND is given and finds, what is returned, and what is sent: each file once."""
    with laid() as place:
        status = place.run()
        tally.add("build-over-ssh", f"status {status}; {place.log()[-600:]}" if status else built(place))
        lacking = [line for line in TOLD if line not in place.log()]
        tally.add("build-over-ssh, what the command gets", f"{lacking} isn't in {place.log()[-900:]}" if lacking else "")
        cache = os.listdir(f"{place.hosts}/ob2/build-over-ssh/cache")
        tally.add("build-over-ssh, what is sent", "" if len(cache) == 3 and place.calls("take") == 1 else f"{cache}, {place.calls('take')}")
        place.becomes_quiet(tally, "build-over-ssh", 0)
        place.empty_out()
        status = place.run()
        tally.add("build-over-ssh again, which sends nothing", f"status {status}" if status or place.calls("take") != 1 else built(place))
        with open(f"{place.folder}/deps/a:b/new", "wb") as file:
            file.write(b"new")
        place.empty_out()
        status = place.run(SLOT="0")
        said = contents(f"{place.hosts}/calls").decode().splitlines()[-1].split()[0]
        tally.add("build-over-ssh at another place", "" if (status, said) == (0, "ob1") else f"status {status} at {said}")
        place.empty_out()
        status = place.run("--folder", "other/folder", SLOT="3")
        tally.add("build-over-ssh --folder", "" if status == 0 and os.path.isdir(f"{place.hosts}/ob2/other/folder/cache") else f"status {status}; {place.log()[-600:]}")


def statuses(tally) -> None:
    """How the command ends: as itself, as this host's fault, by a signal; a command that isn't there, and a host without room."""
    for script, wanted in (("exit 3", 3), ("exit 75", 75), ("exit 255", 254), ("exit 97", 97), ("kill -9 $$", 75), ("exit 128", 128)):
        with laid() as place:
            place.file("ob2/status", script)
            status = place.run()
            tally.add(f"build-over-ssh, {script}", "" if (status, place.out()) == (wanted, {}) and place.calls("run") == 1 else f"status {status}, {sorted(place.out())}; {place.log()[-300:]}")
    with laid() as place:
        os.remove(f"{place.hosts}/bin/build-port")
        status = place.run()
        tally.add("build-over-ssh, no such command there", "" if status == 75 and "there is no such command on this host" in place.log() else f"status {status}; {place.log()[-300:]}")
    with laid() as place:
        with open(f"{place.hosts}/ob2/build-over-ssh", "wb"):
            pass
        status = place.run()
        tally.add("build-over-ssh, no folder there", "" if status not in (0, 1) and not place.out() else f"status {status}; {place.log()[-300:]}")


def refused(tally) -> None:
    with laid() as place:
        for words, status, more in ((["--silent", "x"], 2, {}), (["--folder", "a b"], 2, {}), (["--folder", "$(x)"], 2, {}), (["--wait"], 2, {}), (["-x"], 2, {}),
                                    ([], 75, {"SLOT": "4"}), ([], 75, {"SLOT": "x"}), ([], 2, {"OUT": ""}), ([], 2, {"JOB": ""})):
            got = place.run(*words, **more)
            tally.add(f"build-over-ssh {' '.join(words)} {more or ''}", "" if got == status and not place.calls("begin") else f"status {got}; {place.log()[-300:]}")
        for words in ([], ["ob1"], ["ob1", "--"], ["--", "x"]):
            done = subprocess.run([f"{TOP}/tools/build-over-ssh", *words], env={**os.environ, **place.env}, cwd=f"{place.folder}/obj", capture_output=True, timeout=LIMIT)
            tally.add(f"build-over-ssh {' '.join(words)}, words", "" if done.returncode == 2 and done.stderr.startswith(b"usage: ") else f"{done}")


def away(tally) -> None:
    """A host that is away is waited for, or gives the job back."""
    with laid() as place:
        place.file("down", "")
        status = place.run("--wait", "0")
        tally.add("build-over-ssh to a host that is away", "" if status == 75 and "ob2 is away" in place.log() else f"status {status}; {place.log()[-300:]}")
        place.start("--wait", "250")
        time.sleep(2)
        os.remove(f"{place.hosts}/down")
        status = place.ended()
        tally.add("build-over-ssh to a host that comes back", f"status {status}; {place.log()[-300:]}" if status else built(place))


def free_places(tally) -> None:
    """If the driver doesn't say which place this is, each job takes one that is free."""
    if not shutil.which("flock"):
        tally.skip("build-over-ssh without SLOT", "there is no flock here")
        return
    with laid() as place:
        place.file("ob1/wait", "600")
        del place.env["SLOT"]
        place.start()
        until(lambda: os.path.exists(f"{place.hosts}/ob1/pids"))
        first = place.process
        place.start()
        until(lambda: contents(f"{place.hosts}/ob1/pids").count(b"\n") >= 4)
        second = place.process
        status = place.run()
        tally.add("build-over-ssh without SLOT", f"status {status}; {place.log()[-300:]}" if status else built(place))
        for process in (first, second):
            assert process
            os.killpg(process.pid, signal.SIGKILL)
            process.wait(LIMIT)


def cancelled(tally, how: str, is_deaf: bool) -> None:
    """The job is taken away while it builds: by a signal to the group, as build-jobs does, or to the program only, as timeout(1) does. Or it,
    its ssh or its driver is killed."""
    with laid() as place:
        place.file("ob2/wait", "600")
        if is_deaf:
            place.file("ob2/deaf", "")
        driver = None
        if how.startswith("a killed driver"):
            driver = driving(place, *(["--outlive-driver"] if "outlived" in how else []))
        else:
            place.start()
        began = until(lambda: place.builds() and contents(f"{place.hosts}/ob2/pids").count(b"\n") == 2)
        assert place.process or driver
        if how == "a killed ssh":
            broken_client(place)
            status: Optional[int] = place.ended()
            place.becomes_quiet(tally, f"build-over-ssh, {how}")
            problem = "" if status == 0 else f"status {status}; {place.log()[-300:]}"
            # the killed build left its mark
            os.remove(f"{place.hosts}/ob2/twice")
            tally.add(f"build-over-ssh, {how}", problem or built(place))
            return
        end(place, driver, how)
        if "outlived" in how:
            time.sleep(4)
            goes_on = bool(place.running())
            os.killpg(int(contents(f"{place.folder}/group")), signal.SIGKILL)
            tally.add(f"build-over-ssh, {how}", "" if goes_on else "it ended")
            place.becomes_quiet(tally, f"build-over-ssh, {how}")
            return
        name = f"build-over-ssh, {how}{', of a build that ignores TERM' if is_deaf else ''}"
        tally.add(name, "" if began else f"no build began; {place.log()[-300:]}")
        place.becomes_quiet(tally, name)
        tally.add(f"{name}, the packages that came back", f"{sorted(place.out())}" if place.out() else "")


def driving(place: Place, *options: str) -> "subprocess.Popen[bytes]":
    """A driver that is played: a program named build-jobs that starts the command in a session of its own and waits."""
    with open(f"{place.folder}/build-jobs", "w", encoding="utf-8") as file:
        file.write("import subprocess, sys\nbuild = subprocess.Popen(sys.argv[1:], cwd='obj', stdin=subprocess.DEVNULL, start_new_session=True)\n"
                   "with open('group', 'w') as file:\n    file.write(str(build.pid))\nbuild.wait()\n")
    with open(f"{place.folder}/log", "ab") as log:
        return subprocess.Popen([os.path.realpath("/proc/self/exe") if os.path.exists("/proc/self/exe") else "python3", f"{place.folder}/build-jobs", *place.words(*options)],
                                cwd=place.folder, stdin=subprocess.DEVNULL, stdout=log, stderr=log, env={**os.environ, **place.env}, start_new_session=True)


def broken_client(place: Place) -> None:
    """Kills the ssh that runs the build, which is begun again then and takes no time any more."""
    os.remove(f"{place.hosts}/ob2/wait")
    rows = subprocess.run(["ps", "-A", "-ww", "-o", "pid=", "-o", "args="], capture_output=True, check=False).stdout.decode(errors="replace")
    for row in rows.splitlines():
        if f"--there {place.place()} run" in row and "played-ssh" in row:
            os.kill(int(row.split()[0]), signal.SIGKILL)


def end(place: Place, driver: "Optional[subprocess.Popen[bytes]]", how: str) -> None:
    if driver:
        driver.kill()
        driver.wait(LIMIT)
        return
    assert place.process
    if how == "cancelled":
        os.killpg(place.process.pid, signal.SIGTERM)
        time.sleep(2)
        with contextlib.suppress(ProcessLookupError):
            os.killpg(place.process.pid, signal.SIGKILL)
    elif how == "a timeout":
        place.process.terminate()
    elif how == "killed with its group":
        os.killpg(place.process.pid, signal.SIGKILL)
    elif how == "killed alone":
        place.process.kill()
    place.process.wait(LIMIT)


def broken_line(tally, step: str, count: int, how: str) -> None:
    """The line breaks in a step after this many bytes: the job is given back, or begun again, and nothing goes on there."""
    with laid() as place:
        place.file("cut", f"{step} {count} {how} 9")
        status = place.run("--wait", "0")
        name = f"build-over-ssh, a line that breaks in step {step} after {count} bytes, {how}"
        place.becomes_quiet(tally, name)
        tally.add(name, "" if status == 75 and not place.out() else f"status {status}, {sorted(place.out())}; {place.log()[-300:]}")
        place.file("cut", f"{step} {count} {how} 1")
        # what was built when the line broke left its mark
        shutil.rmtree(f"{place.hosts}/ob2/at.0", ignore_errors=True)
        status = place.run("--wait", "250")
        with contextlib.suppress(FileNotFoundError):
            os.remove(f"{place.hosts}/ob2/twice")
        tally.add(f"{name}, once", f"status {status}; {place.log()[-300:]}" if status else built(place))
        place.becomes_quiet(tally, f"{name}, once")


def one_at_a_time(tally) -> None:
    """A build whose line broke has ended before the next one begins at its place."""
    with laid() as place:
        place.file("ob2/wait", "3")
        place.file("ob2/deaf", "")
        place.file("cut", "run 500 silent 1")
        build = contents(f"{place.hosts}/bin/build-port").decode().replace('mkdir "$HOME/at.$SLOT"', 'for pid in $(cat "$HOME/pids" 2>/dev/null); do ! kill -0 $pid 2>/dev/null; done')
        place.file("bin/build-port", build.replace('rmdir "$HOME/at.$SLOT"', ""))
        status = place.run("--silent", "30")
        tally.add("build-over-ssh, one build at a time at a place", f"status {status}; {place.log()[-400:]}" if status else built(place))


def driven(tally) -> None:
    """build-jobs with this command: packages go there once, a host that is away marks nothing, and nothing goes on there after a job is
    taken away or the driver is killed."""
    with laid() as place:
        script = f"exec {TOP}/tools/build-over-ssh --ssh {TESTS}/played-ssh --again 1 --wait 0 ob1:2 ob2:2 -- build-port"
        with played.laid(script, "-j", "4", env={"PLAYED_HOSTS": place.hosts}) as (node, driver):
            first = node.take(node.post("a/b"), LIMIT)
            second = node.take(node.post("c/d", built=["a/b"]), LIMIT)
            there = os.listdir(f"{place.hosts}/ob1/build-over-ssh/cache")
            right = set(first.get("a/b", {})) == {"saw", "all"} and b"./a:b/saw\n" in second.get("c/d", {}).get("saw", b"") and len(there) == 1
            tally.add("build-over-ssh with build-jobs", "" if right else f"{first} {sorted(second.get('c/d', {}))} {there} {driver.lines()}")
            place.file("down", "")
            name = node.post("e/f", built=["a/b"])
            is_tried = until(lambda: any("e/f" in line for line in driver.lines()[4:]))
            time.sleep(3)
            marks = os.listdir(f"{node.work}/failed")
            tally.add("build-over-ssh with build-jobs, a host that is away", "" if is_tried and not marks else f"{marks} {driver.lines()}")
            os.unlink(f"{node.work}/jobs/{name}")
            os.unlink(f"{place.hosts}/down")
        for how in ("a job that is taken away", "a killed driver"):
            for host in ("ob1", "ob2"):
                place.file(f"{host}/wait", "600")
                with contextlib.suppress(FileNotFoundError):
                    os.remove(f"{place.hosts}/{host}/pids")
            with played.laid(script, "-j", "4", env={"PLAYED_HOSTS": place.hosts}) as (node, driver):
                name = node.post("g/h")
                began = until(lambda: os.path.exists(f"{place.hosts}/ob1/pids") and contents(f"{place.hosts}/ob1/pids").count(b"\n") == 2)
                if how == "a killed driver":
                    driver.process.kill()
                    driver.process.wait(LIMIT)
                else:
                    os.unlink(f"{node.work}/jobs/{name}")
                since = time.monotonic()
                quiet = until(lambda: not alive(f"{place.hosts}/ob1/pids"))
                took, marks = time.monotonic() - since, os.listdir(f"{node.work}/failed")
                tally.add(f"build-over-ssh with build-jobs, {how}", "" if began and quiet and not marks else f"{began} {quiet} {marks} {driver.lines()}")
                tally.add(f"build-over-ssh with build-jobs, {how}, how soon it ends", "" if took < MOST + MORE else f"after {took:.0f} s", timed=True)
            with contextlib.suppress(FileNotFoundError):
                os.rmdir(f"{place.hosts}/ob1/at.0")


def alive(pids: str) -> List[int]:
    """The processes of a file that run."""
    found = []
    for number in map(int, contents(pids).split()):
        stat = subprocess.run(["ps", "-o", "stat=", "-p", str(number)], capture_output=True, check=False).stdout.strip()
        if stat and not stat.startswith(b"Z"):
            found.append(number)
    return found


# ---- A real sshd

def free_port() -> int:
    with socket.socket() as it:
        it.bind(("127.0.0.1", 0))
        return int(it.getsockname()[1])


def started_sshd(folder: str, port: int) -> "subprocess.Popen[bytes]":
    with open(f"{folder}/sshd_config", "w", encoding="utf-8") as file:
        file.write(f"Port {port}\nListenAddress 127.0.0.1\nHostKey {folder}/host\nAuthorizedKeysFile {folder}/authorized\nPidFile none\nStrictModes no\nUsePAM no\n"
                   f"PasswordAuthentication no\nKbdInteractiveAuthentication no\nPermitRootLogin prohibit-password\nSetEnv HOME={folder}/home PATH={folder}/hosts/bin:/usr/bin:/bin\n")
    with open(f"{folder}/sshd.log", "wb") as log:
        words = [str(shutil.which("sshd", path="/usr/sbin:/usr/bin")), "-D", "-e", "-f", f"{folder}/sshd_config"]
        return subprocess.Popen(words, stdin=subprocess.DEVNULL, stdout=log, stderr=log)


@contextlib.contextmanager
def real_sshd(folder: str) -> Iterator[str]:
    """An sshd on loopback with keys of its own, and the words that call it."""
    for name in ("host", "user"):
        subprocess.run(["ssh-keygen", "-q", "-t", "ed25519", "-N", "", "-f", f"{folder}/{name}"], check=True)
    shutil.copyfile(f"{folder}/user.pub", f"{folder}/authorized")
    os.makedirs(f"{folder}/home")
    if os.geteuid() == 0:
        os.makedirs("/run/sshd", exist_ok=True)
    for _ in range(20):
        port = free_port()
        server = started_sshd(folder, port)
        until(lambda: server.poll() is not None or b"listening on" in contents(f"{folder}/sshd.log"))
        # else somebody else took the port meanwhile
        if server.poll() is None:
            break
    try:
        yield (f"ssh -F none -p {port} -i {folder}/user -o IdentitiesOnly=yes -o UserKnownHostsFile={folder}/known -o StrictHostKeyChecking=no "
               f"-o BatchMode=yes -o LogLevel=ERROR -o HostName=127.0.0.1 -l {getpass.getuser()}")
    finally:
        server.terminate()
        server.wait(LIMIT)


def real(tally) -> None:
    if not shutil.which("sshd", path="/usr/sbin:/usr/bin") or not shutil.which("ssh-keygen"):
        tally.skip("build-over-ssh with a real sshd", "there is no sshd here: Debian's openssh-server has it")
        return
    with laid() as place, real_sshd(place.folder) as ssh:
        place.ssh, place.hosts = ssh, f"{place.folder}/hosts"
        # the one home is ob2's
        shutil.rmtree(f"{place.hosts}/ob2")
        os.symlink(f"{place.folder}/home", f"{place.hosts}/ob2")
        options = ("--folder", f"{place.folder}/home/build-over-ssh")
        status = place.run(*options)
        tally.add("build-over-ssh with an sshd", f"status {status}; {place.log()[-600:]} {contents(place.folder + '/sshd.log').decode()[-300:]}" if status else built(place))
        for how in ("cancelled", "killed with its group", "killed alone", "a timeout"):
            for name in ("pids", "at.0"):
                with contextlib.suppress(FileNotFoundError):
                    os.remove(f"{place.hosts}/ob2/{name}") if name == "pids" else os.rmdir(f"{place.hosts}/ob2/{name}")
            place.file("ob2/wait", "600")
            place.start(*options)
            began = until(lambda: place.builds() and contents(f"{place.hosts}/ob2/pids").count(b"\n") == 2)
            end(place, None, how)
            tally.add(f"build-over-ssh with an sshd, {how}", "" if began else f"no build began; {place.log()[-300:]}")
            place.becomes_quiet(tally, f"build-over-ssh with an sshd, {how}")


def run(tally) -> None:
    cases = [driven, a_build, statuses, refused, away, free_places, one_at_a_time, real]
    cases += [functools.partial(cancelled, how=how, is_deaf=is_deaf) for how in ("cancelled", "a timeout", "killed with its group", "killed alone") for is_deaf in (False, True)]
    cases += [functools.partial(cancelled, how=how, is_deaf=False) for how in ("a killed driver", "a killed driver, outlived", "a killed ssh")]
    cases += [functools.partial(broken_line, step=step, count=count, how=how)
              for step, count in (("begin", 0), ("begin", 100), ("take", 1000), ("run", 300), ("run", 580), ("out", 0), ("out", 1000)) for how in ("close", "silent")]
    beside(tally, cases, 6)
