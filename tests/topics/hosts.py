"""tools/dpbn-hosts and tools/dpbn-host: the file of hosts and what is refused in it; three hosts, as three homes on loopback behind a
stand-in for ssh: start, crashes, drain, a build that fails, rest, copies of logs and large files, reports; with nodes that are played
(tests/played-dpbn), what belongs to another run, and lost logs; the services; and the page dpbn-bulk(7), whose ten steps are run word for
word, by a real sshd if there is one."""
import contextlib
import os
import re
import shutil
import signal
import subprocess
import sys
import tempfile
import time

from topics import live, packages
from topics.live import check
from topics.nodes import NODES, free_ports
from topics.tally import PROGRAM, TESTS, TOP, contents, difference

sys.path.insert(0, f"{TOP}/tools")

from dpbn_tools import host, host_ends, hosts, hosts_file, hosts_status, log_copies, run_key  # noqa: E402

# a node that is played takes the place of dpbn everywhere, for those who work on these tests
PLAYED = f"{TESTS}/played-dpbn" if "PLAYED" in os.environ else None
NAMES = ("oak", "elm", "fir")
# how long something is waited for, in seconds, on a machine that does other things, too
LIMIT = 300
TOOLS = ("build-jobs", "dpbn-host", "dpbn-hosts", "dpbn-report", "make-listing", "order-listing", "unpack-log", "why-ignored")

# each large file is at two hosts before its build is handed in
TWO_COPIES = "--digests 100 --copies 2"
LISTING = """a/b.FULLPKGNAME=b-1.0
a/c,-main.FULLPKGNAME=c-1.0
a/c,-main.LIB_DEPENDS=a/b
a/c,-docs.FULLPKGNAME=c-docs-1.0
a/d.FULLPKGNAME=d-2.0
a/d.BUILD_DEPENDS=a/c,-main
a/e.FULLPKGNAME=e-2.0
a/f.FULLPKGNAME=f-2.0
a/f.BUILD_DEPENDS=a/e
a/g.FULLPKGNAME=g-1.0
a/g.IGNORE=not here
"""
# what ssh does if it has no terminal: no environment, another folder, a session of its own, and 255 if there is no connection
SSH = """#!/bin/sh
while [ "${1#-}" != "$1" ]; do case $1 in -o|-p|-F|-i) shift 2;; *) shift;; esac; done
host=$1; shift
if [ -e "TOP/homes/$host.away" ] || [ ! -d "TOP/homes/$host" ]; then
    echo "ssh: connect to host $host port 22: Connection timed out" >&2; exit 255
fi
exec env -i SSH_CONNECTION=stand-in SETSID TOP/login "$host" "$*"
"""
# what a host's user finds: a home, programs, and nothing else
LOGIN = """#!/bin/sh
cd "TOP/homes/$1" || exit 255
exec env -i HOME="TOP/homes/$1" PATH="TOP/bin:PATHS" PORTSDIR="TOP/homes/$1/ports" USER=builder LOGNAME=builder SHELL=/bin/sh \\
    ${SSH_CONNECTION:+SSH_CONNECTION="$SSH_CONNECTION"} sh -c "$2"
"""
# each package is one file, named as the package, that is large enough to go by its digest
BUILD = """#!/bin/sh
sleep 0.3
test ! -e "TOP/broken:$(echo "$PKGPATH" | tr / :)" || { echo "*** it is broken"; exit 1; }
while read -r path name; do
    folder=$OUT/$(echo "$path" | tr / :)
    mkdir "$folder" && { echo "$name"; ls "$DEPS"; env | grep SSH_; yes "$name" | head -n 100; } > "$folder/$name.tgz" || exit 1
done < "$NAMES"
"""


def until(holds, seconds=LIMIT):
    return live.until(holds, seconds, 0.1)


def put(path, text, mode=0o644):
    # a program may read it at any time
    with open(f"{path}.new", "w") as file:
        file.write(text)
    os.chmod(f"{path}.new", mode)
    os.replace(f"{path}.new", path)


def read(path):
    return contents(path).decode() if os.path.exists(path) else ""


class Bulk:
    """Three hosts: a folder with a home for each, programs, and what takes the place of ssh."""

    def __init__(self, folder, dpbn=f"{TESTS}/played-dpbn"):
        self.folder = folder
        for name in NAMES:
            os.makedirs(f"{folder}/homes/{name}")
        os.mkdir(f"{folder}/bin")
        for name, path in {"dpbn": dpbn, "dpbr": PROGRAM, **{name: f"{TOP}/tools/{name}" for name in TOOLS}}.items():
            os.symlink(path, f"{folder}/bin/{name}")
        self.ports = free_ports(3)
        self.program("login", LOGIN)
        self.program("bin/ssh", SSH)
        self.program("bin/build-port", BUILD)
        put(f"{folder}/listing", LISTING)
        self.write()

    def program(self, name, text):
        setsid = "setsid -w" if shutil.which("setsid") else ""
        put(f"{self.folder}/{name}", text.replace("TOP", self.folder).replace("SETSID", setsid).replace("PATHS", os.environ["PATH"]), 0o755)

    def addresses(self):
        return [f"127.0.0.1:{self.ports + number}" for number in range(3)]

    def write(self, name="june", folder="june", jobs=2, weights=(1, 1, 1), more="", node="--takeover 20 --rest 4", driver="--digests 100"):
        """Writes a file of the three hosts."""
        lines = [f"host {it} {address} jobs={jobs}" + (f" weight={weight}" if weight > 1 else "")
                 for it, address, weight in zip(NAMES, self.addresses(), weights)]
        text = [f"dir {folder}", "listing listing", "build build-port", f"node {node} --progress 1", f"driver {driver}", more, *lines, ""]
        put(f"{self.folder}/{name}", "\n".join(text))

    def environment(self):
        return {**os.environ, "PATH": f"{self.folder}/bin:{os.environ['PATH']}", "HOME": self.folder}

    def call(self, *words, tool="dpbn-hosts"):
        """What a tool prints on both streams, and its status."""
        done = subprocess.run([f"{self.folder}/bin/{tool}", *words], cwd=self.folder, stdin=subprocess.DEVNULL, capture_output=True,
                              timeout=LIMIT, env=self.environment())
        return done.stdout.decode(), done.stderr.decode(), done.returncode

    def at(self, name, *words):
        """What dpbn-host prints at a host."""
        done = subprocess.run([f"{self.folder}/login", name, f"dpbn-host {' '.join(words)}"], stdin=subprocess.DEVNULL, capture_output=True,
                              timeout=LIMIT)
        return done.stdout.decode(), done.stderr.decode(), done.returncode

    def home(self, name, path="june"):
        return f"{self.folder}/homes/{name}/{path}"

    def holder(self, name, part):
        """The process of a part, if it runs."""
        return host.Folder(self.home(name)).holder(part)

    def kill(self, name, part):
        os.kill(self.holder(name, part), signal.SIGKILL)

    def lines(self, *words):
        """The lines of status by host."""
        return dict(line.split(None, 1) for line in self.call("june", "status", *words)[0].splitlines())

    def says(self, name, text, *words):
        """Waits until the line of a host has a text."""
        return until(lambda: text in self.lines(*words).get(name, ""))

    def end(self):
        for name in NAMES:
            for folder in sorted(os.listdir(f"{self.folder}/homes/{name}")):
                if os.path.isfile(self.home(name, f"{folder}/hosts")):
                    self.at(name, "stop", folder)


@contextlib.contextmanager
def laid(**words):
    """Three hosts, on which nothing runs afterwards."""
    with tempfile.TemporaryDirectory() as folder:
        bulk = Bulk(folder, **words)
        try:
            yield bulk
        finally:
            bulk.end()


# ---- the file

GOOD = """
# the hosts of June
listing lists/june
build   sh -c 'exec build "$PKGPATH"' x
dir /var/dpbn/june
jobs 4
node --takeover 3600
node --single
driver --digests 0 --fetch 'scp host$HOST:x y'
host oak 192.0.2.10:7000
  host elm 192.0.2.11:7001 jobs=8 weight=3 dir=e work=/build/work store=/s bin=/opt/bin ssh=me@elm
host fir 192.0.2.12:65535 ssh=-
"""


def good_file(tally):
    """All that a file can have."""
    file = hosts_file.parsed("/x/june", GOOD.encode())
    common = (file.listing, file.key, file.build, file.node, file.driver, file.ssh == hosts_file.SSH, file.weights(), file.is_single())
    wanted = ("/x/lists/june", "/x/june.key", ["sh", "-c", 'exec build "$PKGPATH"', "x"], ["--takeover", "3600", "--single"],
              ["--digests", "0", "--fetch", "scp host$HOST:x y"], True, "1,3,1", True)
    check(tally, "a file of hosts, what is common", common == wanted, common)
    check(tally, "a file of hosts, their addresses", file.addresses() == "192.0.2.10:7000,192.0.2.11:7001,192.0.2.12:65535", file.addresses())
    got = [tuple(host)[:-1] for host in file.hosts]
    june = "/var/dpbn/june"
    wanted = [("oak", 0, "192.0.2.10:7000", 4, 1, june, None, None, None, "oak"),
              ("elm", 1, "192.0.2.11:7001", 8, 3, "e", "/build/work", "/s", "/opt/bin", "me@elm"),
              ("fir", 2, "192.0.2.12:65535", 4, 1, june, None, None, None, "-")]
    check(tally, "a file of hosts, each host", got == wanted, got)
    other = hosts_file.parsed("june", b"listing /l\nkey k/run.key\nbuild b\nssh ./ssh -x\nhost a 10.0.0.1:1 dir=d\n")
    got = other.listing, other.key, other.ssh, other.node
    check(tally, "a file of hosts, the least", got == ("/l", f"{os.getcwd()}/k/run.key", ["./ssh", "-x"], []), got)


BASE = "listing l\nbuild b\ndir d\n"
OAK = "host oak 192.0.2.10:7000"
# a file that is none, and why, with the line
BAD = [
    ("", "june: there is no line `listing`"), ("listing l\n", "june: there is no line `build`"), (BASE, "june: there is no line `host`"),
    (f"listing l\nbuild b\n\n{OAK}\n", "june:4: host oak has no folder: there is neither `dir=` nor a line `dir`"),
    (BASE + "hosts oak\n", "june:4: 'hosts' isn't a word of this file"), (BASE + "listing m\n", "june:4: listing is there a second time"),
    ("listing\n", "june:1: listing needs a value"), ("listing ''\n", "june:1: listing needs a value"),
    ("listing a b\n", "june:1: listing has more than one value"), ("jobs 65\n", "june:1: jobs: '65' isn't one of 1 to 64"),
    ("node\n", "june:1: node needs a value"),
    ("node --takeover 5\nnode --me 1\n", "june:2: --me isn't for node: it follows from the rest of the file"),
    ("node --weights=1,2\n", "june:1: --weights isn't for node: it follows from the rest of the file"),
    ("driver -j 3\n", "june:1: -j isn't for driver: it follows from the rest of the file"),
    ("driver -j3\n", "june:1: -j3 isn't for driver: it follows from the rest of the file"),
    ("driver --digests 0 -- sh\n", "june:1: -- isn't for driver: it follows from the rest of the file"),
    ("build 'a b\n", "june:1: a quotation isn't closed: No closing quotation"),
    ("host oak\n", "june:1: a host needs a name and an address, as in `host oak 192.0.2.10:7000`"),
    ("host -oak 192.0.2.10:7000\n", "june:1: '-oak' isn't a name of a host"), ("host o/k 192.0.2.10:7000\n", "june:1: 'o/k' isn't a name of a host"),
    *((f"host oak {it}\n", f"june:1: host oak: {it!r} isn't an IPv4 address with a port, as in 192.0.2.10:7000")
      for it in ("192.0.2.10", "192.0.2:7000", "192.0.2.256:7000", "0.0.0.0:7000", "192.0.2.10:0", "192.0.2.10:65536", "192.0.2.010:7000", "oak:7000")),
    (f"{OAK}\n\nhost oak 192.0.2.11:7000\n", "june:3: the host oak is in line 1 already"),
    (f"{OAK}\nhost elm 192.0.2.10:7000\n", "june:2: host elm: 192.0.2.10:7000 is the address of oak, in line 1"),
    ("".join(f"host h{it} 192.0.2.{it + 1}:7000\n" for it in range(10)), "june:10: there are more than 9 hosts"),
    (f"{OAK} jobs\n", "june:1: host oak: 'jobs' isn't a setting of a host: jobs=, weight=, dir=, work=, store=, bin=, ssh="),
    (f"{OAK} job=1\n", "june:1: host oak: 'job=1' isn't a setting of a host: jobs=, weight=, dir=, work=, store=, bin=, ssh="),
    (f"{OAK} jobs=1 jobs=2\n", "june:1: host oak: jobs= is there a second time"), (f"{OAK} dir=\n", "june:1: host oak: dir= has no value"),
    (f"{OAK} jobs=0\n", "june:1: host oak: jobs: '0' isn't one of 1 to 64"), (f"{OAK} jobs=many\n", "june:1: host oak: jobs: 'many' isn't one of 1 to 64"),
    (f"{OAK} weight=101\n", "june:1: host oak: weight: '101' isn't one of 1 to 100"),
    (f"{OAK} ssh=-oProxyCommand=x\n", "june:1: host oak: '-oProxyCommand=x' is nothing that ssh can reach"),
    (BASE + f"{OAK} work='a\tb'\n", "june:4: host oak: work has a control character"), ("listing l\r\n", "june:1: it has a control character"),
    ("listing l\n\udcff\n", "june:2: it has bytes that aren't UTF-8"), ("#" * (1 << 20) + "\n", "june: it has more than 1048576 bytes"),
]


def bad_files(tally):
    """Each thing that can be wrong with a file, by its line."""
    for text, why in BAD:
        try:
            got = str(hosts_file.parsed("june", text.encode("utf-8", "surrogateescape")))
        except hosts_file.BadFile as bad:
            got = str(bad)
        check(tally, f"a file of hosts: {why[:80]}", got == why, got, why)


def words(tally):
    """Wrong words, and files that can't be read."""
    with tempfile.TemporaryDirectory() as folder:
        put(f"{folder}/june", BASE + OAK + " jobs=0\n")
        put(f"{folder}/july", BASE + OAK + "\n")
        for given in ([], ["june"], ["june", "begin"], ["june", "collect", "x"], ["june", "status", "--", "x"], ["june", "report", "--refresh", "0"]):
            done = subprocess.run([f"{TOP}/tools/dpbn-hosts", *given], cwd=folder, capture_output=True, timeout=LIMIT)
            check(tally, f"dpbn-hosts {' '.join(given)}", (done.stdout, done.returncode) == (b"", 2) and done.stderr, done)
        for given, why in ((["june", "status"], "june:4: host oak: jobs: '0' isn't one of 1 to 64"), (["july", "stop", "yew"], "july has no host 'yew'"),
                           (["none", "status"], "[Errno 2] No such file or directory: 'none'"),
                           (["july", "start"], f"the listing can't be read: [Errno 2] No such file or directory: '{os.path.realpath(folder)}/l'")):
            done = subprocess.run([f"{TOP}/tools/dpbn-hosts", *given], cwd=os.path.realpath(folder), capture_output=True, timeout=LIMIT)
            tally.add(f"dpbn-hosts {' '.join(given)}", difference((done.stdout, done.stderr, done.returncode), (b"", f"dpbn-hosts: {why}\n".encode(), 1)))
        for given in ([], ["begin", "x"], ["give", "x"], ["status", "x", "y"], ["run", "x", "--only", "both"]):
            done = subprocess.run([f"{TOP}/tools/dpbn-host", *given], cwd=folder, capture_output=True, timeout=LIMIT)
            check(tally, f"dpbn-host {' '.join(given)}", (done.stdout, done.returncode) == (b"", 2) and done.stderr, done)


def pages(tally):
    """Each command and option of the programs is on their pages, and nothing else."""
    for name, program in (("dpbn-hosts", hosts), ("dpbn-host", host)):
        page = contents(f"{TOP}/man/{name}.1").decode()
        synopsis = re.search(r"^\.Sh SYNOPSIS\n(.*?)^\.Sh ", page, re.DOTALL | re.MULTILINE)[1]
        options = set(re.findall(r"Fl -([a-z-]+)", synopsis))
        there = set(re.findall(r'add_argument\("--([a-z-]+)"', contents(f"{TOP}/tools/dpbn_tools/{name.replace('-', '_').removeprefix('dpbn_')}.py").decode()))
        check(tally, f"man/{name}.1, its options", options == there, options ^ there)
        commands = set(re.findall(r"[a-z]+", " ".join(re.findall(r"^\.Cm (.*)$", synopsis, re.MULTILINE))))
        internal = {"look", "take", "contents", "send", "give", "keep"} if name == "dpbn-host" else set()
        check(tally, f"man/{name}.1, its commands", commands == set(program.COMMANDS) - internal, commands ^ set(program.COMMANDS))


# ---- three hosts

def come_up(tally, bulk, name, out, *names):
    """Hosts that were started come up, and what start printed says so: it waits ten seconds for that."""
    up = until(lambda: all(bulk.lines().get(it, "").startswith("up ") for it in names))
    check(tally, f"{name}, that {', '.join(names)} are up", up, bulk.lines(), [read(bulk.home(it, "june/keeper.out")) for it in names])
    check(tally, f"{name}, what start says of it", all(re.search(f"^{it} +up ", out, re.MULTILINE) for it in names), out, timed=True)


def started(tally, bulk):
    """Start makes a key, hands out what is needed, and both programs run on each host."""
    out, error, status = bulk.call("june", "start")
    lines = dict(line.split(None, 1) for line in out.splitlines())
    check(tally, "start", list(lines) == list(NAMES) and (error, status) == ("", 0), out, error, status)
    come_up(tally, bulk, "start", out, *NAMES)
    key = read(f"{bulk.folder}/june.key")
    keys = [read(bulk.home(name, "june/key")) for name in NAMES]
    modes = {os.stat(path).st_mode & 0o777 for path in (f"{bulk.folder}/june.key", *(bulk.home(name, "june/key") for name in NAMES))}
    check(tally, "start, the key", re.fullmatch("[0-9a-f]{64}\n", key) and keys == [key] * 3 and modes == {0o600}, key, keys, modes)
    given = [(read(bulk.home(name, "june/listing")) == LISTING, read(bulk.home(name, "june/name")), read(bulk.home(name, "june/begun"))) for name in NAMES]
    check(tally, "start, what is handed out", given == [(True, f"{name}\n", "elm\nfir\noak\n") for name in NAMES], given)
    out, error, status = bulk.call("june", "start", "elm")
    check(tally, "start of what runs", (out, error, status) == ("elm  runs already\n", "", 0), out, error, status)


def crashed(tally, bulk):
    """What is killed comes back; and if dpbn-host itself is killed, node and driver go on, and the next one has them."""
    for part in ("node", "driver"):
        before = bulk.holder("oak", part)
        bulk.kill("oak", part)
        back = until(lambda: bulk.holder("oak", part) not in (None, before))
        check(tally, f"a {part} that is killed", back and bulk.says("oak", ", 2 starts", "oak"), bulk.lines(), read(bulk.home("oak", "june/keeper.out")))
    pids = [bulk.holder("oak", part) for part in ("node", "driver")]
    bulk.kill("oak", "keeper")
    said = bulk.says("oak", "nobody starts it again", "oak")
    out = bulk.call("june", "start", "oak")
    same = [bulk.holder("oak", part) for part in ("node", "driver")] == pids
    check(tally, "a keeper that is killed", said and same and out[2] == 0, out, pids)
    come_up(tally, bulk, "a keeper that is killed", out[0], "oak")
    bulk.kill("oak", "node")
    back = until(lambda: bulk.holder("oak", "node") not in (None, pids[0]))
    check(tally, "a node that an earlier keeper started", back, read(bulk.home("oak", "june/keeper.out")))


def drained(tally, bulk):
    """A host that drains begins nothing, and its node stays up; the others go on."""
    out, _, status = bulk.call("june", "drain", "elm")
    check(tally, "drain", status == 0 and re.match("elm  up .*, drain(s|ed)  ", out) and os.path.exists(bulk.home("elm", "june/work/stop")), out, status)
    check(tally, "drained", bulk.says("elm", ", drained  builds 0") and "drain" not in bulk.lines()["fir"], bulk.lines())
    begun = read(bulk.home("elm", "june/driver.out")).count(" > ")
    time.sleep(1)
    check(tally, "drained, what it begins", read(bulk.home("elm", "june/driver.out")).count(" > ") == begun and bulk.holder("elm", "node"), begun)
    out, _, status = bulk.call("june", "resume")
    check(tally, "resume", status == 0 and "drain" not in out and not os.path.exists(bulk.home("elm", "june/work/stop")), out, status)


def failed(tally, bulk):
    """A build that failed is counted, and tried again once it is said so."""
    count = until(lambda: any("failed 1" in line for line in bulk.lines().values()))
    check(tally, "a build that failed", count, bulk.lines())
    bulk.call("june", "report")
    text = read(f"{bulk.folder}/june.d/report/status.txt")
    check(tally, "a report of it", "a/e" in text and "status 1" in text and "*** it is broken" in "".join(
        read(f"{bulk.folder}/june.d/report/logs/{name}") for name in os.listdir(f"{bulk.folder}/june.d/report/logs")), text)
    os.unlink(f"{bulk.folder}/broken:a:e")
    out, error, status = bulk.call("june", "retry")
    counts = re.findall("^(?:oak|elm|fir)  failed builds that are tried again: ([01])$", out, re.MULTILINE)
    check(tally, "retry", len(counts) == 3 and "1" in counts and (error, status) == ("", 0), out, error, status)
    check(tally, "retry, what is built", until(lambda: all("I=6 " in line for line in bulk.lines().values())), bulk.lines())


def rested(tally, bulk):
    """Stopped, and started again with another file, the nodes come to rest as all is held, and nothing runs any more."""
    out, error, status = bulk.call("june", "stop")
    check(tally, "stop", (out.count("  stopped  "), error, status) == (3, "", 0), out, error, status)
    bulk.write(node="--rest 2", driver=TWO_COPIES)
    bulk.call("june", "start")
    rests = until(lambda: all(line.startswith("at rest, holds all that isn't ignored") for line in bulk.lines().values()))
    left = until(lambda: not any(bulk.holder(name, part) for name in NAMES for part in ("keeper", "driver", "node")))
    out, error, status = bulk.call("june", "status")
    check(tally, "at rest", rests and left and (error, status) == ("", 0) and out.count("I=6 B=0 Q=0 T=0 !=1") == 3, out, error, status)


def flat_problem(folder):
    """What is wrong with the packages that were brought."""
    found = sorted(name for name in os.listdir(f"{folder}/packages") if name not in ("list", "held"))
    if found != sorted(f"{line.split('=')[1]}.tgz" for line in LISTING.splitlines() if "FULLPKGNAME" in line and "a/g" not in line):
        return f"{found}"
    texts = {name: read(f"{folder}/packages/{name}").splitlines() for name in found}
    saw = {name: [line for line in text[1:] if line != text[0]] for name, text in texts.items()}
    wanted = {"c-1.0.tgz": ["a:b"], "c-docs-1.0.tgz": ["a:b"], "d-2.0.tgz": ["a:b", "a:c,-main"], "f-2.0.tgz": ["a:e"]}
    return "" if saw == {name: wanted.get(name, []) for name in found} else f"{saw}"


def collected(tally, bulk):
    """Collect brings logs, large files and packages, also a second time, and from whoever has a file as it should be."""
    out, error, status = bulk.call("june", "collect", "--flat", "--build-logs")
    check(tally, "collect", re.fullmatch("5 units, by the log of oak: june.d/packages\n", out) and (error, status) == ("", 0), out, error, status)
    tally.add("collect, the packages", flat_problem(f"{bulk.folder}/june.d"))
    logs = [contents(f"{bulk.folder}/june.d/logs/node-{me}.log") == contents(bulk.home(name, f"june/node-{me}.log")) for me, name in enumerate(NAMES)]
    check(tally, "collect, the logs", logs == [True] * 3, logs)
    # after crashes and failures a unit may be built at two hosts
    units = {line.split()[0].partition(",")[0] for line in read(f"{bulk.folder}/june.d/times").splitlines()}
    check(tally, "collect, the times", units == {"a/b", "a/c", "a/d", "a/e", "a/f"}, sorted(units))
    there = {name for host in NAMES for name in os.listdir(f"{bulk.folder}/june.d/build-logs/{host}")}
    check(tally, "collect, the logs of builds", {"a:b.log", "a:f.log"} <= there, there)
    digests = [name for name in os.listdir(f"{bulk.folder}/june.d/store")]
    check(tally, "collect, the large files", len(digests) == 6, digests)
    shutil.rmtree(f"{bulk.folder}/june.d/store")
    copies = {digest: [bulk.home(name, f"june/store/{digest}") for name in NAMES if os.path.exists(bulk.home(name, f"june/store/{digest}"))] for digest in digests}
    check(tally, "two copies of each large file", min(map(len, copies.values())) >= 2, copies)
    # one is wrong at a host; the other one is wrong at all
    twice, once = digests[:2]
    for path in (copies[twice][0], *copies[once]):
        os.chmod(path, 0o644)
        with open(path, "r+b") as file:
            file.write(b"X")
    out, error, status = bulk.call("june", "collect")
    got = twice in os.listdir(f"{bulk.folder}/june.d/store"), f"1 large files are on no host that answered, the first: {once}\n" in error, status
    check(tally, "collect, files with wrong bytes", got == (True, True, 1), out, error, status)
    check(tally, "collect, packages by path", os.path.isdir(f"{bulk.folder}/june.d/packages/a:b"), os.listdir(f"{bulk.folder}/june.d/packages"))


def reported(tally, bulk):
    """A report on copies, also as one that goes on until it is ended."""
    _, error, status = bulk.call("june", "report")
    text = read(f"{bulk.folder}/june.d/report/status.txt")
    check(tally, "a report at the end", status == 0 and "finished" in text and "I=6" in text and all(name in text for name in NAMES), text, error)
    os.unlink(f"{bulk.folder}/june.d/report/status.txt")
    process = subprocess.Popen([f"{bulk.folder}/bin/dpbn-hosts", "june", "report", "--into", "more", "--refresh", "1", "--", "--every", "1"], cwd=bulk.folder,
                               stdin=subprocess.DEVNULL, stdout=subprocess.DEVNULL, stderr=subprocess.DEVNULL, env=bulk.environment())
    came = until(lambda: "finished" in read(f"{bulk.folder}/more/report/status.txt"))
    process.terminate()
    check(tally, "a report that goes on", came and process.wait(LIMIT) == 143, came, process.returncode)


def three_hosts(tally):
    """A run from start to packages, with crashes, a host that drains, and a build that fails."""
    with laid(dpbn=PLAYED or NODES) as bulk:
        put(f"{bulk.folder}/broken:a:e", "")
        bulk.write(node="--rest 1000", driver=TWO_COPIES)
        for part in (started, crashed, drained, failed, rested, collected, reported):
            tally.run(f"three hosts, {part.__name__}", part, bulk)


# ---- what is refused

def kept(bulk):
    """What is on the hosts, to be compared."""
    return {path: contents(path) for name in NAMES for path in sorted(f"{bulk.home(name)}/{it}" for it in ("hosts", "listing", "key", "name", "begun"))
            if os.path.exists(path)}


def refuses(tally, bulk, name, wanted, *given):
    """Start is refused with these lines, and changes nothing anywhere."""
    before = kept(bulk)
    out, error, status = bulk.call(*given)
    lines = [re.sub(r"homes/\w+/", "", re.sub(r"\b[0-9a-f]{16,64}(\.\.)?", "HEX", line)) for line in error.replace(f"{bulk.folder}/", "").splitlines()]
    runs = [name for name in NAMES if bulk.holder(name, "keeper")]
    right = (out, lines, status, runs) == ("", [f"dpbn-hosts: {line}" for line in wanted], 1, []) and kept(bulk) == before
    check(tally, name, right, out, error, status, runs)


def other_runs(tally):
    """Other listings, weights, keys, numbers and names on a host are refused, before anything is done anywhere."""
    with laid() as bulk:
        with open(f"{bulk.folder}/homes/elm.away", "w"):
            refuses(tally, bulk, "a key while a host is away",
                    ["elm: no answer: ssh: connect to host elm port 22: Connection timed out; the run's key is made once all hosts answer, as one may "
                     "have it already; or make it by `dpbn key june.key'"], "june", "start")
        os.unlink(f"{bulk.folder}/homes/elm.away")
        bulk.write(node="--rest 1000")
        bulk.call("june", "start")
        bulk.call("june", "stop")
        running = [(name, part) for name in NAMES for part in ("keeper", "driver", "node") if bulk.holder(name, part)]
        stopped = bulk.lines()
        check(tally, "stop", not running and all(line.startswith("stopped") for line in stopped.values()), running, stopped)
        put(f"{bulk.folder}/listing", LISTING + "a/h.FULLPKGNAME=h-1\n")
        refuses(tally, bulk, "another listing", [f"{name}: june has another listing: its SHA-256 is HEX, not HEX" for name in NAMES], "june", "start", "oak")
        put(f"{bulk.folder}/listing", LISTING)
        bulk.write(weights=(1, 2, 1))
        refuses(tally, bulk, "other weights", [f"{name}: june has other weights: 1,1,1, not 1,2,1" for name in NAMES], "june", "start")
        bulk.write(node="--rest 1000")
        text = read(f"{bulk.folder}/june").splitlines()
        put(f"{bulk.folder}/june", "\n".join([*text[:-2], text[-1], text[-2], ""]))
        refuses(tally, bulk, "other numbers", ["fir: june has another number: member 2, not 1", "elm: june has another number: member 1, not 2"], "june", "start")
        bulk.write("july", node="--rest 1000")
        refuses(tally, bulk, "a key that isn't here", [f"{name} has the run's key, and it isn't here: copy june/key from there to july.key" for name in NAMES],
                "july", "start")
        put(f"{bulk.folder}/july.key", "ab" * 32 + "\n", 0o600)
        refuses(tally, bulk, "another key", [f"{name}: june has another key: its fingerprint is HEX, not HEX" for name in NAMES], "july", "start")
        put(f"{bulk.folder}/july.key", "ab" * 32 + "\n")
        refuses(tally, bulk, "a key of all", ["the key can't be used: july.key: others than its owner may use it (chmod 600)"], "july", "start")
        put(f"{bulk.folder}/july.key", "ab" * 31 + "\n", 0o600)
        refuses(tally, bulk, "a key that is none", ["the key can't be used: july.key: it isn't one line of 64 hexadecimal digits"], "july", "start")
        os.unlink(bulk.home("elm", "june/listing"))
        put(bulk.home("elm", "june/listing"), "x")
        bulk.write(node="--rest 1000")
        refuses(tally, bulk, "one host with another listing", ["elm: june has another listing: its SHA-256 is HEX, not HEX"], "june", "start", "oak")


def lost_logs(tally):
    """A host whose log is lost isn't started again, though nothing of the run is left there; and one that begins late is."""
    with laid() as bulk:
        bulk.write(node="--rest 1000")
        put(f"{bulk.folder}/june.key", "cd" * 32 + "\n", 0o600)
        put(f"{bulk.folder}/homes/fir.away", "")
        out, _, status = bulk.call("june", "start")
        away = "fir  no answer: ssh: connect to host fir port 22: Connection timed out"
        check(tally, "a host that is away", status == 1 and out.splitlines()[2] == away, out, status)
        come_up(tally, bulk, "a host that is away", out, "oak", "elm")
        bulk.call("june", "stop", "elm")
        shutil.rmtree(bulk.home("elm"))
        out, _, status = bulk.call("june", "start", "elm")
        check(tally, "a log that is lost", status == 1 and out.startswith("elm  its log is lost: it has begun in this run") and not bulk.holder("elm", "keeper"), out)
        out, _, status = bulk.call("june", "start", "--new", "elm", "elm")
        check(tally, "a log that is lost, though it is called new", status == 1 and out.startswith("elm  its log is lost"), out)
        os.rename(f"{bulk.folder}/homes/fir.away", f"{bulk.folder}/homes/elm.away")
        out, _, status = bulk.call("june", "start", "fir")
        check(tally, "a late host that may have begun", status == 1 and out.startswith("fir  it has no log, and elm, which may know of one, doesn't answer."), out)
        out, _, status = bulk.call("june", "start", "--new", "fir", "fir")
        check(tally, "a late host", status == 0 and "fir" in read(bulk.home("oak", "june/begun")), out, status)
        come_up(tally, bulk, "a late host", out, "fir")
        bulk.write(node="--rest 1000", jobs=3)
        out, _, status = bulk.call("june", "start", "oak")
        check(tally, "a host that runs otherwise", (out, status) == ("oak  it runs with an earlier june: stop it, and start it again to have this one\n", 1), out)
        bulk.at("oak", "stop", "june")
        os.rename(bulk.home("oak", "june/node-0.log"), bulk.home("oak", "june/kept.log"))
        out, _, _ = bulk.at("oak", "start", "june")
        check(tally, "a log that is lost while it is stopped", until(lambda: "fault 1007" in bulk.lines("oak")["oak"]), out, bulk.lines("oak"))


# how a node ends, what it printed, and what becomes of it
ENDS = [
    (0, b"node 0: I=1 B=0 Q=0 T=0 !=0\n", "rests", "at rest, holds all that isn't ignored"), (3, b"node 0: down\n", "rests", "at rest, something that isn't ignored isn't held"),
    (3, b"dpbn: fault 1001 at 0\nnode 0: down\n", "given up", "fault 1001: the device of its log failed or is full; see dpbn(1) before it is started again"),
    (1, b"dpbn: fault 1001\n", "given up", "fault 1001: the device of its log failed or is full; see dpbn(1) before it is started again"),
    (1, b"dpbn: fault 2\n", "again", "status 1: dpbn: fault 2"), (1, b"dpbn: fault 1204\n", "again", "status 1: dpbn: fault 1204"),
    (1, b"dpbn: fault 1202 at 0\ndpbn: fault 1007\n", "given up", "status 1: dpbn: fault 1007"),
    (2, b"error: unexpected argument\n\n", "given up", "status 2: error: unexpected argument"), (-9, b"", "again", "ended by SIGKILL"),
    (-200, b"", "again", "ended by signal 200"), (101, b"panic\n", "again", "status 101: panic"), (101, b"", "again", "status 101: it printed nothing"),
]


def ends(tally):
    """Whether a node or a driver that ended is started again."""
    for status, output, what, why in ENDS:
        got = host_ends.of_node(status, output)
        check(tally, f"a node that ends with {status}, {output!r:.40}", got[:2] == (what, why), got)
    got = [host_ends.of_driver(status, b"build-jobs: why\n")[:2] for status in (1, 2, 143, -15)]
    wanted = [("again", "status 1: build-jobs: why"), ("given up", "status 2: build-jobs: why"), ("again", "status 143: build-jobs: why"), ("again", "ended by SIGTERM")]
    check(tally, "a driver that ends", got == wanted, got)


def alone(tally):
    """A host without ssh: what ends for good is not started again, words that are wrong are said, and programs that aren't there."""
    with laid() as bulk:
        put(f"{bulk.folder}/june", f"dir {bulk.folder}/run\nlisting listing\nbuild build-port\nssh -\nnode --progress 1 --rest 1000\nhost oak {bulk.addresses()[0]}\n")
        out, error, status = bulk.call("june", "start")
        check(tally, "a host without ssh", status == 0, out, error)
        come_up(tally, bulk, "a host without ssh", out, "oak")
        for text, line in (("1\ndpbn: fault 1204", "2 starts"), ("3\ndpbn: fault 1001 at 0", "down: fault 1001: the device of its log failed")):
            put(f"{bulk.folder}/run/play", text)
            check(tally, f"a host whose node ends with {text!r}", bulk.says("oak", line), bulk.lines(), read(f"{bulk.folder}/run/keeper.out"))
        running = until(lambda: not any(host.Folder(f"{bulk.folder}/run").holder(part) for part in ("keeper", "driver", "node")))
        check(tally, "a host whose node is given up", running and bulk.call("june", "status")[2] == 1)
        os.unlink(f"{bulk.folder}/bin/dpbn")
        out, _, status = bulk.call("june", "start")
        check(tally, "a host without dpbn", status == 1 and f"node down: there is no dpbn in {bulk.folder}/bin:" in out, out)
        bulk.call("june", "stop")
        for more, wanted in (("bin /none", "dpbn isn't installed there, or `bin` is missing: "), ("ssh false", "it ended with status 1"), ("ssh echo", "it prints what isn't dpbn-host's"),
                             ("ssh ./none", "./none: No such file or directory")):
            put(f"{bulk.folder}/june", f"dir {bulk.folder}/run\nlisting listing\nbuild build-port\n{more}\nhost oak {bulk.addresses()[0]} {'ssh=-' if 'bin' in more else ''}\n")
            out, error, status = bulk.call("june", "status")
            check(tally, f"a file with {more}", status == 1 and wanted in out, out, error)


# ---- copies of logs

def notes(count):
    return [packages.note(1, "a/b", number.to_bytes(8, "big")) for number in range(1, count + 1)]


def copied(path, place, log):
    """Brings a copy up to date, and returns from where on that was done."""
    copy = log_copies.Copy(path)
    start, digest = copy.place()
    with log_copies.LogPart(log, start, digest) as part:
        size = part.size
        copy.take(part.start, part, place or size)
        return part.start


def copies(tally):
    """A copy of a log that grows: only what is new goes, whatever breaks off; another log goes whole."""
    with tempfile.TemporaryDirectory() as folder:
        log, copy = f"{folder}/log", f"{folder}/copy"
        first, second = packages.log(notes(3)), packages.log(notes(3000))
        for text, wanted, start in ((first, first, 0), (second[:-1] + b"\0junk", second, len(first) - 1), (second, second, len(second) - 1),
                                    (packages.log(notes(2)), packages.log(notes(2)), 0), (b"", b"\0", 0), (first, first, 0)):
            with open(log, "wb") as file:
                file.write(text)
            got = copied(copy, 0, log)
            check(tally, f"a copy of a log of {len(text)} bytes", (contents(copy), got) == (wanted, start), got, contents(copy)[-40:])
        with open(log, "wb") as file:
            file.write(second)
        try:
            copied(copy, len(second), log)
            broken = ""
        except log_copies.BadLog as bad:
            broken = str(bad)
        units = log_copies.Copy(copy).place()[0]
        check(tally, "a copy that breaks off", broken and units == len(first) - 1, broken, units)
        again = copied(copy, 0, log)
        check(tally, "a copy that goes on", (contents(copy), again) == (second, len(first) - 1), again)
        other = bytearray(second)
        other[60] ^= 1
        with open(log, "wb") as file:
            file.write(other)
        check(tally, "a copy of another log", copied(copy, 0, log) == 0 and contents(copy) == bytes(other))


def spans(tally):
    """Times and sizes as a person says them."""
    got = [hosts_status.span(it) for it in (0, 59.9, 60, 3725, 90_000, 200_000)], [hosts_status.amount(it) for it in (0, 999, 22_400_000_000, 3e15)]
    wanted = ["0 s", "59 s", "1 min", "1 h 2 min", "1 d 1 h", "2 d 7 h"], ["0 B", "999 B", "22 GB", "3000 TB"]
    check(tally, "times and sizes", got == wanted, got)


# ---- services

# what rc.subr does with a script's variables, as far as it is needed here
RC_SUBR = """rc_cmd() {
    case $1 in
    start) "$daemon" $daemon_flags >/dev/null 2>&1 & echo $! ;;
    pexp) echo "$pexp" ;;
    esac
}
"""


def services(tally):
    """The script for rc.d(8) and the unit for systemd(1) call what is there, and the script's pattern is the process that it starts."""
    unit = read(f"{TOP}/services/dpbn@.service")
    lines = dict(line.split("=", 1) for line in unit.splitlines() if "=" in line and not line.startswith("#"))
    asked = host.options(lines["ExecStart"].replace("%f", "/var/dpbn/june").split()[1:])
    right = (lines["ExecStart"].split()[0], asked.command, asked.folder, asked.new) == ("@BINDIR@/dpbn-host", "run", "/var/dpbn/june", False)
    check(tally, "the unit for systemd", right and (lines["KillMode"], lines["RestartPreventExitStatus"]) == ("mixed", "1 2 3"), lines)
    with laid() as bulk:
        put(f"{bulk.folder}/june", f"dir {bulk.folder}/run\nlisting listing\nbuild build-port\nssh -\nnode --progress 1 --rest 1000\nhost oak {bulk.addresses()[0]}\n")
        bulk.call("june", "start")
        bulk.call("june", "stop")
        put(f"{bulk.folder}/rc.subr", RC_SUBR)
        script = read(f"{TOP}/services/dpbn.rc").replace("@BINDIR@", f"{bulk.folder}/bin").replace("/etc/rc.d/rc.subr", f"{bulk.folder}/rc.subr")
        script = script.replace('daemon_flags="run /var/dpbn"', f'daemon_flags="run {bulk.folder}/run"')
        put(f"{bulk.folder}/rc", script)

        def rc(word):
            return subprocess.run(["sh", f"{bulk.folder}/rc", word], stdin=subprocess.DEVNULL, capture_output=True, timeout=LIMIT, env=bulk.environment()).stdout.decode().strip()

        pid = int(rc("start"))
        came = until(lambda: all(host.Folder(f"{bulk.folder}/run").holder(part) for part in ("keeper", "driver", "node")))
        args = subprocess.run(["ps", "-o", "args=", "-p", str(pid)], capture_output=True).stdout.decode().strip()
        check(tally, "the script for rc.d", came and args == rc("pexp") and host.Folder(f"{bulk.folder}/run").holder("keeper") == pid, args, rc("pexp"))
        os.kill(host.Folder(f"{bulk.folder}/run").holder("node"), signal.SIGKILL)
        check(tally, "the script for rc.d, a node that ended", bulk.says("oak", "2 starts"), bulk.lines())
        os.kill(pid, signal.SIGTERM)
        gone = until(lambda: not any(host.Folder(f"{bulk.folder}/run").holder(part) for part in ("keeper", "driver", "node")))
        check(tally, "the script for rc.d, its end", gone and bulk.lines()["oak"].startswith("stopped"), bulk.lines())


# ---- the ten steps of dpbn-bulk(7)

# what builds a port of the tree of Makefiles, with packages that are one file each
BUILD_PORT = """#!/bin/sh
mkdir deps
for file in "$DEPS"/*/*.tgz; do
    test ! -e "$file" || { folder=deps/$(basename "$(dirname "$file")"); mkdir "$folder" && tar -xzf "$file" -C "$folder" || exit 1; }
done
DEPS=$PWD/deps bmake -f "$PORTSDIR/${PKGPATH%%,*}/Makefile" package || exit 1
while read -r path name; do
    folder=$OUT/$(echo "$path" | tr / :)
    (cd "$folder" && head -c 2000 /dev/urandom > weight && tar -czf ../package content weight && rm -- * && mv ../package "$name.tgz") || exit 1
done < "$NAMES"
"""
# the commands that may be run again until they print what the page shows, since it takes its time
LOOKS = ("dpbn-hosts june status", "dpbn-hosts june report", "sed ", "head ")
# what isn't the same at each run
MASKS = [(r"  I=\d+ B=\d+ Q=\d+ T=\d+ !=\d+", ""), (r"drains\b|drained\b", "DRAIN"), (r"\b\d+ (d|h|min|s)( \d+ (h|min|s))?\b", "TIME"), (r"\d+ (B|kB|MB|GB|TB)\b", "SIZE"),
         (r"\b(Mon|Tue|Wed|Thu|Fri|Sat|Sun)( \d+ \w+)?\b", "DAY"), (r"\d{2}:\d{2}(:\d{2})?", "CLOCK"), (r"\b(oak|elm|fir)(?= +DAY)|by the log of \w+", "HOST"),
         (r"\d+", "N"), (r" +", " ")]


def masked(text):
    for pattern, word in MASKS:
        text = re.sub(pattern, word, text)
    return text


def blocks_of(page):
    """The blocks of commands of the ten steps: in each the commands, with what is shown below them."""
    part = page[page.index(".Sh A BULK BUILD IN TEN STEPS"):page.index(".Sh WHAT TO DECIDE BEFORE")]
    for block in re.findall(r"^\.Bd -literal.*?\n(.*?)^\.Ed$", part, re.DOTALL | re.MULTILINE):
        commands = [each.partition("\n")[::2] for each in re.split(r"^\$ ", block, flags=re.MULTILINE)[1:]]
        yield [(line.replace("\\e", "\\"), text) for line, text in commands]


class Sshd:
    """A real sshd on loopback, a port for each host, and a wrapper of ssh that finds it."""

    def __init__(self, bulk):
        self.bulk, folder = bulk, f"{bulk.folder}/ssh"
        os.mkdir(folder, 0o700)
        for name in ("host", "user"):
            subprocess.run(["ssh-keygen", "-q", "-t", "ed25519", "-N", "", "-f", f"{folder}/{name}"], check=True, stdin=subprocess.DEVNULL, timeout=LIMIT)
        shutil.copy(f"{folder}/user.pub", f"{folder}/authorized")
        port = free_ports(3)
        lines = [f"HostKey {folder}/host", f"AuthorizedKeysFile {folder}/authorized", "StrictModes no", "UsePAM no", "PasswordAuthentication no",
                 "PidFile none", "MaxStartups 100", "PermitRootLogin yes", *(f"ListenAddress 127.0.0.1:{port + number}" for number in range(3))]
        for number, name in enumerate(NAMES):
            lines += [f"Match LocalPort {port + number}", f'    ForceCommand {bulk.folder}/login {name} "$SSH_ORIGINAL_COMMAND"']
        put(f"{folder}/sshd_config", "\n".join([*lines, ""]))
        key = " ".join(read(f"{folder}/host.pub").split()[:2])
        put(f"{folder}/known", "".join(f"[127.0.0.1]:{port + number} {key}\n" for number in range(3)))
        text = "".join(f"Host {name}\n    HostName 127.0.0.1\n    Port {port + number}\n" for number, name in enumerate(NAMES))
        put(f"{folder}/config", text + f"Host *\n    IdentityFile {folder}/user\n    IdentitiesOnly yes\n    UserKnownHostsFile {folder}/known\n    StrictHostKeyChecking yes\n")
        with open(f"{folder}/sshd.log", "wb") as log:
            self.process = subprocess.Popen([sshd(), "-D", "-e", "-f", f"{folder}/sshd_config"], stdin=subprocess.DEVNULL, stdout=log, stderr=log)
        self.real = shutil.which("ssh")

    def is_up(self):
        """Whether it lets one in; then it takes the place of the stand-in."""
        config = f"{self.bulk.folder}/ssh/config"

        def enters():
            done = subprocess.run([self.real, "-F", config, "-o", "BatchMode=yes", "fir", "pwd"], stdin=subprocess.DEVNULL, capture_output=True, timeout=LIMIT)
            return done.stdout.decode().strip() == os.path.realpath(self.bulk.home("fir", "."))

        if self.process.poll() is None and until(lambda: self.process.poll() is not None or enters()) and self.process.poll() is None:
            put(f"{self.bulk.folder}/bin/ssh", f'#!/bin/sh\nexec {self.real} -F {config} "$@"\n', 0o755)
            return True
        return False

    def end(self):
        self.process.terminate()
        self.process.wait(LIMIT)


def sshd():
    return shutil.which("sshd", path=f"{os.environ.get('PATH', os.defpath)}:/usr/sbin:/usr/local/sbin")


class Steps:
    """Three hosts with a tree of Makefiles, on which the commands of the page are run."""

    def __init__(self, bulk):
        self.bulk, self.ports = bulk, f"{bulk.folder}/ports"
        subprocess.run([f"{TESTS}/live/make-tree", self.ports, "--seed", "8", "--ports", "12", "--broken", "1", "--ignored", "1", "--least", "0.1", "--most", "0.4"],
                       check=True, timeout=LIMIT)
        self.names = read(f"{self.ports}/order").split()
        dumps = [subprocess.run(["bmake", "dump-vars"], cwd=f"{self.ports}/{name}", check=True, capture_output=True, timeout=LIMIT).stdout for name in self.names]
        put(f"{self.ports}/whole", b"".join(dumps).decode())
        put(f"{self.ports}/answers", "{}")
        self.mend()
        for name in NAMES:
            shutil.copytree(self.ports, bulk.home(name, "ports"))
        bulk.program("bin/build-port", BUILD_PORT)
        for name in ("june", "listing"):
            os.unlink(f"{bulk.folder}/{name}")

    def mend(self):
        """The difference that mends the port that is broken."""
        for name in self.names:
            text = read(f"{self.ports}/{name}/Makefile")
            if "BROKEN = " in text:
                new = re.sub("BROKEN = .*\n", "", text)
                put(f"{self.bulk.folder}/Makefile.new", new)
                done = subprocess.run(["diff", "-u", f"{name}/Makefile", f"{self.bulk.folder}/Makefile.new"], cwd=self.ports, capture_output=True, timeout=LIMIT)
                lines = done.stdout.decode().split("\n")
                put(f"{self.bulk.folder}/mend.diff", "\n".join([f"--- {name}/Makefile", f"+++ {name}/Makefile", *lines[2:]]))

    def run_line(self, line):
        """What one line prints on standard output, and on both streams."""
        done = subprocess.run(["sh", "-c", line], cwd=self.bulk.folder, stdin=subprocess.DEVNULL, capture_output=True, timeout=LIMIT,
                              env={**self.bulk.environment(), "PORTSDIR": self.ports, "MAKE": f"{TESTS}/played-make"})
        return done.stdout.decode(), done.stdout.decode() + done.stderr.decode()

    def run_block(self, commands):
        """What the first command of a block prints that isn't what the page shows, and that; or nothing."""
        for line, text in commands:
            out, both = self.run_line(line)
            same = masked if line.startswith(("dpbn-hosts ", *LOOKS)) else str
            if same(text) not in (same(out), same(both)):
                return line, text, both
        return None

    def block(self, tally, commands):
        """A block of commands. One that only looks is looked at until it is as the page shows it."""
        if commands[0][0] == "cat june":
            text = commands[0][1]
            for number, address in enumerate(self.bulk.addresses()):
                text = text.replace(f"192.0.2.1{number}:7000", address)
            put(f"{self.bulk.folder}/june", text)
            check(tally, "dpbn-bulk(7), its file", text.count("127.0.0.1:") == 3, text)
            return
        wrong = self.run_block(commands)
        if all(line.startswith(LOOKS) for line, _ in commands):
            end = time.monotonic() + LIMIT
            while wrong and time.monotonic() < end:
                time.sleep(0.5)
                wrong = self.run_block(commands)
        told = wrong and (wrong, [read(self.bulk.home(name, f"june/{part}.out"))[-600:] for name in NAMES for part in ("node", "driver")])
        # start waits ten seconds for the hosts, and prints how far they are
        is_timed = any(line.startswith("dpbn-hosts june start") for line, _ in commands)
        check(tally, f"dpbn-bulk(7): {'; '.join(line for line, _ in commands)}", not wrong, told, timed=is_timed)

    def packages(self, tally):
        """Each package is what a serial build makes of its port."""
        subprocess.run([f"{TESTS}/live/serial-build", self.ports, f"{self.bulk.folder}/serial"], stdout=subprocess.DEVNULL, check=True, timeout=LIMIT)
        names = dict(line.partition(".FULLPKGNAME=")[::2] for line in read(f"{self.bulk.folder}/listing").splitlines() if ".FULLPKGNAME=" in line)
        wrong = []
        for folder in sorted(os.listdir(f"{self.bulk.folder}/serial")):
            package = f"{self.bulk.folder}/june.d/packages/{names[folder.replace(':', '/')]}.tgz"
            done = subprocess.run(["tar", "-xzOf", package, "content"], capture_output=True, timeout=LIMIT)
            if done.returncode or done.stdout != contents(f"{self.bulk.folder}/serial/{folder}/content"):
                wrong.append((folder, done.stderr))
        found = sorted(name for name in os.listdir(f"{self.bulk.folder}/june.d/packages") if name.endswith(".tgz"))
        built = sorted(f"{names[folder.replace(':', '/')]}.tgz" for folder in os.listdir(f"{self.bulk.folder}/serial"))
        check(tally, "dpbn-bulk(7), the packages", not wrong and found == built, wrong, found, built)


def ten_steps(tally):
    """The page's ten steps, from a dump to a flat folder of packages, word for word except for the addresses of hosts."""
    name = "the ten steps of dpbn-bulk(7)"
    missing = [it for it in ("bmake", "patch") if not shutil.which(it)]
    if missing:
        tally.skip(name, f"there is no {missing[0]} here")
        return
    with laid(dpbn=PLAYED or NODES) as bulk:
        steps = Steps(bulk)
        server = Sshd(bulk) if sshd() and shutil.which("ssh") else None
        try:
            if not server or not server.is_up():
                tally.skip(f"{name} by a real sshd", "there is no sshd here, or it lets nobody in (openssh-server): a stand-in for ssh was used")
            for commands in blocks_of(contents(f"{TOP}/man/dpbn-bulk.7").decode()):
                steps.block(tally, commands)
            steps.packages(tally)
            for number, it in enumerate(NAMES):
                run_file = read(bulk.home(it, f"june/node-{number}.run"))
                check(tally, f"{name}, the key's fingerprint of {it}", f"key {run_key.fingerprint(run_key.read(f'{bulk.folder}/june.key'))}\n" in run_file, run_file)
        finally:
            bulk.end()
            if server:
                server.end()


def run_without_programs(tally):
    for one in (good_file, bad_files, words, pages, ends, spans, copies, other_runs, lost_logs, alone, services):
        tally.case(one)


def run(tally):
    tally.case(three_hosts)
    tally.case(ten_steps)
