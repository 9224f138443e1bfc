"""The large files of tools/build-jobs: from which host they are fetched and when, what happens to wrong ones, and copies before a hand-in."""
import os
import re
import signal
import time

from topics import processor
from topics.played import MAKE, Driver, add, digest_text, has_text, laid, large_file, node_alone, read, until

# prints who is asked, and gets the file from a folder of the test if it is there
GET = 'echo $HOST $SHA256 >> "$TOP/asked"; cp "$TOP/files/$SHA256" "$TARGET"'


def put_file(node, data):
    """Puts a file where the command gets it, and returns its name."""
    os.makedirs(f"{node.folder}/files", exist_ok=True)
    name = re.findall("[0-9a-f]{64}", digest_text("x", data).decode())[0]
    with open(f"{node.folder}/files/{name}", "wb") as file:
        file.write(data)
    return name


def asked(node):
    return [line.split() for line in read(f"{node.folder}/asked").splitlines()] if os.path.exists(f"{node.folder}/asked") else []


def a_dead_host(tally):
    """Eight files of a host that doesn't answer are needed: a file of one that is up comes at once all the same."""
    fetch = 'echo $HOST >> "$TOP/asked"; case $HOST in 0) sleep 1000; exit 1;; esac; cp "$TOP/files/$SHA256" "$TARGET"'
    with node_alone() as node:
        dead = [f"a/d{number}" for number in range(8)]
        for path in dead:
            node.hold(path, {path: large_file("x", path.encode())}, host=0)
        node.hold("b/up", {"b/up": large_file("x", b"good")}, host=1)
        put_file(node, b"good")
        node.post("y/needs-dead", built=dead)
        driver = Driver(node, MAKE, "-j", "2", "--fetch", fetch)
        until(lambda: os.path.exists(f"{node.folder}/asked"))
        time.sleep(1)
        began = time.monotonic()
        made = node.take(node.post("z/needs-up", built=["b/up"]))
        took = time.monotonic() - began
        add(tally, "a file of a host that is up", bool(made), driver.lines())
        add(tally, "a file of a host that is up, how soon it comes", took < 5, took, timed=True)
        count = sum(line == "0" for line in read(f"{node.folder}/asked").split())
        add(tally, "a host that doesn't answer, how many are asked of it", count <= 2, count)
        driver.end()


def another_host(tally):
    """The host that built a package doesn't have its file any more: one that built on it is asked next, and then all others."""
    fetch = 'echo $HOST >> "$TOP/asked"; [ $HOST = 2 ] && cp "$TOP/files/$SHA256" "$TARGET"'
    with node_alone() as node:
        node.hold("a/b", {"a/b": large_file("x", b"good")}, host=0)
        node.hold("c/d", {"c/d": []}, built=[node.held["a/b"]], host=2)
        put_file(node, b"good")
        driver = Driver(node, 'cp "$DEPS/a:b/x" "$TOP/saw"; ' + MAKE, "--fetch", fetch)
        made = node.take(node.post("e/f", built=["a/b"]))
        order = read(f"{node.folder}/asked").split()
        add(tally, "a file that another host has, too", bool(made) and order == ["0", "2"] and read(f"{node.folder}/saw") == "good", order, driver.lines())
        driver.end()


def before_a_place_is_free(tally):
    """Files are fetched for jobs that wait for a place."""
    script = '[ $PKGPATH = a/slow ] && { until [ -e "$TOP/go" ]; do sleep 0.05; done; }; ' + MAKE
    with node_alone() as node:
        node.hold("a/b", {"a/b": large_file("x", b"good")}, host=0)
        name = put_file(node, b"good")
        driver = Driver(node, script, "--fetch", GET)
        slow = node.post("a/slow")
        driver.tells("> a/slow.*")
        waits = node.post("c/d", built=["a/b"])
        came = until(lambda: os.path.exists(f"{node.work}/store/{name}"))
        add(tally, "a file of a job that waits for a place", came and driver.begun() == 1, driver.lines())
        with open(f"{node.folder}/go", "w"):
            made = bool(node.take(slow)), bool(node.take(waits))
        add(tally, "the same, built", made == (True, True), driver.lines())
        driver.end()


def odd_targets(tally):
    """A fetch that leaves no file leaves nothing, whatever it is; the driver hears signals all the while."""
    for what, command in (("a FIFO", 'mkfifo "$TARGET"'), ("a folder", 'mkdir "$TARGET"'), ("a link", 'ln -s /dev/null "$TARGET"'), ("nothing", "echo why >&2; false")):
        with node_alone() as node:
            node.hold("a/b", {"a/b": large_file("x", b"good")}, host=0)
            waits = node.post("c/d", built=["a/b"])
            driver = Driver(node, MAKE, "--fetch", command)
            told = driver.tells("[?] c/d waits for x of a/b, [0-9a-f]{64}, of host 0")
            other = node.take(node.post("e/f"))
            began = time.monotonic()
            status = driver.end()
            took = time.monotonic() - began
            left = [name for name in os.listdir(f"{node.work}/store") if name != "wrong"] if os.path.isdir(f"{node.work}/store") else []
            right = told and bool(other) and status == 143 and not os.path.exists(f"{node.work}/done/{waits}") and left == []
            add(tally, f"a fetch that leaves {what}", right, told, status, left, driver.lines())
            add(tally, f"a fetch that leaves {what}, how soon the driver ends", took < 10, took, timed=True)
            if what == "nothing":
                add(tally, "what a fetch prints", read(f"{node.work}/logs/fetch.log").startswith("why\n"), read(f"{node.work}/logs/fetch.log"))


def what_fetches_leave(tally):
    """What a fetch began ends with it, and a fetch ends with its driver, also if that is killed."""
    leaves = 'sleep 1000 & echo $! > "$TOP/left"; cp "$TOP/files/$SHA256" "$TARGET"'
    with node_alone() as node:
        node.hold("a/b", {"a/b": large_file("x", b"good")}, host=0)
        put_file(node, b"good")
        driver = Driver(node, MAKE, "--fetch", leaves)
        made = node.take(node.post("c/d", built=["a/b"]))
        add(tally, "what a fetch began", bool(made) and until(lambda: not is_running(read(f"{node.folder}/left"))), driver.lines())
        driver.end()
    with node_alone() as node:
        node.hold("a/b", {"a/b": large_file("x", b"good")}, host=0)
        node.post("c/d", built=["a/b"])
        driver = Driver(node, MAKE, "--fetch", 'echo $$ > "$TOP/fetch"; sleep 1000; true')
        until(lambda: has_text(f"{node.folder}/fetch"))
        driver.end(signal.SIGKILL)
        add(tally, "a fetch of a driver that is killed", until(lambda: not is_running(read(f"{node.folder}/fetch"))), driver.lines())


def is_running(number):
    try:
        os.kill(int(number), 0)
    except ProcessLookupError:
        return False
    return True


def many_that_wait(tally):
    """Eight jobs that wait for a file each, of a thousand packages, take little of a processor."""
    if not os.path.exists("/proc/self/stat"):
        return
    with node_alone() as node:
        os.makedirs(f"{node.work}/store")
        paths = []
        for number in range(1000):
            path = f"a/p{number:04}"
            paths.append(path)
            name = put_file(node, path.encode())
            os.rename(f"{node.folder}/files/{name}", f"{node.work}/store/{name}")
            node.hold(path, {path: large_file("x", path.encode())}, host=0)
        node.hold("b/lacks", {"b/lacks": large_file("x", b"lacks")}, host=0)
        for number in range(8):
            node.post(f"z/z{number}", built=sorted([*paths, "b/lacks"]))
        driver = Driver(node, MAKE, "-j", "8", "--fetch", "sleep 1000")
        until(lambda: os.path.exists(f"{node.work}/logs/fetch.log"))
        share = processor.least_share(driver.process.pid, 0.04)
        # usually 1.5 %
        add(tally, "eight jobs that wait for files, their processor time", share < 0.04, share, driver.lines(), timed=True)
        add(tally, "eight jobs that wait for files", driver.begun() == 0, driver.lines())
        print(f"tests/run: build-jobs, eight jobs that wait for a file, with 1,000 packages: {100 * share:.1f} % of a processor", flush=True)
        driver.end()


def own_signature(tally):
    """A package may have a file `.signature` of its own: no file in a package's folder has a meaning."""
    with laid('cat "$DEPS/x:y/.signature" > "$TOP/own"; cat "$SIGNATURES" > "$TOP/told"; ls -A "$DEPS/x:z" > "$TOP/names"; ' + MAKE) as (node, driver):
        node.hold("x/y", {"x/y": [(".signature", b"its own\n")]})
        node.hold("x/z", {"x/z": [("f", b"f")]})
        made = node.take(node.post("a/b", built=["x/y", "x/z"]))
        told = read(f"{node.folder}/own"), read(f"{node.folder}/told"), read(f"{node.folder}/names")
        right = told == ("its own\n", f"{node.held['x/y']}\n{node.held['x/z']}\n", "f\n")
        add(tally, "a package's own file .signature", bool(made) and right, told, driver.lines())


def another_file_system(tally):
    """A store on another file system than the work folder: its files are copied, next to the loop, and that is reported once."""
    place = next((path for path in ("/dev/shm", "/var/tmp", "/home") if os.access(path, os.W_OK) and os.stat(path).st_dev != os.stat("/tmp").st_dev), None)
    if not place:
        tally.skip("build-jobs, a store on another file system", "there is no second file system here to write on")
        return
    with node_alone() as node, node_alone(place) as other:
        node.hold("a/b", {"a/b": large_file("x", b"good")}, host=0)
        put_file(node, b"good")
        driver = Driver(node, 'cp "$DEPS/a:b/x" "$TOP/saw"; ' + MAKE, "--fetch", GET, "--store", f"{other.folder}/store", "--digests", "0")
        first = node.take(node.post("c/d", built=["a/b"]))
        second = node.take(node.post("e/f", built=["c/d"]))
        told = [line for line in driver.lines() if line.startswith("~ files are copied into DEPS")]
        add(tally, "a store on another file system", bool(first) and bool(second) and len(told) == 1 and read(f"{node.folder}/saw") == "good", driver.lines())
        driver.end()


def copies(tally):
    """With --copies 3 a build is handed in once two others have each of its large files; a host that is down is passed over."""
    make = 'mkdir "$OUT/a:b" && head -c 1000 /dev/zero > "$OUT/a:b/f"'
    push = 'echo $HOST >> "$TOP/pushed"; [ $HOST != 2 ] || exit 1; mkdir -p "$TOP/store-$HOST" && cp "$SOURCE" "$TOP/store-$HOST/$SHA256"'
    words = "--digests", "0", "--copies", "2", "--push", push
    with laid(make, *words) as (node, driver):
        made = node.take(node.post("a/b"))
        stores = [name for name in os.listdir(node.folder) if name.startswith("store-")]
        add(tally, "two copies", bool(made) and stores == ["store-0"] and set(read(f"{node.folder}/pushed").split()) == {"0", "2"}, stores, driver.lines())
    with laid(make, "--digests", "0", "--copies", "3", "--push", push) as (node, driver):
        name = node.post("a/b")
        told = driver.tells("[?] a/b waits: its files aren't in 3 stores")
        add(tally, "three copies, and a host that is down", told and not os.path.exists(f"{node.work}/done/{name}"), driver.lines())
        status = driver.end()
        again = Driver(node, make, "--digests", "0", "--copies", "3", "--push", push.replace("2", "9"))
        made = node.take(name)
        add(tally, "the same, once it is up", status == 143 and bool(made) and driver.begun() + again.begun() == 1, driver.lines(), again.lines())
        again.end()


def run_first(tally):
    for one in (a_dead_host, another_host, before_a_place_is_free, what_fetches_leave, own_signature):
        tally.case(one)


def run_second(tally):
    for one in (odd_targets, another_file_system, copies):
        tally.case(one)
