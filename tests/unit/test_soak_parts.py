"""Unit tests of other parts of tests/soak: trees that are cut, lines, carriers, moments, clocks and disks."""
import os
import random
import socket
import struct
import subprocess
import sys
import time

import pytest

from soak_parts import bad_line, carrier, figures, shims, trees, words
from soak_parts.bad_line import Line
from soak_parts.clocks import DAY, FORWARD, HOUR, Clock
from soak_parts.moments import HANDED, POSTED, Moment, Moments
from soak_parts.runs import free_ports
from schedules import Units


def test_cut():
    lines = ["===> a/b", "a/b,-main.FULLPKGNAME=b-1", "a/b,-docs.FULLPKGNAME=b-docs-1", "a/b,-docs.RUN_DEPENDS=c/d", "c/d.FULLPKGNAME=d-1",
             "e/f.FULLPKGNAME=f-1", "e/f.IGNORE=no", "g/h.FULLPKGNAME=h-1", "g/h.BUILD_DEPENDS=e/f", "i/j.FULLPKGNAME=j-1",
             "i/j.LIB_DEPENDS=STEM->=1:c/d", "k/l.FULLPKGNAME=l-1", "k/l.RUN_DEPENDS=x/y"]
    # the first unit has two packages and brings c/d; e/f is ignored, g/h needs it, and k/l needs what isn't listed
    assert {line.partition(".")[0] for line in trees.cut(lines, 1)} == {"a/b,-main", "a/b,-docs", "c/d"}
    assert {line.partition(".")[0] for line in trees.cut(lines, 0)} == {"a/b,-main", "a/b,-docs", "c/d", "i/j"}


@pytest.mark.parametrize("count", [10, 100])
def test_cut_of_a_made_listing(count):
    lines = trees.cut(trees.made(2 * count), count)
    units = Units(lines)
    assert count <= len(units.names) <= 2 * count
    assert all(needed in units.to_build for path in units.paths for needed in units.to_build[path] | units.to_run[path])


def test_line():
    dice = random.Random(1)
    assert Line().delays(dice, 0, 1) == [0.0]
    assert not Line(groups=((0,), (1, 2))).delays(dice, 0, 1) and Line(groups=((0,), (1, 2))).delays(dice, 2, 1)
    lost = sum(not Line(loss=0.05).delays(dice, 0, 1) for _ in range(10_000))
    assert 300 < lost < 700
    copies = [Line(delay=1, jitter=2, twice=0.5).delays(dice, 0, 1) for _ in range(1000)]
    assert 400 < sum(len(it) == 2 for it in copies) < 600 and all(1 <= delay <= 3 for it in copies for delay in it)
    line = Line(0.1, 0.2, 0.3, 0.4, ((0,), (1, 2)))
    assert bad_line.read(line.written()) == line


def test_carried_datagrams():
    """Three members hear each other from the addresses by which they know them, and not while the line is cut."""
    members = [carrier.bound((carrier.real_address(me), carrier.PORT)) for me in range(3)]
    process = subprocess.Popen([sys.executable, carrier.__file__, "datagrams", "3"], stdin=subprocess.PIPE, stdout=subprocess.PIPE, text=True)
    try:
        process.stdout.readline()

        def order(text):
            print(text, file=process.stdin, flush=True)
            return process.stdout.readline()

        for source, target in ((0, 1), (2, 0), (1, 2)):
            members[source].sendto(b"hello", (carrier.seen_address(source, target), carrier.PORT))
            members[target].settimeout(240)
            assert members[target].recvfrom(100) == (b"hello", (carrier.seen_address(target, source), carrier.PORT))
        order(f"line {Line(groups=((0,), (1, 2))).written()}")
        members[0].sendto(b"lost", (carrier.seen_address(0, 1), carrier.PORT))
        members[2].sendto(b"heard", (carrier.seen_address(2, 1), carrier.PORT))
        assert members[1].recv(100) == b"heard"
        assert '"lost": 1' in order("counts")
        order(f"line {Line().written()}")
        order("flood 100")
        members[1].settimeout(240)
        assert members[1].recvfrom(65_536)[1][0] in (carrier.seen_address(1, 0), carrier.seen_address(1, 2))
    finally:
        process.kill()
        process.communicate()
        for it in members:
            it.close()


def test_packets_are_addressed():
    head = bytes([0x45]) + bytes(15)
    assert carrier.addressed(head + bytes([10, 77, 0, 3]), 0) == (head + bytes([10, 77, 0, 3]), 0, 2)
    assert carrier.addressed(head + bytes([10, 78, 0, 3]), 0)[2] == carrier.addressed(bytes([0x60]) + bytes(39), 0)[2] == -1


def test_moments(tmp_path):
    for part in ("jobs", "done"):
        os.mkdir(f"{tmp_path}/{part}")
    moments = Moments({4: str(tmp_path)})
    assert moments.came() == []
    for place in ("jobs/.x", "jobs/x", "done/x"):
        with open(f"{tmp_path}/new", "w"):
            pass
        os.rename(f"{tmp_path}/new", f"{tmp_path}/{place}")
    assert moments.came() == [Moment(POSTED, 4), Moment(HANDED, 4)]
    moments.close()


CLOCKS = "import time; print(time.time(), time.monotonic())"


def clocks_of(library, path):
    environment = {**os.environ, "LD_PRELOAD": library, "CLOCK": path}
    return [float(it) for it in subprocess.run([sys.executable, "-c", CLOCKS], env=environment, stdout=subprocess.PIPE, check=True).stdout.split()]


def test_clock(tmp_path):
    library, clock = shims.built("clock", str(tmp_path)), Clock(f"{tmp_path}/clock")

    def ahead():
        now = time.time(), time.monotonic()
        return [shown - it for shown, it in zip(clocks_of(library, clock.path), now)]

    day, begins = ahead()
    assert abs(day) < 60
    clock.set(FORWARD, HOUR)
    day, forward = ahead()
    assert abs(day) < 60 and abs(forward - begins - HOUR) < 60
    clock.set(FORWARD, -2 * HOUR)
    clock.set(DAY, -HOUR)
    day, forward = ahead()
    assert abs(day + HOUR) < 60 and abs(forward - begins + HOUR) < 60
    clock.set(DAY, speed=1000.0)
    before = clocks_of(library, clock.path)[0]
    time.sleep(0.2)
    assert clocks_of(library, clock.path)[0] - before > 200
    assert struct.unpack_from("q", clock.page)[0] % 2 == 0


WAITS = """
import sys, threading, time
event, began = threading.Event(), time.monotonic()
sys.stdin.readline()
time.sleep(0.1)
event.wait(0.1)
threading.Thread(target=event.set).start()
print(event.wait(200), 0.1 < time.monotonic() - began)
"""


@pytest.mark.parametrize("ahead", [HOUR, -1000])
def test_waits_with_another_clock(tmp_path, ahead):
    """Who waits for some time does so, whatever the clock shows."""
    library, clock = shims.built("clock", str(tmp_path)), Clock(f"{tmp_path}/clock")
    for which in (DAY, FORWARD):
        clock.set(which, ahead)
    environment = {**os.environ, "LD_PRELOAD": library, "CLOCK": clock.path}
    done = subprocess.run([sys.executable, "-c", WAITS], input=b"\n", env=environment, stdout=subprocess.PIPE, check=True, timeout=240)
    assert done.stdout == b"True True\n"


WRITES = """
import os, sys
def tried(what):
    try:
        what()
        return 0
    except OSError as error:
        return error.errno
folder, file = sys.argv[1], os.open(sys.argv[1] + "/file", os.O_RDWR) if len(sys.argv) > 2 else -1
calls = [lambda: open(f"{folder}/a", "w").close(), lambda: os.mkdir(f"{folder}/b"), lambda: os.rename(f"{folder}/a", f"{folder}/c"),
         lambda: os.unlink(f"{folder}/c"), lambda: os.rmdir(f"{folder}/b"), lambda: open(f"{folder}/file").close()]
print([tried(it) for it in calls])
"""


def test_disk(tmp_path):
    library = shims.built("disk", str(tmp_path))
    for name in ("good", "bad"):
        os.mkdir(f"{tmp_path}/{name}")
        with open(f"{tmp_path}/{name}/file", "w"):
            pass

    def results(folder):
        environment = {**os.environ, "LD_PRELOAD": library, "DISK": f"{tmp_path}/bad", "BAD": f"{tmp_path}/number"}
        words = [sys.executable, "-c", WRITES, f"{tmp_path}/{folder}"]
        return subprocess.run(words, env=environment, stdout=subprocess.PIPE, check=True).stdout.strip()

    assert results("bad") == results("good") == b"[0, 0, 0, 0, 0, 0]"
    with open(f"{tmp_path}/number", "w") as file:
        file.write("30")
    assert results("good") == b"[0, 0, 0, 0, 0, 0]"
    assert results("bad") == b"[30, 30, 30, 30, 30, 0]"


def test_words():
    asked = words.parser().parse_args(["archive", "--sizes", "3", "5", "--minutes", "1", "--more=--single"])
    assert (asked.part, asked.sizes, asked.minutes, asked.units, asked.begun) == ("archive", [3, 5], 1.0, 0, 1.0)
    for part in words.PARTS:
        asked = words.parser().parse_args([part])
        assert asked.seed == 1 and not asked.makefiles


def test_figures(capsys):
    it = figures.Figures("kills", {"seed": 1})
    it.add("time", 12.345, "s", "list scheduler: 10 s")
    it.expect(True, "no")
    it.expect(False, "yes")
    assert it.wrong == ["yes"] and it.table() == "| time | 12.3 s | list scheduler: 10 s |"
    assert '"wrong": ["yes"]' in it.line()
    assert [figures.shown(value) for value in (3, 0.5, 123.45, 12345.6)] == ["3", "0.50", "123.5", "12,346"]


def test_ports():
    base = free_ports(3)
    with socket.socket(socket.AF_INET, socket.SOCK_DGRAM) as it:
        it.bind(("127.0.0.1", base))
        assert free_ports(3) != base
