"""Parts of the tests side by side: how many run at a time, in which order they are printed, and what counts as a failure."""
import importlib.machinery
import importlib.util
import multiprocessing
import os
import re
import signal
import subprocess
import sys
import time

import pytest

from topics import driver, lanes, network
from topics.lanes import Kind, Lanes, Part
from topics.tally import Lines, Tally, seen


def until(holds):
    """Waits until something holds, on a machine that may be busy."""
    end = time.monotonic() + 240
    while not holds() and time.monotonic() < end:
        time.sleep(0.02)
    return holds()


class Watch:
    """Parts that note when they begin and end."""

    def __init__(self, folder):
        self.folder = folder

    def part(self, name, seconds=0.2, kind=Kind.WORKS, problem="", meets=0, **more):
        """A part that goes on when so many have begun."""
        def run(tally):
            began = time.monotonic()
            (self.folder / f"{name}.began").touch()
            print(f"{name} begins", flush=True)
            until(lambda: len(list(self.folder.glob("*.began"))) >= meets)
            time.sleep(seconds)
            print(f"{name} ends", flush=True)
            tally.add(name, problem)
            (self.folder / f"{name}.span").write_text(f"{began} {time.monotonic()}")
        return Part(name, run, kind, **more)

    def spans(self):
        return {it.stem: tuple(map(float, it.read_text().split())) for it in self.folder.glob("*.span")}

    def at_a_time(self, *names):
        """How many of these ran at a time, at most."""
        spans = [span for name, span in self.spans().items() if name in names]
        return max(sum(began <= moment < ended for began, ended in spans) for moment, _ in spans)


def is_alive(pid):
    """Whether the process runs. One that has ended may be there until somebody asks for its status."""
    done = subprocess.run(["ps", "-o", "stat=", "-p", pid], stdout=subprocess.PIPE, text=True, check=False)
    return bool(done.stdout.strip()) and not done.stdout.strip().startswith("Z")


@pytest.fixture(name="watch")
def watch_of(tmp_path):
    return Watch(tmp_path)


def ran(parts, count=4):
    tally = Tally()
    Lanes(tally, parts, count).run()
    return tally


def test_what_is_printed(watch, capfd):
    """What each part prints stays together, in the order of the list."""
    ran([watch.part("slow", 0.5), watch.part("quick", 0), watch.part("other", 0.2)])
    lines = [line for line in capfd.readouterr().out.splitlines() if not line.startswith("tests/run: ")]
    assert lines == [f"{name} {word}" for name in ("slow", "quick", "other") for word in ("begins", "ends")]


def test_what_a_line_says(watch, capfd):
    """After each part there is a line with its counts and its times."""
    ran([watch.part("one"), watch.part("two", problem="it isn't so")])
    said = capfd.readouterr().out
    assert re.search(r"^tests/run: one: 1 passed, 0 failed in \d+ s, \d+ s of processor$", said, re.MULTILINE)
    assert "tests/run: FAILED: two: it isn't so\n" in said and "tests/run: two: 0 passed, 1 failed in " in said


@pytest.mark.parametrize("count,most,most_waiting", [(1, 1, 1), (2, 2, 1), (4, 4, 2)])
def test_how_many_at_a_time(watch, count, most, most_waiting):
    """There is a lane for each processor, and half of the lanes take what waits."""
    waits, works = [f"waits{n}" for n in range(4)], [f"works{n}" for n in range(6)]
    parts = [*(watch.part(it, meets=most) for it in works), *(watch.part(it, kind=Kind.WAITS, meets=most) for it in waits)]
    tally = ran(parts, count)
    assert (tally.passed, watch.at_a_time(*waits, *works), watch.at_a_time(*waits)) == (10, most, most_waiting)


def test_what_begins_first(watch):
    """What waits begins before what works, and of each kind the lower rank first."""
    parts = [watch.part("works", 0.01), watch.part("later", 0.01, Kind.WAITS, rank=1), watch.part("sooner", 0.01, Kind.WAITS)]
    ran(parts, 1)
    spans = watch.spans()
    assert sorted(spans, key=lambda it: spans[it][0]) == ["sooner", "later", "works"]


def test_what_waits_alone(watch):
    """If nothing else is left, all lanes take what waits."""
    waits = [f"waits{n}" for n in range(4)]
    assert ran([watch.part(it, 0, Kind.WAITS, meets=4) for it in waits]).passed == watch.at_a_time(*waits) == 4


@pytest.mark.parametrize("count,beside", [(1, 0), (2, 1), (4, 1)])
def test_beside_the_gate(watch, count, beside):
    """Beside the gate there is one part at a time, of those that need no programs; all others begin when it has ended."""
    free = [f"free{n}" for n in range(3)]
    parts = [watch.part("gate", 0.5, Kind.GATE, meets=1 + beside), watch.part("needs", 0)]
    parts += [watch.part(it, 0.1, on_programs=False) for it in free]
    assert ran(parts, count).passed == 5
    spans = watch.spans()
    assert spans["needs"][0] > spans["gate"][1]
    assert watch.at_a_time("gate", *free) == 1 + beside


def test_a_gate_that_fails(watch, capfd):
    """What runs on its programs is left out, and what needs none is not."""
    parts = [watch.part("gate", 0.3, Kind.GATE, problem="a goal"), watch.part("needs"), watch.part("free", on_programs=False)]
    assert (ran(parts).names, sorted(watch.spans())) == (["gate"], ["free", "gate"])
    said = capfd.readouterr().out
    assert said.index("what runs on its programs is left out") < said.index("free begins")


def test_what_ends_badly(watch):
    """A part that breaks off, or whose process ends, is a failure, and the others run."""
    def ends(_):
        os._exit(3)

    def breaks_off(_):
        raise OSError("on purpose")

    tally = ran([Part("ends", ends), Part("breaks off", breaks_off), watch.part("runs")])
    assert (tally.passed, sorted(tally.names)) == (1, ["breaks off", "ends"])


def test_what_is_cut_off(watch, capfd):
    """If the tests are ended, so is what parts started, and what came of the others is printed."""
    def starts(_):
        process = subprocess.Popen(["sleep", "600"])
        (watch.folder / "pid").write_text(f"{process.pid}\n")
        process.wait()

    told = watch.folder / "told"

    def cut_off():
        signal.signal(signal.SIGTERM, lambda *_: sys.exit(143))
        sys.stderr = open(told, "w", encoding="ascii")
        ran([Part("starts", starts), watch.part("quick", 0)])

    process = multiprocessing.get_context("fork").Process(target=cut_off)
    process.start()
    assert until(lambda: told.exists() and "quick has ended" in told.read_text() and (watch.folder / "pid").exists())
    process.terminate()
    process.join(240)
    assert process.exitcode == 143
    assert until(lambda: not is_alive((watch.folder / "pid").read_text().strip()))
    assert "quick ends" in capfd.readouterr().out


def test_what_is_skipped(watch):
    """What parts skipped is known in the end."""
    tally = ran([Part("one", lambda tally: tally.skip("that", "there is none here")), watch.part("two")])
    assert (tally.passed, tally.skipped) == (1, ["that: there is none here"])


def test_what_the_driver_answered(watch, monkeypatch):
    """Parts that begin later needn't ask the driver again."""
    monkeypatch.setattr(driver, "ANSWERED", {})

    def asks(_):
        driver.ANSWERED[b"a question"] = b"an answer"

    def asks_again(tally):
        tally.add("again", "" if driver.ANSWERED == {b"a question": b"an answer"} else "it isn't known")

    assert ran([Part("asks", asks), Part("again", asks_again)], 1).passed == 1


def turn_of(watch, name):
    """How often the part of this name began before, which is noted."""
    with open(watch.folder / f"{name}.runs", "a+", encoding="ascii") as file:
        file.write("x")
        return file.tell() - 1


def measured(watch, first, again, other=("", "")):
    """A part with a check of time and another check, with what is wrong in its first run and in its second one."""
    def run(tally):
        turn = turn_of(watch, "measured")
        tally.add("how long", (first, again)[turn], timed=True)
        tally.add("what", other[turn])
    return Part("measured", run)


@pytest.mark.parametrize("first,again,other,runs,passed,names,alone", [
    ("", "", ("", ""), 1, 3, [], []), ("9 s", "", ("", ""), 2, 3, [], ["how long"]), ("9 s", "8 s", ("", ""), 2, 2, ["how long"], []),
    ("", "", ("wrong", ""), 2, 3, [], ["what"]), ("", "", ("wrong", "wrong"), 2, 2, ["what"], []),
    ("9 s", "", ("wrong", ""), 2, 3, [], ["how long", "what"]), ("9 s", "", ("", "wrong"), 2, 2, ["what"], ["how long"]),
    ("9 s", "", ("wrong", "wrong"), 2, 2, ["what"], ["how long"])])
def test_what_runs_again(watch, capfd, first, again, other, runs, passed, names, alone):
    """If something fails, its part runs again when all others have ended, and the second results count. Both are printed."""
    tally = ran([measured(watch, first, again, other), watch.part("long", 0.3)])
    assert (turn_of(watch, "measured"), tally.passed, tally.names, tally.failed) == (runs, passed, names, len(names))
    assert [it.name for it in tally.only_alone] == alone
    said = capfd.readouterr().out
    assert said.count("FAILED: how long: ") == bool(first) + bool(first and again)
    assert said.count("FAILED: what: ") == sum(map(bool, other))
    last = f"measured, again: {f'failed: {names[0]}' if names else 'it passed'}\n"
    assert runs == 1 or said.index("long ends") < said.index("measured: it runs again by itself") < said.index(last)


def test_a_check_that_is_not_repeated(watch):
    """If the second run breaks off before the check, both have failed."""
    def run(tally):
        if turn_of(watch, "measured"):
            raise OSError("on purpose")
        tally.add("how long", "9 s", timed=True)
        tally.add("what", "")
    tally = ran([Part("measured", run)])
    assert (tally.passed, sorted(tally.names), tally.only_alone) == (1, ["how long", "measured"], [])


def test_what_breaks_off_once(watch):
    """What breaks off, and comes to its end when it runs again, has passed, and its checks count once."""
    def run(tally):
        tally.add("first", "")
        if not turn_of(watch, "breaks"):
            raise OSError("on purpose")
        tally.add("second", "")
    tally = ran([Part("breaks", run)])
    assert (tally.passed, tally.names, [it.name for it in tally.only_alone]) == (2, [], ["breaks"])
    assert "OSError: on purpose" in tally.only_alone[0].first_line()


def test_a_process_that_ends_once(watch):
    """So it is with a process that ends badly."""
    def run(tally):
        if not turn_of(watch, "ends"):
            os._exit(3)
        tally.add("that", "")
    tally = ran([Part("ends", run)])
    assert (tally.passed, tally.names) == (1, [])
    assert [it.first_line() for it in tally.only_alone] == ["its process ended with status 3"]


def test_what_runs_too_long(watch, monkeypatch, capfd):
    """A part that runs for too long is ended with what it started, and is a failure; the others run, and so does the gate for any time."""
    monkeypatch.setattr(lanes, "PAUSE", 0.05)

    def run(_):
        process = subprocess.Popen(["sleep", "600"])
        (watch.folder / f"{process.pid}.pid").touch()
        process.wait()
    tally = ran([watch.part("gate", 1, Kind.GATE, longest=0.5), Part("long", run, longest=2), watch.part("other", 3)])
    assert (tally.passed, tally.names, tally.only_alone) == (2, ["long"], [])
    assert capfd.readouterr().out.count("FAILED: long: it ran for 2 s, and was ended then\n") == 2
    assert until(lambda: not any(is_alive(it.stem) for it in watch.folder.glob("*.pid")))


def test_a_name_that_comes_twice(watch):
    """Of a name that comes twice all must pass."""
    def run(tally):
        turn = turn_of(watch, "twice")
        tally.add("name", "" if turn else "wrong")
        tally.add("name", "wrong" if turn else "")
        tally.add("other", "" if turn else "wrong")
        tally.add("other", "" if turn else "wrong")
    tally = ran([Part("twice", run)])
    assert (tally.passed, tally.names, [it.name for it in tally.only_alone]) == (3, ["name"], ["other", "other"])


def test_a_gate_does_not_run_again(watch):
    """The gate runs once."""
    def run(tally):
        turn_of(watch, "gate")
        tally.add("a goal", "it is open")
    tally = ran([Part("gate", run, Kind.GATE)])
    assert (turn_of(watch, "gate"), tally.names, tally.only_alone) == (1, ["a goal"], [])


def test_one_after_the_other(watch):
    """What runs again runs by itself: no other part runs then."""
    def part(name):
        def run(tally):
            turn, began = turn_of(watch, name), time.monotonic()
            time.sleep(0.3)
            tally.add(name, "" if turn else "wrong")
            (watch.folder / f"{name}.span").write_text(f"{began} {time.monotonic()}")
        return Part(name, run)
    tally = ran([part("one"), part("two"), watch.part("long", 0.5)])
    spans = watch.spans()
    assert (tally.passed, watch.at_a_time("one", "two", "long")) == (3, 1) and spans["long"][1] < min(spans["one"][0], spans["two"][0])


def script():
    """The script tests/run as a module."""
    loader = importlib.machinery.SourceFileLoader("run", os.path.join(os.path.dirname(os.path.dirname(os.path.abspath(__file__))), "run"))
    module = importlib.util.module_from_spec(importlib.util.spec_from_loader("run", loader))
    loader.exec_module(module)
    return module


def test_the_last_lines(watch):
    """They name what passed only by itself, with what was wrong at first on one line, and what is a check of time."""
    tally = ran([measured(watch, "9 s", "", ("it isn't so\n    seen", ""))])
    tally.skip("that", "there is none here")
    assert script().last_lines(tally, "refused") == [
        "topics shared the network of this machine: refused", "skipped: that: there is none here",
        "passed only by itself: how long: first it failed with (a check of time) 9 s",
        "passed only by itself: what: first it failed with it isn't so seen"]
    assert script().last_lines(ran([watch.part("one", problem="wrong")]), "") == ["failed: one"]
    assert not script().last_lines(ran([watch.part("two")]), "")


@pytest.mark.parametrize("why", ["", "refused on purpose"])
def test_networks_that_are_refused(watch, monkeypatch, why):
    """If the system refuses networks, all runs in that of the machine, and why is known. The gate always does."""
    monkeypatch.setattr(network, "separate", lambda: (watch.folder / "asked").write_text("") or why)
    gate = Lanes(Tally(), [watch.part("gate", kind=Kind.GATE)], 4)
    gate.run()
    assert (gate.tally.passed, gate.shared, (watch.folder / "asked").exists()) == (1, "", False)
    both = Lanes(Tally(), [watch.part("one"), watch.part("two")], 4)
    both.run()
    assert (both.tally.passed, both.shared, (watch.folder / "asked").exists()) == (2, why, True)


PLACE = "PLACE_OF_CASES"


def noted(tally, name, is_late=False):
    """A case that notes that it runs. The first time its check of time fails, if it is late."""
    with open(os.environ[PLACE], "a+", encoding="ascii") as file:
        file.seek(0)
        is_first = name not in file.read().split()
        file.write(f"{name}\n")
    tally.add(f"{name}, how long", "9 s" if is_late and is_first else "", timed=True)
    tally.add(f"{name}, what", "")


def quick_case(tally):
    noted(tally, "quick")


def late_case(tally):
    noted(tally, "late", is_late=True)


def cases_of(*cases):
    def run(tally):
        for one in cases:
            tally.case(one)
    return Part("cases", run)


def test_a_case_that_runs_again(watch, capfd, monkeypatch):
    """Of a part with cases only those run again in which something failed."""
    monkeypatch.setenv(PLACE, str(watch.folder / "ran"))
    tally = ran([cases_of(quick_case, late_case)])
    assert ((watch.folder / "ran").read_text().split(), tally.passed, tally.names) == (["quick", "late", "late"], 4, [])
    assert "of cases, late case: it runs again by itself, since this failed: late, how long\n" in capfd.readouterr().out


def test_a_case_that_cannot_be_told(watch, monkeypatch):
    """If a case is no function of a module, all of its part runs again."""
    monkeypatch.setenv(PLACE, str(watch.folder / "ran"))
    tally = ran([cases_of(quick_case, lambda tally: late_case(tally))])
    assert ((watch.folder / "ran").read_text().split(), tally.passed, tally.names) == (["quick", "late", "quick", "late"], 4, [])


def test_what_is_inside_a_case(watch, monkeypatch):
    """What fails in a run of many cases may be of a smaller one, which runs again in place of it."""
    monkeypatch.setenv(PLACE, str(watch.folder / "ran"))

    def many(tally):
        noted(tally, "many")
        with tally.inside(quick_case):
            tally.add("quick, what", "wrong")
    tally = ran([Part("many", many)])
    assert ((watch.folder / "ran").read_text().split(), tally.passed, tally.names) == (["many", "quick"], 4, [])
    assert [it.name for it in tally.only_alone] == ["quick, what"]


def test_a_case_that_breaks_off(watch):
    """A case that breaks off is a failure, and the next one runs."""
    def breaks_off(_):
        raise OSError("on purpose")

    tally = Tally()
    for one in (breaks_off, lambda tally: tally.add("next", "")):
        tally.case(one)
    assert (tally.passed, tally.names) == (1, ["breaks off"])


def test_what_was_seen():
    """What is short stays on its line. Else each line is by itself and not too long, in the order in which it was given, and of too many the
    first and the last ones are shown."""
    assert seen([b"a", 1], "b") == "[b'a', 1] 'b'"
    long = seen((None, [b"node 0: I=3", "x" * 300]), b"first\nsecond\n" * 30, Lines(["host 0:", "    last"]))
    lines = long.split("\n")
    assert max(map(len, lines)) < 300 and len(lines) < 90
    assert [lines[place] for place in (0, 1, 2, 3, 4, 5, -2, -1)] == ["it isn't so", "    None", "    b'node 0: I=3'", f"    {'x' * 250} ..", "    first", "    second",
                                                                       "    host 0:", "        last"]
    many = seen([f"line {number}" for number in range(1000)]).split("\n")
    assert (many[1], many[-1], len(many)) == ("    'line 0'", "    'line 999'", 82) and "    .. 920 lines .." in many


def test_the_parts_of_all_topics():
    """The gate is first, each part has a name of its own, and a topic that takes long has two parts, which run side by side."""
    run = script()
    parts = {part.name: part for part in run.chosen([])}
    assert list(parts)[0] == "gate" and len(parts) == len(run.chosen([]))
    long = [parts["live"], parts["live, what is large"]]
    assert [(it.kind, it.on_programs) for it in long] == [(Kind.WAITS, True)] * 2
    assert not parts["hosts, without programs"].on_programs and parts["hosts"].on_programs and not parts["jobs"].on_programs
    assert [part.name for part in run.chosen(["live"])] == ["live", "live, what is large"]
    both = "probes and rows"
    assert both in parts and not {"probes", "rows"} & set(parts) and not parts[both].on_programs
    named = [[part.name for part in run.chosen(words)] for words in (["probes"], ["rows"], ["rows", "order", "probes"])]
    assert named == [["probes"], ["rows"], ["order", both]]
