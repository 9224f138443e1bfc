"""Stored cases of `dpbr run`, and traces and BUILDS whose memory runs out: each allocation of some rows on traces
refused in turn. The answer is then the right one, or that memory ran out, or the program ends. These rows need the program `probes`
as it is built: `tools/prove probes` builds it, for who changes crate `traces` or one below it; without it they are skipped."""
import json
import os
import subprocess
import sys
import tempfile

from topics.driver import PROBES, is_built
from topics.memory import refusing
from topics.programs import stored_cases
from topics.tally import TESTS, TOP, answer, built_shim, contents, difference, text_difference

sys.path.insert(0, f"{TOP}/tools")

from dpbn_tools import event_lines  # noqa: E402

# The folders of stored cases of `dpbr run`: those whose builds go out in several pieces are separate.
STORED = ("traces", "pieces")

FILES = b'[{"hex":"616263","name":"x"}]'
EVENTS = b",".join((
    b'{"above":7,"event":"claim","host":1,"node":0,"path":"a/b,y,x"}',
    b'{"event":"built","files":%s,"node":0,"path":"a/b"}' % FILES,
    b'{"event":"built","node":0,"packages":[{"files":%s,"path":"a/b,-x"},{"files":[],"path":"a/b"}],"path":"a/b"}' % FILES,
    b'{"event":"stopin","hex":"FF","input":{"event":"failed","node":0,"path":"a/b"},"left":"torn"}',
    b'{"event":"stopin","input":{"event":"ask","node":0,"path":"a/b"},"left":"whole"}',
    b'{"datagram":0,"event":"deliver","node":0},{"event":"restart","node":0}'))
ROWS = {
    "a trace": b'{"events":[%s],"members":3}' % EVENTS,
    "a trace with weights": b'{"events":[],"members":2,"weights":[1,2]}',
    "a bad trace": b'{"events":[{"event":"nudge","node":0},{"event":"nudge","node":1.0}],"members":2}',
    "BUILDS": b'builds {"a/b":%s,"a/c":[]}' % FILES,
    "bad BUILDS": b'builds {"a/b,x,y":%s,"a/b,y,x":[]}' % FILES,
}


def run_probe(row, **more):
    done = subprocess.run([PROBES], input=b"== traces\n" + row + b"\n", capture_output=True, timeout=600, **more)
    return done.stdout, done.returncode


def refused_in_turn(tally, folder, name, row):
    right = run_probe(row)
    allowed = (right, (b"1\n", 0), (b"no memory\n", 0), (b"", 1))
    number, met = 0, set()
    while True:
        number += 1
        environment, mark = refusing(folder, number)
        got = run_probe(row, env=environment)
        if not os.path.exists(mark):
            break
        os.remove(mark)
        met.add(got)
        if got not in allowed:
            tally.add(f"memory for {name}, allocation {number} refused", f"status {got[1]}\n{text_difference(got[0], right[0])}")
            return
    print(f"tests/run: memory for {name}: {number - 1} allocations, each refused once", flush=True)
    tally.add(f"memory for {name}", "" if right[1] == 0 and (b"1\n", 0) in met else "no reading was refused memory")


def node_of(event):
    return event.get("input", event)["node"]


def problem(events, members, packages, lines):
    """What is wrong with the lines of these events, by which the packages of these paths become agreed; or nothing."""
    if len(lines) != len(events):
        return f"{len(lines)} lines of {len(events)} events"
    count, agreed = 0, []
    for number, (event, line) in enumerate(zip(events, lines), 1):
        inner = event.get("input", event)
        if line.node != node_of(event) or inner.get("datagram", -1) >= count:
            return f"event {number}: {line}, and {count} datagrams were sent before"
        if (event["event"] in ("stop", "restart") and (line.noted or line.sent)) or (event["event"] == "stopin" and line.sent):
            return f"event {number}: {line} of a {event['event']}"
        if event["event"] == "stopin" and event["left"] != "whole" and line.noted:
            return f"event {number}: {line}, and a note that isn't whole"
        for sent in line.sent:
            if sent.number > count or not sent.receivers or list(sent.receivers) != sorted(set(sent.receivers)) or sent.receivers[-1] >= members:
                return f"event {number}: {sent}, and {count} datagrams were sent before"
            count = max(count, sent.number + 1)
        agreed += line.agreed
    return "" if agreed == packages else f"{agreed} is agreed, not {packages}"


def events(tally):
    """The lines of the events of all stored cases. Those of one are stored, besides the examples of dpbr(1)."""
    for kind in STORED:
        for name in sorted(os.listdir(f"{TESTS}/{kind}")):
            folder = f"{TESTS}/{kind}/{name}"
            words = contents(f"{folder}/words").decode().split()
            stored = contents(f"{folder}/stdout"), contents(f"{folder}/stderr"), int(contents(f"{folder}/status"))
            got = answer([words[0], "--events", *words[1:]], folder)
            if stored[2]:
                tally.add(f"{kind}/{name}, --events", difference(got, stored))
                continue
            trace = json.loads(contents(f"{folder}/TRACE"))
            packages = [line.split(" ")[1] for line in stored[0].decode().split("\n") if line.startswith("package ")]
            lines = event_lines.read(got[0].decode())
            wrong = problem(trace["events"], trace["members"], packages, lines)
            if not wrong and b"".join(got[0].splitlines(True)[len(lines):]) != stored[0]:
                wrong = "the text after the lines isn't what is printed without them"
            tally.add(f"{kind}/{name}, --events", wrong or difference((b"", *got[1:]), (b"", *stored[1:])))


def run(tally):
    stored_cases(tally, STORED)
    events(tally)
    with tempfile.TemporaryDirectory() as folder:
        if is_built(tally, "traces, lack of memory") and built_shim(tally, folder, "refuse"):
            for name, row in ROWS.items():
                refused_in_turn(tally, folder, name, row)
