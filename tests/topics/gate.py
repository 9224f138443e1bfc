"""The gate: every proof, each wrong body, each test and each program."""
import glob
import os
import re
import subprocess
import sys
import time

from topics import lanes
from topics.tally import PROGRAM, TOP

sys.path.insert(0, f"{TOP}/tools")

import sources

# what is noted of what was built: the programs, each by a file of its name, and what `make dist` reports the gate that they passed
BUILT = f"{TOP}/.built"


def changed_since(began):
    """Whether a file that the program is made of was written since then."""
    files = [f"{TOP}/crates.txt"]
    for folder, folders, names in os.walk(f"{TOP}/crates"):
        folders[:] = [it for it in folders if it not in ("out", "must-fail")]
        files += [os.path.join(folder, name) for name in names]
    return any(os.path.getmtime(file) >= began for file in files)


def lines_in(path):
    with open(path, "rb") as file:
        return file.read().count(b"\n")


def judged():
    """How much the gate looks at, in words."""
    crates = sources.named()
    lines_of_code = sum(lines_in(path) for crate in crates for path in glob.glob(f"{TOP}/crates/{crate}/src/**/*.rt", recursive=True))
    wrong_bodies = sum(len(glob.glob(f"{TOP}/crates/{crate}/must-fail/*.edit")) for crate in crates)
    return f"{len(crates)} crates of {lines_of_code:,} lines, {wrong_bodies} wrong bodies"


def note_built(began, last_lines):
    """Notes that the programs are those of the sources of then, so that ./dpbr and ./dpbn need not build them again, and what was reported."""
    os.makedirs(BUILT, exist_ok=True)
    for program in ("dpbr_quick", "dpbr", "dpbn"):
        open(f"{BUILT}/{program}", "w").close()
        os.utime(f"{BUILT}/{program}", (began, began))
    with open(f"{BUILT}/gate", "w") as file:
        file.writelines(last_lines)


def shown():
    """The status of `rt ci`, and its lines, which are printed as they come."""
    gate, lines = subprocess.Popen(["rt", "ci"], cwd=TOP, stdout=subprocess.PIPE, text=True), []
    try:
        for line in gate.stdout:
            print(line, end="", flush=True)
            lines.append(line)
        return gate.wait(), lines
    finally:
        if gate.poll() is None:
            gate.terminate()


def run(tally):
    """Runs `rt ci`, shows what it prints, says how long it took for how much, and adds its counts."""
    began, before = time.time(), lanes.processor_seconds()
    status, lines = shown()
    took, used = time.time() - began, lanes.processor_seconds() - before
    clock = f"{used / 60:.0f} processor minutes, {took / 60:.0f} by the clock on {lanes.processors()} processors"
    print(f"tests/run: the gate took {clock}: {judged()}", flush=True)
    counts = re.fullmatch(r"(\d+) passed, (\d+) failed\s*", lines[-1] if lines else "")
    if counts:
        tally.passed += int(counts[1])
        tally.failed += int(counts[2])
    if status and not (counts and int(counts[2])):
        tally.add("rt ci", f"it ended with status {status}")
    if not status and os.path.exists(PROGRAM) and not changed_since(began):
        note_built(began, lines[-2:])
