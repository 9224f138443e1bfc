"""Tests in crates of their own, compiled from the current sources without a proof. They are about clusters in memory, ballots, keys,
run files and logs, texts that are joined with a known build and without one, and the work folder. A proof of a test would prove
nothing of the program, and take the gate twenty minutes of a processor. Most of the time goes into the crates below, so all of these
crates are compiled as one, and the driver `probes` with them if it is asked, too; a single case compiles its own crate."""
import functools
import os
import re
import shutil
import subprocess
import sys
import tempfile

from topics import driver
from topics.tally import TESTS, TOP

sys.path.insert(0, f"{TOP}/tools")

import sources

ROWS = f"{TESTS}/rows"
# the crate that has the modules of all; the driver, whose modules it may have, too; and the test that asks it
WHOLE, DRIVER, ASKS = "all_rows", f"{TESTS}/drivers/probes/src", "answered.rs"


def files_of(crate):
    """The files of a crate's code, without its root."""
    return sorted(it for it in os.listdir(f"{ROWS}/{crate}/src") if it != "lib.rs")


def names_of_tests(crate):
    """The tests that its sources have."""
    found = []
    for name in files_of(crate):
        with open(f"{ROWS}/{crate}/src/{name}") as file:
            found += [f"{name[:-3]}::{it}" for it in re.findall(r"#\[test\]\nfn (\w+)", file.read())]
    return found


def names():
    """The crates of rows, of which each can be run by itself: `rows/CRATE`."""
    return sorted(it for it in os.listdir(ROWS) if os.path.isdir(f"{ROWS}/{it}"))


def modules_of_all(asks):
    """The files of all crates of rows, whose names differ; with those of the driver, if it is asked."""
    files = [f"{ROWS}/{crate}/src/{name}" for crate in names() for name in files_of(crate)]
    if asks:
        files += [f"{ROWS}/{ASKS}", *(f"{DRIVER}/{name}" for name in sorted(os.listdir(DRIVER)) if name != "main.rs")]
    modules = {os.path.basename(file)[:-3]: file for file in files}
    if len(modules) < len(files):
        raise ValueError(f"two files of rows have one name: {files}")
    return modules


def lay_whole(folder, asks):
    """Makes a repository in the folder with one crate that has the modules of all crates of rows, and those of the driver, if it is
    asked."""
    crates = {**sources.lines_of(f"{ROWS}/crates"), **sources.lines_of(f"{TESTS}/drivers/crates")}
    needed = {it for name in [*names(), *(["probes"] if asks else [])] for it in crates[name].partition(":")[2].split()}
    below = sources.with_all_below([*names(), *(["probes"] if asks else [])])
    sources.copy([it for it in below if it not in names() and it != "probes"], folder)
    with open(f"{folder}/crates.txt", "a") as file:
        file.write(f"{WHOLE}: {' '.join(sorted(needed))}\n")
    os.makedirs(f"{folder}/crates/{WHOLE}/src")
    modules = modules_of_all(asks)
    for file in modules.values():
        shutil.copy(file, f"{folder}/crates/{WHOLE}/src/{sources.kit_name(os.path.basename(file))}")
    with open(f"{folder}/crates/{WHOLE}/src/lib.rt", "w") as file:
        file.write("#![tactic(auto)]\n\n" + "".join(f"#[cfg(test)]\nmod {it};\n" for it in sorted(modules)))


def tried(folder, crate, *words):
    """How each test of a crate in this repository ended, by its name, and all that was printed."""
    done = subprocess.run(["rt", "try", "--test", "--seconds", "3600", *words], cwd=f"{folder}/crates/{crate}", stdin=subprocess.DEVNULL,
                          stdout=subprocess.PIPE, stderr=subprocess.STDOUT, text=True, errors="replace")
    return dict(re.findall(r"^test (\S+) \.\.\. (\w+)", done.stdout, re.MULTILINE)), done.stdout


def answers_in(said):
    """What the driver answered, by the names of the files, as the kit shows what a test printed: each line after four blanks. The test ends
    each with a dot."""
    own = re.search(rf"^test {ASKS[:-3]}::\S+ \.\.\. ok\n((?:    .*\.\n)*)", said, re.MULTILINE)
    return driver.shown(re.sub(r"^    (.*)\.$", r"\1", own[1], flags=re.MULTILINE).encode()) if own else {}


def count(tally, crate, ended, said):
    """Counts the tests of one crate. What was printed is shown once, after the first that failed. If one failed, the crate is compiled by
    itself and run again."""
    with tally.inside(functools.partial(case, _kind="rows", name=crate)):
        for test in names_of_tests(crate):
            right = ended.get(test) == "ok"
            tally.add(f"rows/{crate}, {test}", "" if right else f"{ended.get(test, 'it did not run')}\n{said[-4000:]}")
            said = said if right else ""


def case(tally, _kind, name):
    """The tests of one crate of rows."""
    with tempfile.TemporaryDirectory(prefix="dpbn-") as folder:
        sources.copy(sources.with_all_below([name]), folder)
        count(tally, name, *tried(folder, name))


def run(tally, asked=()):
    """All crates of rows; and what the driver answers to these texts, which is kept."""
    with tempfile.TemporaryDirectory(prefix="dpbn-") as folder:
        lay_whole(folder, bool(asked))
        words = []
        for number, text in enumerate(asked):
            with open(f"{folder}/text{number}", "wb") as file:
                file.write(text)
            words += ["--data", f"text{number}={folder}/text{number}"]
        ended, said = tried(folder, WHOLE, *words)
    answers = answers_in(said)
    driver.ANSWERED.update({text: answers[f"text{number}"] for number, text in enumerate(asked) if f"text{number}" in answers})
    if not ended and asked:
        print(f"tests/run: the rows don't compile with the driver, so they are compiled without it:\n{said[-4000:]}", flush=True)
        run(tally)
        return
    if not ended:
        print(f"tests/run: the rows don't compile as one crate, so each crate is compiled by itself:\n{said[-4000:]}", flush=True)
    for name in names():
        if ended:
            count(tally, name, ended, said)
        else:
            case(tally, "rows", name)
