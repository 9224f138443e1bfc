"""How ./dpbr and ./dpbn start: what they answer before the program is built, which programs they build, and what tools/prove prints."""
import contextlib
import importlib.machinery
import importlib.util
import io
import os
import shutil
import subprocess
import tempfile

from topics.explained import explains
from topics.tally import EXAMPLES, PROGRAM, TESTS, TOP, contents, difference

# in the place of tools/prove: it notes what is asked of it, and makes programs that print their words
PROVE = """#!/bin/sh
echo "$@" >> "$(dirname "$0")/asked"
for program; do
	mkdir -p "$(dirname "$0")/../crates/$program/out"
	printf '#!/bin/sh\\necho %s "$@"\\n' "$program" > "$(dirname "$0")/../crates/$program/out/$program"
	chmod +x "$(dirname "$0")/../crates/$program/out/$program"
done
"""
BUILT = {"dpbr": PROGRAM, "dpbn": f"{TOP}/crates/dpbn/out/dpbn"}
SMALL = f"{TOP}/crates/dpbr_quick/out/dpbr_quick"
CALLS = {"dpbr": ("status", "audit", "run", "wayon", "explain"), "dpbn": ("node", "cluster", "build", "key", "explain")}
# words that aren't subcommands, some of them like one, two or three, one in letters of two bytes, and one with words after it
UNKNOWN = ("state", "stat", "statu", "statusaudit", "audits", "tidua", "rum", "nur", "ran", "way", "wayo", "yawno", "hello", "hel", "x", "", "a b",
           "stätus", "nodes", "nod", "done", "clusters", "kluster", "built", "bild", "keys", "ky", "eky", "'", "\n", "WORD", "status\n")


def run_in(folder, program, *words, **more):
    done = subprocess.run([program, *words], cwd=folder, stdin=subprocess.DEVNULL, capture_output=True, timeout=600, **more)
    return done.stdout, done.stderr, done.returncode


def stored_texts(tally):
    """What is stored of no words, of help and of unknown subcommands is what the programs print of them, byte for byte; of other words
    nothing is."""
    for program, built in BUILT.items():
        calls = [[], ["--help"], *([call, "--help"] for call in CALLS[program]), *([word] for word in UNKNOWN), ["state", "--help", "x"]]
        for words in calls:
            got, wanted = (run_in(TOP, *it, *words) for it in ((f"{TOP}/tools/stored-help", program), (built,)))
            tally.add(f"tools/stored-help {program} {words}", difference(got, wanted) or ("" if wanted[2] == 2 else "it is a call"))
        for words in (["help"], ["-h"], ["--version"], [CALLS[program][0]], [CALLS[program][0], "x", "--help"], ["--help", "x"], [b"\xff"], ["state", b"\xff"]):
            got = run_in(TOP, f"{TOP}/tools/stored-help", program, *words)
            tally.add(f"tools/stored-help {program} {words}", difference(got, (b"", b"", 0)))


@contextlib.contextmanager
def checkout():
    """A checkout of only the scripts, in which nothing is proved and nothing built."""
    with tempfile.TemporaryDirectory() as folder:
        os.mkdir(f"{folder}/crates")
        shutil.copytree(f"{TOP}/tools", f"{folder}/tools")
        for name in ("dpbr", "dpbn", "crates.txt"):
            shutil.copy(f"{TOP}/{name}", folder)
        with open(f"{folder}/tools/prove", "w") as file:
            file.write(PROVE)
        yield folder


def asked(folder):
    """What was to be proved since the last time, a line each time."""
    if not os.path.exists(f"{folder}/tools/asked"):
        return []
    with open(f"{folder}/tools/asked") as file:
        lines = file.read().splitlines()
    os.remove(f"{folder}/tools/asked")
    return lines


def starts(tally):
    """Help is answered with nothing built; `status`, `audit`, `explain` and `--version` build the small program and no other; each other call
    builds its own. What is built is taken as it is, until a source is newer, and the whole program is taken if it is there."""
    with checkout() as folder:
        for name, words in (("dpbr", []), ("dpbr", ["run", "--help"]), ("dpbn", ["nodes"])):
            got = run_in(folder, f"./{name}", *words)
            tally.add(f"./{name} {words} before it is built", difference(got, run_in(TOP, f"{TOP}/tools/stored-help", name, *words)))
            tally.add(f"./{name} {words}, what it proves", ", ".join(asked(folder)))
        for name, words, program, proves in (("dpbr", ["status", "a", "b"], "dpbr_quick", True), ("dpbr", ["audit", "x"], "dpbr_quick", False),
                                             ("dpbr", ["explain", "1"], "dpbr_quick", False), ("dpbr", ["--version"], "dpbr_quick", False),
                                             ("dpbr", ["run", "a b"], "dpbr", True), ("dpbr", ["status"], "dpbr", False),
                                             ("dpbr", [], "dpbr", False), ("dpbn", ["node", "--me"], "dpbn", True), ("dpbn", ["node"], "dpbn", False)):
            out, said, status = run_in(folder, f"./{name}", *words)
            wanted = " ".join([program, *words]).encode() + b"\n"
            tally.add(f"./{name} {words}", "" if (out, status) == (wanted, 0) else f"{out!r}, {said!r}, status {status}")
            tells = b"about " in said and b" minutes" in said and program.encode() in said
            tally.add(f"./{name} {words}, what it says", "" if tells == proves and bool(said) == proves else f"{said!r}")
            proved = asked(folder)
            tally.add(f"./{name} {words}, what it proves", "" if proved == ([program] if proves else []) else f"{proved}")
        with open(f"{folder}/crates/source", "w") as file:
            file.write("newer\n")
        run_in(folder, "./dpbr", "audit", "x")
        proved = asked(folder)
        tally.add("./dpbr audit once a source is newer, what it proves", "" if proved == ["dpbr_quick"] else f"{proved}")


def fails(tally):
    """If a proof fails, ./dpbr ends so, and so does the next call; nothing is taken for built."""
    with checkout() as folder:
        with open(f"{folder}/tools/prove", "w") as file:
            file.write("#!/bin/sh\necho refused >&2\nexit 1\n")
        for time in ("", " again"):
            out, said, status = run_in(folder, "./dpbr", "status", "a", "b")
            well = (out, status) == (b"", 1) and b"refused\n" in said
            tally.add(f"./dpbr of which a proof fails{time}", "" if well else f"{out!r}, {said!r}, status {status}")


def counts(tally):
    """tools/prove counts each crate once, as it is proved, and not what is said of its tests."""
    loader = importlib.machinery.SourceFileLoader("prove", f"{TOP}/tools/prove")
    prove = importlib.util.module_from_spec(importlib.util.spec_from_loader("prove", loader))
    loader.exec_module(prove)
    lines = ["rt: words proved\n", "rt: seals: its tests are proved\n", "rt: seals proved\n", "rt: hmac is kept: 8 functions\n", "rt: words proved\n",
             "rt: a stranger proved\n", "rt: must-fail words/x: refused, as it must be\n"]

    class Gate:
        stdout = lines

    said = io.StringIO()
    with contextlib.redirect_stderr(said):
        told = prove.told(Gate, ["words", "hmac", "seals"])
    got = [line.split(": ", 1)[1] for line in said.getvalue().splitlines()]
    wanted = ["words (1 of 3)", "seals (2 of 3)", "hmac (3 of 3)"]
    tally.add("tools/prove, what it counts", "" if (got, told) == (wanted, lines) else f"{got}, not {wanted}")


def small(tally):
    """The small program answers each stored status and audit as dpbr does, explains the same faults, and refuses the same words. Of a
    call that isn't its own it says that it is the small program, with status 2."""
    if not os.path.exists(SMALL):
        tally.skip("the small program", "it isn't built: `tools/prove dpbr_quick` builds it")
        return
    for kind in ("status", "audit"):
        for name in sorted(os.listdir(f"{TESTS}/{kind}")):
            folder = f"{TESTS}/{kind}/{name}"
            wanted = (contents(f"{folder}/stdout"), contents(f"{folder}/stderr"), int(contents(f"{folder}/status")))
            got = run_in(folder, SMALL, *contents(f"{folder}/words").decode().split())
            tally.add(f"the small program, {kind}/{name}", difference(got, wanted))
    for words in ([], ["--help"], ["status"], ["audit", "x"], ["state"], ["status", "--help"], ["run", "listing"], ["wayon", "--help"], [b"status", b"\xff"],
                  ["status", "listing", "none"], ["audit", "listing", "held"]):
        tally.add(f"the small program, {words}", difference(run_in(EXAMPLES, SMALL, *words), run_in(EXAMPLES, PROGRAM, *words)))
    explains(tally, "the small program,", lambda words: run_in(EXAMPLES, SMALL, *words), "dpbr")
    said = b"dpbr_quick: this is the small program, without run and wayon\n"
    for words in (["run", "listing", "trace"], ["wayon", "listing", "trace", "1", "devel/gettext", "7", "builds"]):
        tally.add(f"the small program, {words}", difference(run_in(EXAMPLES, SMALL, *words), (b"", said, 2)))
    with open("/dev/full", "wb") as full:
        done = subprocess.run([SMALL, "status", "listing", "held"], cwd=EXAMPLES, stdout=full, stderr=subprocess.PIPE)
    tally.add("the small program on a full device", difference((b"", done.stderr, done.returncode), (b"", b"dpbr: fault 2\n", 1)))


def run(tally):
    stored_texts(tally)
    small(tally)
    starts(tally)
    fails(tally)
    counts(tally)
