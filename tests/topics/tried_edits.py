"""What tests/try-wrong-bodies writes down of edits that were tried: which crates, on which sources, and what becomes of it once something
isn't refused or changed. And how it goes on with an edit that hangs, and after it was ended, by a kit that is played."""
import contextlib
import importlib.machinery
import importlib.util
import os
import shutil
import signal
import subprocess
import sys
import tempfile
import time

from topics.tally import TESTS, TOP, seen

sys.path.insert(0, f"{TOP}/tools")

import sources
import tried

# crates with few edits, of which one is built on the other
BELOW, ABOVE = "faults", "graph"


def try_wrong_bodies():
    """The script as a module."""
    loader = importlib.machinery.SourceFileLoader("try_wrong_bodies", f"{TESTS}/try-wrong-bodies")
    script = importlib.util.module_from_spec(importlib.util.spec_from_loader("try_wrong_bodies", loader))
    loader.exec_module(script)
    return script


def lines_of_gate(crate, words="refused, as it must be: a clause", form="{crate}/{edit}"):
    """What the gate says of each edit of a crate."""
    edits = tried.edits_in(f"{tried.WRONG_BODIES}/{crate}")
    return [f"rt: must-fail {form.format(crate=crate, edit=it[:-len('.edit')])}: {words}\n" for it in edits]


def noted(script, lines):
    """The crates of which it is written down that their edits were tried, once the gate has said these lines."""
    book = script.Book([BELOW, ABOVE])
    for line in lines:
        found = script.judged(line, book.edits)
        if found:
            book.take(*found)
    return sorted(tried.read())


# a gate that says of each edit what a file says that has its name, and hangs if there is nothing in it
KIT = """#!/bin/sh
[ "$1" = ci ] || { echo "a kit"; exit; }
status=0
for edit in crates/*/must-fail/*.edit; do
    [ -e "$edit" ] || continue
    name=$(basename "$edit" .edit)
    crate=${edit#crates/} crate=${crate%%/*}
    echo "$crate/$name" >> "PLACE/tried"
    verdict="refused, as it must be: a clause"
    if [ -e "PLACE/$name" ]; then verdict=$(cat "PLACE/$name"); fi
    [ "$verdict" ] || { echo $$ > "PLACE/hangs"; exec sleep 1000; }
    case $verdict in refused*) ;; *) status=1; esac
    echo "rt: must-fail $crate/$name: $verdict"
done
echo "1 passed, $status failed"
exit $status
"""


@contextlib.contextmanager
def played_kit():
    """A folder with a kit that is played, what is said of edits, and what is written down."""
    with tempfile.TemporaryDirectory() as folder:
        os.mkdir(f"{folder}/bin")
        with open(f"{folder}/bin/rt", "w") as file:
            file.write(KIT.replace("PLACE", folder))
        os.chmod(f"{folder}/bin/rt", 0o755)
        yield folder


def called(folder, *words):
    """What a call of the script prints, and its status, by the played kit."""
    code = (f"import sys; sys.path[:0] = [{TESTS!r}]; sys.dont_write_bytecode = True\nfrom topics import tried_edits\n"
            f"script = tried_edits.try_wrong_bodies()\ntried_edits.tried.TRIED = script.PROGRESS = {folder!r} + '/'\n"
            "tried_edits.tried.TRIED += 'lines'\nscript.PROGRESS += 'progress'\nsys.argv = ['try-wrong-bodies', *sys.argv[1:]]\nsys.exit(script.main())")
    return subprocess.Popen([sys.executable, "-c", code, *words], env={**os.environ, "PATH": f"{folder}/bin:{os.environ['PATH']}"}, stdin=subprocess.DEVNULL,
                            stdout=subprocess.PIPE, stderr=subprocess.STDOUT, text=True)


def ended(process):
    out = process.communicate(timeout=600)[0]
    return out.splitlines(), process.returncode


def lines_in(path):
    if not os.path.exists(path):
        return []
    with open(path) as file:
        return file.read().splitlines()


def goes_on(tally):
    """An edit that hangs is tried by itself, and then left out; what is done when the script is ended isn't tried again."""
    edits = [it[:-len(".edit")] for it in tried.edits_in(f"{tried.WRONG_BODIES}/{BELOW}")]
    first, *others = edits
    with played_kit() as folder:
        open(f"{folder}/{first}", "w").close()
        lines, status = ended(called(folder, "--minutes", "0.1", BELOW))
        wanted = [*(f"tests/try-wrong-bodies: {place} of {len(edits)}: {BELOW}/{edit}: refused: a clause" for place, edit in enumerate(others, 1)),
                  f"tests/try-wrong-bodies: {len(edits)} of {len(edits)}: {BELOW}/{first}: NOT TRIED: no verdict within 0.1 minutes"]
        right = lines[:len(edits)] == wanted and lines[-1] == f"{len(others)} passed, 1 failed" and status == 1 and not lines_in(f"{folder}/lines")
        tally.add("tests/try-wrong-bodies, an edit that hangs", "" if right else seen(lines))
        tries = lines_in(f"{folder}/tried")
        # all together, and then each by itself
        tally.add("the same, how often it is tried", "" if tries.count(f"{BELOW}/{first}") == 2 and len(tries) == len(edits) + 1 else seen(tries))
        os.unlink(f"{folder}/{first}")
        lines, status = ended(called(folder, BELOW))
        right = lines[-1] == f"{len(edits)} passed, 0 failed" and status == 0 and len(lines_in(f"{folder}/tried")) == len(edits) + 2
        is_whole = tried.is_tried(BELOW, lines_in(f"{folder}/lines")[-1]) and not lines_in(f"{folder}/progress")
        tally.add("the same, gone on with", "" if right and is_whole else seen(lines))
    with played_kit() as folder:
        last = edits[-1]
        open(f"{folder}/{last}", "w").close()
        process, end = called(folder, BELOW), time.monotonic() + 240
        # until the last edit hangs, and what was said of the others is written down
        while not (lines_in(f"{folder}/hangs") and len(lines_in(f"{folder}/progress")) == len(edits) - 1) and time.monotonic() < end:
            time.sleep(0.02)
        process.send_signal(signal.SIGTERM)
        lines, status = ended(process)
        group = int(lines_in(f"{folder}/hangs")[0])
        done = len(lines_in(f"{folder}/progress"))
        tally.add("tests/try-wrong-bodies, ended by a signal", "" if (status, done) == (143, len(edits) - 1) and not runs(group) else seen(status, done, lines))
        with open(f"{folder}/{last}", "w") as file:
            file.write("NOT REFUSED")
        lines, status = ended(called(folder, BELOW))
        right = lines[-2:] == [f"tests/try-wrong-bodies: {BELOW}/{last}: NOT REFUSED: NOT REFUSED", f"{len(edits) - 1} passed, 1 failed"] and status == 1
        tally.add("tests/try-wrong-bodies, an edit that isn't refused", "" if right else seen(lines))


def runs(process):
    try:
        os.kill(process, 0)
    except ProcessLookupError:
        return False
    return True


def run(tally):
    written_down(tally)
    goes_on(tally)


def written_down(tally):
    script, place, kit = try_wrong_bodies(), tried.TRIED, tried.kit
    tried.kit = lambda: "a kit"
    below, above = lines_of_gate(BELOW), lines_of_gate(ABOVE)
    try:
        with tempfile.TemporaryDirectory() as folder:
            tried.TRIED = f"{folder}/tried"
            for name, lines, wanted in (
                    ("nothing is said", [], []),
                    ("one crate's run is cut off", [*below[:-1], *above], [ABOVE]),
                    ("all are refused", [*below, *above], [ABOVE, BELOW]),
                    ("some weren't tried", lines_of_gate(ABOVE, "NOT TRIED: its check was killed"), [ABOVE, BELOW]),
                    ("one isn't refused", [*lines_of_gate(ABOVE, "NOT REFUSED")[:1], *above[1:]], [BELOW]),
                    ("one can't be applied", lines_of_gate(BELOW, "BAD EDIT")[:1], []),
                    ("they are named as files", lines_of_gate(ABOVE, form="crates/{crate}/must-fail/{edit}.edit"), [ABOVE])):
                got = noted(script, lines)
                tally.add(f"tests/try-wrong-bodies, {name}", "" if got == sorted(wanted) else f"{got} are written down, not {sorted(wanted)}")
            noted(script, below)
            line = tried.read()[BELOW]
            tally.add("tests/try-wrong-bodies, what it wrote is of these sources", "" if tried.is_tried(BELOW, line) else line)
            others = (("sources", line.replace("sources=", "sources=0")), ("edits", line.replace("edits=", "edits=0")),
                      ("a count", line.replace("refused=", "refused=1")), ("nothing", ""))
            for name, other in others:
                tally.add(f"what was tried of others, {name}", "it is taken for that of these sources" if tried.is_tried(BELOW, other) else "")
    finally:
        tried.TRIED, tried.kit = place, kit
    with tempfile.TemporaryDirectory() as folder:
        source = shutil.copy(f"{sources.folder_of(BELOW)}/src/lib.rt", folder)
        one, other = sources.digest([("src/lib.rt", source)]), sources.digest([("src/other.rt", source)])
        os.utime(source, (0, 0))
        again = sources.digest([("src/lib.rt", source)])
        tally.add("a digest of sources", "" if one == again != other else "it goes by times, or not by names")
