"""Members, nodes and worlds whose memory runs out: each allocation refused in turn of what `probes` answers to the files of
tests/members/ and to some stored traces. If that happens in a step, the program gives the same input again, and has to go on as
if nothing had been. That needs the program as it is built: `tools/prove probes` builds it, for who changes crate `member`, `node` or
`simulator`, or one below them; without it this topic is skipped."""
import os
import subprocess
import tempfile

from topics.driver import PROBES, is_built
from topics.memory import refusing
from topics.tally import TESTS, TOP, built_shim, contents, text_difference

# what members and nodes are asked, a file each, as `probes` reads it
ASKED = f"{TESTS}/members"
# the stored traces of which worlds are made, over the one package that `probes` has if no listing is given
WORLDS = ("a_build_is_taken_over", "a_build_in_pieces")


def names():
    """What can be run by itself: `members/NAME`."""
    return [*sorted(os.listdir(ASKED)), *WORLDS]


def asked(name):
    """What `probes` is asked, and how that is done by hand."""
    if name in WORLDS:
        trace = f"{TESTS}/traces/{name}/TRACE"
        by_hand = f"(echo == worlds; cat {os.path.relpath(trace, TOP)}) | {os.path.relpath(PROBES, TOP)}"
        return b"== worlds\n" + contents(trace).strip() + b"\n", by_hand
    return contents(f"{ASKED}/{name}"), f"{os.path.relpath(PROBES, TOP)} < {os.path.relpath(ASKED, TOP)}/{name}"


def run_probe(text, **more):
    done = subprocess.run([PROBES], input=text, capture_output=True, timeout=600, **more)
    return done.stdout, done.stderr, done.returncode


def is_right(told, right):
    """Whether each line is the right one, or of a step that is only prepared and runs out of memory."""
    lines, wanted = told.split(b"\n"), right.split(b"\n")
    return len(lines) == len(wanted) and all(
        line == other or line.startswith(b"look ") and line.endswith(b": 1") for line, other in zip(lines, wanted))


def problem_of(got, right, again):
    """What is wrong after an allocation failed: in a step everything is printed, elsewhere a prefix."""
    told, said, status = got
    if said == b"1 again\n":
        again.append(said)
        if (told, status) == (right, 0):
            return ""
        return f"a refused step changed something, status {status}\n{text_difference(told, right)}"
    if status == 0 and is_right(told, right) or status == 1 and right.startswith(told):
        return ""
    return f"status {status}, standard error {said!r:.200}\n{text_difference(told, right)}"


def refused_in_turn(tally, folder, name, text, by_hand):
    right, said, status = run_probe(text)
    if said or status:
        tally.add(name, f"it ended with {status}: {said!r:.200}\n    by hand: {by_hand}")
        return
    number, again = 0, []
    while True:
        number += 1
        environment, mark = refusing(folder, number)
        got = run_probe(text, env=environment)
        if not os.path.exists(mark):
            break
        os.remove(mark)
        problem = problem_of(got, right, again)
        if problem:
            tally.add(f"{name}, allocation {number} refused", f"{problem}\n    by hand, with ample memory: {by_hand}")
            return
    print(f"tests/run: {name}: {number - 1} allocations, each refused once, {len(again)} of them in steps", flush=True)
    tally.add(name, "" if again else "no step was refused memory")


def run_named(tally, chosen):
    with tempfile.TemporaryDirectory() as folder:
        if is_built(tally, "members") and built_shim(tally, folder, "refuse"):
            for name in chosen:
                refused_in_turn(tally, folder, f"members/{name}", *asked(name))


def case(tally, _kind, name):
    """One of them by its name."""
    run_named(tally, [name])


def run(tally):
    run_named(tally, names())
