"""Lack of memory at each allocation of dpbr: the right answer or fault 1, and nothing else."""
import concurrent.futures
import os
import re
import shutil
import subprocess
import tempfile

from topics import nodes
from topics.tally import EXAMPLES, PROGRAM, TESTS, answer, built_shim, difference

CLUSTER = ["cluster", *nodes.SHARED, "--members", "3", "--turns", "120", "--trace", "TRACE"]
SIDE_BY_SIDE = 8


def refusing(folder, number):
    """The environment in which the allocation of that number is refused, and the file that then appears."""
    mark = f"{folder}/refused"
    return {**os.environ, "LD_PRELOAD": f"{folder}/refuse.so", "REFUSE": str(number), "REFUSED": mark}, mark


def long_listing(paths):
    """A listing whose letters fill several buffers of output, and a text that holds a third of it."""
    lines = []
    for n in range(paths):
        lines.append(f"ports/p{n}.FULLPKGNAME=p{n}-1.0\n")
        if n:
            lines.append(f"ports/p{n}.RUN_DEPENDS=ports/p{n // 2} STEM-*:ports/p{n - 1}:build\n")
    return "".join(lines), "".join(f"ports/p{n}\n" for n in range(paths // 3))


def is_want_of_memory(words, got):
    """Only fault 1 is printed. A run adds the event at which it came up, if there is one."""
    out, error, status = got
    place = rb"( at [1-9][0-9]*)?" if words[0] in ("run", "wayon") else b""
    return (out, status) == (b"", 1) and re.fullmatch(rb"dpbr: fault 1" + place + rb"\n", error)


def refusals(tally, folder, words, name):
    """Refuses the first request for memory, the second, and so on, until a run meets no refusal."""
    right = answer(words, folder)
    number = 0
    while True:
        number += 1
        environment, mark = refusing(folder, number)
        got = answer(words, folder, env=environment)
        if not os.path.exists(mark):
            break
        os.remove(mark)
        if got != right and not is_want_of_memory(words, got):
            tally.add(f"{name}, allocation {number} refused", difference(got, (b"", b"dpbr: fault 1\n", 1)))
            return
    print(f"tests/run: {name}: {number - 1} allocations, each refused once", flush=True)
    tally.add(name, difference(got, right) or ("" if number > 1 else "no allocation was seen"))


def cluster_problem(folder, got):
    """What is wrong with a cluster of which an allocation failed: turns go on, and what the trace has is what the nodes
    show; or nothing is printed but fault 1."""
    out, error, status = got
    if set(error.split(b"\n")) - {b"", b"dpbn: fault 1"}:
        return f"it prints {error!r}"
    if status == 1 and error:
        return f"it prints {out!r}" if out else ""
    told = subprocess.run([PROGRAM, "run", "listing", "TRACE"], cwd=folder, capture_output=True, timeout=600).stdout
    lines = b"".join(line + b"\n" for line in told.split(b"\n") if line.startswith(b"node "))
    return "" if (out, lines, status) == (nodes.ALL, nodes.ALL, 0) else f"it prints {out!r}, dpbr run {told!r}, its status is {status}"


def cluster_refusal(shims, number):
    """What is wrong with a cluster of which the request for memory of that number is refused, and whether there was one. What stays on
    a disk isn't asked here, so its logs are in memory."""
    with tempfile.TemporaryDirectory(dir=nodes.MEMORY) as folder:
        nodes.lay(folder)
        mark = f"{folder}/refused"
        environment = {**refusing(shims, number)[0], "REFUSED": mark}
        problem = cluster_problem(folder, nodes.answer(CLUSTER, folder, env=environment))
        return problem, os.path.exists(mark)


def cluster_refusals(tally, shims):
    """Refuses each request for memory of a cluster in turn; several run side by side."""
    count, are_met = 0, True
    with concurrent.futures.ThreadPoolExecutor(SIDE_BY_SIDE) as pool:
        while are_met:
            numbers = range(count + 1, count + 1 + 8 * SIDE_BY_SIDE)
            for number, (problem, is_met) in zip(numbers, pool.map(lambda it: cluster_refusal(shims, it), numbers)):
                if problem:
                    tally.add(f"memory for a cluster, allocation {number} refused", problem)
                    return
                count += is_met
                are_met = is_met
    print(f"tests/run: memory for a cluster: {count} allocations, each refused once", flush=True)
    tally.add("memory for a cluster", "" if count else "no allocation was seen")


def run(tally):
    with tempfile.TemporaryDirectory() as folder:
        if not built_shim(tally, folder, "refuse"):
            return
        listing, held = long_listing(600)
        for name, text in (("LONG", listing), ("HALF", held), ("BAD", "a/p\n")):
            with open(f"{folder}/{name}", "w") as file:
                file.write(text)
        for name in ("listing", "held", "list", "list.late", "trace", "builds"):
            shutil.copy(f"{EXAMPLES}/{name}", folder)
        refusals(tally, folder, ["status", "listing", "held"], "memory for the example")
        refusals(tally, folder, ["audit", "listing", "list"], "memory for the example's list")
        refusals(tally, folder, ["audit", "listing", "list.late"], "memory for the example's late list")
        refusals(tally, folder, ["status", "--single", "LONG", "HALF"], "memory for a long listing")
        refusals(tally, folder, ["status", "listing", "BAD"], "memory for a refused text")
        refusals(tally, folder, ["audit", "listing", "BAD"], "memory for a refused list")
        refusals(tally, folder, ["run", "listing", "trace"], "memory for a take-over")
        refusals(tally, folder, ["run", "--events", "listing", "trace"], "memory for the events of a take-over")
        refusals(tally, folder, ["run", "listing", "BAD"], "memory for a refused trace")
        refusals(tally, folder, ["wayon", "listing", "trace", "1", "devel/gettext", "4", "builds"], "memory for a way on")
        refusals(tally, folder, ["wayon", "listing", "trace", "0", "converters/libiconv", "4", "builds"], "memory for files of another path")
        for case in ("a_build_in_pieces", "a_torn_vote_is_cast_again"):
            files = [f"{TESTS}/traces/{case}/{name}" for name in ("LISTING", "TRACE")]
            refusals(tally, folder, ["run", *files], f"memory for {case}")
        cluster_refusals(tally, folder)
