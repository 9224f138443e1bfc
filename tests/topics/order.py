"""tools/order-listing: the order that it writes, next to one that is obtained another way, and what it refuses."""
import os
import random
import subprocess
import tempfile
from typing import Dict, List, Set, Tuple

import letters
from made_tree import Tree
from topics.tally import TOP, text_difference

LIMIT = 300
A, B, C, D = ("x/a.FULLPKGNAME=a-1\n", "x/b.FULLPKGNAME=b-1\nx/b.LIB_DEPENDS=x/a\n", "y/c.FULLPKGNAME=c-1\n", "y/d.FULLPKGNAME=d-1\ny/d.BUILD_DEPENDS=y/c>=1\n")
UNIT = "m/m,-main.FULLPKGNAME=m-1\nm/m,-docs.FULLPKGNAME=m-docs-1\nm/m,-docs.BUILD_DEPENDS=m/m,-main x/a\n"
UNIT_SPLIT = "m/m,-main.FULLPKGNAME=m-1\n" + D + "m/m,-docs.FULLPKGNAME=m-docs-1\nm/m,-docs.BUILD_DEPENDS=m/m,-main x/a\n"
RUNS = "x/lib.FULLPKGNAME=lib-1\nx/lib.RUN_DEPENDS=y/c x/peer\nx/peer.FULLPKGNAME=peer-1\nx/peer.RUN_DEPENDS=x/lib\nx/top.FULLPKGNAME=top-1\nx/top.BUILD_DEPENDS=x/lib\n"
RUNS_ORDERED = C + RUNS
IGNORED = "x/i.FULLPKGNAME=i-1\nx/i.IGNORE=why\nx/j.FULLPKGNAME=j-1\nx/j.RUN_DEPENDS=x/i\nx/k.FULLPKGNAME=k-1\nx/k.BUILD_DEPENDS=x/none\n"
# the name, the listing, the times, the listing that has to come out, and what has to be printed next to it
CASES = [
    ("nothing", "", [], "", "0 units, 0 with a time of their own"),
    ("no times", D + C + B + A, [], C + A + D + B, "4 units, 0 with a time of their own; all builds take 4 s, the longest chain 2 s: y/c, y/d"),
    ("its own order, if nothing needs anything", C + A, [], C + A, "the longest chain 1 s"),
    ("times", A + B + C + D, ["y/c 10 5 0\ny/d 100.5 5 1\nx/a 2 5 0\nx/b 50 5 0\n"], C + D + A + B, "the longest chain 110 s: y/c, y/d"),
    ("the last time counts", A + C, ["x/a 5 1 0\ny/c 3 1 0\nx/a 2 1 1\n"], C + A, "2 with a time of their own"),
    ("the last file counts", A + C, ["x/a 1 1 0\ny/c 3 1 0\n", "x/a 4 1 0\n"], A + C, ""),
    ("the median of the category", A + "x/e.FULLPKGNAME=e-1\n" + "x/f.FULLPKGNAME=f-1\n" + C, ["x/a 2 1 0\nx/e 8 1 0\ny/c 6 1 0\n"],
     "x/e.FULLPKGNAME=e-1\n" + C + "x/f.FULLPKGNAME=f-1\n" + A, "3 with a time of their own"),
    ("the median of all", A + C + "z/z.FULLPKGNAME=z-1\n", ["x/a 2 1 0\ny/c 6 1 0\n"], C + "z/z.FULLPKGNAME=z-1\n" + A, ""),
    ("a unit of two paths stays together", UNIT_SPLIT + A + C, ["m/m,-docs 7 1 0\nx/a 1 1 0\ny/c 1 1 0\ny/d 1 1 0\n"], A + UNIT + C + D, "the longest chain 8 s: x/a, m/m"),
    ("a unit by its name", UNIT + A + C, ["m/m 7 1 0\nx/a 1 1 0\ny/c 9 1 0\n"], C + A + UNIT, "3 with a time of their own"),
    ("what is needed to run", RUNS + C, ["y/c 10 1 0\nx/top 5 1 0\nx/peer 2 1 0\nx/lib 1 1 0\n"], C + "x/peer.FULLPKGNAME=peer-1\nx/peer.RUN_DEPENDS=x/lib\n" +
     "x/lib.FULLPKGNAME=lib-1\nx/lib.RUN_DEPENDS=y/c x/peer\nx/top.FULLPKGNAME=top-1\nx/top.BUILD_DEPENDS=x/lib\n", "the longest chain 15 s: y/c, x/top"),
    ("what is ignored comes last", IGNORED + C, [], C + IGNORED, "1 units"),
    ("units that wait for one another", "x/p.FULLPKGNAME=p-1\nx/p.BUILD_DEPENDS=x/q\nx/q.FULLPKGNAME=q-1\nx/q.BUILD_DEPENDS=x/p\n" + C, [],
     "x/p.FULLPKGNAME=p-1\nx/p.BUILD_DEPENDS=x/q\nx/q.FULLPKGNAME=q-1\nx/q.BUILD_DEPENDS=x/p\n" + C, "these wait for one another, and can't be built: x/"),
    ("the text of its lines", "===> x\nx/a,f,e.FULLPKGNAME= a-1-e-f\t\nx/a,e,f.HOMEPAGE=u=v\n\nx/a,f,e.RUN_DEPENDS=\n" + C, ["y/c 2 1 0\nx/a,e,f 1 1 0\n"],
     C + "x/a,f,e.FULLPKGNAME= a-1-e-f\t\nx/a,e,f.HOMEPAGE=u=v\nx/a,f,e.RUN_DEPENDS=\n", ""),
    ("bad lines of times", A + C, ["x/a\nx/a 5 1\nx/a five 1 0\ny/c 1 1 0\nx/a 9 1 -1\ny/c 2 1\n\n8 x/a 1 0\n"], A + C, "times0: 1 more lines are left out"),
    ("times of other units", A + C, ["q/q 9 1 0\ny/c,f 9 1 0\n"], A + C, "0 with a time of their own"),
]


def ordered(folder: str, listing: str, times: List[str], *words: str) -> Tuple[bytes, bytes, int]:
    for name, text in [("listing", listing), *((f"times{number}", text) for number, text in enumerate(times))]:
        with open(f"{folder}/{name}", "w", encoding="utf-8") as file:
            file.write(text)
    done = subprocess.run([f"{TOP}/tools/order-listing", *words, "listing", *(f"times{number}" for number in range(len(times)))], cwd=folder,
                          stdin=subprocess.DEVNULL, capture_output=True, timeout=LIMIT)
    return done.stdout, done.stderr, done.returncode


def cases(tally) -> None:
    for name, listing, times, wanted, says in CASES:
        with tempfile.TemporaryDirectory() as folder:
            out, said, status = ordered(folder, listing, times)
            problem = "" if out == wanted.encode() else text_difference(out, wanted.encode())
            tally.add(f"order-listing, {name}", problem or ("" if status == 0 and says in said.decode() else f"status {status}, it says {said!r}"))
    with tempfile.TemporaryDirectory() as folder:
        text = "m/m,-docs.FULLPKGNAME=d-1\nm/m,-docs.BUILD_DEPENDS=m/m,-main\nm/m,-main.FULLPKGNAME=m-1\n"
        out, said, status = ordered(folder, text, [], "--single")
        lines = text.splitlines(True)
        tally.add("order-listing --single", "" if (out, status) == ((lines[2] + lines[0] + lines[1]).encode(), 0) else f"{out!r} {said!r}, status {status}")


def refused(tally) -> None:
    """A malformed listing, with the line; files that can't be read, and an output that can't be written; wrong words."""
    for name, text, says in (("a malformed line", A + "nonsense\n", "listing: line 2 isn't PATH.VARIABLE=value"), ("no path", "x.FULLPKGNAME=x-1\n", "line 1 begins with no package path"),
                             ("two values", A + C + "x/a.FULLPKGNAME=a-2\n", "line 3 sets a variable to another value")):
        with tempfile.TemporaryDirectory() as folder:
            out, said, status = ordered(folder, text, [])
            right = (out, status, said.count(b"\n")) == (b"", 1, 1) and says in said.decode()
            tally.add(f"order-listing, {name}", "" if right else f"{out!r} {said!r}, status {status}")
    with tempfile.TemporaryDirectory() as folder:
        for words, status in ((["nothing"], 1), ([], 2), (["--x"], 2)):
            done = subprocess.run([f"{TOP}/tools/order-listing", *words], cwd=folder, capture_output=True, timeout=LIMIT)
            tally.add(f"order-listing {' '.join(words)}", "" if (done.stdout, done.returncode) == (b"", status) and done.stderr else f"{done}")
        if os.path.exists("/dev/full"):
            with open(f"{folder}/listing", "w", encoding="utf-8") as file:
                file.write(A)
            with open("/dev/full", "wb") as full:
                done = subprocess.run([f"{TOP}/tools/order-listing", "listing"], cwd=folder, stdout=full, stderr=subprocess.PIPE, timeout=LIMIT)
            tally.add("order-listing on a full device", "" if done.returncode == 1 and b"can't be written" in done.stderr else f"{done}")


def naive(listing: str, seconds: Dict[str, float]) -> Dict[str, float]:
    """For each unit the longest chain that it begins, by the definitions: a unit waits for the units of all that its build needs, and of
    all that these need to run."""
    paths = letters.read_listing(listing)
    bad = letters.ignored(paths)
    groups: Dict[str, List[str]] = {}
    for path in paths:
        if path not in bad:
            groups.setdefault(letters.group_of(path), []).append(path)
    users: Dict[str, Set[str]] = {group: set() for group in groups}
    for group, its in groups.items():
        found, waiting = set(), [need.path for path in its for need in paths[path].build if need.path not in its]
        while waiting:
            path = waiting.pop()
            if path not in found:
                found.add(path)
                waiting += [need.path for need in paths[path].run]
        for path in found - set(its):
            users[letters.group_of(path)].add(group)
    lengths: Dict[str, float] = {}

    def length(group: str) -> float:
        if group not in lengths:
            lengths[group] = seconds[group] + max((length(user) for user in users[group] - {group}), default=0)
        return lengths[group]

    for group in groups:
        length(group)
    return lengths


def made(tally) -> None:
    """A made tree: the same lines, and units by the length of their chains, computed another way."""
    tree = Tree(.04, seed=3)
    kinds = ("BUILD_DEPENDS", "LIB_DEPENDS", "RUN_DEPENDS")
    lines, dice = [], random.Random(4)
    for path, needs in tree.listed().items():
        port = tree.ports.get(path.split(",")[0])
        lines.append(f"{path}.FULLPKGNAME={port.stem if port else 'x'}-1\n")
        lines += [f"{path}.{kind}={' '.join(sorted(needs[kind]))}\n" for kind in kinds if kind in needs]
        lines += [f"{path}.IGNORE=why\n"] if "IGNORE" in needs else []
    listing = "".join(lines)
    groups = {letters.group_of(path) for path in letters.read_listing(listing)}
    seconds = {group: float(dice.randrange(1, 500)) for group in sorted(groups)}
    lengths = naive(listing, seconds)
    with tempfile.TemporaryDirectory() as folder:
        out, said, status = ordered(folder, listing, ["".join(f"{group} {seconds[group]} 1 0\n" for group in seconds)])
    order = list(dict.fromkeys(letters.group_of(line.split("=")[0].rpartition(".")[0]) for line in out.decode().splitlines()))
    got = [lengths[group] for group in order if group in lengths]
    right = status == 0 and sorted(out.splitlines()) == sorted(listing.encode().splitlines()) and got == sorted(got, reverse=True) and len(got) == len(lengths)
    right = right and all(group in lengths for group in order[:len(lengths)])
    tally.add(f"order-listing of a made tree of {len(groups)} groups", "" if right else f"status {status}, {said!r:.300}, {got[:9]}")


def run(tally) -> None:
    cases(tally)
    refused(tally)
    tally.run("a made tree", made)
