"""tools/expand-listing on stored dumps, and what dpbr makes of its output; tools/why-ignored on stored listings. tools/draw-trace on
the example, a short and a long trace. What tools/make-builds refuses, and what tools/unpack-log does with files that can't be in
one folder, and when it is disturbed. The rest of both is in packages.py."""
import contextlib
import ctypes
import json
import os
import re
import resource
import shutil
import signal
import subprocess
import sys
import tempfile
import time
import xml.dom.minidom

from topics import packages, versions
from topics.tally import EXAMPLES, PROGRAM, TESTS, TOP, Answer, answer, contents, difference

ROW, MOST_HEIGHT = 24, 1700
# of this many packages' builds pictures are drawn that fold their events
FOLDED = (84, 1667)
SIGNALS = (signal.SIGHUP, signal.SIGINT, signal.SIGTERM)
# how large a build may be, and with --digests where enough files could give way
MOST = packages.MOST_OF_A_BUILD
MOST_SPARED = MOST - 1_048_576
UNIT = "a/b,-docs.FULLPKGNAME=b-docs-1\na/b,-main.FULLPKGNAME=b-1\n"


def drawn(*words, **more):
    """What draw-trace prints, of what the built dpbr prints or of a file."""
    return subprocess.run([f"{TOP}/tools/draw-trace", *words], capture_output=True, timeout=600, **more)


def life(n):
    """The events by which three nodes build a package, twelve of them, and bring it to the list by the eighth."""
    path, first, claimer, other, third = f"a/p{n}", 7 * n, n % 3, (n + 1) % 3, (n + 2) % 3
    events = [{"above": 0, "event": "claim", "host": 3, "node": claimer, "path": path}]
    events += [{"datagram": first + d, "event": "deliver", "node": k} for d, k in ((0, claimer), (0, other), (1, claimer), (2, claimer))]
    events.append({"event": "built", "files": [], "node": claimer, "path": path})
    return events + [{"datagram": first + d, "event": "deliver", "node": k}
                     for d, k in ((3, claimer), (3, other), (4, claimer), (5, claimer), (6, other), (6, third))]


def builds(count, events):
    """A listing of this many packages, and the trace of the first events of their builds, this many, one after the other."""
    listing = "".join(f"a/p{n}.FULLPKGNAME=p{n}-1\n" for n in range(count))
    return listing, {"events": [event for n in range(count) for event in life(n)][:events], "members": 3}


def lone():
    """A trace in which one node builds one package of a unit of two."""
    events = [{"above": 0, "event": "claim", "host": 3, "node": 0, "path": "a/b,-docs"}]
    events += [{"datagram": d, "event": "deliver", "node": 0} for d in (0, 1)]
    events.append({"event": "built", "files": [], "node": 0, "path": "a/b,-docs"})
    return {"events": events + [{"datagram": d, "event": "deliver", "node": 0} for d in (2, 3)], "members": 1}


def picture(tally, name, listing, trace, *words):
    """The picture of the trace, and its height; or nothing, which is reported."""
    with tempfile.TemporaryDirectory() as folder:
        for file, text in (("listing", listing), ("trace", json.dumps(trace))):
            with open(f"{folder}/{file}", "w") as out:
                out.write(text)
        done = drawn(*words, f"{folder}/listing", f"{folder}/trace")
    if done.returncode:
        tally.add(name, f"{done.stderr!r:.300}, status {done.returncode}")
        return "", 0
    return done.stdout.decode(), int(xml.dom.minidom.parseString(done.stdout).documentElement.getAttribute("height"))


def agreed(svg):
    """How many packages the bars represent."""
    named, counted = re.findall(">agreed: ([^<]*)", svg), re.findall(">([0-9]+) packages agreed<", svg)
    return sum(len(paths.split(", ")) for paths in named) + sum(map(int, counted))


def along(part):
    """Points of an arrow, a pixel or less from each other."""
    if part.tagName == "line":
        ends = [tuple(float(part.getAttribute(f"{axis}{end}")) for axis in "xy") for end in (1, 2)]
        weights = lambda share: (1 - share, share)
    else:
        ends = [tuple(map(float, it)) for it in re.findall(r"([\d.]+),([\d.]+)", part.getAttribute("d"))]
        weights = lambda share: ((1 - share) ** 3, 3 * (1 - share) ** 2 * share, 3 * (1 - share) * share ** 2, share ** 3)
    for step in range(2001):
        yield tuple(sum(weight * end[axis] for weight, end in zip(weights(step / 2000), ends)) for axis in (0, 1))


def place_of(words):
    """The place that words take: their left, top, right and foot, of letters of six pixels."""
    x, foot = (float(words.getAttribute(it)) for it in "xy")
    wide = 6 * len(words.firstChild.data)
    left = x - wide if words.getAttribute("text-anchor") == "end" else x
    return left, foot - 8, left + wide, foot


def covered(svg):
    """The words at arrows that lie on an arrow, on a bar or on other such words."""
    parts = {}
    for part in xml.dom.minidom.parseString(svg).documentElement.getElementsByTagName("*"):
        parts.setdefault(part.getAttribute("class"), []).append(part)
    places = {it.firstChild.data: place_of(it) for it in parts.get("words", [])}
    points = [point for arrow in parts.get("arrow", []) for point in along(arrow)]
    bars = [float(bar.getAttribute("y1")) for bar in parts.get("bar", [])]
    lies = set()
    for text, (left, top, right, foot) in places.items():
        on_bar = any(top < y + 3 and y - 3 < foot for y in bars)
        on_words = any(left < it[2] and it[0] < right and top < it[3] and it[1] < foot for other, it in places.items() if other != text)
        if on_bar or on_words or any(left < x < right and top < y < foot for x, y in points):
            lies.add(text)
    return sorted(lies), len(places)


def pictures(tally):
    """The README's picture is the example's, shows the promise that reports a vote, and has its words at free places. Ten
    events have a row each, and a thousand, or twenty thousand, are folded into a picture of some rows."""
    done = drawn(f"{EXAMPLES}/listing", f"{EXAMPLES}/trace")
    wanted = (contents(f"{EXAMPLES}/take-over.svg"), b"", 0)
    tally.add("draw-trace of the example", difference((done.stdout, done.stderr, done.returncode), wanted))
    lies, count = covered(contents(f"{EXAMPLES}/take-over.svg"))
    tally.add("draw-trace of the example, the places of its words", f"{lies} of {count} lie on something" if lies or count != 12 else "")
    telling = (b">7 promise: it voted for node 0's build<", b">8 propose node 0's build again<", b">deliver 7 to node 1<")
    told = [text for text in telling if text not in done.stdout]
    tally.add("draw-trace of the example, what it says", f"{told} isn't there" if told else "")
    name = "draw-trace of ten events"
    svg, height = picture(tally, name, *builds(1, 10))
    rows, notes = len(set(re.findall('<text x="48" y="([0-9]+)"', svg))), svg.count('width="6" height="6"')
    if svg:
        # six notes, and the legend's; above and below ten rows there are fewer than six rows of words
        told = (rows, agreed(svg), notes, " events<" in svg, 10 * ROW < height < 16 * ROW)
        tally.add(name, "" if told == (10, 1, 7, False, True) else f"{told} in {height} pixels")
    for count in FOLDED:
        folded(tally, count)
    kept_lines(tally)
    stopped_run(tally)
    for words, wanted in ((), (0, 1)), (("--single",), (1, 0)):
        name = " ".join(["draw-trace", *words, "of one package of two"])
        svg, _ = picture(tally, name, UNIT, lone(), *words)
        if svg:
            told = (agreed(svg), svg.count("refused: 910"))
            tally.add(name, "" if told == wanted else f"{told}, not {wanted}")


def kept_lines(tally):
    """The picture is the same of lines that were kept, in a file or on standard input. Lines of another trace make none."""
    names = f"{EXAMPLES}/listing", f"{EXAMPLES}/trace"
    told = subprocess.run([PROGRAM, "run", "--events", *names], capture_output=True, timeout=600, check=True).stdout
    wanted = (contents(f"{EXAMPLES}/take-over.svg"), b"", 0)
    with tempfile.TemporaryDirectory() as folder:
        texts = {"events": told, "fewer": told.split(b"event 19 ")[0], "odd": told.replace(b" noted held", b" notes held")}
        for name, text in texts.items():
            with open(f"{folder}/{name}", "wb") as file:
                file.write(text)
        done = drawn("--events", f"{folder}/events", names[1])
        tally.add("draw-trace --events", difference((done.stdout, done.stderr, done.returncode), wanted))
        done = drawn("--events", "-", names[1], input=told)
        tally.add("draw-trace --events -", difference((done.stdout, done.stderr, done.returncode), wanted))
        for name, why in (("fewer", b"there are lines of 18 events, and the trace has 19"), ("odd", b"has 'notes', which begins no part of it")):
            done = drawn("--events", f"{folder}/{name}", names[1])
            right = done.returncode == 1 and not done.stdout and done.stderr.startswith(b"draw-trace: ") and why in done.stderr
            tally.add(f"draw-trace --events, {name} lines", "" if right else f"status {done.returncode}, {done.stderr!r}")


def stopped_run(tally):
    """The picture of a trace with a refused event ends with that, in red, and says so. A listing with a fault has none."""
    with tempfile.TemporaryDirectory() as folder:
        for name, text in (("listing", UNIT), ("trace", json.dumps(lone())), ("bad", "a/b,-docs\n")):
            with open(f"{folder}/{name}", "w") as out:
                out.write(text)
        done = drawn(f"{folder}/listing", f"{folder}/trace")
        said = b"draw-trace: event 4 is refused, with fault 910: the picture ends there\n"
        right = done.returncode == 0 and done.stderr == said and b"refused: 910" in done.stdout and b"deliver 2" not in done.stdout
        tally.add("draw-trace of a refused event", "" if right else f"status {done.returncode}, {done.stderr!r}")
        done = drawn(f"{folder}/bad", f"{folder}/trace")
        right = (done.returncode, done.stdout, done.stderr) == (1, b"", b"draw-trace: dpbr: fault 401 at 1\n")
        tally.add("draw-trace of a bad listing", "" if right else f"status {done.returncode}, {done.stderr!r}")


def folded(tally, count):
    """A picture of the builds of this many packages, of twelve events each: a page, whose bars represent all of them, with its words at
    free places, and how the list grew."""
    name = f"draw-trace of {12 * count} events"
    svg, height = picture(tally, name, *builds(count, 12 * count))
    if svg:
        tally.add(name, "" if agreed(svg) == count and height < MOST_HEIGHT else f"{agreed(svg)} packages in {height} pixels")
        lies, words = covered(svg)
        tally.add(f"{name}, the places of its words", f"{lies} of {words} lie on something" if lies or not words else "")
        tally.add(f"{name}, how the list grew", "" if f">{count} packages after {12 * count} events<" in svg else "it isn't reported")


def asked(tool, file):
    """What a tool answers to a stored file."""
    done = subprocess.run([f"{TOP}/tools/{tool}", file], capture_output=True, timeout=600)
    got = Answer((done.stdout, done.stderr, done.returncode))
    got.by_hand = f"tools/{tool} {os.path.relpath(file, TOP)}"
    return got


def expanded(tally, name):
    """What expand-listing makes of a stored dump, and dpbr of that."""
    folder = f"{TESTS}/expand/{name}"
    got = asked("expand-listing", f"{folder}/dump")
    tally.add(f"expand/{name}", difference(got, (contents(f"{folder}/listing"), contents(f"{folder}/stderr"), 0)))
    if os.path.exists(f"{folder}/letters"):
        with tempfile.TemporaryDirectory() as out:
            with open(f"{out}/listing", "wb") as file:
                file.write(got[0])
            letters = answer(["status", "listing", "/dev/null"], out)
        tally.add(f"expand/{name}, its letters", difference(letters, (contents(f"{folder}/letters"), b"", 0)))


def ignored(tally, name):
    """What why-ignored says of a stored listing."""
    folder = f"{TESTS}/ignored/{name}"
    tally.add(f"ignored/{name}", difference(asked("why-ignored", f"{folder}/listing"), (contents(f"{folder}/stdout"), b"", 0)))


def shown(tally):
    """why-ignored(1) shows what is said of the example."""
    told = b"$ why-ignored listing\n" + contents(f"{TESTS}/ignored/the_example/stdout")
    same = contents(f"{TESTS}/ignored/the_example/listing") == contents(f"{EXAMPLES}/listing")
    tally.add("man/why-ignored.1", "" if same and told in contents(f"{TOP}/man/why-ignored.1") else f"it doesn't show {told!r}, which is said of the example")


STORED = {"expand": expanded, "ignored": ignored}


@contextlib.contextmanager
def laid(files, links=()):
    """A folder with these files, and links to them."""
    with tempfile.TemporaryDirectory() as folder:
        packages.written(folder, files)
        for name, to in links:
            os.symlink(f"{folder}/{to}", f"{folder}/{name}")
        yield folder


def size_of(builds):
    """How many bytes a build of these files has, by path, where its names are the least and nothing is needed."""
    return len(packages.build(*(packages.record(path, "a-1", files) for path, files in builds.items()))) - 4


def made(out):
    """The files by path that make-builds wrote."""
    return {path: [(file["name"], bytes.fromhex(file["hex"])) for file in files] for path, files in json.loads(out or "{}").items()}


def refused(tally, name, folder, *words, what=b": a/b: a build of it has at least "):
    """make-builds ends with 1, nothing on standard output, and a line that says what is in the way."""
    out, said, status = packages.tool("make-builds", *words, folder)
    right = (out, status) == (b"", 1) and said.startswith(b"make-builds: ") and what in said and said.count(b"\n") == 1
    tally.add(f"make-builds of {name} {' '.join(words)}", "" if right else f"{out!r:.100} {said!r:.200}, status {status}")


def fitting(tally, name, folder, *words, least=0, most=MOST):
    """make-builds ends with 0, and a build of what it wrote has this many bytes; if there are few to spare it is reported."""
    out, said, status = packages.tool("make-builds", *words, folder)
    size = size_of(made(out)) if status == 0 else 0
    told = b"" if size <= MOST_SPARED else b"make-builds: a/b: %d bytes are left for its names and for what it needs\n" % (MOST - size)
    right = status == 0 and said == told and least <= size <= most
    tally.add(f"make-builds of {name} {' '.join(words)}", "" if right else f"{size} bytes, {said!r:.200}, status {status}")


def as_large_as_may_be(paths):
    """A file for each of these packages, so that a build of all of them has exactly as many bytes as may be."""
    sizes = [MOST // len(paths) - 1_000] * len(paths)
    sizes[0] += MOST - size_of({path: [("x", bytes(size))] for path, size in zip(paths, sizes)})
    return {f"{path.replace('/', ':')}/x": bytes(size) for path, size in zip(paths, sizes)}


def limits(tally):
    """A build may have exactly this many bytes, with its lines, of one package and of two."""
    for paths in (["a/b"], ["a/b,-x", "a/b,-y"]):
        name, files = f"a build of {len(paths)}", as_large_as_may_be(paths)
        with laid(files) as folder:
            fitting(tally, name, folder, least=MOST)
            with open(f"{folder}/{list(files)[0]}", "ab") as file:
                file.write(b"x")
            refused(tally, f"{name}, a byte too large", folder)
            fitting(tally, f"{name}, a byte too large", folder, "--digests", str(MOST), most=MOST_SPARED)
    with laid({"a:b/x": bytes(MOST)}) as folder:
        refused(tally, "a file of as many bytes as a build may have", folder)


def single(tally):
    """With --single, packages that differ only in the subpackage are a build each."""
    with laid(as_large_as_may_be(["a/b,-x", "a/b,-y", "a/b,-z"])) as folder:
        with open(f"{folder}/a:b,-x/y", "wb") as file:
            file.write(b"x")
        refused(tally, "three packages of a group", folder)
        out, said, status = packages.tool("make-builds", "--single", folder)
        tally.add("make-builds --single of them", "" if (len(made(out)), said, status) == (3, b"", 0) else f"{said!r:.200}, status {status}")
        with open(f"{folder}/a:b,-z/y", "wb") as file:
            file.write(bytes(MOST))
        refused(tally, "three packages, one too large", folder, "--single", what=b": a/b,-z: a build of it has at least ")


def many_files(tally):
    """The lines of many small files count; with --digests this many give way that there is room to spare."""
    for count, size, fewer in ((12_000, 300, 10_800), (14_000, 240, 12_800)):
        with laid({f"a:b/{n:05}": b"x" * size for n in range(count)}) as folder:
            refused(tally, f"{count} files of {size} bytes", folder)
            fitting(tally, f"{count} files of {size} bytes", folder, "--digests", str(MOST), most=MOST_SPARED)
            for n in range(fewer, count):
                os.remove(f"{folder}/a:b/{n:05}")
            fitting(tally, f"{fewer} files of {size} bytes", folder)
    with laid({f"a:b/{n:0250}": b"" for n in range(13_000)}) as folder:
        refused(tally, "names that leave no room for another", folder, "--digests", str(MOST))


def other_names(tally):
    """A file gives way if it has to, and another one replaces it, with a name that no file or folder has, and is shorter."""
    large, small, dot = bytes(2_500_000), bytes(1_000_000), (b"x" * 10)
    for name, files, wanted in (("names of files", {"x": large, "x.sha256": dot, "z": large[1:]}, ["x", "x.sha256", "z.sha256"]),
                                ("names of folders", {"x": large, "x.sha256/y": dot, "z": large[1:]}, ["x", "x.sha256/y", "z.sha256"]),
                                ("as few as have to", {"x": large, "y": small, "z": dot}, ["x.sha256", "y", "z"]),
                                ("none that is short", {"x": large + small, "x.sha256": dot, "z": dot}, ["x", "x.sha256", "z"])):
        with laid({f"a:b/{file}": text for file, text in files.items()}) as folder:
            out, _, status = packages.tool("make-builds", "--digests", str(MOST), folder)
            names = [file for file, _ in made(out).get("a/b", [])]
            tally.add(f"make-builds --digests, {name}", "" if (names, status) == (wanted, 0) else f"{names}, status {status}")


def forbidden():
    """A program that is started now can't read what its rights forbid, nor can root's on Linux: prctl's PR_CAPBSET_DROP."""
    if os.geteuid() == 0 and sys.platform == "linux":
        for right in (1, 2):
            ctypes.CDLL(None).prctl(24, right, 0, 0, 0)


def unread(tally):
    """If a file can't be read, or something is a link, nothing is written."""
    if os.geteuid() or sys.platform == "linux":
        with laid({"a:b/x": b"x", "c:d/x": b"x"}) as folder:
            os.chmod(f"{folder}/c:d/x", 0)
            done = subprocess.run([f"{TOP}/tools/make-builds", folder], capture_output=True, timeout=600, preexec_fn=forbidden)
            told = done.stdout == b"" and b"Permission denied" in done.stderr and done.returncode == 1
            tally.add("make-builds of a file that can't be read", "" if told else f"{done.stdout!r:.200} {done.stderr!r:.200}, status {done.returncode}")
    for name, link, to in (("a link to a file", "a:b/y", "a:b/x"), ("a link to a folder", "a:b/y", "a:b/z"), ("a link to a package", "c:d", "a:b"), ("a link to nothing", "y", "none")):
        with laid({"a:b/x": b"x", "a:b/z/x": b"x"}, [(link, to)]) as folder:
            refused(tally, name, folder, what=b"/%s': it is a symbolic link" % link.encode())


def brought(tally):
    limits(tally)
    single(tally)
    many_files(tally)
    other_names(tally)
    unread(tally)


def odd_package(tally):
    """Of a package whose files can't be in one folder the record is written; the others, and both lists, are as always."""
    odd = packages.record("c/d", "d-2", [("x", b"x"), ("x/y", b"y")], built=[packages.MAIN_LINE])
    with tempfile.TemporaryDirectory() as folder:
        said = packages.unpacked(folder, packages.log([packages.HELD_UNIT, packages.note(4, "c/d", packages.build(odd))]))
        told = b"unpack-log: c/d has only its record, as @record: the folder of x/y is a file\n"
        tally.add("unpack-log of a file in a file", difference(said, (b"", told, 0)))
        got = packages.files_in(f"{folder}/out")
    docs, line = (packages.signed(*it) for it in (("a/b,-docs", "b-docs-1", packages.DOCS), ("c/d", "d-2", odd)))
    listed = f"package {docs}\npackage {packages.MAIN_LINE}\npackage {line}\nbuilt {packages.MAIN_LINE}\n".encode()
    wanted = {"list": listed, "held": b"a/b,-docs\na/b,-main\nc/d\n", "a:b,-main/x": b"abc", "a:b,-main/share/y": b"\0\xff", "c:d/@record": odd}
    tally.add("the same, what it left", "" if got == wanted else f"{sorted(got)}, not {sorted(wanted)}, or other bytes")


def heard():
    """No signal is ignored, whatever the caller of the tests ignores."""
    for number in SIGNALS:
        signal.signal(number, signal.SIG_DFL)


def unpacking(folder, text):
    """unpack-log on a log of these bytes, once it has begun to write."""
    with open(f"{folder}/log", "wb") as file:
        file.write(text)
    tool = subprocess.Popen([f"{TOP}/tools/unpack-log", f"{folder}/log", f"{folder}/out"], stdout=subprocess.PIPE, stderr=subprocess.PIPE, preexec_fn=heard)
    while tool.poll() is None and not any(name.startswith(".") for name in os.listdir(folder)):
        time.sleep(0.001)
    return tool


def ended_by(number, text):
    """Sends unpack-log a signal while it writes. Gives its status, what it printed, and what is left in the folder some time later."""
    for _ in range(20):
        with tempfile.TemporaryDirectory() as folder:
            tool = unpacking(folder, text)
            tool.send_signal(number)
            said, end = tool.communicate(timeout=600), time.monotonic() + 300
            # what a killed one leaves is removed by another process
            while tool.returncode < 0 and os.listdir(folder) != ["log"] and time.monotonic() < end:
                time.sleep(0.01)
            left = os.listdir(folder)
        # else it had ended before: on a busy machine the signal may come late
        if tool.returncode:
            break
    return tool.returncode, said, left


def disturbed(tally):
    """A signal leaves nothing, and a log that is cut while it is looked at is unpacked as it was."""
    large = bytes(4_000_000)
    paths = [f"p/n{n}" for n in range(20)]
    text = packages.log([packages.note(4, path, packages.build(packages.record(path, "n-1", [("x", large)]))) for path in paths])
    for number in SIGNALS:
        status, said, left = ended_by(number, text)
        right = (said, status, left) == ((b"", b""), 128 + number, ["log"])
        tally.add(f"unpack-log, ended by {number.name}", "" if right else f"{said}, status {status}, left {left}")
    _, _, left = ended_by(signal.SIGKILL, text)
    tally.add("unpack-log, killed", "" if left == ["log"] else f"left {left}")
    with tempfile.TemporaryDirectory() as folder:
        tool = unpacking(folder, text)
        os.truncate(f"{folder}/log", 50)
        _, said = tool.communicate(timeout=600)
        got = packages.files_in(f"{folder}/out") if tool.returncode == 0 else {}
        # it was read to its end by then, or is refused
        right = os.listdir(folder) == ["log"] and b" isn't whole at " in said and said.count(b"\n") == 1 if tool.returncode == 1 else \
            [got.get(f"{path.replace('/', ':')}/x") for path in paths] == [large] * len(paths)
        tally.add("unpack-log of a log that is cut meanwhile", "" if right else f"{said}, status {tool.returncode}, {sorted(got)}")


def flat(tally):
    """With --flat all files are in one folder. What can't be is refused, with both packages."""
    with tempfile.TemporaryDirectory() as folder:
        log = f"{folder}/log"
        write(log, packages.log(packages.NOTES))
        said = packages.tool("unpack-log", "--flat", log, f"{folder}/out")
        tally.add("unpack-log --flat", difference(said, (b"", b"", 0)))
        wanted = {name.partition("/")[2] or name: text for name, text in packages.FILES.items()}
        got = packages.files_in(f"{folder}/out")
        tally.add("the same, its files", "" if got == wanted else f"{sorted(got)}, not {sorted(wanted)}")
        cases = (("one name", [("x", b"1")], [("x", b"2")], b"a/p and a/q both have a file x: they can't be in one folder"),
                 ("a file and a folder", [("x", b"1")], [("x/y", b"2")], b"a/p and a/q both have a file x/y: they can't be in one folder"),
                 ("a folder and a file", [("x/y", b"1")], [("x", b"2")], b"a/p and a/q both have a file x: they can't be in one folder"),
                 ("the list", [("y", b"1")], [("list", b"2")], b"unpack-log itself and a/q both have a file list: they can't be in one folder"))
        for name, one, other, told in cases:
            notes = [packages.note(4, path, packages.build(packages.record(path, "p-1", files))) for path, files in (("a/p", one), ("a/q", other))]
            write(log, packages.log(notes))
            said = packages.tool("unpack-log", "--flat", log, f"{folder}/other")
            right = said == (b"", b"unpack-log: %s: %s\n" % (log.encode(), told), 1) and sorted(os.listdir(folder)) == ["log", "out"]
            tally.add(f"unpack-log --flat of {name}", "" if right else f"{said}, left {os.listdir(folder)}")
        odd = packages.record("c/d", "d-2", [("x", b"x"), ("x/y", b"y")])
        write(log, packages.log([packages.note(4, "c/d", packages.build(odd))]))
        packages.tool("unpack-log", "--flat", log, f"{folder}/other")
        got = packages.files_in(f"{folder}/other")
        tally.add("unpack-log --flat of only a record", "" if got.get("@record.c:d") == odd and len(got) == 3 else f"{sorted(got)}")


def write(path, text):
    with open(path, "wb") as file:
        file.write(text)


def linked(tally):
    """With --link a file of the store gets a second name; what has another digest there isn't linked; without a store it is a wrong word."""
    text = b"z" * 100_000
    digest = packages.digest(text)
    stands = f"SHA256 (z.tgz) = {digest}\nSIZE (z.tgz) = {len(text)}\n".encode()
    with tempfile.TemporaryDirectory() as folder:
        write(f"{folder}/log", packages.log([packages.note(4, "a/b", packages.build(packages.record("a/b", "b-1", [("z.tgz.sha256", stands)])))]))
        os.mkdir(f"{folder}/store")
        for place, stored, count in (("good", text, 2), ("copied", text, 1), ("bad", text[1:], 0)):
            write(f"{folder}/store/{digest}", stored)
            words = ["--store", f"{folder}/store", *(["--link"] if place != "copied" else []), "--flat", f"{folder}/log", f"{folder}/{place}"]
            out, said, status = packages.tool("unpack-log", *words)
            told = b"unpack-log: a/b lacks z.tgz: %s/store has no file %s\n" % (folder.encode(), digest.encode()) if not count else b""
            got = packages.files_in(f"{folder}/{place}")
            links = os.stat(f"{folder}/{place}/z.tgz").st_nlink if "z.tgz" in got else 0
            right = (out, said, status, links) == (b"", told, 0, count) and got.get("z.tgz", text) == text and ("z.tgz.sha256" in got) == (not count)
            tally.add(f"unpack-log --link, {place}", "" if right else f"{said}, status {status}, {links} links, {sorted(got)}")
            os.unlink(f"{folder}/store/{digest}")
        _, said, status = packages.tool("unpack-log", "--link", f"{folder}/log", f"{folder}/none")
        tally.add("unpack-log --link without a store", "" if status == 2 and b"--link needs --store" in said else f"{said}, status {status}")


def in_parts(tally):
    """A log of 160 MB is unpacked by a program that may have 120 MiB of memory. If a full disk ends it nothing is left."""
    large = os.urandom(4_000_000)
    notes = [packages.note(4, f"p/n{n}", packages.build(packages.record(f"p/n{n}", "n-1", [("x", large)]))) for n in range(40)]
    with tempfile.TemporaryDirectory() as folder:
        write(f"{folder}/log", packages.log(notes))
        limited = lambda: resource.setrlimit(resource.RLIMIT_AS, (120 << 20, 120 << 20))
        done = subprocess.run([f"{TOP}/tools/unpack-log", f"{folder}/log", f"{folder}/out"], capture_output=True, timeout=600, preexec_fn=limited)
        sizes = [os.path.getsize(f"{folder}/out/p:n{n}/x") for n in range(40)] if done.returncode == 0 else []
        tally.add("unpack-log of 160 MB in 120 MiB", "" if sizes == [4_000_000] * 40 else f"{done.stderr!r}, status {done.returncode}")
        short = lambda: resource.setrlimit(resource.RLIMIT_FSIZE, (1 << 20, 1 << 20))
        done = subprocess.run([f"{TOP}/tools/unpack-log", f"{folder}/log", f"{folder}/other"], capture_output=True, timeout=600, preexec_fn=short)
        right = done.returncode == 1 and done.stderr.startswith(b"unpack-log: ") and sorted(os.listdir(folder)) == ["log", "out"]
        tally.add("unpack-log that can't write", "" if right else f"{done.stderr!r}, status {done.returncode}, left {os.listdir(folder)}")


def synced(tally):
    """Each file and folder is synced before the folder has its name, and the name after that."""
    if not shutil.which("strace"):
        tally.skip("unpack-log syncs what it writes", "there is no strace here")
        return
    with tempfile.TemporaryDirectory() as folder:
        write(f"{folder}/log", packages.log(packages.NOTES))
        words = ["strace", "-f", "-y", "-e", "trace=fsync,rename,renameat,renameat2", "-o", f"{folder}/calls", f"{TOP}/tools/unpack-log", f"{folder}/log", f"{folder}/out"]
        done = subprocess.run(words, capture_output=True, timeout=600)
        before, _, after = contents(f"{folder}/calls").decode().partition("rename")
        count = len(packages.FILES) + len([it for it in os.listdir(f"{folder}/out") if ":" in it]) + 2
        right = done.returncode == 0 and before.count("fsync(") == count and after.count("fsync(") == 1
        tally.add("unpack-log syncs what it writes", "" if right else f"{before.count('fsync(')} before, not {count}, {after!r:.200}, {done.stderr!r:.200}")


def taken_away(tally):
    odd_package(tally)
    disturbed(tally)
    flat(tally)
    linked(tally)
    in_parts(tally)
    synced(tally)


def case(tally, kind, name):
    """A stored case by its name."""
    STORED[kind](tally, name)


def run_without_programs(tally):
    shown(tally)
    tally.run("packages", packages.run)
    versions.run(tally)
    brought(tally)
    taken_away(tally)


def run(tally):
    for kind in STORED:
        for name in sorted(os.listdir(f"{TESTS}/{kind}")):
            tally.run(f"{kind}/{name}", case, kind, name)
    packages.audited(tally)
    tally.run("pictures", pictures)
