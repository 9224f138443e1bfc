"""What publishers take away: tools/unpack-log on logs that are written here by their format, and on each of them broken;
tools/make-builds on folders; and what dpbr makes of what the first writes."""
import hashlib
import json
import os
import subprocess
import tempfile

from topics.tally import TOP, answer, contents, difference, fallen

LISTING = b"""a/b,-docs.FULLPKGNAME=b-docs-1
a/b,-main.FULLPKGNAME=b-1
c/d.FULLPKGNAME=d-2
c/d.BUILD_DEPENDS=a/b,-main
e/f.FULLPKGNAME=f-3
e/f.LIB_DEPENDS=c/d
"""
MOST_OF_A_BUILD = 4_194_304


def tool(name, *words):
    done = subprocess.run([f"{TOP}/tools/{name}", *words], capture_output=True, timeout=600)
    return done.stdout, done.stderr, done.returncode


def digest(text):
    return hashlib.sha256(text).hexdigest()


def record(path, name, files, built=(), run=(), host=3, claim="1.0"):
    """The text of a record."""
    lines = ["@dpb 1", f"@name {name}", f"@comment pkgpath={path}", f"@host {host}", f"@claim {claim}"]
    lines += [f"@built {line}" for line in built] + [f"@run {line}" for line in run]
    for file, text in files:
        lines += [file, f"@sha {digest(text)}", f"@size {len(text)}"]
    return "\n".join([*lines, "", ""]).encode() + b"".join(text for _, text in files)


def build(*records):
    """The text of a build, after its length."""
    text = (f"@dpb 2\n@packages {len(records)}\n".encode() if len(records) > 1 else b"") + b"".join(records)
    return len(text).to_bytes(4, "big") + text


def note(kind, unit, rest):
    return bytes([kind]) + len(unit).to_bytes(2, "big") + unit.encode() + rest


def claim(number, member):
    return number.to_bytes(8, "big") + bytes([member])


def log(notes, weights=(1, 1, 1), me=0, end=b"\0"):
    ones = set(weights) == {1}
    head = b"\1" + (b"DPBLOG01" if ones else b"DPBLOG02") + bytes([7] * 32) + bytes([len(weights), me]) + (b"" if ones else bytes(weights))
    return head + b"".join(b"\1" + len(text).to_bytes(4, "big") + text for text in notes) + end


def signed(path, name, text):
    return f"{path} {name} {digest(text)}"


DOCS = record("a/b,-docs", "b-docs-1", [])
MAIN = record("a/b,-main", "b-1", [("x", b"abc"), ("share/y", b"\0\xff")])
MAIN_LINE = signed("a/b,-main", "b-1", MAIN)
D = record("c/d", "d-2", [("d.tgz", b"d")], built=[MAIN_LINE], host=4, claim="7.1")
D_LINE = signed("c/d", "d-2", D)
F = record("e/f", "f-3", [("f.tgz", b"f" * 70000)], built=[D_LINE], run=["c/d"])
HELD_UNIT, HELD_D, HELD_F = note(4, "a/b", build(DOCS, MAIN)), note(4, "c/d", build(D)), note(4, "e/f", build(F))
# a node that voted, and heard of what is agreed in another order than it was built in
NOTES = [note(1, "a/b", (1).to_bytes(8, "big")), note(2, "a/b", claim(1, 0)), note(3, "a/b", claim(1, 0) + build(DOCS, MAIN)),
         HELD_F, HELD_D, HELD_UNIT]
LIST = "\n".join([f"package {signed('a/b,-docs', 'b-docs-1', DOCS)}", f"package {MAIN_LINE}",
                  f"package {D_LINE}", f"built {MAIN_LINE}", f"package {signed('e/f', 'f-3', F)}", f"built {D_LINE}", ""]).encode()
FILES = {"list": LIST, "held": b"e/f\nc/d\na/b,-docs\na/b,-main\n", "a:b,-main/x": b"abc", "a:b,-main/share/y": b"\0\xff",
         "c:d/d.tgz": b"d", "e:f/f.tgz": b"f" * 70000}


def files_in(folder):
    """The bytes of all files below a folder, by name."""
    found = {}
    for where, _, names in os.walk(folder):
        for name in names:
            with open(os.path.join(where, name), "rb") as file:
                found[os.path.relpath(os.path.join(where, name), folder)] = file.read()
    return found


def unpacked(folder, text):
    """What the tool said of a log with these bytes, and what it left next to the log."""
    with open(f"{folder}/log", "wb") as file:
        file.write(text)
    said = tool("unpack-log", f"{folder}/log", f"{folder}/out")
    os.remove(f"{folder}/log")
    return said


def good_logs(tally):
    """Two forms of log, what a torn write left after the gate, and a node that holds nothing."""
    for name, text, files in (("a log", log(NOTES), FILES), ("a log with weights", log(NOTES, (1, 1, 3), 2), FILES),
                              ("a log with a torn note", log(NOTES, end=b"\0\0\0\x28torn"), FILES),
                              ("a log without notes", log([]), {"list": b"", "held": b""})):
        with tempfile.TemporaryDirectory() as folder:
            said = unpacked(folder, text)
            tally.add(f"unpack-log of {name}", difference(said, (b"", b"", 0)))
            got = files_in(f"{folder}/out")
            tally.add(f"unpack-log of {name}, its files", "" if got == files else f"{sorted(got)}, not {sorted(files)}, or other bytes")
    with tempfile.TemporaryDirectory() as folder:
        said = unpacked(folder, log([HELD_D, HELD_F]))
        told = f"unpack-log: c/d was built on {MAIN_LINE}, which this node doesn't hold\nunpack-log: not in the list: c/d, e/f\n".encode()
        tally.add("unpack-log of what is built on more than is held", difference(said, (b"", told, 0)))
        got = files_in(f"{folder}/out")
        tally.add("the same, its list and its paths", "" if (got["list"], got["held"]) == (b"", b"c/d\ne/f\n") else f"{got['list']!r:.200}")
        again = unpacked(folder, log(NOTES))
        tally.add("unpack-log into an existing folder", "" if again[2] == 1 and files_in(f"{folder}/out") == got else f"{again}")


def bad_logs(tally):
    """A malformed log, or one with a bad note, is reported with its place, and nothing is left."""
    good, first = log(NOTES), 43
    held = log([HELD_D])
    cases = [("no bytes", b"", 0), ("a closed header", b"\0" + good[1:], 0), ("another magic", good[:8] + b"3" + good[9:], 1),
             ("no members", good[:41] + b"\0" + good[42:], 41), ("a number that isn't a member's", good[:42] + b"\3" + good[43:], 42),
             ("weights of ones", log([], (1, 1, 3))[:43] + b"\1\1\1\0", 43),
             ("a note that isn't whole", good[:first + 9], first), ("a note without the next gate", log([HELD_D], end=b""), first),
             ("an unknown kind", held[:48] + b"\5" + held[49:], 48), ("a path that isn't canonical", log([note(1, "a/b,y,x", bytes(7) + b"\1")]), 51),
             ("a round of 0", log([note(1, "a/b", bytes(8))]), 54), ("a member too many", log([note(2, "a/b", claim(1, 9))]), 62),
             ("something after a note", log([note(2, "a/b", claim(1, 0) + b"x")]), 63),
             ("a build of another unit", log([note(4, "c/e", build(D))]), 54),
             ("a file that hasn't its digest", log([HELD_D[:-1] + b"e"]), 43 + 5 + len(HELD_D) - 1),
             ("records in another order", log([note(4, "a/b", build(MAIN, DOCS))]), None), ("a build too short", log([HELD_D[:-1]]), 54),
             ("a host too great", log([note(4, "c/d", build(record("c/d", "d-2", [], host=65536)))]), None),
             ("a file that leads out of its folder", log([note(4, "c/d", build(record("c/d", "d-2", [("../x", b"x")])))]), None),
             ("a name without a version", log([note(4, "c/d", build(record("c/d", "d", [])))]), None)]
    for name, text, place in cases:
        with tempfile.TemporaryDirectory() as folder:
            out, said, status = unpacked(folder, text)
            right = (out, status) == (b"", 1) and said.count(b"\n") == 1 and os.listdir(folder) == []
            right = right and (place is None or said.endswith(b" at %d\n" % place))
            tally.add(f"unpack-log of {name}", "" if right else f"{said!r:.300}, status {status}, left {os.listdir(folder)}")


def cut_logs(tally):
    """A log cut at each length: at a gate it is whole if the byte is taken for a closed one, and otherwise it is reported."""
    text, wrong = log([HELD_D]), []
    for length in range(len(text)):
        with tempfile.TemporaryDirectory() as folder:
            _, said, status = unpacked(folder, text[:length])
            if status != 1 or said.count(b"\n") != 1 or os.listdir(folder):
                wrong.append(length)
    tally.add("unpack-log of a log cut at each length", f"cut to {wrong} bytes it is taken" if wrong else "")


def audited(tally):
    """dpbr takes what is unpacked: the list is allowed, and the paths are held."""
    with tempfile.TemporaryDirectory() as folder:
        unpacked(folder, log(NOTES))
        with open(f"{folder}/LISTING", "wb") as file:
            file.write(LISTING)
        tally.add("dpbr audit of what is unpacked", difference(answer(["audit", "LISTING", "out/list"], folder), (b"yes\n", b"", 0)))
        letters = b"I a/b,-docs b-docs-1\nI a/b,-main b-1\nI c/d d-2\nI e/f f-3\nI=4 B=0 Q=0 T=0 !=0\n"
        tally.add("dpbr status of what is unpacked", difference(answer(["status", "LISTING", "out/held"], folder), (letters, b"", 0)))


def page(tally):
    """unpack-log(1) shows what is said of a log with a file that was changed."""
    with tempfile.TemporaryDirectory() as folder:
        _, said, _ = unpacked(folder, log([HELD_D[:-1] + b"e"]))
    told = said.replace(f"{folder}/log".encode(), b"bad.log")
    tally.add("man/unpack-log.1", "" if b"$ unpack-log bad.log out\n" + told in contents(f"{TOP}/man/unpack-log.1") else f"it doesn't show {told!r}")


def written(folder, files):
    for name, text in files.items():
        os.makedirs(os.path.dirname(f"{folder}/{name}"), exist_ok=True)
        if text is not None:
            with open(f"{folder}/{name}", "wb") as file:
                file.write(text)


def builds(tally):
    """What make-builds writes of a folder, and of what unpack-log wrote."""
    with tempfile.TemporaryDirectory() as folder:
        unpacked(folder, log(NOTES))
        wanted = {path: [{"hex": FILES[f"{path.replace('/', ':')}/{name}"].hex(), "name": name} for name in names]
                  for path, names in (("a/b,-docs", ()), ("a/b,-main", ("share/y", "x")), ("c/d", ("d.tgz",)), ("e/f", ("f.tgz",)))}
        text = json.dumps(wanted, separators=(",", ":")).encode() + b"\n"
        tally.add("make-builds of what is unpacked", difference(tool("make-builds", f"{folder}/out"), (text, b"", 0)))
    with tempfile.TemporaryDirectory() as folder:
        tally.add("make-builds of nothing", difference(tool("make-builds", folder), (b"{}\n", b"", 0)))
        written(folder, {'a:b/a "file"\\': b"\x0a"})
        text = b'{"a/b":[{"hex":"0a","name":"a \\"file\\"\\\\"}]}\n'
        tally.add("make-builds of a strange name", difference(tool("make-builds", folder), (text, b"", 0)))


def large_builds(tally):
    """A file that is too large is reported, or gives way to what says which it is."""
    large = bytes(MOST_OF_A_BUILD + 1)
    with tempfile.TemporaryDirectory() as folder:
        written(folder, {"a:b,-x/large": large, "a:b,-y/small": b"y", "c:d/z": b"z"})
        out, said, status = tool("make-builds", folder)
        tally.add("make-builds of a large file", "" if (out, status) == (b"", 1) and said.startswith(b"make-builds: a/b: ") else f"{said!r:.300}")
        out, said, status = tool("make-builds", folder, "--digests", str(MOST_OF_A_BUILD))
        tally.add("make-builds with digests", fallen(said, status))
        if status == 0:
            told = f"SHA256 (large) = {digest(large)}\nSIZE (large) = {len(large)}\n".encode().hex()
            wanted = {"a/b,-x": [{"hex": told, "name": "large.sha256"}], "a/b,-y": [{"hex": "79", "name": "small"}], "c/d": [{"hex": "7a", "name": "z"}]}
            tally.add("make-builds with digests, its text", "" if json.loads(out) == wanted else f"{out!r:.300}")


def bad_folders(tally):
    for name, files in (("a name that isn't a path", {"ab/x": b""}), ("flavors out of order", {"a:b,y,x/x": b""}), ("two subpackages", {"a:b,-x,-y/x": b""}),
                        ("a file name that no record takes", {"a:b/@x": b""}), ("a name that isn't text", {"a:b/\udcff": b""}), ("no folder", None)):
        with tempfile.TemporaryDirectory() as folder:
            written(folder, files or {})
            out, said, status = tool("make-builds", folder if files else f"{folder}/none")
            tally.add(f"make-builds of {name}", "" if (out, status) == (b"", 1) and said.startswith(b"make-builds: ") else f"{out!r:.100} {said!r:.200}")


def run(tally):
    good_logs(tally)
    bad_logs(tally)
    cut_logs(tally)
    page(tally)
    builds(tally)
    large_builds(tally)
    bad_folders(tally)
