"""`dpbr wayon`: stored cases, words and files that are refused, each in its turn, and the largest builds.

Which way is printed is free. So a test checks what has to hold of any way. The members, weights and events of the given trace come
first, and a bounded number of events follows. Each is the node's own claim for the path on the host, its own build of the given
files, or a datagram, and none is at a node that is down. `dpbr run` takes exactly the bytes that were printed. One more event, that
asks the node for the path, is refused, since the path is held. Short answers of named cases are stored.
"""
import json
import os
import subprocess
import tempfile

from topics.tally import EXAMPLES, PROGRAM, TESTS, answer, contents, difference


class Asked:
    """What was asked for: the words of a call, in the folder of the files that they name."""

    def __init__(self, words, folder):
        self.flags = [word for word in words if word.startswith("--")]
        _, listing, trace, node, path, host, builds = [word for word in words if not word.startswith("--")]
        self.listing = f"{folder}/{listing}"
        self.trace = json.loads(contents(f"{folder}/{trace}"))
        self.node, self.path, self.host = int(node), canonical(path), int(host)
        self.builds = {canonical(path): spelled(files) for path, files in json.loads(contents(f"{folder}/{builds}")).items()}

    def given(self):
        """The files that are given for each package of the unit that the path names."""
        return {path: self.builds.get(path) for path in self.packages()}

    def packages(self):
        """The packages of that unit: with it in one group, and not ignored; the letters say which are."""
        if "--single" in self.flags:
            return [self.path]
        lines = answer(["status", self.listing, "/dev/null"], TESTS)[0].decode().split("\n")[:-2]
        listed = [canonical(line.split(" ")[1]) for line in lines if line[0] != "!"]
        return [it for it in listed if without_subpackage(it) == without_subpackage(self.path)]


def canonical(path):
    """The one spelling of a package path: its flavors in order, each once, and then the subpackage."""
    directory, *parts = path.split(",")
    flavors = sorted({it for it in parts if it and not it.startswith("-")})
    mark = [""] if "" in parts and not flavors else []
    return ",".join([directory, *mark, *flavors, *(it for it in parts if it.startswith("-"))])


def without_subpackage(path):
    return path.partition(",-")[0]


def spelled(files):
    """Names and bytes of files, the digits in lower case."""
    return [(file["name"], file["hex"].lower()) for file in files]


def files_of(built):
    """What was built of each package, by an event."""
    packages = built.get("packages") or [{"files": built["files"], "path": built["path"]}]
    return {it["path"]: spelled(it["files"]) for it in packages}


def nodes_up(trace):
    """Which nodes are up once the events of a trace happened."""
    up = [True] * trace["members"]
    for event in trace["events"]:
        if event["event"] in ("stop", "restart"):
            up[event["node"]] = event["event"] == "restart"
        elif event["event"] == "stopin":
            up[event["input"]["node"]] = False
    return up


def event_problem(event, asked, up):
    """What keeps an event from being one of a way, if anything."""
    if event["event"] not in ("claim", "built", "deliver"):
        return "no way has such an event"
    if not up[event["node"]]:
        return "that node is down"
    if event["event"] == "deliver":
        return ""
    if (event["node"], event["path"]) != (asked.node, asked.path):
        return f"it is not node {asked.node}'s own for {asked.path}"
    if event["event"] == "claim":
        return "" if event["host"] == asked.host else f"it is not for host {asked.host}"
    return "" if files_of(event) == asked.given() else f"it is not of the files that are given for {sorted(asked.given())}"


def form_problem(asked, printed, most):
    """What is wrong with a trace that was printed after the given one, which has at most this many events more."""
    known = len(asked.trace["events"])
    way = printed["events"][known:]
    if printed["events"][:known] != asked.trace["events"] or any(printed.get(it) != asked.trace.get(it) for it in ("members", "weights")):
        return "it does not begin with the trace that was given"
    if len(way) > most:
        return f"it has {len(way)} events more, and not {most} at most"
    up = nodes_up(asked.trace)
    wrong = [(event, event_problem(event, asked, up)) for event in way if event_problem(event, asked, up)]
    return f"{str(wrong[0][0])[:200]}: {wrong[0][1]}" if wrong else ""


def run_problem(out, asked):
    """What is wrong with a trace as `dpbr run` has its bytes: an event is refused, or the node doesn't hold the path in the end."""
    events, end, outer = out.rpartition(b'],"members":')
    question = json.dumps({"event": "ask", "node": asked.node, "path": asked.path}, separators=(",", ":")).encode()
    held = f"dpbr: fault 904 at {len(json.loads(out)['events']) + 1}\n".encode()
    with tempfile.TemporaryDirectory() as folder:
        for name, trace in (("printed", out), ("asked", b"".join((events, b",", question, end, outer)))):
            with open(f"{folder}/{name}", "wb") as file:
                file.write(trace)
        words = ["run", *asked.flags, asked.listing]
        ran = answer([*words, "printed"], folder)
        return difference((b"", *ran[1:]), (b"", b"", 0)) or difference(answer([*words, "asked"], folder), (b"", held, 1))


def way_problem(got, folder, words, most):
    """What is wrong with an answer to these words that should be a way."""
    out, error, status = got
    if (error, status) != (b"", 0) or out[-1:] != b"\n":
        return difference(got, (out, b"", 0)) or "no line feed is at its end"
    asked, printed = Asked(words, folder), json.loads(out)
    if json.dumps(printed, separators=(",", ":")).encode() + b"\n" != out:
        return "it is not written compactly"
    return form_problem(asked, printed, most) or run_problem(out, asked)


def case(tally, kind, name):
    """A stored case: the words, the files, and what has to be reported; of a way how long it is at most."""
    folder = f"{TESTS}/{kind}/{name}"
    words = contents(f"{folder}/words").decode().split()
    got = answer(words, folder)
    if contents(f"{folder}/status").strip() != b"0":
        problem = difference(got, (b"", contents(f"{folder}/stderr"), int(contents(f"{folder}/status"))))
    else:
        known = difference(got, (contents(f"{folder}/stdout"), b"", 0)) if os.path.exists(f"{folder}/stdout") else ""
        problem = known or way_problem(got, folder, words, int(contents(f"{folder}/most")))
    tally.add(f"{kind}/{name}", problem)


def no_calls(tally):
    """Wrong arguments: one too few or too many, and a number that is malformed or out of range; and good numbers."""
    words = ["wayon", "listing", "trace", "1", "devel/gettext", "4", "builds"]
    wrong = [words[:count] for count in range(1, len(words))] + [[*words, "more"], [*words, "--help"], ["ways", *words[1:]], ["--single", *words]]
    wrong += [[*words[:3], number, *words[4:]] for number in ("256", "-1", "", "1.0", "x", "99999999999999999999")]
    wrong += [[*words[:5], number, words[6]] for number in ("65536", "-1", "", "7h", "99999999999999999999")]
    wrong += [[*words, "--single", "--single"], [*words, "--single=yes"], [*words[:3], b"\xff", *words[4:]]]
    for no_call in wrong:
        out, error, code = answer(no_call, EXAMPLES)
        tally.add(f"the words {no_call}", "" if (out, code) == (b"", 2) and error else f"{out!r:.200}, {error!r:.200}, status {code}")
    plain = answer(words, EXAMPLES)
    for node, host in (("+1", "4"), ("1", "004"), ("01", "+4")):
        got = answer([*words[:3], node, words[4], host, words[6]], EXAMPLES)
        tally.add(f"the numbers {node} and {host}", difference(got, plain))


def refusals(tally):
    """Which of several faults is reported: files and the path in the order of the words, then the trace's events, then the way's."""
    good, trace, builds, refused = f"{EXAMPLES}/listing", f"{EXAMPLES}/trace", f"{EXAMPLES}/builds", '{"events":[{"event":"nudge","node":0}],"members":3}'
    long = "a/" + "x" * 254
    with tempfile.TemporaryDirectory() as folder:
        for name, text in (("bad", "a/p\n"), ("refused", refused), ("twice", '{"a/b,x,y":[],"a/b,y,x":[]}')):
            with open(f"{folder}/{name}", "w") as file:
                file.write(text)
        rows = [(["none", "bad", "0", "c", "7", "bad"], "2"), (["bad", "none", "0", "c", "7", "none"], "401 at 1"),
                ([good, "none", "0", "c", "7", "none"], "2"), ([good, "bad", "0", "c", "7", "none"], "1305 at 0"),
                ([good, "refused", "9", "c", "7", "none"], "102"), ([good, "refused", "9", "a/b", "7", "none"], "2"),
                ([good, "refused", "9", "a/b", "7", "bad"], "1305 at 0"), ([good, "refused", "9", "a/b", "7", "twice"], "1305 at 0"),
                ([good, "refused", "9", "a/b", "7", builds], "905 at 1"), ([good, trace, "9", "a/b", "7", builds], "1301"),
                ([good, trace, "0", "a/b", "7", builds], "901")]
        rows += [([good, trace, "0", path, "7", "none"], number) for path, number in
                 (("", "101"), (long, "105"), ("a", "102"), ("a//b", "103"), ("a/b,-x,-y", "104"), ("a/b,,,f", "106"))]
        for words, fault in rows:
            tally.add(f"wayon {words}", difference(answer(["wayon", *words], folder), (b"", f"dpbr: fault {fault}\n".encode(), 1)))
    with open("/dev/full", "wb") as full:
        done = subprocess.run([PROGRAM, "wayon", "listing", "trace", "1", "devel/gettext", "4", "builds"], cwd=EXAMPLES, stdout=full, stderr=subprocess.PIPE)
    tally.add("wayon on a full device", difference((b"", done.stderr, done.returncode), (b"", b"dpbr: fault 2\n", 1)))


def large_builds(tally):
    """Files that exactly fit the limit of a build, and a byte more; the claim's round, the greatest and one more, is in the build."""
    claimed = '{"above":%d,"event":"claim","host":3,"node":0,"path":"a/b"}'
    for name, event, size, fault in (("the largest build", "", 4194158, 0), ("a build a byte too large", "", 4194159, 907),
                                     ("the largest build by its round", claimed % 7, 4194158, 0), ("a build too large by its round", claimed % 8, 4194158, 907)):
        with tempfile.TemporaryDirectory() as folder:
            for file_name, text in (("LISTING", "a/b.FULLPKGNAME=b-1.0\n"), ("TRACE", '{"events":[%s],"members":1}' % event),
                                    ("BUILDS", '{"a/b":[{"hex":"%s","name":"x"}]}' % ("7a" * size))):
                with open(f"{folder}/{file_name}", "w") as file:
                    file.write(text)
            words = ["wayon", "LISTING", "TRACE", "0", "a/b", "7", "BUILDS"]
            got = answer(words, folder)
            problem = difference(got, (b"", b"dpbr: fault %d\n" % fault, 1)) if fault else way_problem(got, folder, words, 2 + 2 + 2 * 128)
        tally.add(f"wayon: {name}", problem)


def run(tally):
    for name in sorted(os.listdir(f"{TESTS}/wayon")):
        case(tally, "wayon", name)
    no_calls(tally)
    refusals(tally)
    large_builds(tally)
