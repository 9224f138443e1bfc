"""A ports tree, read: tools/make-listing next to a make that is played (tests/played-make), under each awk and shell that the machine
has; a made tree of OpenBSD's shape (tests/made_tree.py), its letters next to a second program (tests/letters.py); tools/order-listing."""
import json
import os
import re
import shutil
import signal
import subprocess
import tempfile
import time
from typing import Dict, List, Optional, Tuple

import letters
from made_tree import Tree
from topics.tally import PROGRAM, TESTS, TOP, answer, contents, text_difference

LIMIT = 600
# the made tree of tests/run, as a share of OpenBSD's
SCALE = .05
AWKS = {"mawk": ["mawk"], "one-true-awk": ["original-awk"], "gawk": ["gawk", "--posix"], "busybox": ["busybox", "awk"]}
SHELLS = ("dash", "mksh", "oksh", "bash")


class Ports:
    """A folder in which make is played, and what make-listing says of it."""

    def __init__(self, folder: str, whole: str, answers: Optional[Dict[str, str]] = None) -> None:
        self.folder = folder
        with open(f"{folder}/whole", "w", encoding="utf-8") as file:
            file.write(whole)
        with open(f"{folder}/answers", "w", encoding="utf-8") as file:
            json.dump(answers or {}, file)
        self.more: Dict[str, str] = {}
        self.shell: List[str] = []

    def listing(self, *words: str, **more: str) -> Tuple[str, str, int]:
        done = subprocess.run([*self.shell, f"{TOP}/tools/make-listing", *words], cwd=self.folder, stdin=subprocess.DEVNULL, capture_output=True,
                              timeout=LIMIT, env={**os.environ, "MAKE": f"{TESTS}/played-make", **self.more, **more})
        return done.stdout.decode("latin-1"), done.stderr.decode("latin-1"), done.returncode

    def calls(self) -> List[str]:
        """What make was asked for, a line for each call."""
        if not os.path.exists(f"{self.folder}/calls"):
            return []
        with open(f"{self.folder}/calls", encoding="utf-8") as file:
            return file.read().split("\n")[:-1]


class Case:
    """What make prints, and what make-listing has to make of it."""

    def __init__(self, name: str, whole: str, listing: str, answers: Optional[Dict[str, str]] = None, calls: Tuple[str, ...] = (),
                 words: Tuple[str, ...] = (".",), says: str = "") -> None:
        self.name, self.whole, self.wanted, self.answers, self.calls, self.words, self.says = name, whole, listing, answers or {}, calls, words, says

    def run(self, tally, shell: List[str], more: Dict[str, str], under: str) -> None:
        with tempfile.TemporaryDirectory() as folder:
            ports = Ports(folder, self.whole, self.answers)
            ports.shell, ports.more = shell, more
            out, said, status = ports.listing(*self.words)
            problem = "" if out == self.wanted else text_difference(out.encode("latin-1"), self.wanted.encode("latin-1"))
            if not problem and (status, ports.calls()) != (0, [*([] if "--only" in self.words else [""]), *self.calls]):
                problem = f"status {status}, make was asked for {ports.calls()}"
            if not problem and self.says not in said:
                problem = f"it says {said!r}, without {self.says!r}"
            tally.add(f"make-listing, {self.name}{under}", problem)


def port(path: str, name: str, asked: str = "", **values: str) -> str:
    """A port's block."""
    lines = [f"===> {asked or path}", f"{path}.FULLPKGNAME={name}", f"{path}.COMMENT=x"]
    return "\n".join([*lines, *(f"{path}.{variable}={value}" for variable, value in values.items())]) + "\n"


B = port("a/b", "b-1")
B_LISTED = "a/b.FULLPKGNAME=b-1\n"
PY = port("d/py,python3", "py3-p-1", "d/py")
PY_LISTED = "d/py,python3.FULLPKGNAME=py3-p-1\n"
MULTI = "===> m/m\nm/m.BUILD_DEPENDS=a/b\nm/m,-main.FULLPKGNAME=m-1\nm/m,-docs.FULLPKGNAME=m-docs-1\nm/m,-docs.RUN_DEPENDS=m/m\n"
MULTI_LISTED = ("m/m,-main.FULLPKGNAME=m-1\nm/m,-main.BUILD_DEPENDS=a/b\n"
                "m/m,-docs.FULLPKGNAME=m-docs-1\nm/m,-docs.BUILD_DEPENDS=a/b\nm/m,-docs.RUN_DEPENDS=m/m,-main\n")

GOOD = [
    Case("a port, and what is skipped", "===> a\n" + B + "\na/b.HOMEPAGE=x=y\n===> c\n", B_LISTED),
    Case("rounds", B + port("c/c", "c-1", LIB_DEPENDS="a/b,x"), B_LISTED + "c/c.FULLPKGNAME=c-1\nc/c.LIB_DEPENDS=a/b,x\n"
         "a/b,x.FULLPKGNAME=b-1-x\na/b,x.RUN_DEPENDS=e/f,y\ne/f,y.FULLPKGNAME=f-1-y\ne/f,y.BUILD_DEPENDS=e/f\ne/f.FULLPKGNAME=f-1\n",
         {"a/b,x": port("a/b,x", "b-1-x", RUN_DEPENDS="e/f,y"), "e/f,y": port("e/f,y", "f-1-y", BUILD_DEPENDS="e/f"), "e/f": port("e/f", "f-1")},
         ("a/b,x", "e/f,y", "e/f"), says="round 3: make is asked for 1 more"),
    Case("flavors in another order", B + port("c/c", "c-1", LIB_DEPENDS="a/b,y,x a/b,x,y"), B_LISTED +
         "c/c.FULLPKGNAME=c-1\nc/c.LIB_DEPENDS=a/b,y,x a/b,x,y\na/b,x,y.FULLPKGNAME=b-1-x-y\n",
         {"a/b,x,y": port("a/b,y,x", "b-1-x-y", "a/b,y,x")}, ("a/b,x,y",)),
    Case("a default flavor", PY + port("c/c", "c-1", LIB_DEPENDS="d/py>=1:patch", RUN_DEPENDS="py3-p-*:d/py,python3"), PY_LISTED +
         "c/c.FULLPKGNAME=c-1\nc/c.LIB_DEPENDS=d/py,python3>=1:patch\nc/c.RUN_DEPENDS=py3-p-*:d/py,python3\n"),
    Case("a default flavor and its subpackage", "===> d/s\nd/s,f,-main.FULLPKGNAME=s-1-f\nd/s,f,-lib.FULLPKGNAME=s-lib-1-f\n" +
         port("c/c", "c-1", LIB_DEPENDS="d/s d/s,-lib d/s,f"), "d/s,f,-main.FULLPKGNAME=s-1-f\nd/s,f,-lib.FULLPKGNAME=s-lib-1-f\n"
         "c/c.FULLPKGNAME=c-1\nc/c.LIB_DEPENDS=d/s,f,-main d/s,f,-lib d/s,f,-main\n"),
    Case("no flavor in place of the default", PY + port("c/c", "c-1", LIB_DEPENDS="d/py,"), PY_LISTED +
         "c/c.FULLPKGNAME=c-1\nc/c.LIB_DEPENDS=d/py,\nd/py,.FULLPKGNAME=p-1\n", {"d/py,": port("d/py", "p-1", "d/py,")}, ("d/py,",)),
    Case("no flavor, as by default", B + port("c/c", "c-1", LIB_DEPENDS="a/b,"), B_LISTED + "c/c.FULLPKGNAME=c-1\nc/c.LIB_DEPENDS=a/b\n"),
    Case("a pseudo-flavor", B + MULTI + port("c/c", "c-1", LIB_DEPENDS="m/m,no_docs"), B_LISTED + MULTI_LISTED +
         "c/c.FULLPKGNAME=c-1\nc/c.LIB_DEPENDS=m/m,-main\n", {"m/m,no_docs": port("m/m,-main", "m-1", "m/m,no_docs")}, ("m/m,no_docs",)),
    Case("a pseudo-flavor next to a flavor", B + port("c/c", "c-1", LIB_DEPENDS="a/b,no_z,x"), B_LISTED +
         "c/c.FULLPKGNAME=c-1\nc/c.LIB_DEPENDS=a/b,x\na/b,x.FULLPKGNAME=b-1-x\n",
         {"a/b,no_z,x": port("a/b,x", "b-1-x", "a/b,no_z,x"), "a/b,x": port("a/b,x", "b-1-x")}, ("a/b,no_z,x", "a/b,x")),
    Case("a pseudo-flavor in place of the default flavor", PY + port("c/c", "c-1", LIB_DEPENDS="d/py,no_z"), PY_LISTED +
         "c/c.FULLPKGNAME=c-1\nc/c.LIB_DEPENDS=d/py,\nd/py,.FULLPKGNAME=p-1\n",
         {"d/py,no_z": port("d/py", "p-1", "d/py,no_z"), "d/py,": port("d/py", "p-1", "d/py,")}, ("d/py,no_z", "d/py,")),
    Case("subpackages", B + MULTI, B_LISTED + MULTI_LISTED),
    Case("a subpackage that is the same in each flavor", "===> d/s\nd/s,f.BUILD_DEPENDS=a/b\nd/s,f,-main.FULLPKGNAME=s-1-f\nd/s,-lib.FULLPKGNAME=s-lib-1\n" + B +
         port("c/c", "c-1", LIB_DEPENDS="d/s,g d/s,g,-lib d/s,-lib"), "d/s,f,-main.FULLPKGNAME=s-1-f\nd/s,f,-main.BUILD_DEPENDS=a/b\n"
         "d/s,-lib.FULLPKGNAME=s-lib-1\nd/s,-lib.BUILD_DEPENDS=a/b\n" + B_LISTED + "c/c.FULLPKGNAME=c-1\nc/c.LIB_DEPENDS=d/s,g,-main d/s,-lib d/s,-lib\n"
         "d/s,g,-main.FULLPKGNAME=s-1-g\n", {"d/s,g": "===> d/s,g\nd/s,g,-main.FULLPKGNAME=s-1-g\nd/s,-lib.FULLPKGNAME=s-lib-1\n"}, ("d/s,g",)),
    Case("a port that is printed twice", B + port("a/b", "b-2"), B_LISTED, says="1 paths were printed again with other values"),
    Case("a folder of ports among ports", "===> l/py\n===> l/py/3\n" + port("l/py/3", "py-3"), "l/py/3.FULLPKGNAME=py-3\n"),
    Case("some ports and all that they need", "", MULTI_LISTED + B_LISTED, {"a/b": B, "m/m": MULTI, "c/c": port("c/c", "c-1")}, ("m/m", "a/b"), (".", "--only", "m/m,-docs")),
    Case("without some", B + MULTI + port("g/x", "x-1") + port("g/y", "y-1", RUN_DEPENDS="g/x"), MULTI_LISTED, words=("--without", "less", ".")),
]
BAD = [
    Case("a wildcard in a stem", B + port("c/c", "c-1", LIB_DEPENDS="a/b", RUN_DEPENDS="b*-x-*:a/b"), B_LISTED +
         "c/c.FULLPKGNAME=c-1\nc/c.IGNORE=RUN_DEPENDS: b*-x-*:a/b has a wildcard in a stem\n", says="1 for a wildcard in a stem"),
    Case("a dependency of another form", B + port("c/c", "c-1", BUILD_DEPENDS="x:a/b:y:z"), B_LISTED +
         "c/c.FULLPKGNAME=c-1\nc/c.IGNORE=BUILD_DEPENDS: x:a/b:y:z has another form than [pkgspec:]pkgpath[bounds][:target]\n",
         says="1 for a dependency of another form"),
    Case("a malformed version", B + port("c/c", "c-1", BUILD_DEPENDS="b->=x:a/b"), B_LISTED +
         "c/c.FULLPKGNAME=c-1\nc/c.IGNORE=BUILD_DEPENDS: b->=x:a/b asks for a version that is none\n"),
    Case("513 dependencies", B + port("c/c", "c-1", BUILD_DEPENDS="a/b " * 513), B_LISTED +
         "c/c.FULLPKGNAME=c-1\nc/c.IGNORE=BUILD_DEPENDS has 513 dependencies, and 512 are the most\n"),
    Case("a malformed name", port("c/c|c", "no version") + B, "c/c|c.FULLPKGNAME=c_c-0\nc/c|c.IGNORE=its FULLPKGNAME, no version, is no package name\n" + B_LISTED,
         says="1 for no package name"),
    Case("no name", "===> c/c\nc/c.RUN_DEPENDS=a/b\n" + B, B_LISTED + "c/c.FULLPKGNAME=c-0\nc/c.IGNORE=it has no FULLPKGNAME\n"),
    Case("two values of one variable", port("c/c", "c-1", RUN_DEPENDS="a/b\nc/c.RUN_DEPENDS=x/y") + B,
         "c/c.FULLPKGNAME=c-1\nc/c.IGNORE=RUN_DEPENDS is set to two values\n" + B_LISTED, says="1 for two values of one variable"),
    Case("a message of make", port("c/c", "c-1") + "sh: foo: not found\n" + B, "c/c.FULLPKGNAME=c-1\nc/c.IGNORE=make prints: sh: foo: not found\n" + B_LISTED,
         says="1 for a message of make"),
    Case("a message of make, in spite of it", port("c/c", "c-1") + "sh: foo: not found\n" + B, "c/c.FULLPKGNAME=c-1\n" + B_LISTED,
         words=("--despite-messages", "."), says="0;"),
    Case("what is no path", port("c/c", "c-1") + "c/c/,x.RUN_DEPENDS=\n" + B, "c/c.FULLPKGNAME=c-1\n"
         "c/c.IGNORE=make prints what is no package path: c/c/,x.RUN_DEPENDS=\n" + B_LISTED, says="1 for no package path"),
    Case("a port that fails", "===> c/c\nFatal: bad (in c/c)\n===>  Exiting c/c with an error\n*** Error 1 in /usr/ports/c\n" + B + port("e/e", "e-1", LIB_DEPENDS="c/c"),
         B_LISTED + "e/e.FULLPKGNAME=e-1\ne/e.LIB_DEPENDS=c/c\nc/c.FULLPKGNAME=c-0\nc/c.IGNORE=make leaves it with an error: Fatal: bad (in c/c)\n",
         says="1 for a port that make fails at"),
    Case("a flavor that there isn't", B + port("c/c", "c-1", LIB_DEPENDS="a/b,q"), B_LISTED + "c/c.FULLPKGNAME=c-1\nc/c.LIB_DEPENDS=a/b,q\n"
         "a/b,q.FULLPKGNAME=b-0\na/b,q.IGNORE=make leaves it with an error: Fatal: Unknown flavor(s) q\n",
         {"a/b,q": "===> a/b,q\nFatal: Unknown flavor(s) q\n===> Exiting a/b,q with an error\n"}, ("a/b,q",)),
    Case("a port that there isn't", port("c/c", "c-1", LIB_DEPENDS="x/y"), "c/c.FULLPKGNAME=c-1\nc/c.LIB_DEPENDS=x/y\n"
         "x/y.FULLPKGNAME=y-0\nx/y.IGNORE=there is no such port\n", calls=("x/y",)),
    Case("a subpackage that there isn't", B + port("c/c", "c-1", LIB_DEPENDS="a/b,-q"), B_LISTED + "c/c.FULLPKGNAME=c-1\nc/c.LIB_DEPENDS=a/b,-q\n",
         says="1 ask for a path that is not there"),
    Case("what the tree ignores", port("c/c", "c-1", IGNORE="is broken", LIB_DEPENDS="x/y") + B, "c/c.FULLPKGNAME=c-1\nc/c.IGNORE=is broken\n" + B_LISTED,
         says="the tree ignores 1 of them, and make-listing 0;"),
    Case("a make that stops at the first error", B + port("c/c", "c-1", LIB_DEPENDS="a/b,p a/b,q"), B_LISTED +
         "c/c.FULLPKGNAME=c-1\nc/c.LIB_DEPENDS=a/b,p a/b,q\na/b,q.FULLPKGNAME=b-1-q\na/b,p.FULLPKGNAME=b-0\na/b,p.IGNORE=make leaves it with an error\n",
         {"a/b,p": "!===> a/b,p\n===> Exiting a/b,p with an error\n", "a/b,q": port("a/b,q", "b-1-q")}, ("a/b,p a/b,q", "a/b,q")),
    Case("a make that prints nothing", B + port("c/c", "c-1", LIB_DEPENDS="a/b,p"), B_LISTED +
         "c/c.FULLPKGNAME=c-1\nc/c.LIB_DEPENDS=a/b,p\na/b,p.FULLPKGNAME=b-0\na/b,p.IGNORE=make prints nothing of it\n", {"a/b,p": ""}, ("a/b,p",)),
]


def laid_awk(folder: str, words: List[str]) -> Dict[str, str]:
    """An environment in which awk is another one."""
    os.mkdir(f"{folder}/bin")
    with open(f"{folder}/bin/awk", "w", encoding="utf-8") as file:
        file.write(f"#!/bin/sh\nexec {shutil.which(words[0])} {' '.join(words[1:])} \"$@\"\n")
    os.chmod(f"{folder}/bin/awk", 0o755)
    return {"PATH": f"{folder}/bin:{os.environ['PATH']}"}


def skipped(tally, name: str) -> bool:
    """Whether the machine lacks a program: then what would be tried with it is skipped."""
    if not shutil.which(name):
        tally.skip(f"make-listing with {name}", f"there is no {name} here")
    return not shutil.which(name)


def cases(tally) -> None:
    """Each case, under each awk and under each shell."""
    with tempfile.TemporaryDirectory() as folder:
        for case in GOOD + BAD:
            if case.name == "without some":
                with open(f"{folder}/less", "w", encoding="utf-8") as file:
                    file.write("# what is left out\na/b   # itself\n\ng/\n")
                case.words = ("--without", f"{folder}/less", ".")
                case.wanted = MULTI_LISTED
            case.run(tally, [], {}, "")
    for name, words in AWKS.items():
        if not skipped(tally, words[0]):
            with tempfile.TemporaryDirectory() as folder:
                more = laid_awk(folder, words)
                for case in GOOD + BAD:
                    if case.name != "without some":
                        case.run(tally, [], more, f", with {name}")
    for shell in SHELLS:
        if not skipped(tally, shell):
            for case in GOOD[:4] + GOOD[-2:-1] + BAD[-2:]:
                case.run(tally, [str(shutil.which(shell))], {}, f", with {shell}")


def dumps(tally) -> None:
    """A dump is kept, and make isn't asked again for what it has; one that is cut in its last line is taken as it is."""
    with tempfile.TemporaryDirectory() as folder:
        ports = Ports(folder, B + port("c/c", "c-1", LIB_DEPENDS="a/b,x"), {"a/b,x": port("a/b,x", "b-1-x")})
        first, again = ports.listing("--dump", "dump", "."), ports.listing("--dump", "dump", ".")
        tally.add("make-listing --dump", "" if first[0] == again[0] and ports.calls() == ["", "a/b,x"] and first[2] == again[2] == 0 else f"{first} {again} {ports.calls()}")
        some = ports.listing("--dump", "dump", ".", "--only", "a/b,x")
        tally.add("make-listing --dump --only", "" if some[0] == "a/b,x.FULLPKGNAME=b-1-x\n" and len(ports.calls()) == 2 else f"{some}")
        with open(f"{folder}/cut", "w", encoding="utf-8") as file:
            file.write((B + port("c/c", "c-1", LIB_DEPENDS="a/b,x"))[:-1])
        cut = ports.listing("--dump", "cut", ".")
        tally.add("make-listing --dump of a dump without its last line end", "" if cut[0] == first[0] else f"{cut}")


def refused(tally) -> None:
    """Wrong words, folders and files; a make that can't run or prints nothing; a path that make doesn't know."""
    with tempfile.TemporaryDirectory() as folder:
        ports = Ports(folder, B)
        for words, status, says in (((), 2, "usage: "), (("--dump",), 2, "usage: "), ((".", "."), 2, "usage: "), (("-x", "."), 2, "usage: "), ((".", "--only"), 2, "usage: "),
                                    (("nothing",), 1, "there is no such folder"), (("--without", "nothing", "."), 1, "can't be read"),
                                    (("--dump", "nothing/dump", "."), 1, "can't be written"), ((".", "--only", "x/y"), 1, "nothing that can be used of x/y"),
                                    ((".", "--only", "x y"), 1, "a path with a blank")):
            out, said, got = ports.listing(*words)
            tally.add(f"make-listing {' '.join(words)}", "" if (out, got) == ("", status) and says in said else f"{out!r:.100} {said!r:.200}, status {got}")
        out, said, got = ports.listing(".", MAKE="/no/make")
        tally.add("make-listing without a make", "" if (out, got) == ("", 1) and "make printed no port" in said else f"{out!r:.100} {said!r:.200}, status {got}")
        left = [name for name in os.listdir(folder) if name not in ("whole", "answers", "calls")]
        tally.add("make-listing, what it leaves", f"{left}" if left else "")


def ended(tally) -> None:
    """A signal ends it and the make that runs, and leaves nothing."""
    for number in (signal.SIGTERM, signal.SIGINT, signal.SIGHUP):
        with tempfile.TemporaryDirectory() as folder:
            with open(f"{folder}/make", "w", encoding="utf-8") as file:
                file.write(f"#!/bin/sh\necho $$ > {folder}/pid\nexec sleep 1000\n")
            os.chmod(f"{folder}/make", 0o755)
            os.mkdir(f"{folder}/tmp")
            tool = subprocess.Popen([f"{TOP}/tools/make-listing", "--dump", "dump", "."], cwd=folder, env={**os.environ, "MAKE": f"{folder}/make", "TMPDIR": f"{folder}/tmp"},
                                    stdout=subprocess.PIPE, stderr=subprocess.PIPE, preexec_fn=lambda: [signal.signal(it, signal.SIG_DFL) for it in (1, 2, 15)])
            end = time.monotonic() + LIMIT
            while not (os.path.exists(f"{folder}/pid") and os.path.getsize(f"{folder}/pid")) and time.monotonic() < end:
                time.sleep(.02)
            tool.send_signal(number)
            said = tool.communicate(timeout=LIMIT)
            with open(f"{folder}/pid", encoding="utf-8") as file:
                process = int(file.read())
            runs, end = True, time.monotonic() + LIMIT
            while runs and time.monotonic() < end:
                try:
                    os.kill(process, 0)
                    time.sleep(.05)
                except ProcessLookupError:
                    runs = False
            left = os.listdir(f"{folder}/tmp"), os.path.getsize(f"{folder}/dump")
            right = tool.returncode == 128 + number and not runs and left == ([], 0)
            tally.add(f"make-listing, ended by {number.name}", "" if right else f"status {tool.returncode}, {said}, make runs: {runs}, left {left}")


def too_large(tally) -> None:
    """A tree of more paths than a listing has: nothing is written, and what could be left out is printed."""
    with tempfile.TemporaryDirectory() as folder:
        whole = "".join(port(f"{'games' if number % 3 else 'net'}/p{number}", "p-1", RUN_DEPENDS="devel/base") for number in range(16_384)) + port("devel/base", "base-1")
        ports = Ports(folder, whole)
        out, said, status = ports.listing("--dump", "dump", ".")
        wanted = ("16385 paths, and a listing has at most 16384", "no other path needs 16384: 10922 in games/, 5462 in net/")
        tally.add("make-listing of 16,385 paths", "" if (out, status) == ("", 1) and all(it in said for it in wanted) else f"{said!r:.300}, status {status}")
        with open(f"{folder}/less", "w", encoding="utf-8") as file:
            file.write("net/p0\n")
        out, said, status = ports.listing("--dump", "dump", "--without", "less", ".")
        tally.add("make-listing of them without one", "" if status == 0 and out.count(".FULLPKGNAME=") == 16_384 and len(ports.calls()) == 1 else f"{said!r:.300}, status {status}")


def real_make(tally) -> None:
    """A small tree of Makefiles by bmake(1): folders of ports, flavors, a default one and none, pseudo-flavors, subpackages, errors."""
    if not shutil.which("bmake"):
        tally.skip("make-listing on a tree of Makefiles", "there is no bmake here")
        return
    wanted = contents(f"{TESTS}/small-tree/listing").decode()
    for words in ((".",), (".", "--only", "net/needs")):
        done = subprocess.run([f"{TOP}/tools/make-listing", *words], cwd=f"{TESTS}/small-tree", stdin=subprocess.DEVNULL, capture_output=True, timeout=LIMIT,
                              env={**os.environ, "MAKE": "bmake"}, check=False)
        # where make is, and how it says that, are its own
        got = re.sub(r'error: .* "Fatal', 'error: MESSAGE "Fatal', done.stdout.decode())
        if "--only" in words:
            got = "".join(sorted(line for line in got.splitlines(True) if "IGNORE" not in line))
            wanted = "".join(sorted(line for line in wanted.splitlines(True)
                                    if "IGNORE" not in line and not line.startswith(("net/bad", "net/wild", "net/fails", "devel/gmake,nope", "devel/none"))))
        tally.add(f"make-listing {' '.join(words)} by bmake", text_difference(got.encode(), wanted.encode()) if got != wanted or done.returncode else "")


def needs_of(listing: str) -> Dict[str, Dict[str, set]]:
    """What the listing says that each path needs, by kind, and of an ignored one that it is."""
    found: Dict[str, Dict[str, set]] = {}
    for line in listing.splitlines():
        left, _, text = line.partition("=")
        path, _, variable = left.rpartition(".")
        if variable == "FULLPKGNAME":
            found.setdefault(path, {})
        elif variable == "IGNORE":
            found[path][variable] = set()
        else:
            found[path][variable] = {letters.read_need(word).path for word in text.split()}
    return found


def made(scale: float, folder: str) -> Tuple[Tree, Ports]:
    tree = Tree(scale)
    return tree, Ports(folder, tree.whole(), tree.answers())


def same_needs(got: Dict[str, Dict[str, set]], tree: Tree) -> str:
    """How what a listing says differs from what the made tree says, if it does. What needs a port that make fails at needs what is
    for it."""
    wanted, broken = tree.listed(), {place for place, port in tree.ports.items() if port.fault == "break"}
    if set(got) != set(wanted):
        return f"{len(got)} paths, not {len(wanted)}: {sorted(set(got) ^ set(wanted))[:5]}"

    def cut(needs):
        return {kind: {path for path in its if path.split(",")[0] not in broken} for kind, its in needs.items()}

    for path in wanted:
        if {kind: its for kind, its in cut(got[path]).items() if its or kind == "IGNORE"} != {kind: its for kind, its in cut(wanted[path]).items() if its or kind == "IGNORE"}:
            return f"{path} needs {got[path]}, not {wanted[path]}"
    return ""


def whole_tree(tally, scale: float = SCALE, most_seconds: float = LIMIT) -> None:
    """A made tree: its paths and what they need, and its letters next to the second program's."""
    with tempfile.TemporaryDirectory() as folder:
        tree, ports = made(scale, folder)
        began = time.monotonic()
        out, said, status = ports.listing(".")
        took = time.monotonic() - began
        name = f"make-listing of a made tree of {len(tree.ports)} ports"
        tally.add(name, f"status {status}, {said!r:.300}" if status else same_needs(needs_of(out), tree))
        tally.add(f"{name}, its rounds", "" if "round 4: make is asked for 1 more" in said else f"{said!r:.300}")
        tally.add(f"{name}, how long it takes", "" if took < most_seconds else f"{took:.0f} s", timed=True)
        with open(f"{folder}/listing", "w", encoding="latin-1") as file:
            file.write(out)
        with_letters(tally, name, folder, out)


def with_letters(tally, name: str, folder: str, listing: str) -> None:
    """The letters of a listing, next to the second program's."""
    wanted = letters.printed(listing)
    tally.add(f"{name}, its letters by the second program", "" if re.search(r"Q=[1-9]\d* T=[1-9]\d* !=[1-9]", wanted.splitlines()[-1]) else wanted.splitlines()[-1])
    if not os.path.exists(PROGRAM):
        tally.add(f"{name}, its letters", "not built: `tools/prove dpbr`")
        return
    got = answer(["status", "listing", "/dev/null"], folder)
    problem = f"status {got[2]}, {got[1]!r:.200}" if got[2] else ""
    tally.add(f"{name}, its letters", problem or ("" if got[0] == wanted.encode() else text_difference(got[0], wanted.encode())))


def run_without_programs(tally) -> None:
    cases(tally)
    dumps(tally)
    refused(tally)
    ended(tally)
    too_large(tally)
    real_make(tally)


def run(tally) -> None:
    tally.case(whole_tree)
