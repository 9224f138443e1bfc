"""What a build under tools/build-jobs may say of itself, and what is compared with that: names, and what was installed. And
examples/build-port with stand-ins for the tools of a ports tree (tests/ports)."""
import contextlib
import io
import os
import re
import tarfile

from topics import packages
from topics.played import MAKE, Driver, add, laid, node_alone, read, until
from topics.tally import TESTS, TOP, contents


def listing(node, names):
    path = f"{node.folder}/listing"
    with open(path, "w", encoding="ascii") as file:
        file.write("".join(f"{it}.FULLPKGNAME={name}\n" for it, name in names.items()))
    return path


def names(tally):
    """A build gets the listed names of its packages, and its place; what it hands in under another name fails."""
    script = 'cat "$NAMES" > "$TOP/names"; cat "$TOP/claims" > "$OUT/NAMES"; ' + MAKE
    with node_alone() as node:
        path = listing(node, {"devel/gmake": "gmake-4.4.1", "a/b,z,-x": "b-x-1", "a/b,-main": "b-1", "a/b,-docs": "b-docs-1"})
        driver = Driver(node, script, "--listing", path)
        for claims, why in (("", ""), ("devel/gmake gmake-4.4.1\n", ""), ("devel/gmake gmake-4.4.2\n", "devel/gmake is gmake-4.4.2, and gmake-4.4.1 is listed"),
                            ("devel/gmake\n", "OUT/NAMES: line 1 of NAMES isn't `PATH NAME`"), ("x/y y-1\n", "")):
            with open(f"{node.folder}/claims", "w", encoding="ascii") as file:
                file.write(claims)
            name = node.post("devel/gmake")
            told = until(lambda: any(os.path.exists(f"{node.work}/{part}/{name}") for part in ("done", "failed")))
            marked = read(f"{node.work}/failed/{name}").split("\n")[0] if os.path.exists(f"{node.work}/failed/{name}") else ""
            add(tally, f"a build that says {claims!r} of its names", told and marked == (f"devel/gmake: {why}" if why else ""), marked, driver.lines())
            os.unlink(f"{node.work}/jobs/{name}")
            until(lambda: not os.listdir(f"{node.work}/build"))
            for part in ("done", "failed"):
                with contextlib.suppress(FileNotFoundError):
                    os.unlink(f"{node.work}/{part}/{name}")
        add(tally, "the listed names", read(f"{node.folder}/names") == "devel/gmake gmake-4.4.1\n", read(f"{node.folder}/names"))
        node.post("x/y")
        add(tally, "a listing of another run", driver.tells(re.escape(f"? x/y waits: {path} doesn't list x/y, so it isn't the listing of the node")), driver.lines())
        driver.end()


def places(tally):
    """Builds that run at a time have places from 0 on, and a place is given again."""
    # the first ones wait until there are three
    script = ('mkdir "$TOP/place.$SLOT" || exit 1; until [ -e "$TOP/three" ]; do set -- "$TOP"/place.*; [ $# -lt 3 ] || echo > "$TOP/three"; sleep 0.05; done; '
              'rmdir "$TOP/place.$SLOT" || exit 1; echo $SLOT >> "$TOP/places"; ' + MAKE)
    with laid(script, "-j", "3") as (node, driver):
        made = [node.post(f"a/p{number}") for number in range(9)]
        right = all([bool(node.take(name)) for name in made]) and set(read(f"{node.folder}/places").split()) == {"0", "1", "2"}
        add(tally, "places", right, read(f"{node.folder}/places"), driver.lines())


def seen(tally):
    """What a build saw installed is compared with DEPS: one package more, one of other bytes, one less, each fails with its name."""
    text = b"bytes of a"
    digest = packages.digest(text)
    cases = (("nothing", None, None, ""), ("only DEPS", "a-1\nb-1\n", f"b-1\na-1 {digest}\n", ""),
             ("one more before", "a-1\nb-1\nc-1\n", "a-1\nb-1\n", "c-1 was installed before the build, and isn't in DEPS"),
             ("one more after", "a-1\nb-1\n", "a-1\nb-1\nc-1\n", "c-1 was installed after the build, and isn't in DEPS"),
             ("other bytes", f"a-1 {'0' * 64}\nb-1\n", None, "a-1 was installed before the build with other bytes than in DEPS"),
             ("one less", "a-1\n", None, "b-1 is in DEPS, and wasn't installed before the build"),
             ("no names", "a-1\nb-1 x\n", None, "OUT/SEEN-BEFORE: line 2 isn't `NAME` or `NAME SHA256`"))
    script = 'for f in SEEN-BEFORE SEEN-AFTER; do [ ! -e "$TOP/$f" ] || cp "$TOP/$f" "$OUT/$f"; done; ' + MAKE
    with laid(script, "--failures", "0") as (node, driver):
        node.hold("x/a", {"x/a": [("a-1.tgz", text)]}, names={"x/a": "a-1"})
        node.hold("x/b", {"x/b": [("b-1.tgz", b"b")]}, names={"x/b": "b-1"})
        for number, (what, before, after, why) in enumerate(cases):
            for name, lines in (("SEEN-BEFORE", before), ("SEEN-AFTER", after)):
                if lines is not None:
                    with open(f"{node.folder}/{name}", "w", encoding="ascii") as file:
                        file.write(lines)
                elif os.path.exists(f"{node.folder}/{name}"):
                    os.unlink(f"{node.folder}/{name}")
            name = node.post(f"c/d{number}", built=["x/a", "x/b"])
            until(lambda: any(os.path.exists(f"{node.work}/{part}/{name}") for part in ("done", "failed")))
            marked = read(f"{node.work}/failed/{name}").split("\n")[0] if os.path.exists(f"{node.work}/failed/{name}") else ""
            add(tally, f"what a build saw: {what}", marked == (f"c/d{number}: {why}" if why else ""), marked, driver.lines())
            until(lambda: not os.listdir(f"{node.work}/build"))


# ---- the example

class Ports:
    """A ports tree for the substitutes, in the root of each place."""

    def __init__(self, node, places=1):
        self.node, self.roots = node, [f"{node.folder}/roots/{place}" for place in range(places)]
        for root in self.roots:
            os.makedirs(f"{root}/usr/ports")
            os.mkdir(f"{root}/installed")

    def add(self, path, made, needs=(), text="new", **files):
        for root in self.roots:
            folder = f"{root}/usr/ports/{path}"
            os.makedirs(folder, exist_ok=True)
            files.update(packages="".join(f"{it} {name}\n" for it, name in made.items()), needs=" ".join(needs), text=text)
            for name, lines in files.items():
                with open(f"{folder}/{name}", "w", encoding="ascii") as file:
                    file.write(lines)

    def installed(self, name, text, place=0):
        with open(f"{self.roots[place]}/installed/{name}", "w", encoding="ascii") as file:
            file.write(text)


def packed(path, name, text):
    """A package as the substitute for make packs one."""
    out = io.BytesIO()
    with tarfile.open(fileobj=out, mode="w:gz") as archive:
        for file, data in (("+CONTENTS", f"@name {name}\n@comment pkgpath={path} ftp=yes\n".encode()), ("built", text)):
            head = tarfile.TarInfo(file)
            head.size = len(data)
            archive.addfile(head, io.BytesIO(data))
    return out.getvalue()


def built(files):
    """What the work tree of a package had."""
    name = next(it for it in files if it.endswith(".tgz"))
    with tarfile.open(fileobj=io.BytesIO(files[name])) as archive:
        return archive.extractfile("built").read().decode()


def example_driver(node, path, *words):
    env = {"ROOTS": f"{node.folder}/roots", "PATH": f"{TESTS}/ports:{os.environ['PATH']}"}
    return Driver(node, 'exec "$0"', "--listing", path, *words, more=(f"{TOP}/examples/build-port",), env=env)


def example(tally):
    """The example builds ports one on the other, on exactly what is in DEPS, whatever an earlier build left."""
    with node_alone() as node:
        ports = Ports(node)
        ports.add("devel/a", {"devel/a,-main": "a-1", "devel/a,-docs": "a-docs-1"})
        ports.add("devel/b", {"devel/b": "b-1"}, ["a-1"])
        ports.installed("old-1", "last week's")
        ports.installed("a-1", "last week's")
        os.makedirs(f"{ports.roots[0]}/job/packages/amd64/all")
        os.makedirs(f"{ports.roots[0]}/job/work/b")
        for name, text in (("job/packages/amd64/all/a-1.tgz", "old"), ("job/work/b/built", "old")):
            with open(f"{ports.roots[0]}/{name}", "w", encoding="ascii") as file:
                file.write(text)
        path = listing(node, {"devel/a,-main": "a-1", "devel/a,-docs": "a-docs-1", "devel/b": "b-1"})
        driver = example_driver(node, path)
        name = node.post("devel/a", ("devel/a,-docs", "devel/a,-main"))
        if not until(lambda: os.path.exists(f"{node.work}/done/{name}")):
            add(tally, "the example", False, driver.lines(), [read(f"{node.work}/logs/{part}") for part in ("failed/devel:a.log", "devel:a.log") if os.path.exists(f"{node.work}/logs/{part}")])
            driver.end()
            return
        files = {it: dict(its) for it, its in node.files(name).items()}
        node.hold("devel/a", {it: sorted(its.items()) for it, its in files.items()}, names={"devel/a,-main": "a-1", "devel/a,-docs": "a-docs-1"})
        texts = built(files["devel/a,-main"]), built(files["devel/a,-docs"])
        add(tally, "the example, a package of an earlier bulk", texts == ("new", "new"), texts)
        name = node.post("devel/b", built=["devel/a,-main"])
        made = node.take(name)
        add(tally, "the example, a work tree of an earlier try", bool(made) and built(made["devel/b"]) == "new", made, driver.lines())
        add(tally, "the example, what is installed", os.listdir(f"{ports.roots[0]}/installed") == ["a-1"], os.listdir(f"{ports.roots[0]}/installed"))
        driver.end()


def example_failures(tally):
    """Each way in which a record could be false fails with its reason."""
    with node_alone() as node:
        ports = Ports(node)
        ports.add("devel/needs", {"devel/needs": "needs-1"}, ["a-1"])
        ports.add("devel/other", {"devel/other": "other-2"})
        ports.add("devel/installs", {"devel/installs": "installs-1"}, installs="c-1")
        ports.add("devel/x", {"devel/x": "x-1"})
        path = listing(node, {"devel/needs": "needs-1", "devel/other": "other-1", "devel/installs": "installs-1", "devel/x": "x-1", "devel/y": "y-1"})
        driver = example_driver(node, path, "--failures", "0")

        def fails(what, unit, why, last=""):
            marked = node.failed(node.post(unit)) or ""
            log = read(f"{node.work}/logs/failed/{unit.replace('/', ':')}.log") if marked else ""
            add(tally, f"the example, {what}", marked.startswith(f"{unit}: {why}\n") and last in log, marked, log[-300:], driver.lines())

        fails("a dependency that make would build itself", "devel/needs", "status 1", "devel/needs needs a-1, which is not installed")
        fails("a package of another version", "devel/other", "devel/other is other-2, and other-1 is listed")
        fails("a build that installs something", "devel/installs", "c-1 was installed after the build, and isn't in DEPS")
        with open(f"{ports.roots[0]}/more", "w", encoding="ascii") as file:
            file.write("more-1")
        node.hold("x/a", {"x/a": [("a-1.tgz", packed("x/a", "a-1", b"x"))]}, names={"x/a": "a-1"})
        marked = node.failed(node.post("devel/x", built=["x/a"])) or ""
        add(tally, "the example, one package more", marked.startswith("devel/x: more-1 was installed before the build, and isn't in DEPS\n"), marked, driver.lines())
        ports.installed("stays-1", "it sticks")
        node.post("devel/y")
        told = driver.tells("~ devel/y is given back: status 75; .*")
        log = read(f"{node.work}/logs/devel:y.log")
        add(tally, "the example, a package that can't be removed", told and "these packages can't be removed: stays-1" in log, log, driver.lines())
        driver.end()


def example_in_one_root(tally):
    """Two builds at a time have a root each; a root that somebody else uses stays as it is."""
    with node_alone() as node:
        ports = Ports(node, 2)
        for word in ("p", "q", "r"):
            ports.add(f"devel/{word}", {f"devel/{word}": f"{word}-1"})
        path = listing(node, {f"devel/{word}": f"{word}-1" for word in ("p", "q", "r")})
        os.symlink(str(os.getpid()), f"{ports.roots[1]}/in-use")
        driver = example_driver(node, path, "-j", "2")
        posted = [node.post(f"devel/{word}") for word in ("p", "q", "r")]
        told = driver.tells("~ devel/[pqr] is given back: status 75; .*")
        made = until(lambda: len(os.listdir(f"{node.work}/done")) >= 1)
        logs = "".join(read(f"{node.work}/logs/{name}") for name in os.listdir(f"{node.work}/logs") if name.endswith(".log"))
        add(tally, "the example, two in one root", told and made and f"{ports.roots[1]} is in use by process {os.getpid()}" in logs and len(posted) == 3, driver.lines())
        driver.end()


def page(tally):
    """build-jobs(1) shows the example as it is, and its words have no trap."""
    text = contents(f"{TOP}/man/build-jobs.1").decode()
    script = contents(f"{TOP}/examples/build-port").decode().replace("\\", "\\e")
    add(tally, "the page's COMMAND", script in text, script[:100])
    for name in ("build-jobs.1", "dpbn.1"):
        shown = contents(f"{TOP}/man/{name}").decode()
        right = "--digests 1000000" not in shown and ("ConnectTimeout" in shown or "scp" not in shown)
        add(tally, f"the words in {name}", right, re.findall(".*(?:digests|scp).*", shown))


def run(tally):
    for one in (names, places, seen, example, example_failures, example_in_one_root, page):
        tally.case(one)
