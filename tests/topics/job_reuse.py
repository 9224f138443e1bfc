"""Bulks after the first: tools/build-jobs with --reuse hands in what was built on the same bytes before, and builds the rest."""
import os
import re
import shutil
import subprocess
import time

from topics import packages
from topics.played import LIMIT, Driver, Node, add, node_alone, read, until
from topics.tally import TESTS

# a tree of ports: what each needs
TREE = {"a/base": [], "a/lib": ["a/base"], "a/tool": ["a/base"], "b/app": ["a/lib", "a/tool"], "b/doc": [], "c/top": ["b/app", "b/doc"]}
# a package has what went into it: the port's own text, and the files of what it was built on
SCRIPT = ('for p in $PACKAGES; do d="$OUT/$(echo $p | tr / :)"; mkdir "$d"; { cat "$TOP/../tree/$(echo $p | tr / :)"; '
          'for f in "$DEPS"/*/content; do [ ! -e "$f" ] || cat "$f"; done; head -c 3000 /dev/zero; } > "$d/content"; done')
INPUTS = 'cat "$TOP/../tree/$(echo $PKGPATH | tr / :)"'


class Bulk:
    """A node that posts a tree's jobs one after the other, and a driver that keeps what it builds."""

    def __init__(self, top, number, names=None, words=()):
        self.folder = f"{top}/{number}"
        os.mkdir(self.folder)
        self.names = names or {path: f"{path.split('/')[1]}-1" for path in TREE}
        with open(f"{self.folder}/listing", "w", encoding="ascii") as file:
            file.write("".join(f"{path}.FULLPKGNAME={name}\n" for path, name in self.names.items()))
        # another host and another claim in each bulk, so that no record is the same
        self.node = Node(self.folder, number)
        self.node.open()
        self.driver = Driver(self.node, SCRIPT, "--listing", f"{self.folder}/listing", "--reuse", f"{top}/kept", "--inputs", INPUTS, *words)
        self.made = {}

    def run(self):
        for path in TREE:
            self.post(path)
        self.driver.end()
        return sorted(re.match("> ([^,]*), on", line)[1] for line in self.driver.lines() if line.startswith("> "))

    def post(self, path):
        name = self.node.post(path, built=sorted(TREE[path]))
        until(lambda: os.path.exists(f"{self.node.work}/done/{name}"))
        _, _, built, run = self.node.posted[name]
        self.made[path] = {it: dict(its) for it, its in self.node.files(name).items()}
        self.node.hold(path, {it: sorted(its.items()) for it, its in self.made[path].items()}, built, run, names=self.names)


def write_tree(top, **texts):
    os.makedirs(f"{top}/tree", exist_ok=True)
    for path in TREE:
        name = path.replace("/", ":")
        with open(f"{top}/tree/{name}", "w", encoding="ascii") as file:
            file.write(texts.get(path.split("/")[1], f"{path}\n"))


def bulks(tally):
    """A second bulk builds nothing; one in which a port changed builds that and what is built on it; and what is handed in is the same."""
    with node_alone() as place:
        top = place.folder
        write_tree(top)
        first = Bulk(top, 1)
        begun = first.run()
        add(tally, "a first bulk", begun == sorted(TREE), begun, first.driver.lines())
        began = time.monotonic()
        second = Bulk(top, 2)
        begun = second.run()
        took = time.monotonic() - began
        add(tally, "a second bulk of the same tree", begun == [] and second.made == first.made, begun, took, second.driver.lines())
        told = second.driver.lines()[-1]
        add(tally, "the same, its last line", told == "0 built, 0 failed, 0 dropped, 6 taken from earlier runs", told)
        write_tree(top, lib="changed\n")
        third = Bulk(top, 3, words=("--digests", "100"))
        begun = third.run()
        add(tally, "a bulk with a port changed", begun == ["a/lib", "b/app", "c/top"], begun, third.driver.lines())
        # the same files, though those of the third went by their digests, and the first's didn't
        stored = os.listdir(f"{third.node.work}/store")
        add(tally, "the same, files by their digests", len(stored) == 6 and "content.sha256" in third.made["a/base"]["a/base"], stored)
        log = read(f"{second.node.work}/logs/a:lib.log").splitlines()[-1]
        add(tally, "a log of what isn't built", re.fullmatch(r"## not built: from .*/kept/[0-9a-f]{64}, which was built on packages with the same bytes", log), log)
        names = {path: f"{path.split('/')[1]}-1" for path in TREE}
        fourth = Bulk(top, 4, {**names, "b/doc": "doc-2"})
        begun = fourth.run()
        add(tally, "a bulk with a name changed", begun == ["b/doc", "c/top"], begun, fourth.driver.lines())


def same_names(tally):
    """A dependency of the same name and other bytes doesn't hit, unless names are asked for."""
    with node_alone() as place:
        top = place.folder
        write_tree(top)
        Bulk(top, 1).run()
        for number, words, wanted in ((2, (), ["a/lib"]), (3, ("--reuse-by-name",), ["a/lib"]), (4, ("--reuse-by-name",), [])):
            bulk = Bulk(top, number, words=words)
            # the dependency was built elsewhere, with a date in it
            bulk.node.hold("a/base", {"a/base": [("content", b"other bytes %d" % number)]}, names=bulk.names)
            bulk.post("a/lib")
            bulk.driver.end()
            begun = [line.split(",")[0][2:] for line in bulk.driver.lines() if line.startswith("> ")]
            log = read(f"{bulk.node.work}/logs/a:lib.log")
            told = ("of the same names" in log) == (wanted == [])
            add(tally, f"a dependency of the same name and other bytes {' '.join(words)}, {number}", begun == wanted and told, begun, bulk.driver.lines())


def spoiled(tally):
    """A kept file that has other bytes by now isn't handed in; nor is a unit whose inputs can't be printed."""
    with node_alone() as place:
        top = place.folder
        write_tree(top)
        Bulk(top, 1).run()
        for where, _, files in os.walk(f"{top}/kept"):
            for name in files:
                if name == "content" and where.endswith("a:base"):
                    os.chmod(f"{where}/{name}", 0o644)
                    with open(f"{where}/{name}", "ab") as file:
                        file.write(b"x")
        bulk = Bulk(top, 2)
        bulk.post("a/base")
        begun = bulk.driver.begun()
        add(tally, "a kept file that was changed", begun == 1 and bulk.driver.tells("[?] a/base isn't looked for among earlier builds: .* has other bytes than were kept there"),
            bulk.driver.lines())
        os.unlink(f"{top}/tree/b:doc")
        name = bulk.node.post("b/doc")
        told = bulk.driver.tells("[?] b/doc isn't looked for among earlier builds: --inputs ended with exit 1")
        add(tally, "a unit whose inputs can't be printed", told and bulk.driver.tells("> b/doc, .*"), bulk.driver.lines(), name)
        bulk.driver.end()


class Makefiles(Bulk):
    """The same for a tree of Makefiles, by bmake(1)."""

    def __init__(self, top, number, order, listed):
        self.order, self.listed = order, listed
        super().__init__(top, number, listed["names"])
        self.driver.end()
        words = ["--listing", f"{self.folder}/listing", "--reuse", f"{top}/kept", "--inputs", f'cat "{top}/tree/${{PKGPATH%%,*}}/Makefile"']
        self.driver = Driver(self.node, f'exec bmake -f "{top}/tree/${{PKGPATH%%,*}}/Makefile" package', *words)

    def run(self):
        for port in self.order:
            self.post(port)
        self.driver.end()
        return sorted(re.match("> ([^,]*), on", line)[1] for line in self.driver.lines() if line.startswith("> "))

    def post(self, port):
        paths = sorted(path for path in self.names if path.partition(",")[0] == port)
        run = sorted({it for path in paths for it in self.listed["run"].get(path, ())})
        unit = port if len(paths) > 1 else paths[0]
        name = self.node.post(unit, paths, sorted(self.listed["needs"][port]), run)
        until(lambda: os.path.exists(f"{self.node.work}/done/{name}"))
        self.node.hold(unit, self.node.files(name), self.node.posted[name][2], run, names=self.names)


def tree_of_makefiles(top):
    """Makes the tree. Returns its ports in an order in which they can be built, and what its listing says."""
    subprocess.run([f"{TESTS}/live/make-tree", f"{top}/tree", "--ports", "14", "--seed", "8", "--least", "0", "--most", "0"], check=True, timeout=LIMIT)
    order = read(f"{top}/tree/order").split()
    names, run, needs = {}, {}, {}
    for port in order:
        found = re.search("NEEDS = (.*)", read(f"{top}/tree/{port}/Makefile"))
        needs[port] = found[1].split() if found else []
        dump = subprocess.run(["bmake", "dump-vars"], cwd=f"{top}/tree/{port}", capture_output=True, text=True, check=True, timeout=LIMIT).stdout
        for path, variable, value in re.findall(r"^(\S+)\.([A-Z_]+)=(.*)$", dump, re.MULTILINE):
            if variable == "FULLPKGNAME":
                names[path] = value
            elif variable in ("LIB_DEPENDS", "RUN_DEPENDS"):
                run.setdefault(path, set()).update(value.split())
    return order, {"names": names, "run": run, "needs": needs}


def standing_on(port, order, listed):
    """The ports that see a package of this one when they are built, and those that see theirs."""
    changed = {port}
    for other in order[order.index(port) + 1:]:
        seen, left = set(), list(listed["needs"][other])
        while left:
            path = left.pop()
            if path not in seen:
                seen.add(path)
                siblings = [it for it in listed["run"] if it.partition(",")[0] == path.partition(",")[0]]
                left += [it for sibling in siblings for it in listed["run"][sibling]]
        if any(path.partition(",")[0] in changed for path in seen):
            changed.add(other)
    return sorted(changed)


def makefiles(tally):
    """A second bulk of a tree of Makefiles, with one port changed, builds that port and what is built on it, and nothing else."""
    if not shutil.which("bmake"):
        tally.skip("build-jobs, a second bulk of a tree of Makefiles", "there is no bmake here")
        return
    with node_alone() as place:
        top = place.folder
        order, listed = tree_of_makefiles(top)
        begun = Makefiles(top, 1, order, listed).run()
        add(tally, "a first bulk of Makefiles", [it.partition(",")[0] for it in begun] == sorted(order), begun)
        # a port on which some are built, and not all
        port = next(it for it in order[1:] if 2 <= len(standing_on(it, order, listed)) <= 9)
        with open(f"{top}/tree/{port}/Makefile", "a", encoding="ascii") as file:
            file.write("# changed\n")
        bulk = Makefiles(top, 2, order, listed)
        begun = [it.partition(",")[0] for it in bulk.run()]
        wanted = standing_on(port, order, listed)
        add(tally, f"a second bulk of Makefiles, {port} changed", begun == wanted, begun, wanted, bulk.driver.lines()[-4:])


def wrong_words(tally):
    """Words that need each other."""
    with node_alone() as node:
        for words in (["--reuse", "x"], ["--inputs", "x"], ["--reuse", "x", "--inputs", "y"], ["--reuse-by-name"], ["--copies", "2"],
                      ["--copies", "2", "--push", "x"], ["--grace", "x"], ["--silent", "0"], ["--limit", "-1"]):
            out, said, status = packages.tool("build-jobs", *words, node.work, node.log, "--", "true")
            add(tally, f"the words {' '.join(words)}", (out, status) == (b"", 2) and said.startswith(b"usage: "), said, status)


def run(tally):
    for one in (bulks, makefiles, same_names, spoiled, wrong_words):
        tally.case(one)
