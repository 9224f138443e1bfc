"""A made ports tree of the size and shape of OpenBSD's: what `make dump-vars` prints of it, and what it answers for
flavors that are asked for. Also what a listing of it has to say, and how long its builds take. The same in every run."""
import bisect
import random
from typing import Dict, List, NamedTuple, Set, Tuple

# how many ports a category has
CATEGORIES = {"archivers": 150, "audio": 350, "databases": 300, "devel": 2200, "editors": 120, "games": 500, "geo": 80, "graphics": 450,
              "lang": 200, "mail": 250, "math": 200, "misc": 250, "multimedia": 150, "net": 800, "print": 150, "productivity": 100,
              "security": 350, "sysutils": 450, "telephony": 50, "textproc": 700, "www": 700, "x11": 900}
# the ports that take longest: hours, and what they are built on
GIANTS: Dict[str, Tuple[float, List[str]]] = {
    "devel/llvm/18": (1.5, []), "devel/llvm/19": (1.5, []), "lang/gcc": (2, []), "lang/rust": (2, ["devel/llvm/19"]),
    "lang/node": (1.2, []), "www/chromium": (8, ["lang/rust", "devel/llvm/19", "lang/node"]),
    "www/ungoogled-chromium": (8, ["lang/rust", "devel/llvm/19", "lang/node"]), "www/mozilla-firefox": (2, ["lang/rust", "lang/node"]),
    "www/webkitgtk4": (3, ["devel/llvm/18"]), "editors/libreoffice": (4, ["x11/qt6/qtbase"]), "x11/qt6/qtbase": (.6, ["lang/gcc"]),
    "x11/qt6/qtwebengine": (7, ["x11/qt6/qtbase", "lang/node"]), "x11/qt5/qtwebengine": (7, ["x11/qt6/qtbase"]),
    "mail/mozilla-thunderbird": (2, ["lang/rust", "lang/node"])}
# ports of which each is needed in a flavor only by the flavor of the one before it: each is found a round later
DEEP = [f"devel/deep{number}" for number in range(5)]
# what is wrong with a port, and the words by which make-listing counts it
FAULTS = {"wildcard": "a wildcard in a stem", "form": "a dependency of another form", "name": "no package name",
          "twice": "two values of one variable", "message": "a message of make", "break": "a port that make fails at",
          "ignored": "", "missing": ""}
LETTERS = "abcdefghijklmnopqrstuvwxyz"


class Need(NamedTuple):
    """A dependency: as it is written, and the path that it means."""

    word: str
    path: str


class Port:
    """A port: the flavors that it is built in, its subpackages, and what each flavor needs."""

    def __init__(self, place: str, number: int) -> None:
        self.place, self.stem, self.version = place, place.split("/", 1)[1].replace("/", "-").replace(".", ""), f"{number % 9}.{number % 31}"
        self.default, self.flavor, self.pseudo, self.fault = "", "", "", ""
        self.parts: List[str] = [""]
        # by flavor and kind
        self.needs: Dict[str, Dict[str, List[Need]]] = {}

    def family(self, flavor: str) -> str:
        return f"{self.place},{flavor}" if flavor else self.place

    def paths(self, flavor: str) -> List[str]:
        return [self.family(flavor) + (f",{part}" if part else "") for part in self.parts]

    def first(self, flavor: str) -> str:
        """The path that replaces the port if no subpackage is named."""
        return self.paths(flavor)[0]

    def name(self, flavor: str, part: str) -> str:
        stem = f"py3-{self.stem}" if flavor == "python3" else self.stem
        tail = "" if flavor in ("", "python3") else f"-{flavor}"
        return f"{stem}{'' if part in ('', '-main') else part}-{self.version}{tail}"

    def block(self, asked: str, flavor: str) -> str:
        """What make prints of the port in a flavor, after the line that names what was asked for."""
        family, lines = self.family(flavor), [f"===> {asked}"]
        shared = len(self.parts) > 1
        parts = [part for part in self.parts if part != "-docs" or asked != f"{self.place},{self.pseudo}"]
        for kind, needs in self.needs[flavor].items():
            if shared and kind == "BUILD_DEPENDS" and needs:
                lines.append(f"{family}.{kind}={' '.join(need.word for need in needs)}")
        lines += [f"{family}.HOMEPAGE=https://{self.stem}.example/?q=1", f"{family}.DISTFILES={self.stem}-{self.version}.tar.gz" * 2]
        for part in parts:
            path = family + (f",{part}" if part else "")
            lines.append(f"{path}.FULLPKGNAME={self.name(flavor, part)}")
            lines.append(f"{path}.COMMENT={'a port of a tree that nobody has, '* 6}{self.stem}")
            for kind, needs in self.needs[flavor].items():
                if needs and not (shared and kind == "BUILD_DEPENDS"):
                    lines.append(f"{path}.{kind}={' '.join(need.word for need in needs)}")
        return "\n".join(self.spoiled(lines, family)) + "\n"

    def spoiled(self, lines: List[str], family: str) -> List[str]:
        """The lines with what is wrong in them."""
        own = family + (f",{self.parts[0]}" if self.parts[0] else "")
        more = {"": [], "wildcard": [f"{own}.RUN_DEPENDS=wild*-thing-*:devel/none"], "form": [f"{own}.RUN_DEPENDS=a:devel/b:c:d"],
                "twice": [f"{own}.RUN_DEPENDS=lang/gcc", f"{own}.RUN_DEPENDS=lang/node"], "ignored": [f"{own}.IGNORE=is marked as broken"],
                "missing": [f"{own}.TEST_DEPENDS=x", f"{own}.RUN_DEPENDS=devel/that-is-not-there"],
                "message": [f"make: {self.place}: no such thing"], "break": [f"===> Exiting {self.place} with an error"]}
        if self.fault == "name":
            return [line.split("=")[0] + "=has no version" if ".FULLPKGNAME=" in line else line for line in lines]
        if self.fault == "break":
            return [lines[0], "Fatal: can't work", *more["break"]]
        kept = [line for line in lines if self.fault not in ("wildcard", "form", "missing", "twice") or not line.startswith(f"{own}.RUN_DEPENDS=")]
        return kept + more[self.fault]


class Tree:
    """The whole tree. `scale` is its size as a share of OpenBSD's."""

    def __init__(self, scale: float = 1, seed: int = 1, faults: int = 8) -> None:
        self.dice = random.Random(seed)
        self.ports = {place: Port(place, number) for number, place in enumerate(self.places(scale))}
        names = list(self.ports)
        # what others need, in an order in which none needs a later one
        self.rank = {place: self.dice.random() for place in names if self.dice.random() < .12 and place not in GIANTS and place not in DEEP}
        self.libraries = sorted(self.rank, key=lambda place: self.rank[place])
        self.ranks = [self.rank[place] for place in self.libraries]
        for port in self.ports.values():
            self.shape(port)
        for port in self.ports.values():
            for flavor in {port.default, port.flavor} - {""} | {port.default}:
                port.needs[flavor] = self.needs_of(port)
        for place, other in zip(DEEP, DEEP[1:]):
            wanted = Need(f"{other},static", f"{other},static")
            self.ports[place].needs["static" if place != DEEP[0] else ""]["BUILD_DEPENDS"] = [wanted]
        self.ports[self.libraries[-1]].fault = "ignored"
        for kind in FAULTS:
            for _ in range(faults):
                self.ports[self.dice.choice([it for it in names if self.may_have(kind, self.ports[it])])].fault = kind

    def may_have(self, kind: str, port: Port) -> bool:
        """Whether a port may have a fault: few others need it, and one at which make fails can't be asked for again by a flavor."""
        return port.place not in DEEP and port.place not in GIANTS and self.rank.get(port.place, 1) > .95 and not port.fault and (kind != "break" or port.default == port.flavor == port.pseudo == "")

    def places(self, scale: float) -> List[str]:
        found: List[str] = []
        for category, count in CATEGORIES.items():
            words = {"".join(self.dice.choice(LETTERS) for _ in range(6)) for _ in range(max(1, int(count * scale)))}
            found += [f"{category}/{word}" for word in words]
        return sorted(set(found) | set(GIANTS) | set(DEEP))

    def shape(self, port: Port) -> None:
        chance = self.dice.random()
        if port.place in DEEP[1:]:
            port.flavor = "static"
        if port.place in GIANTS or port.place in DEEP:
            return
        if chance < .16 and port.place.split("/")[0] in ("devel", "www", "net", "textproc", "databases", "math"):
            port.default = "python3"
        elif chance < .29:
            port.parts = ["-main", "-docs"] + [f"-sub{number}" for number in range(self.dice.choice((0, 0, 0, 2, 5)))]
            port.pseudo = "no_docs"
        if port.place in self.rank and self.dice.random() < .3:
            port.flavor = self.dice.choice(("no_x11", "gtk3", "static"))

    def needs_of(self, port: Port) -> Dict[str, List[Need]]:
        found: Dict[str, List[Need]] = {"BUILD_DEPENDS": [], "LIB_DEPENDS": [], "RUN_DEPENDS": []}
        for place in GIANTS.get(port.place, (0, []))[1]:
            found["BUILD_DEPENDS"].append(Need(place, place))
        below = bisect.bisect_left(self.ranks, self.rank.get(port.place, 2))
        for _ in range(min(int(self.dice.expovariate(.45)), 8) if below else 0):
            kind = self.dice.choice(list(found))
            found[kind].append(self.need(self.ports[self.libraries[self.dice.randrange(below)]]))
        return found

    def need(self, port: Port) -> Need:
        """A dependency on a port, in one of the forms in which a tree has them."""
        chance, flavor, group = self.dice.random(), port.default, port.place
        if port.flavor and chance < .3:
            flavor, group = port.flavor, port.family(port.flavor)
        elif port.pseudo and chance < .1:
            group = f"{port.place},{port.pseudo}"
        elif port.default and chance < .5:
            group = port.family(port.default)
        part = self.dice.choice(port.parts) if self.dice.random() < .2 and port.pseudo not in group.split(",") else ""
        path = port.family(flavor) + f",{part}" if part else port.first(flavor)
        stem = port.name(flavor, part or port.parts[0]).split(f"-{port.version}")[0]
        before, bounds, after = self.dice.choice((("", "", ""), ("", "", ""), ("STEM->=0:", "", ""), (f"{stem}-*:", "", ""),
                                                  (f"{stem}->=0,<99:", "", ""), ("", ">=0", ""), (":", "", ":patch")))
        return Need(before + group + (f",{part}" if part else "") + bounds + after, path)

    def whole(self) -> str:
        """What `make dump-vars` prints of the whole tree."""
        text, category = [], ""
        for port in self.ports.values():
            if category != port.place.split("/")[0]:
                category = port.place.split("/")[0]
                text.append(f"===> {category}\n")
            text.append(port.block(port.place, port.default))
        return "".join(text)

    def answers(self) -> Dict[str, str]:
        """What make prints of each port in a flavor, if it is asked for that."""
        found = {}
        for port in self.ports.values():
            for flavor in port.needs:
                found[port.family(flavor)] = port.block(port.family(flavor), flavor)
            if port.pseudo:
                found[f"{port.place},{port.pseudo}"] = port.block(f"{port.place},{port.pseudo}", "")
        return found

    def asked_for(self) -> Set[Tuple[str, str]]:
        """The ports and flavors that a listing has: each in its default flavor, and each flavor that one of these needs."""
        waiting = [(port.place, port.default) for port in self.ports.values()]
        found = set(waiting)
        while waiting:
            place, flavor = waiting.pop()
            for need in self.followed(self.ports[place], flavor):
                other = self.ports[need.path.split(",")[0]]
                wanted = (other.place, other.flavor if other.flavor and other.flavor in need.path.split(",") else other.default)
                if wanted not in found:
                    found.add(wanted)
                    waiting.append(wanted)
        return found

    def followed(self, port: Port, flavor: str) -> List[Need]:
        """What a port needs, unless it is ignored: of a port with subpackages some faults make only the first one ignored."""
        kinds = list(port.needs[flavor])
        if port.fault in ("name", "break", "message") or len(port.parts) == 1 and port.fault not in ("", "missing"):
            return []
        if port.fault == "missing" and len(port.parts) == 1:
            kinds.remove("RUN_DEPENDS")
        return [need for kind in kinds for need in port.needs[flavor][kind]]

    def listed(self) -> Dict[str, Dict[str, Set[str]]]:
        """The paths that a listing has, with what each needs by kind; of what is ignored for its own reasons only that."""
        found: Dict[str, Dict[str, Set[str]]] = {}
        for place, flavor in self.asked_for():
            port = self.ports[place]
            if port.fault == "break":
                found[place if flavor == port.default else port.family(flavor)] = {"IGNORE": set()}
                continue
            for path in port.paths(flavor):
                is_bad = port.fault in ("name", "message") or port.fault not in ("", "missing") and path == port.first(flavor)
                needs = {kind: {need.path for need in needs} for kind, needs in port.needs[flavor].items()}
                if port.fault == "missing" and path == port.first(flavor):
                    needs["RUN_DEPENDS"] = {"devel/that-is-not-there"}
                found[path] = {"IGNORE": set()} if is_bad else {kind: its for kind, its in needs.items() if its}
        if any(port.fault == "missing" for port in self.ports.values()):
            found["devel/that-is-not-there"] = {"IGNORE": set()}
        return found

    def times(self, seed: int = 1) -> Dict[str, float]:
        """How many seconds each unit takes."""
        dice, found = random.Random(seed), {}
        for place, flavor in sorted(self.asked_for()):
            port = self.ports[place]
            unit = port.family(flavor) if len(port.parts) > 1 else port.first(flavor)
            found[unit] = GIANTS[place][0] * 3600 if place in GIANTS else dice.lognormvariate(3.7, 1.2)
        return found
