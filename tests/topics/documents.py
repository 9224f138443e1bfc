"""Documents and manual pages: that they are well-formed, current, short and in plain English, and that what they name and count
exists. Also the order and number of crates, the width of lines, and how much the gate has to do."""
import glob
import os
import re
import shutil
import subprocess
import sys
from typing import Dict, Iterable, Iterator, List, Optional, Sequence, Set, Tuple

from topics import edit_places, explained, open_places, tried_edits, warrants
from topics.tally import TESTS, TOP, Tally, contents

sys.path.insert(0, f"{TOP}/tools")

import generated_docs
import plain_english
import tried

# The limits of the gate: crates in crates.txt, ways through it, and wrong bodies. A way leads from a crate down to one that it is
# built on, from name to name in the lines of crates.txt. Each crate is a way to itself.
MOST_CRATES = 56
MOST_WAYS = 90_000
MOST_WRONG_BODIES = 130
# the greatest width of a line of code, of a definition and of a document
WIDEST = 100
# the greatest number of lines of a definition: the theorem has nine clauses
LONGEST = 13
# the greatest number of lines of README.md, and of all that is written by hand in docs/
FRONT_PAGE = 120
WRITTEN = 2500
# Hard words and long sentences at commit e9dc0fa0 (`tools/plain-english --at`), and the greatest number of them now. Lower these
# when there are fewer.
WORDS_BEFORE, SENTENCES_BEFORE = 5347, 518
MOST_WORDS, MOST_SENTENCES = 197, 29
# Files with lines that are too long. To break them would have all crates above proved again, so that is done at their next change.
TOO_WIDE: Set[str] = set()
# Files with definitions that are too long, likewise.
TOO_LONG = {"crates/udp/specs/Notifying.antt"}
# Lemmas that are public although no other crate cites them since crates were merged, likewise.
NOT_CITED = {"seals": {"Lengths"}}


def manual(tally: Tally) -> None:
    """The manual pages, if the machine has mandoc."""
    if not shutil.which("mandoc"):
        tally.skip("the manual pages", "mandoc is not installed")
        return
    for page in sorted(os.listdir(f"{TOP}/man")):
        done = subprocess.run(["mandoc", "-Tlint", f"{TOP}/man/{page}"], capture_output=True, text=True)
        # few other machines have OpenBSD's own pages, to which ours refer
        complaints = [line for line in (done.stdout + done.stderr).split("\n") if "referenced manual not found" not in line]
        tally.add(f"man/{page}", "\n".join(complaints).strip())


def text_of(path: str) -> str:
    return contents(f"{TOP}/{path}").decode()


def lines_of(path: str) -> List[str]:
    return contents(path).decode().split("\n")


def is_import(line: str) -> bool:
    return bool(re.match(r"\s*(pub )?(ghost )?use ", line))


def width(tally: Tally) -> None:
    """Lines of code and definitions. Imports may be longer."""
    for path in sorted(glob.glob(f"{TOP}/crates/*/src/**/*.rt", recursive=True) + glob.glob(f"{TOP}/crates/*/specs/**/*.antt", recursive=True)):
        name = os.path.relpath(path, TOP)
        wide = [n for n, line in enumerate(lines_of(path), 1) if len(line) > WIDEST and not is_import(line)]
        tally.add(name, f"lines {wide} have more than {WIDEST} columns" if wide and name not in TOO_WIDE else "")


def documents() -> List[str]:
    """All documents that are written by hand."""
    pages = [f"docs/{it}" for it in sorted(os.listdir(f"{TOP}/docs")) if it.endswith(".md")]
    return ["README.md", "CONTRIBUTING.md", "tests/README.md", *(it for it in pages if it not in plain_english.GENERATED)]


def by_hand(path: str) -> List[str]:
    """The lines of a document that are written by hand."""
    return text_of(path).partition(generated_docs.INDEX_MARK)[0].split("\n")


def size_of_documents(tally: Tally) -> None:
    """The width of lines, and how many there are."""
    for path in documents():
        wide = [n for n, line in enumerate(by_hand(path), 1) if len(line) > WIDEST]
        tally.add(f"{path}, its width", f"lines {wide} have more than {WIDEST} columns" if wide else "")
    lines = len(text_of("README.md").split("\n")) - 1
    tally.add("README.md, its length", "" if lines <= FRONT_PAGE else f"{lines} lines, and at most {FRONT_PAGE} are allowed")
    written = sum(len(by_hand(path)) - 1 for path in documents() if path.startswith("docs/"))
    tally.add("docs, their length", "" if written <= WRITTEN else f"{written} lines are written by hand, and at most {WRITTEN} are allowed")


def generated(tally: Tally) -> None:
    """The generated pages are what the generator makes, and the generator does what it should on a sample."""
    for name, page in generated_docs.PAGES.items():
        tally.add(f"{name}, generated", "" if text_of(name) == page() else "it is not current: run tools/generate-docs")
    sections = re.split(r"^## `", text_of("docs/PROVED.md"), flags=re.MULTILINE)[1:]
    empty = [it.partition("`")[0] for it in sections if "\n- `" not in it]
    libraries = [it for it in empty if os.path.exists(f"{TOP}/crates/{it}/src/lib.rt")]
    tally.add("docs/PROVED.md, its crates", f"{libraries} have no entry" if libraries else "")
    comment = [" The path.", "", " # Errors", "", " The first of:", " - too long;", " - empty."]
    wanted = "- `T::parse`: The path.\n\n  Errors: The first of:\n  - too long;\n  - empty.\n\n  Clauses: `ok`, `err`."
    got = generated_docs.item(generated_docs.Entry("T::parse", comment, ["ok", "err"]))
    tally.add("tools/generate-docs, a sample", "" if got == wanted else f"{got!r}, not {wanted!r}")
    source = ["    pub fn f(&self) -> u8", "        ensures a { x }", "        ensures b { y", "            z }", "    {", "        ensures c {", "    }"]
    tally.add("tools/generate-docs, clauses", "" if generated_docs.clauses_of(source, 4) == ["a", "b"] else "it reads other clauses of a sample")


def plain(tally: Tally) -> None:
    """Hard words and long sentences are fewer than a tenth of what they were, and don't become more."""
    words, sentences = list(plain_english.words()), list(plain_english.long_sentences())
    print(f"tests/run: {len(words)} hard words ({WORDS_BEFORE} before), {len(sentences)} long sentences ({SENTENCES_BEFORE} before)", flush=True)
    for name, found, most, before in (("hard words", words, MOST_WORDS, WORDS_BEFORE), ("long sentences", sentences, MOST_SENTENCES, SENTENCES_BEFORE)):
        few = len(found) <= most and most * 10 <= before
        tally.add(f"plain English, {name}", "" if few else f"{len(found)}, and at most {most} are allowed (`tools/plain-english PATH` lists them)")
    same = [f"{it.path}:{it.line}" for it in words if it.text.startswith("The same")]
    tally.add("plain English, sentences that begin as notes on another one", ", ".join(same))
    sample = "A node behind a firewall tells the others. Where it stands, `told` doesn't count."
    hits = [found[0] for pattern, _ in plain_english.patterns() for found in pattern.finditer(plain_english.without_code(sample))]
    tally.add("tools/plain-english, a sample", "" if len(hits) == 4 else f"it finds {hits}")


def definitions(path: str) -> Iterator[Tuple[int, int]]:
    """The definitions of a file, also those inside a module: the line at which it begins, and how many lines it has."""
    starts, lines = [], lines_of(path)
    is_inside = False
    for n, line in enumerate(lines):
        is_inside = line.startswith("module ") or is_inside and line[:1] in ("", " ")
        text = line.removeprefix("  ") if is_inside else line
        is_start = re.match(r"(abbrev|unfoldable|pub|record|data|module|[a-z_]+ pub) ", text)
        if is_start and not is_import(line) and not line.startswith("pub mod"):
            starts.append(n)
    for start, end in zip(starts, starts[1:] + [len(lines)]):
        body = [line for line in lines[start:end] if line.strip() and not line.lstrip().startswith("--")]
        yield start + 1, len(body)


def to_believe(tally: Tally) -> None:
    """Definitions are short."""
    for crate in crates():
        for path in generated_docs.definition_files(crate):
            long = [start for start, length in definitions(path) if length > LONGEST]
            name = os.path.relpath(path, TOP)
            tally.add(name, f"definitions at {long} have more than {LONGEST} lines" if long and name not in TOO_LONG else "")


def wrong_bodies(tally: Tally) -> None:
    """The wrong bodies that a document names exist."""
    edits = glob.glob(f"{TOP}/crates/*/must-fail/*.edit") + glob.glob(f"{TESTS}/wrong-bodies/*/*.edit")
    existing = {os.path.basename(path) for path in edits}
    for path in documents():
        named = set(re.findall(r"`(\w+\.edit)`", text_of(path)))
        gone = sorted(named - existing)
        tally.add(f"{path}, its wrong bodies", f"{gone} don't exist" if gone else "")


def crates() -> Dict[str, List[str]]:
    """The crates in the order of crates.txt, and with each those of the repository that it names."""
    named: Dict[str, List[str]] = {}
    for line in lines_of(f"{TOP}/crates.txt"):
        crate, colon, below = line.split("#")[0].partition(":")
        if colon:
            named[crate.split()[0]] = below.split()
    return {crate: [it for it in below if it in named] for crate, below in named.items()}


def part(path: str, heading: str) -> str:
    """The part of a document below a heading, up to the next one."""
    return text_of(path).partition(f"\n## {heading}\n")[2].partition("\n## ")[0]


def out_of_order(named: Sequence[str], order: List[str]) -> str:
    """What is wrong with an order of crates, if anything."""
    for above, crate in zip(named, named[1:]):
        if order.index(crate) < order.index(above):
            return f"{crate} comes after {above}, and in crates.txt before it"
    return ""


def rows_of_crates(tally: Tally) -> None:
    """Three or more crates in a row are in the order of crates.txt."""
    order = list(crates())
    # names in code, with only a comma, "and", "or" or "nor" between them
    form = r"`\w+`(?:(?:,|,? (?:and|or|nor))\s+`\w+`){2,}"
    for path in documents():
        wrong = []
        for row in re.findall(form, text_of(path)):
            named = re.findall(r"\w+", " ".join(re.findall(r"`\w+`", row)))
            if set(named) <= set(order) and out_of_order(named, order):
                wrong.append(f"{', '.join(named)}: {out_of_order(named, order)}")
        tally.add(f"{path}, its rows of crates", "; ".join(wrong))


def files_of_crates(tally: Tally) -> None:
    """The files of definitions and proofs that documents name by their crate exist."""
    for path in documents():
        named = set(re.findall(r"`(\w+)/(specs|proofs)/([\w/]+)`", text_of(path)))
        gone = sorted("/".join(it) for it in named if not exists(*it))
        tally.add(f"{path}, the files of crates that it names", f"{gone} don't exist" if gone else "")


def exists(crate: str, kind: str, name: str) -> bool:
    """Whether a crate has that file of definitions or of proofs, or that folder."""
    return any(os.path.exists(f"{TOP}/crates/{crate}/{kind}/{it}") for it in (name, f"{name}.antt"))


def promises(tally: Tally) -> None:
    """Each call or law of DESIGN's list of promises exists in its crate, and has the clause."""
    text = re.sub(r"\s+", " ", part("docs/DESIGN.md", "From a promise to its code"))
    rows = re.findall(r"- ((?:(?! - ).)+?): `(\w+)::(\w+)`, (?:clause `(\w+)`|all of it);", text)
    for promise, crate, call, clause in rows:
        sources = "".join(contents(path).decode() for path in sorted(glob.glob(f"{TOP}/crates/{crate}/src/**/*.rt", recursive=True)))
        # the contract: from the call's name to its body
        contracts = re.findall(rf"^ *pub fn {call}\b(.*?)^ *{{}}?$", sources, re.DOTALL | re.MULTILINE)
        is_there = any(f"ensures {clause} {{" in it if clause else "ensures {" in it for it in contracts)
        tally.add(f"docs/DESIGN.md, {promise}", "" if is_there else f"{crate}::{call} has no clause {clause or 'without a name'}")
    tally.add("docs/DESIGN.md, its promises", "" if len(rows) == text.count("; definition") else f"{len(rows)} of {text.count('; definition')} are read")


def one_warrant(tally: Tally) -> None:
    """Only a node's last step is a warrant. Whatever else were one could let any bytes be sent."""
    paths = filter(os.path.isfile, sorted(glob.glob(f"{TOP}/crates/*/src/**/*", recursive=True)))
    counts = {os.path.relpath(path, TOP): warrants.warrants_in(contents(path).decode()) for path in paths}
    found = {path: count for path, count in counts.items() if count}
    is_right = found == {"crates/turn_rules/src/last_step.rt": 1}
    tally.add("crates, what lets bytes be sent", "" if is_right else f"{found} may implement Warrant, and how often")
    tally.add("tests/run documents, samples of warrants", warrants.samples_problem())


def what_opens(tally: Tally) -> None:
    """Files, logs, sockets and nodes are opened in reviewed sources only."""
    paths = sorted(glob.glob(f"{TOP}/crates/*/src/**/*.rt", recursive=True))
    sources = {os.path.relpath(path, f"{TOP}/crates"): contents(path).decode() for path in paths}
    for name, problem in open_places.problems(sources):
        tally.add(f"crates, what names {name}", problem)
    tally.add("tests/run documents, samples of what opens", open_places.samples_problem())


def one_order(tally: Tally) -> None:
    """crates.txt is bottom up."""
    named = crates()
    order = list(named)
    early = [f"{crate} above {it}" for crate in order for it in named[crate] if order.index(it) > order.index(crate)]
    tally.add("crates.txt, bottom up", ", ".join(early))


def cost_of_the_gate(tally: Tally) -> None:
    """The crates, the ways through crates.txt and the wrong bodies of the gate are within their limits."""
    named = crates()
    ways: Dict[str, int] = {}
    for crate in named:
        ways[crate] = 1 + sum(ways[it] for it in named[crate])
    edits = len(glob.glob(f"{TOP}/crates/*/must-fail/*.edit"))
    print(f"tests/run: {len(named)} crates, {sum(ways.values()):,} ways through crates.txt, {edits} wrong bodies in the gate", flush=True)
    for name, count, most in (("its crates", len(named), MOST_CRATES), ("the ways through it", sum(ways.values()), MOST_WAYS - 1)):
        tally.add(f"crates.txt, {name}", f"{count:,}, and at most {most:,} are allowed" if count > most else "")
    tally.add("crates/*/must-fail", f"{edits} wrong bodies, and at most {MOST_WRONG_BODIES} are allowed" if edits > MOST_WRONG_BODIES else "")


def tried_wrong_bodies(tally: Tally) -> None:
    """Prints the crates whose edits in tests/wrong-bodies were not tried on the current sources. That isn't a failure, since a change
    of a crate makes it so for all above. Each line of the record is about a crate that has edits."""
    strangers = sorted(set(tried.read()) - set(tried.crates()))
    tally.add("tests/wrong-bodies/tried", f"{strangers} have no edits there" if strangers else "")
    untried, all_crates = tried.untried(), tried.crates()
    names = f": {', '.join(untried)} (`tests/try-wrong-bodies --untried`)" if untried else ""
    print(f"tests/run: the wrong bodies of {len(untried)} of {len(all_crates)} crates were not tried on the current sources{names}", flush=True)


def below(crate: str, named: Dict[str, List[str]]) -> Set[str]:
    """The crate, and all crates that it is built on."""
    found: Set[str] = set()
    left = [crate]
    while left:
        it = left.pop()
        if it not in found:
            found.add(it)
            left += named[it]
    return found


def counted(tally: Tally) -> None:
    """What documents count: the crates of the program, stored cases, and the wrong bodies outside the gate."""
    def cases(*kinds: str) -> int:
        return sum(len(os.listdir(f"{TESTS}/{kind}")) for kind in kinds)

    program = (len(below("dpbr", crates())),)
    outside = (len(glob.glob(f"{TESTS}/wrong-bodies/*/*.edit")),)
    stored = r"(\d+) stored cases of `dpbr status` and `dpbr audit` and (\d+) of `dpbr run`, (\d+) of `dpbr wayon`"
    rows: Tuple[Tuple[str, str, Tuple[int, ...]], ...] = (
        ("README.md", r"its\s+(\d+)\s+crates", program), ("docs/TIMES.md", r"proves\s+(\d+)\s+crates", program),
        ("docs/TESTED.md", stored, (cases("status", "audit"), cases("traces", "pieces"), cases("wayon"))),
        ("docs/TESTED.md", r"There are (\d+) in tests/wrong-bodies", outside))
    for name, form, counts in rows:
        found = re.search(form, text_of(name))
        is_right = found is not None and tuple(map(int, found.groups())) == counts
        tally.add(f"{name}, what it counts: {form}", "" if is_right else f"{found and found[0]}, and there are {counts}")


def cited(crate: str, folder: str = f"{TOP}/crates") -> Iterator[Tuple[str, str, str]]:
    """What files of a crate cite of other crates' proofs and inner definitions: the file, the crate, and the module there."""
    for path in glob.glob(f"{folder}/{crate}/**/*", recursive=True):
        if path.endswith((".rt", ".antt", ".rs", ".proof")) and "/out/" not in path:
            for other, module in set(re.findall(r"\bRattle\.(\w+)\.(proofs(?:\.\w+)+|specs\.inside)\b", contents(path).decode())):
                if other != crate:
                    yield path, other, module


def mods(path: str) -> List[Tuple[str, bool]]:
    """The modules that a file names, and of each whether it is public. None if there is no such file."""
    lines = contents(path).decode() if os.path.exists(path) else ""
    return [(name, bool(pub)) for pub, name in re.findall(r"^(pub )?mod (\w+)$", lines, re.MULTILINE)]


def lemmas_of(crate: str) -> Dict[str, bool]:
    """The files of lemmas of a crate, by their modules, and whether crates above may cite them: those that `proofs/Lib.antt` names, or
    those of a folder that it names."""
    top = f"{TOP}/crates/{crate}/proofs"
    found: Dict[str, bool] = {}
    for name, is_public in mods(f"{top}/Lib.antt"):
        inside = mods(f"{top}/{name}.antt") if os.path.isdir(f"{top}/{name}") else []
        found.update({f"{name}.{it}": is_public and is_open for it, is_open in inside} or {name: is_public})
    return found


def public_modules(crate: str) -> Set[str]:
    """The files of lemmas, and folders of them, that are declared public."""
    top = f"{TOP}/crates/{crate}/proofs"
    folders = {name for name, _ in mods(f"{top}/Lib.antt") if os.path.isdir(f"{top}/{name}")}
    inside = {f"{folder}.{it}" for folder in folders for it, is_public in mods(f"{top}/{folder}.antt") if is_public}
    return {name for name, is_public in mods(f"{top}/Lib.antt") if is_public} | inside


def cited_across_folders(crate: str) -> Set[str]:
    """The lemmas in a folder that files of the crate cite from outside the folder."""
    top, lemmas = f"{TOP}/crates/{crate}", lemmas_of(crate)
    found: Set[str] = set()
    for path in glob.glob(f"{top}/**/*", recursive=True):
        if path.endswith((".rt", ".antt")) and "/out/" not in path:
            named = set(re.findall(rf"\bRattle\.{crate}\.proofs\.(\w+\.\w+)", contents(path).decode()))
            found |= {it for it in named if it in lemmas and not path.startswith(f"{top}/proofs/{it.partition('.')[0]}/")}
    return found


def passed_on(crate: str) -> Set[str]:
    """The lemmas of other crates that a crate passes on as its own."""
    path = f"{TOP}/crates/{crate}/proofs/Lib.antt"
    return set(re.findall(r"^pub use Rattle\.\w+\.proofs\.(\w+)", contents(path).decode(), re.MULTILINE)) if os.path.exists(path) else set()


def leaning(tally: Tally) -> None:
    """Crates cite no inner definitions of others, and the lemmas that they cite are exactly the public ones. The drivers of tests count,
    too. docs/DESIGN.md says how many lemmas are public, and in how many pairs of crates they are cited."""
    named = crates()
    found = [(crate, *it) for crate in named for it in cited(crate) if it[1] in named]
    by_drivers = [(other, module) for driver in os.listdir(f"{TESTS}/drivers") for _, other, module in cited(driver, f"{TESTS}/drivers")]
    inside = sorted({os.path.relpath(path, TOP) for _, path, _, module in found if module == "specs.inside"})
    tally.add("specs/inside", f"{inside} cite inner definitions of another crate" if inside else "")
    files = public = 0
    for crate in named:
        lemmas, open_to_all = lemmas_of(crate), public_modules(crate)
        files, public = files + len(lemmas), public + sum(lemmas.values())
        used = [(other, module) for _, _, other, module in found if module != "specs.inside"] + by_drivers
        by_others = {module.removeprefix("proofs.") for other, module in used if other == crate} - passed_on(crate)
        # a folder is public if it has something for other crates
        wanted = by_others | {module.partition(".")[0] for module in by_others} | cited_across_folders(crate)
        strange = sorted(open_to_all ^ (wanted | NOT_CITED.get(crate, set()) & open_to_all))
        tally.add(f"crates/{crate}/proofs/Lib.antt", f"{strange} are public and not cited, or cited and not public" if strange else "")
    pairs = {(crate, other) for crate, _, other, module in found if module != "specs.inside"}
    counts = public, files, sum(map(len, named.values())), len(pairs)
    count = re.search(r"(\d+)\s+of\s+the\s+(\d+)\s+files\s+of\s+lemmas.*?the\s+(\d+)\s+pairs\s+of\s+crates.*?(\d+)\s+cite\s+lemmas", text_of("docs/DESIGN.md"), re.DOTALL)
    is_right = count is not None and tuple(map(int, count.groups())) == counts
    tally.add("docs/DESIGN.md, what it counts", "" if is_right else f"{count and count.groups()}, and there are {counts}")


def missing(named: Iterable[str]) -> List[str]:
    """The files of these that don't exist, without placeholders and what is built."""
    return sorted(it for it in named if not os.path.exists(f"{TOP}/{it}") and not re.search(r"\b[A-Z]{4,}$|/out(/|$)|/(NAME|PROGRAM|CRATE)", it))


def places(tally: Tally) -> None:
    """The files that documents name exist, and each installed tool is executable and has a page."""
    form = r"\b((?:docs|man|tools|tests|examples|bench|crates)/[\w./-]*\w)/?(?![\w*/-])"
    for path in documents():
        gone = missing(set(re.findall(form, text_of(path))))
        tally.add(f"{path}, the files that it names", f"{gone} don't exist" if gone else "")
    makefile = text_of("Makefile").replace("\\\n", " ")
    found: Optional[re.Match[str]] = re.search(r"^TOOLS\s*=\s*(.*)$", makefile, re.MULTILINE)
    for tool in found[1].split() if found else []:
        is_right = os.access(f"{TOP}/tools/{tool}", os.X_OK) and os.path.exists(f"{TOP}/man/{tool}.1")
        tally.add(f"tools/{tool}, which is installed", "" if is_right else "it isn't executable, or has no page")


def run(tally: Tally) -> None:
    manual(tally)
    width(tally)
    size_of_documents(tally)
    generated(tally)
    plain(tally)
    to_believe(tally)
    wrong_bodies(tally)
    one_order(tally)
    cost_of_the_gate(tally)
    tried_wrong_bodies(tally)
    tally.run("which wrong bodies fit", edit_places.run)
    tally.run("what was tried of wrong bodies", tried_edits.run)
    rows_of_crates(tally)
    files_of_crates(tally)
    promises(tally)
    counted(tally)
    leaning(tally)
    places(tally)
    one_warrant(tally)
    what_opens(tally)
    explained.run_documents(tally)
