"""dpbr as it is built: stored cases, words and files that are refused, listings at their limits."""
import os
import re
import shutil
import subprocess
import tempfile
import time

from topics import started
from topics import explained
from topics.tally import EXAMPLES, PROGRAM, TESTS, TOP, answer, contents, difference, text_difference

# The folders of stored cases of `dpbr status` and `dpbr audit`, and of those that the manual page shows.
STORED = ("status", "audit", "manual")


def case(tally, kind, name):
    """A stored case, of texts whose answers are known: a folder with the words and the three answers."""
    folder = f"{TESTS}/{kind}/{name}"
    words = contents(f"{folder}/words").decode().split()
    wanted = (contents(f"{folder}/stdout"), contents(f"{folder}/stderr"), int(contents(f"{folder}/status")))
    tally.add(f"{kind}/{name}", difference(answer(words, folder), wanted))


def stored_cases(tally, kinds):
    for kind in kinds:
        for name in sorted(os.listdir(f"{TESTS}/{kind}")):
            case(tally, kind, name)


def shown(page):
    """The lines that a manual page shows after a `$`, and with each the text that it shows below it."""
    for block in re.findall(r"^\.Bd -literal.*?\n(.*?)^\.Ed$", page, re.DOTALL | re.MULTILINE):
        for part in re.split(r"^\$ ", block, flags=re.MULTILINE)[1:]:
            line, _, text = part.partition("\n")
            yield line, text


def cut_short(text):
    """The text as the manual page shows it: eight digits of each digest."""
    return re.sub(r"\b([0-9a-f]{8})[0-9a-f]{56}\b", r"\1...", text)


def stored_for(line, folders, left):
    """What is stored for a line of the page: a file of each case that has it, or what a case prints, and its status if asked. What is
    written to a file is that file of another case, and nothing is shown."""
    command, _, words = line.partition(" ")
    if command == "cat":
        return [contents(f"{folder}/{words}") for folder in folders if os.path.exists(f"{folder}/{words}")]
    words, _, asked = words.partition("; echo ")
    words, _, written = words.partition(" > ")
    if words not in left:
        return []
    folder = left.pop(words)
    if written:
        others = [contents(f"{it}/{written}") for it in folders if os.path.exists(f"{it}/{written}")]
        return [b"" if other == contents(f"{folder}/stdout") else other for other in others]
    return [contents(f"{folder}/stdout") + (contents(f"{folder}/status") if asked else b"")]


def shown_problem(text, stored):
    """What is wrong with a text that a page shows, of which these texts are stored; or nothing."""
    if stored == {text}:
        return ""
    if len(stored) != 1:
        return f"{len(stored)} texts are stored for it, and not one"
    return f"it shows another text than what is stored\n{text_difference(text.encode(), stored.pop().encode())}"


def manual_page(tally):
    """dpbr(1) shows what is stored: each case, and files of them."""
    folders = [f"{TESTS}/manual/{name}" for name in sorted(os.listdir(f"{TESTS}/manual"))]
    left = {contents(f"{folder}/words").decode().strip(): folder for folder in folders}
    for line, text in shown(contents(f"{TOP}/man/dpbr.1").decode()):
        stored = {cut_short(one.decode()) for one in stored_for(line, folders, left)}
        tally.add(f"man/dpbr.1, {line}", shown_problem(text, stored))
    tally.add("man/dpbr.1, its examples", f"{list(left)} are stored, and not shown" if left else "")


def synopsis(page):
    """What the synopsis of a manual page has of each subcommand: its arguments in order, the required options and the
    optional ones, with whether they have a value. Of two with a bar between them, one may be given."""
    calls = {}
    part = re.search(r"^\.Sh SYNOPSIS\n(.*?)^\.Sh ", page, re.DOTALL | re.MULTILINE)[1]
    for call in re.split(r"^\.Nm\n", part, flags=re.MULTILINE)[1:]:
        lines = call.split("\n")
        if lines[0] == ".Fl -version":
            continue
        options = [(name, bool(value), line.startswith(".Op") or "|" in line)
                   for line in lines for name, value in re.findall(r"Fl -(\w+)( Ar \S+)?", line)]
        calls[re.match(r"\.Cm (\w+)\n", call)[1]] = ([line[4:].upper() for line in lines if line.startswith(".Ar ")],
                                                     {it[:2] for it in options if not it[2]}, {it[:2] for it in options if it[2]})
    return calls


def usage(text):
    """The arguments and options of a subcommand, by the program's help."""
    line = re.search(r"^Usage: (.*)$", text, re.MULTILINE)[1]
    option = r"--(\w+)( <[^>]*>)?"
    needed = {(name, bool(value)) for name, value in re.findall(option, line)}
    told = {(name, bool(value)) for name, value in re.findall(rf"^ +(?:-\w, )?{option}", text, re.MULTILINE)}
    return re.findall(r"<(\w+)>", re.sub(option, "", line)), needed, told - needed - {("help", False)}


def strange_numbers(page, text):
    """The options of which a subcommand's help prints numbers that the page doesn't, or not what the page says they are if they aren't
    given."""
    strange = []
    for name, told in re.findall(r"^ +--(\w+)(?: <[^>]*>)? +(.*)$", text, re.MULTILINE):
        said = (re.search(rf"^\.It Fl -{name}\b.*?\n(.*?)^\.(?:It|El)", page, re.DOTALL | re.MULTILINE) or ["", ""])[1]
        defaults = {f"[default: {it}" for it in re.findall(r"(\d+)(?: each)? where\s+it\s+isn't\s+given", said)}
        if not set(re.findall(r"\d+", told)) <= set(re.findall(r"\d+", said)) or not all(it in told for it in defaults):
            strange.append(name)
    return strange


def help_of(tally, name, ask):
    """A program's help has what its page has."""
    page = contents(f"{TOP}/man/{name}.1").decode()
    calls = synopsis(page)
    _, error, status = ask(["--help"])
    commands = re.findall(r"^  (\w+) ", error.decode().partition("Commands:")[2].partition("Options:")[0], re.MULTILINE)
    wanted = sorted([*calls, "help"])
    tally.add(f"{name} --help", "" if (sorted(commands), status) == (wanted, 2) else f"{commands}, not {wanted}; status {status}")
    for command, call in calls.items():
        out, error, status = ask([command, "--help"])
        got = usage(error.decode()) if (out, status) == (b"", 2) else (out, error, status)
        tally.add(f"{name} {command} --help", "" if got == call else f"it has {got}, and man/{name}.1 has {call}")
        strange = strange_numbers(page, error.decode())
        tally.add(f"{name} {command} --help, its numbers", f"those of {strange} aren't the page's" if strange else "")


def helps(tally):
    help_of(tally, "dpbr", lambda words: answer(words, EXAMPLES))


def readme(tally):
    """The README's lines on files, each as it is there, in a folder with the files that it names: what they print is stored."""
    text = contents(f"{TOP}/README.md").decode()
    lines = re.findall(r"^    (\./dpbr status .*)$", text, re.MULTILINE)
    lines += [it.strip() for it in re.search(r"^Other commands\. The last two.*?\n\n(.*?)\n\n", text, re.DOTALL | re.MULTILINE)[1].split("\n")]
    # what lines that begin so print on standard output and on standard error
    stored = {"./dpbr status": ("examples.stdout", ""), "./dpbr run": ("examples.run.stdout", ""), "./dpbr wayon": ("examples.wayon.stdout", ""),
              "tools/expand-listing DUMP": ("expand/000/letters", "expand/000/stderr"),
              "tools/why-ignored LISTING": ("ignored/the_example/stdout", "")}
    begins = [" ".join(line.split()[:2]) for line in lines]
    if begins != list(stored):
        tally.add("README.md, its lines on files", f"{begins}, not {list(stored)}")
        return
    with tempfile.TemporaryDirectory() as folder:
        for name, at in (("dpbr", PROGRAM), ("examples", EXAMPLES), ("tools", f"{TOP}/tools"), ("DUMP", f"{TESTS}/expand/000/dump")):
            os.symlink(at, f"{folder}/{name}")
        for line, begin in zip(lines, begins):
            if begin == "tools/why-ignored LISTING":
                shutil.copy(f"{TESTS}/ignored/the_example/listing", f"{folder}/LISTING")
            done = subprocess.run(["sh", "-c", line], cwd=folder, stdin=subprocess.DEVNULL, capture_output=True, timeout=600)
            out, error = (contents(f"{TESTS}/{it}") if it else b"" for it in stored[begin])
            tally.add(f"README.md, {line}", difference((done.stdout, done.stderr, done.returncode), (out, error, 0)))


def examples(tally):
    """What dpbr says of the examples, and of empty files; the README's lines on them are run as they are there."""
    letters = contents(f"{TESTS}/examples.stdout")
    late = b"no: package 5: dependency not earlier\n"
    for words, out, status in ((["status", "listing", "held"], letters, 0), (["audit", "listing", "list"], b"yes\n", 0),
                               (["audit", "listing", "list.late"], late, 3)):
        tally.add(f"the example {' '.join(words)}", difference(answer(words, EXAMPLES), (out, b"", status)))
    for command, text in (("status", b"I=0 B=0 Q=0 T=0 !=0\n"), ("audit", b"yes\n")):
        got = answer([command, "/dev/null", "/dev/null"], EXAMPLES)
        tally.add(f"{command} of empty files", difference(got, (text, b"", 0)))


def no_calls(tally):
    """Wrong arguments: clap's text on standard error, and status 2."""
    status, audit, run = ["status", "listing", "held"], ["audit", "listing", "list"], ["run", "listing", "trace"]
    for words in ([], ["--help"], ["help"], ["status"], ["status", "listing"], [*status, "more"], ["state", *status[1:]],
                  [b"status", b"\xff", b"held"], ["status", "--help"], ["audit"], ["audit", "listing"], [*audit, "more"],
                  ["audit", "--help"], ["audits", *audit[1:]], ["--single", *status], ["--single", *audit], [*status, "--single=yes"],
                  ["run"], ["run", "listing"], [*run, "more"], ["run", "--help"], ["runs", *run[1:]], ["--single", *run],
                  ["status", "--single", "--single", *status[1:]], ["status", "--singles", *status[1:]], ["status", "--", *status[1:], "--single"]):
        out, error, code = answer(words, EXAMPLES)
        problem = "" if (out, code) == (b"", 2) and error else f"{out!r:.200}, {error!r:.200}, status {code}"
        tally.add(f"the words {words}", problem)


def faults(tally):
    """Files that can't be read or are refused: which file is looked at first, and that nothing else is printed."""
    good = f"{EXAMPLES}/listing"
    with tempfile.TemporaryDirectory() as folder:
        with open(f"{folder}/bad", "w") as file:
            file.write("a/p\n")
        for words, fault in (("status none none", "2"), (f"status {good} none", "2"), ("status bad none", "401 at 1"),
                             (f"status {folder} bad", "2"), (f"status {good} bad", "901 at 1"), ("audit none bad", "2"),
                             ("run none bad", "2"), (f"run {good} none", "2"), ("run bad none", "401 at 1"), (f"run {good} bad", "1305 at 0"),
                             (f"audit {good} none", "2"), (f"audit {good} {folder}", "2"), ("audit bad none", "401 at 1"),
                             (f"audit {good} bad", "1308 at 1"), ("status none bad --single", "2"), (f"audit --single {good} bad", "1308 at 1")):
            tally.add(words, difference(answer(words.split(), folder), (b"", f"dpbr: fault {fault}\n".encode(), 1)))
    for words in (["status", "listing", "held"], ["audit", "listing", "list"], ["audit", "listing", "list.late"], ["run", "listing", "trace"]):
        with open("/dev/full", "wb") as full:
            done = subprocess.run([PROGRAM, *words], cwd=EXAMPLES, stdout=full, stderr=subprocess.PIPE)
        tally.add(f"{words} on a full device", difference((b"", done.stderr, done.returncode), (b"", b"dpbr: fault 2\n", 1)))


def limits(tally):
    """The most paths that a listing has and the most dependencies of one value, and one more of each."""
    most_paths, most_dependencies = 16384, 512
    paths = [f"ports/p{n}.FULLPKGNAME=p{n}-1.0\n" for n in range(most_paths + 1)]
    dependencies = [f"ports/p{n}" for n in range(most_dependencies + 1)]
    named = "".join(paths[: most_dependencies + 1])
    letters = "".join(f"Q ports/p{n} p{n}-1.0\n" for n in range(most_paths))
    with tempfile.TemporaryDirectory() as folder:
        for name, text in (("most_paths", "".join(paths[:-1])), ("a_path_more", "".join(paths)), ("held", ""),
                           ("most_dependencies", f"{named}a/p.FULLPKGNAME=p-1\na/p.RUN_DEPENDS={' '.join(dependencies[:-1])}\n"),
                           ("a_dependency_more", f"{named}a/p.FULLPKGNAME=p-1\na/p.RUN_DEPENDS={' '.join(dependencies)}\n")):
            with open(f"{folder}/{name}", "w") as file:
                file.write(text)
        out, error, status = answer(["status", "most_paths", "held"], folder)
        tally.add("the most paths", difference((out[: len(letters)], error, status), (letters.encode(), b"", 0)))
        out, error, status = answer(["status", "most_dependencies", "held"], folder)
        tally.add("the most dependencies", difference((b"", error, status), (b"", b"", 0)))
        for words, line in (("status a_path_more held", most_paths + 1), ("audit a_path_more held", most_paths + 1),
                            ("status a_dependency_more held", most_dependencies + 3)):
            tally.add(words, difference(answer(words.split(), folder), (b"", f"dpbr: fault 404 at {line}\n".encode(), 1)))


def run_chain(tally):
    """A run chain that is held from both ends: letters are those of a plain search, whatever the order of the held text."""
    paths = 4096
    listing = "".join(f"ports/p{n}.FULLPKGNAME=p{n}-1\n" + (f"ports/p{n}.RUN_DEPENDS=ports/p{n + 1}\n" if n + 1 < paths else "") for n in range(paths))
    order = [n // 2 if n % 2 == 0 else paths - 1 - n // 2 for n in range(paths)]
    with tempfile.TemporaryDirectory() as folder:
        with open(f"{folder}/LISTING", "w") as file:
            file.write(listing)
        for count in (1, 2, 1001, paths - 1, paths):
            held = set(order[:count])
            with open(f"{folder}/HELD", "w") as file:
                file.writelines(f"ports/p{n}\n" for n in order[:count])
            letters, can_run = [""] * paths, True
            for n in reversed(range(paths)):
                can_run = can_run and n in held
                letters[n] = "I" if can_run else "B" if n in held else "Q"
            text = "".join(f"{letter} ports/p{n} p{n}-1\n" for n, letter in enumerate(letters))
            text += f"I={letters.count('I')} B={letters.count('B')} Q={letters.count('Q')} T=0 !=0\n"
            got = answer(["status", "LISTING", "HELD"], folder)
            tally.add(f"a run chain, {count} held", difference(got, (text.encode(), b"", 0)))


def one_unit(tally):
    """As many packages as a listing has, of one group: one build makes them, so that all wait if one of them needs another path."""
    packages = 16384
    listing = "".join(f"a/b,-p{n}.FULLPKGNAME=p{n}-1\n" for n in range(packages - 1)) + "a/c.FULLPKGNAME=c-1\n"
    for needs, letter in (("", "Q"), ("a/b,-p9.BUILD_DEPENDS=a/c\n", "T"), ("a/b,-p9.BUILD_DEPENDS=a/b,-p8\n", "Q")):
        text = "".join(f"{letter} a/b,-p{n} p{n}-1\n" for n in range(packages - 1)) + "Q a/c c-1\n"
        queued = packages if letter == "Q" else 1
        text += f"I=0 B=0 Q={queued} T={packages - queued} !=0\n"
        with tempfile.TemporaryDirectory() as folder:
            with open(f"{folder}/LISTING", "w") as file:
                file.write(listing + needs)
            got = answer(["status", "LISTING", "/dev/null"], folder)
        tally.add(f"one unit of all packages, {needs.strip() or 'which needs nothing'}", difference(got, (text.encode(), b"", 0)))


def ignored_chain(tally):
    """A chain of packages that are ignored, each for the one after it in the listing, takes no longer than another listing."""
    paths = 16384
    listing = "".join(f"a/p{n}.FULLPKGNAME=p{n}-1\na/p{n}.{('BUILD', 'RUN')[n % 2]}_DEPENDS=a/p{n + 1}\n" for n in range(paths - 1))
    listing += f"a/p{paths - 1}.FULLPKGNAME=p{paths - 1}-1\na/p{paths - 1}.IGNORE=broken\n"
    text = "".join(f"! a/p{n} p{n}-1\n" for n in range(paths)) + f"I=0 B=0 Q=0 T=0 !={paths}\n"
    with tempfile.TemporaryDirectory() as folder:
        with open(f"{folder}/LISTING", "w") as file:
            file.write(listing)
        began = time.monotonic()
        got = answer(["status", "LISTING", "/dev/null"], folder)
        took = time.monotonic() - began
    tally.add("a chain of ignored packages", difference(got, (text.encode(), b"", 0)))
    tally.add("a chain of ignored packages, how long it takes", "" if took < 5 else f"it took {took:.1f} s", timed=True)


def wrapper(tally):
    """The command of the README, from another folder, too."""
    wanted = (contents(f"{TESTS}/examples.stdout"), b"", 0)
    for program, folder, words in (("./dpbr", TOP, "status examples/listing examples/held"), ("../dpbr", EXAMPLES, "status listing held")):
        done = subprocess.run([program, *words.split()], cwd=folder, capture_output=True)
        tally.add(f"{program} {words}", difference((done.stdout, done.stderr, done.returncode), wanted))
    with tempfile.TemporaryDirectory() as folder:
        os.symlink(f"{TOP}/dpbn", f"{folder}/dpbn")
        for program, place in (("./dpbn", TOP), ("./dpbn", folder)):
            done = subprocess.run([program, "node", "--help"], cwd=place, capture_output=True)
            is_help = done.returncode == 2 and not done.stdout and b"--listing" in done.stderr
            tally.add(f"{program} node --help in {'the checkout' if place == TOP else 'another folder'}", "" if is_help else done.stderr.decode())


def run(tally):
    wrapper(tally)
    tally.run("how programs start", started.run)
    stored_cases(tally, STORED)
    manual_page(tally)
    examples(tally)
    readme(tally)
    helps(tally)
    explained.explains(tally, "dpbr", lambda words: answer(words, EXAMPLES))
    no_calls(tally)
    faults(tally)
    limits(tally)
    run_chain(tally)
    one_unit(tally)
    tally.case(ignored_chain)
