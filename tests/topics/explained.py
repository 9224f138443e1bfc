"""The table of faults of `explain`: its causes are the errors of the crates, and the manual pages say the same."""
import glob
import re

from topics.tally import TOP, contents, difference

TABLE = "crates/dpbr_cli/src/fault_table.rt"

# Causes that the table has besides the errors of the crates: a number that programs report for something else, too.
OWN = {(2, "the answer can't be written"), (909, "--me is not below --members"), (1305, "BUILDS is malformed"),
       (1305, "the answer to a job is malformed")}

# What to do about an error of a crate that no program reports by its number.
UNREPORTED = re.compile(r"this as fault|is reported as fault|No program reports this")


def table():
    """The rows of the table: number, cause, and what to do."""
    text = contents(f"{TOP}/{TABLE}").decode()
    return [(int(number), cause, advice) for number, cause, advice in re.findall(r'\(\s*(\d+),\s*"([^"]*)",\s*"([^"]*)",?\s*\)', text)]


def plain(error):
    """The text of an error as the table has it: K for the place, and nothing about an error inside."""
    return error.removesuffix(": {0}").replace("{0}", "K")


def causes_in(text):
    """The faults of a source file, each with its number and its text; those that pass on another one's number have none."""
    enums = {name: body for name, body in re.findall(r"^pub enum (\w+)[^{]*\{\n(.*?)^\}", text, re.DOTALL | re.MULTILINE)}
    structs = {name: error for error, name in re.findall(r'^#\[error\("([^"]*)"\)\]\npub struct (\w+)', text, re.MULTILINE)}
    for name, body in re.findall(r"^impl Fault for (\w+) \{\n(.*?)^\}", text, re.DOTALL | re.MULTILINE):
        numbers = re.search(r"fn number\(&self\) -> u32 \{\n(.*?)^    \}", body, re.DOTALL | re.MULTILINE)[1]
        if name in structs:
            yield int(numbers), plain(structs[name])
        errors = {variant: error for error, variant in re.findall(r'#\[error\("([^"]*)"\)\]\n    (\w+)', enums.get(name, ""))}
        for variant, number in re.findall(rf"{name}::(\w+)(?:\(.*?\))? => (\d+),", numbers):
            yield int(number), plain(errors[variant])


def causes():
    """The faults of all crates."""
    for path in sorted(glob.glob(f"{TOP}/crates/*/src/**/*.rt", recursive=True)):
        yield from causes_in(contents(path).decode())


def of_the_crates(tally):
    """Each cause of the table is an error of a crate with that number, and each such error is in it."""
    rows = table()
    there, wanted = {row[:2] for row in rows}, set(causes()) | OWN
    tally.add(TABLE, "" if there == wanted and len(there) == len(rows) else f"{sorted(there - wanted)} are too many, {sorted(wanted - there)} lack")
    numbers = [row[0] for row in rows]
    tally.add(f"{TABLE}, its order", "" if numbers == sorted(numbers) else "the numbers don't ascend")
    unended = [row for row in rows if not row[2].endswith(".") or row[1].endswith(".")]
    tally.add(f"{TABLE}, its sentences", f"{unended} have a full stop too many or too few" if unended else "")


def entries(page):
    """What DIAGNOSTICS of a manual page has of each number: the texts of its entries, on one line each."""
    part = re.search(r"^\.Sh DIAGNOSTICS\n(.*?)^\.Sh ", page, re.DOTALL | re.MULTILINE)[1]
    for entry in re.split(r"^\.It ", part, flags=re.MULTILINE)[1:]:
        head, _, text = entry.partition("\n")
        if head.isdecimal():
            yield int(head), " ".join(text.partition("\n.El")[0].split())


def said(row):
    """A row as the manual pages say it."""
    return f"{row[1][0].upper()}{row[1][1:]}. {row[2]}"


def in_the_pages(tally):
    """An entry of DIAGNOSTICS begins with rows of its number, and each row that a program reports is on a page."""
    rows, found = table(), set()
    for name in ("dpbr", "dpbn"):
        strange = []
        for number, text in entries(contents(f"{TOP}/man/{name}.1").decode()):
            begins = [row for row in rows if row[0] == number and said(row) in text]
            rest = text
            while any(rest.startswith(said(row)) for row in begins):
                rest = next(rest.removeprefix(said(row)).lstrip() for row in begins if rest.startswith(said(row)))
            if not begins or any(said(row) in rest for row in begins):
                strange.append(number)
            found.update(begins)
        tally.add(f"man/{name}.1, its faults", f"those of {strange} don't begin as `explain` has them" if strange else "")
    lacking = [row[:2] for row in rows if row not in found and not UNREPORTED.search(row[2])]
    tally.add("man, the faults", f"{lacking} are on neither page" if lacking else "")


def explanation(number, rows):
    """What `explain` prints of a number."""
    return "".join(f"fault {row[0]}: {row[1]}.\n    {row[2]}\n" for row in rows if row[0] == number)


def release():
    """The release of the programs."""
    return re.search(r'RELEASE: &str = "([^"]*)"', contents(f"{TOP}/crates/dpbr_cli/src/release.rt").decode())[1]


def of_the_tools(tally):
    """The Python tools name the same release as the programs."""
    tools = re.search(r'^RELEASE = "([^"]*)"', contents(f"{TOP}/tools/dpbn_tools/version.py").decode(), re.MULTILINE)[1]
    tally.add("tools/dpbn_tools/version.py", "" if tools == release() else f"{tools}, not {release()}")


def explains(tally, name, ask, program=None):
    """`explain` of each number, and of others; `--version`. The program is called by this name unless another one is given."""
    rows = table()
    numbers = sorted({row[0] for row in rows})
    for number in numbers:
        tally.add(f"{name} explain {number}", difference(ask(["explain", str(number)]), (explanation(number, rows).encode(), b"", 0)))
    tally.add(f"{name} explain +0{numbers[-1]}", difference(ask(["explain", f"+0{numbers[-1]}"]), (explanation(numbers[-1], rows).encode(), b"", 0)))
    tally.add(f"{name} --version", difference(ask(["--version"]), (f"{program or name} {release()}\n".encode(), b"", 0)))
    for words in (["explain"], ["explain", "3"], ["explain", "0"], ["explain", "65536"], ["explain", "-1"], ["explain", "1.5"], ["explain", ""],
                  ["explain", "1", "2"], ["explain", "--single", "1"], ["--version", "explain", "1"], ["explain", "1", "--version"], ["-V"],
                  ["--version", "--version"], ["--version=1"], ["version"]):
        out, error, status = ask(words)
        tally.add(f"{name} {words}", "" if (out, status) == (b"", 2) and error else f"{out!r:.200}, {error!r:.200}, status {status}")


def run_documents(tally):
    of_the_crates(tally)
    in_the_pages(tally)
    of_the_tools(tally)
