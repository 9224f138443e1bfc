"""status.json of dpbn-report next to the table of its fields in dpbn-formats(5)."""
import re
import sys
import tempfile

from topics.report_played import Played, check, held, played, put
from topics.tally import TOP, contents

sys.path.insert(0, f"{TOP}/tools")

from dpbn_tools import progress  # noqa: E402


def table():
    """The fields that the manual page names, with their types; those that may be left out."""
    text = contents(f"{TOP}/man/dpbn-formats.5").decode()
    text = text.partition(".Ss Status of a bulk build\n")[2].partition("\n.El\n")[0]
    rows = re.findall(r"^\.It (\S+) Ta ([a-z ]+) Ta", text, re.MULTILINE)
    return {name.rstrip("?"): kind.split(" or ") for name, kind in rows}, {name[:-1] for name, _ in rows if name.endswith("?")}


def kinds_of(value):
    """The types that a value may be of."""
    if value is None:
        return {"null"}
    if isinstance(value, bool):
        return {"flag"}
    if isinstance(value, int):
        return {"whole"} if value >= 0 else set()
    if isinstance(value, str):
        return {"text", "time"} if progress.seconds_of(value) is not None else {"text"}
    return {"list"} if isinstance(value, list) else {"object"} if isinstance(value, dict) else set()


def misfits(fields, optional, value, name="", seen=None):
    """The fields of a status that the table doesn't have so, and those that lack."""
    # an object that is an element of a list has its fields named, and no row of its own
    is_element = isinstance(value, dict) and name.endswith("[]")
    if name and not is_element and not kinds_of(value) & set(fields.get(name, ())):
        yield f"{name} is {value!r:.60}"
    seen.add(name)
    if isinstance(value, list):
        for one in value:
            yield from misfits(fields, optional, one, f"{name}[]", seen)
    elif isinstance(value, dict) and f"{name}{{}}" in fields:
        for one in value.values():
            yield from misfits(fields, optional, one, f"{name}{{}}", seen)
    elif isinstance(value, dict):
        front = f"{name}." if name else ""
        wanted = {it[len(front):] for it in fields if it.startswith(front) and not re.search(r"[.\[{]", it[len(front):])}
        yield from (f"{front}{it} lacks" for it in wanted - set(value) if front + it not in optional)
        for key, one in value.items():
            yield from misfits(fields, optional, one, front + key, seen)


def schema(tally):
    """A status has the fields of the table, of those types, and no others; and each field of the table is in one."""
    fields, optional = table()
    seen = set()
    with played() as run:
        put(f"{run.folder}/times", "x/n 900 1000 1\nx/p 60 1000 1\n")
        put(f"{run.folder}/work-0/failed/{'0' * 64}", "no such unit\n")
        put(f"{run.folder}/work-0/times", "base/a 12 1000 0\n")
        run.run()
        run.append(0, held("x/o", "o-1", 2, "3.2"))
        _, found = run.run("--times", f"{run.folder}/times", "--at-failure", "true")
        wrong = list(misfits(fields, optional, found, seen=seen))
        check(tally, "status.json is as dpbn-formats(5) has it", not wrong and len(fields) > 90, wrong, len(fields))
    with tempfile.TemporaryDirectory() as folder:
        run = Played(folder, "a/b.FULLPKGNAME=b-1\na/b.BUILD_DEPENDS=a/c\na/c.FULLPKGNAME=c-1\na/c.BUILD_DEPENDS=a/b\n")
        run.log(0, [])
        _, found = run.run(logs=(0,), works=())
        wrong = list(misfits(fields, optional, found, seen=seen))
        check(tally, "status.json of a circle is so, too", not wrong and found["circles"] == [["a/b", "a/c"]], wrong, found["circles"])
        told = found["units"]["never"], found["state"]
        check(tally, "what is in a circle is never built", told == (2, "runs"), told)
    unseen = sorted(set(fields) - seen - {"failures[].again[]"})
    check(tally, "each field of dpbn-formats(5) is in a status", not unseen, unseen)
