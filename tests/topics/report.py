"""tools/dpbn-report: letters next to the stored cases of `dpbr status`, and a played run whose blocked paths were counted by hand. The
other files of its topic are report_*.py."""
import os
import random
import sys

from topics import report_page, report_real, report_runs, report_schema, report_times
from topics.report_played import BLOCKS, COUNTS, LIMIT, UNITS, check, letters_by_dpbr, letters_in, played
from topics.tally import PROGRAM, TESTS, TOP, contents, difference

sys.path.insert(0, f"{TOP}/tools")

from dpbn_tools import letters, listings, needs, units  # noqa: E402


def failures_of(found):
    return [(one["unit"], one["host"], one["reason"], one["blocks"], one["holds"]) for one in found["failures"]]


def as_counted(tally):
    """What a report says of the played run is what was counted by hand."""
    with played() as run:
        said, found = run.run()
        tally.add("dpbn-report of a played run", difference(said, (b"", b"", 0)))
        wanted = [(unit, host, why, *BLOCKS[unit]) for unit, host, why in
                  (("lib/c", 0, "status 1"), ("tool/h", 0, "status 2"), ("tool/h", 1, "status 2"), ("x/k", 1, "it made no x/k"))]
        check(tally, "the same, its failures", failures_of(found) == wanted, failures_of(found), wanted)
        check(tally, "the same, its letters", (found["counts"], found["units"]) == (COUNTS, UNITS), found["counts"], found["units"])
        own = [[one["counts"][letter] for letter in "IBQT!"] for one in found["hosts"]]
        check(tally, "the same, the letters of each host", own == [[2, 1, 5, 7, 2], [2, 0, 6, 7, 2], [1, 0, 6, 8, 2]], own)
        built = [(one["unit"], one["host"], one["state"]) for one in found["running"]]
        check(tally, "the same, what is built", built == [("x/n", 1, "builds"), ("x/o", 2, "claimed")], found["running"])
        check(tally, "the same, since when", 4000 <= found["running"][0]["seconds"] < 4000 + LIMIT, found["running"])
        check(tally, "the same, its longest chain", found["chain"] == {"units": ["x/n", "x/p"], "seconds": None}, found["chain"])
        listed = {one["unit"]: one for one in found["list"]}
        check(tally, "the same, what waits", (listed["tool/i"]["waits"], listed["app/g"]["waits"]) == (["lib/d", "tool/h"], ["lib/c"]),
              listed["tool/i"], listed["app/g"])
        blocked = [listed[it].get("blocked") for it in ("tool/i", "app/e", "x/p")]
        check(tally, "the same, what blocks", blocked == [["lib/c", "tool/h"], ["lib/c"], None], blocked)
        tries = [listed[it]["tries"] for it in ("tool/h", "lib/c", "base/a", "x/n", "lib/d")]
        check(tally, "the same, tries", tries == [2, 1, 1, 1, 0], listed)
        ignored = {"x/l": "IGNORE: only for <vax>", "x/m": "it needs x/l, which is ignored"}
        check(tally, "the same, what is ignored", found["ignored"] == ignored, found["ignored"])
        tail = found["failures"][0]["tail"]
        check(tally, "the same, the end of a log", (len(tail), tail[-1]) == (40, "error: <b>lib/c</b> & \ufffd[31mmore"), tail[-2:])
        copy = contents(f"{run.out}/{found['failures'][0]['log']}").decode()
        check(tally, "the same, the log itself", copy.startswith("cc -c part0.c\n") and copy.count("\n") == 101, copy[:100])
        words(tally, run, found)
        dpbr(tally, run, found)


def words(tally, run, found):
    """status.txt has lines of 80 columns, and says it all."""
    text = contents(f"{run.out}/status.txt").decode()
    wide = [line for line in text.split("\n") if len(line) > 80]
    check(tally, "status.txt, its width", not wide, wide)
    wanted = ["Bulk build: runs, 20 %", "I=2 installable  B=1 built  Q=5 can be built  T=7 waiting  !=2 ignored", "       6 lib/c ",
              "       2 tool/h ", "it made no x/k", "  x/n   ", "LONGEST CHAIN LEFT: 2 units", "  x/n > x/p", "1 h 06 min"]
    check(tally, "status.txt, what it says", all(it in text for it in wanted), [it for it in wanted if it not in text], text)


def dpbr(tally, run, found):
    """`dpbr status` of the paths that are held has the same letters, path by path."""
    if not os.path.exists(PROGRAM):
        tally.skip("dpbn-report next to dpbr status", "dpbr isn't built here")
        return
    check(tally, "dpbr status of the same", letters_by_dpbr(run.folder, found) == letters_in(found), letters_in(found))


def letters_of(folder, called):
    """What `dpbr status` should print of a stored case, by the modules of the report."""
    names = [word for word in called[1:] if word not in ("--single", "--")]
    try:
        tree = listings.read(contents(f"{folder}/{names[0]}"), "--single" in called)
    except listings.Fault as fault:
        return f"dpbr: {fault}\n"
    division = units.Division(tree)
    shown = letters.Letters(letters.Plan(division))
    for line in filter(None, contents(f"{folder}/{names[1]}").decode("latin-1").split("\n")):
        place = tree.place.get(listings.canonical(line) or "", -1)
        if place < 0 or division.unit_at[place] < 0:
            return None
        if not shown.held[place]:
            shown.hold_path(place)
    lines = [f"{shown.letter(place)} {path} {tree.names[place]}\n" for place, path in enumerate(tree.paths)]
    return "".join(lines) + " ".join(f"{letter}={shown.counts[letter]}" for letter in "IBQT!") + "\n"


def stored(tally):
    """The letters of all stored cases, and the faults of their listings."""
    wrong, compared = [], 0
    for name in sorted(os.listdir(f"{TESTS}/status")):
        folder = f"{TESTS}/status/{name}"
        got = letters_of(folder, contents(f"{folder}/words").decode().split())
        # a text of held paths that dpbr refuses isn't one of the report's
        if got is not None:
            compared += 1
            wanted = contents(f"{folder}/stdout") or contents(f"{folder}/stderr")
            wrong += [] if got.encode("latin-1") == wanted else [name]
    check(tally, "letters of stored cases", not wrong and compared > 150, wrong, compared)


# ---- blocked paths, counted in another way

def built_without(division, held, left_out):
    """The paths that are held once all is built that can be, except for some units: by building again and again whatever can be."""
    held, run = set(held), division.tree.run
    while True:
        able = set(held)
        while True:
            fewer = {place for place in able if set(run[place]) <= able}
            if fewer == able:
                break
            able = fewer
        new = [unit for number, unit in enumerate(division.units)
               if number not in left_out and unit.places[0] not in held and set(unit.needs) <= able]
        if not new:
            return held
        held.update(place for unit in new for place in unit.places)


def random_listing(dice, count):
    """Paths of which some are built together, some are ignored, and some need each other."""
    paths = [f"a/p{n}" if dice.random() < 0.7 else f"a/p{n - n % 3},-s{n % 3}" for n in range(count)]
    paths = list(dict.fromkeys(paths))
    lines = []
    for place, path in enumerate(paths):
        lines.append(f"{path}.FULLPKGNAME=p{place}-1")
        for variable, odds in (("BUILD", 0.5), ("LIB", 0.3), ("RUN", 0.3)):
            far = 1.0 if dice.random() < 0.03 else 0.0
            near = [paths[dice.randrange(place)] for _ in range(dice.randrange(4))] if place and dice.random() < odds else []
            lines += [f"{path}.{variable}_DEPENDS={' '.join(near + [dice.choice(paths)] * (dice.random() < far))}"]
        lines += [f"{path}.IGNORE=no"] if dice.random() < 0.02 else []
    return "\n".join(lines) + "\n"


def counted_again(tally):
    """What units block is what isn't built if all is built but these; so is what can never be built."""
    wrong, blocked = [], 0
    for seed in range(60):
        dice = random.Random(seed)
        division = units.Division(listings.read(random_listing(dice, 60).encode()))
        all_needs, shown = needs.Needs(division), letters.Letters(letters.Plan(division))
        for _ in range(dice.randrange(len(division.units))):
            able = [number for number in range(len(division.units)) if not shown.is_held(number) and not shown.waits[number]]
            if able:
                shown.hold(dice.choice(able))
        held = {place for place in range(len(division.tree.paths)) if shown.held[place]}
        most = built_without(division, held, ())
        never = {number for number, unit in enumerate(division.units) if unit.places[0] not in most}
        failed = dice.sample([it for it in range(len(division.units)) if not shown.is_held(it)], 3) if len(held) < 40 else []
        counts, _ = all_needs.blocked(shown, failed)
        for unit in failed:
            lost = most - built_without(division, held, (unit,)) - set(division.units[unit].places)
            alone, by_unit = all_needs.blocked(shown, [unit])
            # what can never be built isn't lost by that
            told = {place for number in by_unit if number not in never for place in division.units[number].places}
            blocked += len(lost)
            wrong += [] if lost == told and counts[unit] == alone[unit] else [(seed, division.units[unit].name, len(lost), len(told))]
        wrong += [] if never == all_needs.never else [(seed, "never", never ^ all_needs.never)]
    check(tally, "blocked paths, counted in another way", not wrong and blocked > 100, wrong[:5], blocked)


def run_parts(tally, parts):
    for part in parts:
        tally.case(part)


def run_without_programs(tally):
    run_parts(tally, (stored, counted_again, report_schema.schema, report_page.page, report_runs.hooks, report_runs.again_and_again,
                      report_runs.watched, report_runs.refused, report_runs.odd, report_times.ends, report_times.remembered,
                      report_times.morning, report_times.full))


def run(tally):
    run_parts(tally, (as_counted, report_real.real))
