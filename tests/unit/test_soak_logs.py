"""Unit tests of what tests/soak reads of logs: that good ones are right, and that each kind of wrong is found."""
import hashlib
import os

import pytest

from soak_parts import logs, safety
from topics import packages
from schedules import Units

LINES = ["a/b.FULLPKGNAME=b-1", "c/d.FULLPKGNAME=d-2", "c/d.BUILD_DEPENDS=a/b", "c/d.RUN_DEPENDS=a/b", "e/f.FULLPKGNAME=f-3", "e/f.LIB_DEPENDS=c/d"]
UNITS = Units(LINES)


def saw(*lines):
    return [("saw", f"{hashlib.sha256(''.join(f'{line}{chr(10)}' for line in lines).encode()).hexdigest()}\n".encode())]


B = packages.record("a/b", "b-1", saw(), host=0)
B_LINE = packages.signed("a/b", "b-1", B)
D = packages.record("c/d", "d-2", saw(B_LINE), built=[B_LINE], run=["a/b"], host=1, claim="1.1")
D_LINE = packages.signed("c/d", "d-2", D)
F = packages.record("e/f", "f-3", saw(B_LINE, D_LINE), built=[D_LINE], run=["c/d"], host=2, claim="2.2")
BUILDS = {"a/b": B, "c/d": D, "e/f": F}
CLAIMS = {"a/b": (1, 0), "c/d": (1, 1), "e/f": (2, 2)}


def notes(builds=BUILDS, voted=BUILDS, claims=CLAIMS):
    found = []
    for unit, record in voted.items():
        found.append(packages.note(2, unit, packages.claim(*claims[unit])))
        found.append(packages.note(3, unit, packages.claim(*claims[unit]) + packages.build(record)))
    return found + [packages.note(4, unit, packages.build(record)) for unit, record in builds.items()]


def read(folder, *texts):
    """The logs of members with these notes each, and what is wrong with each."""
    paths = []
    for me, text in enumerate(texts):
        paths.append(f"{folder}/node-{me}.log")
        with open(paths[-1], "wb") as file:
            file.write(packages.log(text, weights=(1,) * len(texts), me=me))
    return safety.read(paths)


def problems(folder, *texts, **more):
    found, wrong = read(folder, *texts)
    return wrong + safety.problems_of(found, UNITS, **more)


def test_good(tmp_path):
    found, wrong = read(tmp_path, notes(), notes(), notes())
    assert not wrong and not safety.problems_of(found, UNITS)
    assert [log.own for log in found] == [0, 1, 2] and found[0].notes == {1: 0, 2: 3, 3: 3, 4: 3}
    assert list(found[0].held) == list(BUILDS) and found[0].held["c/d"].packages[0].built == (B_LINE,)


def test_a_third_may_know_nothing(tmp_path):
    assert not problems(tmp_path, notes(), notes(), [])


def test_several_packages_in_a_build(tmp_path):
    docs, main = packages.record("g/h,-docs", "h-docs-1", []), packages.record("g/h,-main", "h-1", [("x", b"\n\n@dpb 1\n")])
    found, _ = read(tmp_path, [packages.note(4, "g/h", packages.build(docs, main))])
    assert [it.path for it in found[0].held["g/h"].packages] == ["g/h,-docs", "g/h,-main"]
    assert [it.digest for it in found[0].held["g/h"].packages] == [packages.digest(docs), packages.digest(main)]


def test_two_packages(tmp_path):
    other = packages.record("a/b", "b-1", saw(), host=1)
    told = problems(tmp_path, notes(), notes(), notes({"a/b": other}, {}))
    assert any("TWO PACKAGES FOR ONE PATH" in it for it in told)


def test_no_majority(tmp_path):
    told = problems(tmp_path, notes(), notes(voted={}), notes(voted={}))
    assert sum("votes of a majority" in it for it in told) == 3


def test_votes_of_a_lost_member_may_be_missing(tmp_path):
    assert not problems(tmp_path, notes(), notes(voted={}), [], lost=1)


def test_votes_under_several_claims_are_no_majority(tmp_path):
    later = notes(claims={"a/b": (3, 0), "c/d": (3, 1), "e/f": (3, 2)})
    assert any("votes of a majority" in it for it in problems(tmp_path, notes(), later, []))


@pytest.mark.parametrize("record, told", [
    (packages.record("c/d", "d-3", [], built=[B_LINE]), "has the name d-3"),
    (packages.record("c/d", "d-2", [], built=[]), "not on what it needs"),
    (packages.record("c/d", "d-2", [], built=[packages.signed("a/b", "b-1", b"x")]), "BUILT ON WHAT NOBODY PUBLISHED"),
    (packages.record("c/d", "d-2", saw(), built=[B_LINE]), "next to other packages"),
    (packages.record("c/d", "d-2", [("built-on", b"x\n")], built=[B_LINE]), "next to other packages")])
def test_not_allowed(tmp_path, record, told):
    builds = {"a/b": B, "c/d": record}
    text = notes(builds, builds)
    assert any(told in it for it in problems(tmp_path, text, text, text))


def test_what_was_handed_in_saw_another_run(tmp_path):
    builds = {"a/b": B, "c/d": packages.record("c/d", "d-2", saw(), built=[B_LINE])}
    text = notes(builds, builds)
    assert not problems(tmp_path, text, text, text, handed={"c/d"})


def test_unlisted(tmp_path):
    builds = {"x/y": packages.record("x/y", "y-1", [])}
    text = notes(builds, builds, {"x/y": (1, 0)})
    assert any("isn't listed" in it for it in problems(tmp_path, text, text, text))


def test_broken_promises(tmp_path):
    late = [packages.note(2, "a/b", packages.claim(2, 1)), packages.note(3, "a/b", packages.claim(1, 0) + packages.build(B))]
    assert any("after a promise" in it for it in problems(tmp_path, late))
    twice = [packages.note(3, "a/b", packages.claim(1, 0) + packages.build(it)) for it in (B, packages.record("a/b", "b-1", [], host=1))]
    assert any("two votes" in it for it in problems(tmp_path, twice))
    held = [packages.note(4, "a/b", packages.build(it)) for it in (B, packages.record("a/b", "b-1", [], host=1))]
    assert any("held twice" in it for it in problems(tmp_path, held))


@pytest.mark.parametrize("end", [b"", b"\1", b"\1\0\0\0\x09\x07\0\3a/b12"])
def test_malformed(tmp_path, end):
    path = f"{tmp_path}/node-0.log"
    with open(path, "wb") as file:
        file.write(packages.log(notes(), end=end))
    found, wrong = safety.read([path])
    assert not found and len(wrong) == 1


def test_order():
    found = [logs.Package(it, f"{it}-1", it, 0, "1.0", built, (), {}) for it, built in
             (("c", ("b b-1 b",)), ("b", ("a a-1 a",)), ("a", ()), ("d", ("x x-1 x",)))]
    assert [it.path for it in safety.in_order(found)] == ["a", "b", "c", "d"]


def test_follower(tmp_path):
    path = f"{tmp_path}/log"
    follower = logs.Follower(path)
    assert follower.look() == 0
    text = packages.log(notes(), weights=(1, 1, 2))
    for size, count in ((20, 0), (46, 0), (len(text), 3), (len(text), 3)):
        with open(path, "wb") as file:
            file.write(text[:size])
        assert follower.look() == count
    os.unlink(path)
    assert follower.look() == 0


def test_counted(tmp_path):
    def file(name, text):
        with open(f"{tmp_path}/{name}", "w") as out:
            out.write(text)
        return f"{tmp_path}/{name}"

    # u was built twice for nothing; v once more since it failed; w once more since it was killed; x was ended on request
    one = file("one", "begun u 1\ndone u 1\nbegun v 2\nfailed v 2\nbegun w 3\nbegun x 4\nended x 4\n")
    other = file("other", "begun u 1\ndone u 1\nbegun v 2\ndone v 2\nbegun w 3\ndone w 3\nbegun x 4\ndone x 4\nbeg")
    assert safety.counted([one, other]) == safety.Counted(8, 2, 4)
    # what a lost host built had to be built again
    assert safety.counted([other], [one]) == safety.Counted(8, 4, 4)
    assert safety.counted([f"{tmp_path}/none"]) == safety.Counted(0, 0, 0)
