"""Several wrong bodies at once: which functions they change, and what a check says of each."""
import edited
from edited import Pair, Place

SOURCE = """//! A module.
use std::fmt;

const MOST: u8 = 3;

impl Name {
    /// The stem.
    pub fn stem(&self) -> &[u8] {
        let end = self.length;
        &self.text[..end]
    }

    pub(crate) fn copy(&self) -> Name {
        Name { length: self.length }
    }
}

fn is_short(text: &[u8]) -> bool
    requires { true }
{
    text.len() < 3
}
"""


def test_pairs_of_an_edit():
    """Several pairs, also of one file, and an empty text."""
    text = "file: src/a.rt\nold: x: y\nnew: z\nold: b\nnew: \nfile: src/c.rt\nold: d\nnew: e\n"
    assert edited.pairs_in(text) == [Pair("src/a.rt", "x: y", "z"), Pair("src/a.rt", "b", ""), Pair("src/c.rt", "d", "e")]


def test_modules():
    """The root's file is no module."""
    assert [edited.module_of(it) for it in ("src/lib.rt", "src/main.rt", "src/a.rt", "src/a/b.rt")] == ["", "", "a", "a/b"]


def test_functions_by_positions():
    """In a body, in a signature, in none."""
    where = {"..end": "stem", "length: self": "copy", "< 3": "is_short", "requires": "is_short", "MOST": None, "use std": None}
    assert {it: edited.function_at(SOURCE, SOURCE.index(it)) for it in where} == where


def test_a_batch():
    """Two edits of one function aren't tried at once, nor one whose text is gone, nor one that is in no function."""
    edits = {"a": [Pair("src/a.rt", "..end", "1..end")],
             "b": [Pair("src/a.rt", "self.length;", "0;")],
             "c": [Pair("src/a.rt", "< 3", "< 4"), Pair("src/a.rt", "use std::fmt;", "use std::io;")],
             "d": [Pair("src/a.rt", "MOST: u8 = 3", "MOST: u8 = 4")],
             "e": [Pair("src/a.rt", "not there", "")]}
    changed, chosen = edited.batch_of(edits, {"src/a.rt": SOURCE, "src/b.rt": ""})
    assert chosen == {"a": {Place("a", "stem")}, "c": {Place("a", "is_short")}}
    assert list(changed) == ["src/a.rt"] and "1..end" in changed["src/a.rt"] and "std::io" in changed["src/a.rt"]


SAID = """./proofs/a/Name/stem/Answers.antt:5:13: error: `returns-clause-ok`: `search`: no proof
fn names::a::Name::stem: not proved
fn names::a::is_short: not proved; it calls `names::a::Name::stem`, which is not proved
fn names::a::Name::copy: proved
fn names::a::fn::Name::write::any: not proved
fn names::a::Name::write: no proof: it calls `names::a::fn::Name::write::any`, which is not proved
fn names::b::Name::other: no proof: it calls `names::a::Name::stem`, which is not proved
fn names::b::copies: no proof: expected answers in ./proofs/b/copies/Answers.antt; `search` did not prove `loop-preserved`
fn names::b::both: no proof: expected answers in ./proofs/b/both/Answers.antt; `search` did not prove `returns`; it calls `names::b::copies`
""".splitlines()


def test_verdicts():
    """Refused, proved, unknown since a callee isn't proved, refused in a closure or without answers, and not judged at all."""
    chosen = {name: {Place("a", name)} for name in ("stem", "copy", "is_short", "write", "gone")}
    wanted = {"stem": True, "copy": False, "is_short": None, "write": True, "gone": None}
    assert edited.verdicts(SAID, "names", chosen) == wanted
    chosen = {name: {Place("b", name)} for name in ("other", "copies", "both")}
    assert edited.verdicts(SAID, "names", chosen) == {"other": None, "copies": True, "both": None}


def test_open_in_a_line():
    """A function with an open goal, or a module of lemmas that doesn't hold; not a function that only calls one."""
    lines = [SAID[1], SAID[2], SAID[3], SAID[7], "./proofs/Sums.antt:12:3: error: this isn't equal", "./specs/Sums.antt:12:3: error: no such name"]
    wanted = ["names::a::Name::stem", None, None, "names::b::copies", "Sums", None]
    assert [edited.open_in(it) for it in lines] == wanted


def test_reasons():
    """The goal that is open, if the check says which."""
    assert edited.reason_of(SAID, {Place("a", "stem")}) == "the goal returns-clause-ok is open"
    assert edited.reason_of(SAID, {Place("b", "copies")}) == "the goal loop-preserved is open"
    assert edited.reason_of(SAID, {Place("a", "write")}) == "it isn't proved"
