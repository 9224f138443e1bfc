//! What is noted and said is copied.
use crate::said::{Said, Sign, claim, said};
use ballots::{Body, Fact, Message, Note};
use faults::Memory;
use package_record::Build;
use pkgpath::PkgPath;
use std::alloc::Global;
use std::test::Fail;

fn copied(body: Body<Sign>) -> Result<Said, Memory> {
    let copy = body.copy()?;
    Ok(said(&copy))
}

#[test]
fn copies_bodies(rt: HostRuntime) -> Result<(), Fail> {
    let vote = (claim(2, 1), Sign { number: 3 });
    let report = copied(Body::Promise(claim(3, 0), Some(vote)))?;
    assert!(rt; report == ("report", Some(claim(2, 1)), Some(3)));
    let agreed = copied(Body::Agreed(Sign { number: 5 }))?;
    assert!(rt; agreed == ("agreed", None, Some(5)));
    Ok(())
}

/// The text of a build of one package by host 3, with one file that holds `abc`.
static TEXT: &str = "@dpb 1\n@name b-1.0\n@comment pkgpath=a/b\n@host 3\n@claim 1.0\nx\n\
     @sha ba7816bf8f01cfea414140de5dae2223b00361a396177a9cb410ff61f20015ad\n\
     @size 3\n\nabc";

fn build(alloc: Global) -> Result<Build, Fail> {
    Ok(Build::parse(alloc, TEXT.as_bytes())?)
}

/// The host of the one package that was built.
fn host_of(build: &Build) -> Option<u16> {
    match build.packages() {
        [record] => Some(record.host()),
        _ => None,
    }
}

fn path(alloc: Global) -> Result<PkgPath, Fail> {
    Ok(PkgPath::parse(alloc, b"a/b")?)
}

/// The host of what the body proposes.
fn proposed_by(body: &Body) -> Option<u16> {
    match body {
        Body::Propose(_, build) => host_of(build),
        _ => None,
    }
}

fn message(alloc: Global) -> Result<Message, Fail> {
    let path = path(alloc)?;
    let build = build(alloc)?;
    Ok(Message {
        sender: 1,
        tree: [2; 32],
        path,
        body: Body::Propose(claim(1, 0), build),
    })
}

/// What a copy of the message says: the sender, whether the path is the same, and the host.
fn heard(message: &Message) -> Result<(u8, bool, Option<u16>), Memory> {
    let copy = message.copy()?;
    let same = copy.path == message.path && copy.tree == message.tree;
    Ok((copy.sender, same, proposed_by(&copy.body)))
}

#[test]
fn copies_messages(rt: HostRuntime) -> Result<(), Fail> {
    let message = message(rt.alloc())?;
    let heard = heard(&message)?;
    assert!(rt; heard == (1, true, Some(3)));
    Ok(())
}

fn note(alloc: Global) -> Result<Note, Fail> {
    let path = path(alloc)?;
    let build = build(alloc)?;
    Ok(Note {
        path,
        fact: Fact::Held(build),
    })
}

/// What a copy of the note says: whether the path is the same, and the host.
fn noted(note: &Note) -> Result<(bool, Option<u16>), Memory> {
    let copy = note.copy()?;
    let same = copy.path == note.path;
    match &copy.fact {
        Fact::Held(build) => Ok((same, host_of(build))),
        _ => Ok((same, None)),
    }
}

#[test]
fn copies_notes(rt: HostRuntime) -> Result<(), Fail> {
    let note = note(rt.alloc())?;
    let noted = noted(&note)?;
    assert!(rt; noted == (true, Some(3)));
    Ok(())
}
