//! Words of a build that are taken, and some that are not.
use clap::error::ErrorKind;
use dpbn_cli::{Call, Peers, Run, Site, dpbn_words};
use std::alloc::{AllocError, Global};
use std::test::Fail;

/// What each build has to be told but where the members listen.
const NEEDED: [&str; 12] = [
    "dpbn",
    "build",
    "--listing",
    "L",
    "--work",
    "W",
    "--dir",
    "D",
    "--members",
    "3",
    "--me",
    "1",
];

#[test]
fn builds_that_are_taken(rt: HostRuntime) -> Result<(), Fail> {
    let alloc = rt.alloc();
    assert!(rt; is_plain(alloc)?);
    assert!(rt; is_whole(alloc)?);
    Ok(())
}

#[test]
fn builds_that_are_not(rt: HostRuntime) -> Result<(), Fail> {
    let alloc = rt.alloc();
    assert!(rt; is_refused(alloc, &[], ErrorKind::MissingRequiredArgument)?);
    assert!(rt; is_refused(alloc, &["--hosts=h:1"], ErrorKind::MissingRequiredArgument)?);
    let both = ["--base=5000", "--hosts=h:1", "--unsealed"];
    assert!(rt; is_refused(alloc, &both, ErrorKind::ArgumentConflict)?);
    let jobs = ["--base=5000", "--jobs=0"];
    assert!(rt; is_refused(alloc, &jobs, ErrorKind::ValueValidation)?);
    let tries = ["--base=5000", "--tries=10"];
    assert!(rt; is_refused(alloc, &tries, ErrorKind::ValueValidation)?);
    let rest = ["--base=5000", "--rest=1000001"];
    assert!(rt; is_refused(alloc, &rest, ErrorKind::ValueValidation)?);
    let turns = ["--base=5000", "--turns=1"];
    assert!(rt; is_refused(alloc, &turns, ErrorKind::UnknownArgument)?);
    Ok(())
}

/// The words of a build with these behind those that it needs.
fn words<'a>(alloc: Global, more: &[&'a str]) -> Result<Vec<&'a str>, AllocError> {
    let mut words = Vec::new(alloc);
    words.extend_from_slice(&NEEDED)?;
    words.extend_from_slice(more)?;
    Ok(words)
}

/// Whether words with these are refused for a fault of this kind.
fn is_refused(alloc: Global, more: &[&str], kind: ErrorKind) -> Result<bool, AllocError> {
    let words = words(alloc, more)?;
    match dpbn_words(alloc, words.as_slice()) {
        Ok(_) => Ok(false),
        Err(error) => Ok(error.kind() == kind),
    }
}

/// Whether what wasn't given is none.
fn is_plain(alloc: Global) -> Result<bool, AllocError> {
    let words = words(alloc, &["--base", "5000"])?;
    match dpbn_words(alloc, words.as_slice()) {
        Ok(
            Call::Build {
                site,
                me: 1,
                peers: Peers::Base(5000),
                patience: None,
                run,
            },
        ) => Ok(is_plain_site(&site) && is_plain_run(&run)),
        _ => Ok(false),
    }
}

fn is_plain_site(site: &Site<'_>) -> bool {
    let is_told = site.listing == "L" && site.work == "W" && site.dir == "D" && site.members == 3;
    let is_counted = site.weights.is_some() || site.jobs.is_some() || site.progress.is_some();
    let is_timed = site.takeover.is_some() || site.tries.is_some() || site.rest.is_some();
    is_told && !is_counted && !is_timed && !site.is_single
}

fn is_plain_run(run: &Run<'_>) -> bool {
    run.key.is_none() && !run.is_continued
}

/// Whether each option gives its own value.
fn is_whole(alloc: Global) -> Result<bool, AllocError> {
    let more = [
        "--hosts=h:1,i:2,j:3",
        "--key=K",
        "--continue",
        "--weights=1,2,1",
        "--patience=7",
        "--jobs=64",
        "--takeover=1",
        "--tries=9",
        "--rest=1000000",
        "--progress=5",
        "--single",
    ];
    let words = words(alloc, &more)?;
    match dpbn_words(alloc, words.as_slice()) {
        Ok(
            Call::Build {
                site,
                me: 1,
                peers: Peers::Hosts("h:1,i:2,j:3"),
                patience: Some(7),
                run,
            },
        ) => Ok(is_whole_site(&site) && is_whole_run(&run)),
        _ => Ok(false),
    }
}

fn is_whole_site(site: &Site<'_>) -> bool {
    let is_told = site.work == "W" && site.weights == Some("1,2,1") && site.is_single;
    let is_counted = site.jobs == Some(64) && site.takeover == Some(1) && site.tries == Some(9);
    is_told && is_counted && site.rest == Some(1_000_000) && site.progress == Some(5)
}

fn is_whole_run(run: &Run<'_>) -> bool {
    run.key == Some("K") && run.is_continued
}
