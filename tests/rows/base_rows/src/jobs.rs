//! Jobs are copied, and rounds follow each other.
use crate::said::claim;
use claims::{Dep, Deps, GREATEST_ROUND, Job, next_round};
use faults::Memory;
use pkgname::PkgName;
use pkgpath::PkgPath;
use std::alloc::Global;
use std::test::Fail;

fn dep(alloc: Global) -> Result<Dep, Fail> {
    let path = PkgPath::parse(alloc, b"a/q")?;
    let name = PkgName::parse(alloc, b"q-1")?;
    Ok(Dep {
        path,
        name,
        digest: [3; 32],
    })
}

fn job(alloc: Global) -> Result<Job, Fail> {
    let path = PkgPath::parse(alloc, b"a/b")?;
    let packages = Vec::from_array(alloc, [path.copy()?])?;
    let deps = Vec::from_array(alloc, [dep(alloc)?])?;
    Ok(Job {
        path,
        packages,
        claim: claim(1, 0),
        host: 7,
        deps: Deps::new(deps),
    })
}

/// The digest of its one dependency.
fn digest_of(job: &Job) -> Option<[u8; 32]> {
    match job.deps().as_slice() {
        [dep] => Some(dep.digest),
        _ => None,
    }
}

/// Whether a copy of the job says the same.
fn is_copied(job: &Job) -> Result<bool, Memory> {
    let copy = job.copy()?;
    let same = copy.path == job.path && copy.packages() == job.packages();
    Ok(same && copy.claim == job.claim && copy.host == 7 && digest_of(&copy) == Some([3; 32]))
}

#[test]
fn copies_jobs(rt: HostRuntime) -> Result<(), Fail> {
    let job = job(rt.alloc())?;
    let is_copied = is_copied(&job)?;
    assert!(rt; is_copied);
    Ok(())
}

#[test]
fn rounds_follow(rt: HostRuntime) {
    assert!(rt; GREATEST_ROUND == 9_223_372_036_854_775_807);
    assert!(rt; next_round(1) == Ok(2) && next_round(GREATEST_ROUND).is_err());
}
