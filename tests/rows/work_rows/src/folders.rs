//! A folder of its own, and each way in which those who write there may end.
use claims::{Claim, Dep, Deps, Job};
use faults::Fault;
use job_folder::{Answer, Folder, LONGEST_ANSWER, Lock, Name, WorkFault, job_text, task_text};
use pkgname::PkgName;
use pkgpath::PkgPath;
use std::alloc::Global;
use std::fs::File;
use std::fs;
use std::os::unix::fs::symlink;
use std::test::Fail;
use std::time::{Duration, SystemTime};

/// The digest of the tree.
const TREE: [u8; 32] = [0x5a; 32];

/// The task's text.
const TASK: &str = "@tree 5a5a5a5a5a5a5a5a5a5a5a5a5a5a5a5a5a5a5a5a5a5a5a5a5a5a5a5a5a5a5a5a\n\
    @unit lang/p007\n\
    @package lang/p007\n\
    @built net/p003 p003-4.0 3c3c3c3c3c3c3c3c3c3c3c3c3c3c3c3c3c3c3c3c3c3c3c3c3c3c3c3c3c3c3c3c\n";

/// Its SHA-256, as sha256(1) tells it.
const NAME: &str = "4e46c73beca2e526d2c45045749acf9f71b404fcdc2bce6ae47cc7f261fc7644";

/// What a builder hands in.
const BUILDS: &str = "{\"lang/p007\":[]}\n";

/// A job of the unit, on a signature with this digest, for a claim of a round.
fn job(alloc: Global, digest: u8, round: u64) -> Result<Job, Fail> {
    let path = PkgPath::parse(alloc, b"lang/p007")?;
    let mut packages = Vec::new(alloc);
    packages.push(path.copy()?)?;
    let mut deps = Vec::new(alloc);
    deps.push(Dep {
        path: PkgPath::parse(alloc, b"net/p003")?,
        name: PkgName::parse(alloc, b"p003-4.0")?,
        digest: [digest; 32],
    })?;
    Ok(Job {
        path,
        packages,
        claim: Claim { round, member: 1 },
        host: 1,
        deps: Deps::new(deps),
    })
}

/// What is told of an answer.
fn told(answer: &Answer) -> &'static str {
    match answer {
        Answer::NotYet => "not yet",
        Answer::Failed => "failed",
        Answer::TooLong => "too long",
        Answer::Made(text) if text.as_slice() == BUILDS.as_bytes() => "made",
        Answer::Made(text) if text.is_empty() => "no bytes",
        Answer::Made(_) => "other bytes",
    }
}

/// Whether what there is of the build is told so.
fn is_told(rt: &HostRuntime, folder: &Folder<'_>, name: &Name, word: &str) -> Result<bool, Fail> {
    let answer = folder.answer(rt, name)?;
    Ok(told(&answer) == word)
}

#[test]
fn texts_and_names(rt: HostRuntime) -> Result<(), Fail> {
    let alloc = rt.alloc();
    let first = job(alloc, 0x3c, 3)?;
    let later = job(alloc, 0x3c, 12)?;
    let other = job(alloc, 0x3d, 3)?;
    let text = task_text(alloc, &TREE, &first)?;
    assert!(rt; text.as_slice() == TASK.as_bytes());
    let text = job_text(alloc, &TREE, &first)?;
    let whole = format!(in alloc; "{TASK}@host 1\n@claim 3.1\n")?;
    assert!(rt; text.as_slice() == whole.as_bytes());
    let name = Name::of(alloc, &TREE, &first)?;
    assert!(rt; name.as_str() == NAME);
    let same = Name::of(alloc, &TREE, &later)?;
    assert!(rt; same.as_str() == NAME);
    let copy = same.copy()?;
    assert!(rt; copy.as_str() == NAME);
    let differs = Name::of(alloc, &TREE, &other)?;
    assert!(rt; differs.as_str() != NAME);
    let elsewhere = Name::of(alloc, &[0x5b; 32], &first)?;
    assert!(rt; elsewhere.as_str() != NAME);
    Ok(())
}

/// A job goes out, its build comes in, and both are forgotten.
#[test]
fn a_build_comes_in(rt: HostRuntime) -> Result<(), Fail> {
    let folder = Folder::open(&rt, "work", 0, false)?;
    let name = folder.post(&rt, &TREE, &job(rt.alloc(), 0x3c, 3)?)?;
    let other = folder.post(&rt, &TREE, &job(rt.alloc(), 0x3d, 3)?)?;
    let path = format!(in rt.alloc(); "work/jobs/{NAME}")?;
    let text = fs::read(&rt, path.as_str())?;
    assert!(rt; text.as_slice() == job_text(rt.alloc(), &TREE, &job(rt.alloc(), 0x3c, 3)?)?.as_slice());
    assert!(rt; is_told(&rt, &folder, &name, "not yet")?);
    let done = format!(in rt.alloc(); "work/done/{NAME}")?;
    fs::write(&rt, done.as_str(), BUILDS)?;
    assert!(rt; is_told(&rt, &folder, &name, "made")?);
    assert!(rt; is_told(&rt, &folder, &other, "not yet")?);
    folder.forget(&rt, &name)?;
    folder.forget(&rt, &name)?;
    assert!(rt; is_told(&rt, &folder, &name, "not yet")?);
    assert!(rt; !fs::exists(&rt, path.as_str())?);
    Ok(())
}

/// A job is out as long as its file is there, and goes out again.
#[test]
fn what_is_posted(rt: HostRuntime) -> Result<(), Fail> {
    let folder = Folder::open(&rt, "work", 0, false)?;
    let job = job(rt.alloc(), 0x3c, 3)?;
    let name = Name::of(rt.alloc(), &TREE, &job)?;
    let half = format!(in rt.alloc(); "work/jobs/.{NAME}.0")?;
    fs::write(&rt, half.as_str(), "@tree 5a")?;
    assert!(rt; !folder.is_posted(&rt, &name)?);
    drop(folder.post(&rt, &TREE, &job)?);
    assert!(rt; folder.is_posted(&rt, &name)?);
    let path = format!(in rt.alloc(); "work/jobs/{NAME}")?;
    fs::remove_file(&rt, path.as_str())?;
    assert!(rt; !folder.is_posted(&rt, &name)?);
    drop(folder.post(&rt, &TREE, &job)?);
    assert!(rt; folder.is_posted(&rt, &name)?);
    folder.forget(&rt, &name)?;
    assert!(rt; !folder.is_posted(&rt, &name)?);
    Ok(())
}

/// A job is answered by what was built, and by a mark that it failed, as long as either is there.
#[test]
fn what_is_answered(rt: HostRuntime) -> Result<(), Fail> {
    let folder = Folder::open(&rt, "work", 0, false)?;
    let name = folder.post(&rt, &TREE, &job(rt.alloc(), 0x3c, 3)?)?;
    let other = folder.post(&rt, &TREE, &job(rt.alloc(), 0x3d, 3)?)?;
    let done = format!(in rt.alloc(); "work/done/{NAME}")?;
    let half = format!(in rt.alloc(); "work/done/.{NAME}.77")?;
    let mark = format!(in rt.alloc(); "work/failed/{NAME}")?;
    fs::write(&rt, half.as_str(), BUILDS)?;
    assert!(rt; !folder.is_answered(&rt, &name)?);
    fs::write(&rt, done.as_str(), BUILDS)?;
    assert!(rt; folder.is_answered(&rt, &name)?);
    assert!(rt; !folder.is_answered(&rt, &other)?);
    folder.mark(&rt, &name, "the text names no builds")?;
    assert!(rt; folder.is_answered(&rt, &name)?);
    fs::remove_file(&rt, mark.as_str())?;
    assert!(rt; !folder.is_answered(&rt, &name)?);
    fs::write(&rt, done.as_str(), "")?;
    assert!(rt; folder.is_answered(&rt, &name)?);
    folder.forget(&rt, &name)?;
    assert!(rt; !folder.is_answered(&rt, &name)?);
    Ok(())
}

/// A builder or a node that ended while it wrote left no file of the name, and is no hindrance when
/// it is run again.
#[test]
fn what_is_half_written(rt: HostRuntime) -> Result<(), Fail> {
    let folder = Folder::open(&rt, "work", 0, false)?;
    let job = job(rt.alloc(), 0x3c, 3)?;
    let path = format!(in rt.alloc(); "work/jobs/{NAME}")?;
    let half = format!(in rt.alloc(); "work/jobs/.{NAME}.0")?;
    fs::write(
        &rt,
        half.as_str(),
        "@unit lang/p007\n@package lang/p007\n@built net/p003 and more than there is",
    )?;
    let answer = format!(in rt.alloc(); "work/done/.{NAME}.77")?;
    fs::write(&rt, answer.as_str(), "{\"lang")?;
    let mark = format!(in rt.alloc(); "work/failed/.{NAME}.77")?;
    fs::write(&rt, mark.as_str(), "lang/p007: sta")?;
    let folder = Folder::open(&rt, "work", 0, false)?;
    let name = folder.post(&rt, &TREE, &job)?;
    assert!(rt; is_told(&rt, &folder, &name, "not yet")?);
    let text = fs::read(&rt, path.as_str())?;
    assert!(rt; text.as_slice() == job_text(rt.alloc(), &TREE, &job)?.as_slice());
    assert!(rt; !fs::exists(&rt, half.as_str())?);
    Ok(())
}

/// A node that is run again posts the same job under another claim; the answer that came meanwhile
/// is that of both.
#[test]
fn the_node_is_run_again(rt: HostRuntime) -> Result<(), Fail> {
    let folder = Folder::open(&rt, "work", 0, false)?;
    let before = folder.post(&rt, &TREE, &job(rt.alloc(), 0x3c, 3)?)?;
    let done = format!(in rt.alloc(); "work/done/{NAME}")?;
    fs::write(&rt, done.as_str(), BUILDS)?;
    let folder = Folder::open(&rt, "work", 0, true)?;
    assert!(rt; is_told(&rt, &folder, &before, "made")?);
    let name = folder.post(&rt, &TREE, &job(rt.alloc(), 0x3c, 12)?)?;
    assert!(rt; name.as_str() == before.as_str());
    assert!(rt; is_told(&rt, &folder, &name, "made")?);
    let path = format!(in rt.alloc(); "work/jobs/{NAME}")?;
    let text = fs::read(&rt, path.as_str())?;
    assert!(rt; text.as_slice().ends_with(b"@host 1\n@claim 12.1\n"));
    Ok(())
}

/// What was handed in makes no build: the node marks it, and who takes the mark away has the job
/// built anew.
#[test]
fn what_is_no_build(rt: HostRuntime) -> Result<(), Fail> {
    let folder = Folder::open(&rt, "work", 0, false)?;
    let name = folder.post(&rt, &TREE, &job(rt.alloc(), 0x3c, 3)?)?;
    let done = format!(in rt.alloc(); "work/done/{NAME}")?;
    fs::write(&rt, done.as_str(), "{")?;
    assert!(rt; is_told(&rt, &folder, &name, "other bytes")?);
    folder.mark(&rt, &name, "the text names no builds")?;
    let mark = format!(in rt.alloc(); "work/failed/{NAME}")?;
    let why = fs::read(&rt, mark.as_str())?;
    assert!(rt; why.as_slice() == b"the text names no builds\n".as_slice());
    // the power went before the answer was taken away
    fs::write(&rt, done.as_str(), "{")?;
    assert!(rt; folder.has_failed(&rt, &name)?);
    assert!(rt; is_told(&rt, &folder, &name, "failed")?);
    folder.mark(&rt, &name, "the text names no builds")?;
    let folder = Folder::open(&rt, "work", 0, true)?;
    assert!(rt; is_told(&rt, &folder, &name, "failed")?);
    fs::remove_file(&rt, mark.as_str())?;
    assert!(rt; !folder.has_failed(&rt, &name)?);
    assert!(rt; is_told(&rt, &folder, &name, "not yet")?);
    let file = File::create(&rt, done.as_str())?;
    file.set_len(LONGEST_ANSWER as u64)?;
    assert!(rt; is_told(&rt, &folder, &name, "other bytes")?);
    file.set_len(LONGEST_ANSWER as u64 + 1)?;
    assert!(rt; is_told(&rt, &folder, &name, "too long")?);
    Ok(())
}

/// What is no regular file is an answer without a byte, and a link to a file is that file.
#[test]
fn what_is_no_file(rt: HostRuntime) -> Result<(), Fail> {
    let folder = Folder::open(&rt, "work", 0, false)?;
    let name = folder.post(&rt, &TREE, &job(rt.alloc(), 0x3c, 3)?)?;
    let done = format!(in rt.alloc(); "work/done/{NAME}")?;
    fs::create_dir(&rt, done.as_str())?;
    assert!(rt; folder.is_answered(&rt, &name)?);
    assert!(rt; is_told(&rt, &folder, &name, "no bytes")?);
    // the mark stands, although a folder isn't removed
    let missed = folder.mark(&rt, &name, "the text names no builds").err();
    assert!(rt; missed == Some(WorkFault::Files));
    assert!(rt; is_told(&rt, &folder, &name, "failed")?);
    fs::remove_dir(&rt, done.as_str())?;
    let mark = format!(in rt.alloc(); "work/failed/{NAME}")?;
    fs::remove_file(&rt, mark.as_str())?;
    // a device that never ends
    symlink(&rt, "/dev/zero", done.as_str())?;
    assert!(rt; is_told(&rt, &folder, &name, "no bytes")?);
    folder.mark(&rt, &name, "the text names no builds")?;
    fs::remove_file(&rt, mark.as_str())?;
    assert!(rt; is_told(&rt, &folder, &name, "not yet")?);
    fs::write(&rt, "made", BUILDS)?;
    symlink(&rt, "../../made", done.as_str())?;
    assert!(rt; is_told(&rt, &folder, &name, "made")?);
    Ok(())
}

/// Files beside a log without notes are another run's, whichever of the three has one.
#[test]
fn of_another_run(rt: HostRuntime) -> Result<(), Fail> {
    for part in ["jobs", "done", "failed"] {
        assert!(rt; Folder::open(&rt, part, 0, false).is_ok());
        let file = format!(in rt.alloc(); "{part}/{part}/{NAME}")?;
        fs::write(&rt, file.as_str(), "")?;
        let missed = Folder::open(&rt, part, 0, false).err();
        assert!(rt; missed == Some(WorkFault::OtherRun));
        assert!(rt; Folder::open(&rt, part, 0, true).is_ok());
    }
    assert_eq!(rt; WorkFault::OtherRun.number(), 1209);
    fs::write(&rt, "file", "")?;
    let missed = Folder::open(&rt, "file", 0, true).err();
    assert!(rt; missed == Some(WorkFault::Files));
    Ok(())
}

/// The folder's lock, which somebody holds or not, and a lock that is no regular file.
#[test]
fn who_holds_the_lock(rt: HostRuntime) -> Result<(), Fail> {
    let folder = Folder::open(&rt, "work", 0, false)?;
    assert!(rt; folder.lock(&rt)? == Lock::Free);
    assert!(rt; folder.touched_at(&rt)?.is_none());
    let lock = File::create(&rt, "work/lock")?;
    assert!(rt; folder.lock(&rt)? == Lock::Free);
    lock.try_lock()?;
    assert!(rt; folder.lock(&rt)? == Lock::Held);
    lock.unlock()?;
    assert!(rt; folder.lock(&rt)? == Lock::Free);
    let before = folder.touched_at(&rt)?;
    lock.set_modified(a_while_ago(&rt)?)?;
    assert!(rt; before.is_some() && folder.touched_at(&rt)? != before);
    fs::remove_file(&rt, "work/lock")?;
    fs::create_dir(&rt, "work/lock")?;
    assert!(rt; folder.lock(&rt)? == Lock::Unknown);
    Ok(())
}

fn a_while_ago(rt: &HostRuntime) -> Result<SystemTime, Fail> {
    let now = SystemTime::now(rt)?;
    Ok(now.checked_sub(Duration::from_secs(100)).ok_or("no such time")?)
}

/// A job has begun as long as its file is there, if somebody attends to the folder; else as long as
/// the file is locked.
#[test]
fn what_has_begun(rt: HostRuntime) -> Result<(), Fail> {
    let folder = Folder::open(&rt, "work", 0, false)?;
    let name = folder.post(&rt, &TREE, &job(rt.alloc(), 0x3c, 3)?)?;
    assert!(rt; !folder.has_begun(&rt, &name)?);
    fs::create_dir(&rt, "work/begun")?;
    let path = format!(in rt.alloc(); "work/begun/{NAME}")?;
    let begun = File::create(&rt, path.as_str())?;
    assert!(rt; !folder.has_begun(&rt, &name)?);
    begun.try_lock()?;
    assert!(rt; folder.has_begun(&rt, &name)?);
    begun.unlock()?;
    assert!(rt; !folder.has_begun(&rt, &name)?);
    let lock = File::create(&rt, "work/lock")?;
    assert!(rt; folder.has_begun(&rt, &name)?);
    lock.set_modified(a_while_ago(&rt)?)?;
    assert!(rt; !folder.has_begun(&rt, &name)?);
    lock.try_lock()?;
    assert!(rt; folder.has_begun(&rt, &name)?);
    folder.withdraw(&rt, &name)?;
    assert!(rt; !folder.is_posted(&rt, &name)? && !folder.has_begun(&rt, &name)?);
    folder.withdraw(&rt, &name)?;
    Ok(())
}

/// A host is away while either file is there, whatever it has.
#[test]
fn what_takes_no_jobs(rt: HostRuntime) -> Result<(), Fail> {
    let folder = Folder::open(&rt, "work", 0, false)?;
    assert!(rt; !folder.is_away(&rt)?);
    for path in ["work/away", "work/stop"] {
        fs::write(&rt, path, "no power\n")?;
        assert!(rt; folder.is_away(&rt)?);
        fs::remove_file(&rt, path)?;
        assert!(rt; !folder.is_away(&rt)?);
    }
    Ok(())
}
