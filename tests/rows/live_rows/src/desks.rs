//! What a desk wishes of a node that is alone, whose builds come in by a folder.
use ballots::Weights;
use datagram_ports::MemPort;
use engine::Counts;
use job_folder::{Folder, Name};
use listing::Tree;
use lone_node::Solo;
use member::Input;
use node::Node;
use protocol::Packages;
use scheduler::{Desk, Look, Pace};
use stable_record::MemDisk;
use std::alloc::Global;
use std::fs;
use std::test::Fail;
use std::time::{Duration, Instant};
use turn_rules::{Act, Initiative, Wish};

/// The second is built on the first.
pub(crate) static LISTING: &[u8] = b"a/b.FULLPKGNAME=b-1.0\na/c.FULLPKGNAME=c-1.0\na/c.BUILD_DEPENDS=a/b\n";

/// Neither is built on the other.
pub(crate) static TWO: &[u8] = b"a/b.FULLPKGNAME=b-1.0\na/c.FULLPKGNAME=c-1.0\n";

/// What is handed in for either.
pub(crate) static BUILDS: &str =
    "{\"a/b\":[{\"hex\":\"79\",\"name\":\"x\"}],\"a/c\":[{\"hex\":\"79\",\"name\":\"x\"}]}";

fn opened(alloc: Global, tree: &Tree) -> Result<Solo<'_, MemDisk, MemPort>, Fail> {
    let disk = MemDisk::new(alloc, &[])?;
    match Node::open(alloc, disk, tree, &Weights::new(&[1])?, 0) {
        Ok(node) => Ok(Solo::new(node, MemPort::new(alloc))),
        Err((fault, _disk)) => Err(fault)?,
    }
}

pub(crate) fn pace(jobs: u32) -> Pace {
    Pace {
        jobs,
        ask: Duration::from_secs(1),
        takeover: Duration::from_secs(600),
        slot: Duration::from_millis(1),
        tries: 2,
    }
}

/// A turn by the desk: a letter for what the node did, ! if a build failed whose mark couldn't be
/// written.
pub(crate) fn letter(
    rt: &HostRuntime,
    solo: &mut Solo<'_, MemDisk, MemPort>,
    desk: &mut Desk<'_>,
    now: Instant,
) -> Result<u8, Fail> {
    desk.tick(solo.node().member(), now)?;
    let none = Packages::new(Vec::new(rt.alloc()));
    let made = match desk.look(rt, solo.node().member())? {
        Look::NotYet => None,
        Look::Failed => Some(none),
        Look::Made(builds) => Some(builds),
        Look::Bad(_) => Some(none),
    };
    let gives_way = solo.is_in_the_way();
    let wish = desk.wish(rt, solo.node().member(), gives_way, now)?;
    let done = solo.turn_with(made.as_ref(), Initiative::Scheduled(wish))?;
    let Some(act) = done else {
        return Ok(b'.');
    };
    let fault = desk.took(rt, solo.node().member(), &act, now)?;
    Ok(match &act {
        Act::Own(Input::Claim { .. }) => b'C',
        Act::Own(Input::Built { .. }) => b'B',
        Act::Own(Input::Failed { .. }) if fault.is_some() => b'!',
        Act::Own(Input::Failed { .. }) => b'F',
        Act::Own(Input::Ask { .. }) => b'A',
        Act::Datagram(_) => b'D',
        _ => b'?',
    })
}

/// So many turns.
fn letters(
    rt: &HostRuntime,
    solo: &mut Solo<'_, MemDisk, MemPort>,
    desk: &mut Desk<'_>,
    now: Instant,
    count: usize,
) -> Result<Vec<u8>, Fail> {
    let mut letters = Vec::new(rt.alloc());
    for _ in 0..count {
        letters.push(letter(rt, solo, desk, now)?)?;
    }
    Ok(letters)
}

/// Hands in what is built for the job of this name.
pub(crate) fn hand_in(rt: &HostRuntime, work: &str, name: &Name, text: &str) -> Result<(), Fail> {
    let digits = name.as_str();
    let path = format!(in rt.alloc(); "{work}/done/{digits}")?;
    fs::write(rt, path.as_str(), text.as_bytes())?;
    Ok(())
}

/// Whether a folder has a file for the job of this name.
pub(crate) fn has_file(rt: &HostRuntime, folder: &str, name: &Name) -> Result<bool, Fail> {
    let digits = name.as_str();
    let path = format!(in rt.alloc(); "{folder}/{digits}")?;
    Ok(fs::exists(rt, path.as_str())?)
}

pub(crate) fn name_of_job(rt: &HostRuntime, solo: &Solo<'_, MemDisk, MemPort>) -> Result<Option<Name>, Fail> {
    match solo.node().member().job() {
        Some(job) => {
            let tree = solo.node().member().tree_digest();
            Ok(Some(Name::of(rt.alloc(), tree, job)?))
        }
        None => Ok(None),
    }
}

#[test]
fn claims_waits_and_answers(rt: HostRuntime) -> Result<(), Fail> {
    let alloc = rt.alloc();
    let tree = Tree::parse(alloc, LISTING)?;
    let mut solo = opened(alloc, &tree)?;
    let folder = Folder::open(&rt, "work", 0, false)?;
    let now = Instant::now(&rt)?;
    let mut desk = Desk::new(alloc, folder, pace(1), false, now);
    // it claims the first unit, hears itself, and waits for its build
    let before = letters(&rt, &mut solo, &mut desk, now, 6)?;
    let name = name_of_job(&rt, &solo)?;
    if let Some(name) = &name {
        hand_in(&rt, "work", name, BUILDS)?;
    }
    let after = letters(&rt, &mut solo, &mut desk, now, 8)?;
    let clear = desk.is_clear();
    drop(solo);
    assert!(rt; before.as_slice() == b"CDD...".as_slice());
    assert!(rt; name.is_some());
    assert!(rt; after.as_slice() == b"BDDCDD..".as_slice());
    assert!(rt; !clear);
    Ok(())
}

#[test]
fn what_failed_is_tried_again_when_its_mark_is_gone(rt: HostRuntime) -> Result<(), Fail> {
    let alloc = rt.alloc();
    let tree = Tree::parse(alloc, LISTING)?;
    let mut solo = opened(alloc, &tree)?;
    let folder = Folder::open(&rt, "work", 0, false)?;
    let now = Instant::now(&rt)?;
    let mut desk = Desk::new(alloc, folder, pace(1), false, now);
    let before = letters(&rt, &mut solo, &mut desk, now, 5)?;
    let name = name_of_job(&rt, &solo)?;
    let Some(name) = name else {
        return Ok(assert!(rt; false));
    };
    // what is no text of builds is marked as failed, the others are asked, and nothing is claimed any more
    hand_in(&rt, "work", &name, "{")?;
    let failed = letters(&rt, &mut solo, &mut desk, now, 3)?;
    let is_marked = has_file(&rt, "work/failed", &name)?;
    desk.retry(&rt)?;
    let still = letters(&rt, &mut solo, &mut desk, now, 2)?;
    let digits = name.as_str();
    let mark = format!(in alloc; "work/failed/{digits}")?;
    fs::remove_file(&rt, mark.as_str())?;
    desk.retry(&rt)?;
    let again = letters(&rt, &mut solo, &mut desk, now, 4)?;
    hand_in(&rt, "work", &name, BUILDS)?;
    let built = letters(&rt, &mut solo, &mut desk, now, 4)?;
    drop(solo);
    assert!(rt; before.as_slice() == b"CDD..".as_slice());
    assert!(rt; failed.as_slice() == b"FA.".as_slice());
    assert!(rt; is_marked);
    assert!(rt; still.as_slice() == b"..".as_slice());
    assert!(rt; again.as_slice() == b"CDD.".as_slice());
    assert!(rt; built.as_slice() == b"BDDC".as_slice());
    Ok(())
}

/// A package is lacking, or a file has a bad name, or the text is that of another unit.
#[test]
fn what_makes_no_build_is_marked(rt: HostRuntime) -> Result<(), Fail> {
    let alloc = rt.alloc();
    let tree = Tree::parse(alloc, LISTING)?;
    let now = Instant::now(&rt)?;
    let cases = [
        ("lacking", "{}"),
        ("other", "{\"a/c\":[{\"hex\":\"79\",\"name\":\"x\"}]}"),
        ("named", "{\"a/b\":[{\"hex\":\"79\",\"name\":\"x/../y\"}]}"),
    ];
    for (work, text) in cases {
        let mut solo = opened(alloc, &tree)?;
        let folder = Folder::open(&rt, work, 0, false)?;
        let mut desk = Desk::new(alloc, folder, pace(1), false, now);
        let before = letters(&rt, &mut solo, &mut desk, now, 5)?;
        let Some(name) = name_of_job(&rt, &solo)? else {
            return Ok(assert!(rt; false, "{work}"));
        };
        hand_in(&rt, work, &name, text)?;
        let failed = letters(&rt, &mut solo, &mut desk, now, 3)?;
        let marks = format!(in alloc; "{work}/failed")?;
        let dones = format!(in alloc; "{work}/done")?;
        let is_marked = has_file(&rt, marks.as_str(), &name)?;
        let is_done = has_file(&rt, dones.as_str(), &name)?;
        let has_more = desk.has_more(solo.node().member());
        let is_clear = desk.is_clear();
        drop(solo);
        assert!(rt; before.as_slice() == b"CDD..".as_slice(), "{work}");
        assert!(rt; failed.as_slice() == b"FA.".as_slice(), "{work}");
        assert!(rt; is_marked && !is_done, "{work}");
        assert!(rt; is_clear && !has_more, "{work}");
    }
    Ok(())
}

#[test]
fn two_jobs_beside_each_other(rt: HostRuntime) -> Result<(), Fail> {
    let alloc = rt.alloc();
    let tree = Tree::parse(alloc, TWO)?;
    let mut solo = opened(alloc, &tree)?;
    let folder = Folder::open(&rt, "work", 0, false)?;
    let now = Instant::now(&rt)?;
    let mut desk = Desk::new(alloc, folder, pace(2), false, now);
    let first = letters(&rt, &mut solo, &mut desk, now, 3)?;
    let one = name_of_job(&rt, &solo)?;
    // while the first waits the second is claimed
    let second = letters(&rt, &mut solo, &mut desk, now, 5)?;
    let other = name_of_job(&rt, &solo)?;
    let (Some(one), Some(other)) = (one, other) else {
        return Ok(assert!(rt; false));
    };
    let are_posted = has_file(&rt, "work/jobs", &one)? && has_file(&rt, "work/jobs", &other)?;
    let rest = letters(&rt, &mut solo, &mut desk, now, 2)?;
    // the first, whose claim was given up, is claimed anew once it is built
    hand_in(&rt, "work", &one, BUILDS)?;
    let built = letters(&rt, &mut solo, &mut desk, now, 6)?;
    hand_in(&rt, "work", &other, BUILDS)?;
    let last = letters(&rt, &mut solo, &mut desk, now, 7)?;
    let is_clear = desk.is_clear();
    let counts = solo.counts();
    drop(solo);
    assert!(rt; first.as_slice() == b"CDD".as_slice());
    assert!(rt; second.as_slice() == b"CDD..".as_slice());
    assert!(rt; one.as_str() != other.as_str() && are_posted);
    assert!(rt; rest.as_slice() == b"..".as_slice());
    assert!(rt; built.as_slice() == b"CDDBDD".as_slice());
    assert!(rt; last.as_slice() == b"CDDBDD.".as_slice());
    assert!(rt; is_clear && matches!(counts, Some(Counts { i: 2, .. })));
    Ok(())
}

#[test]
fn what_is_claimed_anew_is_not_given_back_again(rt: HostRuntime) -> Result<(), Fail> {
    let alloc = rt.alloc();
    let tree = Tree::parse(alloc, b"a/b.FULLPKGNAME=b-1.0\n")?;
    let mut solo = opened(alloc, &tree)?;
    let folder = Folder::open(&rt, "work", 0, false)?;
    let now = Instant::now(&rt)?;
    let mut desk = Desk::new(alloc, folder, pace(1), false, now);
    let before = letters(&rt, &mut solo, &mut desk, now, 5)?;
    // the host takes no jobs for a moment, and gives back what it was to build
    desk.set_holding_off(true);
    desk.give_back(&rt, solo.node().member())?;
    desk.set_holding_off(false);
    // it claims the unit anew before it asked for it; no question follows
    let after = letters(&rt, &mut solo, &mut desk, now, 6)?;
    drop(solo);
    assert!(rt; before.as_slice() == b"CDD..".as_slice());
    assert!(rt; after.as_slice() == b"CDD...".as_slice());
    Ok(())
}

#[test]
fn a_mark_that_cannot_be_written(rt: HostRuntime) -> Result<(), Fail> {
    let alloc = rt.alloc();
    let tree = Tree::parse(alloc, LISTING)?;
    let mut solo = opened(alloc, &tree)?;
    let folder = Folder::open(&rt, "work", 0, false)?;
    let now = Instant::now(&rt)?;
    let mut desk = Desk::new(alloc, folder, pace(1), false, now);
    let before = letters(&rt, &mut solo, &mut desk, now, 5)?;
    let Some(name) = name_of_job(&rt, &solo)? else {
        return Ok(assert!(rt; false));
    };
    fs::remove_dir(&rt, "work/failed")?;
    fs::write(&rt, "work/failed", b"no folder".as_slice())?;
    hand_in(&rt, "work", &name, "{")?;
    // the fault comes once, and then nothing is claimed or asked for any more
    let failed = letters(&rt, &mut solo, &mut desk, now, 4)?;
    desk.retry(&rt)?;
    let still = letters(&rt, &mut solo, &mut desk, now, 2)?;
    let has_more = desk.has_more(solo.node().member());
    drop(solo);
    assert!(rt; before.as_slice() == b"CDD..".as_slice());
    assert!(rt; failed.as_slice() == b"!A..".as_slice());
    assert!(rt; still.as_slice() == b"..".as_slice());
    assert!(rt; desk.is_clear() && !has_more);
    Ok(())
}

#[test]
fn a_notice_is_due_at_once_and_once_a_second(rt: HostRuntime) -> Result<(), Fail> {
    let alloc = rt.alloc();
    let tree = Tree::parse(alloc, TWO)?;
    let mut solo = opened(alloc, &tree)?;
    let folder = Folder::open(&rt, "work", 0, false)?;
    let now = Instant::now(&rt)?;
    let mut desk = Desk::new(alloc, folder, pace(1), false, now);
    let none = desk.next_notice(now);
    for _ in 0..2 {
        letters(&rt, &mut solo, &mut desk, now, 5)?;
        let Some(name) = name_of_job(&rt, &solo)? else {
            return Ok(assert!(rt; false));
        };
        hand_in(&rt, "work", &name, "{")?;
        letters(&rt, &mut solo, &mut desk, now, 2)?;
    }
    let mut at_once = [None; 3];
    for place in 0..3 {
        at_once[place] = desk.next_notice(now);
    }
    let mut again = [None; 6];
    for place in 0..6 {
        let later = now.checked_add(Duration::from_millis(500 * place as u64)).ok_or("no time")?;
        again[place] = desk.next_notice(later);
    }
    for entry in fs::read_dir(&rt, "work/failed")? {
        let entry = entry?;
        let name = entry.file_name();
        let mark = format!(in alloc; "work/failed/{name}")?;
        fs::remove_file(&rt, mark.as_str())?;
    }
    desk.retry(&rt)?;
    let last = desk.next_notice(now.checked_add(Duration::from_secs(9)).ok_or("no time")?);
    drop(solo);
    assert!(rt; none.is_none() && last.is_none());
    assert!(rt; at_once == [Some(1), Some(0), None]);
    assert!(rt; again == [None, None, Some(0), None, Some(1), None]);
    Ok(())
}
