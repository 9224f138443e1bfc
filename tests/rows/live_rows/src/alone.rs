//! A node that is alone in its cluster, turn by turn, as builds are made.
use ballots::Weights;
use datagram_ports::MemPort;
use engine::Counts;
use listing::Tree;
use lone_node::Solo;
use member::Input;
use node::Node;
use package_record::{File, Files};
use pkgpath::PkgPath;
use protocol::Packages;
use stable_record::{Disk, MemDisk};
use std::alloc::Global;
use std::test::Fail;
use turn_rules::{Act, Initiative, TurnFault, Wish};

static LISTING: &[u8] = b"a/b.FULLPKGNAME=b-1.0\n";

/// One file for the package.
fn builds(alloc: Global) -> Result<Packages, Fail> {
    let name = b"b".to_vec(alloc)?;
    let bytes = b"xyz".to_vec(alloc)?;
    let mut files = Vec::new(alloc);
    files.push(File { name, bytes })?;
    let mut items = Vec::new(alloc);
    items.push((PkgPath::parse(alloc, b"a/b")?, Files::new(files)))?;
    Ok(Packages::new(items))
}

/// The node over the disk, whose port gives what it sends.
fn opened<D: Disk>(alloc: Global, tree: &Tree, disk: D) -> Result<Solo<'_, D, MemPort>, Fail> {
    match Node::open(alloc, disk, tree, &Weights::new(&[1])?, 0) {
        Ok(node) => Ok(Solo::new(node, MemPort::new(alloc))),
        Err((fault, _disk)) => Err(fault)?,
    }
}

/// What a turn did: a letter for what the member was asked, D for a datagram, `.` for nothing, and
/// ! where the node went down.
fn live_letter<D: Disk>(
    solo: &mut Solo<'_, D, MemPort>,
    made: Option<&Packages>,
    wish: Option<Wish>,
) -> u8 {
    match solo.turn_with(made, Initiative::Scheduled(wish)) {
        Ok(Some(Act::Own(Input::Claim { .. }))) => b'C',
        Ok(Some(Act::Own(Input::Built { .. }))) => b'B',
        Ok(Some(Act::Own(Input::Failed { .. }))) => b'F',
        Ok(Some(Act::Own(Input::Ask { .. }))) => b'A',
        Ok(Some(Act::Own(Input::Nudge))) => b'N',
        Ok(Some(Act::Own(_))) => b'?',
        Ok(Some(Act::Datagram(_))) => b'D',
        Ok(None) => b'.',
        Err(TurnFault::Down(0)) => b'!',
        Err(_) => b'?',
    }
}

/// The wish to claim the package, above no round.
fn claim(alloc: Global) -> Result<Option<Wish>, Fail> {
    let path = PkgPath::parse(alloc, b"a/b")?;
    Ok(Some(Wish::Claim { path, above: 0 }))
}

/// The wish to ask for the package.
fn ask(alloc: Global) -> Result<Option<Wish>, Fail> {
    let path = PkgPath::parse(alloc, b"a/b")?;
    Ok(Some(Wish::Ask { path }))
}

#[test]
fn waits_for_its_build(rt: HostRuntime) -> Result<(), Fail> {
    let alloc = rt.alloc();
    let tree = Tree::parse(alloc, LISTING)?;
    let builds = builds(alloc)?;
    let disk = MemDisk::new(alloc, &[])?;
    let mut solo = opened(alloc, &tree, disk)?;
    // nothing is claimed of itself
    let first = live_letter(&mut solo, None, None);
    let asked = live_letter(&mut solo, None, ask(alloc)?);
    let claimed = live_letter(&mut solo, None, claim(alloc)?);
    // the offer comes first, whatever is wished, and so does the promise
    let offer = live_letter(&mut solo, None, claim(alloc)?);
    let promise = live_letter(&mut solo, Some(&builds), ask(alloc)?);
    // the claim waits for its build, and does nothing
    let waits = live_letter(&mut solo, None, None);
    let again = live_letter(&mut solo, None, ask(alloc)?);
    let built = live_letter(&mut solo, Some(&builds), ask(alloc)?);
    let proposal = live_letter(&mut solo, Some(&builds), None);
    let vote = live_letter(&mut solo, None, None);
    let rest = live_letter(&mut solo, Some(&builds), None);
    let counts = solo.counts();
    drop(solo);
    assert!(rt; [first, asked, claimed, offer, promise, waits, again] == *b".ACDD.A");
    assert!(rt; [built, proposal, vote, rest] == *b"BDD.");
    assert!(rt; matches!(counts, Some(Counts { i: 1, .. })));
    Ok(())
}

#[test]
fn claims_anew_where_it_built_before(rt: HostRuntime) -> Result<(), Fail> {
    let alloc = rt.alloc();
    let tree = Tree::parse(alloc, LISTING)?;
    let builds = builds(alloc)?;
    let none = Packages::new(Vec::new(alloc));
    let disk = MemDisk::new(alloc, &[])?;
    let mut solo = opened(alloc, &tree, disk)?;
    let mut letters = [0; 10];
    for turn in 0..10 {
        // the job of the first claim is given up for another claim; that of the second fails, and
        // that of the third is made
        let made = match turn {
            7 => Some(&none),
            _ => None,
        };
        let wish = match turn {
            0 | 3 | 8 => claim(alloc)?,
            _ => None,
        };
        letters[turn] = live_letter(&mut solo, made, wish);
    }
    let last = live_letter(&mut solo, Some(&builds), None);
    let built = live_letter(&mut solo, Some(&builds), None);
    drop(solo);
    assert!(rt; letters == *b"CDDCDD.FCD");
    assert!(rt; [last, built] == *b"DB");
    Ok(())
}
