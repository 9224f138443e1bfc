//! The only node of a cluster.
use ballots::Weights;
use datagram_ports::MemPort;
use engine::Counts;
use listing::Tree;
use lone_node::Solo;
use member::Input;
use node::Node;
use package_record::{File, Files};
use pkgpath::PkgPath;
use protocol::Packages;
use stable_record::{Disk, Failing, FaultDisk, MemDisk};
use std::alloc::Global;
use std::test::Fail;
use turn_rules::{Act, TurnFault};

static LISTING: &[u8] = b"a/b.FULLPKGNAME=b-1.0\n";

/// One file for the package.
fn builds(alloc: Global) -> Result<Packages, Fail> {
    let name = b"b".to_vec(alloc)?;
    let bytes = b"xyz".to_vec(alloc)?;
    let mut files = Vec::new(alloc);
    files.push(File { name, bytes })?;
    let mut items = Vec::new(alloc);
    items.push((PkgPath::parse(alloc, b"a/b")?, Files::new(files)))?;
    Ok(Packages::new(items))
}

/// The node over the disk, with a port that returns what the node sends.
fn opened<D: Disk>(alloc: Global, tree: &Tree, disk: D) -> Result<Solo<'_, D, MemPort>, Fail> {
    match Node::open(alloc, disk, tree, &Weights::new(&[1])?, 0) {
        Ok(node) => Ok(Solo::new(node, MemPort::new(alloc))),
        Err((fault, _disk)) => Err(fault)?,
    }
}

/// What a turn did: a letter for the node's own input, D for a datagram, `.` for nothing, and ! if
/// the node went down.
fn letter<D: Disk>(solo: &mut Solo<'_, D, MemPort>, builds: &Packages) -> u8 {
    match solo.turn(builds) {
        Ok(Some(Act::Own(Input::Claim { .. }))) => b'C',
        Ok(Some(Act::Own(Input::Built { .. }))) => b'B',
        Ok(Some(Act::Own(Input::Failed { .. }))) => b'F',
        Ok(Some(Act::Own(_))) => b'?',
        Ok(Some(Act::Datagram(_))) => b'D',
        Ok(None) => b'.',
        Err(TurnFault::Down(0)) => b'!',
        Err(_) => b'?',
    }
}

/// What eight turns did.
fn letters<D: Disk>(solo: &mut Solo<'_, D, MemPort>, builds: &Packages) -> [u8; 8] {
    let mut letters = [0; 8];
    for turn in 0..8 {
        letters[turn] = letter(solo, builds);
    }
    letters
}

#[test]
fn builds_alone(rt: HostRuntime) -> Result<(), Fail> {
    let alloc = rt.alloc();
    let tree = Tree::parse(alloc, LISTING)?;
    let builds = builds(alloc)?;
    let disk = MemDisk::new(alloc, &[])?;
    let mut solo = opened(alloc, &tree, disk)?;
    let letters = letters(&mut solo, &builds);
    let counts = solo.counts();
    drop(solo);
    assert!(rt; letters == *b"CDDBDD..");
    assert!(rt; matches!(counts, Some(Counts { i: 1, .. })));
    Ok(())
}

#[test]
fn does_nothing_without_files(rt: HostRuntime) -> Result<(), Fail> {
    let alloc = rt.alloc();
    let tree = Tree::parse(alloc, LISTING)?;
    let builds = Packages::new(Vec::new(alloc));
    let disk = MemDisk::new(alloc, &[])?;
    let mut solo = opened(alloc, &tree, disk)?;
    let letters = letters(&mut solo, &builds);
    let counts = solo.counts();
    drop(solo);
    assert!(rt; letters == *b"CDDF....");
    assert!(rt; matches!(counts, Some(Counts { q: 1, .. })));
    Ok(())
}

#[test]
fn stays_down(rt: HostRuntime) -> Result<(), Fail> {
    let alloc = rt.alloc();
    let tree = Tree::parse(alloc, LISTING)?;
    let builds = builds(alloc)?;
    let disk = FaultDisk::new(MemDisk::new(alloc, &[])?, Failing::Once(12));
    let mut solo = opened(alloc, &tree, disk)?;
    let letters = letters(&mut solo, &builds);
    let counts = solo.counts();
    drop(solo);
    assert!(rt; letters == *b"!.......");
    assert!(rt; counts.is_none());
    Ok(())
}
