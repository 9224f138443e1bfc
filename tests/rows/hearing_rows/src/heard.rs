//! The only node of a cluster, over UDP. In each turn what it took was sent before, in this run.
use ballots::Weights;
use datagram_ports::Port;
use engine::Counts;
use laws::{Recorded, turn_if_heard};
use listing::Tree;
use lone_node::Solo;
use member::Input;
use node::Node;
use package_record::{File, Files};
use pkgpath::PkgPath;
use protocol::Packages;
use stable_record::{Disk, MemDisk};
use std::alloc::Global;
use std::test::Fail;
use turn_rules::Act;
use udp::UdpPort;

static LISTING: &[u8] = b"a/b.FULLPKGNAME=b-1.0\n";

/// One file for the package.
fn builds(alloc: Global) -> Result<Packages, Fail> {
    let name = b"b".to_vec(alloc)?;
    let bytes = b"xyz".to_vec(alloc)?;
    let mut files = Vec::new(alloc);
    files.push(File { name, bytes })?;
    let mut items = Vec::new(alloc);
    items.push((PkgPath::parse(alloc, b"a/b")?, Files::new(files)))?;
    Ok(Packages::new(items))
}

/// What a turn did: a letter for the node's own input, D for a datagram, `.` for nothing, and ! if
/// the turn was refused or took what wasn't sent before.
fn letter<D: Disk, P: Port>(solo: &mut Solo<'_, D, Recorded<P>>, builds: &Packages) -> u8 {
    match turn_if_heard(solo, builds) {
        Some(Some(Act::Own(Input::Claim { .. }))) => b'C',
        Some(Some(Act::Own(Input::Built { .. }))) => b'B',
        Some(Some(Act::Own(_))) => b'?',
        Some(Some(Act::Datagram(_))) => b'D',
        Some(None) => b'.',
        None => b'!',
    }
}

/// The claim, its own offer and promise, the build, its own proposal and vote.
#[test]
fn hears_itself_over_udp(rt: HostRuntime) -> Result<(), Fail> {
    let alloc = rt.alloc();
    let tree = Tree::parse(alloc, LISTING)?;
    let builds = builds(alloc)?;
    let disk = MemDisk::new(alloc, &[])?;
    let node = match Node::open(alloc, disk, &tree, &Weights::new(&[1])?, 0) {
        Ok(node) => node,
        Err((fault, _disk)) => Err(fault)?,
    };
    let port = UdpPort::together(&rt, &rt, alloc, 1)?;
    let mut solo = Solo::new(node, Recorded::new(alloc, port));
    let mut letters = [0; 8];
    for turn in 0..8 {
        letters[turn] = letter(&mut solo, &builds);
    }
    let counts = solo.counts();
    drop(solo);
    assert!(rt; letters == *b"CDDBDD..");
    assert!(rt; matches!(counts, Some(Counts { i: 1, .. })));
    Ok(())
}
