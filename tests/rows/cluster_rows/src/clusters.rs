//! Clusters of tests, and what their turns tell.
use ballots::Weights;
use cluster_turns::Cluster;
use datagram_ports::Port;
use engine::Counts;
use faults::Fault;
use listing::Tree;
use package_record::{File, Files};
use pkgpath::PkgPath;
use protocol::{Event, Packages};
use stable_record::{Disk, MemDisk};
use std::alloc::Global;
use std::test::Fail;
use turn_rules::TurnFault;

/// How many turns a test takes.
const TURNS: usize = 17;

/// One package.
pub static LISTING: &[u8] = b"a/b.FULLPKGNAME=b-1.0\n";

/// One file for the package.
pub fn builds(alloc: Global) -> Result<Packages, Fail> {
    let name = b"x".to_vec(alloc)?;
    let bytes = b"abc".to_vec(alloc)?;
    let mut files = Vec::new(alloc);
    files.push(File { name, bytes })?;
    let mut items = Vec::new(alloc);
    items.push((PkgPath::parse(alloc, b"a/b")?, Files::new(files)))?;
    Ok(Packages::new(items))
}

/// A package's files: each has this name and so many zero bytes.
pub fn package(
    alloc: Global,
    path: &str,
    files: &[(&str, usize)],
) -> Result<(PkgPath, Files), Fail> {
    let mut made = Vec::new(alloc);
    for (name, size) in files {
        let name = name.as_bytes().to_vec(alloc)?;
        let bytes = vec![in alloc; 0; *size]?;
        made.push(File { name, bytes })?;
    }
    Ok((PkgPath::parse(alloc, path.as_bytes())?, Files::new(made)))
}

/// One package's files, and no others.
pub fn build_of(alloc: Global, path: &str, files: &[(&str, usize)]) -> Result<Packages, Fail> {
    let mut items = Vec::new(alloc);
    items.push(package(alloc, path, files)?)?;
    Ok(Packages::new(items))
}

/// Two packages' files, of which each has one, of this name and size.
pub fn builds_of_two(
    alloc: Global,
    first: (&str, &str, usize),
    second: (&str, &str, usize),
) -> Result<Packages, Fail> {
    let mut items = Vec::new(alloc);
    for (path, name, size) in [first, second] {
        items.push(package(alloc, path, &[(name, size)])?)?;
    }
    Ok(Packages::new(items))
}

/// Empty disks, so many.
pub fn disks(alloc: Global, members: usize) -> Result<Vec<MemDisk>, Fail> {
    let mut disks = Vec::new(alloc);
    for _ in 0..members {
        disks.push(MemDisk::new(alloc, &[])?)?;
    }
    Ok(disks)
}

/// The cluster at its start, of members that weigh so much.
pub fn cluster<'a, D: Disk, P: Port>(
    alloc: Global,
    tree: &'a Tree,
    weights: &[u8],
    disks: Vec<D>,
    port: P,
) -> Result<Cluster<'a, D, P>, Fail> {
    let weights = Weights::new(weights)?;
    if disks.len() != weights.as_slice().len() {
        return Err(Fail::from("a disk for each member"));
    }
    Ok(Cluster::new(alloc, tree, &weights, disks, port)?)
}

/// What the turn told: a letter and two numbers. C is a claim and its round, D a datagram and the
/// node that it came to; B, F and N have their node.
pub fn told(event: &Event) -> [u8; 3] {
    match event {
        Event::Claim { node, above, .. } => [b'C', digit(*above), digit(*node as u64)],
        Event::Deliver { datagram, node } => [b'D', digit(*datagram), digit(*node as u64)],
        Event::Built { node, .. } => [b'B', b'0', digit(*node as u64)],
        Event::Failed { node, .. } => [b'F', b'0', digit(*node as u64)],
        Event::Nudge { node } => [b'N', b'0', digit(*node as u64)],
        _ => *b"???",
    }
}

/// The last digit.
fn digit(number: u64) -> u8 {
    b'0' + (number % 10) as u8
}

/// What one turn did: its event, `...` for nothing, X for bytes that nobody sent, and ! for a
/// node that went down.
pub fn turn<D: Disk, P: Port>(cluster: &mut Cluster<'_, D, P>, builds: &Packages) -> [u8; 3] {
    match cluster.turn(builds) {
        Ok(Some(event)) => told(&event),
        Ok(None) => *b"...",
        Err(TurnFault::NotSent) => *b"X00",
        Err(TurnFault::Down(node)) => [b'!', b'0', digit(node as u64)],
        Err(_) => *b"???",
    }
}

/// What the first turns did.
pub fn turns<D: Disk, P: Port>(cluster: &mut Cluster<'_, D, P>, builds: &Packages) -> [u8; 51] {
    let mut all = [b'.'; 51];
    for number in 0..TURNS {
        let one = turn(cluster, builds);
        all[3 * number] = one[0];
        all[3 * number + 1] = one[1];
        all[3 * number + 2] = one[2];
    }
    all
}

/// Puts what so many turns did behind what is told, as far as there is memory for it.
pub fn tell<D: Disk, P: Port>(
    cluster: &mut Cluster<'_, D, P>,
    builds: &Packages,
    turns: usize,
    told: &mut Vec<u8>,
) {
    for _ in 0..turns {
        let one = turn(cluster, builds);
        let _ = told.extend_from_slice(&one);
    }
}

/// How many turns did something before one did nothing, if one of so many does nothing and none is
/// refused.
pub fn turns_till_quiet<D: Disk, P: Port>(
    cluster: &mut Cluster<'_, D, P>,
    builds: &Packages,
    most: usize,
) -> Option<usize> {
    for number in 0..most {
        match cluster.turn(builds) {
            Ok(Some(_)) => {}
            Ok(None) => return Some(number),
            Err(_) => return None,
        }
    }
    None
}

/// Whether the event is there, and a claim, a build or a failure of what the path names.
pub fn is_of(event: Option<&Event>, path: &PkgPath) -> bool {
    match event {
        Some(Event::Claim { path: named, .. })
        | Some(Event::Built { path: named, .. })
        | Some(Event::Failed { path: named, .. }) => named == path,
        _ => false,
    }
}

/// How many nodes that are up hold the package.
pub fn holders<D: Disk, P: Port>(cluster: &Cluster<'_, D, P>) -> u8 {
    holders_of(cluster, 1)
}

/// At how many nodes that are up so many packages can be installed.
pub fn holders_of<D: Disk, P: Port>(cluster: &Cluster<'_, D, P>, packages: u32) -> u8 {
    let mut count = 0u8;
    for node in 0..9 {
        if let Some(Counts { i, .. }) = cluster.counts(node)
            && i == packages
        {
            count = count.saturating_add(1);
        }
    }
    count
}
