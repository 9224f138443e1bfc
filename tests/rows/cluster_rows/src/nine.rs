//! Nine members that build a tree of many packages, and a world that takes the same events.
use crate::clusters::{cluster, disks, holders_of, package};
use ballots::Weights;
use cluster_turns::Cluster;
use datagram_ports::{MemPort, Port};
use listing::Tree;
use protocol::Packages;
use simulator::World;
use stable_record::Disk;
use std::alloc::Global;
use std::test::Fail;

/// How many packages there are.
const PACKAGES: u32 = 48;

/// The last but one.
const BEFORE_LAST: u32 = 47;

/// What a package is built with: that of half its number, but the first with none.
fn built_with(alloc: Global, number: u32) -> Result<String, Fail> {
    let half = number / 2;
    if half == 0 {
        return Ok(String::new(alloc));
    }
    Ok(format!(in alloc; "c/p{half}")?)
}

/// What it runs with: that of a third of its number, but the first two with none, and the last two
/// with each other, too.
fn run_with(alloc: Global, number: u32) -> Result<String, Fail> {
    let third = number / 3;
    if third == 0 {
        return Ok(String::new(alloc));
    }
    Ok(match number {
        BEFORE_LAST => format!(in alloc; "c/p{third} c/p{PACKAGES}")?,
        PACKAGES => format!(in alloc; "c/p{third} c/p{BEFORE_LAST}")?,
        _ => format!(in alloc; "c/p{third}")?,
    })
}

/// A listing of the packages.
fn listing(alloc: Global) -> Result<String, Fail> {
    let mut text = String::new(alloc);
    for number in 1..=PACKAGES {
        let path = format!(in alloc; "c/p{number}")?;
        let built = built_with(alloc, number)?;
        let run = run_with(alloc, number)?;
        text.push_str(format!(in alloc; "{path}.FULLPKGNAME=p-{number}\n")?.as_str())?;
        text.push_str(format!(in alloc; "{path}.BUILD_DEPENDS={built}\n")?.as_str())?;
        text.push_str(format!(in alloc; "{path}.RUN_DEPENDS={run}\n")?.as_str())?;
    }
    Ok(text)
}

/// A file for each of the packages.
fn builds(alloc: Global) -> Result<Packages, Fail> {
    let mut items = Vec::new(alloc);
    for number in 1..=PACKAGES {
        let path = format!(in alloc; "c/p{number}")?;
        items.push(package(alloc, path.as_str(), &[("x", number as usize)])?)?;
    }
    Ok(Packages::new(items))
}

/// Takes turns until one does nothing, and each event in the world, too. It answers how many events
/// there were, if no turn and no event was refused.
fn follow<D: Disk, P: Port>(
    cluster: &mut Cluster<'_, D, P>,
    builds: &Packages,
    world: &mut World<'_>,
) -> Option<usize> {
    for number in 0..10_000 {
        match cluster.turn(builds) {
            Ok(Some(event)) => {
                if world.step(&event).is_err() {
                    return None;
                }
            }
            Ok(None) => return Some(number),
            Err(_) => return None,
        }
    }
    None
}

/// At how many nodes the packages have the same letters in the cluster and in the world.
fn alike<D: Disk, P: Port>(cluster: &Cluster<'_, D, P>, world: &World<'_>) -> u8 {
    let mut count = 0u8;
    for node in 0..9 {
        if world.is_up(node) && cluster.counts(node) == Some(world.counts(node)) {
            count = count.saturating_add(1);
        }
    }
    count
}

#[test]
fn many_packages(rt: HostRuntime) -> Result<(), Fail> {
    let alloc = rt.alloc();
    let text = listing(alloc)?;
    let tree = Tree::parse(alloc, text.as_bytes())?;
    let builds = builds(alloc)?;
    let weights = Weights::new(&[1, 1, 1, 1, 1, 1, 1, 1, 1])?;
    let disks = disks(alloc, 9)?;
    let mut world = World::new(alloc, &tree, &weights)?;
    let mut cluster = cluster(alloc, &tree, weights.as_slice(), disks, MemPort::new(alloc))?;
    let events = follow(&mut cluster, &builds, &mut world);
    let holders = holders_of(&cluster, PACKAGES);
    let alike = alike(&cluster, &world);
    let agreed = world.agreed().len();
    let sent = world.datagrams().len();
    drop(cluster);
    drop(world);

    // Of each package: a claim, nine offers, nine promises, the build, nine proposals, nine votes,
    // and to eight what is agreed.
    assert!(rt; events == Some(48 * (1 + 9 + 9 + 1 + 9 + 9 + 8)));
    assert!(rt; holders == 9);
    assert!(rt; alike == 9);
    assert!(rt; agreed == 48);

    // One offer, nine promises, one proposal, nine votes, and what is agreed.
    assert!(rt; sent == 48 * (1 + 9 + 1 + 9 + 1));
    Ok(())
}
