//! Builds of many pieces.
use crate::clusters::{LISTING, build_of, cluster, disks, holders, turns_till_quiet};
use crate::port::LossyPort;
use datagram_ports::{MemPort, Port};
use listing::Tree;
use std::alloc::Global;
use std::test::Fail;

/// A file of which a build has forty pieces: 39 of 32,768 bytes and one of 22,194.
const FORTY: usize = 1_300_000;

/// One of which it has four.
const FOUR: usize = 100_000;

/// How many turns of three members over the port did something before one did nothing, where the
/// package's file has so many bytes, and how many of them hold the package then.
fn turns_over<P: Port>(
    alloc: Global,
    port: P,
    size: usize,
    most: usize,
) -> Result<(Option<usize>, u8), Fail> {
    let tree = Tree::parse(alloc, LISTING)?;
    let builds = build_of(alloc, "a/b", &[("x", size)])?;
    let disks = disks(alloc, 3)?;
    let mut cluster = cluster(alloc, &tree, &[1, 1, 1], disks, port)?;
    let quiet = turns_till_quiet(&mut cluster, &builds, most);
    let holders = holders(&cluster);
    drop(cluster);
    Ok((quiet, holders))
}

#[test]
fn each_comes_once(rt: HostRuntime) -> Result<(), Fail> {
    let alloc = rt.alloc();
    let (quiet, holders) = turns_over(alloc, MemPort::new(alloc), FORTY, 300)?;

    // A claim, three offers, three promises, the build, three times forty pieces of it, three
    // votes, and twice forty pieces of what is agreed.
    assert!(rt; quiet == Some(1 + 3 + 3 + 1 + 3 * 40 + 3 + 2 * 40));
    assert!(rt; holders == 3);
    Ok(())
}

#[test]
fn each_comes_twice(rt: HostRuntime) -> Result<(), Fail> {
    let alloc = rt.alloc();
    let mut port = MemPort::new(alloc);
    port.give_twice(true);
    let (quiet, holders) = turns_over(alloc, port, FORTY, 600)?;

    // Of the second of two equal offers comes the same promise once more. The second of two last
    // pieces begins a message of which no other piece comes, so there is one vote of each.
    assert!(rt; quiet == Some(1 + 2 * 3 + 2 * 6 + 1 + 2 * 3 * 40 + 2 * 3 + 2 * 2 * 40));
    assert!(rt; holders == 3);
    Ok(())
}

#[test]
fn half_are_lost(rt: HostRuntime) -> Result<(), Fail> {
    let alloc = rt.alloc();
    let (quiet, holders) = turns_over(alloc, LossyPort::half(alloc), FOUR, 5_000)?;
    assert!(rt; quiet == Some(259));
    assert!(rt; holders == 3);
    Ok(())
}
