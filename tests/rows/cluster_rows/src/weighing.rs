//! Which members are a majority by what they weigh, with sends to one of them lost or to none.
use crate::clusters::{LISTING, builds, cluster, disks, holders, turns};
use datagram_ports::MemPort;
use listing::Tree;
use protocol::Packages;
use std::alloc::Global;
use std::test::Fail;

/// What the turns of members that weigh so much tell where sends to this one fail, and how many of
/// them hold the package.
fn told_of(
    alloc: Global,
    tree: &Tree,
    builds: &Packages,
    weights: &[u8],
    lost: Option<u8>,
) -> Result<([u8; 51], u8), Fail> {
    let disks = disks(alloc, weights.len())?;
    let mut port = MemPort::new(alloc);
    port.fail_sends_to(lost);
    let mut cluster = cluster(alloc, tree, weights, disks, port)?;
    let told = turns(&mut cluster, builds);
    let holders = holders(&cluster);
    drop(cluster);
    Ok((told, holders))
}

#[test]
fn one_outweighs_two(rt: HostRuntime) -> Result<(), Fail> {
    let alloc = rt.alloc();
    let tree = Tree::parse(alloc, LISTING)?;
    let builds = builds(alloc)?;

    // The heavy one's own promise gives a job, and its own vote is enough to hold the package.
    let (told, holders) = told_of(alloc, &tree, &builds, &[3, 1, 1], None)?;
    assert!(rt; told == *b"C00D00D01D02D10B00D20D30D40D41D42D50D60D70D81D82...");
    assert!(rt; holders == 3);

    // The two others are no majority: there is no job, and the claim is said again to that one.
    let (told, holders) = told_of(alloc, &tree, &builds, &[1, 1, 3], Some(2))?;
    assert!(rt; told == *b"C00D00D01D10D20N00N00N00N00N00N00N00N00N00N00N00N00");
    assert!(rt; holders == 0);

    // With one of the others lost, the heavy one and the third are one.
    let (told, holders) = told_of(alloc, &tree, &builds, &[1, 1, 3], Some(1))?;
    assert!(rt; told.starts_with(b"C00D00D02D10D20B00D30D32D40D50D62C01"));
    assert!(rt; holders == 2);
    Ok(())
}

#[test]
fn a_half_is_no_majority(rt: HostRuntime) -> Result<(), Fail> {
    let alloc = rt.alloc();
    let tree = Tree::parse(alloc, LISTING)?;
    let builds = builds(alloc)?;

    // Two of four, by weight: those left without the one that weighs as much as both.
    let (told, holders) = told_of(alloc, &tree, &builds, &[1, 2, 1], Some(1))?;
    assert!(rt; told == *b"C00D00D02D10D20N00N00N00N00N00N00N00N00N00N00N00N00");
    assert!(rt; holders == 0);

    // That one's own promise is no majority either, but with one more it is.
    let (told, holders) = told_of(alloc, &tree, &builds, &[2, 1, 1], Some(2))?;
    assert!(rt; told.starts_with(b"C00D00D01D10D20B00D30D31D40D50D61C02"));
    assert!(rt; holders == 2);

    // Two of four that weigh alike.
    let (told, holders) = told_of(alloc, &tree, &builds, &[1, 1, 1, 1], None)?;
    assert!(rt; told.starts_with(b"C00D00D01D02D03D10D20D30B00D40D50D51D52D53D60D70D80"));
    assert!(rt; holders == 1);
    Ok(())
}

#[test]
fn the_heavier_of_two(rt: HostRuntime) -> Result<(), Fail> {
    let alloc = rt.alloc();
    let tree = Tree::parse(alloc, LISTING)?;
    let builds = builds(alloc)?;

    // The other's vote isn't waited for, and where that one hears nothing, it gets nothing.
    let (told, holders) = told_of(alloc, &tree, &builds, &[100, 99], None)?;
    assert!(rt; told.starts_with(b"C00D00D01D10B00D20D30D31D40D50D61..."));
    assert!(rt; holders == 2);
    let (told, holders) = told_of(alloc, &tree, &builds, &[100, 99], Some(1))?;
    assert!(rt; told.starts_with(b"C00D00D10B00D20D30C01D50N01D50N01D50"));
    assert!(rt; holders == 1);

    // The lighter one, or one of two that weigh alike, has no majority.
    for weights in [[99, 100], [100, 100]] {
        let (told, holders) = told_of(alloc, &tree, &builds, &weights, Some(1))?;
        assert!(rt; told == *b"C00D00D10N00N00N00N00N00N00N00N00N00N00N00N00N00N00");
        assert!(rt; holders == 0);
    }
    Ok(())
}
