//! Receives that give nothing to a node that is up, and datagrams that are given once more.
use crate::clusters::{LISTING, builds, cluster, disks, holders, tell, turn, turns};
use datagram_ports::MemPort;
use listing::Tree;
use protocol::Packages;
use stable_record::{Failing, FaultDisk, MemDisk};
use std::alloc::Global;
use std::test::Fail;

/// What the turns of three members tell, where this call of this one's disk fails.
fn told_of(
    alloc: Global,
    tree: &Tree,
    builds: &Packages,
    node: u8,
    call: u64,
) -> Result<[u8; 51], Fail> {
    let mut disks = Vec::new(alloc);
    for member in 0..3 {
        let failing = Failing::Once(if member == node { call } else { 10_000 });
        disks.push(FaultDisk::new(MemDisk::new(alloc, &[])?, failing))?;
    }
    let mut cluster = cluster(alloc, tree, &[1, 1, 1], disks, MemPort::new(alloc))?;
    let told = turns(&mut cluster, builds);
    drop(cluster);
    Ok(told)
}

#[test]
fn a_note_that_fails(rt: HostRuntime) -> Result<(), Fail> {
    let alloc = rt.alloc();
    let tree = Tree::parse(alloc, LISTING)?;
    let builds = builds(alloc)?;

    // A member's first note is written from the 11th call of its disk on, each by four calls. What
    // comes for a node that is down is as if nothing came: another node does something of itself
    // in that very turn, or nobody does.
    for (node, calls, wanted) in [
        (
            0,
            11..15,
            b"!00C01N01D01D02N01D01D02D11D21B01N01D01D02D11D21N01",
        ),
        (
            0,
            15..19,
            b"C00!00D01D02C01N01N01D31D32N01D31D32N01D31D32D41D51",
        ),
        (
            0,
            19..23,
            b"C00D00D01D02D10D20B00D30!00D41D42C01N01N01D71D72N01",
        ),
        (
            0,
            23..27,
            b"C00D00D01D02D10D20B00D30D40D41D42D50!00C01N01D81D82",
        ),
        (
            1,
            11..15,
            b"C00D00!01D02D10D20B00D30N00D32D40D30N00D32D50D40C02",
        ),
        (
            1,
            15..19,
            b"C00D00D01D02D10D20B00D30D40!01D42D50D60C02D72D80...",
        ),
        (
            1,
            19..23,
            b"C00D00D01D02D10D20B00D30D40D41D42D50D60D70!01D82...",
        ),
    ] {
        for call in calls {
            let told = told_of(alloc, &tree, &builds, node, call)?;
            assert!(rt; told == *wanted, "call {call} of {node}");
        }
    }
    Ok(())
}

#[test]
fn receives_that_fail(rt: HostRuntime) -> Result<(), Fail> {
    let alloc = rt.alloc();
    let tree = Tree::parse(alloc, LISTING)?;
    let builds = builds(alloc)?;
    let disks = disks(alloc, 3)?;
    let mut told = Vec::new(alloc);
    let mut cluster = cluster(alloc, &tree, &[1, 1, 1], disks, MemPort::new(alloc))?;
    tell(&mut cluster, &builds, 3, &mut told);
    cluster.port().fail_receives(true);
    tell(&mut cluster, &builds, 2, &mut told);
    cluster.port().fail_receives(false);
    tell(&mut cluster, &builds, 26, &mut told);
    let holders = holders(&cluster);
    drop(cluster);

    // The offers that are made again come behind the first ones.
    assert!(rt; told.starts_with(b"C00D00D01N00N00D02D10D20B00D00D01D02D00D01D02D30D40"));
    assert!(rt; told.ends_with(b"D41D42D10D20D30D10D20D30D50D60D70D81D82..."));
    assert!(rt; holders == 3);
    Ok(())
}

#[test]
fn bytes_for_no_node(rt: HostRuntime) -> Result<(), Fail> {
    let alloc = rt.alloc();
    let tree = Tree::parse(alloc, LISTING)?;
    let builds = builds(alloc)?;
    let disks = disks(alloc, 3)?;
    let mut port = MemPort::new(alloc);
    port.put_in(3, b"abc".to_vec(alloc)?)?;
    let mut cluster = cluster(alloc, &tree, &[1, 1, 1], disks, port)?;
    let told = turns(&mut cluster, &builds);
    let holders = holders(&cluster);
    drop(cluster);
    assert!(rt; told == *b"C00D00D01D02D10D20B00D30D40D41D42D50D60D70D81D82...");
    assert!(rt; holders == 3);
    Ok(())
}

/// Puts what was offered first in once more, for the second member.
fn put_again(alloc: Global, port: &mut MemPort) -> Result<(), Fail> {
    let bytes = match port.offered() {
        Some([first, ..]) => first.bytes.as_slice().to_vec(alloc)?,
        _ => return Err(Fail::from("nothing was offered")),
    };
    port.put_in(1, bytes)?;
    Ok(())
}

#[test]
fn an_offer_once_more(rt: HostRuntime) -> Result<(), Fail> {
    let alloc = rt.alloc();
    let tree = Tree::parse(alloc, LISTING)?;
    let builds = builds(alloc)?;
    let disks = disks(alloc, 3)?;
    let mut cluster = cluster(alloc, &tree, &[1, 1, 1], disks, MemPort::new(alloc))?;
    let first = turn(&mut cluster, &builds);
    let put = put_again(alloc, cluster.port());
    let told = turns(&mut cluster, &builds);
    let holders = holders(&cluster);
    drop(cluster);
    put?;
    assert!(rt; first == *b"C00");
    assert!(rt; told == *b"D00D01D02D01D10D20B00D30D20D40D41D42D50D60D70D81D82");
    assert!(rt; holders == 3);
    Ok(())
}
