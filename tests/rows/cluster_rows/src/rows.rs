//! What turns of small clusters do, each with its event.
use crate::clusters::{LISTING, builds, cluster, disks, holders, turn, turns};
use datagram_ports::MemPort;
use listing::Tree;
use protocol::Packages;
use stable_record::{Failing, FaultDisk, MemDisk};
use std::alloc::Global;
use std::test::Fail;

#[test]
fn three_members(rt: HostRuntime) -> Result<(), Fail> {
    let alloc = rt.alloc();
    let tree = Tree::parse(alloc, LISTING)?;
    let builds = builds(alloc)?;
    let disks = disks(alloc, 3)?;
    let mut cluster = cluster(alloc, &tree, &[1, 1, 1], disks, MemPort::new(alloc))?;
    let told = turns(&mut cluster, &builds);
    let holders = holders(&cluster);
    let receives = cluster.port().receives();
    let offered = match cluster.port().offered() {
        Some(offered) => offered.len(),
        None => 0,
    };
    drop(cluster);
    assert!(rt; told == *b"C00D00D01D02D10D20B00D30D40D41D42D50D60D70D81D82...");
    assert!(rt; holders == 3);

    // The port is asked in each turn but that of the build, and each offered datagram comes.
    assert!(rt; receives == Some(16));
    assert!(rt; offered == 14);
    Ok(())
}

#[test]
fn sends_to_one_fail(rt: HostRuntime) -> Result<(), Fail> {
    let alloc = rt.alloc();
    let tree = Tree::parse(alloc, LISTING)?;
    let builds = builds(alloc)?;
    let disks = disks(alloc, 3)?;
    let mut port = MemPort::new(alloc);
    port.fail_sends_to(Some(2));
    let mut cluster = cluster(alloc, &tree, &[1, 1, 1], disks, port)?;
    let told = turns(&mut cluster, &builds);
    let holders = holders(&cluster);
    drop(cluster);
    assert!(rt; told.starts_with(b"C00D00D01D10D20B00D30D31D40D50D61C02"));
    assert!(rt; holders == 2);
    Ok(())
}

#[test]
fn each_comes_twice(rt: HostRuntime) -> Result<(), Fail> {
    let alloc = rt.alloc();
    let tree = Tree::parse(alloc, LISTING)?;
    let builds = builds(alloc)?;
    let disks = disks(alloc, 3)?;
    let mut port = MemPort::new(alloc);
    port.give_twice(true);
    let mut cluster = cluster(alloc, &tree, &[1, 1, 1], disks, port)?;
    for _ in 0..60 {
        let _told = turn(&mut cluster, &builds);
    }
    let last = turn(&mut cluster, &builds);
    let holders = holders(&cluster);
    drop(cluster);
    assert!(rt; last == *b"...");
    assert!(rt; holders == 3);
    Ok(())
}

#[test]
fn bytes_of_nobody(rt: HostRuntime) -> Result<(), Fail> {
    let alloc = rt.alloc();
    let tree = Tree::parse(alloc, LISTING)?;
    let builds = builds(alloc)?;
    let disks = disks(alloc, 3)?;
    let mut port = MemPort::new(alloc);
    port.put_in(0, b"abc".to_vec(alloc)?)?;
    let mut cluster = cluster(alloc, &tree, &[1, 1, 1], disks, port)?;
    let told = turns(&mut cluster, &builds);
    let holders = holders(&cluster);
    drop(cluster);
    assert!(rt; told == *b"X00C00D00D01D02D10D20B00D30D40D41D42D50D60D70D81D82");
    assert!(rt; holders == 3);
    Ok(())
}

#[test]
fn one_member(rt: HostRuntime) -> Result<(), Fail> {
    let alloc = rt.alloc();
    let tree = Tree::parse(alloc, LISTING)?;
    let builds = builds(alloc)?;
    let disks = disks(alloc, 1)?;
    let mut cluster = cluster(alloc, &tree, &[1], disks, MemPort::new(alloc))?;
    let told = turns(&mut cluster, &builds);
    let holders = holders(&cluster);
    drop(cluster);
    assert!(rt; told.starts_with(b"C00D00D10B00D20D30......"));
    assert!(rt; holders == 1);
    Ok(())
}

#[test]
fn nothing_to_build(rt: HostRuntime) -> Result<(), Fail> {
    let alloc = rt.alloc();
    let tree = Tree::parse(alloc, LISTING)?;
    let builds = Packages::new(Vec::new(alloc));
    let disks = disks(alloc, 3)?;
    let mut cluster = cluster(alloc, &tree, &[1, 1, 1], disks, MemPort::new(alloc))?;
    let told = turns(&mut cluster, &builds);
    let holders = holders(&cluster);
    drop(cluster);
    assert!(rt; told == *b"C00D00D01D02D10D20F00D30...........................");
    assert!(rt; holders == 0);
    Ok(())
}

#[test]
fn a_heavy_member(rt: HostRuntime) -> Result<(), Fail> {
    let alloc = rt.alloc();
    let tree = Tree::parse(alloc, LISTING)?;
    let builds = builds(alloc)?;
    let disks = disks(alloc, 3)?;
    let mut cluster = cluster(alloc, &tree, &[1, 1, 3], disks, MemPort::new(alloc))?;
    let told = turns(&mut cluster, &builds);
    let holders = holders(&cluster);
    drop(cluster);
    assert!(rt; told == *b"C00D00D01D02D10D20D30B00D40D41D42D50D60D70D81D82...");
    assert!(rt; holders == 3);
    Ok(())
}

/// Disks of three members, of which the first fails once, at this call.
fn one_that_fails(alloc: Global, call: u64) -> Result<Vec<FaultDisk>, Fail> {
    let mut disks = Vec::new(alloc);
    for member in 0..3 {
        let call = if member == 0 { call } else { 10_000 };
        disks.push(FaultDisk::new(MemDisk::new(alloc, &[])?, Failing::Once(call)))?;
    }
    Ok(disks)
}

#[test]
fn a_device_fails(rt: HostRuntime) -> Result<(), Fail> {
    let alloc = rt.alloc();
    let tree = Tree::parse(alloc, LISTING)?;
    let builds = builds(alloc)?;
    for call in 12..40 {
        let disks = one_that_fails(alloc, call)?;
        let mut cluster = cluster(alloc, &tree, &[1, 1, 1], disks, MemPort::new(alloc))?;
        for _ in 0..80 {
            let _told = turn(&mut cluster, &builds);
        }
        let is_down = cluster.counts(0).is_none();
        let holders = holders(&cluster);
        drop(cluster);
        assert!(rt; holders == if is_down { 2 } else { 3 });
    }
    Ok(())
}
