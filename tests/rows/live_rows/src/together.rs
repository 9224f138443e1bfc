//! Nodes of one cluster, each with its desk, whose builds come in by folders of their own.
use crate::desks::{BUILDS, LISTING, TWO, hand_in, letter, name_of_job, pace};
use ballots::Weights;
use datagram_ports::{MemPort, Port};
use engine::Counts;
use job_folder::Folder;
use listing::Tree;
use lone_node::Solo;
use node::Node;
use pkgpath::PkgPath;
use scheduler::Desk;
use stable_record::MemDisk;
use std::alloc::Global;
use std::fs;
use std::test::Fail;
use std::time::{Duration, Instant};
use turn_rules::{Initiative, Wish};

/// The folders of three nodes.
const WORKS: [&str; 3] = ["work-0", "work-1", "work-2"];

/// A node with its desk.
#[derive(Drop)]
struct Host<'a> {
    solo: Solo<'a, MemDisk, MemPort>,
    desk: Desk<'a>,
}

/// The node of this number, of so many members that weigh alike.
fn make_host<'a>(
    rt: &HostRuntime,
    tree: &'a Tree,
    members: &[u8],
    me: u8,
    now: Instant,
) -> Result<Host<'a>, Fail> {
    let alloc = rt.alloc();
    let folder = Folder::open(rt, WORKS[me as usize], me, false)?;
    let disk = MemDisk::new(alloc, &[])?;
    match Node::open(alloc, disk, tree, &Weights::new(members)?, me) {
        Ok(node) => Ok(Host {
            solo: Solo::new(node, MemPort::new(alloc)),
            desk: Desk::new(alloc, folder, pace(1), false, now),
        }),
        Err((fault, _disk)) => Err(fault)?,
    }
}

/// Carries what waits at the node's port to the nodes that it is for.
fn carry(alloc: Global, hosts: &mut Vec<Host<'_>>, from: usize) -> Result<(), Fail> {
    let mut waiting = Vec::new(alloc);
    for _ in 0..1000 {
        match hosts[from].solo.port().receive()? {
            Some(datagram) => waiting.push(datagram)?,
            None => break,
        }
    }
    for (to, bytes) in waiting {
        if let Some(host) = hosts.get_mut(to as usize) {
            host.solo.port().put_in(to, bytes)?;
        }
    }
    Ok(())
}

/// So many turns of each of these nodes.
fn rounds(
    rt: &HostRuntime,
    hosts: &mut Vec<Host<'_>>,
    now: Instant,
    count: usize,
) -> Result<(), Fail> {
    for _ in 0..count {
        for me in 0..hosts.len() {
            let host = &mut hosts[me];
            letter(rt, &mut host.solo, &mut host.desk, now)?;
            carry(rt.alloc(), hosts, me)?;
        }
    }
    Ok(())
}

/// Hands in a build for the node's job, if it has one.
fn build(rt: &HostRuntime, hosts: &Vec<Host<'_>>, me: usize) -> Result<bool, Fail> {
    match name_of_job(rt, &hosts[me].solo)? {
        Some(name) => {
            hand_in(rt, WORKS[me], &name, BUILDS)?;
            Ok(true)
        }
        None => Ok(false),
    }
}

/// How many packages can be installed at the node.
fn installable(host: &Host<'_>) -> u32 {
    match host.solo.counts() {
        Some(Counts { i, .. }) => i,
        None => 0,
    }
}

fn later(now: Instant, seconds: u64) -> Result<Instant, Fail> {
    Ok(now.checked_add(Duration::from_secs(seconds)).ok_or("no such time")?)
}

#[test]
fn made_for_one_and_not_for_the_other(rt: HostRuntime) -> Result<(), Fail> {
    let alloc = rt.alloc();
    let tree = Tree::parse(alloc, TWO)?;
    let now = Instant::now(&rt)?;
    let mut hosts = Vec::new(alloc);
    hosts.push(make_host(&rt, &tree, &[1, 1], 0, now)?)?;
    hosts.push(make_host(&rt, &tree, &[1, 1], 1, now)?)?;
    rounds(&rt, &mut hosts, now, 5)?;
    let now = later(now, 1)?;
    rounds(&rt, &mut hosts, now, 30)?;
    // each has a job, for another unit
    let first = name_of_job(&rt, &hosts[0].solo)?;
    let second = name_of_job(&rt, &hosts[1].solo)?;
    let (Some(first), Some(second)) = (first, second) else {
        return Ok(assert!(rt; false));
    };
    let are_two = first.as_str() != second.as_str();
    let is_built = build(&rt, &hosts, 1)?;
    rounds(&rt, &mut hosts, now, 30)?;
    let at_first = [installable(&hosts[0]), installable(&hosts[1])];
    let waits = hosts[0].solo.node().member().job().is_some();
    let clear = [hosts[0].desk.is_clear(), hosts[1].desk.is_clear()];
    let other_is_built = build(&rt, &hosts, 0)?;
    rounds(&rt, &mut hosts, now, 30)?;
    let at_last = [installable(&hosts[0]), installable(&hosts[1])];
    drop(hosts);
    assert!(rt; are_two && is_built && waits && other_is_built);
    assert!(rt; at_first == [1, 1]);
    assert!(rt; clear == [false, true]);
    assert!(rt; at_last == [2, 2]);
    Ok(())
}

#[test]
fn a_unit_is_taken_over(rt: HostRuntime) -> Result<(), Fail> {
    let alloc = rt.alloc();
    let tree = Tree::parse(alloc, b"a/b.FULLPKGNAME=b-1.0\n")?;
    let now = Instant::now(&rt)?;
    let mut hosts = Vec::new(alloc);
    hosts.push(make_host(&rt, &tree, &[1, 1], 0, now)?)?;
    hosts.push(make_host(&rt, &tree, &[1, 1], 1, now)?)?;
    rounds(&rt, &mut hosts, now, 5)?;
    rounds(&rt, &mut hosts, later(now, 1)?, 30)?;
    let is_first = hosts[0].solo.node().member().job().is_some();
    // the other sees that it is away, and leaves it to the first for 600 seconds
    rounds(&rt, &mut hosts, later(now, 2)?, 10)?;
    rounds(&rt, &mut hosts, later(now, 601)?, 10)?;
    let is_left = hosts[1].solo.node().member().job().is_none();
    let has_more = hosts[1].desk.has_more(hosts[1].solo.node().member());
    rounds(&rt, &mut hosts, later(now, 603)?, 30)?;
    let is_over = build(&rt, &hosts, 1)?;
    rounds(&rt, &mut hosts, later(now, 604)?, 30)?;
    let installable = [installable(&hosts[0]), installable(&hosts[1])];
    let clear = [hosts[0].desk.is_clear(), hosts[1].desk.is_clear()];
    drop(hosts);
    assert!(rt; is_first && is_left && has_more);
    assert!(rt; is_over);
    assert!(rt; installable == [1, 1]);
    assert!(rt; clear == [true, true]);
    Ok(())
}

#[test]
fn a_late_node_comes_to_hold_all(rt: HostRuntime) -> Result<(), Fail> {
    let alloc = rt.alloc();
    let tree = Tree::parse(alloc, TWO)?;
    let now = Instant::now(&rt)?;
    let mut hosts = Vec::new(alloc);
    hosts.push(make_host(&rt, &tree, &[1, 1, 1], 0, now)?)?;
    hosts.push(make_host(&rt, &tree, &[1, 1, 1], 1, now)?)?;
    for seconds in 0..6 {
        rounds(&rt, &mut hosts, later(now, seconds)?, 30)?;
        for me in 0..2 {
            build(&rt, &hosts, me)?;
        }
    }
    let before = [installable(&hosts[0]), installable(&hosts[1])];
    let logs = [hosts[0].solo.node().log_len(), hosts[1].solo.node().log_len()];
    // it asks, and is told; the others note nothing
    let now = later(now, 7)?;
    hosts.push(make_host(&rt, &tree, &[1, 1, 1], 2, now)?)?;
    rounds(&rt, &mut hosts, now, 30)?;
    rounds(&rt, &mut hosts, later(now, 1)?, 30)?;
    let after = installable(&hosts[2]);
    let is_silent = logs == [hosts[0].solo.node().log_len(), hosts[1].solo.node().log_len()];
    let is_clear = hosts[2].desk.is_clear();
    drop(hosts);
    assert!(rt; before == [2, 2]);
    assert!(rt; after == 2 && is_silent && is_clear);
    Ok(())
}

/// How many nodes have a job.
fn jobs(hosts: &Vec<Host<'_>>) -> usize {
    let mut count = 0;
    for host in hosts {
        if host.solo.node().member().job().is_some() {
            count += 1;
        }
    }
    count
}

/// Hands in that the node's build failed, if it has a job.
fn fail(rt: &HostRuntime, hosts: &Vec<Host<'_>>, me: usize) -> Result<bool, Fail> {
    match name_of_job(rt, &hosts[me].solo)? {
        Some(name) => {
            let digits = name.as_str();
            let work = WORKS[me];
            let path = format!(in rt.alloc(); "{work}/failed/{digits}")?;
            fs::write(rt, path.as_str(), b"on purpose".as_slice())?;
            Ok(true)
        }
        None => Ok(false),
    }
}

#[test]
fn what_failed_is_built_by_another_at_once(rt: HostRuntime) -> Result<(), Fail> {
    let alloc = rt.alloc();
    let tree = Tree::parse(alloc, b"a/b.FULLPKGNAME=b-1.0\n")?;
    let now = Instant::now(&rt)?;
    let mut hosts = Vec::new(alloc);
    hosts.push(make_host(&rt, &tree, &[1, 1], 0, now)?)?;
    hosts.push(make_host(&rt, &tree, &[1, 1], 1, now)?)?;
    rounds(&rt, &mut hosts, now, 5)?;
    rounds(&rt, &mut hosts, later(now, 1)?, 30)?;
    rounds(&rt, &mut hosts, later(now, 2)?, 30)?;
    let has_failed = fail(&rt, &hosts, 0)?;
    // the other one learns so by the question of the first, and claims the unit
    rounds(&rt, &mut hosts, later(now, 3)?, 30)?;
    let is_built = build(&rt, &hosts, 1)?;
    rounds(&rt, &mut hosts, later(now, 4)?, 30)?;
    let installable = [installable(&hosts[0]), installable(&hosts[1])];
    drop(hosts);
    assert!(rt; has_failed && is_built);
    assert!(rt; installable == [1, 1]);
    Ok(())
}

#[test]
fn a_host_that_takes_no_jobs_gives_its_own_back(rt: HostRuntime) -> Result<(), Fail> {
    let alloc = rt.alloc();
    let tree = Tree::parse(alloc, b"a/b.FULLPKGNAME=b-1.0\n")?;
    let now = Instant::now(&rt)?;
    let mut hosts = Vec::new(alloc);
    hosts.push(make_host(&rt, &tree, &[1, 1], 0, now)?)?;
    hosts.push(make_host(&rt, &tree, &[1, 1], 1, now)?)?;
    rounds(&rt, &mut hosts, now, 5)?;
    rounds(&rt, &mut hosts, later(now, 1)?, 30)?;
    rounds(&rt, &mut hosts, later(now, 2)?, 30)?;
    let is_first = hosts[0].solo.node().member().job().is_some();
    let host = &mut hosts[0];
    host.desk.set_holding_off(true);
    host.desk.give_back(&rt, host.solo.node().member())?;
    let is_clear = host.desk.is_clear();
    rounds(&rt, &mut hosts, later(now, 3)?, 30)?;
    let is_built = build(&rt, &hosts, 1)?;
    rounds(&rt, &mut hosts, later(now, 4)?, 30)?;
    let installable = [installable(&hosts[0]), installable(&hosts[1])];
    drop(hosts);
    assert!(rt; is_first && is_clear && is_built);
    assert!(rt; installable == [1, 1]);
    Ok(())
}

#[test]
fn a_late_node_leaves_what_others_build(rt: HostRuntime) -> Result<(), Fail> {
    let alloc = rt.alloc();
    let tree = Tree::parse(alloc, LISTING)?;
    let now = Instant::now(&rt)?;
    let mut hosts = Vec::new(alloc);
    hosts.push(make_host(&rt, &tree, &[1, 1, 1], 0, now)?)?;
    hosts.push(make_host(&rt, &tree, &[1, 1, 1], 1, now)?)?;
    for seconds in 0..3 {
        rounds(&rt, &mut hosts, later(now, seconds)?, 30)?;
    }
    // the first unit is built, and the second one, which is built on it, claimed
    let is_built = build(&rt, &hosts, 0)?;
    for seconds in 3..6 {
        rounds(&rt, &mut hosts, later(now, seconds)?, 30)?;
    }
    let before = jobs(&hosts);
    hosts.push(make_host(&rt, &tree, &[1, 1, 1], 2, later(now, 6)?)?)?;
    for seconds in 6..12 {
        rounds(&rt, &mut hosts, later(now, seconds)?, 30)?;
    }
    let after = jobs(&hosts);
    let is_late_one_free = hosts[2].solo.node().member().job().is_none();
    let is_held = installable(&hosts[2]) == 1;
    drop(hosts);
    assert!(rt; is_built && is_held);
    assert!(rt; before == 1 && after == 1 && is_late_one_free);
    Ok(())
}

#[test]
fn what_failed_at_so_many_members_is_claimed_by_nobody(rt: HostRuntime) -> Result<(), Fail> {
    let alloc = rt.alloc();
    let tree = Tree::parse(alloc, b"a/b.FULLPKGNAME=b-1.0\n")?;
    let now = Instant::now(&rt)?;
    let mut hosts = Vec::new(alloc);
    for me in 0..3 {
        hosts.push(make_host(&rt, &tree, &[1, 1, 1], me, now)?)?;
    }
    // notices that count: each member once, and none of its own, or of a unit that doesn't exist
    let mut has_more = [false; 5];
    for (place, (from, unit)) in [(1, 0), (1, 0), (2, 0), (3, 0), (0, 1)].iter().enumerate() {
        let host = &mut hosts[2];
        host.desk.hear_notice(host.solo.node().member(), *from, *unit)?;
        has_more[place] = host.desk.has_more(host.solo.node().member());
    }
    let host = &mut hosts[2];
    host.desk.hear_notice(host.solo.node().member(), 0, 0)?;
    let is_given_up = !host.desk.has_more(host.solo.node().member());
    // the first claims the unit: it is promised to it, so its mark was removed
    rounds(&rt, &mut hosts, now, 5)?;
    rounds(&rt, &mut hosts, later(now, 1)?, 30)?;
    let is_first = hosts[0].solo.node().member().job().is_some();
    let is_tried_again = hosts[2].desk.has_more(hosts[2].solo.node().member());
    // its offer comes again, after another notice
    let host = &mut hosts[2];
    host.desk.hear_notice(host.solo.node().member(), 0, 0)?;
    let is_given_up_again = !host.desk.has_more(host.solo.node().member());
    drop(hosts);
    assert!(rt; has_more == [true, true, true, true, true]);
    assert!(rt; is_given_up && is_first && is_tried_again && is_given_up_again);
    Ok(())
}

/// Turns in which nothing is wished.
fn take_in(alloc: Global, hosts: &mut Vec<Host<'_>>, count: usize) -> Result<(), Fail> {
    for _ in 0..count {
        for me in 0..hosts.len() {
            hosts[me].solo.turn_with(None, Initiative::Scheduled(None))?;
            carry(alloc, hosts, me)?;
        }
    }
    Ok(())
}

#[test]
fn own_units_come_first_after_a_restart(rt: HostRuntime) -> Result<(), Fail> {
    let alloc = rt.alloc();
    let tree = Tree::parse(
        alloc,
        b"a/b.FULLPKGNAME=b-1.0\na/c.FULLPKGNAME=c-1.0\na/d.FULLPKGNAME=d-1.0\n",
    )?;
    let now = Instant::now(&rt)?;
    let mut hosts = Vec::new(alloc);
    hosts.push(make_host(&rt, &tree, &[1, 1], 0, now)?)?;
    hosts.push(make_host(&rt, &tree, &[1, 1], 1, now)?)?;
    // the first claims the second unit, whose turn is the other one's, and then the third
    for path in [b"a/c", b"a/d"] {
        let path = PkgPath::parse(alloc, path.as_slice())?;
        let wish = Some(Wish::Claim { path, above: 0 });
        hosts[0].solo.turn_with(None, Initiative::Scheduled(wish))?;
        carry(alloc, &mut hosts, 0)?;
        take_in(alloc, &mut hosts, 10)?;
    }
    // with a new desk it takes up the second before it claims the first
    let folder = Folder::open(&rt, WORKS[0], 0, true)?;
    let mut desk = Desk::new(alloc, folder, pace(2), true, now);
    let now = later(now, 1)?;
    let member = hosts[0].solo.node().member();
    desk.tick(member, now)?;
    desk.look(&rt, member)?;
    let wish = desk.wish(&rt, member, false, now)?;
    let is_second = match &wish {
        Some(Wish::Claim { path, .. }) => path.as_bytes() == b"a/c".as_slice(),
        _ => false,
    };
    drop(hosts);
    assert!(rt; is_second);
    Ok(())
}
