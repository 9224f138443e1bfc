//! Files that make no build, and units of two packages.
use crate::clusters::{
    LISTING, build_of, builds_of_two, cluster, disks, holders_of, is_of, tell, turns,
};
use datagram_ports::MemPort;
use listing::Tree;
use pkgpath::PkgPath;
use protocol::Packages;
use std::alloc::Global;
use std::test::Fail;

/// What three members tell where files make no build: once it failed, nobody claims it again.
static FAILED: &[u8; 51] = b"C00D00D01D02D10D20F00D30...........................";

/// What three members tell of these builds, and at how many nodes so many packages can be installed
/// then.
fn told_of(
    alloc: Global,
    tree: &Tree,
    builds: &Packages,
    packages: u32,
) -> Result<([u8; 51], u8), Fail> {
    let disks = disks(alloc, 3)?;
    let mut cluster = cluster(alloc, tree, &[1, 1, 1], disks, MemPort::new(alloc))?;
    let told = turns(&mut cluster, builds);
    let holders = holders_of(&cluster, packages);
    drop(cluster);
    Ok((told, holders))
}

#[test]
fn names_of_no_files(rt: HostRuntime) -> Result<(), Fail> {
    let alloc = rt.alloc();
    let tree = Tree::parse(alloc, LISTING)?;
    for name in [
        "@x", "", "/x", "x/", "x//y", ".", "..", "x/../y", "x\n", "\u{e9}",
    ] {
        let builds = build_of(alloc, "a/b", &[("y", 3), (name, 3)])?;
        let (told, holders) = told_of(alloc, &tree, &builds, 0)?;
        assert!(rt; told == *FAILED, "{name}");
        assert!(rt; holders == 3);
    }
    let builds = build_of(alloc, "a/b", &[("x", 3), ("y", 3), ("x", 0)])?;
    let (told, holders) = told_of(alloc, &tree, &builds, 0)?;
    assert!(rt; told == *FAILED);
    assert!(rt; holders == 3);
    Ok(())
}

#[test]
fn the_next_package_is_built(rt: HostRuntime) -> Result<(), Fail> {
    let alloc = rt.alloc();
    let tree = Tree::parse(alloc, b"a/b.FULLPKGNAME=b-1.0\nc/d.FULLPKGNAME=d-1.0\n")?;
    let builds = builds_of_two(alloc, ("a/b", "@x", 3), ("c/d", "x", 3))?;
    let disks = disks(alloc, 3)?;
    let mut told = Vec::new(alloc);
    let mut cluster = cluster(alloc, &tree, &[1, 1, 1], disks, MemPort::new(alloc))?;
    tell(&mut cluster, &builds, 26, &mut told);
    let holders = holders_of(&cluster, 1);
    drop(cluster);

    // 0 claims the first package, which nobody claims again, and 1 claims the second.
    assert!(rt; told.starts_with(b"C00D00D01D02D10D20F00D30C01D40D41D42D51D61B01D71D80D81"));
    assert!(rt; told.ends_with(b"D82D91D01D11D20D22......"));
    assert!(rt; holders == 3);
    Ok(())
}

#[test]
fn one_byte_too_many(rt: HostRuntime) -> Result<(), Fail> {
    let alloc = rt.alloc();
    let tree = Tree::parse(alloc, LISTING)?;

    // 146 bytes stand before the file's own, and a build has at most 4,194,304.
    for (size, wanted) in [
        (4_194_158, b"C00D00D01D02D10D20B00D30"),
        (4_194_159, b"C00D00D01D02D10D20F00D30"),
    ] {
        let builds = build_of(alloc, "a/b", &[("x", size)])?;
        let disks = disks(alloc, 3)?;
        let mut told = Vec::new(alloc);
        let mut cluster = cluster(alloc, &tree, &[1, 1, 1], disks, MemPort::new(alloc))?;
        tell(&mut cluster, &builds, 8, &mut told);
        drop(cluster);
        assert!(rt; told.as_slice() == wanted.as_slice(), "{size}");
    }
    Ok(())
}

/// Two packages that one build makes.
static TWO: &[u8] = b"a/b,-main.FULLPKGNAME=b-1.0\na/b,-docs.FULLPKGNAME=b-docs-1.0\n";

#[test]
fn one_of_two_packages(rt: HostRuntime) -> Result<(), Fail> {
    let alloc = rt.alloc();
    let tree = Tree::parse(alloc, TWO)?;
    for path in ["a/b,-main", "a/b,-docs", "a/b", "c/d"] {
        let builds = build_of(alloc, path, &[("x", 3)])?;
        let (told, holders) = told_of(alloc, &tree, &builds, 0)?;
        assert!(rt; told == *FAILED, "{path}");
        assert!(rt; holders == 3);
    }

    // One has a file with a bad name; or each makes a build, but not both.
    for (name, size) in [("@x", 3), ("x", 2_200_000)] {
        let builds = builds_of_two(alloc, ("a/b,-main", "x", size), ("a/b,-docs", name, size))?;
        let (told, holders) = told_of(alloc, &tree, &builds, 0)?;
        assert!(rt; told == *FAILED, "{name}");
        assert!(rt; holders == 3);
    }
    Ok(())
}

#[test]
fn both_packages(rt: HostRuntime) -> Result<(), Fail> {
    let alloc = rt.alloc();
    let tree = Tree::parse(alloc, TWO)?;
    let builds = builds_of_two(alloc, ("a/b,-docs", "y", 0), ("a/b,-main", "x", 3))?;
    let main = PkgPath::parse(alloc, b"a/b,-main")?;
    let unit = PkgPath::parse(alloc, b"a/b")?;
    let disks = disks(alloc, 3)?;
    let mut cluster = cluster(alloc, &tree, &[1, 1, 1], disks, MemPort::new(alloc))?;
    let told = turns(&mut cluster, &builds);
    let holders = holders_of(&cluster, 2);

    // The claim names the package that was first in the queue, the answer to the job the unit.
    let is_claimed = is_of(cluster.events().first(), &main);
    let is_built = is_of(cluster.events().get(6), &unit);
    drop(cluster);
    assert!(rt; told == *b"C00D00D01D02D10D20B00D30D40D41D42D50D60D70D81D82...");
    assert!(rt; holders == 3);
    assert!(rt; is_claimed);
    assert!(rt; is_built);
    Ok(())
}

#[test]
fn the_other_is_ignored(rt: HostRuntime) -> Result<(), Fail> {
    let alloc = rt.alloc();
    let tree = Tree::parse(
        alloc,
        b"a/b,-main.FULLPKGNAME=b-1.0\na/b,-docs.FULLPKGNAME=b-docs-1.0\na/b,-docs.IGNORE=old\n",
    )?;
    let builds = build_of(alloc, "a/b,-main", &[("x", 3)])?;
    let (told, holders) = told_of(alloc, &tree, &builds, 1)?;
    assert!(rt; told == *b"C00D00D01D02D10D20B00D30D40D41D42D50D60D70D81D82...");
    assert!(rt; holders == 3);
    Ok(())
}
