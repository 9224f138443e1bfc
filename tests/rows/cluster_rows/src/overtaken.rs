//! Claims that greater ones stand in the way of.
use crate::clusters::{cluster, disks, holders_of, package, tell};
use crate::port::LossyPort;
use listing::Tree;
use protocol::Packages;
use std::alloc::Global;
use std::test::Fail;

/// A file for each of these packages.
fn builds_of(alloc: Global, paths: &[&str]) -> Result<Packages, Fail> {
    let mut items = Vec::new(alloc);
    for path in paths {
        items.push(package(alloc, path, &[("x", 3)])?)?;
    }
    Ok(Packages::new(items))
}

/// The texts, one behind the other.
fn joined(alloc: Global, texts: &[&str]) -> Result<Vec<u8>, Fail> {
    let mut all = Vec::new(alloc);
    for text in texts {
        all.extend_from_slice(text.as_bytes())?;
    }
    Ok(all)
}

/// What the turns of members that weigh so much tell, where so many of them are taken with sends to
/// these members lost, one such line after the other, and at how many nodes that many packages can
/// be installed in the end.
fn told_of(
    alloc: Global,
    tree: &Tree,
    builds: &Packages,
    weights: &[u8],
    lines: &[(usize, &[u8])],
) -> Result<(Vec<u8>, u8), Fail> {
    let disks = disks(alloc, weights.len())?;
    let port = LossyPort::to(alloc, &[]);
    let mut told = Vec::new(alloc);
    let mut cluster = cluster(alloc, tree, weights, disks, port)?;
    for (turns, lost) in lines {
        cluster.port().lose_to(lost);
        tell(&mut cluster, builds, *turns, &mut told);
    }
    let holders = holders_of(&cluster, tree.len());
    drop(cluster);
    Ok((told, holders))
}

#[test]
fn a_claim_above_the_one_in_its_way(rt: HostRuntime) -> Result<(), Fail> {
    let alloc = rt.alloc();
    let tree = Tree::parse(alloc, b"a/b.FULLPKGNAME=b-1.0\nc/d.FULLPKGNAME=d-1.0\n")?;
    let builds = builds_of(alloc, &["a/b", "c/d"])?;
    let lines: [(usize, &[u8]); 2] = [(14, &[0]), (39, &[])];
    let (told, holders) = told_of(alloc, &tree, &builds, &[1, 1, 1], &lines)?;
    let wanted = joined(
        alloc,
        &[
            // 0 claims the first package and hears nothing. 1 claims the second; 1 and 2 hold it.
            "C00D01D02C01D31D32D41D51B01D61D62D71D81D92",
            // 0 says its claim again, hears of it, and all hold the first.
            "N00D00D01D02D00D10B00D20D10D11D12D20D30D40D51D52",
            // It claims the second in round 1, which 1 and 2 promised to 1; so then above 1.
            "C00D60D61D62D70D80D90C10",
            // They report the build that they voted for: nothing is built, and all hold that one.
            "D00D01D02D10D20D30D40D41D42D50D60D70D81D82...",
        ],
    )?;
    assert!(rt; told.as_slice() == wanted.as_slice());
    assert!(rt; holders == 3);
    Ok(())
}

#[test]
fn the_greatest_round_of_those_in_its_way(rt: HostRuntime) -> Result<(), Fail> {
    let alloc = rt.alloc();
    let tree = Tree::parse(
        alloc,
        b"a/b.FULLPKGNAME=b-1.0\nc/d.FULLPKGNAME=d-1.0\ne/f.FULLPKGNAME=f-1.0\n",
    )?;
    let builds = builds_of(alloc, &["a/b", "c/d", "e/f"])?;
    let lines: [(usize, &[u8]); 5] = [
        (7, &[0, 1]),
        (19, &[0]),
        (2, &[0, 1]),
        (13, &[0, 2]),
        (61, &[]),
    ];
    let (told, holders) = told_of(alloc, &tree, &builds, &[1, 3, 1], &lines)?;
    let wanted = joined(
        alloc,
        &[
            // 0 claims the first package, 1 the second, 2 the third. Nothing comes but to 2.
            "C00D02C01D22C02D42D52",
            // Nothing comes to 0. 1 alone is a majority and gets the second, and 2 the third, which
            // 1 promised to it in round 1; of what is agreed then nobody hears.
            "N00D01D02N01D21D22D71B01D31D81D82D91D01D12N02D41D22B02D31D32D42D52",
            // Nothing comes but to 1: it claims the third and is in its own way, claims it above 1
            // and gets it in round 2.
            "N00D01C01D71D81N00D01C11D91D01D11D21",
            // All hear all. 0 gets the first package,
            "N00D00D01D02D40D60B00D10D50D51D52D60D70D80D91D92",
            // then the second, at last above the round 1 of 1's and 2's promise to 1,
            "C00D00D01D02D10D20D30C10D40D41D42D50D60D70D80D81D82D90D00D10D21D22",
            // and the third, at last above the round 2 that 1 named before 2 named the round 1.
            "C00D30D31D32D40D50D60C20D70D71D72D80D90D00D10D11D12D20D30D40D51D52...",
        ],
    )?;
    assert!(rt; told.as_slice() == wanted.as_slice());
    assert!(rt; holders == 3);
    Ok(())
}
