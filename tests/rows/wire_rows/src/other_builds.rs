//! Texts of builds beside other builds that are known.
use crate::joining::{Outcome, joined};
use crate::made::{Made, PLAIN, build, text};
use claims::Claim;
use std::test::Fail;
use wire::WireFault;

fn claim(round: u64, member: u8) -> Claim {
    Claim { round, member }
}

/// Builds of one unit, no two of them the same.
fn all() -> [Made; 24] {
    let three: &[&str] = &["a/b,-docs", "a/b,-main", "a/b,-sub"];
    let deps = Made { built: 3, ..PLAIN };
    [
        PLAIN,
        Made { host: 0, ..PLAIN },
        Made { host: 4, ..PLAIN },
        Made { host: 30, ..PLAIN },
        Made {
            host: 65_535,
            ..PLAIN
        },
        Made {
            claim: claim(9, 2),
            ..PLAIN
        },
        Made {
            claim: claim(11, 2),
            ..PLAIN
        },
        Made {
            claim: claim(100, 2),
            ..PLAIN
        },
        Made {
            claim: claim(10, 3),
            ..PLAIN
        },
        Made {
            claim: claim(9_223_372_036_854_775_807, 8),
            ..PLAIN
        },
        Made {
            name: "b-1.1",
            ..PLAIN
        },
        Made {
            name: "b-1.0p0",
            ..PLAIN
        },
        Made {
            files: &[],
            ..PLAIN
        },
        Made {
            files: &[0],
            ..PLAIN
        },
        Made {
            files: &[9],
            ..PLAIN
        },
        Made {
            files: &[10],
            ..PLAIN
        },
        Made {
            files: &[3, 0, 100],
            ..PLAIN
        },
        Made { run: 1, ..PLAIN },
        Made {
            run: 40,
            files: &[],
            ..PLAIN
        },
        deps,
        Made { built: 4, ..PLAIN },
        Made {
            paths: three,
            ..PLAIN
        },
        Made {
            paths: &["a/b,-docs", "a/b,-main"],
            ..deps
        },
        Made {
            paths: three,
            run: 2,
            files: &[0, 33_000],
            ..deps
        },
    ]
}

#[test]
fn each_beside_each(rt: HostRuntime) -> Result<(), Fail> {
    let alloc = rt.alloc();
    let mut texts = Vec::new(alloc);
    for made in all() {
        texts.push(text(alloc, &made)?)?;
    }
    for made in all() {
        let known = build(alloc, &made)?;
        for text in &texts {
            let outcome = joined(alloc, text.as_slice(), &known)?;
            assert!(rt; outcome == Outcome::Message, "{outcome:?}, {made:?}");
        }
    }
    Ok(())
}

#[test]
fn of_another_unit(rt: HostRuntime) -> Result<(), Fail> {
    let alloc = rt.alloc();
    let other = Made {
        paths: &["c/d"],
        ..PLAIN
    };
    let known = build(alloc, &other)?;
    let outcome = joined(alloc, text(alloc, &PLAIN)?.as_slice(), &known)?;
    assert!(rt; outcome == Outcome::Message);

    // What comes is said to be of the unit.
    let outcome = joined(alloc, text(alloc, &other)?.as_slice(), &known)?;
    assert!(rt; outcome == Outcome::Fault(WireFault::BadField));
    let known = build(alloc, &PLAIN)?;
    let outcome = joined(alloc, text(alloc, &other)?.as_slice(), &known)?;
    assert!(rt; outcome == Outcome::Fault(WireFault::BadField));
    Ok(())
}
