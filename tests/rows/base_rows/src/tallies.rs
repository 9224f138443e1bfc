//! Weights, and which members are a majority by them.
ghost use Rattle.std.specs.Prelude.{◌<◌};

use ballots::{BadWeights, Tally, Weights};
use faults::{Fault, Memory};

/// Whether these two members are a majority.
fn are_majority(weights: &[u8], one: u8, other: u8) -> Result<bool, BadWeights>
    requires one { one < 9 }
    requires other { other < 9 }
{
    let weights = Weights::new(weights)?;
    let mut tally = Tally::new(&weights);
    tally.join(one);
    tally.join(other);
    Ok(tally.is_majority())
}

#[test]
fn majorities_weigh_more_than_half(rt: HostRuntime) {
    let light = are_majority(&[2, 1, 1], 1, 2);
    let heavy = are_majority(&[2, 1, 1], 0, 1);
    assert!(rt; light == Ok(false) && heavy == Ok(true));
}

/// The number of the fault of these weights.
fn fault_of(weights: &[u8]) -> Option<u32> {
    match Weights::new(weights) {
        Ok(_) => None,
        Err(fault) => Some(fault.number()),
    }
}

#[test]
fn weights_are_tested(rt: HostRuntime) {
    let bad: [&[u8]; 4] = [&[0, 1, 1], &[], &[1; 10], &[101]];
    for weights in bad {
        assert!(rt; fault_of(weights) == Some(801));
    }
    assert!(rt; fault_of(&[100; 9]).is_none());
}

/// How many members the weights are of, and whether their copy says the same.
fn is_copied(weights: &[u8]) -> Result<(usize, bool), BadWeights> {
    let weights = Weights::new(weights)?;
    let copy = weights.copy();
    Ok((weights.len(), copy.as_slice() == weights.as_slice()))
}

#[test]
fn weights_are_copied(rt: HostRuntime) {
    assert!(rt; is_copied(&[1, 1, 3]) == Ok((3, true)));
}

/// Whether a tally has its one member, and is empty once it is emptied.
fn is_emptied(weights: &Weights) -> Result<bool, Memory> {
    let tally = Tally::new(weights).with(2)?;
    let emptied = tally.emptied();
    Ok(tally.has(2) && !emptied.has(2) && emptied.weights().len() == weights.len())
}

#[test]
fn tallies_are_emptied(rt: HostRuntime) {
    let emptied = match Weights::new(&[1, 1, 3]) {
        Ok(weights) => is_emptied(&weights).is_ok_and(|emptied| emptied),
        Err(_) => false,
    };
    assert!(rt; emptied);
}
