//! What a voter answers.
use crate::said::{Said, Sign, claim, said};
use ballots::Voter;
use claims::Claim;
use faults::Memory;
use std::test::Fail;

fn offered(voter: &mut Voter<Sign>, claim: Claim) -> Result<Said, Memory> {
    let step = voter.offer(claim)?;
    voter.apply(step.change);
    Ok(said(&step.answer))
}

fn proposed(voter: &mut Voter<Sign>, claim: Claim, number: u16) -> Result<Said, Memory> {
    let step = voter.propose(claim, &Sign { number })?;
    voter.apply(step.change);
    Ok(said(&step.answer))
}

#[test]
fn promises_and_votes(rt: HostRuntime) -> Result<(), Fail> {
    let mut voter: Voter<Sign> = Voter {
        promised: None,
        voted: None,
    };
    let promise = offered(&mut voter, claim(2, 1))?;
    assert!(rt; promise == ("promise", Some(claim(2, 1)), None));
    let below = proposed(&mut voter, claim(2, 0), 7)?;
    assert!(rt; below == ("nay", Some(claim(2, 1)), None));
    let vote = proposed(&mut voter, claim(2, 1), 7)?;
    assert!(rt; vote == ("vote", Some(claim(2, 1)), None));
    let report = offered(&mut voter, claim(3, 0))?;
    assert!(rt; report == ("report", Some(claim(2, 1)), Some(7)));
    Ok(())
}
