//! What a claimer does with promises and votes.
ghost use Rattle.std.specs.Prelude.{◌<◌};

use crate::said::{Sign, claim};
use ballots::{Claimer, ClaimerStep, Next, Tally, Weights};
use claims::Claim;
use faults::Memory;
use std::test::Fail;

/// What follows a step, and the number of its value.
type Follows = (&'static str, Option<u16>);

fn taken(claimer: &mut Claimer<Sign>, step: ClaimerStep<Sign>) -> Follows {
    claimer.apply(step.change);
    match step.next {
        Next::Nothing => ("nothing", None),
        Next::Build => ("build", None),
        Next::Propose(_, sign) => ("propose", Some(sign.number)),
        Next::Hold { sent, .. } => ("hold", Some(sent.number)),
    }
}

/// A claimer that counts votes for the number 7.
fn voting(weights: &Weights) -> Claimer<Sign> {
    Claimer::Voting {
        claim: claim(1, 0),
        value: Sign { number: 7 },
        voted: Tally::new(weights),
    }
}

fn voted(claimer: &mut Claimer<Sign>, from: u8) -> Result<Follows, Memory>
    requires { from < 9 }
{
    let step = claimer.vote(from, claim(1, 0))?;
    Ok(taken(claimer, step))
}

#[test]
fn counts_a_member_once(rt: HostRuntime) -> Result<(), Fail> {
    let mut claimer = voting(&Weights::new(&[1, 1, 1])?);
    let once = voted(&mut claimer, 2)?;
    let again = voted(&mut claimer, 2)?;
    let majority = voted(&mut claimer, 1)?;
    assert!(rt; once == ("nothing", None) && again == ("nothing", None));
    assert!(rt; majority == ("hold", Some(7)));
    Ok(())
}

fn gathering(weights: &Weights) -> Claimer<Sign> {
    Claimer::Gathering {
        claim: claim(3, 0),
        promised: Tally::new(weights),
        report: None,
    }
}

/// What follows a promise that reports a vote for the number.
fn reported(
    claimer: &mut Claimer<Sign>,
    from: u8,
    voted: Claim,
    number: u16,
) -> Result<Follows, Memory>
    requires { from < 9 }
{
    let step = claimer.promise(from, claim(3, 0), Some(&(voted, Sign { number })))?;
    Ok(taken(claimer, step))
}

#[test]
fn keeps_the_greatest_report(rt: HostRuntime) -> Result<(), Fail> {
    let mut claimer = gathering(&Weights::new(&[1; 5])?);
    reported(&mut claimer, 1, claim(1, 2), 1)?;
    reported(&mut claimer, 2, claim(1, 2), 2)?;
    let greatest = reported(&mut claimer, 3, claim(2, 0), 3)?;
    assert!(rt; greatest == ("propose", Some(3)));
    Ok(())
}

/// What follows a promise that reports nothing.
fn promised(claimer: &mut Claimer<Sign>, from: u8) -> Result<Follows, Memory>
    requires { from < 9 }
{
    let step = claimer.promise(from, claim(3, 0), None)?;
    Ok(taken(claimer, step))
}

#[test]
fn builds_what_nobody_reported(rt: HostRuntime) -> Result<(), Fail> {
    let mut claimer = gathering(&Weights::new(&[1, 1, 3])?);
    let light = promised(&mut claimer, 0)?;
    let majority = promised(&mut claimer, 2)?;
    assert!(rt; light == ("nothing", None) && majority == ("build", None));
    assert!(rt; claimer.claim() == claim(3, 0) && claimer.weights().len() == 3);
    Ok(())
}
