//! Values that are told apart by a number, and what is said of them.
use ballots::{Body, Value};
use claims::Claim;
use faults::Memory;

/// A value that its number tells apart.
#[derive(Drop)]
pub struct Sign {
    pub number: u16,
}

impl Value for Sign {
    fn copy(&self) -> Result<Sign, Memory> {
        Ok(Sign {
            number: self.number,
        })
    }
}

/// The claim of this round and member.
pub fn claim(round: u64, member: u8) -> Claim {
    Claim { round, member }
}

/// What a body says, the claim that it names last, and the number of its value.
pub type Said = (&'static str, Option<Claim>, Option<u16>);

/// What the body says.
pub fn said(body: &Body<Sign>) -> Said {
    match body {
        Body::Offer(claim) => ("offer", Some(*claim), None),
        Body::Promise(claim, None) => ("promise", Some(*claim), None),
        Body::Promise(_, Some((voted, sign))) => ("report", Some(*voted), Some(sign.number)),
        Body::Propose(claim, sign) => ("propose", Some(*claim), Some(sign.number)),
        Body::Vote(claim) => ("vote", Some(*claim), None),
        Body::Agreed(sign) => ("agreed", None, Some(sign.number)),
        Body::Ask => ("ask", None, None),
        Body::Nay(_, promised) => ("nay", Some(*promised), None),
    }
}
