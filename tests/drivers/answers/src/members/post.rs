//! Members, and all that they ever noted and sent.
use crate::members::in_turn::{in_turn, prepared, stepped};
use crate::members::told::put_outcome;
use crate::text::Text;
use ballots::Weights;
use faults::Fault;
use listing::Tree;
use member::{Input, Member, Outcome, Refusal, Send};
use std::alloc::Global;

/// Members by number, and what each gave, the first outcome first.
#[derive(Drop)]
pub struct Post<'a> {
    pub tree: &'a Tree,
    pub digest: [u8; 32],
    pub weights: Weights,
    pub members: Vec<Member<'a>>,
    /// With the number of the member.
    pub given: Vec<(usize, Outcome)>,
    /// Which of these send something, by the number of the message.
    sent: Vec<usize>,
}

/// What is large is dropped by `drop`, whose parts are proved once, and not where a scope ends.
impl<'a> Post<'a> {
    pub fn new(alloc: Global, tree: &'a Tree, weights: Weights) -> Post<'a> {
        Post {
            tree,
            digest: tree.digest(),
            weights,
            members: Vec::new(alloc),
            given: Vec::new(alloc),
            sent: Vec::new(alloc),
        }
    }

    /// A copy of the message with the number, on its way to the member.
    pub fn message(&self, number: usize, to: usize, out: &mut Text) -> Option<Send> {
        let to = u8::try_from(to).ok()?;
        let (_, outcome) = self.given.get(*self.sent.get(number)?)?;
        match outcome.sends.message()?.copy() {
            Ok(message) => copy_of(Send { to, message }, out),
            Err(_) => {
                out.lose();
                None
            }
        }
    }

    /// Puts what the member tells on the input; what it gives is kept. Where memory runs out in the
    /// step, the input is given again.
    pub fn give(&mut self, at: usize, input: Input, out: &mut Text) {
        let Some((input, again)) = pair(input, out) else {
            return;
        };
        match self.stepped(at, input) {
            Err(Refusal::Memory) => {
                out.count_again();
                let second = self.stepped(at, again);
                self.put_taken(at, second, out);
            }
            first => {
                drop(again);
                self.put_taken(at, first, out);
            }
        }
    }

    fn stepped(&mut self, at: usize, input: Input) -> Result<Outcome, Refusal> {
        match self.members.get_mut(at) {
            Some(member) => stepped(member, input),
            None => Err(stranger(input)),
        }
    }

    /// Puts what the step is to note and to say, which is prepared and not taken.
    pub fn look(&mut self, at: usize, input: Input, out: &mut Text) {
        let mut text = Text::new(out.alloc());
        let seen = match self.members.get_mut(at) {
            Some(member) => prepared(member, input, &mut text),
            None => Err(stranger(input)),
        };
        match seen {
            Ok(()) if text.is_lost() => out.put("1"),
            Ok(()) => out.put_bytes(text.as_bytes()),
            Err(refusal) => put_refusal(refusal, out),
        }
    }

    /// Puts what the member tells on the input, and then on the same again.
    pub fn give_twice(&mut self, at: usize, input: Input, out: &mut Text) {
        let Some((one, two)) = pair(input, out) else {
            return;
        };
        let (one, two) = match self.members.get_mut(at) {
            Some(member) => in_turn(member, one, two),
            None => (Err(stranger(one)), Err(stranger(two))),
        };
        self.put_taken(at, one, out);
        out.put(" then ");
        self.put_taken(at, two, out);
    }

    /// Puts what the answer tells. An outcome is kept.
    fn put_taken(&mut self, at: usize, answer: Result<Outcome, Refusal>, out: &mut Text) {
        match answer {
            Ok(outcome) => self.keep(at, outcome, out),
            Err(Refusal::Memory) => out.lose(),
            Err(refusal) => put_refusal(refusal, out),
        }
    }

    /// Puts what a copy of the outcome tells, and keeps it.
    fn keep(&mut self, at: usize, outcome: Outcome, out: &mut Text) {
        match outcome.copy() {
            Ok(copy) => put_outcome(&copy, out),
            Err(_) => out.lose(),
        }
        let place = self.given.len();
        if outcome.sends.message().is_some() && self.sent.push(place).is_err() {
            out.lose();
        }
        if self.given.push((at, outcome)).is_err() {
            out.lose();
        }
    }
}

/// A new member for each that weighs something.
pub fn enter_members<'a>(
    members: &mut Vec<Member<'a>>,
    tree: &'a Tree,
    weights: &Weights,
    out: &mut Text,
) {
    for me in 0..weights.len() as u8 {
        match Member::new(out.alloc(), tree, weights, me) {
            Ok(member) => {
                if members.push(member).is_err() {
                    out.lose();
                }
            }
            Err(_) => out.lose(),
        }
    }
}

/// The input, and a copy of it.
fn pair(input: Input, out: &mut Text) -> Option<(Input, Input)> {
    match input.copy() {
        Ok(again) => Some((input, again)),
        Err(_) => {
            out.lose();
            drop(input);
            None
        }
    }
}

fn stranger(input: Input) -> Refusal {
    drop(input);
    Refusal::NotAMember
}

/// An equal send.
fn copy_of(send: Send, out: &mut Text) -> Option<Send> {
    let copy = send.copy();
    drop(send);
    if copy.is_err() {
        out.lose();
    }
    copy.ok()
}

fn put_refusal(refusal: Refusal, out: &mut Text) {
    let cause = match refusal.cause() {
        Some(cause) => Some(u64::from(cause)),
        None => None,
    };
    out.put_refusal(refusal.number(), cause);
}
