//! What nodes were asked, and all datagrams that they ever sent.
use crate::nodes::stepping::{Answer, Asked};
use crate::text::Text;
use node::{Effects, Parcels};
use std::alloc::Global;

/// A step that a node took.
#[derive(Drop)]
pub struct Step {
    pub node: usize,
    pub asked: Asked,
    /// The length of its log before the step, and after it.
    pub before: u64,
    pub after: u64,
    /// What was sent, and whether there was a job.
    pub told: Text,
}

/// The steps, and the different datagrams that were sent, the first one first.
#[derive(Drop)]
pub struct Past {
    pub steps: Vec<Step>,
    pub sent: Vec<Vec<u8>>,
}

impl Past {
    pub fn new(alloc: Global) -> Past {
        Past {
            steps: Vec::new(alloc),
            sent: Vec::new(alloc),
        }
    }

    /// Tells the answer to a step between these lengths of the log, and keeps the step, unless it
    /// was refused.
    pub fn enter(
        &mut self,
        node: usize,
        asked: Asked,
        answer: Answer,
        lengths: (u64, u64),
        out: &mut Text,
    ) {
        match answer {
            Answer::Sends(sends) => {
                let (before, after) = lengths;
                out.put_number("log ", after);
                self.enter_datagrams(&sends.sends, out);
                let told = self.sends_text(&sends, out);
                out.put_bytes(told.as_bytes());
                let step = Step {
                    node,
                    asked,
                    before,
                    after,
                    told,
                };
                if self.steps.push(step).is_err() {
                    out.lose();
                }
            }
            Answer::Refuses(number, cause) => out.put_refusal(number, cause),
            Answer::ChangesTheLog => out.put("the log changed"),
            Answer::WantsMemory => out.lose(),
        }
    }

    /// Enters the datagrams that were never sent before, and tells how long they are.
    fn enter_datagrams(&mut self, sends: &Parcels, out: &mut Text) {
        let (_receivers, datagrams) = sends.parts();
        for bytes in datagrams {
            if self.number_of(bytes.as_slice()).is_none() {
                out.put_number(", ", self.sent.len() as u64);
                out.put_number(" in ", bytes.len() as u64);
                out.put(" bytes");
                self.enter_datagram(bytes, out);
            }
        }
    }

    fn enter_datagram(&mut self, bytes: &Vec<u8>, out: &mut Text) {
        match bytes.clone() {
            Ok(bytes) => {
                if self.sent.push(bytes).is_err() {
                    out.lose();
                }
            }
            Err(_) => out.lose(),
        }
    }

    /// The number of the datagram with these bytes.
    fn number_of(&self, bytes: &[u8]) -> Option<usize> {
        for number in 0..self.sent.len() {
            if self.sent[number].as_slice() == bytes {
                return Some(number);
            }
        }
        None
    }

    /// What goes to whom, and whether there is a job.
    pub fn sends_text(&self, sends: &Effects, out: &mut Text) -> Text {
        let mut text = Text::new(out.alloc());
        let (receivers, datagrams) = sends.sends.parts();
        for to in receivers {
            text.put_number("; to ", u64::from(*to));
            text.put(":");
            self.put_numbers(datagrams, &mut text);
        }
        if sends.job.is_some() {
            text.put("; job");
        }
        if text.is_lost() {
            out.lose();
        }
        text
    }

    fn put_numbers(&self, datagrams: &[Vec<u8>], out: &mut Text) {
        for bytes in datagrams {
            match self.number_of(bytes.as_slice()) {
                Some(number) => out.put_number(" ", number as u64),
                None => out.put(" new"),
            }
        }
    }
}
