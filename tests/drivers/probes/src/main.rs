//! Answers lines of standard input, for stored cases: a line `== TOPIC` says whom the lines behind
//! it ask, and each is answered in turn. What they may ask stands in the crates below.
#![tactic(auto)]

mod asking;
mod topic;

use asking::{hear, tell};
use std::io;
use std::process::ExitCode;

fn main(rt: HostRuntime) -> io::Result<ExitCode> {
    let mut topic = None;
    let mut row = Vec::new(rt.alloc());
    let mut out = rt.stdout();
    for line in rt.lines(rt.alloc()) {
        if !hear(&rt, &mut topic, &mut row, line?, &mut out)? {
            return Ok(ExitCode::from(1));
        }
    }
    let is_told = tell(&rt, topic, &mut row, &mut out)?;
    Ok(ExitCode::from(if is_told { 0 } else { 1 }))
}
