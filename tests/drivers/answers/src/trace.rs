//! Traces.
//!
//! - A line is a text, and the trace that it is is answered, as a copy of it is written; else the
//!   number of the refusal and its place.
//! - `hex` and digits are a text in hexadecimal, and ask the same.
//! - `builds` and a text ask for what it gives as BUILDS, as the packages of an event.
use crate::text::Text;
use crate::words::{first_bytes, first_word};
use ballots::Weights;
use faults::Memory;
use pkgpath::PkgPath;
use protocol::{Event, Packages};
use std::alloc::Global;
use traces::{Trace, read_builds, read_trace, write_trace};

pub fn answer(line: &str, out: &mut Text) {
    match first_word(line) {
        ("builds", text) => builds(text.as_bytes(), out),
        ("hex", digits) => {
            let (text, _) = first_bytes(out.alloc(), digits);
            trace(text.as_slice(), out);
        }
        _ => trace(line.as_bytes(), out),
    }
}

fn trace(text: &[u8], out: &mut Text) {
    match read_trace(out.alloc(), text) {
        Ok(trace) => {
            let copy = copied(&trace, out.alloc());
            drop(trace);
            put_written(copy, out);
        }
        Err(fault) => out.put_fault(&fault),
    }
}

/// An equal trace, whose events are copies.
fn copied(trace: &Trace, alloc: Global) -> Result<Trace, Memory> {
    let mut events = Vec::new(alloc);
    for event in trace.events.as_slice() {
        events.push(event.copy(alloc)?)?;
    }
    let weights = trace.weights.copy();
    Ok(Trace { weights, events })
}

fn builds(text: &[u8], out: &mut Text) {
    match read_builds(out.alloc(), text) {
        Ok(packages) => put_written(built(out.alloc(), packages), out),
        Err(fault) => out.put_fault(&fault),
    }
}

/// The trace in which one member's host built the unit `z/z` with these packages.
fn built(alloc: Global, packages: Packages) -> Result<Trace, Memory> {
    let (Ok(path), Ok(weights)) = (PkgPath::parse(alloc, b"z/z"), Weights::new(&[1])) else {
        return Err(Memory);
    };
    let event = Event::Built {
        node: 0,
        path,
        packages,
    };
    Ok(Trace {
        weights,
        events: vec![in alloc; event]?,
    })
}

fn put_written(trace: Result<Trace, Memory>, out: &mut Text) {
    let mut text = Vec::new(out.alloc());
    match trace {
        Ok(trace) if write_trace(&trace, &mut text).is_ok() => out.put_bytes(text.as_slice()),
        _ => out.lose(),
    }
}
