//! Worlds. A line is a trace over a listing of one package, and its events
//! are given to a world, one after the other. The answer says what each refused event is refused
//! with, after which the rest goes on, and then the lengths of the logs and of the datagrams, how
//! many packages are agreed, and the digest of each.
//!
//! A line that begins with `steps` has a listing and a trace in hexadecimal digits behind it. The
//! answer then has an item for each event: a point, and behind it * where its node noted something,
//! a digit for each datagram that it sent and that is new, the kind of its message, and each path
//! that it brought to the list, with = before it; or ! and the number of its refusal. One that
//! begins with `singles` asks the same where each package is a unit by itself.
//!
//! A line that begins with `shows` has a trace behind it, which is run. The answer says how many
//! events it took, and of each node whether it is up, and then the letter of the package and
//! whether it is held; or the number of the refusal, the event, and the number of the cause or 0.
//!
//! Where memory runs out for an event, that is counted, and the world is given the same event
//! again.
mod lengths;
mod shown;
mod steps;

use crate::text::Text;
use crate::words::{first_bytes, first_word};
use crate::worlds::lengths::put_lengths;
use crate::worlds::shown::put_shown;
use crate::worlds::steps::put_steps;
use faults::Fault;
use listing::{ListingFault, Tree};
use protocol::Event;
use simulator::World;
use traces::{Trace, TraceFault, read_trace};

static LISTING: &[u8] = b"a/b.FULLPKGNAME=b-1.0\n";

/// What is told of a world.
#[derive(Clone, Copy)]
enum Question {
    Lengths,
    Steps,
    Shows,
}

pub fn answer(line: &str, out: &mut Text) {
    let (word, rest) = first_word(line);
    match word {
        "steps" | "singles" => over_digits(word, rest, out),
        "shows" => over_package(rest, Question::Shows, out),
        _ => over_package(line, Question::Lengths, out),
    }
}

/// The answer to a trace over the listing of one package.
fn over_package(text: &str, question: Question, out: &mut Text) {
    let tree = Tree::parse(out.alloc(), LISTING);
    over_listing(tree, text.as_bytes(), question, out);
}

/// The answer to a listing and a trace, both in hexadecimal digits, with a blank between them.
fn over_digits(word: &str, digits: &str, out: &mut Text) {
    let Some((listing, trace)) = digits.split_once(' ') else {
        return out.put("no words");
    };
    let (listing, _) = first_bytes(out.alloc(), listing);
    let (trace, _) = first_bytes(out.alloc(), trace);
    let tree = if word == "singles" {
        Tree::parse_single(out.alloc(), listing.as_slice())
    } else {
        Tree::parse(out.alloc(), listing.as_slice())
    };
    over_listing(tree, trace.as_slice(), Question::Steps, out);
}

fn over_listing(tree: Result<Tree, ListingFault>, text: &[u8], question: Question, out: &mut Text) {
    match tree {
        Ok(tree) => over_tree(&tree, text, question, out),
        Err(ListingFault::Memory) => out.lose(),
        Err(_) => out.put("no tree"),
    }
}

fn over_tree(tree: &Tree, text: &[u8], question: Question, out: &mut Text) {
    match (read_trace(out.alloc(), text), question) {
        (Ok(trace), Question::Shows) => put_shown(tree, trace, out),
        (Ok(trace), question) => put_world(tree, &trace, question, out),
        (Err(TraceFault::Memory), _) => out.lose(),
        (Err(_), _) => out.put("no trace"),
    }
}

fn put_world(tree: &Tree, trace: &Trace, question: Question, out: &mut Text) {
    match World::new(out.alloc(), tree, &trace.weights) {
        Ok(world) => {
            let mut world = world;
            match question {
                Question::Steps => put_steps(&mut world, trace.events.as_slice(), out),
                _ => put_lengths(&mut world, trace.events.as_slice(), out),
            }
            drop(world);
        }
        Err(_) => out.lose(),
    }
}

/// The number that the world refuses the event with, or 0. Where memory runs out, it is given the
/// same event again, once.
fn refusal(world: &mut World<'_>, event: &Event, out: &mut Text) -> u32 {
    match refused(world, event) {
        1 => {
            out.count_again();
            refused(world, event)
        }
        number => number,
    }
}

fn refused(world: &mut World<'_>, event: &Event) -> u32 {
    match world.step(event) {
        Ok(_) => 0,
        Err(fault) => fault.number(),
    }
}
