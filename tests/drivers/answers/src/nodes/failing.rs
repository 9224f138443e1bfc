//! A node whose device fails, and what a crash leaves of it.
use crate::nodes::cutting::log_of;
use crate::nodes::network::Network;
use crate::nodes::opening::{disk_in, each_left, once};
use crate::nodes::past::{Past, Step};
use crate::nodes::stepping::{Answer, taken};
use crate::text::Text;
use faults::Fault;
use node::Node;
use protocol::Input;
use stable_record::{Failing, FaultDisk, Left, MemDisk};

/// More calls than any row has.
const MOST: u64 = 1000;

/// How many crashes follow each failure.
const CRASHES: u8 = 6;

/// How a node fared on a disk that fails as it is told.
enum Fared {
    /// No call failed.
    Well,
    /// One did, and all was as it has to be.
    Survived,
    /// Not all, or memory ran out.
    Badly,
}

/// Which node takes its steps again, how its disk fails, and which crash follows; and the step that
/// it is then asked once more, where it was that one.
#[derive(Clone, Copy)]
struct Trial {
    at: usize,
    failing: Failing,
    crash: u8,
    again: Option<usize>,
}

/// Tells how many calls the node's steps have, if it survives the failing of each.
pub fn put_failures(network: &mut Network<'_>, at: usize, again: Option<usize>, out: &mut Text) {
    let log = log_of(network, at, out);
    let once = calls(network, log.as_slice(), at, again, false, out);
    let on = calls(network, log.as_slice(), at, again, true, out);
    out.put_number("", once);
    out.put_number(" once, ", on);
    out.put(" from there on");
}

/// How many calls may fail, with each of the crashes behind; 0 where the node doesn't survive one.
fn calls(
    network: &mut Network<'_>,
    log: &[u8],
    at: usize,
    again: Option<usize>,
    on: bool,
    out: &mut Text,
) -> u64 {
    for call in 1..MOST {
        let failing = if on {
            Failing::From(call)
        } else {
            Failing::Once(call)
        };
        match each_crash(network, log, at, again, failing, out) {
            Fared::Well => return call - 1,
            Fared::Survived => {}
            Fared::Badly => return 0,
        }
    }
    0
}

fn each_crash(
    network: &mut Network<'_>,
    log: &[u8],
    at: usize,
    again: Option<usize>,
    failing: Failing,
    out: &mut Text,
) -> Fared {
    for crash in 0..CRASHES {
        let trial = Trial {
            at,
            failing,
            crash,
            again,
        };
        match tried(network, log, trial, out) {
            Fared::Survived => {}
            other => return other,
        }
    }
    Fared::Survived
}

/// How the node fares that takes its steps on such a disk, which is empty at first.
fn tried(network: &mut Network<'_>, log: &[u8], trial: Trial, out: &mut Text) -> Fared {
    if trial.at >= network.weights.len() {
        return Fared::Badly;
    }
    let Ok(disk) = MemDisk::new(network.alloc, &[]) else {
        out.lose();
        return Fared::Badly;
    };
    let disk = FaultDisk::new(disk, trial.failing);
    let (alloc, tree, me) = (network.alloc, network.tree, trial.at as u8);
    match once(&mut network.spare, alloc, tree, &network.weights, me, disk) {
        Ok(()) => stepped(network, log, trial, out),
        Err((fault, disk)) => {
            let first = first_length(network.past.steps.as_slice(), trial.at);
            let left = leaves(network, log, trial, (first, first), disk.into_inner(), out);
            has_fared(
                fault.number() == 1001 && left.is_some(),
                fault.number(),
                out,
            )
        }
    }
}

/// How a node fared that was refused with this number, and survived so or not.
fn has_fared(survived: bool, number: u32, out: &mut Text) -> Fared {
    if number == 1 {
        out.lose();
    }
    if survived {
        Fared::Survived
    } else {
        Fared::Badly
    }
}

/// The length of the node's log before its first step.
fn first_length(steps: &[Step], at: usize) -> u64 {
    for step in steps {
        if step.node == at {
            return step.before;
        }
    }
    0
}

/// The node takes its steps up to the first that fails, and is opened again after the crash.
fn stepped(network: &mut Network<'_>, log: &[u8], trial: Trial, out: &mut Text) -> Fared {
    let Some(node) = &mut network.spare else {
        return Fared::Badly;
    };
    match first_failure(node, &network.past, trial.at, out) {
        Some((place, 1001)) if is_stopped(node) => {
            let survived = survives(network, log, trial, place, out);
            has_fared(survived, 1001, out)
        }
        Some((_, number)) => has_fared(false, number, out),
        None => Fared::Well,
    }
}

/// The place of the first step that the node refuses, and the number of the refusal.
fn first_failure(
    node: &mut Node<'_, FaultDisk>,
    past: &Past,
    at: usize,
    out: &mut Text,
) -> Option<(usize, u32)> {
    for place in 0..past.steps.len() {
        let step = &past.steps[place];
        if step.node == at {
            match taken(node, &step.asked, out) {
                Answer::Sends(_) => {}
                Answer::Refuses(number, _) => return Some((place, number)),
                _ => return Some((place, 1)),
            }
        }
    }
    None
}

/// Whether the node answers that it stopped.
fn is_stopped(node: &mut Node<'_, FaultDisk>) -> bool {
    match node.handle(Input::Nudge) {
        Ok(_) => false,
        Err(fault) => fault.number() == 1201,
    }
}

/// Whether the node that is opened after the crash has the notes from before the step at the place,
/// with the step's or without, and answers the same, where the step is asked once more.
fn survives(
    network: &mut Network<'_>,
    log: &[u8],
    trial: Trial,
    place: usize,
    out: &mut Text,
) -> bool {
    let lengths = match network.past.steps.get(place) {
        Some(step) => (step.before, step.after),
        None => return false,
    };
    let Some(disk) = disk_in(&mut network.spare) else {
        return false;
    };
    match leaves(network, log, trial, lengths, disk, out) {
        Some(disk) if trial.again == Some(place) => {
            network.open_spare(trial.at, disk).is_ok() && repeats(network, place, out)
        }
        Some(_) => true,
        None => false,
    }
}

/// The disk of the node that is opened after the crash, if its log is as much of this one as one of
/// the lengths says.
fn leaves(
    network: &mut Network<'_>,
    log: &[u8],
    trial: Trial,
    lengths: (u64, u64),
    disk: MemDisk,
    out: &mut Text,
) -> Option<MemDisk> {
    let disk = if trial.crash < 5 {
        over(network, trial.at, disk.crash(each_left(trial.crash)), out)?
    } else {
        crashed_behind(network, trial.at, disk, out)?
    };
    if has_notes(disk.bytes(), log, lengths) {
        Some(disk)
    } else {
        None
    }
}

/// Whether the file has one of these lengths, and the notes that the log has up to there.
fn has_notes(file: &[u8], log: &[u8], lengths: (u64, u64)) -> bool {
    let (before, after) = lengths;
    let length = file.len() as u64;
    match file.split_last() {
        Some((gate, notes)) => {
            (length == before || length == after) && *gate != 1 && log.starts_with(notes)
        }
        None => false,
    }
}

/// The disk of the node that is opened over this one.
fn over(network: &mut Network<'_>, at: usize, disk: MemDisk, out: &mut Text) -> Option<MemDisk> {
    match network.open_spare(at, disk) {
        Ok(()) => disk_in(&mut network.spare),
        Err((number, _)) => {
            if number == 1 {
                out.lose();
            }
            None
        }
    }
}

/// The disk of the node that is opened after a crash behind its opening, if it is as it was.
fn crashed_behind(
    network: &mut Network<'_>,
    at: usize,
    disk: MemDisk,
    out: &mut Text,
) -> Option<MemDisk> {
    let disk = over(network, at, disk, out)?;
    let mut seen = Text::new(network.alloc);
    seen.put_bytes(disk.bytes());
    if seen.is_lost() {
        out.lose();
    }
    let disk = over(network, at, disk.crash(Left::Before), out)?;
    if disk.bytes() == seen.as_bytes() {
        Some(disk)
    } else {
        None
    }
}

/// Whether the spare node answers to the step at this place as was told.
fn repeats(network: &mut Network<'_>, place: usize, out: &mut Text) -> bool {
    match &mut network.spare {
        Some(node) => tells_so(node, &network.past, place, out),
        None => false,
    }
}

fn tells_so(node: &mut Node<'_, FaultDisk>, past: &Past, place: usize, out: &mut Text) -> bool {
    let Some(step) = past.steps.get(place) else {
        return false;
    };
    match taken(node, &step.asked, out) {
        Answer::Sends(sends) => {
            let text = past.sends_text(&sends, out);
            text.as_bytes() == step.told.as_bytes()
        }
        _ => false,
    }
}
