//! Steps that nodes are asked to take.
ghost use Rattle.std.specs.Prelude.{IfSome};
ghost use Rattle.node.specs.Ranges.{IsGoodInput};

use crate::inputs::input;
use crate::text::Text;
use crate::words::first_word;
use faults::Fault;
use node::{Node, NodeFault, Effects};
use protocol::Input;
use stable_record::FaultDisk;

/// What a node is asked.
#[derive(Drop)]
pub enum Asked {
    /// The input that these words say.
    Does(String),
    /// A datagram with these bytes.
    Comes(Vec<u8>),
}

/// What a node answers.
#[derive(Drop)]
pub enum Answer {
    /// The datagrams that it sends, and the job, if there is one.
    Sends(Effects),
    /// The number of the refusal and its cause.
    Refuses(u32, Option<u64>),
    /// Memory ran out in the step.
    WantsMemory,
    /// Memory ran out in the step, and the log isn't as long as before.
    ChangesTheLog,
}

/// What the node answers when it is asked this. Where memory runs out in the step, that is counted,
/// and it is asked again.
pub fn answered(node: &mut Node<'_, FaultDisk>, asked: &Asked, out: &mut Text) -> Answer {
    let before = log_len(node);
    match taken(node, asked, out) {
        Answer::WantsMemory => {
            out.count_again();
            if log_len(node) == before {
                taken(node, asked, out)
            } else {
                Answer::ChangesTheLog
            }
        }
        answer => answer,
    }
}

/// The length of the node's log.
pub fn log_len(node: &Node<'_, FaultDisk>) -> u64 {
    node.log_len()
}

/// The node takes the step.
pub fn taken(node: &mut Node<'_, FaultDisk>, asked: &Asked, out: &mut Text) -> Answer {
    match asked {
        Asked::Comes(bytes) => answer_of(node.handle_datagram(bytes.as_slice())),
        Asked::Does(words) => match said(words.as_str(), out) {
            Some(input) => answer_of(node.handle(input)),
            None => Answer::WantsMemory,
        },
    }
}

/// The input that the words say, unless it is a message.
pub fn said(words: &str, out: &mut Text) -> Option<Input>
    ensures { IfSome result IsGoodInput }
{
    let (word, rest) = first_word(words);
    match input(word, rest, [0; 32], out) {
        Some(Input::Message(_)) => None,
        other => other,
    }
}

fn answer_of(out: Result<Effects, NodeFault>) -> Answer {
    match out {
        Ok(out) => Answer::Sends(out),
        Err(NodeFault::Memory) => Answer::WantsMemory,
        Err(fault) => {
            let (number, cause) = refusal(&fault);
            Answer::Refuses(number, cause)
        }
    }
}

/// The number of the fault and its cause.
pub fn refusal(fault: &NodeFault) -> (u32, Option<u64>) {
    match fault.cause() {
        Some(cause) => (fault.number(), Some(u64::from(cause))),
        None => (fault.number(), None),
    }
}
