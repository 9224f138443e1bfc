//! Nodes over disks in memory, in rows which blank lines part: they are
//! handed each other's datagrams by hand. A row begins with `nodes` and what each weighs, or with
//! `singles` where each package is built by itself, and with the lines of a listing, each behind
//! `listing`. Each line behind that asks something, and is told again with its answer. Datagrams
//! have numbers, in the order in which they were first sent, from 0; K is a node's number.
//!
//! - `claim K PATH HOST ABOVE`, `failed K PATH`, `nudge K`, `ask K PATH`, and `built K PATH` with
//!   what stands behind it, which is for each package its path, a file's name and how many bytes it
//!   has: the input, to the node. Its answer is the length of the node's log, what is sent to whom
//!   and how long new datagrams are, and whether there is a job; or the number of the refusal and
//!   its cause.
//! - `deliver N K`: datagram N comes to the node. `changed N K PLACE BYTE`: it comes with this byte
//!   at the place. `bytes K HEX`: these bytes come.
//! - `knows K PATH`: what the node knows of the path, and how many packages have each letter.
//! - `stop K`: the node is opened again, and the letters are told. `crash K LEFT`: so it is after a
//!   crash, of which LEFT is `before`, `written`, or the byte that fills what was not synced.
//! - `opens K HEX`: what a file with these bytes opens to as the node's log: the length of the log,
//!   or the number of the refusal.
//! - `cuts K`: what the node's log opens to where it is cut to each length. `zeros K`: where the
//!   byte at each place is 0. An answer stands behind the first place that has it. The node is
//!   opened again.
//! - `failures K STEP`: the node's steps are taken again on disks whose calls fail, each in turn,
//!   alone and with all later ones, and each of the five crashes follows, or an opening and then a
//!   crash that leaves what was synced. Its answer is how many calls there are, if the node answers
//!   1001 and then 1201, and is opened with the notes that its log has from before the step, with
//!   the step's or without, of which the last crash takes none; and if it then answers the same to
//!   that STEP, counted from 0, where it was this one. The node is opened again.
//!
//! Where memory runs out in a step, that is counted, and the same is asked again.
mod asked;
mod cutting;
mod failing;
mod known;
mod network;
mod opening;
mod past;
mod stepping;

use crate::heads::{tree, weights};
use crate::nodes::asked::answer_line;
use crate::nodes::network::Network;
use crate::text::Text;
use crate::words::first_word;

/// Answers the row.
pub fn answer(row: &[String], out: &mut Text) {
    match (tree(row, out), weights(row)) {
        (Some(tree), Some(weights)) => {
            let mut network = Network::new(out.alloc(), &tree, weights);
            network.open_all(out);
            answer_lines(&mut network, row, out);
            drop(network);
        }
        _ => out.lose(),
    }
}

fn answer_lines(network: &mut Network<'_>, row: &[String], out: &mut Text) {
    for line in row {
        match first_word(line.as_str()).0 {
            "listing" => {}
            "nodes" | "singles" => out.put(line.as_str()),
            _ => {
                out.put("\n");
                out.put(line.as_str());
                out.put(": ");
                answer_line(network, line.as_str(), out);
            }
        }
    }
}
