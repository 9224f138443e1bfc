//! Answers lines and rows of standard input, for stored cases: each topic says what may be asked.
#![tactic(auto)]

mod heads;
mod inputs;
mod letters;
mod listings;
mod members;
mod names;
mod nodes;
mod packages;
mod packets;
mod pieces;
mod records;
mod text;
mod trace;
mod words;
mod worlds;

pub use crate::text::Text;

/// Whom rows ask.
#[derive(Clone, Copy)]
pub enum Topic {
    Names,
    Listings,
    Records,
    Datagrams,
    Traces,
    Worlds,
    Members,
    Nodes,
}

impl Topic {
    /// The topic with this word.
    pub fn named(word: &str) -> Option<Topic> {
        match word {
            "names" => Some(Topic::Names),
            "listings" => Some(Topic::Listings),
            "records" => Some(Topic::Records),
            "datagrams" => Some(Topic::Datagrams),
            "traces" => Some(Topic::Traces),
            "worlds" => Some(Topic::Worlds),
            "members" => Some(Topic::Members),
            "nodes" => Some(Topic::Nodes),
            _ => None,
        }
    }
}

/// Answers the row, of one line where no blank line ends it.
pub fn answer(topic: Topic, row: &[String], out: &mut Text) {
    match topic {
        Topic::Members => members::answer(row, out),
        Topic::Nodes => nodes::answer(row, out),
        topic => {
            if let Some(line) = row.first() {
                answer_line(topic, line.as_str(), out);
            }
        }
    }
}

fn answer_line(topic: Topic, line: &str, out: &mut Text) {
    match topic {
        Topic::Names => names::answer(line, out),
        Topic::Listings => listings::answer(line, out),
        Topic::Records => records::answer(line, out),
        Topic::Datagrams => packets::answer(line, out),
        Topic::Worlds => worlds::answer(line, out),
        _ => trace::answer(line, out),
    }
}
