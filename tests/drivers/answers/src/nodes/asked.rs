//! The answer to a line.
use crate::nodes::cutting::{put_cuts, put_opened, put_zeros};
use crate::nodes::failing::put_failures;
use crate::nodes::known::{open_again, put_known};
use crate::nodes::network::Network;
use crate::nodes::stepping::{Asked, said};
use crate::text::Text;
use crate::words::{first_path, first_place, first_word};

/// Tells the answer to the line.
pub fn answer_line(network: &mut Network<'_>, line: &str, out: &mut Text) {
    let (word, rest) = first_word(line);
    let Some((at, rest)) = first_place(rest) else {
        return out.put("no question");
    };
    match word {
        "deliver" | "changed" => deliver(network, at, rest, out),
        "bytes" | "opens" => give_bytes(network, word, at, rest, out),
        "knows" => knows(network, at, rest, out),
        "stop" => open_again(network, at, None, out),
        "crash" => open_again(network, at, Some(rest), out),
        "cuts" => put_cuts(network, at, out),
        "zeros" => put_zeros(network, at, out),
        "failures" => match first_place(rest) {
            Some((step, _)) => put_failures(network, at, Some(step), out),
            None => put_failures(network, at, None, out),
        },
        _ => give(network, word, at, rest, out),
    }
}

fn give(network: &mut Network<'_>, word: &str, at: usize, rest: &str, out: &mut Text) {
    match format!(in network.alloc; "{word} {rest}") {
        Ok(words) => {
            if said(words.as_str(), out).is_some() {
                network.give(at, Asked::Does(words), out);
            } else {
                out.put("no question");
            }
        }
        Err(_) => out.lose(),
    }
}

/// The datagram with this number comes to the node that stands in front, with one byte changed
/// where a place and the byte stand behind.
fn deliver(network: &mut Network<'_>, number: usize, rest: &str, out: &mut Text) {
    let (Some(bytes), Some((to, rest))) = (network.past.sent.get(number), first_place(rest)) else {
        return out.put("no question");
    };
    match bytes.clone() {
        Ok(bytes) => {
            let mut bytes = bytes;
            change(bytes.as_mut_slice(), rest);
            network.give(to, Asked::Comes(bytes), out);
        }
        Err(_) => out.lose(),
    }
}

/// Changes the byte at the place that stands in front to the one behind.
fn change(bytes: &mut [u8], rest: &str) {
    if let Some((place, rest)) = first_place(rest) {
        if let Some(byte) = bytes.get_mut(place) {
            *byte = rest.parse().unwrap_or(0);
        }
    }
}

fn give_bytes(network: &mut Network<'_>, word: &str, at: usize, text: &str, out: &mut Text) {
    match hex::decode(network.alloc, text.as_bytes()) {
        Ok(bytes) if word == "opens" => put_opened(network, at, bytes.as_slice(), out),
        Ok(bytes) => network.give(at, Asked::Comes(bytes), out),
        Err(_) => out.put("no question"),
    }
}

fn knows(network: &Network<'_>, at: usize, rest: &str, out: &mut Text) {
    match (network.nodes.get(at), first_path(rest, out)) {
        (Some(Some(node)), Some((path, _))) => put_known(node, &path, out),
        _ => out.put("no question"),
    }
}
