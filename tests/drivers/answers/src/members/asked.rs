//! The answer to a line.
use crate::inputs::input;
use crate::letters::put_counts;
use crate::members::known::{put_facts, put_held, put_open_claim};
use crate::members::post::Post;
use crate::members::restarting::restart;
use crate::text::Text;
use crate::words::{first_path, first_place, first_word};
use member::{Input, Member};

pub fn answer_line(post: &mut Post<'_>, line: &str, out: &mut Text) {
    let (word, rest) = first_word(line);
    match word {
        "deliver" => deliver(post, rest, out),
        "look" | "twice" => give(post, word, rest, out),
        "held" | "facts" | "open" | "counts" => put_known(post, word, rest, out),
        "restart" => match first_place(rest) {
            Some((at, _)) => restart(post, at, out),
            None => out.put("no question"),
        },
        _ => give(post, "give", line, out),
    }
}

/// The input is given, looked at or given twice.
fn give(post: &mut Post<'_>, how: &str, line: &str, out: &mut Text) {
    let (word, rest) = first_word(line);
    let Some((at, rest)) = first_place(rest) else {
        return out.put("no question");
    };
    match input(word, rest, post.digest, out) {
        Some(input) if how == "look" => post.look(at, input, out),
        Some(input) if how == "twice" => post.give_twice(at, input, out),
        Some(input) => post.give(at, input, out),
        None => out.put("no question"),
    }
}

fn deliver(post: &mut Post<'_>, rest: &str, out: &mut Text) {
    let (number, rest) = first_place(rest).unwrap_or((usize::MAX, ""));
    let (to, _) = first_place(rest).unwrap_or((usize::MAX, ""));
    match post.message(number, to, out) {
        Some(send) => post.give(usize::from(send.to), Input::Message(send.message), out),
        None => out.put("no question"),
    }
}

fn put_known(post: &Post<'_>, word: &str, rest: &str, out: &mut Text) {
    let (at, rest) = first_place(rest).unwrap_or((usize::MAX, ""));
    match post.members.get(at) {
        Some(member) if word == "open" => put_open_claim(member, out),
        Some(member) if word == "counts" => put_counts(member.counts(), out),
        Some(member) => put_of_path(member, word, rest, out),
        None => out.put("no question"),
    }
}

fn put_of_path(member: &Member<'_>, word: &str, rest: &str, out: &mut Text) {
    match first_path(rest, out) {
        Some((path, _)) if word == "held" => put_held(member, &path, out),
        Some((path, _)) => put_facts(member, &path, out),
        None => out.put("no question"),
    }
}
