//! The input that a line says.
use crate::text::Text;
use crate::words::{first_number, first_path, first_place, first_word};
use ballots::{Body, Message};
use claims::Claim;
use faults::Memory;
use package_record::{File, Files};
use pkgpath::PkgPath;
use protocol::{Input, Packages};
use std::alloc::Global;

/// The input with this word in front, of what stands behind the member's number.
pub fn input(word: &str, rest: &str, tree: [u8; 32], out: &mut Text) -> Option<Input> {
    match word {
        "nudge" => Some(Input::Nudge),
        "say" => said(rest, tree, out),
        "claim" | "built" | "failed" | "ask" => {
            let (path, rest) = first_path(rest, out)?;
            of_unit(path, word, rest, out)
        }
        _ => None,
    }
}

fn of_unit(path: PkgPath, word: &str, rest: &str, out: &mut Text) -> Option<Input> {
    match word {
        "claim" => claim_of(path, rest),
        "built" => Some(Input::Built {
            path,
            packages: packages(rest, out),
        }),
        "failed" => Some(Input::Failed { path }),
        _ => Some(Input::Ask { path }),
    }
}

/// The claim of the path, for the host and above the round that stand in front.
fn claim_of(path: PkgPath, rest: &str) -> Option<Input> {
    let (host, rest) = first_number(rest)?;
    let (above, _) = first_number(rest)?;
    let host = u16::try_from(host).ok()?;
    Some(Input::Claim { path, host, above })
}

/// The packages with their files, nine at most.
fn packages(text: &str, out: &mut Text) -> Packages {
    let mut items = Vec::new(out.alloc());
    let mut rest = text;
    for _package in 0..9 {
        rest = add_package(&mut items, rest, out);
    }
    Packages::new(items)
}

/// Adds the package in front, if there is one, and gives what stands behind it: its path, the file
/// and how many bytes it has.
fn add_package<'a>(items: &mut Vec<(PkgPath, Files)>, text: &'a str, out: &mut Text) -> &'a str {
    let (word, rest) = first_word(text);
    let (name, rest) = first_word(rest);
    let Some((bytes, rest)) = first_place(rest) else {
        return text;
    };
    let Some((path, _)) = first_path(word, out) else {
        return text;
    };
    let pushed = match files(out.alloc(), name, bytes) {
        Ok(files) => items.push((path, files)).is_ok(),
        Err(Memory) => false,
    };
    if !pushed {
        out.lose();
    }
    rest
}

/// A file of so many times the letter a; none of no bytes.
fn files(alloc: Global, name: &str, bytes: usize) -> Result<Files, Memory> {
    let mut items = Vec::new(alloc);
    if bytes > 0 {
        let name = Vec::from_slice(alloc, name.as_bytes())?;
        let bytes = vec![in alloc; b'a'; bytes]?;
        items.push(File { name, bytes })?;
    }
    Ok(Files::new(items))
}

/// A message of a claim, of members with this tree's digest.
fn said(rest: &str, tree: [u8; 32], out: &mut Text) -> Option<Input> {
    let (sender, rest) = first_number(rest)?;
    let sender = u8::try_from(sender).ok()?;
    let (path, rest) = first_path(rest, out)?;
    message(path, sender, tree, rest)
}

/// The message about the path, with the word and the claim that stand in front.
fn message(path: PkgPath, sender: u8, tree: [u8; 32], rest: &str) -> Option<Input> {
    let (word, rest) = first_word(rest);
    let claim = claim(rest)?;
    let tree = if word == "stranger" { [7; 32] } else { tree };
    let body = body(word, claim);
    Some(Input::Message(Message {
        sender,
        tree,
        path,
        body,
    }))
}

fn claim(rest: &str) -> Option<Claim> {
    let (round, rest) = first_number(rest)?;
    let (member, _) = first_number(rest)?;
    let member = u8::try_from(member).ok()?;
    Some(Claim { round, member })
}

fn body(word: &str, claim: Claim) -> Body {
    match word {
        "offer" => Body::Offer(claim),
        "promise" => Body::Promise(claim, None),
        "vote" => Body::Vote(claim),
        "nay" => Body::Nay(claim, claim),
        _ => Body::Ask,
    }
}
