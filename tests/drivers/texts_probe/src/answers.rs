// The answer to a line.
use crate::packages::{build_list, copies};
use crate::trees::trace;
use faults::Fault;
use pkgname::Pieces;
use replay::{Refusal, audit_of_texts, run_of_texts, status_of_texts, verdict_text};
use std::alloc::{AllocError, Global};
use std::io::Write;
use std::io;

pub fn answer(alloc: Global, line: &[u8]) -> io::Result<Vec<u8>> {
    let mut words = Pieces::new(line, b' ');
    let question = words.next().unwrap_or(b"");
    let first = bytes_of(alloc, words.next().unwrap_or(b""));
    let second = bytes_of(alloc, words.next().unwrap_or(b""));
    answer_to(alloc, question, first.as_slice(), second.as_slice())
}

fn answer_to(alloc: Global, question: &[u8], first: &[u8], second: &[u8]) -> io::Result<Vec<u8>> {
    if question == b"status".as_slice() {
        told(alloc, status_of_texts(alloc, first, second, false))
    } else if question == b"run".as_slice() {
        told(alloc, run_of_texts(alloc, first, second, false))
    } else if question == b"trace".as_slice() {
        told(alloc, trace(alloc, first, second))
    } else if question == b"audit".as_slice() {
        told(alloc, audit(alloc, first, second))
    } else if question == b"copies".as_slice() {
        told(alloc, copies(alloc, first, second))
    } else if question == b"list".as_slice() {
        told(alloc, build_list(alloc, first))
    } else {
        Ok(Vec::new(alloc))
    }
}

// The bytes of a word, or none where it isn't hexadecimal.
fn bytes_of(alloc: Global, word: &[u8]) -> Vec<u8> {
    match hex::decode(alloc, word) {
        Ok(bytes) => bytes,
        Err(_) => Vec::new(alloc),
    }
}

fn audit(alloc: Global, listing: &[u8], list: &[u8]) -> Result<Vec<u8>, Refusal> {
    let verdict = audit_of_texts(alloc, listing, list, false)?;
    let text = verdict_text(alloc, verdict)?;
    Ok(text.into_bytes())
}

fn told(alloc: Global, answer: Result<Vec<u8>, Refusal>) -> io::Result<Vec<u8>> {
    match answer {
        Ok(text) => Ok(text),
        Err(refusal) => refused(alloc, refusal),
    }
}

fn refused(alloc: Global, refusal: Refusal) -> io::Result<Vec<u8>> {
    let mut out = Vec::new(alloc);
    writeln!(out, "{} at {}", refusal.number, refusal.place.unwrap_or(0))?;
    Ok(out)
}
