//! Datagrams and notes. Texts are in hexadecimal.
//!
//! - `datagram` and a text: `whole` or `piece` and how long it is, if a copy of what was read is
//!   written so again; else the number of the refusal.
//! - `note` and a text: how long it is, likewise, or the number of the refusal.
//! - `cuts` and a text: whether each proper beginning is refused as one that ends early.
//! - `changes` and a text: whether with each of its bytes changed to each other, it is refused or
//!   is read as a datagram that is written so.
//! - `propose` or `agreed`, and 3, 69856 or 4194158: the lengths of the datagrams in which member 0
//!   says so of a build with a file of so many bytes, and whether they join to it from the last on.
//! - `make`, `split`, `encode`, `decode` or `join`: whether a build of 4 MiB can be made, and
//!   split, and from there on written as datagrams, read again, or joined.
//! - `zeros` and 65507 or 65508 ask what a datagram of so many bytes of 0 is.
ghost use Rattle.std.specs.Prelude.{◌≡◌, ◌<◌, length, vec_len};
ghost use Rattle.wire.specs.Messages.{IsNote};
ghost use Rattle.wire.specs.Pieces.{IsDatagram};

use crate::pieces;
use crate::text::Text;
use crate::words::{first_bytes, first_place, first_word};
use ballots::Note;
use faults::Memory;
use std::alloc::Global;
use wire::{Datagram, WireFault, decode, decode_note, encode, encode_note};

pub fn answer(line: &str, out: &mut Text) {
    let (word, rest) = first_word(line);
    match word {
        "datagram" | "note" | "cuts" | "changes" => of_text(word, rest, out),
        "propose" | "agreed" => pieces::sent(word == "propose", number_of(rest), out),
        "zeros" => zeros(number_of(rest), out),
        "make" | "split" | "encode" | "decode" | "join" => {
            put_so(pieces::passes(out.alloc(), word), out);
        }
        _ => out.put("no question"),
    }
}

/// The number that the digits write, or 0.
fn number_of(digits: &str) -> usize {
    match first_place(digits) {
        Some((number, _)) => number,
        None => 0,
    }
}

fn put_so(so: bool, out: &mut Text) {
    out.put(if so { "yes" } else { "no" });
}

fn of_text(word: &str, digits: &str, out: &mut Text) {
    let (mut text, _) = first_bytes(out.alloc(), digits);
    match word {
        "datagram" => datagram(text.as_slice(), out),
        "note" => note(text.as_slice(), out),
        "cuts" => put_so(are_cuts_refused(out.alloc(), text.as_slice()), out),
        _ => put_so(are_changes_told(out.alloc(), text.as_mut_slice()), out),
    }
}

fn datagram(text: &[u8], out: &mut Text) {
    match decode(out.alloc(), text) {
        Ok(datagram) => put_datagram(&datagram, text, out),
        Err(fault) => out.put_fault(&fault),
    }
}

fn put_datagram(datagram: &Datagram, text: &[u8], out: &mut Text)
    requires { IsDatagram datagram.now }
{
    match datagram {
        _ if !is_written_so(datagram, out.alloc(), text) => out.put("another text"),
        Datagram::Whole(_) => out.put_number("whole ", text.len() as u64),
        Datagram::Piece(_) => out.put_number("piece ", text.len() as u64),
    }
}

/// What so many bytes of 0 are.
fn zeros(count: usize, out: &mut Text) {
    match vec![in out.alloc(); 0u8; count] {
        Ok(text) => datagram(text.as_slice(), out),
        Err(_) => out.lose(),
    }
}

/// Whether a copy of the datagram is written so.
fn is_written_so(datagram: &Datagram, alloc: Global, text: &[u8]) -> bool
    requires { IsDatagram datagram.now }
{
    let mut own = Vec::new(alloc);
    match datagram.copy() {
        Ok(copy) => encode(&copy, &mut own).is_ok() && own.as_slice() == text,
        Err(Memory) => false,
    }
}

fn note(text: &[u8], out: &mut Text) {
    match decode_note(out.alloc(), text) {
        Ok(note) => put_note(&note, text, out),
        Err(fault) => out.put_fault(&fault),
    }
}

fn put_note(note: &Note, text: &[u8], out: &mut Text)
    requires { IsNote note.now }
{
    let mut own = Vec::new(out.alloc());
    match note.copy() {
        Ok(copy) if encode_note(&copy, &mut own).is_ok() && own.as_slice() == text => {
            out.put_number("", text.len() as u64);
        }
        Ok(_) => out.put("another text"),
        Err(Memory) => out.lose(),
    }
}

/// Whether each proper beginning of the text is refused as one that ends early.
fn are_cuts_refused(alloc: Global, text: &[u8]) -> bool {
    for length in 0..text.len() {
        if !matches!(decode(alloc, &text[..length]), Err(WireFault::Truncated)) {
            return false;
        }
    }
    true
}

/// Whether each text that differs in one byte is refused, or read as what is written so.
fn are_changes_told(alloc: Global, text: &mut [u8]) -> bool {
    for place in 0..text.len() {
        let byte = text[place];
        if !is_each_told(alloc, text, place) {
            return false;
        }
        text[place] = byte;
    }
    true
}

fn is_each_told(alloc: Global, text: &mut [u8], place: usize) -> bool
    requires { place < length text.old }
    ensures { length text.new ≡ length text.old }
{
    for byte in 0..=255 {
        text[place] = byte;
        if !is_told(alloc, text) {
            return false;
        }
    }
    true
}

fn is_told(alloc: Global, text: &[u8]) -> bool {
    match decode(alloc, text) {
        Ok(datagram) => is_written_so(&datagram, alloc, text),
        Err(WireFault::Memory) => false,
        Err(_) => true,
    }
}
