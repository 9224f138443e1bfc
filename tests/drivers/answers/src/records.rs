//! Records and builds. Digits alone are a text in hexadecimal, and what it is as a whole and what
//! stands at its front is answered: of a record its path, digest and length, and the length of what
//! its copy writes; else the number of the refusal and its place.
//!
//! - `build` and digits ask the same of a build: its unit, how many packages, and the lengths.
//! - `same`, digits, a blank and digits ask whether two builds say the same.
//! - `make 4194158` and `make 4194159` ask for the record that is made of one file of so many
//!   bytes.
//! - `full` and a file's name ask for the text of a record with a line of each kind and that file.
//! - `fields` and digits ask for the name, the host, the claim's round and member, and how many
//!   dependencies, paths to run and files a record has.
//! - `pair` and a file's name ask for the text of the build of two packages, of which the first has
//!   that file.
use crate::packages;
use crate::text::Text;
use crate::words::{first_bytes, first_place, first_word};
use package_record::{Build, Record};

pub fn answer(line: &str, out: &mut Text) {
    let (word, rest) = first_word(line);
    let (text, others) = first_bytes(out.alloc(), rest);
    match word {
        "build" => build(text.as_slice(), out),
        "same" => compared(text.as_slice(), others, out),
        "pair" => packages::put_pair(rest.as_bytes(), out),
        "fields" => fields(text.as_slice(), out),
        "full" => packages::put_full(rest.as_bytes(), out),
        "make" => packages::put_large(first_place(rest).map_or(0, |(bytes, _)| bytes), out),
        digits => record(digits, out),
    }
}

fn record(digits: &str, out: &mut Text) {
    let (text, _) = first_bytes(out.alloc(), digits);
    match Record::parse(out.alloc(), text.as_slice()) {
        Ok(record) => put_record(&record, text.len(), out),
        Err(fault) => out.put_fault(&fault),
    }
    out.put("|");
    match Record::read_first(out.alloc(), text.as_slice()) {
        Ok((record, length)) => put_record(&record, length, out),
        Err(fault) => out.put_fault(&fault),
    }
}

/// What a copy of the record says, and the length of what it writes.
pub fn put_record(record: &Record, length: usize, out: &mut Text) {
    match record.copy() {
        Ok(copy) => {
            out.put_digits(copy.path().as_bytes());
            out.put(" ");
            put_digest(&copy, out);
            out.put_number(" ", length as u64);
            let text = record_text(&copy, out);
            out.put_number(" ", text.len() as u64);
        }
        Err(_) => out.lose(),
    }
}

pub fn put_digest(record: &Record, out: &mut Text) {
    match record.digest() {
        Ok(digest) => out.put_digits(&digest),
        Err(_) => out.lose(),
    }
}

pub fn record_text(record: &Record, out: &mut Text) -> Vec<u8> {
    let mut text = Vec::new(out.alloc());
    if record.write_to(&mut text).is_err() {
        out.lose();
    }
    text
}

pub fn build_text(build: &Build, out: &mut Text) -> Vec<u8> {
    let mut text = Vec::new(out.alloc());
    if build.write_to(&mut text).is_err() {
        out.lose();
    }
    text
}

fn build(text: &[u8], out: &mut Text) {
    match Build::parse(out.alloc(), text) {
        Ok(build) => put_build(&build, text.len(), out),
        Err(fault) => out.put_fault(&fault),
    }
    out.put("|");
    match Build::read_first(out.alloc(), text) {
        Ok((build, length)) => put_build(&build, length, out),
        Err(fault) => out.put_fault(&fault),
    }
}

/// What a copy of the build says, and the length of what it writes.
fn put_build(build: &Build, length: usize, out: &mut Text) {
    match build.copy() {
        Ok(copy) => {
            out.put_digits(copy.unit_path().as_bytes());
            out.put_number(" ", copy.packages().len() as u64);
            out.put_number(" ", length as u64);
            let text = build_text(&copy, out);
            out.put_number(" ", text.len() as u64);
        }
        Err(_) => out.lose(),
    }
}

/// Whether the builds that two texts are say the same.
fn compared(text: &[u8], digits: &str, out: &mut Text) {
    match Build::parse(out.alloc(), text) {
        Ok(build) => compared_with(&build, digits, out),
        Err(fault) => out.put_fault(&fault),
    }
}

fn compared_with(build: &Build, digits: &str, out: &mut Text) {
    let (text, _) = first_bytes(out.alloc(), digits);
    match Build::parse(out.alloc(), text.as_slice()) {
        Ok(other) if build.is_same(&other) => out.put("same"),
        Ok(_) => out.put("different"),
        Err(fault) => out.put_fault(&fault),
    }
}

/// What the record says of its build, and how many dependencies, paths to run and files it has.
fn fields(text: &[u8], out: &mut Text) {
    match Record::parse(out.alloc(), text) {
        Ok(record) => put_fields(&record, out),
        Err(fault) => out.put_fault(&fault),
    }
}

fn put_fields(record: &Record, out: &mut Text) {
    let claim = record.claim();
    out.put_digits(record.name().as_bytes());
    out.put_number(" ", u64::from(record.host()));
    out.put_number(" ", claim.round);
    out.put_number(" ", u64::from(claim.member));
    out.put_number(" ", record.built().len() as u64);
    out.put_number(" ", record.run().len() as u64);
    out.put_number(" ", record.files().len() as u64);
}
